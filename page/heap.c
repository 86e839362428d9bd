// What the page's module has beside the proved code: the heap that std's Global calls, over memory from __heap_base on,
// and the exports. The kit's libc/c/heap.c does the same over malloc. No proof covers this file.
typedef unsigned long u64;
typedef unsigned char u8;
typedef struct { u64 ok; u8 *p; } Tried;
// 16 bytes before each block, which is of a size class. A block that was freed waits for the next of its class.
typedef struct Head { u64 class; struct Head *next; } Head;

extern u8 __heap_base;
static u8 *top;
static Head *spare[256];

// Four classes for each power of two from 32 on, and how large a block of a class is with its head.
static u64 class_of(u64 n) {
    if (n <= 32) return 0;
    u64 bits = 63 - __builtin_clzll(n - 1);               // 2^bits < n <= 2^(bits+1)
    u64 quarter = (n - 1) >> (bits - 2) & 3;
    return (bits - 5) * 4 + quarter + 1;
}
static u64 size_of(u64 class) {
    if (class == 0) return 32;
    u64 bits = (class - 1) / 4 + 5, quarter = (class - 1) % 4;
    return (u64)(5 + quarter) << (bits - 2);
}

// All addresses stay below MOST, since the module is lowered to one with a 32-bit memory. There a growth that is
// refused answers 2^32 - 1. An address below 0, as of a stack that is used up, is past the end there, and traps.
#define MOST ((u64)3 << 30)
static _Bool grow(u64 pages) { return (unsigned)__builtin_wasm_memory_grow(0, pages) != 0xffffffff; }
static _Bool has_room(u8 *end) {
    u64 pages = __builtin_wasm_memory_size(0), bytes = pages << 16;
    if ((u64)end <= bytes) return 1;
    if ((u64)end > MOST) return 0;
    u64 more = ((u64)end - bytes + 65535) >> 16;
    // an eighth more at once, where there is as much
    u64 ahead = pages + pages / 8 < MOST >> 16 ? pages / 8 : 0;
    return (ahead > more && grow(ahead)) || grow(more);
}

// A block of n bytes, 16-aligned; 0 where memory is refused.
static u8 *take(u64 n) {
    if (n > (u64)1 << 40) return 0;
    u64 class = class_of(n + 16);
    Head *head = spare[class];
    if (head) {
        spare[class] = head->next;
        return (u8 *)(head + 1);
    }
    if (!top) top = (u8 *)(((u64)&__heap_base + 15) & ~(u64)15);
    u64 size = (size_of(class) + 15) & ~(u64)15;
    if (!has_room(top + size)) return 0;
    head = (Head *)top;
    top += size;
    head->class = class;
    return (u8 *)(head + 1);
}

// The three calls of std's Global. No type of the code is aligned to more than 16 bytes.
void rattle_dealloc(u8 *p) {
    if (!p) return;
    Head *head = (Head *)p - 1;
    head->next = spare[head->class];
    spare[head->class] = head;
}
Tried rattle_alloc(u64 n, u64 align) {
    if (align > 16) return (Tried){0, 0};
    u8 *p = take(n);
    return (Tried){p != 0, p};
}
Tried rattle_realloc(u8 *p, u64 kept, u64 n, u64 align) {
    Head *head = (Head *)p - 1;
    if (n < (u64)1 << 40 && class_of(n + 16) == head->class) return (Tried){1, p};
    Tried tried = rattle_alloc(n, align);
    if (!tried.ok) return tried;
    __builtin_memcpy(tried.p, p, kept < n ? kept : n);
    rattle_dealloc(p);
    return tried;
}

// The exports: room for so many bytes, 0 where memory is refused; a rehearsal; and a comparison of two. One that traps
// leaves memory half written. The helpers of rattle-link say whether one is under way, so that a call after it traps
// too. Scenarios of version 3 are read only if `version_3` is true, and figures are written only if they are asked for.
// Of the script files, `files` has the name of each and the file behind it, and `lengths` how long both are.
_Bool __rattle_enter(void);
void __rattle_leave(void);
void __rattle_trap(void);
typedef struct { u64 name, file; } Lengths;
typedef struct { _Bool version_3, figures; u64 from, until, backlog, window; } Options;
unsigned sqs_page_rehearse_with_files(const Options *options, const u8 *text, u64 length, const u8 *files, u64 bytes,
                                      const Lengths *lengths, u64 count, u8 *room, u64 size, u64 *needed);
unsigned sqs_page_compare(_Bool version_3, const u8 *first, u64 first_length, const u8 *second, u64 second_length,
                          const u8 *files, u64 bytes, const Lengths *lengths, u64 count, u8 *room, u64 size,
                          u64 *needed);

__attribute__((export_name("room"))) u8 *room(u64 n) { return take(n); }

__attribute__((export_name("rehearse")))
unsigned rehearse(const Options *options, const u8 *text, u64 length, const u8 *files, u64 bytes,
                  const Lengths *lengths, u64 count, u8 *room, u64 size, u64 *needed) {
    if (__rattle_enter()) __rattle_trap();
    unsigned answer = sqs_page_rehearse_with_files(options, text, length, files, bytes, lengths, count, room, size,
                                                   needed);
    __rattle_leave();
    return answer;
}

__attribute__((export_name("compare")))
unsigned compare(unsigned version_3, const u8 *first, u64 first_length, const u8 *second, u64 second_length,
                 const u8 *files, u64 bytes, const Lengths *lengths, u64 count, u8 *room, u64 size, u64 *needed) {
    if (__rattle_enter()) __rattle_trap();
    unsigned answer = sqs_page_compare(version_3 != 0, first, first_length, second, second_length, files, bytes,
                                       lengths, count, room, size, needed);
    __rattle_leave();
    return answer;
}
