/* Refuses one request for memory: with FAIL_AT=N in the environment the Nth call of malloc or realloc, of
   whatever thread, answers that there is none. */
#define _GNU_SOURCE
#include <dlfcn.h>
#include <stdatomic.h>
#include <stdlib.h>

static atomic_long left;

__attribute__((constructor)) static void begin(void)
{
    const char *at = getenv("FAIL_AT");
    atomic_store(&left, at ? atol(at) : 0);
}

static int is_refused(void)
{
    return atomic_load(&left) > 0 && atomic_fetch_sub(&left, 1) == 1;
}

void *malloc(size_t size)
{
    static void *(*_Atomic next)(size_t);
    if (!next)
        next = (void *(*)(size_t))dlsym(RTLD_NEXT, "malloc");
    return is_refused() ? NULL : next(size);
}

void *realloc(void *block, size_t size)
{
    static void *(*_Atomic next)(void *, size_t);
    if (!next)
        next = (void *(*)(void *, size_t))dlsym(RTLD_NEXT, "realloc");
    return is_refused() ? NULL : next(block, size);
}
