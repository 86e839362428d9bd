"""Builds the module of the page: the proved code of the crate sqs_page as WebAssembly. tools/page imports it; it is not
a command.

What rests on the insides of a kit is in this file alone, and it ends in one line where another kit is. The kit links no
heap for WebAssembly yet, so the way is this:

1. `captured`: rattle checks the crate and lowers it for x86-64, as `rt lib` does. It is given a toolchain whose clang
   keeps the bitcode that rattle hands to it, and then does its work.
2. `compiled`: that bitcode, which has no code of that processor alone, is given the layout of wasm64, whose pointers
   and numbers are as wide, and compiled by the kit's clang with the flags that rattle has for wasm64.
3. `linked`: rattle-link links it with page/heap.c, the heap that the proved code asks for and the three exports.
4. `without_table`: the module has an empty table with 64-bit places, which most engines cannot read; it is taken out.
5. `lowered`: wasm-opt makes the memory one of 32 bits, which all engines have. So heap.c gives no address past 3 GiB.

No proof covers steps 2 to 5, nor the lowering and compiling in step 1. The tests compare all stored cases.
"""
import importlib.machinery
import importlib.util
import io
import os
import re
import shutil
import subprocess
import sys
import tempfile
from collections.abc import Iterator, Sequence
from typing import Any

from rehearse_tools.console import Fault, read_bytes, read_text, refuse, write_bytes
from rehearse_tools.programs import TOP

# The kits whose insides this file knows.
KITS = ("rattle-kit-13b logic dac8208d650f15bf", "rattle-kit-13f logic dac8208d650f15bf")
CRATE = "sqs_page"
SIGN = b"\0asm"
# Code for x86-64 alone. An empty text of assembler is none: it only keeps reads and writes of memory in their order.
PROCESSOR_ALONE = re.compile(r'@llvm\.x86|\basm (?!sideeffect "", )')
TRIPLE = "wasm64-unknown-unknown"
LAYOUT = "e-m:e-p:64:64-p10:8:8-p20:8:8-i64:64-i128:128-n32:64-S128-ni:1:10:20"
# What rattle gives to clang for wasm64.
FLAGS = ("-mcpu=lime1 -mllvm -expand-div-rem-bits=64 -mllvm -expand-fp-convert-bits=64 -ffunction-sections "
         "-fdata-sections -mllvm -trap-unreachable -mllvm -no-x86-call-frame-opt -mllvm -disable-machine-licm "
         "-mllvm -disable-postra-machine-licm -mllvm -sink-common-insts=false --no-default-config "
         "-no-canonical-prefixes -fno-crash-diagnostics").split()
C_FLAGS = "-mcpu=lime1 -O2 -ffreestanding -nostdinc -Wall -Werror".split()
STACK = 4 << 20
OPTIMIZE = ("--enable-memory64 --enable-bulk-memory --enable-sign-ext --enable-mutable-globals "
            "--enable-nontrapping-float-to-int --enable-multivalue --memory64-lowering --strip-debug "
            "--strip-producers").split()
IMPORTS, TABLES, EXPORTS, ELEMENTS = 2, 4, 7, 9
EXPORTED = {"memory", "__heap_base", "room", "rehearse", "compare"}


def done(words: Sequence[str], folder: str) -> str:
    """What a command prints; a fault with its last line if it fails."""
    try:
        ran = subprocess.run(words, cwd=folder, stdin=subprocess.DEVNULL, capture_output=True, text=True)
    except OSError as error:
        raise Fault(f"cannot run {words[0]}: {error.strerror}") from None
    if ran.returncode:
        told = (ran.stderr or ran.stdout).strip().split("\n")
        raise Fault(f"{os.path.basename(words[0])} does not make the module of the page: {told[-1]}")
    return ran.stdout


def kit_folder() -> str:
    """The folder of the kit, which must be one that this file knows."""
    rt = shutil.which("rt")
    if rt is None:
        raise Fault("rt is missing: the kit has it; --module takes a module that was built")
    line = done([rt, "version"], TOP).strip()
    if line not in KITS:
        raise Fault(f"{line} is here, and tools/page_module.py is for {' or '.join(KITS)}: "
                    "--module takes a module that was built")
    refuse(shutil.which("wasm-opt") is None, "wasm-opt is missing: Debian's package binaryen has it")
    return os.path.dirname(os.path.dirname(os.path.realpath(rt)))


def words_of_crate(kit: str) -> list[str]:
    """What `rt lib` gives to `rattle build` for the crate, so that it uses what earlier checks kept."""
    loader = importlib.machinery.SourceFileLoader("rtlib", f"{kit}/bin/rtlib.py")
    rtlib: Any = importlib.util.module_from_spec(importlib.util.spec_from_loader("rtlib", loader) or sys.exit(2))
    sys.modules["rtlib"] = rtlib
    is_written, sys.dont_write_bytecode = sys.dont_write_bytecode, True
    before = os.getcwd()
    folder = os.path.join(TOP, "crates", CRATE)
    try:
        loader.exec_module(rtlib)
        os.chdir(folder)
        crate = rtlib.Crate(folder, TOP, {})
        crate.out = io.StringIO()
        return [*crate.words([]), *rtlib.KEPT]
    finally:
        os.chdir(before)
        sys.dont_write_bytecode = is_written


def captured(kit: str, work: str) -> str:
    """Has rattle check and lower the crate, and gives the path of the bitcode that it made."""
    bitcode, bin_folder = os.path.join(work, "module.bc"), os.path.join(work, "toolchain", "bin")
    os.makedirs(bin_folder)
    os.symlink(f"{kit}/toolchain/lib", os.path.join(work, "toolchain", "lib"))
    for name in ("ld.lld", "llvm-ar", "rattle-x64"):
        os.symlink(f"{kit}/toolchain/bin/{name}", os.path.join(bin_folder, name))
    script = (f'#!/bin/sh\nif [ -f module.bc ]; then cp module.bc "{bitcode}"; fi\n'
              f'exec "{kit}/toolchain/bin/clang" "$@"\n')
    clang = os.path.join(bin_folder, "clang")
    write_bytes(clang, script.encode())
    os.chmod(clang, 0o755)
    done([f"{kit}/bin/rattle", "build", *words_of_crate(kit), "--cpu", "x86-64", "--toolchain",
          os.path.join(work, "toolchain"), "--backend", "llvm", "-o", os.path.join(work, "lib.a")],
         os.path.join(TOP, "crates", CRATE))
    refuse(not os.path.exists(bitcode), "rattle gave no bitcode to clang: tools/page_module.py is to be mended")
    return bitcode


def compiled(kit: str, work: str, bitcode: str) -> str:
    """The bitcode as an object for wasm64; gives its path."""
    clang, read, turned = (os.path.join(*path) for path in (
        (kit, "toolchain", "bin", "clang"), (work, "x86.ll"), (work, "module.ll")))
    done([clang, "--target=x86_64-unknown-linux-gnu", "-x", "ir", bitcode, "-S", "-emit-llvm", "-Xclang",
          "-disable-llvm-passes", "-o", read], work)
    text = read_text(read)
    refuse(PROCESSOR_ALONE.search(text), "the bitcode of the crate has code for x86-64 alone")
    for pattern, new in ((r"^target datalayout = .*", f'target datalayout = "{LAYOUT}"'),
                         (r"^target triple = .*", f'target triple = "{TRIPLE}"')):
        text = re.sub(pattern, new, text, flags=re.M)
    lines = (with_attributes(line) if line.startswith("attributes #") else line for line in text.split("\n"))
    write_bytes(turned, "\n".join(lines).encode())
    made = os.path.join(work, "module.o")
    done([clang, f"--target={TRIPLE}", *FLAGS, "-Wno-override-module", "-O3", "-c", "-x", "ir", turned, "-o", made],
         work)
    return made


def with_attributes(line: str) -> str:
    """A line of attributes of functions with those of the other processor."""
    line = re.sub('"target-cpu"="[^"]*"', '"no-builtin-bcmp" "no-builtin-memcmp" "no-builtin-strlen" '
                  '"target-cpu"="lime1"', line)
    return re.sub(' "target-features"="[^"]*"', "", line)


def linked(kit: str, work: str, made: str) -> bytes:
    """The module of the object and of page/heap.c."""
    heap, archive, module = (os.path.join(work, name) for name in ("heap.o", "libpage.a", "table.wasm"))
    done([f"{kit}/toolchain/bin/clang", f"--target={TRIPLE}", *C_FLAGS, "-c", os.path.join(TOP, "page", "heap.c"), "-o",
          heap], work)
    done([f"{kit}/toolchain/bin/llvm-ar", "rcsD", archive, os.path.basename(made), os.path.basename(heap)], work)
    done([f"{kit}/bin/rattle-link", "--target", TRIPLE, "--toolchain", f"{kit}/toolchain", "--stack", str(STACK), "-o",
          module, archive], work)
    return read_bytes(module)


def number_at(data: bytes, at: int) -> tuple[int, int]:
    """A number of a module, seven bits in a byte, and where the next begins."""
    value = shift = 0
    while True:
        byte = data[at]
        at += 1
        value |= (byte & 127) << shift
        shift += 7
        if byte < 128:
            return value, at


def sections(module: bytes) -> Iterator[tuple[int, bytes, bytes]]:
    """The sections of a module: the number of each, all of its bytes, and those of its contents."""
    at = len(SIGN) + 4
    while at < len(module):
        length, body = number_at(module, at + 1)
        yield module[at], module[at:body + length], module[body:body + length]
        at = body + length


def without_table(module: bytes) -> bytes:
    """The module without its table, which nothing fills."""
    kept = [module[:len(SIGN) + 4]]
    for number, whole, _ in sections(module):
        refuse(number == ELEMENTS, "the table of the module is filled: tools/page_module.py is to be mended")
        if number != TABLES:
            kept.append(whole)
    return b"".join(kept)


def exports_of(module: bytes) -> set[str]:
    """The names that a module exports."""
    names = set()
    for number, _, contents in sections(module):
        count, at = number_at(contents, 0) if number == EXPORTS else (0, 0)
        for _ in range(count):
            length, at = number_at(contents, at)
            names.add(contents[at:at + length].decode())
            _, at = number_at(contents, at + length + 1)
    return names


def lowered(work: str, module: bytes) -> bytes:
    """The module with a memory of 32 bits."""
    wide, narrow = os.path.join(work, "wide.wasm"), os.path.join(work, "narrow.wasm")
    write_bytes(wide, module)
    done(["wasm-opt", *OPTIMIZE, wide, "-o", narrow], work)
    return read_bytes(narrow)


def built() -> bytes:
    """The module, built from the sources as they are."""
    kit = kit_folder()
    with tempfile.TemporaryDirectory() as work:
        module = linked(kit, work, compiled(kit, work, captured(kit, work)))
        module = lowered(work, without_table(module))
    if any(number == IMPORTS for number, _, _ in sections(module)) or exports_of(module) != EXPORTED:
        raise Fault(f"the module of the page imports something, or exports other than {', '.join(sorted(EXPORTED))}")
    return module
