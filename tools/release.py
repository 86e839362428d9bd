"""Makes dist/: the program that was built, packed, and the manifest, which names what it was made from.
tools/package imports it; it is not a command."""
from __future__ import annotations

import gzip
import hashlib
import io
import os
import subprocess

from rehearse_tools.console import Fault, read_bytes, read_text, refuse, write_bytes
from crate_list import newest_source
from rehearse_tools.programs import TOP, program_itself

DIST = os.path.join(TOP, "dist")
MANIFEST = os.path.join(DIST, "manifest")
PACKED = "sqs_rehearse-x86_64-linux.gz"
BUILT = os.path.join(TOP, "crates", "sqs_rehearse", "out", "sqs_rehearse")
# Bytes 18 and 19 of an ELF file are the number of its kind of machine.
X86_64 = b"\x3e\0"
TEXT = """# What {packed} has in it: CONTRIBUTING.md, "A release", says how it is made.
version {version}
kit {kit}
sources {sources}
program {program}
"""
PAGE = os.path.join(DIST, "playground.html")


def packed(data: bytes, moment: float = 0) -> bytes:
    """Bytes packed by gzip; the same bytes give the same."""
    stream = io.BytesIO()
    with gzip.GzipFile(fileobj=stream, mode="wb", compresslevel=9, mtime=moment, filename="") as file:
        file.write(data)
    return stream.getvalue()


def sum_of(data: bytes) -> str:
    return hashlib.sha256(data).hexdigest()


def built_program() -> str:
    """The path of the program that ./sqs_rehearse has built from the sources as they are."""
    refuse(not os.path.exists(BUILT), "the program is not built yet: ./sqs_rehearse --build builds it")
    moment, path = newest_source([os.path.join(TOP, "crates")])
    if moment > os.stat(BUILT).st_mtime:
        raise Fault(f"{os.path.relpath(path, TOP)} is newer than the program: ./sqs_rehearse --build builds it anew")
    return BUILT


def printed_by(command: list[str]) -> bytes:
    """What a command prints."""
    try:
        ran = subprocess.run(command, stdin=subprocess.DEVNULL, capture_output=True)
    except OSError as error:
        raise Fault(f"cannot run {command[0]}: {error.strerror}") from None
    refuse(ran.returncode, f"{' '.join(command)} ends with status {ran.returncode}")
    return ran.stdout


def manifest_of(data: bytes) -> bytes:
    """The manifest of a program that was built from the sources as they are."""
    return TEXT.format(packed=PACKED, version=read_text(os.path.join(TOP, "tools", "VERSION")).strip(),
                       kit=printed_by(["rt", "version"]).decode().strip(), program=sum_of(data),
                       sources=sum_of(printed_by([os.path.join(TOP, "tools", "sources")]))).encode() + page_line()


def page_line() -> bytes:
    """The line of the manifest that names the page of dist/, if there is one."""
    return f"page {sum_of(read_bytes(PAGE))}\n".encode() if os.path.exists(PAGE) else b""


def name_page() -> None:
    """Names the page of dist/ in the manifest, as it is now."""
    kept = [line for line in read_bytes(MANIFEST).splitlines(keepends=True) if not line.startswith(b"page ")]
    write_bytes(MANIFEST, b"".join(kept) + page_line())


def make(given: str | None) -> str:
    """Makes dist/ anew from a program, or from the one that was built; gives a line on what was done."""
    data = read_bytes(program_itself(given) if given else built_program())
    refuse(data[:4] != b"\x7fELF" or data[18:20] != X86_64, f"{given or BUILT} is no program for Linux on x86-64")
    made = {os.path.join(DIST, PACKED): packed(data), MANIFEST: manifest_of(data)}
    if all(os.path.exists(path) and read_bytes(path) == new for path, new in made.items()):
        return "dist/ has this program and its manifest already"
    try:
        os.makedirs(DIST, exist_ok=True)
    except OSError as error:
        raise Fault(f"cannot write {DIST}: {error.strerror}") from None
    for path, new in made.items():
        write_bytes(path, new)
    return f"dist/ has the program {sum_of(data)} now, packed into {len(made[os.path.join(DIST, PACKED)]):,} bytes"


def manifest_for(data: bytes) -> bytes | None:
    """The manifest of dist/ if it is of this program, else None."""
    if not os.path.exists(MANIFEST):
        return None
    manifest = read_bytes(MANIFEST)
    return manifest if f"program {sum_of(data)}".encode() in manifest.splitlines() else None
