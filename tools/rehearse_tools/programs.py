"""Finds the program and starts it, for the tools that run it. They import it; it is not a command.

What a tool has started ends with it, whatever ends the tool, SIGKILL too; so does a folder of its own.
"""
from __future__ import annotations

import os
import shutil
import subprocess
import sys
import tempfile
import threading
from argparse import Namespace
from collections.abc import Iterator, Sequence
from contextlib import contextmanager
from typing import IO, Any, Union

from .console import TOOLS, Fault, read_bytes, refuse

TOP = os.path.dirname(TOOLS)
WRAPPER = os.path.join(TOP, "sqs_rehearse")
# What a standard file of the program is: an open file, or subprocess.DEVNULL or PIPE.
File = Union[IO[bytes], int]
# It waits until its input ends, which the tool holds open, then removes a folder, and kills its own group. Signals that
# are sent to all that a person or a scheduler has started do not end it before.
GUARD = """PATH=/usr/bin:/bin; trap '' HUP INT QUIT TERM; read -r line; rm -rf -- "$@"; kill -KILL 0"""


def in_group(group: int) -> dict[str, Any]:
    """What puts a process that starts into a group, or into one of its own if the number is 0."""
    is_known: bool = sys.version_info >= (3, 11)
    return {"process_group": group} if is_known else {"preexec_fn": lambda: os.setpgid(0, group)}


class Guard:
    """A process that waits until this one ends or needs it no more. It then removes a folder, if it has one, and kills
    whatever is in its group. To have each child die with its parent (PR_SET_PDEATHSIG), Python would have to fork for
    each start, which takes longer than a small run."""

    # the one to whose group the programs go that this process starts
    there: "Guard | None" = None
    lock = threading.Lock()

    def __init__(self, *folder: str) -> None:
        self.folder = folder
        self.process = subprocess.Popen(["/bin/sh", "-c", GUARD, "sh", *folder], stdin=subprocess.PIPE, cwd="/",
                                        stdout=subprocess.DEVNULL, stderr=subprocess.DEVNULL, **in_group(0))

    @classmethod
    def group(cls) -> int:
        with cls.lock:
            if cls.there is None or cls.there.process.poll() is not None:
                cls.there = Guard()
            return cls.there.process.pid


@contextmanager
def started(command: Sequence[str], stdin: File, stdout: File, stderr: File,
            folder: str | None = None) -> Iterator["subprocess.Popen[bytes]"]:
    """Starts the program in a folder. It has ended when this is left: an exception kills it."""
    with subprocess.Popen(command, stdin=stdin, stdout=stdout, stderr=stderr, cwd=folder,
                          **in_group(Guard.group())) as process:
        try:
            yield process
        except BaseException:
            process.kill()
            raise


def ran(command: Sequence[str], data: bytes, out: File) -> tuple[int, bytes]:
    """Runs the program over the bytes of a scenario, with its output into a file; returns its status and what is on its
    standard error."""
    with tempfile.TemporaryFile() as scenario:
        scenario.write(data)
        scenario.seek(0)
        with started(command, scenario, out, subprocess.PIPE) as process:
            told = process.communicate()[1]
    return process.returncode, told


@contextmanager
def temporary_folder() -> Iterator[str]:
    """A folder that is removed in the end, also if this process does not come to its end."""
    try:
        place = Guard.there.folder[0] if Guard.there and Guard.there.folder else None
        folder = tempfile.mkdtemp(prefix="sqs_rehearse-", dir=place)
    except OSError as error:
        raise Fault(f"there is no folder for temporary files, which TMPDIR names: {error.strerror}") from None
    if place:
        # the guard of the folder around it removes it in time
        yield folder
        return
    guard = Guard.there = Guard(folder)
    try:
        yield folder
    finally:
        guard.process.communicate()
        Guard.there = None


def is_wrapper(path: str) -> bool:
    """Whether a path is that of the script of the repository."""
    return os.path.exists(WRAPPER) and os.path.samefile(path, WRAPPER)


def run_by_wrapper() -> str:
    """The path of the program that the script of the repository would run; it builds none for a tool."""
    asked = subprocess.run([WRAPPER, "--where"], stdin=subprocess.DEVNULL, capture_output=True, text=True,
                           env={**os.environ, "SQS_REHEARSE_BUILD": "never"})
    told = asked.stderr.strip().removeprefix("sqs_rehearse: ")
    refuse(asked.returncode, told)
    if told:
        print(asked.stderr, end="", file=sys.stderr)
    return asked.stdout.removesuffix("\n")


def named_program(given: str | None) -> str:
    """The path of what is named: the program, or the script of the repository, which finds it on each machine."""
    program = given or os.environ.get("SQS_REHEARSE") or WRAPPER
    found = shutil.which(program)
    if not found:
        raise Fault(f"there is no program {program}")
    return os.path.abspath(found)


def program_of(given: str | None) -> str:
    """The path of the program, which is asked for its help: of the script of the repository, the one that it runs."""
    program = named_program(given)
    found = run_by_wrapper() if is_wrapper(program) else program
    null = subprocess.DEVNULL
    try:
        with started([found, "--help"], null, null, null) as process:
            runs = process.wait() == 0
    except OSError:
        runs = False
    refuse(not runs, f"{given or program} does not run")
    return found


def program_itself(given: str | None) -> str:
    """The path of the program, which is no script."""
    found = program_of(given)
    refuse(not read_bytes(found).startswith(b"\x7fELF"), f"{found} is a script, and not the program itself")
    return found


def version_words(reads_version_3: bool) -> list[str]:
    """The program's word for version 3, if that is asked for. It is the former name of --v3, since --program may name a
    program that was built before it had --v3; each one that reads version 3 knows --preview."""
    return ["--preview"] if reads_version_3 else []


def reading_words(options: Namespace) -> list[str]:
    """The program's options of how a scenario is read, from those of a tool: --scripts, and that for version 3 if --v3
    is given."""
    return [*version_words(options.v3), "--scripts", options.scripts]
