#!/usr/bin/env python3
"""The stored cases of tests/cases, and a folder with each in files of its own.

    tools/stored_cases.py FOLDER [NAME..]

A case that runs is a file NAME.toml in a folder of tests/cases, with NAME.out beside it: what standard output gets.
Or it stands with others in a file FOLDER.cases: its text behind a line `=== NAME`, and what is printed behind a line
`=== NAME: printed`. The cases that are refused stand together, in a file FOLDER.refusals, each text behind a line
`=== NAME: LINE`, where LINE is what standard error gets. An empty line stands behind each of these. A line
"\\ No newline at end of text" behind a text takes the end of its last line away.

The command writes the cases of these folders, or of all, into FOLDER: NAME.toml with NAME.out or NAME.err. Its last
line says how many.
"""
from __future__ import annotations

import os
import re
import sys
from collections.abc import Iterator, Sequence
from typing import NamedTuple

from rehearse_tools.console import Fault, Parser, ended, print_text, read_bytes, refuse
from rehearse_tools.programs import TOP

CASES = os.path.join(TOP, "tests", "cases")
# The folders and files by the order in which they are run.
RUNNING = ("worked", "by-hand", "one-queue", "networks", "version-2", "version-3")
REFUSED = ("faults", "faulty", "faults-3")
REFUSALS, TOGETHER = ".refusals", ".cases"
HEAD = re.compile(rb"^=== ([\w-]+)(?:: (refused .*|printed))?\n", re.MULTILINE)
PRINTED = b"printed"
CUT = b"\n\\ No newline at end of text\n"


class Case(NamedTuple):
    """A stored case: where it stands, its text, and what the program prints, with its status."""

    folder: str
    name: str
    text: bytes
    printed: bytes
    is_refused: bool

    @property
    def path(self) -> str:
        """Its folder and name, as they are printed."""
        return f"{self.folder}/{self.name}"

    @property
    def is_version_3(self) -> bool:
        """Whether it is of version 3, and run with the word --v3."""
        return self.folder.endswith("-3")

    @property
    def line(self) -> str:
        """The line of its refusal."""
        return self.printed.decode().rstrip("\n")


def cases_in(path: str) -> Iterator[Case]:
    """The cases of a file."""
    folder, end = os.path.splitext(os.path.basename(path))
    before, *parts = HEAD.split(read_bytes(path))
    refuse(before or not parts, f"{path} does not begin with a line '=== NAME{': refused ..' * (end == REFUSALS)}'")
    given = b""
    for name, line, text in zip(parts[::3], parts[1::3], parts[2::3]):
        text = text.removesuffix(b"\n").removesuffix(CUT)
        if line is None:
            given = text
        else:
            is_run = line == PRINTED
            yield Case(folder, name.decode(), given if is_run else text, text if is_run else line + b"\n", not is_run)


def cases_at(path: str) -> Iterator[Case]:
    """The cases of a folder or of a file, in the order of their names."""
    if path.endswith((REFUSALS, TOGETHER)):
        yield from cases_in(path)
        return
    try:
        names = sorted(os.listdir(path))
    except OSError as error:
        raise Fault(f"cannot read {path}: {error.strerror}") from None
    for name in names:
        base, end = os.path.splitext(os.path.join(path, name))
        if end == ".toml":
            yield Case(os.path.basename(path.rstrip("/")), os.path.basename(base), read_bytes(f"{base}.toml"),
                       read_bytes(f"{base}.out"), False)


def stored(*folders: str) -> list[Case]:
    """The stored cases of some folders or files, or of all."""
    return [case for folder in folders or RUNNING + REFUSED for end in ("", REFUSALS, TOGETHER)
            if os.path.exists(path := os.path.join(CASES, folder + end)) for case in cases_at(path)]


def put(case: Case, folder: str) -> str:
    """Writes a case below a folder, and gives the path of its text."""
    base = os.path.join(folder, case.folder, case.name)
    os.makedirs(os.path.dirname(base), exist_ok=True)
    for end, data in ((".toml", case.text), (".err" if case.is_refused else ".out", case.printed)):
        with open(base + end, "wb") as file:
            file.write(data)
    return f"{base}.toml"


def main(words: Sequence[str]) -> int:
    parser = Parser(__doc__)
    parser.add_argument("folder", metavar="FOLDER")
    parser.add_argument("names", nargs="*", metavar="NAME")
    options = parser.parse_args(words)
    cases = stored(*options.names)
    for case in cases:
        put(case, options.folder)
    print_text(f"{len(cases)} cases in {options.folder}\n")
    return 0


if __name__ == "__main__":
    sys.exit(ended(main))
