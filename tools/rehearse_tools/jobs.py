"""The jobs of a sweep over many machines: their commands, what each of them runs, and what they left together.

The tools import it; it is not a command. docs/SWEEPS.md shows users how.
"""
from __future__ import annotations

import os
import shlex

from .console import Fault, check_output, make_folder, path_of, print_text, read_bytes, refuse, shown, tell
from .results import (WINDOW, Collection, Head, Rows, Share, checksum, checksum_of_scripts, collected, files_in,
                      left_of, name_of, ranges_of, read_result, shares_left, text_at, write_result)
from .runs import COLUMNS
from .scenarios import names_of
from .variants import Sweep, Told

# How many variants that are left are named.
LEFT_MOST = 40


def scripts_of(sweep: Sweep) -> dict[str, bytes]:
    """The scripts that some variant may read, by their names."""
    return {name: read_bytes(path) for name, path in sweep.script_paths().items()}


def head_of(sweep: Sweep, program: str) -> Head:
    """The data that distinguish the sweep from others, run by the program at a path."""
    refuse(sweep.path == "-", "jobs read the scenario from a file, and not from standard input")
    return Head(checksum(sweep.given_text), checksum_of_scripts(scripts_of(sweep)),
                checksum(read_bytes(program)), tuple(sweep.settings.given), len(sweep.settings),
                len(names_of(sweep.scenario, "queue")), window_of(sweep))


def window_of(sweep: Sweep) -> tuple[tuple[str, str], ...]:
    """What is counted of each run, as the head of a result has it."""
    return tuple((word, str(moment)) for word, moment in zip(WINDOW, sweep.window) if moment is not None)


def command(sweep: Sweep, share: Share, folder: str, mark: str) -> str:
    """The shell command that runs a share and writes its file."""
    words = [path_of("sweep"), os.path.abspath(sweep.path)]
    for kind, setting in (*sweep.settings.given, *window_of(sweep)):
        words += [f"--{kind}", setting]
    words += [*(["--v3"] if sweep.reads_version_3 else []), "--program", sweep.program,
              "--scripts", os.path.abspath(sweep.scripts), "--share", f"{share.number}/{share.of}", "--mark", mark,
              "--results", os.path.abspath(folder)]
    for word in words:
        refuse("\n" in word, f"a job is one line, and {shown(word)} has a line end")
    return shlex.join(words)


def variants_left(head: Head, folder: str) -> list[int]:
    """The numbers of the variants that no whole file of this sweep in the folder has."""
    if not os.path.isdir(folder):
        return left_of(head.variants, ())
    collection = collected(files_in(folder), head.mark)
    return collection.left if collection.head else left_of(head.variants, ())


def print_jobs(sweep: Sweep, head: Head, folder: str, of: int, is_rest: bool) -> None:
    """Prints a command for each share out of `of`, with `is_rest` only for those of which something is left, by the
    folder of the results."""
    left = variants_left(head, folder) if is_rest else left_of(head.variants, ())
    for number in shares_left(left, of):
        print_text(command(sweep, Share(number, of), folder, head.mark) + "\n")


def run_share(sweep: Sweep, head: Head, share: Share, folder: str, jobs: int) -> int:
    """Runs a share whose file is not there yet, and returns the status of the tool.

    An interrupted share leaves no file. A variant whose program was ended by a signal is left out of it.
    """
    path = os.path.join(folder, name_of(share, head.mark))
    make_folder(folder)
    check_output(path)
    numbers = share.variants(head.variants)
    found = whole_rows(path, numbers)
    if found is not None:
        failed = sum(bool(of_variant[0][len(sweep.places)]) for of_variant in found.values())
        tell(f"{path} is there already" + (f", in which {failed} of {len(numbers)} variants failed" if failed else ""))
        return 1 if failed else 0
    rows, is_failed, has_lost = {}, False, False
    for number, outcome in sweep.outcomes(numbers, jobs, Told(len(numbers))):
        is_failed = is_failed or outcome.is_failed(len(sweep.places))
        if outcome.is_lost:
            has_lost = True
            tell(f"variant {number} is left, as its run was {outcome.rows[0][len(sweep.places)]}")
        else:
            rows[number] = outcome.rows
    if sweep.interrupted:
        return 130
    if rows or not numbers:
        write_result(folder, share, head, sweep.header(), rows)
    return 1 if is_failed or has_lost else 0


def whole_rows(path: str, numbers: range) -> Rows | None:
    """The rows of a file that has all variants of a share; None if there is no such file."""
    try:
        rows = read_result(os.path.basename(path), text_at(path)).rows
    except Fault:
        return None
    return rows if len(rows) == len(numbers) else None


def collect(folder: str, mark: str | None) -> tuple[Collection, Head]:
    """The rows that jobs wrote, and their head. A file that is refused and variants that are left are reported on
    standard error."""
    collection = collected(files_in(folder), mark)
    if collection.head is None:
        raise Fault(f"{folder} has no whole result of {'a sweep' if mark is None else f'the sweep {shown(mark)}'}"
                    + "".join(f": {fault}" for fault in collection.faults[:1]))
    if collection.columns[len(collection.head.settings) + 2:] != COLUMNS:
        raise Fault(f"the results in {folder} are of another version of the program, whose report has other columns")
    for fault in collection.faults:
        tell(fault)
    left = collection.left
    if left:
        more = ", .." if len(left) > LEFT_MOST else ""
        tell(f"{len(left)} of {collection.head.variants} variants are left: {ranges_of(left[:LEFT_MOST])}{more}")
    return collection, collection.head
