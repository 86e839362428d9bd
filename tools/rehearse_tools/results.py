"""The files in which the jobs of a sweep leave their results, and what is left to run.

All functions but `write_result`, `paths_of`, `text_at` and `files_in` are pure.

A sweep has numbered variants, from 1 on. Share K of N has the variants K, K + N, K + 2 N and so on, so that a job of
one variant is a share as well: number 7 of 200 variants is share 7/200. Its file K-of-N-MARK.csv is CSV:

    sweep,1                      the format
    scenario,SHA256              of the scenario's bytes
    scripts,SHA256               of the names and bytes of its scripts
    program,SHA256               of the program's bytes
    vary,seed=1..20              a line for each setting, as it was given (zip for one that goes with the one before)
    from,600000                  what is counted of each run in milliseconds, if --from or --to was given (to,..)
    variants,200
    queues,2
    variant,seed,failed,queue,sends,..      the columns of the rows
    7,7,,orders,4000,..          for each variant a row for each queue, or one with the reason why it failed
    end,SHA256                   the checksum of all bytes before this line

The mark is eight digits of the checksum of the lines from scenario to queues: whatever changes the results changes it.
A variant that was killed has no rows, so that it is run again.
"""
from __future__ import annotations

import csv
import hashlib
import io
import os
import re
from collections.abc import Iterable, Mapping, Sequence
from typing import NamedTuple

from .console import Fault, csv_text, read_bytes, refuse, shown, write_text

FORMAT = ["sweep", "1"]
SHARE = re.compile("([1-9][0-9]{0,6})/([1-9][0-9]{0,6})")
# What is read of a folder, whose other files are none of a sweep's: those that are being written end in .part.
LIKE_NAME = re.compile(r"[0-9]+-of-.*\.csv")
NAME = re.compile(r"0*([1-9][0-9]{0,6})-of-([1-9][0-9]{0,6})-([0-9a-f]{8})\.csv")
END = re.compile("end,([0-9a-f]{64})")
CHECKSUM = re.compile("[0-9a-f]{64}")
COUNT = re.compile("[1-9][0-9]{0,8}")
# A scenario that is refused may have no queues.
COUNT_OR_NONE = re.compile("0|[1-9][0-9]{0,8}")
NUMBER = re.compile(r"([0-9]+(\.[0-9]+)?)?")
MARK_DIGITS = 8
KINDS = ("vary", "zip")
# The words of the head, behind the settings, that say what of each run is counted, in milliseconds.
WINDOW = ("from", "to")
# The rows of each variant, by its number.
Rows = Mapping[int, Sequence[Sequence[str]]]


class Share(NamedTuple):
    """Every `of`-th variant from `number` on."""
    number: int
    of: int

    def variants(self, total: int) -> range:
        """The numbers of its variants, out of `total`."""
        return range(self.number, total + 1, self.of)

    def has(self, variant: int) -> bool:
        return variant >= self.number and (variant - self.number) % self.of == 0


class Head(NamedTuple):
    """What distinguishes a sweep from others: the checksums of what it read, and the settings as they were given, each
    with vary or zip before it. Also how many variants they make and how many queues each has, and what of each run is
    counted, if not all of it, with from or to before each time."""
    scenario: str
    scripts: str
    program: str
    settings: tuple[tuple[str, str], ...]
    variants: int
    queues: int
    window: tuple[tuple[str, str], ...] = ()

    def records(self) -> list[list[str]]:
        return [["scenario", self.scenario], ["scripts", self.scripts], ["program", self.program],
                *([kind, words] for kind, words in (*self.settings, *self.window)),
                ["variants", str(self.variants)], ["queues", str(self.queues)]]

    @property
    def mark(self) -> str:
        return checksum(csv_text(self.records()))[:MARK_DIGITS]

    def names(self) -> list[str]:
        """The settings without their values."""
        return [words.partition("=")[0] for _, words in self.settings]


class Result(NamedTuple):
    """What a file holds that is whole: `columns` are those of a row without the number of its variant."""
    name: str
    head: Head
    columns: list[str]
    rows: Rows


class Collection(NamedTuple):
    """The rows of all variants in the order of their numbers, a line for each file that was refused, and the numbers of
    the variants that are left. `head` is None if no file is whole."""
    head: Head | None
    columns: list[str]
    rows: list[list[str]]
    faults: list[str]
    left: list[int]


def checksum(data: str | bytes) -> str:
    """The SHA-256 in hexadecimal digits."""
    return hashlib.sha256(data if isinstance(data, bytes) else data.encode("utf-8", "backslashreplace")).hexdigest()


def checksum_of_scripts(scripts: Mapping[str, bytes]) -> str:
    """One checksum of files by their names, in whatever order they are given."""
    return checksum("".join(f"{checksum(name)} {checksum(scripts[name])}\n" for name in sorted(scripts)))


def share_of(text: str) -> Share:
    """The share that is written as 3/50."""
    return share_in(SHARE.fullmatch(text), f"{shown(text)} is no share, as 3/50 for the third of fifty")


def share_in(match: re.Match[str] | None, fault: str) -> Share:
    """The share whose number and count are the first groups of a match; a fault if there is none."""
    if not match or int(match[1]) > int(match[2]):
        raise Fault(fault)
    return Share(int(match[1]), int(match[2]))


def name_of(share: Share, mark: str) -> str:
    """The name of a share's file, with as many digits as sort well."""
    return f"{share.number:0{len(str(share.of))}}-of-{share.of}-{mark}.csv"


def result_text(head: Head, columns: Sequence[str], rows: Rows) -> str:
    """The text of a result file. It is for a share that has finished: an interrupted one leaves no file."""
    records = [[str(variant), *row] for variant in sorted(rows) for row in rows[variant]]
    text = csv_text([FORMAT, *head.records(), ["variant", *columns], *records])
    return f"{text}end,{checksum(text)}\n"


def write_result(folder: str, share: Share, head: Head, columns: Sequence[str], rows: Rows) -> None:
    """Writes the file of a share that has finished. It is there whole or not at all, by a renaming."""
    write_text(os.path.join(folder, name_of(share, head.mark)), result_text(head, columns, rows))


def paths_of(folder: str) -> list[str]:
    """The paths in a folder that are named as results, in the order of their names."""
    try:
        return [os.path.join(folder, name) for name in sorted(filter(LIKE_NAME.fullmatch, os.listdir(folder)))]
    except OSError as error:
        raise Fault(f"cannot read {folder}: {error.strerror}") from None


def text_at(path: str) -> str | Fault:
    """The text of a file, or why there is none."""
    if not os.path.isfile(path):
        return Fault(f"{shown(os.path.basename(path))} is no file")
    try:
        return read_bytes(path).decode("utf-8", "replace")
    except Fault as fault:
        return fault


def files_in(folder: str) -> list[tuple[str, str | Fault]]:
    """The names and texts of the files in a folder that are named as results, in the order of their names."""
    return [(os.path.basename(path), text_at(path)) for path in paths_of(folder)]


def read_result(name: str, text: str | Fault) -> Result:
    """The result in a file of this name, or a fault that says in one line what is wrong with it."""
    if isinstance(text, Fault):
        raise text
    match = NAME.fullmatch(name)
    share = share_in(match, f"{shown(name)} is no name of a sweep's result, as 03-of-50-3fa9c2d1.csv")
    records = whole_records(name, text)
    head, place = head_in(name, records)
    if match and head.mark != match[3]:
        raise Fault(f"{name} is foreign: it holds results of the sweep {head.mark}, and not of the one in its name")
    columns, rows = records[place], records[place + 1:]
    if columns[0] != "variant" or columns[1:len(head.settings) + 3] != [*head.names(), "failed", "queue"]:
        raise Fault(f"{name} has other columns than its settings, failed, queue and those of the report")
    found: dict[int, list[Sequence[str]]] = {}
    for row in rows:
        found.setdefault(variant_of(name, row, columns, share, head), []).append(row[1:])
    for variant, of_variant in found.items():
        check_queues(name, variant, of_variant, head)
    return Result(name, head, columns[1:], found)


def whole_records(name: str, text: str) -> list[list[str]]:
    """The records before the end mark, which must be there and be right."""
    refuse(not text.startswith(",".join(FORMAT) + "\n"), f"{name} is {'empty' if not text else 'no result of a sweep'}")
    body, _, last = text.removesuffix("\n").rpartition("\n")
    body, end = f"{body}\n", END.fullmatch(last)
    if not end or not text.endswith("\n"):
        raise Fault(f"{name} is cut: it has no end mark")
    if checksum(body) != end[1]:
        raise Fault(f"{name} is not as it was written: its checksum is another")
    try:
        return list(csv.reader(io.StringIO(body, newline=""), strict=True))
    except csv.Error as error:
        raise Fault(f"{name} is not CSV: {error}") from None


def head_in(name: str, records: list[list[str]]) -> tuple[Head, int]:
    """The head that the records begin with, and the place of the columns after it."""
    place = next((place for place, record in enumerate(records) if record[:1] == ["variant"]), 0)
    fields = records[1:place]
    pairs = [(record[0], record[1]) for record in fields[3:-2] if len(record) == 2]
    settings = tuple(pair for pair in pairs if pair[0] in KINDS)
    window = tuple(pair for pair in pairs if pair[0] in WINDOW)
    texts = [record[1] if len(record) == 2 else "" for record in fields]
    are_right = [*map(CHECKSUM.fullmatch, texts[:3]), *map(COUNT.fullmatch, texts[-2:-1]),
                 *map(COUNT_OR_NONE.fullmatch, texts[-1:])]
    refuse(len(fields) < 5 or not all(are_right), f"{name} has no head of a sweep's result")
    head = Head(texts[0], texts[1], texts[2], settings, int(texts[-2]), int(texts[-1]), window)
    refuse(head.records() != fields, f"{name} has no head of a sweep's result")
    return head, place


def variant_of(name: str, row: Sequence[str], columns: Sequence[str], share: Share, head: Head) -> int:
    """The number of the variant that a row is of."""
    numbers = row[len(head.settings) + 3:]
    if len(row) != len(columns) or not COUNT.fullmatch(row[0]) or not all(map(NUMBER.fullmatch, numbers)):
        raise Fault(f"{name} has a row that is none of a report: {shown(','.join(row))}")
    variant = int(row[0])
    if variant > head.variants or not share.has(variant):
        raise Fault(f"{name} is foreign: it holds variant {variant}, which is none of share "
                    f"{share.number}/{share.of} of {head.variants}")
    return variant


def check_queues(name: str, variant: int, rows: Sequence[Sequence[str]], head: Head) -> None:
    """Makes sure that a variant has one row for each queue, or one with a failure, all with the same settings."""
    width = len(head.settings)
    if len({tuple(row[:width]) for row in rows}) != 1:
        raise Fault(f"{name} has different settings in the rows of variant {variant}")
    queues = [row[width + 1] for row in rows if not row[width]]
    refuse(len(set(queues)) != len(queues), f"{name} has a queue of variant {variant} twice")
    if len(queues) != (head.queues if len(queues) == len(rows) else 0) or len(rows) - len(queues) > 1:
        raise Fault(f"{name} is short of a queue: variant {variant} has {len(queues)} of {head.queues}")


def collected(files: Iterable[tuple[str, str | Fault]], mark: str | None = None) -> Collection:
    """What the files of a folder hold together, each given by its name and its text.

    A file that is cut, changed, short of a queue or foreign is refused, and its variants are left unless another file
    has them. A variant that two files have with equal rows counts once; else the later file is refused. Without `mark`
    all files have to be of one sweep; with it those of others are foreign.
    """
    results, faults = [], []
    for name, text in files:
        try:
            results.append(read_result(name, text))
        except Fault as fault:
            faults.append(str(fault))
    marks = sorted({result.head.mark for result in results} if mark is None else {mark})
    refuse(len(marks) > 1,
           f"there are results of {len(marks)} sweeps, {', '.join(marks)}, which should be one: --mark names it")
    first: dict[int, Result] = {}
    columns, head = None, None
    for result in results:
        reason = refused(result, marks[0], columns, first)
        if reason is not None:
            faults.append(reason)
            continue
        columns, head = result.columns, result.head
        first.update(dict.fromkeys(result.rows, result))
    rows = [list(row) for variant in sorted(first) for row in first[variant].rows[variant]]
    return Collection(head, columns or [], rows, faults, left_of(head.variants if head else 0, first))


def refused(result: Result, mark: str, columns: list[str] | None, first: Mapping[int, Result]) -> str | None:
    """Why a whole result is not added to those before it, or None."""
    if result.head.mark != mark:
        return f"{result.name} is foreign: it is of the sweep {result.head.mark}, and not of {mark}"
    if columns not in (None, result.columns):
        return f"{result.name} is foreign: it has other columns of the report"
    for variant, rows in result.rows.items():
        before = first.get(variant)
        if before and before.rows[variant] != rows:
            return f"{result.name} is doubled: {before.name} has variant {variant} too, with other numbers"
    return None


def left_of(variants: int, done: Iterable[int]) -> list[int]:
    """The numbers of the variants that have no result."""
    have = set(done)
    return [variant for variant in range(1, variants + 1) if variant not in have]


def shares_left(left: Iterable[int], of: int) -> list[int]:
    """The shares, out of `of`, that have a variant that is left: those that an array of Slurm or Batch must run
    again."""
    return sorted({(variant - 1) % of + 1 for variant in left})


def ranges_of(numbers: Sequence[int]) -> str:
    """Numbers in ascending order as people and Slurm read them: 3,7-9,12."""
    ranges: list[list[int]] = []
    for number in numbers:
        if ranges and number == ranges[-1][1] + 1:
            ranges[-1][1] = number
        else:
            ranges.append([number, number])
    return ",".join(str(low) if low == high else f"{low}-{high}" for low, high in ranges)
