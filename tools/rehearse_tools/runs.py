"""Runs the program once over a scenario, and takes its report, also of what happened from a moment on.

The tools import it; it is not a command. It needs nothing but the program, so that a worker of a cluster runs it as
well.
"""
from __future__ import annotations

import csv
import io
import math
import os
import subprocess
import tempfile
from collections import Counter
from collections.abc import Callable, Iterable, Iterator, Mapping, Sequence
from contextlib import AbstractContextManager, nullcontext
from functools import partial
from itertools import takewhile
from typing import Any, NamedTuple, TextIO

from .console import Fault
from .doors import DOOR_SHARES, Doors, Left
from .figures import COLUMNS as OF_FIGURES
from .figures import WINDOW, Figures, Refused, bounds_of, figures_in, text_of
from .logs import FIGURE_HEADER, FINAL_HEADER, REFUSALS, REPORT_HEADER, Block, Head, Log, What, blocks_in
from .logs import Take as TakeRow
from .logs import counted_columns
from .replay import Replay, handlers_of, replay
from .programs import started
from .statistics import Interval, censored_percentile

COLUMNS = REPORT_HEADER[2:]
# With those that a report does not have: some for which the log is read, and figures.
EXTRA_COLUMNS = [*DOOR_SHARES, *OF_FIGURES]
ALL_COLUMNS = [*COLUMNS, *EXTRA_COLUMNS]
PERCENTILES = {"age_p50": 0.5, "age_p95": 0.95, "age_p99": 0.99, "age_max": 1.0}
Watch = Callable[["subprocess.Popen[bytes]"], AbstractContextManager[object]]
# What takes something from what the program prints, and what runs the program for that: a command, the scenario's text
# and what takes.
Take = Callable[[TextIO], Any]
Engine = Callable[[list[str], str, Take], "Ended"]


class Ages(NamedTuple):
    """Within which bounds messages that are left may turn the columns of ages of a queue, and how many messages may
    still come that were sent elsewhere, if the log was read for that."""
    bounds: Mapping[str, Interval] = {}
    may_come: int = 0


class Ran(NamedTuple):
    """The result of a run: the program's status; the records of the report, each from its queue's name on, or None if
    there is none; the first line on standard error; and, if figures are wanted, the ages by queue."""
    status: int
    records: list[list[str]] | None
    told: str
    ages: dict[str, Ages]


class Output(Log):
    """What a run prints into a pipe. It may end anywhere, if the program was ended; `records` has what follows the log,
    and the report among it is looked at once it is read."""

    def __init__(self, stream: TextIO) -> None:
        super().__init__("-")
        self.stream = stream
        self.records: Iterator[list[str]] = iter(())
        self.figures: list[list[str]] = []
        self.is_cut = False

    def blocks(self) -> Iterator[Block]:
        for block in blocks_in(self.stream, self.path):
            self.is_cut = block.is_cut
            yield block

    def read_parts(self, lines: Iterator[str]) -> None:
        self.records = csv.reader(lines)

    def check_end(self) -> None:
        pass

    def whole_report(self) -> list[list[str]]:
        """Reads the records of the report, each from its queue's name on; none if it is not whole, or not of these rows.
        """
        found = []
        try:
            for record in takewhile(is_no_figure, self.records):
                self.take_record(record)
                found.append(record[1:])
            self.figures = list(self.records)
            self.check_report()
        except Fault:
            return []
        return [] if self.is_cut else found

    def is_whole(self, rows: Replay[Any]) -> bool:
        """Gives the rows, and whether none of them is cut."""
        try:
            replay(self, rows)
        except Fault:
            return False
        return True


class Extra(NamedTuple):
    """What is wanted beside the report: the ages since the first send, for which the log must be read, and other columns
    that it does not have, with the length of a window in milliseconds and the price of a million requests."""
    with_doors: bool = False
    is_any: bool = False
    window: int = WINDOW
    price: float | None = None

    def figures(self, first: int, end: int, consumers: Mapping[str, Sequence[str]] = {}) -> Figures:
        """The figures of a run from a moment to its end, by the names of each queue's consumers."""
        return Figures(first, end, consumers, self.window, self.price, self.is_any)


def extra_of(columns: Iterable[str], window: int = WINDOW, price: float | None = None) -> Extra:
    """What is to be counted for some columns."""
    wanted = set(columns)
    return Extra(not wanted.isdisjoint(DOOR_SHARES), not wanted.isdisjoint(EXTRA_COLUMNS), window, price)


class Reported(NamedTuple):
    """The records of a report, each from its queue's name on, and the ages by queue. `is_open` says that refusals are
    not known by their names: they are in the log alone."""
    records: list[list[str]]
    ages: dict[str, Ages]
    is_open: bool = False


class Counting(NamedTuple):
    """What is counted from the log, of a run that ends at a moment in milliseconds: which calls were refused before
    another, and, if that is asked for, the ages since the first send of what was deleted from then on. `ways` has the
    ways of the scenario from queue to queue."""
    first: int
    end: int
    with_doors: bool = False
    ways: frozenset[tuple[str, str]] = frozenset()


class Kinds:
    """How many rows of each kind a queue had."""

    def __init__(self) -> None:
        self.kinds: Counter[What] = Counter()


HANDLERS = handlers_of(Kinds)


class Counts:
    """What the rows of a log say of each queue, as `counting` has it."""

    def __init__(self, counting: Counting) -> None:
        self.end, self.queues = counting.end, dict[str, Kinds]()
        self.doors = Doors(counting.first, counting.ways) if counting.with_doors else None
        self.left: Left | None = None
        self.rows = Replay(self.queues, lambda name: self.queues.setdefault(name, Kinds()), HANDLERS, self.follower)
        self.rows.moments = [(counting.first, self.begin)]
        self.before: dict[str, Refused] = {}

    def follower(self, head: Head) -> TakeRow | None:
        """What takes the rows with a head beside their queue."""
        return self.doors.take_of(head) if self.doors else None

    def begin(self) -> None:
        """Notes what was refused so far."""
        self.rows.count()
        counted = {name: counted_columns(queue.kinds) for name, queue in self.queues.items()}
        self.before = {name: {refusal: numbers[refusal] for refusal in REFUSALS} for name, numbers in counted.items()}

    def door_columns(self, queue: str) -> list[str]:
        """The columns of ages since the first send."""
        return [*map(text_of, self.doors.columns(queue).values())] if self.doors else [""] * len(DOOR_SHARES)

    def door_ages(self, queue: str) -> Ages:
        """Within which bounds messages that are left, or that may still come, may turn these columns; they are as old as
        they are at the end of the run."""
        if not self.doors:
            return Ages()
        left = self.left = self.left or self.doors.left()
        deleted = [*Counter(self.doors.ages_of(queue)).elements()]
        there, coming = ([self.end - at for at in times] for times in (left.there.get(queue, ()), left.may_come(queue)))
        return Ages({column: censored_percentile(deleted, there, share, coming) or Interval(0, math.inf)
                     for column, share in DOOR_SHARES.items()}, len(coming))


def as_wanted(records: Iterable[list[str]], behind: Iterable[Sequence[str]], figures: Figures | None,
         counts: Counts | None = None) -> Reported | None:
    """The records of a report, each from its queue's name on, with the figures that are wanted, which are behind it, and
    what is counted from the log; None if a figure lacks."""
    if figures is None:
        return Reported([*records], {})
    found, figured = Reported([], {}), figures_in(behind)
    try:
        for record in records:
            name = record[0]
            record = figures.record_of(record, figured, counts.before.get(name, {}) if counts else None)
            found = found._replace(is_open=found.is_open or not all(record[:2 + COLUMNS.index(REFUSALS[-1])]))
            doors = counts.door_ages(name) if counts else Ages()
            found.ages[name] = doors._replace(bounds={**bounds_of(figured[name]), **doors.bounds})
            found.records.append(record if not figures.has_columns else [
                *record, *(counts.door_columns(name) if counts else [""] * len(DOOR_SHARES)),
                *figures.columns_of(name, figured)])
    except (Fault, KeyError):
        return None
    return found


def reported(stream: TextIO, counting: Counting, figures: Figures | None = None) -> Reported | None:
    """The report that a run prints, with the figures that are wanted and what is counted from the log; None if that is
    no log with its report."""
    counts, output = Counts(counting), Output(stream)
    if not output.is_whole(counts.rows):
        return None
    for record in output.records:
        if record[0] == "final" and len(record) == len(FINAL_HEADER):
            output.take_record(record)
        elif record == REPORT_HEADER:
            records = output.whole_report()
            return as_wanted(records, output.figures, figures, counts) if records else None
    return None


def columns_in(header: Sequence[str]) -> list[str]:
    """The columns of a report at the end of a header of rows."""
    return ALL_COLUMNS if header[-1] == ALL_COLUMNS[-1] else COLUMNS


def is_no_figure(record: Sequence[str]) -> bool:
    return record[:1] != FIGURE_HEADER[:1]


def report_of(stream: TextIO, figures: Figures | None = None) -> Reported | None:
    """The report that a run prints without its log, with the figures that are wanted; None if there is no report."""
    rest = csv.reader(stream)
    if REPORT_HEADER not in rest:
        return None
    return as_wanted([record[1:] for record in takewhile(is_no_figure, rest)], rest, figures)


class Ended(NamedTuple):
    """How the program ended: its status, the first line on standard error, and what was taken from its output."""
    status: int
    told: str
    taken: Any


def piped(command: list[str], text: str, take: Take, watch: Watch = nullcontext, folder: str | None = None) -> Ended:
    """Runs a scenario's text by a command of the program in a folder, and gives the records that it prints to `take`.
    `watch` is entered while it runs."""
    with tempfile.TemporaryFile() as scenario, tempfile.TemporaryFile() as told:
        scenario.write(text.encode("utf-8", "replace"))
        scenario.seek(0)
        with started(command, scenario, subprocess.PIPE, told, folder) as process, watch(process):
            assert process.stdout is not None
            stream = io.TextIOWrapper(process.stdout, "utf-8", "replace", newline="")
            taken = take(stream)
            stream.read()
        told.seek(0)
        return Ended(process.returncode, first_line(told.read()), taken)


def first_line(told: bytes) -> str:
    """The first line on standard error, which says why there is no report."""
    return next(filter(None, told.decode("utf-8", "replace").split("\n")), "no report")


def run(command: list[str], text: str, figures: Figures | None = None, counting: Counting | None = None,
        engine: Engine = piped) -> Ran:
    """Runs a scenario's text by the command of the program, with the figures that are wanted. Its log is written only
    where something is counted from it: as `counting` asks, or because no figure says it."""
    command = [*command, *(figures.words() if figures else ())]
    taken = partial(reported, counting=counting, figures=figures) if counting and counting.with_doors else None
    status, line, found = engine(command, text, taken) if taken else \
        engine([*command, "--log", os.devnull], text, partial(report_of, figures=figures))
    if found and found.is_open and counting:
        status, line, found = engine(command, text, partial(reported, counting=counting, figures=figures))
    if not found:
        return Ran(status, None, line, {})
    return Ran(status, None if status else found.records, line, found.ages)
