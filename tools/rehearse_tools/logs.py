"""Reads what a run writes; docs/FORMATS.md has the formats. The tools import it; it is not a command."""
from __future__ import annotations

import csv
import os
import re
import stat
import tempfile
from collections import Counter
from collections.abc import Callable, Iterable, Iterator, Mapping, Sequence
from itertools import chain
from operator import length_hint
from typing import IO, Any, NamedTuple, TextIO

from .console import Fault, Progress, note, refuse, shown
from .fact_tables import rows_of


class Row(NamedTuple):
    """A row of a log; its time is in milliseconds."""

    at: int
    queue: str
    agent: str
    call: str
    answer: str
    message: str
    receipt: str
    detail: str


class Head(NamedTuple):
    """What many rows of a log have in common: all but their time, message, receipt and detail."""

    queue: str
    agent: str
    call: str
    answer: str


# The call and answer of a row.
What = tuple[str, str]
# The numbers of a queue in a report by their columns, None where there is none.
Numbers = dict[str, Any]
# What takes a row: its time, its head, message, receipt and detail.
Take = Callable[[int, Head, str, str, str], object]


class Final(NamedTuple):
    """A message that was left, from the final queues after a log."""

    final: str
    queue: str
    message: str
    origin: str
    place: str
    due: str
    enqueued: str
    receives: str
    group: str
    md5: str


LOG_HEADER, FINAL_HEADER = list(Row._fields), list(Final._fields)
TRANSFER_HEADER = "transfer,from,to,kind,due,number,message,origin,md5".split(",")
TASK_HEADER = "task,name,status,moved".split(",")
# The refusals of calls, which are the answers of rows.
REFUSALS = [row["name"] for row in rows_of("refusals") if not row["status"]]
COLUMNS = rows_of("columns")
REPORT_HEADER = ["report", "queue", *(name for row in COLUMNS for name in (
    REFUSALS if row["name"] == "refusals" else [row["name"]]))]

# Figures follow the report where the program was asked for them.
FIGURE_HEADER = "figure,of,name,value".split(",")

# The columns of a report that count rows, by the calls and answers of these; a refusal is a column of its own name.
COLUMN_OF: dict[What, str] = {
    (call, answer): row["name"] for row in COLUMNS if row["counts"]
    for call, answer in (counted.split() for counted in row["counts"].split("; "))}
COUNTED = dict.fromkeys((*COLUMN_OF.values(), *REFUSALS))
# The figures that a column is the sum of; those that only the report has are not here.
FIGURES_OF = {row["name"]: row["figures"].split("; ") for row in COLUMNS if row["figures"]}
# The columns of the places of messages that are left, by what the final queues call them.
PLACES = {"visible": "visible", "inflight": "in_flight", "delayed": "delayed"}
# The columns of ages, which are empty if no message was deleted.
AGES = ("age_max", "age_p50", "age_p95", "age_p99")

# The parts of what `run` prints after the log. The first field of each record is the name of its part.
HEADERS = {header[0]: header
           for header in (FINAL_HEADER, TRANSFER_HEADER, TASK_HEADER, REPORT_HEADER, FIGURE_HEADER)}

LOG_FIELDS = len(LOG_HEADER)

# Numbers have so many digits at most.
DIGITS = 19
NUMBER = re.compile(f"[0-9]{{1,{DIGITS}}}")
NAME = re.compile(r"[A-Za-z0-9_-]{1,80}(?:\.fifo)?")
RECEIPT = re.compile(r"r-(0|[1-9][0-9]*)-(0|[1-9][0-9]*)-[1-9][0-9]*")

# How many letters are read at once, and the most that a line may have.
LETTERS, LONGEST = 1 << 18, 1 << 20


def message_of_receipt(receipt: str) -> str | None:
    """The id of the message that a receipt names, or None if the text is no receipt."""
    match = RECEIPT.fullmatch(receipt)
    return f"m-{match[1]}-{match[2]}" if match else None


class Block(NamedTuple):
    """Lines without their ends, whether some of them have quotes, and whether the last one has no end in its file."""

    lines: list[str]
    has_quotes: bool
    is_cut: bool = False


def blocks_in(file: TextIO, path: str) -> Iterator[Block]:
    """The lines of an open file, many at once, as that is faster."""
    rest = ""
    while letters := file.read(LETTERS):
        letters = rest + letters
        lines = letters.split("\n")
        rest = lines.pop()
        if len(rest) > LONGEST:
            raise Fault(f"{path} has a line of over {LONGEST:,} letters")
        yield Block(lines, '"' in letters)
    if rest:
        yield Block([rest], '"' in rest, is_cut=True)


def copied(file: IO[bytes], path: str) -> IO[bytes]:
    """A file without a name that has all of an open one, which is at a path."""
    copy, progress = tempfile.TemporaryFile(), Progress(path, file)
    while letters := file.read(LETTERS):
        copy.write(letters)
        progress.look(LETTERS)
    copy.flush()
    Progress.clear()
    return copy


def blocks_of(path: str, place: str | None = None) -> Iterator[Block]:
    """The lines of a file, or of standard input if the path is -; or of the file in whose place they are kept."""
    try:
        with open(place or (0 if path == "-" else path), encoding="utf-8", closefd=bool(place) or path != "-") as file:
            progress = Progress(path, file)
            for block in blocks_in(file, path):
                progress.look(LETTERS)
                yield block
                if block.is_cut:
                    raise Fault(f"{path} ends within a line")
            Progress.clear()
    except OSError as error:
        raise Fault(f"cannot read {path}: {error.strerror}") from None
    except UnicodeDecodeError:
        raise Fault(f"{path} is not UTF-8") from None


def quoted_fields(line: str) -> list[str]:
    """The fields of a line that has quotes; none if it is not CSV."""
    try:
        return next(csv.reader([line], strict=True))
    except csv.Error:
        return []


class BadLine(Exception):
    """A line that no log has after those before it; the text says what it is."""


class Taken:
    """What takes the rows that have a head, how many it was given, and how many of these its queue has noted."""

    __slots__ = "head", "take", "rows", "noted"

    def __init__(self, head: Head, take: Take) -> None:
        self.head, self.take, self.rows, self.noted = head, take, 0, 0


class Rows:
    """Gives rows to what takes those with their head; `take_of` is asked for that at the first of them.

    `at` is the time of the last row. `moments` has, in ascending order, what is called before the first row from a
    moment on. `texts` has what takes rows by the text of their head, where no row had quotes. `forgotten` counts the
    rows of heads that are no longer kept.
    """

    # So many heads are kept at once.
    MOST = 1 << 18

    def __init__(self, take_of: Callable[[Head], Take]) -> None:
        self.take_of = take_of
        self.heads, self.texts = dict[tuple[str, ...], Taken](), dict[str, Taken]()
        self.forgotten: Counter[tuple[str, What]] = Counter()
        self.at, self.text = 0, ""
        self.moments: list[tuple[int, Callable[[], None]]] = []

    def take_lines(self, lines: Iterator[str]) -> bool:
        """Gives rows, whose lines have no quotes, up to the header of the final queues; whether that has come."""
        texts, before, at = self.texts, self.text, self.at
        for line in lines:
            try:
                first, message, receipt, detail = line.rsplit(",", 3)
                text, _, words = first.partition(",")
                taken = texts[words]
            except (KeyError, ValueError):
                fields = line.split(",")
                if fields == FINAL_HEADER:
                    return True
                self.text = before
                texts[",".join(fields[1:-3])] = self.take_fields(fields)
                before, at = self.text, self.at
                continue
            if text != before:
                before, at = text, self.pass_to(text)
            taken.rows += 1
            taken.take(at, taken.head, message, receipt, detail)
        self.text = before
        return False

    def take_quoted(self, lines: Iterator[str]) -> bool:
        """The same of lines that may have quotes."""
        for line in lines:
            fields = quoted_fields(line) if '"' in line else line.split(",")
            if fields == FINAL_HEADER:
                return True
            self.take_fields(fields)
        return False

    def take_fields(self, fields: Sequence[str]) -> Taken:
        """Gives a row by its fields; returns what took it."""
        if len(fields) != LOG_FIELDS:
            raise BadLine("is no row of a log")
        text, *words, message, receipt, detail = fields
        if text != self.text:
            self.pass_to(text)
            self.text = text
        head = Head(*words)
        taken = self.heads.get(head)
        if taken is None:
            if len(self.heads) >= self.MOST:
                self.forget()
            taken = self.heads[head] = Taken(head, self.take_of(head))
        taken.rows += 1
        taken.take(self.at, head, message, receipt, detail)
        return taken

    def forget(self) -> None:
        """Forgets what takes rows, so that it is asked for anew."""
        self.forgotten = self.counts()
        self.heads.clear()
        self.texts.clear()

    def counts(self) -> "Counter[tuple[str, What]]":
        """How many rows were given, by their queue, and their call and answer."""
        found = Counter(self.forgotten)
        for taken in self.heads.values():
            found[taken.head.queue, (taken.head.call, taken.head.answer)] += taken.rows
        return found

    def pass_to(self, text: str) -> int:
        """Notes the time of a row, which is not before the last one."""
        if not (text.isdecimal() and text.isascii() and len(text) <= DIGITS):
            raise BadLine("is no row of a log")
        at = int(text)
        if at < self.at:
            raise BadLine("is earlier than the row before it")
        while self.moments and at >= self.moments[0][0]:
            self.moments.pop(0)[1]()
        self.at = at
        return at


class Log:
    """A log in a file, or on standard input if its path is -, read row by row in its order.

    A run without `--log` prints the final queues and the report after the log, and behind them the figures that it was
    asked for. Once the rows have been read, `parts` has the records of those parts that were wanted and are there, by
    the names of the parts, or None where nothing follows; `report` has the numbers of each queue by its columns. A file
    may have these parts alone where `may_lack_rows` says so; `has_rows` tells it. `rest` is the path of the file with
    these parts, if they do not follow the log. `line` is the number of the line that was read last, and `at` the time
    of the row that was.

    Rows are lost where a run was ended, or a file cut. So a log of standard input must have its report, and each report
    must agree with the rows. A log in a file may stand alone; `is_open` says that its end was not seen.
    """

    def __init__(self, path: str, wanted: Sequence[str] = ("final",), may_lack_rows: bool = False,
                 rest: str | None = None) -> None:
        self.path, self.wanted, self.may_lack_rows, self.rest = path, wanted, may_lack_rows, rest
        self.line, self.at, self.has_rows = 0, 0, True
        self.place = ""
        self.parts: dict[str, list[list[str]]] | None = None
        self.report: dict[str, Numbers] = {}
        self.counts: Counter[tuple[str, What]] = Counter()
        self.left: Counter[tuple[str, str]] = Counter()
        refuse(path == rest == "-", "standard input can be read once")

    @property
    def name(self) -> str:
        return "standard input" if self.path == "-" else self.path

    @property
    def is_open(self) -> bool:
        return self.parts is None

    @property
    def finals(self) -> dict[str, Final] | None:
        """The messages that were left, by their ids, or None if no final queues follow the log."""
        records = (self.parts or {}).get("final")
        return None if records is None else {record[2]: Final._make(record) for record in records}

    def no_row(self) -> Fault:
        return Fault(f"{self.path} line {self.line} is no row of a log")

    def keep(self) -> None:
        """Makes sure that the log can be read again, also by another process: what is no regular file is copied into
        one, and `place` is the path of an open file."""
        try:
            file: IO[bytes] = open(0 if self.path == "-" else self.path, "rb", closefd=self.path != "-")
            if not stat.S_ISREG(os.fstat(file.fileno()).st_mode):
                with file:
                    file = copied(file, self.path)
        except OSError as error:
            raise Fault(f"cannot read {self.path}: {error.strerror}") from None
        self.kept, self.place = file, f"/proc/{os.getpid()}/fd/{file.fileno()}"

    def blocks(self) -> Iterator[Block]:
        """The lines of the log."""
        return blocks_of(self.path, self.place)

    def give(self, rows: Rows) -> None:
        """Gives the rows to what takes them, and reads what follows them."""
        blocks = self.begun(self.blocks())
        for lines, has_quotes, _ in blocks:
            left = iter(lines)
            try:
                is_over = rows.take_quoted(left) if has_quotes else rows.take_lines(left)
            except BadLine as reason:
                raise Fault(f"{self.path} line {self.line + len(lines) - length_hint(left)} {reason}") from None
            finally:
                self.line, self.at = self.line + len(lines) - length_hint(left), rows.at
            if is_over:
                self.read_parts(chain(left, (line for block in blocks for line in block.lines)))
                break
        if self.has_rows:
            self.counts = rows.counts()
            self.check_end()

    def check_end(self) -> None:
        """Makes sure that the log is whole, as far as what follows it is there."""
        if self.parts is not None:
            self.check_report()
        elif self.rest is not None:
            self.complete(rest_in(self.rest, self.wanted))
        elif not self.may_lack_rows:
            self.check_open()

    def check_open(self) -> None:
        """Makes sure that a log of standard input was seen to its end."""
        if self.is_open and self.path == "-":
            raise self.not_ended()

    def complete(self, rest: "Log") -> None:
        """Takes what follows the log from another file, which has that alone."""
        self.parts, self.report, self.left = rest.parts, rest.report, rest.left
        rest.counts = self.counts
        rest.check_report()

    def again(self) -> "Log":
        """The same log, of which nothing was read yet."""
        log = Log(self.path, self.wanted, self.may_lack_rows, self.rest)
        log.kept, log.place = self.kept, self.place
        return log

    def has_rest_alone(self) -> bool:
        """Whether the file of a log that is kept has what follows a log and nothing else; then that is read."""
        begin = ",".join(FINAL_HEADER).encode()
        is_rest = os.pread(self.kept.fileno(), len(begin), 0) == begin
        if is_rest:
            next(self.begun(self.blocks()), None)
        return is_rest

    def not_ended(self) -> Fault:
        return Fault(f"{self.name}: the run did not end: its report is missing")

    def check_report(self) -> None:
        """Makes sure that the report is there, and counts the rows, and the messages left, that are."""
        if not self.report:
            raise self.not_ended()
        kinds: dict[str, Counter[What]] = {}
        for (name, what), count in self.counts.items():
            kinds.setdefault(name, Counter())[what] = count
        for name, given in self.report.items():
            for column, number in counted_columns(kinds.get(name, {})).items():
                check_number(self.name, f"{column} of {name}", number, given[column])
        self.check_left(kinds)

    def check_left(self, kinds: Iterable[str] = ()) -> None:
        """Makes sure that the report counts the messages left that are, and has their queues and others."""
        for name, given in self.report.items():
            for place, column in PLACES.items():
                check_number(self.name, f"{column} of {name}", self.left[name, place], given[column], "final queues")
        for name in (*kinds, *(name for name, _ in self.left)):
            if name not in self.report:
                raise self.lacking(name)

    def lacking(self, queue: str) -> Fault:
        return Fault(f"{self.name}: the run did not end: its report lacks the queue {shown(queue)}")

    def begun(self, blocks: Iterator[Block]) -> Iterator[Block]:
        """The lines after the first one, which must be the header of a log."""
        lines, has_quotes, _ = next((block for block in blocks if block.lines), Block([], False))
        refuse(not lines, f"{self.name} is empty: no run has written to it")
        header, self.line, self.at = lines[0].split(","), 1, 0
        rest = chain([Block(lines[1:], has_quotes)], blocks)
        if header == FINAL_HEADER and self.may_lack_rows:
            self.has_rows = False
            self.read_parts(line for block in rest for line in block.lines)
            return
        refuse(header != LOG_HEADER, f"{self.path} is no log: its first line is not {','.join(LOG_HEADER)}")
        yield from rest

    def rows(self) -> list[list[Any]]:
        """The fields of all rows, of which the time is a number."""
        found: list[list[Any]] = []

        def kept(at: int, head: Head, *rest: str) -> None:
            found.append([at, *head, *rest])

        self.give(Rows(lambda _: kept))
        return found

    def read_parts(self, lines: Iterator[str]) -> None:
        """Reads what follows the log, from the line after the header of the final queues on."""
        reader, first, header = csv.reader(lines, strict=True), self.line, FINAL_HEADER
        parts: dict[str, list[list[str]]] = {"final": []}
        try:
            for record in reader:
                self.line = first + reader.line_num
                if record and HEADERS.get(record[0]) == record:
                    header, parts[record[0]] = record, []
                elif record[:1] != header[:1] or len(record) != len(header):
                    raise Fault(f"{self.path} line {self.line} is no record of the part {header[0]} after a log")
                else:
                    self.take_record(record)
                    if header[0] in self.wanted:
                        parts[header[0]].append(record)
        except csv.Error as error:
            raise Fault(f"{self.path} is not CSV: {error}") from None
        self.parts = {name: records for name, records in parts.items() if name in self.wanted}

    def take_record(self, record: Sequence[str]) -> None:
        """Takes in a record of the report, or of the final queues."""
        if record[:1] == ["final"]:
            self.left[record[1], record[4]] += 1
        elif record[:1] == ["report"]:
            numbers, name = numbers_of(record, self.name), record[1]
            if name in self.report or not NAME.fullmatch(name):
                raise Fault(f"{self.path}: {shown(name)} is no name of a queue, or stands twice in the report")
            self.report[name] = numbers


def rest_in(path: str, wanted: Sequence[str]) -> Log:
    """What follows a log, from a file that has that alone."""
    rest = Log(path, wanted, may_lack_rows=True)
    next(rest.begun(rest.blocks()), None)
    refuse(rest.has_rows, f"{rest.name} has a log of its own, and is not the rest of another one")
    return rest


def numbers_of(record: Sequence[str], path: str) -> Numbers:
    """The numbers of a record of the report by their columns; None for the ages that nothing has."""
    numbers: Numbers = {}
    refuse(len(record) != len(REPORT_HEADER), f"{path}: its report has a line of {len(record)} fields")
    for column, text in zip(REPORT_HEADER[2:], record[2:]):
        if not NUMBER.fullmatch(text) and (text or column not in AGES):
            raise Fault(f"{path}: {shown(text)} is no number for {column} in a report")
        numbers[column] = int(text) if text else None
    return numbers


def counted_columns(kinds: Mapping[What, int]) -> dict[str, int]:
    """The columns of a report that count rows, of a queue with so many rows of each call and answer."""
    columns = dict.fromkeys(COUNTED, 0)
    for what, count in kinds.items():
        column = COLUMN_OF.get(what, what[1])
        if column in columns:
            columns[column] += count
    return columns


def check_number(path: str, what: str, counted: int | None, given: int | None, by: str = "rows") -> None:
    """Makes sure that a number of the report is the one that is counted."""
    if counted != given:
        raise Fault(f"{path}: its report is not of this log, or rows are lost or doubled: {what} is {counted} by the "
                    f"{by}, and {given} by what follows")


def open_told(log: Log) -> str:
    """That the end of a log was not seen."""
    return (f"the end of {log.path} was not seen, so it is not known whether the log is whole (--rest REST.out names "
            "the file with the rest)")


def tell_open(log: Log) -> None:
    """Says on standard error if the end of a log was not seen."""
    if log.is_open:
        note(open_told(log))
