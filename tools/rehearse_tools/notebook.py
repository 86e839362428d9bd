"""What a run, a sweep and a summary give, as tables of pandas, for notebooks and programs in Python:

    from rehearse_tools.notebook import Fault, rehearse, summary, sweep

docs/NOTEBOOKS.md has an example. A scenario is the path of a file, or the text of one, which has several lines. A table
is a DataFrame of pandas, which Debian's package python3-pandas has; with `as_lists` it is a list with a dictionary for
each row, and needs no library. Numbers are numbers, and what is empty is None, or NaN in a DataFrame. Times are in
milliseconds. What is wrong with a call or its input is a Fault, whose text is one line.
"""
from __future__ import annotations

import csv
import os
import re
import signal
import sys
import tempfile
import threading
from collections.abc import Iterable, Iterator, Mapping, Sequence
from contextlib import contextmanager
from typing import Any, NamedTuple, Union

from . import sweep as tool
from .console import ENDING, Fault, library, refuse
from .logs import FINAL_HEADER, HEADERS, LOG_HEADER, Log, tell_open
from .programs import program_of, ran, temporary_folder, version_words
from .runs import first_line
from .scenarios import Setting, scenario_at, text_of_value, varied, written
from .summaries import Reading, read_runs, values_of
from .units import window_of

PACKAGE = "python3-pandas"
PARTS = ("final", "transfer", "task", "report")
# The columns of logs and of what follows them that have texts, also where they look like numbers.
TEXTS = {*LOG_HEADER, *FINAL_HEADER, *HEADERS["transfer"], *HEADERS["task"], "failed"} - {
    "at", "due", "enqueued", "receives", "number", "moved"}
NUMBER = re.compile(r"-?[0-9]+(\.[0-9]+)?")
# The options of tools/sweep, by their names here; those of JOINED are one word with commas, others one word each.
OPTIONS = {"zip": "--zip", "require": "--require", "spread": "--spread", "against": "--against", "until": "--until",
           "most": "--most", "least": "--least", "first": "--from", "last": "--to", "window": "--window",
           "price": "--price", "settling": "--settling", "columns": "--columns",
           "scripts": "--scripts", "program": "--program", "jobs": "--jobs", "cluster": "--cluster"}
JOINED = ("columns",)
INTERRUPTED = 130
# A value of a setting, and the words of an option.
Value = Union[str, int, bool, list[Any]]
Words = Union[str, float, Sequence[str]]


class Rehearsal(NamedTuple):
    """The tables of a run: the rows of its log, the messages left, those on their way, its tasks, the program's report,
    and the numbers of `summary`."""
    rows: Any
    finals: Any
    transfers: Any
    tasks: Any
    report: Any
    summary: Any


class Swept(NamedTuple):
    """The table that `tools/sweep` would write, and whether its status is 0: no variant failed, all requirements hold,
    and what was searched for has been found."""
    rows: Any
    is_met: bool


def rehearse(scenario: str, settings: Mapping[str, Value] | None = None, scripts: str = ".",
             program: str | None = None, as_lists: bool = False, v3: bool = False,
             preview: bool = False) -> Rehearsal:
    """Runs a scenario with some settings, as {"seed": 7, "queue.orders.visibility_s": 60}; `scripts`, `program` and
    `v3` are as for tools/sweep. `preview` is the former name of `v3`."""
    check_tables(as_lists)
    command = [program_of(program), "run", "--figures", *version_words(v3 or preview), "--scripts", scripts]
    with file_of(scenario) as path, tempfile.TemporaryFile() as out:
        words = {Setting(name): word_of(value) for name, value in (settings or {}).items()}
        text = written(varied(scenario_at(path), words))
        status, told = ran(command, text.encode("utf-8", "replace"), out)
        refuse(status, first_line(told))
        output = f"/dev/fd/{out.fileno()}"
        log = Log(output, wanted=PARTS)
        rows = table_of(LOG_HEADER, log.rows(), as_lists)
        parts = log.parts or {}
        finals, transfers, tasks, report = (
            table_of(HEADERS[name][1:], [record[1:] for record in parts.get(name, ())], as_lists) for name in PARTS)
        return Rehearsal(rows, finals, transfers, tasks, report, summarised([output], Reading(has_figures=True), as_lists))


def summary(paths: str | Sequence[str], first: str | None = None, last: str | None = None, door: bool = False,
            as_lists: bool = False) -> Any:
    """The numbers of each queue that `tools/summary --json` has, of the run in a file or some; `first`, `last` and
    `door` are its --from, --to and --door. Of two runs there is a row for each, with the number of the run before it.
    """
    check_tables(as_lists)
    return summarised([paths] if isinstance(paths, str) else paths, Reading(*window_of(first, last), door), as_lists)


def summarised(paths: Sequence[str], reading: Reading, as_lists: bool) -> Any:
    """The numbers of each queue of the runs in some files."""
    runs = read_runs(paths, reading)
    for run in runs:
        tell_open(run.log)
    values = [{**({"run": number} if len(runs) > 1 else {}), **side}
              for sides in values_of(runs, None, True).values() for number, side in enumerate(sides, 1) if side]
    return values if as_lists else pandas().DataFrame(values)


def sweep(scenario: str, vary: Mapping[str, str | Iterable[Value]], as_lists: bool = False, v3: bool = False,
          preview: bool = False, **options: Words) -> Swept:
    """Runs a scenario with settings varied, as {"queue.jobs.visibility_s": [2, 5], "seed": range(1, 21)}; a text is
    taken as tools/sweep has it, as "1..20".

    The options are those of tools/sweep, by the names of OPTIONS: what may be given several times is a list, and
    `columns` a list of names; `v3`, or its former name `preview`, lets scenarios have version 3. Standard error reports
    what is settled over runs, and what fails.
    """
    check_tables(as_lists)
    with file_of(scenario) as path, temporary_folder() as folder:
        output = os.path.join(folder, "rows.csv")
        words = [*(["--v3"] if v3 or preview else []),
                 *(f"--vary={name}={values if isinstance(values, str) else ','.join(map(word_of, values))}"
                   for name, values in vary.items())]
        with called_as("sweep"):
            status = tool.main([path, *words, *option_words(options), f"--output={output}"])
        if status == INTERRUPTED:
            raise KeyboardInterrupt
        with open(output, encoding="utf-8", newline="") as file:
            header, *rows = csv.reader(file)
    return Swept(table_of(header, rows, as_lists), status == 0)


def pandas() -> Any:
    """The library of tables."""
    try:
        return library("pandas", PACKAGE)
    except Fault:
        raise Fault(f"a table of pandas needs Debian's package {PACKAGE}, which is for Debian's python3; with as_lists "
                    "it is a list") from None


def check_tables(as_lists: bool) -> None:
    """Makes sure, before the work begins, that tables can be made."""
    if not as_lists:
        pandas()


@contextmanager
def file_of(scenario: str) -> Iterator[str]:
    """The path of a scenario, whose text is put in a file where it is given."""
    if "\n" not in scenario:
        yield scenario
        return
    with temporary_folder() as folder:
        path = os.path.join(folder, "scenario.toml")
        with open(path, "w", encoding="utf-8", errors="replace", newline="") as file:
            file.write(scenario)
        yield path


@contextmanager
def called_as(name: str) -> Iterator[None]:
    """Lets a tool tell its lines by its name, and keeps what it does with signals to itself."""
    words, is_main = sys.argv, threading.current_thread() is threading.main_thread()
    refuse(not is_main, "a sweep runs in the main thread, where it can be interrupted")
    kept = {number: signal.getsignal(number) for number in (signal.SIGINT, *ENDING)}
    sys.argv = [name]
    try:
        yield
    finally:
        sys.argv = words
        for number, handler in kept.items():
            signal.signal(number, handler)


def word_of(value: Value) -> str:
    """A value as a word of a sweep; a text with a comma, or with what looks like a range or a list, stands in
    quotes."""
    if isinstance(value, (bool, list)):
        return text_of_value(value)
    text = str(value)
    return f'"{text}"' if isinstance(value, str) and ("," in text or ".." in text or text[:1] == "[") else text


def option_words(options: Mapping[str, Words]) -> list[str]:
    """The words of the command line for some options."""
    words: list[str] = []
    for name, given in options.items():
        refuse(name not in OPTIONS, f"a sweep takes no {name} here; it takes vary, {', '.join(OPTIONS)}")
        each = [str(given)] if isinstance(given, (str, int, float)) else [*given]
        words += [f"{OPTIONS[name]}={word}" for word in ([",".join(each)] if name in JOINED else each)]
    return words


def table_of(header: Sequence[str], rows: Sequence[Sequence[Any]], as_lists: bool) -> Any:
    """A table of rows of texts, in which columns of numbers have numbers."""
    columns = {name: list(cells) if name in TEXTS else numbers_in(cells)
               for name, cells in zip(header, list(zip(*rows)) or [()] * len(header))}
    if as_lists:
        return [dict(zip(columns, cells)) for cells in zip(*columns.values())]
    return pandas().DataFrame(columns)


def numbers_in(cells: Sequence[Any]) -> list[Any]:
    """The numbers of a column, None where a cell is empty; its texts where one of them is no number."""
    texts = [str(cell) for cell in cells]
    if not all(not text or NUMBER.fullmatch(text) for text in texts):
        return texts
    return [(float(text) if "." in text else int(text)) if text else None for text in texts]
