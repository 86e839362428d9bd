"""The rows of a sweep put together over runs and set against one another, as CSV and as tables for people.

The tools import it; it is not a command.
"""
from __future__ import annotations

import itertools
import re
import statistics
from collections.abc import Iterable, Iterator, Sequence
from typing import NamedTuple

from .requirements import AGES, folded_as, interval_of_mean
from .runs import ALL_COLUMNS
from .statistics import Difference, Interval, half_width, holm, paired, percentile_interval
from .units import decimal, number_of

# What a table for people leaves out of what is shown of a column.
NOT_IN_TABLES = ("median_low", "median_high", "less", "adjusted")
# What is shown of the differences of a column from those of the base, run by run.
AGAINST = ("difference", "low", "high", "greater", "less", "adjusted", "shown")
# The adjusted probability at which a difference is shown.
SHOWN = 0.05
Row = Sequence[str]


class Table(NamedTuple):
    """A header and its rows; `columns` are the columns of the report at its end."""
    header: list[str]
    rows: list[list[str]]
    columns: list[str]

    @property
    def settings(self) -> list[str]:
        """The varied settings, which come before `failed`."""
        return self.header[:self.header.index("failed")]


def spread_of(column: str, texts: Iterable[str]) -> list[str]:
    """What `folded_as` names, of the numbers among the texts of a column."""
    numbers = [number_of(text) for text in texts if text]
    if not numbers:
        return [""] * len(folded_as(column))
    deviation = decimal(statistics.stdev(numbers)) if len(numbers) > 1 else ""
    return [decimal(statistics.fmean(numbers)), deviation, str(min(numbers)), decimal(statistics.median(numbers)),
            str(max(numbers)), *mean_texts(column, numbers), *interval_texts(percentile_interval(numbers, 0.5))]


def mean_texts(column: str, numbers: Sequence[float]) -> list[str]:
    """The ends of the interval of a mean of ages; of other numbers half the width of Student's."""
    if column in AGES:
        return interval_texts(interval_of_mean(column, numbers))
    half = half_width(numbers)
    return ["" if half is None else decimal(half)]


def interval_texts(interval: Interval | None) -> list[str]:
    return ["", ""] if interval is None else [*map(decimal, interval)]


def folded(table: Table, tied: Iterable[str]) -> Table:
    """The rows put together that differ in some settings alone, which go with each other."""
    header, rows, columns = table
    places = [place for place, name in enumerate(header[:-len(columns)]) if name not in tied]
    groups: dict[tuple[str, ...], list[Row]] = {}
    for row in rows:
        groups.setdefault(tuple(row[place] for place in places), []).append(row[-len(columns):])
    told = [f"{column}_{of}" for column in columns for of in folded_as(column)]
    return Table([*(header[place] for place in places), "runs", *told],
                 [[*key, str(len(group)), *itertools.chain(*map(spread_of, columns, zip(*group)))]
                  for key, group in groups.items()], told)


def differences_of(base: Sequence[Row], other: Sequence[Row]) -> list[Difference | None]:
    """The differences of each column, run by run; runs in which one of the two has no number are left out."""
    found: list[Difference | None] = []
    for before, after in zip(zip(*base), zip(*other)):
        pairs = [(number_of(first), number_of(second)) for first, second in zip(before, after) if first and second]
        found.append(paired([first for first, _ in pairs], [second for _, second in pairs]) if pairs else None)
    return found


def against(table: Table, tied: Sequence[str], setting: str, word: str) -> Table:
    """Each variant's differences from the variant in which `setting` is `word`, over the runs that share a seed.

    `adjusted` is Holm's probability over all differences of the table; the difference is shown if it is 5 % at most.
    """
    header, rows, columns = table
    place, width = header.index(setting), len(header) - len(columns)
    kept = [at for at in range(width) if header[at] not in tied and at != place]
    over = [header.index(name) for name in tied]
    groups: dict[tuple[str, ...], dict[str, dict[tuple[str, ...], Row]]] = {}
    for row in rows:
        of_key = groups.setdefault(tuple(row[at] for at in kept), {})
        of_key.setdefault(row[place], {})[tuple(row[at] for at in over)] = row[width:]
    compared = []
    for key, variants in groups.items():
        base = variants.get(word, {})
        for other, runs in variants.items():
            shared = [run for run in runs if run in base]
            if other != word and shared:
                compared.append((key, other, len(shared), differences_of([base[run] for run in shared],
                                                                         [runs[run] for run in shared])))
    probabilities = iter(holm([found.probability for *_, differences in compared for found in differences
                               if found is not None and found.probability is not None]))
    told = [f"{column}_{of}" for column in columns for of in AGAINST]
    head = [setting, *(header[at] for at in kept), "runs", *told]
    return Table(head, [[other, *key, str(runs), *itertools.chain(*(difference_texts(found, probabilities)
                                                                    for found in differences))]
                        for key, other, runs, differences in compared], told)


def difference_texts(found: Difference | None, probabilities: Iterator[float]) -> list[str]:
    """What AGAINST names; the adjusted probabilities come in the order of the differences that have one."""
    if found is None:
        return [""] * len(AGAINST)
    counts = [str(found.greater), str(found.less)]
    if found.interval is None or found.probability is None:
        return [decimal(found.mean), "", "", *counts, "", ""]
    adjusted = next(probabilities)
    return [decimal(found.mean), *map(decimal, found.interval), *counts, f"{adjusted:.4f}",
            "yes" if adjusted <= SHOWN else "no"]


def heads_of(name: str) -> tuple[str, str]:
    """The two lines above a column of a table: for runs that were put together the column of the report, and what is
    shown of it."""
    for column in ALL_COLUMNS:
        of = name.removeprefix(f"{column}_")
        if of != name and of in (*folded_as(column), *AGAINST):
            return column, of
    return "", name


def table_text(header: Sequence[str], rows: Sequence[Row]) -> str:
    """The rows in columns, numbers to the right; columns, and rows of a queue, without any number are left out."""
    failed = header.index("failed")
    first = failed + (3 if header[failed + 2:failed + 3] == ["runs"] else 2)
    rows = [row for row in rows if any(row[first:]) or row[failed]]
    columns = [column for column in zip(header, *rows) if any(column[1:]) and heads_of(column[0])[1]
               not in NOT_IN_TABLES]
    above, before = "", ""
    lines: list[list[str]] = [[] for _ in range(len(rows) + 1)]
    for name, *cells in columns:
        head, name = heads_of(name)
        if head and head != before:
            above = above.ljust(sum(len(cell) + 2 for cell in lines[0])) + head
        before = head
        width = max(map(len, (name, *cells)))
        is_number = all(re.fullmatch(r"-?[0-9.]*", cell) for cell in cells)
        for line, cell in zip(lines, (name, *cells)):
            line.append(cell.rjust(width) if is_number else cell.ljust(width))
    text = "".join("  ".join(line).rstrip() + "\n" for line in lines if line)
    return f"{above}\n{text}" if above else text

