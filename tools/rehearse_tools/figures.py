"""The figures that the program counts of a run, and what columns of a sweep or of a report they are.

The tools import it; it is not a command.
"""
from __future__ import annotations

import math
from collections.abc import Iterable, Mapping, Sequence
from typing import Any, NamedTuple

from .console import Fault
from .fact_tables import rows_of
from .logs import AGES as REPORTED_AGES
from .logs import FIGURE_HEADER, FIGURES_OF, REFUSALS, REPORT_HEADER
from .statistics import Interval
from .units import decimal

# The columns that no report has, named as those of it; they end as a spread's do not. Of these each with its figure of a
# queue, and those that are made of figures: the cost of the requests, when the last backlog was gone, and the busiest
# consumer.
FURTHER = rows_of("further")
COLUMNS = tuple(row["name"] for row in FURTHER)
OF_QUEUE = {row["name"]: row["figure"] for row in FURTHER if row["figure"]}
COST, BACKLOG_GONE, BUSY = "cost", "backlog_gone", "busy"
# The columns of ages, each with its figure without its unit: those of a report and the others. Of these the program also
# tells the bounds within which messages that are left may turn them.
OF_REPORT = {column: FIGURES_OF[column][0].removesuffix("_ms") for column in REPORTED_AGES}
AGES = {column: figure.removesuffix("_ms") for column, figure in OF_QUEUE.items() if "age" in column}
GONE, SINCE, OF_ACTOR, REFUSED = "backlog_gone_at_ms", "backlog_since_ms", "busy_ms", "refused_requests"
# The columns that are moments of a run.
MOMENTS = tuple(column for column in OF_QUEUE if column.endswith("_at_ms"))
# All the time, in hundredths of a percent.
WHOLE = 10_000
# How long a window of time is, in milliseconds, and for how many requests prices are.
WINDOW, PRICED = 300_000, 1_000_000


class Numbers(dict[str, Any]):
    """The figures of a queue or another agent by their names, None where there is no number."""

    def __missing__(self, name: str) -> Any:
        raise Fault(f"the program counts no {name}: it is of another version than this tool")


# The figures of each queue and other agent by its name.
Figured = dict[str, Numbers]
# How many calls of a queue were refused, by the names of the refusals.
Refused = Mapping[str, int]


def figures_in(records: Iterable[Sequence[str]]) -> Figured:
    """The figures in records; one that is cut is left out."""
    found: Figured = {}
    for record in records:
        if record != FIGURE_HEADER and len(record) == len(FIGURE_HEADER):
            _, of, name, number = record
            found.setdefault(of, Numbers())[name] = int(number) if number else None
    return found


class Figures(NamedTuple):
    """The figures that are wanted of a run: from a moment on, of a run that ends at another, with windows of time of so
    many milliseconds. `consumers` has the names of those of each queue, `price` is that of a million requests, and with
    `has_columns` the columns that no report has are wanted."""
    first: int
    end: int
    consumers: Mapping[str, Sequence[str]] = {}
    window: int = WINDOW
    price: float | None = None
    has_columns: bool = True

    def words(self) -> list[str]:
        """The program's options for these figures."""
        return ["--figures", "--from", str(self.first), "--window-figures", str(self.window)]

    def record_of(self, record: Sequence[str], figured: Figured, before: Refused | None) -> list[str]:
        """The record of a queue in a report, from its name on, of what happened from the first moment on: by its
        figures, and by what was refused before. The refusals are empty if that is needed and not known."""
        if not self.first:
            return [*record]
        of, whole = figured[record[0]], dict(zip(REPORT_HEADER[1:], record))
        counted = {column: text_of(summed(of[figure] for figure in figures)) for column, figures in FIGURES_OF.items()}
        return [*{**whole, **counted, **refusals_of(whole, of[REFUSED], before)}.values()]

    def columns_of(self, queue: str, figured: Figured) -> list[str]:
        """The columns of a queue that no report has."""
        return [self.column_of(column, queue, figured) for column in COLUMNS]

    def column_of(self, column: str, queue: str, figured: Figured) -> str:
        """The text of a column of a queue that no report has; empty if there is no number."""
        of = figured[queue]
        if column == COST:
            return "" if self.price is None else decimal(of["requests"] * self.price / PRICED, 6)
        if column == BACKLOG_GONE:
            return "" if of[SINCE] is not None else text_of(of[GONE] or 0)
        return self.busy_of(queue, figured) if column == BUSY else text_of(of[OF_QUEUE[column]])

    def busy_of(self, queue: str, figured: Figured) -> str:
        """The greatest share of time, in percent, that a consumer of a queue was busy, rounded down to hundredths, so
        that 100 is all the time; empty without a consumer."""
        times = [figured[name][OF_ACTOR] for name in self.consumers.get(queue, ())]
        if not times:
            return ""
        hundredths = max(times) * WHOLE // max(1, self.end + 1 - self.first)
        return f"{hundredths / 100:g}"


def summed(numbers: Iterable[int | None]) -> int | None:
    """The sum of numbers, None if there are none."""
    known = [number for number in numbers if number is not None]
    return sum(known) if known else None


def text_of(number: int | None) -> str:
    return "" if number is None else str(number)


def refusals_of(whole: Mapping[str, str], refused: int, before: Refused | None) -> dict[str, str]:
    """The columns of refusals from a moment on, of which there were so many in all, by those of the whole run and those
    before; no figure has their names."""
    numbers = {name: int(whole[name]) for name in REFUSALS}
    if refused == sum(numbers.values()):
        return {name: whole[name] for name in REFUSALS}
    if refused and before is None:
        return dict.fromkeys(REFUSALS, "")
    return {name: str(number - (before or {}).get(name, 0) if refused else 0) for name, number in numbers.items()}


def bounds_of(of: Numbers) -> dict[str, Interval]:
    """Within which bounds messages that are left may turn each column of ages, by the figures of its queue."""
    def bound(figure: str, none: float) -> float:
        number: int | None = of[figure]
        return none if number is None else number

    return {column: Interval(bound(f"{figure}_least_ms", 0), bound(f"{figure}_most_ms", math.inf))
            for column, figure in (*OF_REPORT.items(), *AGES.items())}
