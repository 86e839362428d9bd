"""What must hold of the report of a run. tools/sweep and tools/report import it; it is not a command."""
from __future__ import annotations

import fnmatch
import math
import operator
import re
from collections.abc import Sequence
from fractions import Fraction
from typing import NamedTuple

from .console import Fault, shown
from .doors import DOOR_SHARES
from .figures import AGES as CENSORED
from .figures import BACKLOG_GONE, BUSY, MOMENTS
from .logs import PLACES
from .runs import ALL_COLUMNS, COLUMNS, PERCENTILES, Ages
from .statistics import Interval, half_width, holds_within, mean_of, rank_of, share_left, skew_interval
from .units import duration, number_of, quantity

# Which percentile a column of ages is.
SHARES = {**PERCENTILES, **DOOR_SHARES}

# The columns of ages, whose law over runs has a long upper tail.
AGES = {*SHARES, *CENSORED}


def folded_as(column: str) -> tuple[str, ...]:
    """What a sweep tells of a column over several runs."""
    interval = ("mean_low", "mean_high") if column in AGES else ("half_width",)
    return "mean", "deviation", "least", "median", "greatest", *interval, "median_low", "median_high"


def interval_of_mean(column: str, numbers: Sequence[float]) -> Interval | None:
    """The interval of the mean of a column over runs; None for fewer than two."""
    if column in AGES:
        return skew_interval(numbers)
    half = half_width(numbers)
    return None if half is None else Interval(mean_of(numbers) - half, mean_of(numbers) + half)


class Failure(NamedTuple):
    """That a requirement fails, or is undecided because of the messages that are left, and why."""
    word: str
    reason: str


class Requirement:
    """What must hold in each variant, such as orders.age_p95<60s, or in a share of its runs, such as orders.age_p95<60s
    in 95%.

    `share` is that share, or None if it must hold in all.
    """

    COMPARISONS = {"<": operator.lt, "<=": operator.le, ">": operator.gt, ">=": operator.ge, "=": operator.eq,
                   "==": operator.eq, "!=": operator.ne}
    WORDS = re.compile(r"([^<>=!]+)\.([A-Za-z0-9_]+)\s*(<=|>=|==|!=|<|>|=)\s*(.*)")
    SHARE = re.compile(r"(.*\S)\s+in\s+([0-9]{1,3}(?:\.[0-9]{1,6})?)\s*%")

    def __init__(self, text: str) -> None:
        shared = self.SHARE.fullmatch(text.strip())
        self.share = float(Fraction(shared[2]) / 100) if shared else None
        if shared and self.share is not None and self.share >= 1:
            raise Fault(f"{shown(text)}: a share of the runs is under 100 %; without `in` it must hold in all")
        match = self.WORDS.fullmatch(shared[1] if shared else text.strip())
        if not match or self.share == 0:
            raise Fault(f"{shown(text)} is no requirement, as orders.age_p95<60s")
        self.text, self.queue, self.column = text.strip(), match[1], match[2]
        if self.column not in ALL_COLUMNS:
            raise Fault(f"{shown(text)}: there is no column {self.column}; there are {', '.join(ALL_COLUMNS)}")
        found = quantity(match[4].removesuffix("%") if self.column == BUSY else match[4])
        if found is None or found[1] and not self.is_time:
            wanted = "a share, as 90%" if self.column == BUSY else \
                f"a number {'with a unit, as 60s' if self.is_time else 'without a unit'}"
            raise Fault(f"{shown(text)}: {shown(match[4])} is not {wanted}")
        self.bound, self.holds = found[0], self.COMPARISONS[match[3]]

    @property
    def is_age(self) -> bool:
        """Whether it is on an age when messages were deleted, as a report has them or since the first send."""
        return self.column.startswith("age_") or self.column in DOOR_SHARES

    @property
    def is_time(self) -> bool:
        return self.is_age or self.column in (*CENSORED, BACKLOG_GONE, *MOMENTS)

    def is_of(self, name: str) -> bool:
        return fnmatch.fnmatchcase(name, self.queue)

    def told_of(self, name: str) -> str:
        """The requirement, with the queue for which it was checked if its own words leave that open."""
        return self.text if name == self.queue else f"{self.text} of {name}"

    def failure(self, numbers: Sequence[str], ages: Ages | None = None) -> Failure | None:
        """Why it does not hold for a queue with these numbers of the report; None if it holds.

        Messages that are left may get any age from the one that they have on. `ages` has the bounds, if they are known.
        """
        text = numbers[ALL_COLUMNS.index(self.column)]
        if not text:
            return Failure("fails", self.why_empty())
        number, left = number_of(text), self.left_told(numbers, ages)
        if not left or self.column not in (*SHARES, *CENSORED):
            return None if self.holds(number, self.bound) else Failure("fails", self.told_number(number))
        interval = ages.bounds.get(self.column) if ages else None
        interval = interval or bounds_by_report(self.column, numbers)
        is_held = holds_within(interval, self.holds, self.bound)
        if is_held:
            return None
        bounds = f"{interval.low} ms or more" if math.isinf(interval.high) else f"{interval.low} to {interval.high} ms"
        return Failure("fails" if is_held is False else "is undecided",
                       f"{self.told_number(number)}, of those deleted, and {bounds} with {left}")

    def left_told(self, numbers: Sequence[str], ages: Ages | None = None) -> str:
        """The messages that are left, or that may still come, in words; nothing if there are none."""
        left, coming = left_of(numbers), ages.may_come if ages and self.column in DOOR_SHARES else 0
        share = 100 * share_left(int(numbers[COLUMNS.index("deletes")]), left + coming)
        told = " and ".join(text for text in (f"the {left:,} that are left" if left else "",
                                              f"the {coming:,} that may still come" if coming else "") if text)
        return told and f"{told} ({share:.3g} %)"

    def why_empty(self) -> str:
        """Why there is no number."""
        if self.column == BACKLOG_GONE:
            return "a backlog is there at the end"
        if self.column == BUSY:
            return "it has no consumer"
        kind = next((f"{kind} " for kind in ("new", "moved") if self.column.startswith(kind)), "")
        return f"no {kind}message was deleted" + (self.column in DOOR_SHARES) * (
            ", or of one it is open when it was first sent (summary --door tells)")

    def told_number(self, number: float) -> str:
        unit = f" ms, {duration(int(number))}" if self.is_time else " %" if self.column == BUSY else ""
        return f"it is {number}{unit}"

    def is_open(self, numbers: Sequence[str]) -> bool:
        """Whether the report leaves open if it holds, so that the bounds of the age have to be known."""
        if self.column not in PERCENTILES or not numbers[ALL_COLUMNS.index(self.column)] or not left_of(numbers):
            return False
        return holds_within(bounds_by_report(self.column, numbers), self.holds, self.bound) is None


def left_of(numbers: Sequence[str]) -> int:
    """How many messages a report says are left in a queue."""
    return sum(int(numbers[COLUMNS.index(place)]) for place in PLACES.values())


def bounds_by_report(column: str, numbers: Sequence[str]) -> Interval:
    """The bounds of a percentile of ages if any message that is left may get any age, by the ranks of a report in which
    some messages were deleted."""
    deleted, left = int(numbers[COLUMNS.index("deletes")]), left_of(numbers)
    shares = PERCENTILES if column in PERCENTILES else DOOR_SHARES
    ranks = [(rank_of(deleted, share), int(numbers[ALL_COLUMNS.index(of)])) for of, share in shares.items()]
    rank = rank_of(deleted + left, SHARES[column])
    return Interval(max((age for place, age in ranks if place <= rank - left), default=0),
                    min((age for place, age in ranks if place >= rank), default=math.inf))
