"""What happened in each queue of a log over time, as picture and report draw it. It is not run by itself.

A history has few bytes for each row, so that logs of some million rows can be drawn; numpy works them out.
"""
from __future__ import annotations

import math
import re
from array import array
from collections import Counter
from collections.abc import Sequence
from typing import Any, NamedTuple

from .console import Fault, Library, refuse, shown
from .logs import NUMBER, Head, Log, What
from .replay import (DELAYED, IN_FLIGHT, NOWHERE, VISIBLE, BadRow, Places, Replay, copies_in, handlers_of, replay,
                     take_finals)

# A change is four times the place that a message leaves and the place that it comes to.
PLACES = {"visible": VISIBLE, "in flight": IN_FLIGHT, "delayed": DELAYED}
ENTERED = 4 * NOWHERE + VISIBLE
ENTERED_DELAYED = 4 * NOWHERE + DELAYED
ID = re.compile("m-[0-9]{1,19}-[0-9]{1,19}")
# Moments and ages have 32 bits, which the longest horizon does not pass; the last number stands for none.
MOMENT, NONE = "I", 2 ** 32 - 1
# Where a message stands has 32 bits with a sign.
PLACE, GONE = "i", -1 - NOWHERE
# Ages are on a logarithmic axis from this ratio on of the greatest one to that in the middle.
LOG_RATIO = 100
# A picture ends with the traffic if that takes less than this share of the run.
TRAFFIC_SHARE = 0.8
numpy = Library("numpy", "python3-numpy")


def no_moments() -> "array[int]":
    return array(MOMENT)


def cannot_be(text: str) -> BadRow:
    return BadRow(f"{shown(text)} cannot be: is this the whole log?")


class History(Places):
    """What the rows of one queue told.

    `times` and `changes` say when a message changed its state. Messages have numbers, in the order in which they came.
    `came` says when each came. `stands` has the state of each as a negative number; if it has not moved since it came,
    it has instead the index of that change in `changes`, because only a release shows that it had been delayed.
    `oldest` is the number of the oldest one that is there. `oldest_at` says when that changed, and `sinces` when the
    new oldest one had come in. `copies` has for each scaler the moments at which it changed how many copies ask, and
    these numbers, of which the first holds before the first moment.
    """

    def __init__(self, name: str) -> None:
        self.name, self.head, self.kinds = name, "", Counter[What]()
        self.number: float = math.inf
        self.times, self.changes = no_moments(), bytearray()
        self.deleted_at, self.ages, self.redrives, self.expiries = (no_moments() for _ in range(4))
        self.oldest_at, self.sinces, self.came = (no_moments() for _ in range(3))
        self.stands: array[int] = array(PLACE)
        self.oldest = self.left = self.moves = self.peak = self.peak_at = 0
        self.copies: dict[str, tuple[array[int], list[int]]] = {}
        self.note_time, self.note_change, self.note_age = self.times.append, self.changes.append, self.ages.append

    @property
    def entered(self) -> int:
        return len(self.came)

    def number_of(self, message: str) -> int | None:
        """The number of a message that is in the queue, or None."""
        try:
            number = int(message[len(self.head):])
        except ValueError:
            return None
        is_there = 0 <= number < len(self.stands) and self.stands[number] != GONE
        return number if is_there and message == f"{self.head}{number}" else None

    def enters(self, at: int, head: Head, message: str, receipt: str, detail: str) -> None:
        stands = self.stands
        if not stands and ID.fullmatch(message):
            self.head = message[:message.rindex("-") + 1]
            self.number = int(message.split("-")[1])
        if message != f"{self.head}{len(stands)}":
            raise cannot_be(message)
        if self.oldest == len(stands):
            self.oldest_at.append(at)
            self.sinces.append(at)
        stands.append(len(self.times))
        self.came.append(at)
        self.note_time(at)
        self.note_change(ENTERED)
        self.left += 1
        if self.left > self.peak:
            self.peak, self.peak_at = self.left, at

    def put(self, at: int, message: str, place: int) -> int:
        """Puts a message in a place; gives its number."""
        number = self.number_of(message)
        if number is None:
            raise cannot_be(message)
        stands = self.stands[number]
        self.note_time(at)
        self.note_change(place if stands >= 0 else 4 * (-1 - stands) + place)
        self.stands[number] = -1 - place
        return number

    def was_delayed(self, message: str) -> None:
        number = self.number_of(message)
        if number is not None and self.stands[number] >= 0:
            self.changes[self.stands[number]] = ENTERED_DELAYED
            self.stands[number] = -1 - DELAYED

    def leave(self, at: int, message: str) -> None:
        number, stands = self.put(at, message, NOWHERE), self.stands
        self.left -= 1
        if number == self.oldest:
            while number < len(stands) and stands[number] == GONE:
                number += 1
            self.oldest = number
            self.oldest_at.append(at)
            self.sinces.append(self.came[number] if number < len(stands) else NONE)

    def deleted(self, at: int, head: Head, message: str, receipt: str, age: str) -> None:
        if not NUMBER.fullmatch(age):
            raise cannot_be(age)
        self.leave(at, message)
        self.deleted_at.append(at)
        self.note_age(int(age))

    def redriven(self, at: int, head: Head, message: str, receipt: str, detail: str) -> None:
        self.leave(at, message)
        self.redrives.append(at)

    def expired(self, at: int, head: Head, message: str, receipt: str, detail: str) -> None:
        self.leave(at, message)
        self.expiries.append(at)

    def moved(self, at: int, head: Head, message: str, receipt: str, detail: str) -> None:
        self.leave(at, message)
        self.moves += 1

    def scaled(self, at: int, head: Head, message: str, receipt: str, detail: str) -> None:
        before, after = copies_in(detail)
        times, numbers = self.copies.setdefault(head.agent, (no_moments(), [before]))
        times.append(at)
        numbers.append(after)

    def counts(self) -> str:
        """The numbers of the whole run, in words."""
        counts = [(self.entered, "came in"), (len(self.ages), "deleted"), (len(self.redrives), "redriven"),
                  (self.moves, "moved away"), (len(self.expiries), "expired"), (self.left, "left")]
        return ", ".join(f"{count:,} {what}" for count, what in counts if count or what in ("came in", "left"))


HANDLERS = handlers_of(History)


class Histories:
    """The queues of a log by name, and the times of its first and last row.

    `known` has the names of all queues if the report follows the log, and is None otherwise. `traffic` is when the last
    message moved.
    """

    def __init__(self, log: Log) -> None:
        self.queues: dict[str, History] = {}
        self.first = self.last = self.traffic = 0
        try:
            self.read(log)
        except OverflowError as reason:
            raise Fault(f"{log.path} line {log.line}: {cannot_be(str(reason))}") from None
        refuse(not self.queues, f"{log.path} has no rows to draw")
        take_finals(log, self.queues)
        self.known = None if log.is_open else list(log.report)

    def read(self, log: Log) -> None:
        queues = self.queues

        def named(name: str) -> History:
            self.first = self.first if queues else rows.at
            queues[name] = History(name)
            return queues[name]

        rows = Replay(queues, named, HANDLERS)
        last = replay(log, rows)
        if last is not None:
            self.last = max(last, self.first + 1)
            moved = max((queue.times[-1] for queue in queues.values() if queue.times), default=self.last)
            self.traffic = max(moved, self.first + 1)

    def end_of_traffic(self) -> int:
        """When to end a picture: soon after the last message has left, if the run goes on for long without any."""
        is_over = not any(queue.left for queue in self.queues.values())
        end = self.traffic + (self.traffic - self.first) // 20 + 1
        return end if is_over and end < self.first + (self.last - self.first) * TRAFFIC_SHARE else self.last

    def chosen(self, names: Sequence[str] | None, most: int) -> tuple[list[History], str]:
        """The queues to draw, as named or else the busiest in the order of the scenario, and what is left out."""
        for name in names or ():
            if name not in self.queues and self.known is not None and name not in self.known:
                raise Fault(f"the run has no queue {shown(name)}")
            if name not in self.queues and self.known is None:
                raise Fault(f"no row of the log is of queue {shown(name)}, and no report follows it")
        if names:
            return [self.queues.get(name) or History(name) for name in dict.fromkeys(names)], ""
        busiest = sorted(self.queues.values(), key=lambda queue: -sum(queue.kinds.values()))[:most]
        left_out = f"the {most} busiest of {len(self.queues):,} queues" if len(self.queues) > most else ""
        return sorted(busiest, key=lambda queue: queue.number), left_out


def moments(numbers: "array[int]") -> Any:
    """An array of moments or ages for numpy, without a copy."""
    return numpy.frombuffer(numbers, dtype=numpy.uint32)


def levels(queue: History, place: int, start: int, end: int) -> tuple[Any, Any]:
    """The moments at which the number of messages in a place changes, and the number from then on, as arrays.

    The first moment is the start and the last the end. What changes back within a millisecond is left out.
    """
    by_code = numpy.array([(code % 4 == place) - (code // 4 == place) for code in range(16)], dtype=numpy.int8)
    steps = by_code[numpy.frombuffer(queue.changes, dtype=numpy.uint8)]
    is_change = steps != 0
    times, numbers = moments(queue.times)[is_change], numpy.cumsum(steps[is_change], dtype=numpy.int32)
    if len(times):
        is_last = numpy.append(times[1:] != times[:-1], True)
        times, numbers = times[is_last], numbers[is_last]
        is_change = numpy.append(True, numbers[1:] != numbers[:-1])
        times, numbers = times[is_change], numbers[is_change]
    return within(times, numpy.insert(numbers, 0, 0), start, end)


def copies_levels(times: "array[int]", numbers: Sequence[int], start: int, end: int) -> tuple[Any, Any]:
    """The same of the copies that a scaler lets ask."""
    return within(moments(times), numpy.array(numbers, dtype=numpy.int32), start, end)


def within(times: Any, numbers: Any, start: int, end: int) -> tuple[Any, Any]:
    """The moments of changes from a start to an end, which are the first and the last one, and the number from each on.
    The first of the given numbers holds before the first moment."""
    begin, stop = numpy.searchsorted(times, numpy.array([start, end]), side="right")
    first, last = numpy.array([[start], [end]], dtype=numpy.uint32)
    return (numpy.concatenate((first, times[begin:stop], last)),
            numpy.concatenate((numbers[begin:stop + 1], numbers[stop:stop + 1])))


class Course(NamedTuple):
    """A number over time, in consecutive spans: `times` has the beginning of each, and at last the end of the last one.

    Within a span the number goes evenly from that in `firsts` to that in `lasts`; it is nan if there is none.
    """

    times: Any
    firsts: Any
    lasts: Any

    def corners(self) -> tuple[Any, Any]:
        """The corners of the line."""
        return (numpy.stack([self.times[:-1], self.times[1:]], axis=1).ravel(),
                numpy.stack([self.firsts, self.lasts], axis=1).ravel())

    def greatest(self) -> float:
        """The greatest number; 0 if there is none."""
        return 0.0 if numpy.isnan(self.lasts).all() else float(numpy.nanmax(self.lasts))

    def split_at(self, moments: Any) -> "Course":
        """The same with spans that also begin at these moments, which are whole, ascend, and are within the times."""
        places = numpy.searchsorted(self.times, moments, side="left")
        spans = places - 1
        lengths = (self.times[places] - self.times[spans]).astype(float)
        shares = (moments - self.times[spans]) / lengths
        numbers = self.firsts[spans] + (self.lasts[spans] - self.firsts[spans]) * shares
        begun = places + numpy.arange(len(places))
        lasts = numpy.insert(self.lasts.astype(numpy.float32), places, self.lasts[spans])
        lasts[begun - 1] = numbers
        times = numpy.insert(self.times, places, moments)
        is_long = numpy.append(times[1:] > times[:-1], True)
        return Course(times[is_long], numpy.insert(self.firsts.astype(numpy.float32), places, numbers)[is_long[:-1]],
                      lasts[is_long[:-1]])

    def extents(self, columns: int) -> "Extents":
        """The mean, least and greatest number in each of `columns` equal columns of time, each of some whole
        milliseconds."""
        start, end = int(self.times[0]), int(self.times[-1])
        columns = max(1, min(columns, end - start))
        bounds = numpy.floor(numpy.linspace(start, end, columns + 1))
        times, firsts, lasts = self.split_at(bounds[1:-1])
        starts = numpy.searchsorted(times[:-1], bounds[:-1], side="left")
        # half the bytes of the usual numbers, which matters for millions of spans
        widths, zero = numpy.diff(times).astype(numpy.float32), numpy.float32(0)
        known = ~numpy.isnan(firsts)
        areas = numpy.add.reduceat(numpy.where(known, (firsts + lasts) / 2 * widths, zero), starts, dtype=float)
        lengths = numpy.add.reduceat(numpy.where(known, widths, zero), starts, dtype=float)
        means = numpy.full(columns, numpy.nan)
        means[lengths > 0] = areas[lengths > 0] / lengths[lengths > 0]
        return Extents(bounds, means, numpy.fmin.reduceat(numpy.fmin(firsts, lasts), starts),
                       numpy.fmax.reduceat(numpy.fmax(firsts, lasts), starts))


class Extents(NamedTuple):
    """Columns of time between bounds, and of each the mean of a number, the least and the greatest one."""

    bounds: Any
    means: Any
    least: Any
    greatest: Any


def course_of(times: Any, numbers: Any) -> Course:
    """The course of a number that stays as it is from each time to the next, as `levels` has it."""
    return Course(times, numbers[:-1], numbers[:-1])


def edges(start: int, end: int, bins: int) -> Any:
    """The limits of `bins` bins of time, each at least a millisecond long."""
    return numpy.linspace(start, end, max(1, min(bins, end - start)) + 1)


def ages_in(queue: History, bounds: Any, percents: Sequence[int] = (50, 95, 100)) -> list[Any]:
    """For each percentage the nearest rank of the ages deleted in each bin; none if nothing was deleted."""
    ages = moments(queue.ages)
    bins = bin_of(moments(queue.deleted_at), bounds)
    is_inside = (bins >= 0) & (bins < len(bounds) - 1)
    bins, ages = bins[is_inside], ages[is_inside]
    ages = ages[numpy.lexsort((ages, bins))]
    starts = numpy.searchsorted(bins, numpy.arange(len(bounds)))
    counts = numpy.diff(starts)
    found = []
    for percent in percents:
        ranks = numpy.full(len(counts), numpy.nan)
        has_any = counts > 0
        ranks[has_any] = ages[(starts[:-1] + (counts * percent + 99) // 100 - 1)[has_any]]
        found.append(ranks)
    return found


def ages_are_spread(queue: History, bounds: Any) -> bool:
    """Whether ages of deleted messages differ so much that a logarithmic axis shows them better."""
    middle, greatest = (float(ranks[0]) for ranks in ages_in(queue, bounds[[0, -1]], (50, 100)))
    return greatest > LOG_RATIO * max(1, middle)


def bin_of(times: Any, bounds: Any) -> Any:
    """The index of the bin of each time; a time at the end of the last bin is in it."""
    bins = (numpy.searchsorted(bounds, times, side="right") - 1).astype(numpy.int32)
    bins[times == bounds[-1]] = len(bounds) - 2
    return bins


def counts_in(times: "array[int]", bounds: Any) -> Any:
    """How many times are in each bin."""
    bins = bin_of(moments(times), bounds)
    return numpy.bincount(bins[(bins >= 0) & (bins < len(bounds) - 1)], minlength=len(bounds) - 1)


def oldest(queue: History, start: int, end: int) -> Course:
    """The age of the oldest message over time; none while the queue is empty."""
    at, since = moments(queue.oldest_at), moments(queue.sinces)
    begin, stop = numpy.searchsorted(at, numpy.array([start, end]), side="right")
    begin = max(0, begin - 1)
    at, since = at[begin:stop], since[begin:stop]
    if not len(at):
        nothing = numpy.full(1, numpy.nan)
        return Course(numpy.array([start, end]), nothing, nothing)
    times = numpy.append(numpy.maximum(at, numpy.uint32(min(start, NONE))), numpy.uint32(max(min(end, NONE), at[-1])))
    return Course(times, ages_since(times[:-1], since), ages_since(times[1:], since))


def ages_since(times: Any, since: Any) -> Any:
    """How long ago the oldest message came at some times; none if there is no message."""
    ages = (times - since).astype(numpy.float32)
    ages[since == NONE] = numpy.nan
    return ages
