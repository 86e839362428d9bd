"""Makes the quantiles of a service or a gap, from times that were measured or from numbers of a dashboard:

    tools/quantiles FILE [--column NAME] [--key gap] [--pairs N]
    tools/quantiles --p50 MS --p99 MS [--mean MS] [--max MS] [--key gap] [--pairs N]

FILE has times in milliseconds, one a line; - is standard input. With --column NAME it is a CSV file, and the times are
in the column of this name. Without FILE the times have a law. --pN, such as --p50, --p90, --p99 or --p99.9, is the time
that N of a hundred take at most, and --mean MS is the mean of all. Two of --pN make a lognormal law, and so does one
with --mean MS. Through more of them it is lognormal from each to the next. Two and a mean bend the law between them
until it has that mean. No time is over --max MS.

It prints the line `service = [[0, MS], .., [1000, MS]]` of a scenario, and with --key gap that of a producer's gap.
Between two pairs the program spreads times evenly, so pairs are closer together where times grow faster. There are at
most --pairs N of them (32, and 8 at least). The last time is the one that gives the table the right mean. If the mean
square is then wrong by more than a percent, the times of more than 90 % are lowered or raised until it is right, as far
as a quarter. The lines behind the table are comments, so that all of it may stand in a scenario. They say where the
times come from, their mean and standard deviation, those of the table, and how many percent these are wrong.

Examples:

    tools/quantiles --p50 120 --p99 900 --max 5000
    seq 80 120 | tools/quantiles - --key gap
"""
from __future__ import annotations

import bisect
import functools
import itertools
import math
import re
import statistics
from argparse import Namespace
from collections.abc import Sequence
from fractions import Fraction
from statistics import NormalDist
from typing import NamedTuple

from .arrivals import PLAIN_NUMBER, column_of, records_in
from .console import Fault, Parser, print_text, refuse, shown
from .scenarios import text_of_value

MOST, PERMILLES = 86_400_000, 1_000
PAIRS_LEAST, PAIRS_MOST = 8, 32
QUANTILE = re.compile(r"--p([0-9]{1,2}(?:\.[0-9]{1,6})?)(?:=.*)?")
# The permilles that each table has.
KEPT = (0, 999, PERMILLES)
# The share of the root mean square of times up to which a table may be off below the last pair but one. Then those of
# the mean and of the mean square up to which it may be off in all: by these two goes the mean wait in a queue.
CLOSE, CLOSE_MEAN, CLOSE_SQUARE = 0.003, 0.005, 0.01
# The permille behind which the tail begins, and the shares by which it may be drawn in; less than 0 is out.
TAIL, SHARES = 900, (-0.25, 0.25)
NORMAL = NormalDist()
# No part of a law counts that lies so many deviations from its median; and how long a step of a sum over it is.
FARTHEST, STEP = 8, 0.01
# The bends of a law that are tried, by their logarithms; and what counts as nothing beside a time.
BENDS, TINY = (-5.0, 5.0), 1e-6
Pairs = Sequence[Sequence[int]]


def drawn(low: float, high: float) -> float:
    """The mean of the times that the program draws between two pairs: evenly up to the second, and rounded down."""
    return low + max(high - low - 1, 0) / 2


def mean_of(pairs: Pairs) -> float:
    """The mean of the times that the program draws by a table."""
    return sum((end - start) * drawn(low, high) for (start, low), (end, high) in zip(pairs, pairs[1:])) / PERMILLES


def variance_of(pairs: Pairs) -> float:
    """Their variance, which is the square of their standard deviation."""
    mean = mean_of(pairs)
    # whole times from the first one on, as many as the second one is later, have the variance of so many numbers
    return sum((end - start) * ((drawn(low, high) - mean) ** 2 + (max(high - low, 1) ** 2 - 1) / 12)
               for (start, low), (end, high) in zip(pairs, pairs[1:])) / PERMILLES


class Times(NamedTuple):
    """Times by their quantiles at each permille, the parts of their mean below each permille, and their variance. As a
    table's times are rounded down, equal times count as spread over the next millisecond in `quantiles`. At the
    permilles `given` a table has just these quantiles; `most` is its greatest time."""

    quantiles: Sequence[float]
    sums: Sequence[float]
    variance: float
    given: Sequence[int]
    most: int

    def mean(self, start: int = 0, end: int = PERMILLES) -> float:
        """The mean of the times between two permilles."""
        return (self.sums[end] - self.sums[start]) * PERMILLES / (end - start)


# Times of a file.
def time_of(text: str, what: str) -> float:
    if not PLAIN_NUMBER.fullmatch(text):
        raise Fault(f"{what} is no time in milliseconds: {shown(text)}")
    if not 1 <= float(text) <= MOST:
        raise Fault(f"{what} is {text}, and a time of a scenario has 1 to {MOST:,} ms")
    return float(text)


def times_in(path: str, column: str | None) -> list[float]:
    """The times of a text, or of a column of a CSV file."""
    records = records_in(path)
    place = None if column is None else column_of(records[0], column, path)
    texts = [",".join(record) if place is None else "".join(record[place:place + 1]) for record in records]
    times = [time_of(text.strip(), f"{path}: record {number}")
             for number, text in enumerate(texts, 1) if place is None or number > 1]
    refuse(not times, f"{path} has no times")
    return sorted(times)


def of_file(times: Sequence[float]) -> Times:
    count, sums = len(times), [0.0, *itertools.accumulate(times)]

    def sum_below(permille: int) -> float:
        whole, rest = divmod(count * permille, PERMILLES)
        return (sums[whole] + (times[whole] * rest / PERMILLES if rest else 0)) / count

    def quantile(permille: int) -> float:
        time = times[min(count * permille // PERMILLES, count - 1)]
        first, last = bisect.bisect_left(times, time), bisect.bisect_right(times, time)
        return time + (count * permille / PERMILLES - first) / (last - first)

    permilles = range(PERMILLES + 1)
    return Times([*map(quantile, permilles)], [*map(sum_below, permilles)], statistics.pvariance(times), (), MOST)


# Times of a law.
class Law:
    """Times whose logarithms are a line of a normal variable from each of some points to the next: lognormal ones. With
    a bend other than 1 it is bent between the points, down for a greater one, and the mean is then less."""

    def __init__(self, points: Sequence[tuple[float, float]], most: int) -> None:
        self.normals, self.logs = [normal for normal, _ in points], [log for _, log in points]
        self.most, self.bend = most, 1.0
        slopes = [(high - low) / (after - before) for (before, low), (after, high) in zip(points, points[1:])]
        self.first, self.last = slopes[0], slopes[-1]

    def time(self, normal: float) -> float:
        place = bisect.bisect(self.normals, normal)
        start, low = self.normals[max(place - 1, 0)], self.logs[max(place - 1, 0)]
        if place == 0:
            log = low + (normal - start) * self.first * self.bend
        elif place == len(self.logs):
            log = low + (normal - start) * self.last / self.bend
        else:
            log = low + (self.logs[place] - low) * ((normal - start) / (self.normals[place] - start)) ** self.bend
        return min(max(math.exp(min(log, 99)), 1), self.most)

    def mean(self, bend: float) -> float:
        self.bend = bend
        return sum(weight * self.time(normal) for part in parts() for normal, weight in part)

    def bend_to(self, mean: float) -> bool:
        """Bends it until it has a mean; returns whether one has it."""
        low, high = BENDS
        if not self.mean(math.exp(high)) * (1 - TINY) <= mean <= self.mean(math.exp(low)) * (1 + TINY):
            return False
        for _ in range(40):
            middle = (low + high) / 2
            low, high = (middle, high) if self.mean(math.exp(middle)) > mean else (low, middle)
        return True


@functools.lru_cache(1)
def parts() -> list[list[tuple[float, float]]]:
    """For each permille of a normal variable the middles of its steps, with their weights."""
    ends = [-FARTHEST, *map(NORMAL.inv_cdf, (permille / PERMILLES for permille in range(1, PERMILLES))), FARTHEST]
    found = []
    for start, end in zip(ends, ends[1:]):
        count = max(4, math.ceil((end - start) / STEP))
        width = (end - start) / count
        middles = [start + (step + 0.5) * width for step in range(count)]
        whole = sum(map(NORMAL.pdf, middles)) * PERMILLES
        found.append([(middle, NORMAL.pdf(middle) / whole) for middle in middles])
    return found


def law_of(quantiles: dict[str, float], mean: float | None, most: int) -> Law:
    """The law through quantiles, by their numbers of a hundred, or through one of them with a mean."""
    points = [(NORMAL.inv_cdf(float(number) / 100), math.log(time)) for number, time in quantiles.items()]
    text = named(quantiles)
    if len(points) == 1 and mean is not None:
        (normal, log), = points
        # of a lognormal law with deviation s the mean has the logarithm log - normal * s + s * s / 2
        root = normal * normal - 2 * (log - math.log(mean))
        found = [it for it in (normal - math.sqrt(max(root, 0)), normal + math.sqrt(max(root, 0))) if it >= 0]
        if root < 0 or not found:
            raise Fault(f"no lognormal law with {text} has a mean of {mean:.15g}")
        points.append((normal + 1, log + found[0]))
    law = Law(points, most)
    if mean is not None and not law.bend_to(mean):
        raise Fault(f"no such law through {text} has a mean of {mean:.15g}")
    return law


def of_law(law: Law, quantiles: dict[str, float]) -> Times:
    sums = [sum(weight * law.time(normal) for normal, weight in part) for part in parts()]
    mean = sum(sums)
    variance = sum(weight * (law.time(normal) - mean) ** 2 for part in parts() for normal, weight in part)
    normals = [-FARTHEST, *(NORMAL.inv_cdf(permille / PERMILLES) for permille in range(1, PERMILLES)), FARTHEST]
    permilles = [Fraction(number) * 10 for number in quantiles]
    given = [int(permille) for permille in permilles if permille.denominator == 1]
    return Times([law.time(it) + 0.5 for it in normals], [0.0, *itertools.accumulate(sums)], variance, given, law.most)


def named(quantiles: dict[str, float]) -> str:
    return ", ".join(f"p{number} = {time:.15g}" for number, time in quantiles.items())


# A table of times.
def permilles_of(times: Times, count: int) -> list[int]:
    """The permilles of a table with at most so many pairs. The piece that is the farthest off is divided, where this
    helps most, until the table is close."""
    middles = [(low + high) / 2 for low, high in zip(times.quantiles, times.quantiles[1:])]
    sums, moments, squares = ([0.0, *itertools.accumulate(items)] for items in (
        middles, ((place + 0.5) * time for place, time in enumerate(middles)), (time * time for time in middles)))

    def off(start: int, end: int) -> float:
        """The sum of the squares by which a straight line between two permilles is off in the middle of each one."""
        width, low = end - start, times.quantiles[start]
        slope = (times.quantiles[end] - low) / width
        part, moment = sums[end] - sums[start], moments[end] - moments[start] - start * (sums[end] - sums[start])
        line = low * low * width + low * slope * width * width + slope * slope * (width ** 3 / 3 - width / 12)
        return squares[end] - squares[start] - 2 * (low * part + slope * moment) + line if width > 1 else 0.0

    found = sorted({*KEPT, *times.given})
    while len(found) < count:
        pieces = {(start, end): off(start, end) for start, end in zip(found, found[1:])}
        if sum(pieces.values()) <= CLOSE ** 2 * squares[-2]:
            break
        start, end = max(pieces, key=lambda piece: pieces[piece])
        found.append(min(range(start + 1, end), key=lambda middle: off(start, middle) + off(middle, end)))
        found.sort()
    return found


def aimed(times: Times, permilles: Sequence[int]) -> list[float]:
    """A time for each permille. Those at the permilles that are given or kept are quantiles. The others between two of
    them are changed by one share, so that the mean between the two is right."""
    found: list[float] = []
    ends = sorted({*times.given, *KEPT})
    for start, end in zip(ends, ends[1:]):
        part = [permille for permille in permilles if start <= permille <= end]
        off = sum((after - before) * (times.quantiles[before] + times.quantiles[after]) / 2
                  for before, after in zip(part, part[1:])) - (end - start) * (times.mean(start, end) + 0.5)
        weight = sum(times.quantiles[middle] * (after - before) / 2
                     for before, middle, after in zip(part, part[1:], part[2:]))
        found += [times.quantiles[start], *(times.quantiles[it] * (1 - off / weight) for it in part[1:-1])]
    return [*found, times.quantiles[PERMILLES]]


def table_of(times: Times, count: int) -> list[list[int]]:
    """The table of at most so many pairs whose mean is that of the times, as nearly as whole numbers have it."""
    permilles = permilles_of(times, count)
    second = times.quantiles[permilles[1]]
    # the first time makes the mean of the first piece right
    pairs = [[0, int(min(max(2 * times.mean(0, permilles[1]) + 1 - second, 1), second))]]
    done = 0.0
    for aim, start, end in zip(aimed(times, permilles)[1:-1], permilles, permilles[1:]):
        low, width = pairs[-1][1], end - start
        wanted = times.sums[end] * PERMILLES - done
        near = (int(aim),) if end in times.given else (int(aim + 0.25), int(aim + 0.75))
        high = min((min(max(it, low), times.most) for it in near),
                   key=lambda high: abs(wanted - width * drawn(low, high)))
        pairs.append([end, high])
        done += width * drawn(low, high)
    pairs = nearest(pairs, times)
    return [pairs[0], *(pair for before, pair, after in zip(pairs, pairs[1:], pairs[2:])
                        if not before[1] == pair[1] == after[1]), pairs[-1]]


def mean_off(table: Pairs, times: Times) -> float:
    """By which share the mean of a table is off, to either side."""
    return abs(mean_of(table) / times.mean() - 1)


def square_off(table: Pairs, times: Times) -> float:
    """By which share its mean square is off, to either side."""
    return abs((variance_of(table) + mean_of(table) ** 2) / (times.variance + times.mean() ** 2) - 1)


def nearest(pairs: list[list[int]], times: Times) -> list[list[int]]:
    """A table with its last pair, of the right mean and mean square. If it would be too narrow, its tail is drawn in,
    and its last time is greater; if it would be too wide, the other way round."""
    low, high = SHARES
    for _ in range(30):
        share = (low + high) / 2
        tail = drawn_in(pairs, share, times)
        last = last_of(tail, times)
        is_narrow = last < tail[-1][1] or variance_of([*tail, [PERMILLES, last]]) < times.variance
        low, high = (share, high) if is_narrow else (low, share)
    first = ended(pairs, times)
    others = [ended(drawn_in(pairs, share, times), times) for share in (low, high)]
    tables = [first, *(it for it in others if mean_off(it, times) <= max(mean_off(first, times), CLOSE_MEAN))]

    def rank(table: list[list[int]]) -> tuple[float, bool, float]:
        off = square_off(table, times)
        return max(off, CLOSE_SQUARE), table is not first, off

    return min(tables, key=rank)


def drawn_in(pairs: list[list[int]], share: float, times: Times) -> list[list[int]]:
    """Pairs of which each in the tail is by a share nearer to the last one before it that stays. That is one that is
    given, or the last one below the tail."""
    found: list[list[int]] = []
    kept = pairs[0][1]
    for permille, time in pairs:
        if permille <= TAIL or permille in times.given:
            kept = time
        else:
            time = min(round(time - share * (time - kept)), times.most)
        found.append([permille, time])
    for pair, after in zip(found[-2::-1], found[:0:-1]):
        pair[1] = min(pair[1], after[1])
    return found


def last_of(pairs: list[list[int]], times: Times) -> int:
    """The last time with which these pairs have the right mean; it may be less than the one before it."""
    return round(2 * (times.mean() - mean_of(pairs)) * PERMILLES - pairs[-1][1] + 1)


def ended(pairs: list[list[int]], times: Times) -> list[list[int]]:
    """A table with its last pair, whose time makes the mean right: if this is close enough, one that no time is over.
    If the mean is too great before it, the last two times are those that make it right."""
    (start, before), (end, low) = pairs[-2:]
    last = min(max(last_of(pairs, times), low), times.most)
    rest, part = (times.mean() - mean_of(pairs)) * PERMILLES, (end - start) / 2
    both = round((rest + 2 * part * drawn(before, low) - (before - 1) * part) / (part + 1))
    both = min(max(both, before), times.most)
    tables = ([*pairs, [PERMILLES, min(last, max(low, int(times.quantiles[-1])))]], [*pairs, [PERMILLES, last]],
              [*pairs[:-1], [end, both], [PERMILLES, both]])
    return min(tables, key=lambda table: max(mean_off(table, times), CLOSE_MEAN))


# The command.
def options_of(words: Sequence[str]) -> tuple[Namespace, dict[str, float]]:
    """The options, and the quantiles by their numbers of a hundred, in order."""
    parser = Parser(__doc__).take("--column", "--mean", "--max", numbers={"--pairs": PAIRS_MOST})
    parser.add_argument("file", nargs="?", metavar="FILE")
    parser.add_argument("--key", choices=("service", "gap"), default="service")
    numbers = {match[1] for word in words if (match := QUANTILE.fullmatch(word)) and float(match[1])}
    for number in numbers:
        parser.add_argument(f"--p{number}", dest=number)
    options = parser.parse_args(words)
    return options, {number: time_of(getattr(options, number), f"--p{number}") for number in sorted(numbers, key=float)}


def of_options(options: Namespace, quantiles: dict[str, float]) -> tuple[Times, str]:
    """The times that are asked for, and where they come from."""
    mean, most = (None if text is None else time_of(text, f"--{name}")
                  for name, text in (("mean", options.mean), ("max", options.max)))
    if options.file is not None:
        refuse(quantiles or mean or most, "a FILE stands without --pN, --mean and --max (--help tells the usage)")
        times = times_in(options.file, options.column)
        path = "standard input" if options.file == "-" else shown(options.file)
        return of_file(times), f"{len(times):,} of {path}"
    refuse(len(quantiles) + (mean is not None) < 2 or not quantiles,
           "it takes a FILE, or two of --pN, or one and --mean (--help tells the usage)")
    known = [*((f"--p{number}", time) for number, time in quantiles.items()), *([("--max", most)] if most else [])]
    for (name, low), (other, high) in zip(known, known[1:]):
        refuse(high < low, f"{other} of {high:.15g} is less than {name} of {low:.15g}")
    law = law_of(quantiles, mean, int(most or MOST))
    text = f"lognormal, by {named(quantiles)}" + (f", with a mean of {mean:.15g}" if mean else "")
    text += f", bent by {law.bend:.3f}" if abs(law.bend - 1) > 1e-4 else ""
    return of_law(law, quantiles), text + (f", none over {most:.15g}" if most else "")


def comments_of(pairs: Pairs, times: Times, count: int) -> list[str]:
    """The comments on the numbers of the times and of their table."""
    no_nearer = f"# No nearer: {count} pairs of whole permilles, with times up to {times.most:,} ms, do not have this"
    lines = [*compared("Mean", times.mean(), mean_of(pairs))]
    if round(100 * mean_off(pairs, times), 2) > 1:
        lines.append(f"{no_nearer} mean.")
    lines += compared("Standard deviation", math.sqrt(times.variance), math.sqrt(variance_of(pairs)))
    if square_off(pairs, times) > 2 * CLOSE_SQUARE:
        lines.append(f"{no_nearer} deviation, but with a tail that is far off.")
    return lines


def compared(what: str, of_times: float, of_table: float) -> list[str]:
    lines = [f"# {what} of the times: {of_times:,.2f} ms", f"# {what} of the table: {of_table:,.2f} ms"]
    return [*lines, f"# Error: {round(100 * (of_table / of_times - 1), 2) + 0.0:+.2f} %"] if of_times else lines


def main(words: Sequence[str]) -> int:
    options, quantiles = options_of(words)
    if not max(PAIRS_LEAST, len(quantiles) + len(KEPT)) <= options.pairs <= PAIRS_MOST:
        raise Fault(f"--pairs is {PAIRS_LEAST} to {PAIRS_MOST}, and 3 more than the quantiles that are given")
    times, source = of_options(options, quantiles)
    pairs = table_of(times, options.pairs)
    print_text("\n".join([f"{options.key} = {text_of_value(pairs)}", f"# Times: {source}",
                          *comments_of(pairs, times, options.pairs), ""]))
    return 0
