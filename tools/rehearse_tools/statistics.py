"""What the runs of a sweep show: intervals, verdicts on shares of runs, differences, and where a run has settled.

All functions are pure. A number has the unit of what it is given: ages are in milliseconds. `share` and `confidence`
lie between 0 and 1. docs/STATISTICS.md says the same for users.

Sources: A. M. Law, Simulation Modeling and Analysis, 5th edition 2015, chapters 9 and 10 (Law & Kelton in earlier
editions); C. J. Clopper and E. S. Pearson, Biometrika 26 (1934) 404; W. J. Conover, Practical Nonparametric
Statistics, 3rd edition 1999, section 3.2; P. Hall, Journal of the Royal Statistical Society B 54 (1992) 221; S. Holm,
Scandinavian Journal of Statistics 6 (1979) 65; K. P. White,
M. J. Cobb and S. C. Spratt, Winter Simulation Conference 2000, 755; A. Wald, Sequential Analysis, 1947;
J. Ville, Étude critique de la notion de collectif, 1939; H. Robbins, Annals of Mathematical Statistics 41 (1970) 1397.
"""
from __future__ import annotations

import math
from bisect import bisect_right
from collections.abc import Callable, Iterator, Mapping, Sequence
from fractions import Fraction
from functools import lru_cache
from itertools import accumulate
from typing import Any, NamedTuple

from .console import Library

CONFIDENCE = 0.95
# The fewest runs after which a stop rule may end: Law's advice for his sequential procedure.
FIRST_RUNS = 10
# How much greater each number of runs is after which a stop rule looks.
GROWTH = Fraction(6, 5)
# The alternatives to a share of runs, in odds: each is so many times the one before, and there are so many.
ODDS_STEP, ALTERNATIVES = 1.1, 40
# No verdict is forecast for more runs than this.
FORECAST_MOST = 1_000_000
BATCH = 5
# The greatest skewness that is taken out: more makes intervals that are too wide.
SKEWNESS_MOST = 2.0
ROUNDING = 1e-12
# The distribution functions, which take 0.15 s to read.
special = Library("scipy.special", "python3-scipy")


class Interval(NamedTuple):
    """From `low` to `high`, both of them included; `high` may be infinite."""
    low: float
    high: float


class Verdict(NamedTuple):
    """`word` is shown, refuted or undecided. `more` is how many more runs would decide if the share of runs that pass
    stays as it is: 0 if the verdict is made, None if over FORECAST_MOST would be needed."""
    word: str
    more: int | None


class Difference(NamedTuple):
    """The effect of a change, run by run with the same seeds: the mean of the differences, its interval, in how many
    runs the number is greater and less, and the probability of a mean this far from 0 if nothing differs."""
    runs: int
    mean: float
    interval: Interval | None
    greater: int
    less: int
    probability: float | None


# Numbers of several runs

def mean_of(numbers: Sequence[float]) -> float:
    """The mean of at least one number."""
    return math.fsum(numbers) / len(numbers)


def deviation_of(numbers: Sequence[float]) -> float:
    """The sample standard deviation of at least two numbers."""
    mean = mean_of(numbers)
    return math.sqrt(math.fsum((number - mean) ** 2 for number in numbers) / (len(numbers) - 1))


def half_width(numbers: Sequence[float], confidence: float = CONFIDENCE) -> float | None:
    """Half the width of Student's interval of the mean, of independent runs; None for fewer than two runs."""
    runs = len(numbers)
    if runs < 2:
        return None
    quantile = float(special.stdtrit(runs - 1, (1 + confidence) / 2))
    return quantile * deviation_of(numbers) / math.sqrt(runs)


def skew_interval(numbers: Sequence[float], confidence: float = CONFIDENCE) -> Interval | None:
    """The interval of the mean of independent runs whose law has a long upper tail, as that of ages; None for fewer
    than two runs.

    It is Student's interval after Hall's cubic transformation, which takes out the skewness. Few runs show little of
    that. So it is taken as the sample's, or that of a lognormal law with the same spread if this is greater, and as 2
    at most. The law has no negative numbers.
    """
    runs, half = len(numbers), half_width(numbers, confidence)
    if half is None or half == 0:
        return None if half is None else Interval(mean_of(numbers), mean_of(numbers))
    mean, deviation = mean_of(numbers), deviation_of(numbers)
    sample = math.fsum(((number - mean) / deviation) ** 3 for number in numbers) * runs / (runs - 1) / max(1, runs - 2)
    skewness = min(SKEWNESS_MOST, max(sample, 3 * deviation / mean))
    rest, point = skewness / 6 / runs, half / deviation

    # Python has it since 3.11
    cube_root = getattr(math, "cbrt", None) or (lambda number: math.copysign(abs(number) ** (1 / 3), number))

    def shift(share: float) -> float:
        return float((cube_root(1 + skewness * (share - rest)) - 1) * 3 / skewness)

    return Interval(max(0.0, mean - deviation * shift(point)), mean - deviation * shift(-point))


def rank_of(count: int, share: float) -> int:
    """The rank from 1 on, by the nearest-rank rule, of a percentile of `count` numbers.

    The share is taken as the decimal number that it is written as: 0.95 of 20 is rank 19.
    """
    return max(1, math.ceil(Fraction(str(share)) * count))


def percentile(numbers: Sequence[float], share: float) -> float | None:
    """The percentile of one set of numbers by nearest rank; None if there are none."""
    return sorted(numbers)[rank_of(len(numbers), share) - 1] if numbers else None


def at_rank(counts: Mapping[int, int], rank: int) -> int:
    """The number with a rank, from 1 on; `counts` says how often each number occurs."""
    for number in sorted(counts):
        rank -= counts[number]
        if rank <= 0:
            return number
    raise ValueError("there are fewer numbers than the rank")


def percentile_ranks(runs: int, share: float, confidence: float = CONFIDENCE) -> tuple[int, int] | None:
    """The ranks, from 1 on, between which a percentile of the population is, by the exact binomial distribution.

    Either end misses it in at most half of 1 - confidence (Conover 3.2). None if the runs are too few.
    """
    below = [float(probability) for probability in special.bdtr(range(runs), runs, share)]
    miss = (1 - confidence) / 2
    low = sum(probability <= miss for probability in below)
    high = next((rank for rank, probability in enumerate(below, 1) if probability >= 1 - miss), None)
    return None if low < 1 or high is None else (low, high)


def percentile_interval(numbers: Sequence[float], share: float, confidence: float = CONFIDENCE) -> Interval | None:
    """The interval of a median (share 0.5) or percentile over runs, by order statistics; None for too few runs."""
    ranks = percentile_ranks(len(numbers), share, confidence)
    if ranks is None:
        return None
    ordered = sorted(numbers)
    return Interval(ordered[ranks[0] - 1], ordered[ranks[1] - 1])


def runs_for_percentile(share: float, confidence: float = CONFIDENCE) -> int:
    """The fewest runs that give a percentile an interval: 6 for a median at 95 %."""
    miss = (1 - confidence) / 2
    return max(math.ceil(math.log(miss) / math.log(side)) for side in (share, 1 - share))


# Shares of runs

def share_interval(passed: int, runs: int, confidence: float = CONFIDENCE) -> Interval:
    """Clopper and Pearson's interval of the share that pass. The number of runs, at least one, was fixed before."""
    miss, failed = (1 - confidence) / 2, runs - passed
    low = float(special.betaincinv(passed, failed + 1, miss)) if passed else 0.0
    high = float(special.betaincinv(passed + 1, failed, 1 - miss)) if failed else 1.0
    return Interval(low, high)


def log_likelihood(logs: tuple[float, float], passed: float, failed: float) -> float:
    """The logarithm of the likelihood of `passed` runs that pass and `failed` that fail, from the logarithms of both
    shares."""
    return (passed * logs[0] if passed else 0.0) + (failed * logs[1] if failed else 0.0)


def logs_of(share: float) -> tuple[float, float]:
    """The logarithms of a share over 0 and of the rest, which is minus infinity if there is none."""
    return math.log(share), math.log1p(-share) if share < 1 else -math.inf


@lru_cache(1_000)
def alternatives(share: float) -> list[tuple[float, tuple[float, float]]]:
    """Shares greater than `share`: the logarithms of their weights, and their own. Half of the weight is on 1, so that
    runs that all pass decide soon; the rest is spread evenly over odds."""
    odds, spread = share / (1 - share), math.log(0.5 / ALTERNATIVES)
    greater = (odds * ODDS_STEP ** step for step in range(1, ALTERNATIVES + 1))
    return [(math.log(0.5), logs_of(1.0)), *((spread, logs_of(number / (1 + number))) for number in greater)]


def evidence(passed: float, failed: float, share: float) -> float:
    """The logarithm of how much likelier the runs are if over `share` of all pass than if just `share` do.

    The likelihood under greater shares is their weighted mean. If the true share is `share` or less, the ratio is a
    supermartingale that begins at 1: by Ville's inequality it *ever* reaches 1/a with probability a at most. So one may
    look after each run (Wald 1947, Robbins 1970).
    """
    terms = [weight + log_likelihood(logs, passed, failed) for weight, logs in alternatives(share)]
    top = max(terms)
    summed = top + math.log(math.fsum(math.exp(term - top) for term in terms))
    return summed - log_likelihood(logs_of(share), passed, failed)


def word_of(passed: float, failed: float, share: float, confidence: float) -> str:
    """The verdict of these runs on the claim that at least `share` of all pass."""
    enough = -math.log1p(-confidence)
    if evidence(passed, failed, share) >= enough:
        return "shown"
    return "refuted" if evidence(failed, passed, 1 - share) >= enough else "undecided"


def verdict(passed: int, runs: int, share: float, confidence: float = CONFIDENCE) -> Verdict:
    """Whether at least `share` of all runs pass, by `runs` runs of which `passed` did; 0 < share < 1.

    A claim that is untrue is ever shown with probability 1 - confidence at most, and a true one ever refuted with as
    much, however often one looks and whenever one stops: see `evidence`.
    """
    def at(total: int) -> str:
        return word_of(passed * total / runs, (runs - passed) * total / runs, share, confidence)

    word = word_of(passed, runs - passed, share, confidence)
    if word != "undecided":
        return Verdict(word, 0)
    if not runs or at(FORECAST_MOST) == "undecided":
        return Verdict(word, None)
    low, high = runs, FORECAST_MOST
    while high - low > 1:
        middle = (low + high) // 2
        low, high = (middle, high) if at(middle) == "undecided" else (low, middle)
    return Verdict(word, high - runs)


def share_bounds(passed: int, runs: int, confidence: float = CONFIDENCE) -> Interval:
    """Between which shares a verdict would be undecided: at least `low` of all runs pass is shown, and that more than
    `high` do is refuted. Each bound is wrong with probability 1 - confidence at most, however often one looks."""
    def least(hits: int) -> float:
        low, high = 0.0, 1.0
        while high - low > 1e-5:
            middle = (low + high) / 2
            is_shown = word_of(hits, runs - hits, middle, confidence) == "shown"
            low, high = (middle, high) if is_shown else (low, middle)
        return low

    return Interval(least(passed), 1 - least(runs - passed))


# Enough runs

def relative_half_width(numbers: Sequence[float], confidence: float = CONFIDENCE) -> float | None:
    """The half-width as a part of the mean, infinite if the mean is 0 and the runs differ; None below two runs."""
    half = half_width(numbers, confidence)
    if half is None or half == 0:
        return half
    mean = abs(mean_of(numbers))
    return half / mean if mean else math.inf


def is_precise(numbers: Sequence[float], wanted: float, confidence: float = CONFIDENCE) -> bool:
    """Whether a sweep may stop, because the mean is within the part `wanted` of the true mean (0.05 for --until 5%).

    The half-width over the mean *seen* must be wanted / (1 + wanted) at most, so that the error is at most `wanted` of
    the *true* mean, and there must be at least FIRST_RUNS (Law, section 9.4.1). It looks after the numbers of `looks`.
    """
    reached = relative_half_width(numbers, confidence)
    return len(numbers) >= FIRST_RUNS and reached is not None and reached <= wanted / (1 + wanted)


def looks(most: int, first: int = FIRST_RUNS) -> Iterator[int]:
    """After how many runs a stop rule looks: each a fifth more than the one before, the last `most`.

    To look less often keeps nearer to 95 % what a small deviation by chance would end too early.
    """
    runs = min(first, most)
    while runs < most:
        yield runs
        runs = min(most, math.ceil(runs * GROWTH))
    yield most


# Differences

def paired(base: Sequence[float], other: Sequence[float], confidence: float = CONFIDENCE) -> Difference:
    """The differences other - base of runs that share their seeds, in the order of the seeds; at least one of them."""
    if len(base) != len(other):
        raise ValueError("paired runs are equally many")
    differences = [after - before for before, after in zip(base, other)]
    runs, mean, half = len(differences), mean_of(differences), half_width(differences, confidence)
    return Difference(runs, mean, None if half is None else Interval(mean - half, mean + half),
                      sum(number > 0 for number in differences), sum(number < 0 for number in differences),
                      probability_of(differences))


def probability_of(differences: Sequence[float]) -> float | None:
    """Student's two-sided probability of a mean at least this far from 0 if the true mean is 0; None below two."""
    runs = len(differences)
    if runs < 2:
        return None
    mean, deviation = mean_of(differences), deviation_of(differences)
    if deviation == 0:
        return 0.0 if mean else 1.0
    return float(2 * special.stdtr(runs - 1, -abs(mean) / deviation * math.sqrt(runs)))


def holm(probabilities: Sequence[float]) -> list[float]:
    """Holm's adjusted probabilities, in the order given. Those of 5 % at most are shown, and that any one of them is
    wrong has 5 % in all, however many are looked at."""
    count, adjusted, greatest = len(probabilities), [0.0] * len(probabilities), 0.0
    for place, index in enumerate(sorted(range(count), key=lambda index: probabilities[index])):
        greatest = max(greatest, min(1.0, (count - place) * probabilities[index]))
        adjusted[index] = greatest
    return adjusted


# Warm-up

def settled_from(numbers: Sequence[float], batch: int = BATCH) -> int | None:
    """After how many numbers of one run it has settled, by MSER-5: those before are left out.

    At that number the mean of the rest, in batches of five, has the least squared standard error. None if that is in
    the second half or if there are under two batches: the run is too short to tell.
    """
    means = [mean_of(numbers[at:at + batch]) for at in range(0, len(numbers) - batch + 1, batch)]
    count = len(means)
    if count < 2:
        return None
    center = mean_of(means)
    sums = list(accumulate(mean - center for mean in reversed(means)))[::-1]
    squares = list(accumulate((mean - center) ** 2 for mean in reversed(means)))[::-1]
    errors = [(squares[cut] - sums[cut] ** 2 / (count - cut)) / (count - cut) ** 2 for cut in range(count - 1)]
    # the first of those that are least but for rounding, as of a queue whose depth does not change any more
    least = min(errors) + ROUNDING * errors[0]
    best = next(cut for cut, error in enumerate(errors) if error <= least)
    return None if best > count // 2 else best * batch


def moving_means(runs: Sequence[Sequence[float]], window: int) -> list[float]:
    """Welch's moving mean: over all replications, and over `window` numbers to both sides, fewer at the beginning.

    The result is as long as the shortest run, less `window` (Law, section 9.5.1).
    """
    means = [mean_of(numbers) for numbers in zip(*runs)]
    sums = [0.0, *accumulate(means)]
    sides = ((at, min(at, window)) for at in range(len(means) - window))
    return [(sums[at + side + 1] - sums[at - side]) / (2 * side + 1) for at, side in sides]


# Ages of which some are not known yet

def share_left(known: int, left: int) -> float:
    """The share of messages that are still there, of all whose ages count; 0 if there are none."""
    return left / (known + left) if left else 0.0


def first_of(items: Sequence[float], holds: Callable[[float], bool]) -> float:
    """The first of some items that holds; those behind it do too, and the last one holds."""
    low, high = 0, len(items) - 1
    while low < high:
        middle = (low + high) // 2
        low, high = (low, middle) if holds(items[middle]) else (middle + 1, high)
    return items[low]


def censored_percentile(known: Sequence[float], left: Sequence[float], share: float,
                        may_come: Sequence[float] = ()) -> Interval | None:
    """The bounds of a percentile of ages if the messages in `left`, and those in `may_come`, are at least as old as
    they are now, and if any of those in `may_come` need not count.

    The least is as if each ended now, and of those in `may_come` just the youngest counted: an age that is not above a
    percentile does not raise it, and one above does not lower it. The greatest is as if all counted, and none ever
    ended. None if there are no messages.
    """
    certain, doubtful = sorted([*known, *left]), sorted(may_come)

    def is_reached(age: float) -> bool:
        more = bisect_right(doubtful, age)
        return bisect_right(certain, age) + more >= rank_of(len(certain) + more, share)

    ages = sorted({*certain, *doubtful})
    if not ages:
        return None
    rank = rank_of(len(certain) + len(doubtful), share)
    return Interval(first_of(ages, is_reached),
                    sorted(known)[rank - 1] if rank <= len(known) else math.inf)


def holds_within(interval: Interval, holds: Callable[[Any, Any], bool], bound: float | Fraction) -> bool | None:
    """Whether a comparison with `bound` holds for each number of an interval; None if it holds only for some."""
    points = {*interval, bound} if interval.low <= bound <= interval.high else set(interval)
    answers = {holds(point, bound) for point in points}
    return answers.pop() if len(answers) == 1 else None
