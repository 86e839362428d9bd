"""Tests what is concluded from runs: by tables and closed forms, by coverage, and by queues whose laws are known."""
import csv
import functools
import itertools
import math
import operator
import os
import random
import re
import sys
import unittest
from collections.abc import Callable, Iterator

from tool import PROGRAM, ROOT, TOOLS, ToolCase, module_at, needs_program, ran, report_in, text_at

from scenario_texts import consumer, queue_of, scenario_of, table
from rehearse_tools import statistics as figures

REPETITIONS = 1_000
# Most of the counts of 200 sweeps occur in many of them.
word_of = functools.cache(figures.word_of)
SCRIPT_HEADER = "at,call,body,group,id,delay,receipt,max,wait,timeout,task"


def share_of(happens: Callable[[random.Random], bool]) -> float:
    """In what share of the repetitions something happens, each from a seed of its own."""
    return sum(happens(random.Random(seed)) for seed in range(REPETITIONS)) / REPETITIONS


def binomial(runs: int, share: float) -> list[float]:
    """The probability of each number of successes."""
    return [math.comb(runs, count) * share ** count * (1 - share) ** (runs - count) for count in range(runs + 1)]


class Intervals(unittest.TestCase):
    def test_students_half_width(self) -> None:
        """Of 1 to 5 the deviation is the root of 2.5, and t with 4 degrees of freedom is 2.776 (95 %), 4.604 (99 %)."""
        numbers = [1, 2, 3, 4, 5]
        self.assertAlmostEqual(figures.half_width(numbers), 2.77645 * math.sqrt(2.5 / 5), 4)
        self.assertAlmostEqual(figures.half_width(numbers, 0.99), 4.60409 * math.sqrt(2.5 / 5), 4)
        # t of one degree of freedom is 12.706; the deviation of 0 and 2 is the root of 2
        self.assertAlmostEqual(figures.half_width([0, 2]), 12.7062, 4)
        self.assertEqual([figures.half_width(few) for few in ([], [7], [7, 7])], [None, None, 0])

    def test_the_interval_of_a_skew_mean(self) -> None:
        """Of 100 and 400 the skewness is 0, that of a lognormal law 3 times 0.8485, and so 2 is taken. Student's end is
        8.9846 deviations of 212.13 away. Hall's cubic is (x + 2 x² / 3 + 4 x³ / 27 + 2 / 12) for x deviations, which is
        8.9846 for -2.477 and for 5.380."""
        low, high = figures.skew_interval([100, 400])
        self.assertEqual(low, 0)
        self.assertAlmostEqual(high, 250 + 5.380 * 212.132, delta=1)
        for away in (5.380, -2.477):
            self.assertAlmostEqual(abs(-away + 2 * away ** 2 / 3 - 4 * away ** 3 / 27 + 2 / 12), 8.9846, delta=0.02)
        self.assertEqual([figures.skew_interval(few) for few in ([], [7], [7, 7], [0, 0])],
                         [None, None, (7, 7), (0, 0)])

    def test_the_coverage_of_the_interval_of_a_skew_mean(self) -> None:
        """Over 2,000 redraws the true mean is within in 94 to 97 %, and not above in more than 3.5 %: of a lognormal
        law with a skewness of 1.9, and of two symmetric ones. Student's interval has it below in 6 % and more."""
        laws = ((math.exp(0.532 ** 2 / 2), lambda chance: chance.lognormvariate(0, 0.532)),
                (1.0, lambda chance: max(0.0, chance.gauss(1, 0.3))), (1.0, lambda chance: chance.gauss(1, 0.1)))
        for place, (mean, draw) in enumerate(laws):
            for runs in (5, 10, 20, 50):
                chance, low, high, short = random.Random(runs), 0, 0, 0
                for _ in range(2_000):
                    numbers = [draw(chance) for _ in range(runs)]
                    interval = figures.skew_interval(numbers)
                    low, high = low + (mean < interval.low), high + (mean > interval.high)
                    short += mean > figures.mean_of(numbers) + figures.half_width(numbers)
                with self.subTest(place=place, runs=runs, below=low / 20, above=high / 20, student=short / 20):
                    self.assertTrue(60 <= low + high <= 120)
                    self.assertLess(high, 70)
                    self.assertTrue(place or runs > 20 or short > 120)

    def test_nearest_ranks(self) -> None:
        """0.95 of 20 is rank 19 and not 20, as a float's 0.95 * 20 would have it in other cases."""
        for count, share, rank in ((20, 0.95, 19), (21, 0.95, 20), (100, 0.07, 7), (1, 0.5, 1), (2, 0.5, 1), (3, 0, 1)):
            self.assertEqual(figures.rank_of(count, share), rank)
        self.assertEqual(figures.percentile([3, 1, 2], 0.5), 2)
        self.assertIsNone(figures.percentile([], 0.5))

    def test_ranks_of_a_median(self) -> None:
        """The ranks of tables of the sign test, for example Conover's."""
        for runs, ranks in ((5, None), (6, (1, 6)), (8, (1, 8)), (9, (2, 8)), (10, (2, 9)), (20, (6, 15)),
                            (50, (18, 33)), (100, (40, 61))):
            self.assertEqual(figures.percentile_ranks(runs, 0.5), ranks, runs)
        self.assertEqual(figures.percentile_interval([9, 1, 8, 2, 7, 3, 6, 4, 5, 0], 0.5), (1, 8))
        self.assertIsNone(figures.percentile_interval([1, 2, 3, 4, 5], 0.5))

    def test_the_fewest_runs_of_a_percentile(self) -> None:
        """The greatest of n is below a percentile with probability share ** n, which is to be 2.5 % at most."""
        for share, runs in ((0.5, 6), (0.9, 36), (0.95, 72), (0.99, 368), (0.05, 72)):
            self.assertEqual(figures.runs_for_percentile(share), runs)
            self.assertIsNone(figures.percentile_ranks(runs - 1, share))
            self.assertIsNotNone(figures.percentile_ranks(runs, share))

    def test_clopper_and_pearson(self) -> None:
        """Newcombe's examples (Statistics in Medicine 17 (1998) 857, table I, method 5), and the two ends."""
        for passed, runs, low, high in ((81, 263, 0.2527, 0.3676), (15, 148, 0.0578, 0.1617), (0, 20, 0, 0.1684),
                                        (1, 29, 0.0009, 0.1776), (3, 10, 0.0667, 0.6525), (5, 10, 0.1871, 0.8129)):
            interval = figures.share_interval(passed, runs)
            self.assertAlmostEqual(interval.low, low, 4)
            self.assertAlmostEqual(interval.high, high, 4)
        self.assertAlmostEqual(figures.share_interval(20, 20).low, 0.025 ** (1 / 20))
        # the 59 of 59 for 95 % of runs with 95 % confidence, of one side
        self.assertGreater(figures.share_interval(59, 59, 0.9).low, 0.95)
        self.assertLess(figures.share_interval(58, 58, 0.9).low, 0.95)


class Coverage(unittest.TestCase):
    def test_of_a_mean(self) -> None:
        def covers(chance: random.Random) -> bool:
            numbers = [chance.gauss(100, 30) for _ in range(10)]
            return abs(figures.mean_of(numbers) - 100) <= figures.half_width(numbers)

        self.assertTrue(0.93 <= share_of(covers) <= 0.97)

    def test_of_a_mean_of_queues(self) -> None:
        """Ten runs of 200 customers of an M/M/1 queue at half load, each begun as a queue that is long under way."""
        def run(chance: random.Random) -> float:
            wait, waits = chance.expovariate(0.5) if chance.random() < 0.5 else 0.0, []
            draw, log = chance.random, math.log
            for _ in range(200):
                waits.append(wait)
                # the work of a customer has the mean 1, and the gap before the next one 2
                wait = max(0.0, wait - log(1 - draw()) + 2 * log(1 - draw()))
            return figures.mean_of(waits)

        def covers(chance: random.Random) -> bool:
            means = [run(chance) for _ in range(10)]
            return abs(figures.mean_of(means) - 1) <= figures.half_width(means)

        self.assertTrue(0.93 <= share_of(covers) <= 0.97)

    def test_of_a_paired_difference(self) -> None:
        def covers(chance: random.Random) -> bool:
            base = [chance.gauss(100, 30) for _ in range(20)]
            interval = figures.paired(base, [number + chance.gauss(3, 5) for number in base]).interval
            return interval.low <= 3 <= interval.high

        self.assertTrue(0.93 <= share_of(covers) <= 0.97)

    def test_of_a_median(self) -> None:
        """By exact ranks at least 95 %: of ten runs 97.9 %, as the table says."""
        def covers(chance: random.Random) -> bool:
            interval = figures.percentile_interval([chance.expovariate(1) for _ in range(10)], 0.5)
            return interval.low <= math.log(2) <= interval.high

        self.assertTrue(0.95 <= share_of(covers) <= 0.99)

    def test_of_percentiles_by_the_exact_law(self) -> None:
        for share in (0.5, 0.9, 0.95):
            for runs in range(figures.runs_for_percentile(share), 150):
                low, high = figures.percentile_ranks(runs, share)
                self.assertGreaterEqual(sum(binomial(runs, share)[low:high]), 0.95, (runs, share))

    def test_of_a_share(self) -> None:
        """At least 95 % for each share, by the exact law; and by repetitions."""
        for runs in (1, 5, 20, 59):
            intervals = [figures.share_interval(passed, runs) for passed in range(runs + 1)]
            for share in (0.02, 0.3, 0.5, 0.77, 0.95, 0.999):
                covered = sum(probability for probability, interval in zip(binomial(runs, share), intervals)
                              if interval.low <= share <= interval.high)
                self.assertGreaterEqual(covered, 0.95, (runs, share))

        def covers(chance: random.Random) -> bool:
            interval = figures.share_interval(sum(chance.random() < 0.9 for _ in range(60)), 60)
            return interval.low <= 0.9 <= interval.high

        self.assertTrue(0.95 <= share_of(covers) <= 0.99)

    def test_of_a_sweep_that_stops_by_itself(self) -> None:
        """Where --until 10% ends, the mean is within 10 % of the true one in 95 % of sweeps, also of skewed numbers."""
        def sweeps(draw: Callable[[random.Random], float], mean: float) -> Callable[[random.Random], bool]:
            def is_near(chance: random.Random) -> bool:
                numbers: list[float] = []
                for runs in figures.looks(2_000):
                    numbers += [draw(chance) for _ in range(runs - len(numbers))]
                    if figures.is_precise(numbers, 0.1):
                        break
                return abs(figures.mean_of(numbers) - mean) <= 0.1 * mean

            return is_near

        for draw, mean in ((lambda chance: chance.gauss(100, 30), 100), (lambda chance: chance.expovariate(1), 1),
                           (lambda chance: chance.lognormvariate(0, 0.5), math.exp(1 / 8))):
            self.assertGreaterEqual(share_of(sweeps(draw, mean)), 0.95)


class Verdicts(unittest.TestCase):
    def test_runs_that_all_pass(self) -> None:
        """Half of the weight is on 'all pass': so many runs that 0.95 ** -n / 2 is 20, less what the others add."""
        self.assertEqual([figures.verdict(runs, runs, 0.95) for runs in (64, 63, 20)],
                         [("shown", 0), ("undecided", 1), ("undecided", 44)])
        self.assertLessEqual(64, math.ceil(math.log(40) / -math.log(0.95)))
        self.assertGreaterEqual(64, math.ceil(math.log(20) / -math.log(0.95)))

    def test_runs_that_fail(self) -> None:
        """Two of two that fail are 400 times less likely at 95 % than where all fail, of which half is 200."""
        self.assertEqual([figures.verdict(passed, runs, 0.95) for passed, runs in ((0, 2), (50, 100), (0, 0))],
                         [("refuted", 0), ("refuted", 0), ("undecided", None)])
        self.assertEqual(figures.verdict(0, 1, 0.95).word, "undecided")

    def test_the_very_share_is_never_decided(self) -> None:
        for passed, runs in ((95, 100), (950_000, 1_000_000)):
            self.assertEqual(figures.verdict(passed, runs, 0.95), ("undecided", None))

    def test_so_many_more_runs_decide(self) -> None:
        """With the share as it is: 97 of 100 go on as 97 of each 100."""
        word, more = figures.verdict(97, 100, 0.95)
        self.assertEqual(word, "undecided")
        runs = 100 + more
        self.assertEqual(figures.verdict(math.ceil(runs * 0.97), runs, 0.95).word, "shown")
        self.assertEqual(figures.verdict(math.floor((runs - 2) * 0.97), runs - 2, 0.95).word, "undecided")

    def test_bounds_go_with_verdicts(self) -> None:
        """What is at most the lower bound is shown, what is over the upper one refuted, all between undecided."""
        for passed, runs in ((0, 5), (20, 20), (64, 64), (86, 100), (99, 100), (453, 500), (1, 3)):
            low, high = figures.share_bounds(passed, runs)
            for share in (0.01, 0.1, 0.3, 0.5, 0.7, 0.8, 0.85, 0.9, 0.95, 0.96, 0.98, 0.99):
                wanted = "shown" if share <= low else "refuted" if share > high else "undecided"
                self.assertEqual(figures.verdict(passed, runs, share).word, wanted, (passed, runs, share))

    def test_untrue_claims_are_ever_shown_with_5_percent_at_most(self) -> None:
        """The exact probability that the very share itself is shown at one of 1,500 looks, one after each run."""
        for share in (0.5, 0.8, 0.95):
            for word in ("shown", "refuted"):
                self.assertLessEqual(self.ever(share, word, 1_500), 0.05, (share, word))

    def ever(self, share: float, word: str, most: int) -> float:
        """The probability that claims of `share` ever get this word, where each run passes with `share`."""
        hit, miss = (share, 1 - share) if word == "shown" else (1 - share, share)
        chances, edge, decided = {0: 1.0}, -1, 0.0      # by how many runs have spoken against the word
        for runs in range(1, most + 1):
            grown: dict[int, float] = {}
            for against, chance in chances.items():
                grown[against] = grown.get(against, 0.0) + chance * hit
                grown[against + 1] = grown.get(against + 1, 0.0) + chance * miss
            while figures.evidence(runs - edge - 1, edge + 1, hit) >= math.log(20):
                edge += 1
            decided += sum(chance for against, chance in grown.items() if against <= edge)
            chances = {against: chance for against, chance in grown.items() if against > edge and chance > 1e-12}
        return decided

    def test_of_200_sweeps(self) -> None:
        """Untrue claims shown and true ones refuted are 5 % at most, with a look after each five runs of 600."""
        for share, claimed, wrong in ((0.94, 0.95, "shown"), (0.95, 0.95, "shown"), (0.95, 0.95, "refuted"),
                                      (0.98, 0.95, "refuted"), (0.79, 0.8, "shown")):
            words = [self.word(random.Random(seed), share, claimed) for seed in range(200)]
            self.assertLessEqual(words.count(wrong), 10, (share, claimed, wrong))
            if share == 0.98:
                self.assertGreaterEqual(words.count("shown"), 150)

    def word(self, chance: random.Random, share: float, claimed: float) -> str:
        """The first word that is said of a claim."""
        passed = 0
        for runs in range(5, 601, 5):
            passed += sum(chance.random() < share for _ in range(5))
            found = word_of(passed, runs - passed, claimed, 0.95)
            if found != "undecided":
                break
        return found


class Stops(unittest.TestCase):
    def test_relative_half_width(self) -> None:
        half = 12.7062
        self.assertAlmostEqual(figures.relative_half_width([99, 101]), half / 100, 5)
        self.assertAlmostEqual(figures.relative_half_width([-99, -101]), half / 100, 5)
        self.assertEqual(figures.relative_half_width([-1, 1]), math.inf)
        self.assertEqual([figures.relative_half_width(few) for few in ([5], [0, 0])], [None, 0])

    def test_precise_not_before_ten_runs_and_by_the_true_mean(self) -> None:
        self.assertFalse(figures.is_precise([7] * 9, 0.05))
        self.assertTrue(figures.is_precise([7] * 10, 0.05))
        # 40 runs of 1 - d and 1 + d: the half-width is 2.0227 d times the root of 40 / 39 over that of 40
        width = 2.0227 * math.sqrt(1 / 39)
        for wanted, is_met in ((0.0477, False), (0.0475, True)):
            numbers = [1 - wanted / width, 1 + wanted / width] * 20
            self.assertEqual(figures.is_precise(numbers, 0.05), is_met)     # 0.05 / 1.05 is 0.0476

    def test_looks_are_a_fifth_apart(self) -> None:
        self.assertEqual(list(figures.looks(40)), [10, 12, 15, 18, 22, 27, 33, 40])
        self.assertEqual([list(figures.looks(most)) for most in (1, 10, 11)], [[1], [10], [10, 11]])


class Differences(unittest.TestCase):
    def test_paired_differences(self) -> None:
        """1, 2, 3, 4, 5: the mean is 3, t is 3 over the root of 0.5, which has a probability of 1.324 %."""
        found = figures.paired([10, 20, 30, 40, 50], [11, 22, 33, 44, 55])
        self.assertEqual((found.runs, found.mean, found.greater, found.less), (5, 3, 5, 0))
        self.assertAlmostEqual(found.interval.low, 3 - 2.77645 * math.sqrt(0.5), 4)
        self.assertAlmostEqual(found.interval.high, 3 + 2.77645 * math.sqrt(0.5), 4)
        self.assertAlmostEqual(found.probability, 0.01324, 5)

    def test_differences_without_spread(self) -> None:
        for before, after, found in (([1, 2], [1, 2], (2, 0, (0, 0), 0, 0, 1)), ([1], [3], (1, 2, None, 1, 0, None)),
                                     ([1, 2], [0, 1], (2, -1, (-1, -1), 0, 2, 0))):
            self.assertEqual(figures.paired(before, after), found)
        with self.assertRaises(ValueError):
            figures.paired([1], [1, 2])

    def test_holms_correction(self) -> None:
        """Four times the least, three times the next and so on, none less than one before it, and 1 at most."""
        for given, wanted in (([0.01, 0.04, 0.03, 0.005], [0.03, 0.06, 0.06, 0.02]), ([0.5, 0.6], [1, 1]), ([], []),
                              ([0.02], [0.02])):
            self.assertEqual(len(figures.holm(given)), len(wanted))
            for found, expected in zip(figures.holm(given), wanted):
                self.assertAlmostEqual(found, expected)

    def test_that_any_of_nine_is_wrong_has_5_percent(self) -> None:
        """Nine variants that do not differ: by Holm one is called different in 5 % of sweeps, without it in a third."""
        def adjusted(chance: random.Random) -> tuple[list[float], list[float]]:
            base = [chance.gauss(0, 1) for _ in range(20)]
            plain = [figures.paired(base, [chance.gauss(0, 1) for _ in base]).probability for _ in range(9)]
            return plain, figures.holm(plain)

        plain, corrected = zip(*(adjusted(random.Random(seed)) for seed in range(400)))
        self.assertLessEqual(sum(min(found) <= 0.05 for found in corrected) / 400, 0.07)
        self.assertGreaterEqual(sum(min(found) <= 0.05 for found in plain) / 400, 0.15)


class WarmUp(unittest.TestCase):
    def test_a_step_is_left_out(self) -> None:
        """20 numbers at 100 and 180 that alternate round 0: the batches after the first four have the least error."""
        self.assertEqual(figures.settled_from([100] * 20 + [1, -1] * 90), 20)

    def test_a_cut_at_just_the_half(self) -> None:
        """Only from there on nothing changes. That half is long enough, and one that is shorter is not."""
        first = [0] * 5 + [90] * 5
        self.assertEqual(figures.settled_from(first + [50] * 10), 10)
        self.assertIsNone(figures.settled_from(first + first + [50] * 10))

    def test_what_never_changes_or_grows_to_its_end_or_is_short(self) -> None:
        self.assertEqual([figures.settled_from(numbers) for numbers in ([7] * 50, list(range(200)), [1] * 9)],
                         [0, None, None])

    def test_the_least_squared_error_by_its_definition(self) -> None:
        """Each cut tried by hand over batches of five."""
        chance = random.Random(3)
        numbers = [30 * 0.9 ** at + chance.gauss(0, 1) for at in range(300)]
        means = [sum(numbers[at:at + 5]) / 5 for at in range(0, 300, 5)]

        def error(cut: int) -> float:
            rest = means[cut:]
            return sum((mean - sum(rest) / len(rest)) ** 2 for mean in rest) / len(rest) ** 2

        self.assertEqual(figures.settled_from(numbers), 5 * min(range(59), key=error))

    def test_welchs_moving_mean(self) -> None:
        """Means over both runs 2 to 7; one number, then three, then five to each side and itself."""
        self.assertEqual(figures.moving_means([[1, 2, 3, 4, 5, 9], [3, 4, 5, 6, 7, 5, 8]], 2), [2, 3, 4, 5])
        self.assertEqual(figures.moving_means([[4, 0], [6, 2]], 0), [5, 1])
        self.assertEqual(figures.moving_means([[1, 2]], 2), [])


class Censored(unittest.TestCase):
    def test_messages_still_there_count_as_old_as_they_are_at_least(self) -> None:
        """The third of 1, 2, 2, 2, 3, 4 is 2; with both that are left endless, the third of 1, 2, 3, 4 is 3."""
        self.assertEqual(figures.censored_percentile([1, 2, 3, 4], [2, 2], 0.5), (2, 3))
        self.assertEqual(figures.censored_percentile([1, 2, 3, 4], [], 0.5), (2, 2))
        self.assertEqual(figures.censored_percentile([1, 2, 3, 4], [9], 0.95), (9, math.inf))
        self.assertEqual(figures.censored_percentile([], [5], 0.5), (5, math.inf))
        self.assertIsNone(figures.censored_percentile([], [], 0.5))

    def test_messages_that_may_come(self) -> None:
        """With a hundred that come at once the 190th of 200 is 90; one that is older than all raises nothing yet."""
        hundred = list(range(1, 101))
        self.assertEqual(figures.censored_percentile(hundred, [], 0.95, [0] * 100), (90, math.inf))
        self.assertEqual(figures.censored_percentile(hundred, [], 0.95, [1_000]), (95, 96))
        self.assertEqual(figures.censored_percentile([], [], 0.5, [7, 5]), (5, math.inf))

    def test_the_bounds_are_those_of_all_cases(self) -> None:
        """Any of those that may come do, and end now or never."""
        chance = random.Random(1)
        for _ in range(300):
            known, left, coming = ([chance.randrange(9) for _ in range(chance.randrange(size))] for size in (6, 4, 4))
            share, found = chance.choice([0.5, 0.9, 0.95, 1.0]), []
            for count in range(len(coming) + 1):
                for some in itertools.combinations(coming, count):
                    unknown = [*left, *some]
                    found += [figures.percentile([*known, *unknown], share),
                              figures.percentile([*known, *[math.inf] * len(unknown)], share)]
            ages = [age for age in found if age is not None]
            self.assertEqual(figures.censored_percentile(known, left, share, coming),
                             (min(ages), max(ages)) if ages else None)

    def test_share_left(self) -> None:
        self.assertEqual([figures.share_left(*counts) for counts in ((3, 1), (0, 0), (0, 2), (2, 0))], [0.25, 0, 1, 0])

    def test_a_requirement_holds_fails_or_is_undecided(self) -> None:
        for low, high, compare, bound, holds in (
                (2, 3, operator.lt, 4, True), (2, 3, operator.lt, 3, None), (2, 3, operator.le, 3, True),
                (2, 3, operator.lt, 2, False), (2, math.inf, operator.lt, 9, None),
                (9, math.inf, operator.lt, 9, False), (9, math.inf, operator.ge, 9, True),
                (1, 5, operator.eq, 3, None), (1, 5, operator.ne, 3, None),
                (3, 3, operator.eq, 3, True), (4, 5, operator.eq, 3, False)):
            self.assertIs(figures.holds_within(figures.Interval(low, high), compare, bound), holds)

    def test_an_overloaded_queue_does_not_pass(self) -> None:
        """A consumer at 300 % of its load: 39 of 120 messages ended, the rest wait at least as long as they are old."""
        ended, left = [2_000 * count for count in range(1, 40)], [1_000 * count for count in range(81)]
        interval = figures.censored_percentile(ended, left, 0.95)
        self.assertIsNot(figures.holds_within(interval, operator.lt, 90_000), True)
        self.assertEqual(interval.high, math.inf)


class Imports(unittest.TestCase):
    def test_libraries_are_read_at_the_first_use_alone(self) -> None:
        """A tool that needs no quantile does not pay 0.15 s for them."""
        code = ("import sys\nfrom rehearse_tools import statistics as figures\nfigures.verdict(5, 9, 0.5)\n"
                "print('numpy' in sys.modules, 'scipy' in sys.modules)\nfigures.half_width([1, 2])\n"
                "print('scipy' in sys.modules)\n")
        _, out, err = ran([sys.executable, "-c", code], cwd=TOOLS)
        self.assertEqual(out, "False False\nTrue\n", err)


def poisson(chance: random.Random, rate: float, count: int) -> Iterator[int]:
    """The moments in milliseconds of a Poisson process of so many a millisecond."""
    at = 0.0
    for _ in range(count):
        at += chance.expovariate(rate)
        yield round(at)


@needs_program
class Queues(ToolCase):
    """The program's own queues, whose laws are known. A consumer serves for `service` and asks again 1 ms later."""

    def run_queue(self, moments: list[int], service: int, consumers: int, log: bool = False,
                  scaled: bool = False) -> str:
        """What the program prints of one queue with messages sent at these moments, one at most a millisecond. Consumers
        that are scaled are three more, of which a scaler always lets so many ask."""
        lines, last = [SCRIPT_HEADER], -1
        for at in moments:
            last = max(at, last + 1)
            lines.append(f"{last},send,m,,,,,,,,")
        self.write("sends.csv", "\n".join(lines) + "\n")
        keys = {"batch": 1, "wait_s": 20, "idle_ms": 1}
        actors = [consumer(f"c{number}", "q", service, **keys) for number in range(consumers)]
        if scaled:
            actors = [consumer("c0", "q", service, **keys, scaler="x", copies=consumers + 3),
                      table("actor", name="x", kind="scaler", queue="q", every_s=60, visible_per_copy=1,
                            copies_min=consumers, copies_max=consumers)]
        sender = table("actor", name="s", kind="script", queue="q", script="sends.csv")
        path = self.write("s.toml", scenario_of(last + 10_000_000, queue_of("q", visibility_s=3600), sender, *actors,
                                                version=3 if scaled else 1))
        words = ["--log", self.path("log.csv")] if log else ["--log", os.devnull]
        preview = ["--preview"] if scaled else []
        return self.ends(0, ran([PROGRAM, "run", *preview, *words, "--scripts", self.folder, path]))[0]

    def mean_age(self, report: str) -> float:
        """The mean age in milliseconds of all messages, which have all been deleted."""
        row = report_in(report)
        self.assertEqual(row["deletes"], row["sends"])
        return int(row["age_sum"]) / int(row["deletes"])

    def deleted_at(self) -> list[int]:
        """When each message of the log was deleted, by its number."""
        with open(self.path("log.csv"), encoding="utf-8") as file:
            rows = [row for row in csv.reader(line for line in file if ",delete,deleted," in line)
                    if row[3:5] == ["delete", "deleted"]]
        return [int(row[0]) for row in sorted(rows, key=lambda row: int(row[5].split("-")[2]))]

    def assert_is(self, means: list[float], wanted: float, nearness: float) -> None:
        """The mean lies round the wanted number by its own interval, which is narrow enough to say something."""
        half = figures.half_width(means)
        self.assertLessEqual(abs(figures.mean_of(means) - wanted), half, (figures.mean_of(means), half, wanted))
        self.assertLessEqual(half, nearness * wanted)

    def test_m_d_c_by_crommelins_series(self) -> None:
        """Poisson arrivals, equal work: Crommelin's mean wait (1932), for one server that of Pollaczek."""
        service, cycle = 1_000, 1_001
        for servers, load in ((1, 0.7), (3, 0.8)):
            wait = sum(float(figures.special.gammainc(turn * servers, turn * servers * load)
                             - figures.special.gammainc(turn * servers + 1, turn * servers * load) / load)
                       for turn in range(1, 400))
            if servers == 1:
                self.assertAlmostEqual(wait, load / 2 / (1 - load), 6)
            means = [self.mean_age(self.run_queue(list(poisson(random.Random(seed), servers * load / cycle, 10_000)),
                                                  service, servers)) for seed in range(10)]
            self.assert_is(means, wait * cycle + service, 0.05)

    def test_a_scaler_of_a_fixed_number_keeps_so_many_at_work(self) -> None:
        """With equal work the report is that of so many consumers."""
        moments = list(poisson(random.Random(1), 3 * 0.8 / 1_001, 3_000))
        self.assertEqual(self.run_queue(moments, 1_000, 3, scaled=True), self.run_queue(moments, 1_000, 3))

    def test_m_m_1(self) -> None:
        """Orders in pieces of 21 ms, their number geometric with mean 20: exponential work within 2.5 %.

        The mean time of an order is E(S) + rate E(S^2) / 2 (1 - load), and its 95th percentile that of M/M/1.
        """
        piece, mean, load, orders, first = 21, 20, 0.5, 2_000, 200
        rate = load / (piece * mean)
        means, percentiles = [], []
        for seed in range(10):
            chance = random.Random(seed)
            begins = list(poisson(chance, rate, orders))
            pieces = [1 + int(math.log(1 - chance.random()) / math.log(1 - 1 / mean)) for _ in begins]
            self.run_queue([at for at, count in zip(begins, pieces) for _ in range(count)], piece - 1, 1, log=True)
            ended, place, times = self.deleted_at(), 0, []
            for at, count in zip(begins, pieces):
                place += count
                times.append(ended[place - 1] + 1 - at)
            means.append(figures.mean_of(times[first:]))
            percentiles.append(figures.percentile(times[first:], 0.95))
        self.assert_is(means, piece * mean + rate * piece ** 2 * (2 * mean ** 2 - mean) / 2 / (1 - load), 0.08)
        self.assert_is(percentiles, -math.log(0.05) * piece * mean / (1 - load), 0.12)

    def test_a_load_of_98_percent_needs_its_warm_up_left_out(self) -> None:
        """The mean wait is 24.5 times the work. Runs that begin empty show less, and no number of seeds mends that."""
        service, cycle, load = 1_000, 1_001, 0.98
        wanted = load / 2 / (1 - load) * cycle + service
        short, settled = [], []
        for seed in range(12):
            moments = list(poisson(random.Random(seed), load / cycle, 30_000))
            self.run_queue(moments, service, 1, log=True)
            ages = [end - at for end, at in zip(self.deleted_at(), moments)]
            short.append(figures.mean_of(ages[:600]))
            settled.append(figures.mean_of(ages[6_000:]))
        self.assertLess(figures.mean_of(short) + figures.half_width(short), wanted)
        self.assert_is(settled, wanted, 0.3)


@needs_program
class Page(unittest.TestCase):
    """docs/STATISTICS.md prints what it says."""

    def setUp(self) -> None:
        self.page = text_at(ROOT, "docs", "STATISTICS.md")

    def test_its_commands(self) -> None:
        questions = module_at(os.path.join(ROOT, "tests", "questions"), "questions")
        commands = questions.quoted_commands(self.page)
        self.assertTrue(commands)
        self.assertEqual([questions.fault_of(PROGRAM, *command) for command in commands], [None] * len(commands))

    def test_its_table_of_runs(self) -> None:
        """How many runs show a share where none, one and two fail, and how many failures refute it."""
        rows = re.findall(r"^\| ([0-9]+) % \| ([0-9]+) \| ([0-9]+) \| ([0-9]+) \| ([0-9]+) \|$", self.page, re.M)
        self.assertEqual(len(rows), 5)
        for percent, *shown, refuted in rows:
            share = int(percent) / 100
            for failed, runs in enumerate(map(int, shown)):
                words = [figures.word_of(runs - failed - less, failed, share, 0.95) for less in (0, 1)]
                self.assertEqual(words, ["shown", "undecided"], (percent, failed))
            self.assertEqual(figures.word_of(0, int(refuted), share, 0.95), "refuted")
            self.assertNotEqual(figures.word_of(0, int(refuted) - 1, share, 0.95), "refuted")
