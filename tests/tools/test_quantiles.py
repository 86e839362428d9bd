"""Tests tools/quantiles: what the program draws by its tables, and how long messages wait whose times have a known law.

The waits are those of one consumer with a load of 80 % and arrivals at random, by the formulas of Pollaczek and
Khinchine. With the mean m and the mean square q of the times the mean wait is r q / 2 (1 - r m), where r messages come
in a unit of time. So it is off by the share by which q is off, and by four times that of m.
"""
import bisect
import functools
import itertools
import math
import operator
import random
import statistics
import unittest

from tool import ToolCase, module_of, needs_program, printed
from rehearse_tools.console import toml_of

quantiles = module_of("quantiles")
# Of lognormal times through p50 = 120 and p99 = 900: 2.3263 is the normal variable below which 99 % are.
LOGNORMAL = 120 * math.exp((math.log(900 / 120) / 2.3263) ** 2 / 2)


def drawn(pairs, count=10_000):
    """The times that the program draws by a table for words that are evenly apart, as docs/MODEL.md has them."""
    words = [word * 1_000 for word in range(2 ** 32 // (2 * count), 2 ** 32, 2 ** 32 // count)]
    return [low + (word - (start << 32)) * (high - low) // (end - start << 32)
            for (start, low), (end, high) in zip(pairs, pairs[1:]) for word in words if start << 32 <= word < end << 32]


def lognormal(deviation, seed=None, count=10_000):
    """Times with a median of 100 ms: random ones, or without a seed those that are spread evenly over the law."""
    chance = random.Random(seed)
    normals = ((chance.gauss(0, 1) for _ in range(count)) if seed is not None else
               (statistics.NormalDist().inv_cdf((place + 0.5) / count) for place in range(count)))
    return sorted(max(1, 100 * math.exp(deviation * normal)) for normal in normals)


def mean_and_square(times):
    return statistics.fmean(times), statistics.fmean(time * time for time in times)


def mean_wait(mean, square, rate):
    return rate * square / 2 / (1 - rate * mean)


def wait_95(times, rate):
    """The wait that 95 of 100 messages have at most. It is the sum of k times of the law of what is left of a service
    that has begun, with probability (1 - load) load^k; here by its recursion in steps of a tenth of the mean."""
    count, mean = len(times), statistics.fmean(times)
    load, step, sums = rate * mean, mean / 10, [0.0, *itertools.accumulate(times)]

    @functools.lru_cache(None)
    def left(steps):
        """The share of what is left that is at most so many steps and a half."""
        most = (steps + 0.5) * step
        place = bisect.bisect(times, most)
        return (sums[place] + (count - place) * most) / sums[-1]

    shares, found = [left(0)], [(1 - load) / (1 - load * left(0))]
    while sum(found) < 0.95:
        shares.append(left(len(found)) - left(len(found) - 1))
        found.append(load / (1 - load * shares[0]) * sum(map(operator.mul, shares[1:], reversed(found))))
    return len(found) * step


class Quantiles(ToolCase):
    def made(self, *words, times=(), key="service"):
        """The pairs that are printed, and the lines of comments behind them."""
        out = self.output("quantiles", *words, stdin="\n".join(map(str, times)).encode())
        pairs, (permilles, column) = toml_of(out)[key], zip(*toml_of(out)[key])
        self.assertEqual((permilles[0], permilles[-1], sorted(set(permilles))), (0, 1_000, list(permilles)))
        self.assertTrue(len(pairs) <= 32 and 1 <= column[0] and list(column) == sorted(column), pairs)
        return pairs, out.splitlines()[1:]

    def test_the_mean_of_a_table(self):
        """Each whole time from the first on is drawn, and not the second: of 1 and 11 these are 1 to 10."""
        for pairs, mean in (([[0, 1], [1000, 11]], 5.5), ([[0, 7], [1000, 7]], 7), ([[0, 7], [1000, 8]], 7),
                            ([[0, 10], [500, 10], [1000, 21]], (10 + 15) / 2),
                            ([[0, 1], [500, 120], [990, 900], [1000, 5000]], 309.15)):
            self.assertAlmostEqual(quantiles.mean_of(pairs), mean, places=9)
            self.assertAlmostEqual(statistics.fmean(drawn(pairs)) / mean, 1, places=3)

    def test_times_of_few_values(self):
        """Of each value as many are drawn as there are, but for a permille on each side of it."""
        for times in ([5], [10, 1000], [1, 1, 2], range(1, 10), range(80, 121), [120] * 50, [3] * 9 + [4]):
            pairs, lines = self.made("-", times=times)
            self.assertEqual(lines[:2], [f"# Times: {len(times)} of standard input",
                                         f"# Mean of the times: {statistics.fmean(times):,.2f} ms"])
            found = drawn(pairs)
            for value in set(times):
                with self.subTest(times=times, value=value):
                    self.assertAlmostEqual(sum(time <= value + 1 for time in found) / len(found),
                                           sum(time <= value + 1 for time in times) / len(times), delta=0.003)

    def test_lognormal_times(self):
        """The mean of the table is that of 10,000 times, the mean square within 2 %, and so are the medians."""
        for deviation, seed, count in itertools.product((1, 1.5), range(3), (10, 32)):
            times = lognormal(deviation, seed)
            pairs = quantiles.table_of(quantiles.of_file(times), count)
            self.assertLessEqual(len(pairs), count)
            self.assertLess(abs(quantiles.mean_of(pairs) / statistics.fmean(times) - 1), 0.01)
            self.assertLess(abs(mean_and_square(drawn(pairs))[1] / mean_and_square(times)[1] - 1), 0.02)
            self.assertLess(abs(statistics.median(drawn(pairs)) / statistics.median(times) - 1), 1 / count)

    def test_waits_by_times(self):
        """They are those by the times themselves within 5 %: the mean, and what 95 of 100 wait at most."""
        for deviation, seed in itertools.product((1, 1.5), (None, 1, 2)):
            times = lognormal(deviation, seed)
            found, rate = sorted(drawn(quantiles.table_of(quantiles.of_file(times), 32))), 0.8 / statistics.fmean(times)
            with self.subTest(deviation=deviation, seed=seed):
                wait = mean_wait(*mean_and_square(times), rate)
                self.assertLess(abs(mean_wait(*mean_and_square(found), rate) / wait - 1), 0.02)
                self.assertLess(abs(wait_95(found, rate) / wait_95(times, rate) - 1), 0.05)

    def test_waits_by_a_law(self):
        """The mean wait is that of the law within 5 %, by two of its quantiles. By 10,000 times that are spread evenly
        over it, it is so only if they have nearly the mean square of the law: with a deviation of 1, and not of 1.5."""
        for deviation, is_told in ((1, True), (1.5, False)):
            mean, square = 100 * math.exp(deviation ** 2 / 2), 100 ** 2 * math.exp(2 * deviation ** 2)
            wait = mean_wait(mean, square, 0.8 / mean)
            given = {"50": 100.0, "90": 100 * math.exp(deviation * statistics.NormalDist().inv_cdf(0.9))}
            law = quantiles.of_law(quantiles.law_of(given, None, quantiles.MOST), given)
            off = [mean_wait(*mean_and_square(drawn(quantiles.table_of(times, 32))), 0.8 / mean) / wait - 1
                   for times in (law, quantiles.of_file(lognormal(deviation)))]
            with self.subTest(deviation=deviation):
                self.assertEqual([abs(it) < 0.05 for it in off], [True, is_told], off)
                self.assertAlmostEqual(mean_wait(*mean_and_square(lognormal(deviation)), 0.8 / mean) / wait - 1, off[1],
                                       delta=0.02)

    def test_the_deviation(self):
        """The numbers that are printed are those of the times and of what is drawn."""
        times = [round(time, 6) for time in lognormal(1.5, 3)]
        pairs, lines = self.made("-", times=times)
        before, after = statistics.pstdev(times), statistics.pstdev(drawn(pairs, 2 ** 16))
        self.assertEqual(lines[4], f"# Standard deviation of the times: {before:,.2f} ms")
        self.assertEqual([line.split(": ")[0] for line in lines[5:]], ["# Standard deviation of the table", "# Error"])
        found, off = (float(line.split(": ")[1].split()[0].replace(",", "")) for line in lines[5:])
        self.assertAlmostEqual(found / after, 1, places=3)
        self.assertAlmostEqual(off, 100 * (after / before - 1), delta=0.1)

    def test_the_variance_of_a_table(self):
        """Of 1 and 11 the times 1 to 10 are drawn, as often; of 7 and 7 the one time."""
        for pairs in ([[0, 1], [1000, 11]], [[0, 7], [1000, 7]], [[0, 10], [500, 10], [1000, 21]],
                      [[0, 1], [500, 120], [990, 900], [1000, 5000]]):
            self.assertAlmostEqual(quantiles.variance_of(pairs), statistics.pvariance(drawn(pairs)),
                                   delta=0.001 * quantiles.variance_of(pairs))

    def test_laws(self):
        """The quantiles that are given stand in the table, and the mean is that of the law or the one that is given."""
        for words, kept, mean, law in (
                (("--p50", "120", "--p99", "900"), [[500, 120], [990, 900]], LOGNORMAL, "p50 = 120, p99 = 900"),
                (("--p99", "900", "--p50=120", "--mean", "175"), [[500, 120], [990, 900]], 175,
                 "p50 = 120, p99 = 900, with a mean of 175, bent by 0.996"),
                (("--p50", "120", "--p99", "900", "--mean", "160"), [[500, 120], [990, 900]], 160, None),
                (("--p50", "120", "--p99", "900", "--mean", "250"), [[500, 120], [990, 900]], 250, None),
                (("--p50", "120", "--mean", "174.6"), [[500, 120]], 174.6, "p50 = 120, with a mean of 174.6"),
                (("--p99", "900", "--mean", "174.6"), [[990, 900]], 174.6, "p99 = 900, with a mean of 174.6"),
                (("--p50", "40", "--p90", "80", "--p99.9", "2000"), [[500, 40], [900, 80], [999, 2000]], None, None),
                (("--p50", "120", "--p99", "120"), [[0, 120], [1000, 120]], 120, "p50 = 120, p99 = 120")):
            with self.subTest(words=words):
                pairs, lines = self.made(*words)
                self.assertEqual([pair for pair in kept if pair not in pairs], [])
                found = quantiles.mean_of(pairs)
                self.assertEqual(lines[2], f"# Mean of the table: {found:,.2f} ms")
                self.assertLess(abs(found / (mean or found) - 1), 0.002)
                self.assertIn(lines[0], (f"# Times: lognormal, by {law}", lines[0] if law is None else None))
                self.assertRegex(lines[3], r"^# Error: [+-]0\.0\d %$")

    def test_the_law_of_one_quantile_and_a_mean(self):
        """It is that of two quantiles which has this mean: 99 % take 900 ms at most by the median and the mean."""
        pairs, _ = self.made("--p50", "120", "--mean", f"{LOGNORMAL:.3f}")
        self.assertAlmostEqual(sorted(drawn(pairs))[9_900], 900, delta=15)

    def test_options(self):
        """No time is over --max, as many pairs are there as are allowed, and a gap has the key gap."""
        pairs, lines = self.made("--p50", "120", "--p99", "900", "--max", "1000", "--key", "gap", "--pairs", "10",
                                 key="gap")
        self.assertEqual((len(pairs) <= 10, pairs[-1], lines[0]), (True, [1000, 1000], "# Times: lognormal, by p50 = "
                                                                   "120, p99 = 900, none over 1000"))
        path = self.write("t.csv", "name,ms\na,10\nb,10.5\n")
        self.assertEqual(self.made(path, "--column", "ms")[1][:2],
                         [f"# Times: 2 of {path}", "# Mean of the times: 10.25 ms"])

    def test_a_tail_that_is_drawn(self):
        """Each time of the tail moves by a share of its distance from the last one that stays, not past the next."""
        pairs = [[0, 1], [900, 10], [950, 100], [960, 101], [999, 200]]
        times = quantiles.Times([], [], 0, (960,), 220)
        for share, second, last in ((0.2, 82, 180), (0, 100, 200), (-0.1, 101, 210), (-0.25, 101, 220)):
            self.assertEqual(quantiles.drawn_in(pairs, share, times),
                             [*pairs[:2], [950, second], [960, 101], [999, last]])

    def test_what_no_table_has(self):
        """Of 1,009 times nine are the greatest that there is: a piece of a permille before them is too much."""
        _, lines = self.made("-", times=[1] * 999 + [10] + [86_400_000] * 9)
        self.assertRegex(lines[3], r"^# Error: -\d\.\d\d %$")
        self.assertEqual(lines[4], "# No nearer: 32 pairs of whole permilles, with times up to 86,400,000 ms, do not "
                                   "have this mean.")

    def test_a_deviation_that_no_table_has(self):
        """Of 10,000 times one is 10,000 ms, and the others 1 ms. The last piece of a table is ten of 10,000 times. With
        the right mean, and spread evenly, they have hardly more than a third of the deviation."""
        _, lines = self.made("-", times=[1] * 9_999 + [10_000])
        self.assertEqual(lines[4], f"# Standard deviation of the times: {9_999 * math.sqrt(1e-4 * (1 - 1e-4)):,.2f} ms")
        self.assertRegex(lines[6], r"^# Error: -6\d\.\d\d %$")
        self.assertEqual(lines[7:], ["# No nearer: 32 pairs of whole permilles, with times up to 86,400,000 ms, do not "
                                     "have this deviation, but with a tail that is far off."])

    @needs_program
    def test_what_is_made_runs(self):
        """All that is printed may be pasted into a scenario."""
        for words, times in ((("--p50", "120", "--p99", "900"), ()), (("-",), range(1, 99))):
            out = self.run_tool("quantiles", *words, stdin="\n".join(map(str, times)).encode())[1]
            path = self.write("s.toml", 'version = 3\nhorizon = 9\n[[queue]]\nname = "q"\n[[actor]]\nname = "c"\n'
                                        f'kind = "consumer"\nqueue = "q"\n{out}idle_ms = 5\n')
            self.assertEqual(printed("check", "--v3", path), "ok queues=1 actors=1 tasks=0 least=10\n")


if __name__ == "__main__":
    unittest.main()
