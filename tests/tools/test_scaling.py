"""Compares a queue whose workers are scaled with a small model that was written apart, over a sale of 15 minutes.

The model keeps the rules of docs/MODEL.md on scalers and copies. It knows nothing of receipts, timeouts or words: times
are Python's random numbers. So both means must be equal but for chance.
"""
import collections
import heapq
import itertools
import math
import random
import statistics
import unittest

from tool import needs_program, printed, report_in
from scenario_texts import consumer, producer, queue_of, scenario_of, table

SEEDS = range(1, 13)
SHOP, SALE, SALE_AT, COPIES, LEAST, IDLE, START, HORIZON = 2_400, 16_000, 300_000, 40, 3, 1_000, 45_000, 2_400_000
EVERY, READING, EACH, COOLDOWN_OUT = 60, 50, 60, 120
SERVICE = 500, 1_500
COLUMNS = ("deletes", "age_sum", "depth_max")


class Model:
    """A queue, workers of which so many are to work, and who says that, each by the next moment at which it acts."""

    def __init__(self, seed: int, cooldown_in: int) -> None:
        self.random, self.cooldown_in = random.Random(seed), 1_000 * cooldown_in
        self.visible: collections.deque[int] = collections.deque()
        self.flying = self.ages = self.deleted = self.most = self.changed = 0
        self.serving: list[int | None] = [None] * COPIES
        self.is_resting = [False] * COPIES
        self.copies, self.changes, self.next_look, self.seen = LEAST, 0, 0, None
        # The moments of what is to come, with who acts: workers behind who scales them, and messages before all.
        self.due = [(at, -2) for at in self.sends(0, SHOP, 1_999)] + [(at, -2) for at in self.sends(SALE_AT, SALE, 99)]
        self.due += [(0, worker) for worker in range(-1, COPIES)]
        heapq.heapify(self.due)

    def sends(self, start: int, count: int, gap: int) -> list[int]:
        gaps = (self.random.randint(1, gap) for _ in range(count - 1))
        return [start, *(start + it for it in itertools.accumulate(gaps))]

    def run(self) -> list[float]:
        """The mean age of what was deleted, the greatest number of messages, and how often the workers changed."""
        while self.due[0][0] <= HORIZON:
            now, who = heapq.heappop(self.due)
            if who == -2:
                self.visible.append(now)
            else:
                heapq.heappush(self.due, (self.look(now) if who == -1 else self.work(now, who), who))
            self.most = max(self.most, len(self.visible) + self.flying)
        return [self.ages / self.deleted, self.most, self.changes]

    def look(self, now: int) -> int:
        if self.seen is None:
            self.seen, self.next_look = len(self.visible), now + 1_000 * READING
            return self.next_look
        wanted, self.seen = min(COPIES, max(LEAST, math.ceil(self.seen / EACH))), None
        cooldown = 1_000 * COOLDOWN_OUT if wanted > self.copies else self.cooldown_in
        if wanted != self.copies and now >= self.changed + cooldown:
            self.copies, self.changed, self.changes = wanted, now, self.changes + 1
        self.next_look = now + 1_000 * (EVERY - READING)
        return self.next_look

    def work(self, now: int, worker: int) -> int:
        """What a worker does, and when it acts again."""
        sent = self.serving[worker]
        if sent is not None:
            self.serving[worker], self.flying = None, self.flying - 1
            self.ages, self.deleted = self.ages + now - sent, self.deleted + 1
            return now + 1
        rested, self.is_resting[worker] = self.is_resting[worker], worker >= self.copies
        if self.is_resting[worker]:
            return max(now + 1, self.next_look)
        if rested:
            return now + START
        if not self.visible:
            return now + IDLE
        self.serving[worker], self.flying = self.visible.popleft(), self.flying + 1
        return now + self.random.randint(*SERVICE)


def ours(seed: int, cooldown_in: int) -> list[float]:
    """The same of the program."""
    policy = table("actor", name="x", kind="scaler", queue="q", every_s=EVERY, reading_s=READING, visible_per_copy=EACH,
                   copies_min=LEAST, copies_max=COPIES, cooldown_out_s=COOLDOWN_OUT, cooldown_in_s=cooldown_in)
    text = scenario_of(HORIZON, queue_of("q", visibility_s=600), producer("p", "q", SHOP, (1, 1_999)),
                       producer("s", "q", SALE, (1, 99), start_ms=SALE_AT), policy,
                       consumer("w", "q", SERVICE, idle_ms=IDLE, copies=COPIES, scaler="x", scaler_start_ms=START),
                       version=3, seed=seed)
    output = printed("run", "--v3", text=text)
    deletes, ages, most = (int(report_in(output)[column]) for column in COLUMNS)
    return [ages / deletes, most, output.count(",scale,ok,")]


@needs_program
class Scaling(unittest.TestCase):
    def test_a_sale(self) -> None:
        """The means differ by no more than four of their standard errors. Workers that are taken away later help."""
        ages = []
        for cooldown_in in (60, 900):
            found, own = [Model(seed, cooldown_in).run() for seed in SEEDS], [ours(seed, cooldown_in) for seed in SEEDS]
            for what, numbers, own_numbers in zip(("age", "depth", "changes"), zip(*found), zip(*own)):
                error = math.sqrt((statistics.variance(numbers) + statistics.variance(own_numbers)) / len(SEEDS))
                with self.subTest(cooldown_in=cooldown_in, what=what):
                    self.assertLess(abs(statistics.mean(numbers) - statistics.mean(own_numbers)), 4 * error + 1)
            ages.append(statistics.mean(mean for mean, *_ in found + own))
        self.assertGreater(ages[0], 1.1 * ages[1])
