"""Compares what a poison message costs under Lambda with a small model that was written apart from all rules of ours.

The model has servers that take up to ten messages, handle one after another, and let the whole batch come back if one
fails. It knows nothing of polls, receipts or words: times are Python's random numbers. So its numbers are not ours, but
over 30 seeds both must be of one size, and go the same way.

Another model has servers that take a batch at once. It keeps the rules of docs/MODEL.md on polls, and on messages that
come back one by one. So both means must be equal but for chance.
"""
import heapq
import itertools
import math
import os
import random
import statistics
import unittest
from collections.abc import Callable, Iterator

from tool import needs_program, printed, report_in
from scenario_texts import consumer, producer, queue_of, scenario_of

SEEDS = range(1, 31)
COUNT, EVERY, SERVERS, BATCH, TIMEOUT, RECEIVES = 18_000, 1_000, 8, 10, 60_000, 3
POISON = COUNT // EVERY
QUEUES = queue_of("q", visibility_s=60, dead_letter="d", max_receives=3, latency_min_ms=1, latency_max_ms=1) + queue_of("d")
# By its name a load: the greatest gap, and the bounds of a service. An export of a minute and a half, and ten messages
# a second for servers that are busy for 94 or 47 of 100 seconds.
EXPORT = "an export"
LOADS = {EXPORT: (9, 100, 500), "busy": (199, 500, 1000), "idle": (199, 250, 500)}


class Model:
    """A queue with servers, as one would draw it on a sheet of paper."""

    def __init__(self, seed: int, gap: int, low: int, high: int, is_whole: bool) -> None:
        self.draw, self.low, self.is_whole = random.Random(seed).random, low, is_whole
        self.choices = high - low + 1
        self.receives = [0] * COUNT
        self.dead = 0
        # What is to come: a moment, and a message that is visible then.
        gaps = (1 + int(gap * self.draw()) for _ in range(COUNT))
        self.coming = [(moment, number) for number, moment in enumerate(itertools.accumulate(gaps))]
        self.visible: list[int] = []

    def take(self, moment: int) -> Iterator[int]:
        """The messages that a server takes at a moment, in the order of their numbers."""
        while self.coming and self.coming[0][0] <= moment:
            heapq.heappush(self.visible, heapq.heappop(self.coming)[1])
        for _ in range(min(BATCH, len(self.visible))):
            yield heapq.heappop(self.visible)

    def give_back(self, number: int, moment: int) -> None:
        if self.receives[number] == RECEIVES:
            self.dead += 1
        else:
            heapq.heappush(self.coming, (moment, number))

    def handle(self, batch: list[int], moment: int) -> int:
        """Handles a batch; returns when it is done."""
        now, failed = moment, []
        for number in batch:
            self.receives[number] += 1
            if self.is_whole and failed:
                continue
            now += self.low + int(self.choices * self.draw())
            if number % EVERY == EVERY - 1:
                failed = batch if self.is_whole else [*failed, number]
        for number in failed:
            self.give_back(number, moment + TIMEOUT)
        return now

    def run(self) -> int:
        """How many messages are dead in the end."""
        servers = [0] * SERVERS
        while self.coming or self.visible:
            moment = servers[0]
            if self.visible or self.coming[0][0] <= moment:
                next_moment = self.handle(list(self.take(moment)), moment)
            else:
                next_moment = self.coming[0][0]
            heapq.heapreplace(servers, next_moment)
        return self.dead


class AtOnce:
    """Servers that take a batch at once, by the rules of docs/MODEL.md: what comes back is given one by one to the polls
    that wait, and a server that gathers asks once more, 1 ms later. One message in a hundred is poison."""

    def __init__(self, seed: int, gathers: bool) -> None:
        self.random, self.gathers = random.Random(seed), gathers
        self.receives, self.dead = [0] * COUNT, 0
        self.visible: list[int] = []
        self.waiting: list[int] = []
        self.batches: list[list[int]] = [[] for _ in range(SERVERS)]
        # What is to come: a moment, who acts then, a message or 0, and what is done.
        self.due: list[tuple[int, int, int, Callable[[int], None]]] = []
        gaps = (self.random.randint(1, 199) for _ in range(COUNT))
        for number, moment in enumerate(itertools.accumulate(gaps)):
            heapq.heappush(self.due, (moment, 0, number, lambda now, it=number: heapq.heappush(self.visible, it)))
        for server in range(SERVERS):
            self.later(0, server, self.ask)

    def later(self, moment: int, server: int, act: Callable[[int, int], None]) -> None:
        heapq.heappush(self.due, (moment, 1 + server, 0, lambda now: act(now, server)))

    def come_back(self, number: int, received: int) -> None:
        if self.receives[number] == received == RECEIVES:
            self.dead += 1
        elif self.receives[number] == received:
            heapq.heappush(self.visible, number)

    def take(self, now: int, server: int) -> None:
        for _ in range(min(BATCH - len(self.batches[server]), len(self.visible))):
            number = heapq.heappop(self.visible)
            self.receives[number] += 1
            self.batches[server].append(number)
            heapq.heappush(self.due, (now + TIMEOUT, 0, number, lambda _, it=number, received=self.receives[number]:
                                      self.come_back(it, received)))

    def ask(self, now: int, server: int) -> None:
        """Asks, and begins to serve what it got, or to gather more. Its poll waits if there is nothing."""
        self.batches[server] = []
        self.take(now, server)
        if not self.batches[server]:
            self.waiting.append(server)
        elif self.gathers and len(self.batches[server]) < BATCH:
            self.later(now + 1, server, self.gather)
        else:
            self.serve(now, server)

    def gather(self, now: int, server: int) -> None:
        self.take(now, server)
        self.serve(now, server)

    def serve(self, now: int, server: int) -> None:
        self.later(now + self.random.randint(500, 1_500), server, self.end)

    def end(self, now: int, server: int) -> None:
        batch = self.batches[server]
        is_poison = any(number % 100 == 99 for number in batch)
        for number in () if is_poison else batch:
            self.receives[number] = 0
        self.later(now + (1 if is_poison else len(batch)), server, self.ask)

    def run(self) -> int:
        """How many messages are dead in the end."""
        while self.due:
            now, _, _, act = heapq.heappop(self.due)
            act(now)
            while self.visible and self.waiting:
                self.ask(now, self.waiting.pop(0))
        return self.dead


def text_of(seed: int, gap: int, *actors: str) -> str:
    return scenario_of(7_200_000, QUEUES, producer("p", "q", COUNT, (1, gap), "{n}."), *actors, version=3, seed=seed)


def dead_letters(text: str) -> int:
    """How many messages the program's report of a scenario counts as redriven from the first queue."""
    return int(report_in(printed("run", "--preview", "--log", os.devnull, text=text))["redrives"])


@needs_program
class Poison(unittest.TestCase):
    def model(self, load: str, is_whole: bool, seeds: range) -> list[int]:
        return [Model(seed, *LOADS[load], is_whole).run() for seed in seeds]

    def ours(self, load: str, fails: str, seeds: range) -> list[int]:
        gap, low, high = LOADS[load]
        actors = [consumer(f"c{number}", "q", (low, high), batch=10, wait_s=20, fails_on="999.", batch_fails=fails)
                  for number in range(SERVERS)]
        return [dead_letters(text_of(seed, gap, *actors)) for seed in seeds]

    def test_partial_responses_cost_poison_alone(self) -> None:
        for load in LOADS:
            with self.subTest(load=load):
                few = SEEDS[:5]
                self.assertEqual(set(self.model(load, False, few) + self.ours(load, "each", few)), {POISON})

    def test_whole_batches_cost_the_innocent(self) -> None:
        """Each run of a backlog costs the innocent more than the poison; busy servers cost fewer, idle ones hardly any.
        """
        means = {}
        for load in LOADS:
            found, ours = self.model(load, True, SEEDS), self.ours(load, "whole", SEEDS)
            with self.subTest(load=load):
                self.assertGreaterEqual(min(found + ours), POISON)
                means[load] = mean, our_mean = statistics.mean(found), statistics.mean(ours)
                self.assertTrue(mean / 2 < our_mean < 2 * mean, means)
                if load == EXPORT:
                    self.assertGreater(min(found + ours), 5 * POISON)
        for side in zip(*means.values()):
            self.assertEqual(sorted(side, reverse=True), list(side))
            self.assertGreater(side[0], 3 * side[1])
            self.assertGreater(side[1], 1.3 * side[2])

    def test_batches_at_once(self) -> None:
        """The means differ by no more than four of their standard errors. Servers that gather kill more."""
        means = []
        for gather in (0, 1):
            actors = consumer("c", "q", (500, 1_500), batch=10, wait_s=20, fails_on="99.", batch_fails="whole",
                              batch_service="once", copies=SERVERS, idle_ms=1, gather_ms=gather)
            found = [AtOnce(seed, gather > 0).run() for seed in SEEDS[:20]]
            ours = [dead_letters(text_of(seed, 199, actors)) for seed in SEEDS[:20]]
            mean, our_mean = statistics.mean(found), statistics.mean(ours)
            error = math.sqrt((statistics.variance(found) + statistics.variance(ours)) / len(found))
            with self.subTest(gather=gather):
                self.assertLess(abs(mean - our_mean), 4 * error)
            means.append((mean, our_mean))
        for side in zip(*means):
            self.assertGreater(side[1], 1.05 * side[0])
