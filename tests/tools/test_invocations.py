"""Compares functions that take a whole batch at once with a small model that was written apart, over ten seeds each.

The model has a queue, messages that come and come back, and functions that are busy or wait. It keeps what
docs/MODEL.md says of receives, visibility timeouts, dead letters and batches. It knows nothing of receipts, polls or
words: times are Python's random numbers. So the dead letters and ages of both must be alike but for chance.

One message in a hundred is poison. Ten times as many messages, with one in a thousand, tell the same in a minute:
docs/STATISTICS.md has that table.
"""
from __future__ import annotations

import collections
import heapq
import itertools
import math
import os
import random
import statistics
import unittest
from collections.abc import Sequence

from tool import needs_program, printed, report_in
from scenario_texts import consumer, producer, queue_of, scenario_of

SEEDS = range(1, 11)
COUNT, POISON, GAP, FUNCTIONS, BATCH, TIMEOUT, RECEIVES = 21_600, "99.", (1, 199), 8, 10, 60_000, 3
# How long a batch takes.
QUICK, SLOW, SLOWEST = SERVICES = (500, 1_500), (500, 3_500), (1_000, 6_000)
Messages = collections.deque[tuple[int, int]]


class Model:
    """A queue and its functions, by the next moment at which something happens. Of what meets at one moment, messages
    that come back are first, one by one, then those that are sent, and functions that are done are last."""

    def __init__(self, seed: int, service: tuple[int, int]) -> None:
        self.random, self.service = random.Random(seed), service
        gaps = (self.random.randint(*GAP) for _ in range(COUNT - 1))
        self.sent = [0, *itertools.accumulate(gaps)]
        self.receives, self.dead = [0] * COUNT, 0
        # The moments at which messages come and come back, each with its message, and the visible ones by their places.
        self.coming, self.back = Messages(zip(self.sent, range(COUNT))), Messages()
        self.visible: list[tuple[int, int]] = []
        # The moments at which functions are done, how many of them wait, and the ages of what they deleted.
        self.busy, self.waiting, self.ages = [0] * FUNCTIONS, 0, list[int]()

    def place(self, number: int) -> int:
        """A message that comes back has the place in the queue that it had before."""
        return number

    def show(self, messages: Messages) -> None:
        """The first of these messages becomes visible."""
        number = messages.popleft()[1]
        heapq.heappush(self.visible, (self.place(number), number))

    def invoke(self, now: int) -> int:
        """Invokes a function with what is visible; returns when it asks again."""
        batch = [heapq.heappop(self.visible)[1] for _ in range(min(BATCH, len(self.visible)))]
        end = now + self.random.randint(*self.service)
        for number in batch:
            self.receives[number] += 1
        if not any(f"{number}.".endswith(POISON) for number in batch):
            # The deletes of a batch are a millisecond apart.
            self.ages += [end + place - self.sent[number] for place, number in enumerate(batch)]
            return end + len(batch)
        left = [number for number in batch if self.receives[number] < RECEIVES]
        self.back += [(now + TIMEOUT, number) for number in left]
        self.dead += len(batch) - len(left)
        return end + 1

    def run(self) -> tuple[int, int]:
        """The dead letters, and the age that 95 of 100 deleted messages have at most."""
        while self.coming or self.back or self.visible:
            now = min([messages[0][0] for messages in (self.back, self.coming) if messages] + self.busy[:1])
            if self.back and self.back[0][0] == now:
                self.show(self.back)
            elif self.coming and self.coming[0][0] == now:
                self.show(self.coming)
            else:
                heapq.heappop(self.busy)
                self.waiting += 1
            while self.waiting and self.visible:
                heapq.heappush(self.busy, self.invoke(now))
                self.waiting -= 1
        return self.dead, sorted(self.ages)[math.ceil(0.95 * len(self.ages)) - 1]


class Together(Model):
    """Another rule: what comes back at one moment comes at once, so that one function gets all of it."""

    def show(self, messages: Messages) -> None:
        now = messages[0][0]
        super().show(messages)
        while messages is self.back and messages and messages[0][0] == now:
            super().show(messages)


class Behind(Model):
    """Another rule: what comes back stands behind all that is there."""

    places = 0

    def place(self, number: int) -> int:
        self.places += 1
        return self.places


def ours(seed: int, service: tuple[int, int]) -> tuple[int, int]:
    """The same of the program. The run is twice as long as messages are sent, so that all of them end."""
    text = scenario_of(COUNT * GAP[1], queue_of("q", visibility_s=TIMEOUT // 1_000, dead_letter="d", latency_min_ms=1,
                                                latency_max_ms=1, max_receives=RECEIVES), queue_of("d"),
                       producer("p", "q", COUNT, GAP, "{n}."),
                       consumer("c", "q", service, copies=FUNCTIONS, batch=BATCH, batch_service="once", wait_s=20,
                                batch_fails="whole", fails_on=POISON, idle_ms=1), version=3, seed=seed)
    report = report_in(printed("run", "--preview", "--log", os.devnull, text=text))
    found = {column: int(report[column]) for column in ("deletes", "redrives", "age_p95")}
    assert found["deletes"] + found["redrives"] == COUNT, "messages are left"
    return found["redrives"], found["age_p95"]


def is_within(numbers: Sequence[int], others: Sequence[int]) -> bool:
    """Whether the mean of some numbers lies between the least and the greatest of others."""
    return min(others) <= statistics.mean(numbers) <= max(others)


@needs_program
class Invocations(unittest.TestCase):
    @classmethod
    def setUpClass(cls) -> None:
        cls.ours = {service: list(zip(*(ours(seed, service) for seed in SEEDS))) for service in SERVICES}

    def are_alike(self, model: type[Model], service: tuple[int, int]) -> list[bool]:
        """Of dead letters and of ages, whether the mean of each side is within the numbers of the other."""
        found = zip(*(model(seed, service).run() for seed in SEEDS))
        return [is_within(numbers, own) and is_within(own, numbers) for numbers, own in zip(found, self.ours[service])]

    def test_dead_letters_and_ages(self) -> None:
        for service in SERVICES:
            with self.subTest(service=service):
                self.assertEqual(self.are_alike(Model, service), [True, True])

    def test_other_rules_show(self) -> None:
        """So the test would find a program with another of these rules."""
        for model, service in ((Together, QUICK), (Behind, SLOW), (Behind, SLOWEST)):
            with self.subTest(model=model.__name__, service=service):
                self.assertIn(False, self.are_alike(model, service))


if __name__ == "__main__":
    unittest.main()
