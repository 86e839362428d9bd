"""The actors of a scenario that from-plan and from-queue make, and its text. They import it; it is not a command.

A file of real queues says at most who sends and receives, but not how many messages and how long their service takes.
So what is made here is marked SKELETON in a comment.
"""
from __future__ import annotations

import dataclasses
import math
import re
from argparse import Namespace
from collections.abc import Iterable, Sequence
from typing import Any

from .console import Fault, Parser, check_output, note, refuse, write_text
from .keys import VERSION_3
from .queues import NAME, NAME_MOST, Queue
from .scenarios import text_of_table

# How far the messages of a skeleton's producer are apart on average, in milliseconds, and how many it may send.
GAP, SENDS_MOST = 1_000, 1_000_000
# How long a skeleton's receive waits where the file does not say, in seconds.
WAIT = 20
# The most messages of a receive; consumers for a mapping that limits itself to none, and the most that are written.
BATCH_MOST, CONSUMERS, CONSUMERS_MOST = 10, 5, 100
# The most queues to which a consumer forwards each message.
FORWARDS_MOST = 10
# Messages of the depth that one producer sends, one each millisecond, while there are not too many producers.
DEPTH_OF_PRODUCER, DEPTH_PRODUCERS_MOST = 1_000, 100
QUEUES_MOST = 1_000
LATENCY = re.compile(r"latency_ms = ([0-9]+)")
HEAD = """# Queues from {source}. Each DEFAULT marks what is not told there: check it.
# DEFAULT of every queue: in_flight of 120000, the quota of SQS, and for standard queues hosts of 1, so that a short
# poll sees every message; bodies have at most 1,024 bytes.
{actors}
version = {version}
horizon = {horizon} # DEFAULT: how long to rehearse, in milliseconds.
"""
NO_ACTORS = "# To rehearse them, add actors that send and receive."
VERSION_3_TEXT = "# This has version 3 of scenarios: run it with --v3.\n"
SKELETONS = "# Each SKELETON marks actors that were made up: give them the rates and times of your own."


@dataclasses.dataclass
class Mapping:
    """An event source mapping of Lambda, by which a function takes messages of a queue.

    `batch` is the greatest number of messages of a call, and `window` how many seconds a call may wait for them. `most`
    is how many calls may run at once, or None if the file does not say. `notes` has further remarks.
    """

    place: str
    queue: str
    function: str
    batch: int = 10
    window: int = 0
    most: int | None = None
    is_partial: bool = False
    is_enabled: bool = True
    is_filtered: bool = False
    notes: list[str] = dataclasses.field(default_factory=list)

    def consumers(self) -> int:
        """How many consumers replace it."""
        return min(self.most or CONSUMERS, CONSUMERS_MOST) if self.is_enabled else 0

    def told(self, is_version_3: bool) -> list[str]:
        """What the model does not have of it, or the file does not say. Version 3 has batches that fail as a whole."""
        if not self.is_enabled:
            return [*self.notes, "it is not enabled, so that nobody receives"]
        notes = list(self.notes)
        if self.most is None:
            notes.append(f"DEFAULT: {CONSUMERS} consumers, as no maximum concurrency is given: Lambda begins with so "
                         f"many calls, and makes more as messages wait, which the model does not")
        elif self.most > CONSUMERS_MOST:
            notes.append(f"{CONSUMERS_MOST} consumers in place of a maximum concurrency of {self.most}")
        if self.batch > BATCH_MOST:
            notes.append(f"a batch of {BATCH_MOST}, the most of a scenario, in place of {self.batch}")
        if self.window:
            notes.append(f"its batching window of {self.window} s is left out: a consumer takes what is there")
        if self.batch > 1 and not self.is_partial and not is_version_3:
            notes.append("it does not report batch item failures, so that a message that fails brings its whole batch "
                         "back; here each message fails by itself, and with --v3 its batch does")
        if self.is_filtered:
            notes.append("its filter is left out: all messages of the queue come")
        return notes


@dataclasses.dataclass
class Subscription:
    """A subscription of SNS, by which the messages of a topic go to a queue.

    `topic` is what the topic is called, and `source` what the file says of it, which is the same for two subscriptions
    of one topic, and empty if the file does not tell the topic.
    """

    place: str
    queue: str
    topic: str
    source: str
    is_filtered: bool = False

    def told(self, others: Iterable[str]) -> list[str]:
        """What the model does not have of it; `others` are the queues that get the same messages."""
        notes = ["its filter policy is left out: send as many as it lets through"] if self.is_filtered else []
        names = ", ".join(sorted(set(others) - {self.queue}))
        return [*notes, f"the same messages go to {names}: here each queue gets its own"] if names else notes


@dataclasses.dataclass
class Topic:
    """A topic of SNS that brings each message to several queues, as a queue whose consumer forwards to all of them, and
    how long that takes."""

    queue: Queue
    subscriptions: list[Subscription]
    latency: int


@dataclasses.dataclass
class Wiring:
    """Who sends to queues and receives from them, and what a file does not say about it."""

    mappings: list[Mapping] = dataclasses.field(default_factory=list)
    subscriptions: list[Subscription] = dataclasses.field(default_factory=list)
    notes: list[str] = dataclasses.field(default_factory=list)


def topics_in(wiring: Wiring, queues: Iterable[Queue], latency: int) -> list[Topic]:
    """The topics of which two queues or more of one kind get each message, of which a filter leaves none out."""
    by_source: dict[str, list[Subscription]] = {}
    for found in wiring.subscriptions:
        if found.source and not found.is_filtered:
            by_source.setdefault(found.source, []).append(found)
    taken = {queue.name for queue in queues}
    topics = []
    for subscriptions in by_source.values():
        kinds = {found.queue.endswith(".fifo") for found in subscriptions}
        if len(kinds) == 1 and 1 < len(subscriptions) <= FORWARDS_MOST:
            ending, label = ".fifo" if kinds == {True} else "", subscriptions[0].topic.removesuffix(".fifo")
            is_free = NAME.fullmatch(f"{label}{ending}") and f"{label}{ending}" not in taken
            name = name_apart(label, "" if is_free else "-topic", taken, ending)
            topics.append(Topic(Queue(name), subscriptions, latency))
    return topics


def plain(text: str) -> str:
    """A text in characters that a comment of a scenario may have."""
    return re.sub(r"[^ -~]", "?", text)


def name_apart(queue: str, end: str, taken: set[str], last: str = "", copies: int = 0) -> str:
    """A name that nothing else has, with `last` at its very end. Its copies have names that nothing else has, too."""
    base, number = re.sub("[^A-Za-z0-9_-]+", "-", queue.removesuffix(".fifo")), 0
    while True:
        ending = (end if number == 0 else f"{end}-{number + 1}") + last
        made = base[:NAME_MOST - len(ending) - (len(f"-{copies}") if copies else 0)] + ending
        names = {made, *(f"{made}-{place}" for place in range(1, copies + 1))}
        if names.isdisjoint(taken):
            taken |= names
            return made
        number += 1


class Actors:
    """The tables of actors for some queues, as a text, and notes on them, each with the place that it is about."""

    def __init__(self, queues: list[Queue], horizon: int, is_version_3: bool, topics: Iterable[Topic] = ()) -> None:
        self.is_version_3, self.topics = is_version_3, {topic.queue.name: topic for topic in topics}
        self.taken, self.text = {queue.name for queue in queues}, ""
        self.notes: list[tuple[str, str]] = []
        self.received: set[str] = set()
        self.count = min(max(1, horizon // GAP), SENDS_MOST)

    def begin(self, title: str, place: str, notes: list[str]) -> None:
        """Begins a group of actors with its comments."""
        self.text += "\n" + "".join(f"# {plain(line[:1].upper() + line[1:])}.\n" for line in (title, *notes))
        self.notes += [(place, plain(note)) for note in notes]

    def producer(self, queue: Queue, name: str, count: int, gaps: tuple[int, int] = (100, 1_900), **more: Any) -> None:
        more = {"groups": 10} if queue.fifo else more
        self.text += text_of_table("actor", {
            "name": name, "kind": "producer", "queue": queue.name, "count": count, "gap_min_ms": gaps[0],
            "gap_max_ms": gaps[1], "body": "message {n}", **more})

    def consumer(self, queue: Queue, name: str, batch: int, times: tuple[int, int] = (100, 1_000), **more: Any) -> None:
        self.received.add(queue.name)
        self.text += text_of_table("actor", {
            "name": name, "kind": "consumer", "queue": queue.name, "batch": batch, "wait_s": queue.wait or WAIT,
            "service_min_ms": times[0], "service_max_ms": times[1], "idle_ms": 1, **more})

    def of_mapping(self, queue: Queue, mapping: Mapping) -> None:
        self.begin(f"SKELETON: the function {mapping.function} takes messages of {queue.name}, by {mapping.place}",
                   mapping.place, mapping.told(self.is_version_3))
        fails: dict[str, Any] = {"batch_fails": "each" if mapping.is_partial else "whole"} if self.is_version_3 else {}
        names = [f"{mapping.function[:NAME_MOST - 8]}-{number}" for number in range(1, mapping.consumers() + 1)]
        for place, name in enumerate(names):
            self.text += "\n" if place else ""
            self.consumer(queue, name_apart(name, "", self.taken), max(1, min(mapping.batch, BATCH_MOST)), **fails)

    def of_subscription(self, queue: Queue, subscription: Subscription, others: Iterable[str]) -> None:
        self.begin(f"SKELETON: what the topic {subscription.topic} sends to {queue.name}, by {subscription.place}",
                   subscription.place, subscription.told(others))
        self.producer(queue, name_apart(subscription.topic, f"-to-{queue.name.removesuffix('.fifo')}"[:40], self.taken),
                      self.count)

    def of_topic(self, topic: Topic) -> None:
        queues = [found.queue for found in topic.subscriptions]
        self.begin(f"SKELETON: the topic {topic.subscriptions[0].topic} sends each message to {', '.join(queues)}, by "
                   f"{', '.join(dict.fromkeys(found.place for found in topic.subscriptions))}", topic.queue.name,
                   [f"DEFAULT: latency_min_ms and latency_max_ms of {topic.latency}, how long that takes, as nothing "
                    f"tells it"])
        self.consumer(topic.queue, name_apart(topic.queue.name, "-sends", self.taken), BATCH_MOST, (1, 1),
                      forward=queues, latency_min_ms=topic.latency, latency_max_ms=topic.latency)

    def depth(self, queue: Queue, attribute: str, count: int) -> None:
        """Producers that send the messages which are there in the beginning, within the first moments."""
        many = min(math.ceil(count / DEPTH_OF_PRODUCER), DEPTH_PRODUCERS_MOST)
        counts = [count // many + (place < count % many) for place in range(many)]
        is_delayed = attribute.endswith("Delayed")
        end, more = "-depth-delayed" if is_delayed else "-depth", {} if is_delayed else {"delay_s": 0}
        self.begin(f"DEPTH: the {count} messages of {attribute}, sent in the first {counts[0]} ms, as the file does "
                   f"not tell their ages", queue.name, [])
        # in version 3 one table stands for all that send as many messages
        for place, part in enumerate(dict.fromkeys(counts) if self.is_version_3 else counts):
            self.text += "\n" if place else ""
            copies = counts.count(part) if self.is_version_3 else 0
            name = name_apart(queue.name, end if copies else f"{end}-{place + 1}", self.taken, copies=copies)
            self.producer(queue, name, part, (1, 1), **more, **({"copies": copies} if copies else {}))

    def of_wiring(self, queues: list[Queue], wiring: Wiring) -> None:
        """For each queue the senders and receivers that the file names, else skeletons if it takes no dead letters."""
        dead_letters = {queue.dead_letter for queue in queues}
        by_topic = [found for topic in self.topics.values() for found in topic.subscriptions]
        of_topic: dict[str, list[str]] = {}
        for subscription in wiring.subscriptions:
            of_topic.setdefault(subscription.topic, []).append(subscription.queue)
        fed = dead_letters | {found.queue for found in by_topic}
        for queue in queues:
            subscriptions = [found for found in wiring.subscriptions
                             if found.queue == queue.name and found not in by_topic]
            mappings = [found for found in wiring.mappings if found.queue == queue.name]
            for subscription in subscriptions:
                self.of_subscription(queue, subscription, of_topic[subscription.topic])
            if not subscriptions and queue.name not in fed:
                self.begin(f"SKELETON: who sends to {queue.name}", queue.name, [])
                self.producer(queue, name_apart(queue.name, "-sender", self.taken), self.count)
            if queue.name in self.topics:
                self.of_topic(self.topics[queue.name])
                continue
            for mapping in mappings:
                self.of_mapping(queue, mapping)
            if not mappings and queue.name not in dead_letters:
                self.begin(f"SKELETON: who works on {queue.name}", queue.name, [])
                self.consumer(queue, name_apart(queue.name, "-worker", self.taken), 1)


def scenario_text(queues: Sequence[Queue], source: str, horizon: int, notes: Sequence[str], actors: str,
                  is_version_3: bool) -> str:
    """The text of a scenario; `notes` are of no queue, and `actors` is the text of the actors."""
    title = SKELETONS if "# SKELETON" in actors else NO_ACTORS
    text = HEAD.format(source=source, actors=(VERSION_3_TEXT if is_version_3 else "") + title, horizon=horizon,
                       version=VERSION_3 if is_version_3 else 1)
    for queue in queues:
        text += "\n".join(["", "[[queue]]", *queue.lines, *(f"# {note}." for note in queue.notes)]) + "\n"
    return text + ("\n" if notes else "") + "".join(f"# {note}.\n" for note in notes) + actors


def add_options(parser: Parser) -> None:
    """The options that from-queue and from-plan share."""
    parser.take("--output", numbers={"--horizon": 3_600_000, "--latency": 100})


def check_options(options: Namespace, inputs: Iterable[str]) -> None:
    if not 1 <= options.horizon <= 2_592_000_000 or not 1 <= options.latency <= 900_000:
        raise Fault("a horizon has 1 to 2592000000 ms, a latency 1 to 900000 ms")
    check_output(options.output, inputs)


def tell_and_write(queues: list[Queue], options: Namespace, source: str, wiring: Wiring | None = None,
                   is_version_3: bool = False) -> int:
    """Prints the notes on all queues and writes the scenario, or prints the faults; returns the status.

    With `wiring` it has actors; with --depth those that send what is there in the beginning. With `is_version_3` it has
    version 3, in which a topic of several queues is a queue of its own.
    """
    topics = topics_in(wiring, queues, options.latency) if wiring and is_version_3 else []
    queues = [*queues, *(topic.queue for topic in topics)]
    refuse(len(queues) > QUEUES_MOST, f"{len(queues)} queues are too many: a scenario has at most {QUEUES_MOST}")
    faults = [f"{queue.name}: {fault}" for queue in queues for fault in queue.faults]
    if faults:
        for line in faults:
            note(line)
        return 2
    for queue in queues if is_version_3 else ():
        # from version 2 on the latency of a queue's redrives has two bounds
        queue.lines = [LATENCY.sub(r"latency_min_ms = \1\nlatency_max_ms = \1", line) for line in queue.lines]
        queue.notes = [text.replace("latency_ms of", "latency_min_ms and latency_max_ms of") for text in queue.notes]
    actors = Actors(queues, options.horizon, is_version_3, topics)
    for queue in queues:
        for attribute, count in queue.present.items():
            actors.depth(queue, attribute, count)
    if wiring is not None:
        actors.of_wiring(queues, wiring)
    for queue in queues:
        if queue.wait and queue.name not in actors.received:
            queue.note(f"{queue.title('ReceiveMessageWaitTimeSeconds')} is left out: give its consumers wait_s = "
                       f"{queue.wait}")
    notes = [plain(text) for text in wiring.notes] if wiring else []
    for line in [*(f"{queue.name}: {text}" for queue in queues for text in queue.notes), *notes,
                 *(f"{place}: {text}" for place, text in actors.notes)]:
        note(line)
    write_text(options.output, scenario_text(queues, source, options.horizon, notes, actors.text, is_version_3))
    return 0
