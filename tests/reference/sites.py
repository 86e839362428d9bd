"""A site: a queue with the actors and tasks whose home it is, and the world of all sites."""
import math
from collections.abc import Iterator
from contextlib import contextmanager
from dataclasses import dataclass, replace
from typing import NamedTuple

from actors import Actor, Scaler, actor_of
from faults import Refused, grant
from log import md5
from queues import BAD_TIMEOUT, LONGEST_TIMEOUT_S, OVER_LIMIT, Load, Message, Place, Queue, origin_text
from settings import Latency, Scenario, TaskSettings
from words import Draws

EXPIRY, RELEASE, ARRIVAL, POLL_END, WAKE, SAMPLE, STEP = range(7)
TASK_RUNNING, NO_TASK = 8, 9
SECOND = 1000


class Key(NamedTuple):
    """What is due, in the order in which it is handled."""

    at: int
    agent: int
    kind: int
    number: int


class Row(NamedTuple):
    """A row of the log, with the number of its queue."""

    queue: int
    fields: tuple[str, ...]


@dataclass
class Poll:
    """A long poll that waits."""

    agent: int
    number: int
    end: int
    most: int
    timeout_s: int | None


@dataclass
class Transfer:
    """A message under way from a queue to another, by its sender and the sender's number of it."""

    at: int
    sender: int
    number: int
    source: int
    target: int
    load: Load

    def key(self) -> Key:
        return Key(self.at, self.sender, ARRIVAL, self.number)


class Task:
    """A move task and what it has done."""

    def __init__(self, number: int, settings: TaskSettings, seed: int) -> None:
        self.number, self.settings, self.draws = number, settings, Draws(seed, number)
        self.status, self.moved, self.steps, self.next_step = "Idle", 0, 0, 0


class Site:
    """A queue, its actors, its tasks and what is under way to it. A handling makes rows and sends transfers."""

    def __init__(self, scenario: Scenario, number: int) -> None:
        self.scenario, self.number, self.names = scenario, number, scenario.names()
        self.queue = Queue(number, scenario.queues[number], scenario.seed)
        first_actor = len(scenario.queues)
        first_task = first_actor + len(scenario.actors)
        self.actors: dict[int, Actor] = {
            agent: actor_of(agent, settings, scenario.seed)
            for agent, settings in enumerate(scenario.actors, first_actor) if settings.home == number}
        self.tasks = {agent: Task(agent, settings, scenario.seed)
                      for agent, settings in enumerate(scenario.tasks, first_task) if settings.home == number}
        self.polls: list[Poll] = []
        self.arriving: list[Transfer] = []
        self.samples = 0
        self.sent: dict[int, int] = {}
        self.rows: list[Row] = []
        self.leaving: list[Transfer] = []
        self.now = 0

    # What is due.
    def dues(self) -> Iterator[Key]:
        own, sample = self.number, self.scenario.sample
        for message in self.queue.messages.values():
            yield Key(message.enqueued + self.queue.settings.retention, own, EXPIRY, message.number)
            if message.due is not None:
                yield Key(message.due, own, RELEASE, message.number)
        yield from (transfer.key() for transfer in self.arriving)
        yield from (Key(poll.end, poll.agent, POLL_END, poll.number) for poll in self.polls)
        for agent, actor in self.actors.items():
            if actor.next_wake is not None:
                yield Key(actor.next_wake, agent, WAKE, actor.wakes)
        if sample:
            yield Key((self.samples + 1) * sample, own, SAMPLE, self.samples)
        for agent, task in self.tasks.items():
            if task.status == "Running":
                yield Key(task.next_step, agent, STEP, task.steps)

    def least_due(self) -> Key | None:
        return min(self.dues(), default=None)

    # A handling.
    def handle(self, key: Key) -> tuple[list[Row], list[Transfer]]:
        """The rows that the handling of what is due makes, and what it sends."""
        self.now, self.rows, self.leaving = key.at, [], []
        if key.kind == EXPIRY:
            self.expire(key.number)
        elif key.kind == RELEASE:
            self.come_back(self.queue.messages[key.number])
        elif key.kind == ARRIVAL:
            self.arrive(next(transfer for transfer in self.arriving if transfer.key() == key))
        elif key.kind == POLL_END:
            self.end_poll(key.agent)
        elif key.kind == WAKE:
            self.actors[key.agent].woken(self)
        elif key.kind == SAMPLE:
            self.sample()
        else:
            self.step(self.tasks[key.agent])
        self.answer_polls()
        return self.rows, self.leaving

    def row(self, agent: int, call: str, answer: str, message: str = "", receipt: str = "",
            detail: object = "") -> None:
        self.rows.append(Row(self.number, (str(self.now), self.queue.settings.name, self.names[agent], call, answer,
                                           message, receipt, str(detail))))

    def transfer(self, agent: int, target: int, time: int, load: Load) -> None:
        number = self.sent.get(agent, 0)
        self.sent[agent] = number + 1
        self.leaving.append(Transfer(self.now + time, agent, number, self.number, target, load))

    def leave(self, agent: int, message: Message, target: int, latency: Latency, draws: Draws, call: str) -> None:
        """A message leaves for another queue, by a redrive or a move."""
        time = latency.drawn(draws)
        self.row(agent, call, "out", self.queue.id(message.number), "", self.names[target])
        self.transfer(agent, target, time, self.queue.load_of(message, call))

    def come_back(self, message: Message) -> None:
        """The end of a delay or of a visibility timeout."""
        policy = self.queue.settings.policy
        if policy and self.queue.has_to_leave(message):
            self.leave(self.number, message, policy.queue, policy.latency, self.queue.draws, "redrive")
            return
        message.place, message.due = Place.VISIBLE, None
        self.row(self.number, "release", "visible", self.queue.id(message.number))

    def expire(self, number: int) -> None:
        message = self.queue.messages.pop(number)
        self.row(self.number, "expire", "expired", self.queue.id(number), "", self.now - message.enqueued)

    def arrive(self, transfer: Transfer) -> None:
        self.arriving.remove(transfer)
        answer, number, is_old = self.queue.arrive(self.now, transfer.load, transfer.source)
        origin = transfer.load.origin or (self.number, number)
        self.row(transfer.sender, "arrive", answer, self.queue.id(number), "", origin_text(origin))
        if is_old:
            self.expire(number)

    def sample(self) -> None:
        self.samples += 1
        counts = (self.queue.count(place) for place in (Place.VISIBLE, Place.INFLIGHT, Place.DELAYED))
        self.row(self.number, "sample", "ok", "", "", "/".join(map(str, counts)))

    # Polls.
    def end_poll(self, agent: int) -> None:
        self.polls = [poll for poll in self.polls if poll.agent != agent]
        self.row(agent, "receive", "empty")
        self.actors[agent].got(self, [])

    def answer_polls(self) -> None:
        """Waiting polls are answered, the oldest first, while there is something to give."""
        while self.polls and self.queue.room() > 0 and self.queue.available():
            poll = self.polls.pop(0)
            given = self.give(poll.agent, poll.most, poll.timeout_s, None)
            self.actors[poll.agent].got(self, given)

    def give(self, agent: int, most: int, timeout_s: int | None, hosts: set[int] | None) -> list[Message]:
        """Gives messages with their rows; with a timeout of 0 they are back at once. It returns copies of them."""
        given = self.queue.give(self.now, most, timeout_s, hosts)
        copies = [replace(message) for message in given]
        for message in given:
            self.row(agent, "receive", "ok", self.queue.id(message.number), self.queue.receipt(message),
                     origin_text(message.origin))
        for message in given:
            if self.queue.timeout(timeout_s) == 0:
                self.come_back(message)
        return copies

    # Calls of actors.
    @contextmanager
    def answered(self, agent: int, call: str, receipt: str = "", detail: str = "") -> Iterator[None]:
        """Ends a call in here that is refused, and makes a row of that."""
        try:
            yield
        except Refused as refused:
            self.row(agent, call, refused.name, "", receipt, detail)

    def visibility_s(self) -> int:
        return self.queue.settings.visibility_s

    def visible(self) -> int:
        return self.queue.count(Place.VISIBLE)

    def scaler(self, agent: int) -> Scaler:
        scaler = self.actors[agent]
        assert isinstance(scaler, Scaler)
        return scaler

    def send(self, agent: int, body: str, group: str | None, id: str | None, delay_s: int | None) -> None:
        with self.answered(agent, "send"):
            answer, number = self.queue.send(self.now, body, group, id, delay_s)
            self.row(agent, "send", answer, self.queue.id(number), "", md5(body))

    def receive(self, actor: Actor, most: int, wait_s: int, timeout_s: int | None) -> list[Message] | None:
        """What a receive gives at once. It is None if the poll waits."""
        agent = actor.agent
        try:
            hosts = self.hosts_asked(wait_s, timeout_s)
        except Refused as refused:
            self.row(agent, "receive", refused.name)
            return []
        if self.queue.room() > 0 and self.queue.available(hosts):
            return self.give(agent, most, timeout_s, hosts)
        if wait_s == 0:
            self.row(agent, "receive", "empty")
            return []
        self.polls.append(Poll(agent, actor.polls, self.now + SECOND * wait_s, most, timeout_s))
        actor.polls += 1
        self.row(agent, "receive", "wait")
        return None

    def hosts_asked(self, wait_s: int, timeout_s: int | None) -> set[int] | None:
        """The hosts that a receive asks, or None for all. A short poll of a standard queue may be over its limit."""
        grant(timeout_s is None or timeout_s <= LONGEST_TIMEOUT_S, BAD_TIMEOUT)
        if wait_s > 0 or self.queue.settings.is_fifo:
            return None
        grant(self.queue.room() > 0, OVER_LIMIT)
        return self.queue.sampled_hosts()

    def delete(self, agent: int, receipt: str) -> None:
        with self.answered(agent, "delete", receipt):
            answer, number, age = self.queue.delete(self.now, receipt)
            self.row(agent, "delete", answer, self.queue.id(number), receipt, "" if age is None else age)

    def change(self, agent: int, receipt: str, timeout_s: int) -> None:
        with self.answered(agent, "change", receipt):
            message = self.queue.change(self.now, receipt, timeout_s)
            self.row(agent, "change", "ok", self.queue.id(message.number), receipt, timeout_s)
            if timeout_s == 0:
                self.come_back(message)

    # Move tasks.
    def start_or_cancel(self, agent: int, call: str, name: str) -> None:
        task = next(task for task in self.tasks.values() if task.settings.name == name)
        with self.answered(agent, call, "", name):
            (self.start if call == "start" else self.cancel)(task)
            self.row(agent, call, "ok", "", "", name)

    def start(self, task: Task) -> None:
        grant(all(other.status != "Running" for other in self.tasks.values()), TASK_RUNNING)
        task.status, task.moved, task.next_step = "Running", 0, self.now + SECOND

    def cancel(self, task: Task) -> None:
        grant(task.status == "Running", NO_TASK)
        task.status = "Cancelled"

    def step(self, task: Task) -> None:
        """A step moves the first messages that are available, up to the first without a destination."""
        settings, target = task.settings, None
        task.steps += 1
        task.next_step = self.now + SECOND
        for message in self.queue.available()[:settings.per_second]:
            target = message.came_from if settings.to is None else settings.to
            if target is None:
                self.end_task(task, "Failed")
                return
            self.leave(task.number, message, target, settings.latency, task.draws, "move")
            task.moved += 1
        if not self.queue.available():
            self.end_task(task, "Completed")

    def end_task(self, task: Task, status: str) -> None:
        task.status = status
        self.row(task.number, "task", status, "", "", task.moved)


class TooLong(Exception):
    """There is more to do than was allowed."""


class World:
    """All sites, with what is due next at each."""

    def __init__(self, scenario: Scenario) -> None:
        self.scenario = scenario
        self.sites = [Site(scenario, number) for number in range(len(scenario.queues))]
        self.dues = [site.least_due() for site in self.sites]

    def handle(self, key: Key, number: int) -> list[Row]:
        rows, transfers = self.sites[number].handle(key)
        for transfer in transfers:
            self.sites[transfer.target].arriving.append(transfer)
        for changed in {number, *(transfer.target for transfer in transfers)}:
            self.dues[changed] = self.sites[changed].least_due()
        return rows

    def run(self, most_handlings: float = math.inf) -> list[Row]:
        """Handles all that is due by the horizon, on one list, and returns the rows. TooLong, if there is more to do
        than so many handlings."""
        rows: list[Row] = []
        while True:
            due = min(((key, number) for number, key in enumerate(self.dues) if key is not None), default=None)
            if due is None or due[0].at > self.scenario.horizon:
                return rows
            if most_handlings <= 0:
                raise TooLong
            most_handlings -= 1
            rows += self.handle(*due)
