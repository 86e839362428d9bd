"""What a scenario says of its queues, actors and tasks. Times are milliseconds, unless a name ends with _s."""
from dataclasses import dataclass, field
from typing import Protocol

from words import Draws, Quantiles, time_at


class Time(Protocol):
    """A time that is drawn by one word."""

    def drawn(self, draws: Draws) -> int:
        ...


@dataclass
class Bounds:
    """Times that come evenly."""

    least: int
    greatest: int

    def drawn(self, draws: Draws) -> int:
        return draws.uniform(self.least, self.greatest)


@dataclass
class ByQuantiles:
    """Times by pairs of a permille and a time."""

    pairs: Quantiles

    def drawn(self, draws: Draws) -> int:
        return time_at(self.pairs, draws.word())


@dataclass
class Latency:
    """The bounds of a transfer's time; they take no word if they are equal."""

    least: int
    greatest: int

    def drawn(self, draws: Draws) -> int:
        return draws.between(self.least, self.greatest)


@dataclass
class Policy:
    """The dead-letter queue of a queue, by its name until all queues are read."""

    name: str
    max_receives: int
    latency: Latency
    queue: int = -1


@dataclass
class QueueSettings:
    name: str
    is_fifo: bool
    visibility_s: int
    delay: int
    retention: int
    in_flight: int
    hosts: int = 1
    sampled: int = 1
    content_dedup: bool = False
    is_scoped_by_group: bool = False
    policy: Policy | None = None


@dataclass
class Call:
    """A call of a script. What is not given is None."""

    at: int
    name: str
    body: str = ""
    receipt: str = ""
    group: str | None = None
    id: str | None = None
    delay: int | None = None
    max: int | None = None
    wait: int | None = None
    timeout: int | None = None
    task: str = ""


@dataclass
class ScriptSettings:
    calls: list[Call]


@dataclass
class ProducerSettings:
    count: int
    start: int
    gap: Time
    body: str
    groups: int | None = None
    has_ids: bool = False
    delay_s: int | None = None
    key_groups: list[tuple[str, int]] | None = None
    stop: int | None = None
    copies: int | None = None

    def body_of(self, number: int) -> str:
        return self.body.replace("{n}", str(number))


@dataclass
class Forwarding:
    """The queues to which each message goes, in their order, each with a latency of its own."""

    queues: list[int]
    latency: Latency


@dataclass
class Outage:
    """A time in which services fail with another chance, as while a dependency is down."""

    time: range
    fail_permille: int


class Target(Protocol):
    """How many copies so many visible messages ask for, of which there are at most `most`."""

    def asked(self, visible: int, most: int) -> int:
        ...


@dataclass
class PerCopy:
    """One copy for each so many visible messages."""

    messages: int

    def asked(self, visible: int, most: int) -> int:
        return -(-visible // self.messages)


@dataclass
class Steps:
    """Pairs of how many visible messages there are at most, and how many copies they ask for."""

    pairs: list[tuple[int, int]]

    def asked(self, visible: int, most: int) -> int:
        return next((copies for greatest, copies in self.pairs if visible <= greatest), most)


@dataclass
class ScalerSettings:
    """A scaler reads, every so often, how many messages are visible, and decides by that, at once or after `reading`,
    how many copies ask."""

    start: int
    every: int
    reading: int
    target: Target
    copies_min: int
    copies_max: int
    added_max: int
    taken_max: int
    cooldown_out: int
    cooldown_in: int

    def wanted(self, visible: int) -> int:
        """How many copies there ought to be for so many visible messages, in its bounds."""
        return min(self.copies_max, max(self.copies_min, self.target.asked(visible, self.copies_max)))


@dataclass
class Scaling:
    """The scaler of a consumer, by its number, and how long a copy takes that starts."""

    scaler: int
    start: int


@dataclass
class ConsumerSettings:
    """The time of a service is of one message if `each_ms` is None. Else it is of a whole batch, and grows by so much
    with each of its messages. With `fail_service` a service that fails takes this time, and its begin decides that."""

    start: int
    batch: int
    wait_s: int
    timeout_s: int | None
    service: Time
    each_ms: int | None
    fail_service: int | None
    fail_permille: int
    idle: int
    forward: Forwarding | None
    gather: int = 0
    stop: int | None = None
    fails_on: str | None = None
    outages: list[Outage] = field(default_factory=list)
    is_whole: bool = False
    backoff_s: list[int] = field(default_factory=list)
    has_jitter: bool = False
    heartbeat: int | None = None
    copies: int | None = None
    scaling: Scaling | None = None

    def fail_permille_at(self, moment: int) -> int:
        """Of a thousand services that are decided at a moment how many fail: by the first outage that it is in, if it
        is in one."""
        return next((outage.fail_permille for outage in self.outages if moment in outage.time), self.fail_permille)


Role = ScriptSettings | ProducerSettings | ConsumerSettings | ScalerSettings


@dataclass
class ActorSettings:
    """The place is that among its copies, from 0 on."""

    name: str
    home: int
    role: Role
    place: int = 0


@dataclass
class TaskSettings:
    name: str
    home: int
    to: int | None
    per_second: int
    latency: Latency


@dataclass
class Scenario:
    """All settings. Agents are numbered: queues, then actors, then tasks."""

    horizon: int
    seed: int
    sample: int
    queues: list[QueueSettings]
    actors: list[ActorSettings]
    tasks: list[TaskSettings]

    def names(self) -> list[str]:
        return [*(it.name for it in self.queues), *(it.name for it in self.actors), *(it.name for it in self.tasks)]

    def least_latency(self) -> int:
        """The least latency of all ways, or the horizon plus 1 if nothing can be transferred."""
        latencies = [queue.policy.latency for queue in self.queues if queue.policy]
        latencies += [actor.role.forward.latency for actor in self.actors
                      if isinstance(actor.role, ConsumerSettings) and actor.role.forward]
        latencies += [task.latency for task in self.tasks]
        return min((latency.least for latency in latencies), default=self.horizon + 1)

    def line(self) -> str:
        """What `check` prints of it."""
        return (f"ok queues={len(self.queues)} actors={len(self.actors)} tasks={len(self.tasks)} "
                f"least={self.least_latency()}")
