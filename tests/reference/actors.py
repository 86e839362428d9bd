"""Scripts, producers, consumers and scalers: what each does when it wakes, and when it wakes next."""
from __future__ import annotations

from collections.abc import Sequence
from typing import TYPE_CHECKING

from queues import Load, Message
from settings import (ActorSettings, ConsumerSettings, Forwarding, ProducerSettings, ScalerSettings, Scaling,
                      ScriptSettings)
from words import Draws, place_by_weight

if TYPE_CHECKING:
    from sites import Site


class Actor:
    """An actor with its number, its words, and how often it woke and its polls waited."""

    def __init__(self, agent: int, seed: int, first_wake: int | None) -> None:
        self.agent, self.draws, self.next_wake = agent, Draws(seed, agent), first_wake
        self.wakes = self.polls = 0

    def woken(self, home: Site) -> None:
        """Its wake has come."""
        self.wakes, self.next_wake = self.wakes + 1, None
        self.wake(home, self.wakes - 1)

    def wake(self, home: Site, number: int) -> None:
        raise NotImplementedError

    def got(self, home: Site, messages: Sequence[Message]) -> None:
        """Its poll was answered with messages, or ended with none."""


class Script(Actor):
    """Makes its calls at their times."""

    def __init__(self, agent: int, settings: ScriptSettings, seed: int) -> None:
        super().__init__(agent, seed, settings.calls[0].at if settings.calls else None)
        self.calls = settings.calls

    def wake(self, home: Site, number: int) -> None:
        call, later = self.calls[number], self.calls[number + 1:]
        if later:
            self.next_wake = later[0].at
        if call.name == "send":
            home.send(self.agent, call.body, call.group, call.id, call.delay)
        elif call.name == "receive":
            home.receive(self, call.max or 1, call.wait or 0, call.timeout)
        elif call.name == "delete":
            home.delete(self.agent, call.receipt)
        elif call.name == "change":
            home.change(self.agent, call.receipt, call.timeout or 0)
        else:
            home.start_or_cancel(self.agent, call.name, call.task)


class Producer(Actor):
    """Sends message n at its wake n, until it stops or has sent all."""

    def __init__(self, agent: int, settings: ProducerSettings, seed: int) -> None:
        super().__init__(agent, seed, settings.start)
        self.settings = settings

    def wake(self, home: Site, number: int) -> None:
        settings = self.settings
        if settings.stop is not None and home.now >= settings.stop:
            return
        id = f"{self.agent}-{number}" if settings.has_ids else None
        home.send(self.agent, settings.body_of(number), self.group(number), id, settings.delay_s)
        if number + 1 < settings.count:
            self.next_wake = home.now + settings.gap.drawn(self.draws)

    def group(self, number: int) -> str | None:
        if self.settings.key_groups is not None:
            groups, weights = zip(*self.settings.key_groups)
            group: str = groups[place_by_weight(weights, self.draws.word())]
            return group
        return None if self.settings.groups is None else f"g{number % self.settings.groups}"


class Held:
    """A message that a consumer got, with its receipt."""

    def __init__(self, home: Site, message: Message) -> None:
        self.id, self.body, self.group = f"m-{home.number}-{message.number}", message.body, message.group
        self.receipt = f"r-{home.number}-{message.number}-{message.receives}"
        self.receives = message.receives


class Consumer(Actor):
    """Asks for messages, serves one after another, and settles each: by a delete, or a change of its visibility."""

    def __init__(self, agent: int, settings: ConsumerSettings, seed: int, place: int = 0) -> None:
        super().__init__(agent, seed, settings.start)
        self.settings, self.place = settings, place
        # Whether its scaler wants fewer copies, so that it asks for nothing.
        self.is_parked = False
        # What it got for one batch; what of that is not served, with the one in service first; what is left to settle.
        self.batch: list[Held] = []
        self.unserved: list[Held] = []
        self.unsettled: list[Held] = []
        self.has_failed = False
        self.service_end = 0
        # While it gathers messages for a batch: when its time for that is over.
        self.is_gathering = False
        self.gather_end = 0

    def wake(self, home: Site, number: int) -> None:
        settings = self.settings
        if self.unsettled:
            self.settle_next(home)
        elif self.is_gathering:
            left_s = (self.gather_end - home.now) // 1000
            self.ask(home, settings.batch - len(self.batch), min(settings.wait_s, left_s))
        elif self.unserved and home.now < self.service_end:
            self.beat(home)
        elif self.unserved:
            self.end_service(home)
        elif settings.scaling is not None and not self.goes_on(home, settings.scaling):
            return
        elif settings.stop is None or home.now < settings.stop:
            self.ask(home, settings.batch, settings.wait_s)

    def goes_on(self, home: Site, scaling: Scaling) -> bool:
        """Whether a copy that has nothing to do may ask now. One that its scaler does not want parks until the scaler
        wakes next. One that was parked and is wanted asks when it has started."""
        scaler, was_parked = home.scaler(scaling.scaler), self.is_parked
        self.is_parked = self.place >= scaler.copies
        if self.is_parked:
            self.next_wake = None if scaler.next_wake is None else max(home.now + 1, scaler.next_wake)
        elif was_parked:
            self.next_wake = home.now + max(1, scaling.start)
        return not (self.is_parked or was_parked)

    def ask(self, home: Site, most: int, wait_s: int) -> None:
        messages = home.receive(self, most, wait_s, self.settings.timeout_s)
        if messages is not None:
            self.got(home, messages)

    def got(self, home: Site, messages: Sequence[Message]) -> None:
        if not messages and not self.is_gathering:
            self.next_wake = home.now + self.settings.idle
            return
        if not self.is_gathering:
            self.batch, self.gather_end = [], home.now + self.settings.gather
        self.batch += [Held(home, message) for message in messages]
        self.gather(home, 0 if messages else self.settings.idle)

    def gather(self, home: Site, pause: int) -> None:
        """Asks for more after a pause, no later than at the end of the time for that. It serves what it has if its
        batch is whole, that time is over, or it may not ask any more by then."""
        settings, again = self.settings, max(home.now + 1, min(self.gather_end, home.now + pause))
        may_ask = settings.stop is None or again < settings.stop
        self.is_gathering = len(self.batch) < settings.batch and home.now < self.gather_end and may_ask
        if self.is_gathering:
            self.next_wake = again
        else:
            self.unserved = list(self.batch)
            self.begin_service(home)

    def begin_service(self, home: Site) -> None:
        """Of the next message, or of the whole batch if it is served at once."""
        settings = self.settings
        time = settings.service.drawn(self.draws) + len(self.batch) * (settings.each_ms or 0)
        if settings.fail_service is not None:
            self.has_failed = self.fails(home, self.in_service())
            time = settings.fail_service if self.has_failed else time
        self.service_end = home.now + max(1, time)
        self.wake_in_service(home)

    def in_service(self) -> list[Held]:
        """What the service is of whose end decides all at once: a message, or a batch that fails as a whole."""
        is_of_batch = self.settings.is_whole and self.settings.each_ms is not None
        return self.unserved if is_of_batch else self.unserved[:1]

    def fails(self, home: Site, served: Sequence[Held]) -> bool:
        """Draws whether a service of some messages fails at this moment, by chance or by one of their bodies."""
        settings, fails_by_chance = self.settings, self.draws.chance(self.settings.fail_permille_at(home.now))
        is_poison = settings.fails_on is not None and any(settings.fails_on in held.body for held in served)
        return fails_by_chance or is_poison

    def serve_next(self, home: Site) -> None:
        """Begins the next service. If its message was served with those before it, 1 ms later it is decided how that
        ended. Without a message it asks 1 ms later."""
        if self.unserved and self.settings.each_ms is None:
            self.begin_service(home)
        else:
            self.next_wake = home.now + 1

    def wake_in_service(self, home: Site) -> None:
        """The next wake is the end of the service, or the next heartbeat if that is before it."""
        heartbeat = self.settings.heartbeat
        self.next_wake = self.service_end if heartbeat is None else min(self.service_end, home.now + heartbeat)

    def beat(self, home: Site) -> None:
        timeout_s = self.settings.timeout_s
        home.change(self.agent, self.unserved[0].receipt, home.visibility_s() if timeout_s is None else timeout_s)
        self.wake_in_service(home)

    def end_service(self, home: Site) -> None:
        served = self.in_service()
        self.unserved = self.unserved[len(served):]
        if self.settings.fail_service is None:
            self.has_failed = self.fails(home, served)
        if self.has_failed:
            home.row(self.agent, "fail", "ok", served[0].id, served[0].receipt)
        if self.settings.is_whole:
            self.go_on_with_batch(home)
        else:
            self.settle(home, served[0])
            self.serve_next(home)

    def go_on_with_batch(self, home: Site) -> None:
        """After a service of a batch that fails as a whole."""
        if self.has_failed:
            self.unserved = []
        if self.unserved:
            self.serve_next(home)
        elif self.has_failed and not self.settings.backoff_s:
            self.next_wake = home.now + 1
        else:
            self.unsettled = list(self.batch)
            self.settle_next(home)

    def settle_next(self, home: Site) -> None:
        self.settle(home, self.unsettled.pop(0))
        self.next_wake = home.now + 1

    def settle(self, home: Site, held: Held) -> None:
        """After a failure the message gets its backoff, if there is one; else it is forwarded and deleted."""
        backoff_s = self.settings.backoff_s
        if not self.has_failed:
            if self.settings.forward:
                self.forward(home, held, self.settings.forward)
            home.delete(self.agent, held.receipt)
        elif backoff_s:
            timeout_s = backoff_s[min(held.receives, len(backoff_s)) - 1]
            if self.settings.has_jitter:
                timeout_s = self.draws.uniform(0, timeout_s)
            home.change(self.agent, held.receipt, timeout_s)

    def forward(self, home: Site, held: Held, forward: Forwarding) -> None:
        for queue in forward.queues:
            time = forward.latency.drawn(self.draws)
            home.row(self.agent, "forward", "out", held.id, "", home.names[queue])
            home.transfer(self.agent, queue, time, Load("forward", held.id, held.body, held.group))


class Scaler(Actor):
    """Reads how many messages are visible, and decides by that how many copies of consumers ask."""

    def __init__(self, agent: int, settings: ScalerSettings, seed: int) -> None:
        super().__init__(agent, seed, settings.start)
        self.settings, self.copies, self.changed = settings, settings.copies_min, 0
        # The number that it read and has not decided by.
        self.read: int | None = None

    def wake(self, home: Site, number: int) -> None:
        settings = self.settings
        if self.read is None and settings.reading > 0:
            self.read, self.next_wake = home.visible(), home.now + settings.reading
            return
        visible, self.read = home.visible() if self.read is None else self.read, None
        self.next_wake = home.now + settings.every - settings.reading
        copies = self.decided(home.now, settings.wanted(visible))
        if copies != self.copies:
            home.row(self.agent, "scale", "ok", "", "", f"{self.copies}/{copies}")
            self.copies, self.changed = copies, home.now

    def decided(self, now: int, wanted: int) -> int:
        """How many copies ask from now on, if so many are wanted."""
        settings = self.settings
        if wanted > self.copies:
            may_change = now >= self.changed + settings.cooldown_out
            return min(wanted, self.copies + settings.added_max) if may_change else self.copies
        may_change = now >= self.changed + settings.cooldown_in
        return max(wanted, self.copies - settings.taken_max) if may_change else self.copies


def actor_of(agent: int, settings: ActorSettings, seed: int) -> Actor:
    """An actor that has done nothing."""
    if isinstance(settings.role, ScriptSettings):
        return Script(agent, settings.role, seed)
    if isinstance(settings.role, ProducerSettings):
        return Producer(agent, settings.role, seed)
    if isinstance(settings.role, ScalerSettings):
        return Scaler(agent, settings.role, seed)
    return Consumer(agent, settings.role, seed, settings.place)
