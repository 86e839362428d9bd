"""Reads a scenario, or finds its first fault."""
import re
from collections.abc import Mapping
from dataclasses import replace
from typing import Any

from faults import Fault, must
from scripts import ScriptFault, calls_of
from settings import (ActorSettings, Bounds, ByQuantiles, Call, ConsumerSettings, Forwarding, Latency, Outage, PerCopy,
                      Policy, ProducerSettings, QueueSettings, Role, ScalerSettings, Scaling, Scenario, ScriptSettings,
                      Steps, Target, TaskSettings, Time)
from tables import (MOST_DAY, MOST_TIME, Table, boolean, document_of, integer, list_of, one_of, one_or_each, one_or_more,
                    quantiles, sized_text, steps, stretch, tables, text, weighted_group)

MOST_AGENTS, MOST_QUEUES, MOST_FORWARDS, LONGEST_NAME = 10_000, 1_000, 10, 80
AGENT_NAME = re.compile(r"[A-Za-z0-9_-]{1,80}")
QUEUE_NAME = re.compile(r"(?=.{1,80}\Z)[A-Za-z0-9_-]+(\.fifo)?")
SCRIPT_NAME = re.compile(r"[A-Za-z0-9_-][A-Za-z0-9._-]{0,79}")
HEAD = ["name", "kind", "queue"]
# The numbers that every queue may have, in the order in which they are read: their ranges and defaults.
QUEUE_NUMBERS = {"visibility_s": (0, 43_200, 30), "delay_s": (0, 900, 0), "retention_s": (60, 1_209_600, 345_600),
                 "in_flight": (1, 120_000, 120_000)}
# The keys that each consumer of version 3 may have besides.
NEW_CONSUMER_KEYS = ["gather_ms", "stop_ms", "batch_service", "fails_on", "batch_fails", "backoff_s", "copies",
                     "scaler"]
# The numbers of a scaler before and behind what it wants, in the order in which they are read: their ranges and defaults.
# A bound may be another number.
Ranges = dict[str, tuple[int | str, int | str, int | None]]
SCALER_MOMENTS: Ranges = {"start_ms": (0, MOST_TIME, 0), "every_s": (1, 86_400, None), "reading_s": (0, "every_s", 0)}
SCALER_BOUNDS: Ranges = {
    "copies_min": (0, 1_000, 1), "copies_max": ("copies_min", 1_000, None), "added_max": (1, 1_000, 1_000),
    "taken_max": (1, 1_000, 1_000), "cooldown_out_s": (0, 86_400, 0), "cooldown_in_s": (0, 86_400, 0)}


def script_names(source: bytes) -> list[str]:
    """The names of the script files that a text asks for, whatever else is wrong with it."""
    try:
        actors = document_of(source).get("actor")
    except Fault:
        return []
    names = [actor.get("script") for actor in actors if isinstance(actor, dict)] if isinstance(actors, list) else []
    return [name for name in names if isinstance(name, str) and SCRIPT_NAME.fullmatch(name)]


def read(source: bytes, scripts: Mapping[str, bytes], greatest_version: int = 2) -> Scenario:
    """The scenario of a text with its script files; its version may be up to this one."""
    return Reader(document_of(source), scripts).whole(greatest_version)


class Reader:
    """Reads a document in the order of its faults."""

    def __init__(self, document: dict[str, Any], scripts: Mapping[str, bytes]) -> None:
        self.top, self.scripts = Table(document), scripts
        self.names: set[str] = set()
        self.queues: list[QueueSettings] = []
        self.actors: list[ActorSettings] = []
        self.more_copies = 0

    # The whole.
    def whole(self, greatest_version: int) -> Scenario:
        top = self.top
        top.only(["version", "horizon", "seed", "sample", "queue", "actor", "task"])
        self.version = top.required("version", integer(1, greatest_version))
        horizon = top.required("horizon", integer(1, MOST_TIME))
        seed = top.optional("seed", integer(0, 2 ** 63 - 1), 0)
        sample = top.optional("sample", integer(0, MOST_TIME), 0)
        self.read_lists()
        for number, item in enumerate(self.queue_items):
            self.queues.append(self.queue(table_of("queue", number, item)))
        self.judge_dead_letters()
        for number, item in enumerate(self.actor_items):
            self.actors.append(self.actor(table_of("actor", number, item)))
        tasks = [self.task(table_of("task", number, item)) for number, item in enumerate(self.task_items)]
        return Scenario(horizon, seed, sample, self.queues, copied(self.actors), tasks)

    def read_lists(self) -> None:
        self.queue_items = self.top.required("queue", tables)
        must(self.queue_items, 14, "queue")
        must(len(self.queue_items) <= MOST_QUEUES, 19, "queue")
        self.actor_items: list[Any] = self.top.optional("actor", tables, [])
        must(len(self.actor_items) <= MOST_AGENTS, 19, "actor")
        self.task_items: list[Any] = self.top.optional("task", tables, [])
        must(len(self.actor_items) + len(self.task_items) <= MOST_AGENTS, 19, "task")

    # What several tables have.
    def name(self, table: Table, pattern: re.Pattern[str]) -> str:
        """A name that is well-formed and that nothing before it has."""
        name = table.required("name", text)
        must(pattern.fullmatch(name), 15, table.place("name"))
        must(name not in self.names, 16, table.place("name"))
        self.names.add(name)
        return name

    def number_of(self, name: str, place: str) -> int:
        names = [queue.name for queue in self.queues]
        must(name in names, 17, place)
        return names.index(name)

    def queue_named(self, value: Any, place: str) -> int:
        return self.number_of(text(value, place), place)

    def check_kinds(self, number: int, home: int, place: str) -> None:
        must(self.queues[number].is_fifo == self.queues[home].is_fifo, 18, place)

    def latency_keys(self) -> list[str]:
        return ["latency_ms"] if self.version == 1 else ["latency_min_ms", "latency_max_ms"]

    def latency(self, table: Table) -> Latency:
        least = table.required(self.latency_keys()[0], integer(1, 900_000))
        greatest = table.required(self.latency_keys()[-1], integer(least, 900_000))
        return Latency(least, greatest)

    def time_keys(self, table: Table, name: str) -> list[str]:
        """The keys of a time: quantiles, which only version 3 has, or two bounds in their place."""
        return [name] if self.version == 3 and table.has(name) else [f"{name}_min_ms", f"{name}_max_ms"]

    def time(self, table: Table, name: str) -> Time:
        keys = self.time_keys(table, name)
        if keys == [name]:
            return ByQuantiles(table.required(name, quantiles))
        least = table.required(keys[0], integer(1, MOST_DAY))
        return Bounds(least, table.required(keys[1], integer(least, MOST_DAY)))

    def stop(self, table: Table, start: int) -> int | None:
        return table.maybe("stop_ms", integer(start, MOST_TIME)) if self.version == 3 else None

    # Queues.
    def queue(self, table: Table) -> QueueSettings:
        name = self.name(table, QUEUE_NAME)
        is_fifo, has_policy = name.endswith(".fifo"), table.has("dead_letter")
        own_keys = ["content_dedup", "dedup_scope"] if is_fifo else ["hosts", "sampled"]
        policy_keys = ["max_receives", *self.latency_keys()] if has_policy else []
        table.only(["name", *QUEUE_NUMBERS, "dead_letter", *own_keys, *policy_keys])
        visibility, delay, retention, most = (table.optional(key, integer(low, high), default)
                                              for key, (low, high, default) in QUEUE_NUMBERS.items())
        settings = QueueSettings(name, is_fifo, visibility, 1000 * delay, 1000 * retention, most)
        if is_fifo:
            settings.content_dedup = table.optional("content_dedup", boolean, False)
            scope = table.optional("dedup_scope", one_of("queue", "group"), "queue")
            settings.is_scoped_by_group = scope == "group"
        else:
            settings.hosts = table.optional("hosts", integer(1, 16), 1)
            settings.sampled = table.optional("sampled", integer(1, settings.hosts), settings.hosts)
        if has_policy:
            settings.policy = Policy(table.required("dead_letter", text),
                                     table.required("max_receives", integer(1, 1_000)), self.latency(table))
        return settings

    def judge_dead_letters(self) -> None:
        for number, queue in enumerate(self.queues):
            if queue.policy:
                place = f"queue[{number}].dead_letter"
                queue.policy.queue = self.number_of(queue.policy.name, place)
                must(queue.policy.queue != number, 17, place)
                self.check_kinds(queue.policy.queue, number, place)

    # Actors.
    def actor(self, table: Table) -> ActorSettings:
        name = self.name(table, AGENT_NAME)
        newer = ["scaler"] if self.version == 3 else []
        kind = table.required("kind", one_of("script", "producer", "consumer", *newer))
        home = table.required("queue", self.queue_named)
        if kind == "script":
            return ActorSettings(name, home, self.script(table, home))
        if kind == "scaler":
            return ActorSettings(name, home, self.scaler(table))
        role: ProducerSettings | ConsumerSettings
        role = self.producer(table, home) if kind == "producer" else self.consumer(table, home)
        if self.version == 3:
            role.copies = table.maybe("copies", integer(1, 1_000))
            self.judge_copies(table.place("copies"), name, role.copies or 0)
        return ActorSettings(name, home, role)

    def script(self, table: Table, home: int) -> Role:
        table.only([*HEAD, "calls", *([] if table.has("calls") else ["script"])])
        key = "script" if table.has("script") else "calls"
        source = table.required(key, text).encode("utf-8")
        if key == "script":
            source = self.script_file(source.decode("utf-8"), table.place(key))
        return ScriptSettings(self.calls(source, home, table.place(key)))

    def script_file(self, name: str, place: str) -> bytes:
        must(SCRIPT_NAME.fullmatch(name), 14, place)
        must(name in self.scripts, 20, place)
        return self.scripts[name]

    def calls(self, source: bytes, home: int, place: str) -> list[Call]:
        queue = self.queues[home]
        tasks = {item["name"] for item in self.task_items if isinstance(item, dict)
                 and isinstance(item.get("name"), str) and item.get("queue") == queue.name}
        try:
            return calls_of(source, queue.is_fifo, tasks)
        except ScriptFault as fault:
            record = "" if fault.record is None else f":{fault.record}"
            raise Fault(fault.number, place + record) from None

    def producer(self, table: Table, home: int) -> ProducerSettings:
        is_fifo = self.queues[home].is_fifo
        groups_key = "key_groups" if self.version == 3 and table.has("key_groups") else "groups"
        table.only([*HEAD, "count", "start_ms", *self.time_keys(table, "gap"), "body",
                    *([groups_key, "ids"] if is_fifo else ["delay_s"]),
                    *(["stop_ms", "copies"] if self.version == 3 else [])])
        count = table.required("count", integer(1, 1_000_000))
        start = table.optional("start_ms", integer(0, MOST_TIME), 0)
        gap = self.time(table, "gap")
        settings = ProducerSettings(count, start, gap, table.required("body", text))
        must(settings.body_of(0) and len(settings.body_of(count - 1).encode("utf-8")) <= 1024, 14, table.place("body"))
        if not is_fifo:
            settings.delay_s = table.maybe("delay_s", integer(0, 900))
        elif groups_key == "groups":
            settings.groups = table.required("groups", integer(1, 1_000))
        else:
            settings.key_groups = table.required("key_groups", list_of(weighted_group, 1, 100))
        if is_fifo:
            settings.has_ids = table.optional("ids", boolean, True)
        settings.stop = self.stop(table, start)
        return settings

    def consumer(self, table: Table, home: int) -> ConsumerSettings:
        """What versions 1 and 2 have, after the keys are judged, and what version 3 has besides."""
        table.only([*HEAD, "start_ms", "batch", "wait_s", "timeout_s", *self.time_keys(table, "service"),
                    "fail_permille", "idle_ms", "forward", *(self.latency_keys() if table.has("forward") else []),
                    *(new_consumer_keys(table) if self.version == 3 else [])])
        start, batch = table.optional("start_ms", integer(0, MOST_TIME), 0), table.optional("batch", integer(1, 10), 1)
        gather = table.optional("gather_ms", integer(0, 300_000), 0)
        consumer = ConsumerSettings(
            start, batch, table.optional("wait_s", integer(0, 20), 0), table.maybe("timeout_s", integer(0, 43_200)),
            self.time(table, "service"), time_of_each(table), table.maybe("fail_service_ms", integer(0, 43_200_000)),
            table.optional("fail_permille", integer(0, 1_000), 0),
            table.optional("idle_ms", integer(1, MOST_DAY), 1_000), self.forwarding(table, home), gather)
        if self.version == 3:
            self.read_new_keys(table, consumer, home)
        return consumer

    def forwarding(self, table: Table, home: int) -> Forwarding | None:
        if not table.has("forward"):
            return None
        def kin(value: Any, place: str) -> int:
            queue = self.queue_named(value, place)
            self.check_kinds(queue, home, place)
            return queue

        queues = table.required("forward", one_or_more(kin, MOST_FORWARDS)) if self.version == 3 else [
            table.required("forward", kin)]
        return Forwarding(queues, self.latency(table))

    def read_new_keys(self, table: Table, consumer: ConsumerSettings, home: int) -> None:
        """What version 3 has besides, but for the copies."""
        consumer.stop = self.stop(table, consumer.start)
        consumer.scaling = self.scaling(table, home)
        consumer.fails_on = table.maybe("fails_on", sized_text(1, 128))
        consumer.outages = outages(table)
        consumer.is_whole = table.optional("batch_fails", one_of("each", "whole"), "each") == "whole"
        consumer.backoff_s = table.optional("backoff_s", list_of(integer(0, 43_200), 1, 12), [])
        consumer.has_jitter = table.optional("backoff_jitter", one_of("none", "full"), "none") == "full"
        seconds = table.maybe("heartbeat_s", integer(1, 43_200))
        consumer.heartbeat = seconds and 1000 * seconds

    def scaling(self, table: Table, home: int) -> Scaling | None:
        """The scaler by which the copies of a consumer go: the first actor of that name, kind and home, as the texts
        say."""
        def number(value: Any, place: str) -> int:
            wanted = [text(value, place), "scaler", self.queues[home].name]
            for index, item in enumerate(self.actor_items):
                if isinstance(item, dict) and [text_in(item, key) for key in HEAD] == wanted:
                    return len(self.queue_items) + index
            raise Fault(17, place)

        if not table.has("scaler"):
            return None
        return Scaling(table.required("scaler", number), table.optional("scaler_start_ms", integer(0, MOST_DAY), 0))

    def scaler(self, table: Table) -> ScalerSettings:
        table.only([*HEAD, *SCALER_MOMENTS, "steps" if table.has("steps") else "visible_per_copy", *SCALER_BOUNDS])
        start, every, reading = numbers_in(table, SCALER_MOMENTS)
        return ScalerSettings(start, every, reading, target_in(table), *numbers_in(table, SCALER_BOUNDS))

    def judge_copies(self, place: str, name: str, copies: int) -> None:
        names = copy_names(name, copies)
        must(all(len(copy) <= LONGEST_NAME for copy in names), 15, place)
        must(self.names.isdisjoint(names), 16, place)
        self.names.update(names)
        self.more_copies += max(0, copies - 1)
        must(len(self.actor_items) + len(self.task_items) + self.more_copies <= MOST_AGENTS, 19, place)

    # Move tasks.
    def task(self, table: Table) -> TaskSettings:
        name = self.name(table, AGENT_NAME)
        home = table.required("queue", self.queue_named)
        must(home in [queue.policy.queue for queue in self.queues if queue.policy], 17, table.place("queue"))
        table.only(["name", "queue", "to", "per_second", *self.latency_keys()])
        to = table.maybe("to", self.queue_named)
        if to is not None:
            must(to != home, 17, table.place("to"))
            self.check_kinds(to, home, table.place("to"))
        per_second = table.optional("per_second", integer(1, 500), 500)
        return TaskSettings(name, home, to, per_second, self.latency(table))


def table_of(key: str, number: int, item: Any) -> Table:
    place = f"{key}[{number}]"
    must(isinstance(item, dict), 13, place)
    return Table(item, f"{place}.")


def numbers_in(table: Table, ranges: Ranges) -> list[int]:
    """The numbers of a scaler at these keys; times are in milliseconds."""
    found: dict[str, int] = {}
    for key, (low, high, default) in ranges.items():
        least = found[low] if isinstance(low, str) else low
        type_of = integer(least, found[high] - 1 if isinstance(high, str) else high)
        found[key] = table.required(key, type_of) if default is None else table.optional(key, type_of, default)
    return [1000 * value if key.endswith("_s") else value for key, value in found.items()]


def target_in(table: Table) -> Target:
    """How many copies a scaler wants: by its steps if they are there."""
    if table.has("steps"):
        return Steps(table.required("steps", steps))
    return PerCopy(table.required("visible_per_copy", integer(1, 1_000_000)))


def text_in(item: dict[str, Any], key: str) -> str:
    """The text at a key, or an empty one."""
    value = item.get(key)
    return value if isinstance(value, str) else ""


def new_consumer_keys(table: Table) -> list[str]:
    """The keys that a consumer of version 3 may have besides. Some are known by the presence of others alone, and one
    by what they say."""
    outage = []
    if table.has("fails_between_ms"):
        outage = ["fails_between_ms", "fails_permille"]
    elif table.has("fails_from_ms"):
        outage = ["fails_from_ms", "fails_to_ms", "fails_permille"]
    return [*NEW_CONSUMER_KEYS, "service_each_ms" if table.has("batch_service") else "heartbeat_s", *outage,
            *(["scaler_start_ms"] if table.has("scaler") else []),
            *(["backoff_jitter"] if table.has("backoff_s") else []),
            *(["fail_service_ms"] if has_one_outcome(table) else [])]


def has_one_outcome(table: Table) -> bool:
    """Whether each service of a consumer ends well as a whole or fails as a whole."""
    return table.values.get("batch_service") != "once" or table.values.get("batch_fails") == "whole"


def time_of_each(table: Table) -> int | None:
    """What each message adds to a service of its batch, or None if it has a service of its own."""
    is_at_once = table.optional("batch_service", one_of("each", "once"), "each") == "once"
    each_ms = table.optional("service_each_ms", integer(0, MOST_DAY), 0)
    return each_ms if is_at_once else None


def outages(table: Table) -> list[Outage]:
    """The outages of a consumer: by a list, with one chance of them all or one of each, or by the two ends of one."""
    if table.has("fails_between_ms"):
        times = table.required("fails_between_ms", list_of(stretch, 1, 32))
        chances = table.optional("fails_permille", one_or_each(integer(0, 1_000), len(times)), [1_000] * len(times))
        return [Outage(time, chance) for time, chance in zip(times, chances)]
    if not table.has("fails_from_ms"):
        return []
    begin = table.required("fails_from_ms", integer(0, MOST_TIME))
    end = table.required("fails_to_ms", integer(begin, MOST_TIME))
    return [Outage(range(begin, end), table.optional("fails_permille", integer(0, 1_000), 1_000))]


def copy_names(name: str, copies: int) -> list[str]:
    return [f"{name}-{number}" for number in range(1, copies + 1)]


def copied(actors: list[ActorSettings]) -> list[ActorSettings]:
    """The actors with their copies: the first copy of each in its place, the others behind all actors."""
    firsts, others = [], []
    for actor in actors:
        copies = actor.role.copies if isinstance(actor.role, (ConsumerSettings, ProducerSettings)) else None
        names = [actor.name] if copies is None else copy_names(actor.name, copies)
        first, *more = (replace(actor, name=name, place=place) for place, name in enumerate(names))
        firsts.append(first)
        others += more
    return firsts + others
