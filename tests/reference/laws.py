"""Laws of the log, as docs/LAWS.md and docs/MODEL.md have them, over the rows of a log and the settings of its scenario.

Each law is a function over a log's rows, in order. It raises Broken at the first row that breaks it. Nothing here is
shared with the simulator, with the tools or with the reference beside this file.
"""
import bisect
import collections
import csv
import functools
import hashlib
import io
import pathlib
import re
import tomllib
from collections.abc import Callable, Iterator
from typing import Any, NamedTuple

LONGEST_FLIGHT_MS = 43_200_000
DEDUPLICATION_MS = 300_000
NEVER = float("inf")
RECEIPT = re.compile(r"r-(0|[1-9]\d*)-(0|[1-9]\d*)-([1-9]\d*)")
CALL_FIELDS = ("at", "call", "body", "group", "id", "delay", "receipt", "max", "wait", "timeout", "task")


class Broken(Exception):
    """A row that breaks a law, or the end of a log that does."""


class Row(NamedTuple):
    """A row of a log; `at` is in milliseconds."""
    at: int
    queue: str
    agent: str
    call: str
    answer: str
    message: str
    receipt: str
    detail: str

    def comes(self) -> bool:
        """Whether a message comes to its queue."""
        return self.call in ("send", "arrive") and self.answer == "new"

    def is_received(self) -> bool:
        return self.call == "receive" and self.answer == "ok"

    def is_changed(self) -> bool:
        return self.call == "change" and self.answer == "ok"

    def leaves(self) -> bool:
        """Whether a message leaves its queue for good."""
        return self.answer in ("deleted", "expired") or self.call in ("redrive", "move")

    def origin(self) -> str:
        """The origin of a message that comes."""
        return "o" + self.message[1:] if self.call == "send" else self.detail


class Left(NamedTuple):
    """A message of the final queues."""
    queue: str
    message: str
    origin: str
    place: str
    receives: int


class Ending(NamedTuple):
    """The messages of the final queues, and the queue to which each transfer under way goes."""
    left: list[Left]
    under_way: list[str]


Log = list[Row]
Table = dict[str, Any]


def must(holds: bool, row: Row | None, why: str) -> None:
    """Raises Broken unless something holds of a row, or of the end of a log."""
    if not holds:
        raise Broken(f"{why}: {','.join(map(str, row)) if row else 'at the end'}")


def rows_of(output: bytes) -> Log:
    """The rows of a log, or of all that `run` prints."""
    lines = csv.reader(io.StringIO(output.decode(), newline=""))
    next(lines)
    rows = []
    for fields in lines:
        if len(fields) != 8 or not fields[0].isdigit():
            break
        rows.append(Row(int(fields[0]), *fields[1:]))
    return rows


def ending_in(output: bytes) -> Ending:
    """What is left and what is under way in all that `run` prints."""
    lines = list(csv.reader(io.StringIO(output.decode(), newline="")))
    left = [line for line in lines if line[0] == "final"][1:]
    under_way = [line for line in lines if line[0] == "transfer"][1:]
    return Ending([Left(line[1], line[2], line[3], line[4], int(line[7])) for line in left],
                  [line[2] for line in under_way])


# ---- settings ----
class Scenario:
    """The settings of a scenario: its queues, actors and tasks by their names, in the order of their numbers."""

    def __init__(self, text: bytes, folder: pathlib.Path):
        table = tomllib.loads(text.decode("utf-8-sig"))
        self.horizon: int = table["horizon"]
        self.seed: int = table.get("seed", 0)
        self.queues: dict[str, Table] = {
            queue["name"]: {**queue, "number": n, "fifo": queue["name"].endswith(".fifo")}
            for n, queue in enumerate(table["queue"])}
        self.actors: dict[str, Table] = {
            actor["name"]: {**actor, "number": len(self.queues) + n}
            for n, actor in enumerate(self.agents(table.get("actor", [])))}
        self.tasks: dict[str, Table] = {
            task["name"]: {**task, "number": len(self.queues) + len(self.actors) + n}
            for n, task in enumerate(table.get("task", []))}
        for actor in self.actors.values():
            if actor["kind"] == "script":
                text_of = actor["calls"] if "calls" in actor else (folder / actor["script"]).read_text("utf-8-sig")
                actor["calls"] = calls_of(text_of)

    @staticmethod
    def agents(actors: list[Table]) -> Iterator[Table]:
        """One agent for each actor, and then its further copies, actor by actor."""
        for actor in actors:
            yield {**actor, "name": actor["name"] + "-1"} if "copies" in actor else actor
        for actor in actors:
            for copy in range(2, actor.get("copies", 1) + 1):
                yield {**actor, "name": f"{actor['name']}-{copy}"}

    def visibility_ms(self, row: Row) -> int:
        """The visibility timeout that a receive begins: the call's, else the consumer's, else the queue's."""
        actor, own = self.actors[row.agent], self.queues[row.queue].get("visibility_s", 30)
        if actor["kind"] == "script":
            return 1000 * int(self.last_receive(row)["timeout"] or own)
        return 1000 * int(actor.get("timeout_s", own))

    def last_receive(self, row: Row) -> Table:
        """The last receive of a row's actor by then: a script's call, or what a consumer asks. One that gathers messages
        may ask for fewer, and wait less."""
        actor = self.actors[row.agent]
        if actor["kind"] != "script":
            return {"max": actor.get("batch", 1), "wait": actor.get("wait_s", 0)}
        calls: list[Table] = actor["calls"]
        return next(call for call in reversed(calls) if call["at"] <= row.at and call["call"] == "receive")

    def longest_asked_ms(self, row: Row) -> int:
        """The longest timeout that a row of a change may have asked for."""
        actor = self.actors[row.agent]
        if actor["kind"] == "script":
            return 1000 * int(next(call for call in actor["calls"] if call["at"] == row.at)["timeout"])
        own = actor.get("timeout_s", self.queues[row.queue].get("visibility_s", 30))
        return 1000 * int(max([own, *actor.get("backoff_s", [])]))

    def latency(self, name: str) -> tuple[int, int]:
        """The bounds of the latency of what a queue, consumer or task sends away."""
        table = self.queues.get(name) or self.actors.get(name) or self.tasks[name]
        if "latency_ms" in table:
            return table["latency_ms"], table["latency_ms"]
        return table["latency_min_ms"], table["latency_max_ms"]

    def receipt(self, text: str, site: int, came: int) -> tuple[str, int]:
        """The message and count of a receipt of a queue to which so many messages came, or nothing and 0."""
        found = RECEIPT.fullmatch(text)
        if not found or int(found[1]) != site or int(found[2]) >= came or int(found[3]) >= 2**62:
            return "", 0
        return f"m-{found[1]}-{found[2]}", int(found[3])


def calls_of(text: str) -> list[Table]:
    """The calls of a script, in order."""
    lines = [line for line in csv.reader(io.StringIO(text.lstrip("\ufeff"), newline="")) if line]
    return [dict(zip(CALL_FIELDS, [int(line[0]), *line[1:]])) for line in lines[1:]]


# ---- what is sent ----
class Given(NamedTuple):
    """What a send, or an arrival, gives its message. A group and id that rows do not tell are None."""
    group: str | None
    id: str | None
    delay_s: int


# A queue, a scope and a deduplication id.
Key = tuple[str, str | None, str | None]


class Sends:
    """What each row that sends was given, by its place in the log."""

    def __init__(self, log: Log, scenario: Scenario):
        self.scenario = scenario
        self.groups: dict[str, str | None] = {}
        self.made: collections.Counter[str] = collections.Counter()
        self.away: dict[tuple[str, str], list[tuple[int, str]]] = collections.defaultdict(list)
        self.given: dict[int, Given] = {}
        for place, row in enumerate(log):
            if row.call == "send":
                self.given[place] = self.sent(row)
            elif row.call == "forward":
                self.away[row.agent, row.detail].append((row.at, row.message))
            elif row.call == "arrive":
                self.given[place] = self.arrived(row)
            if row.comes():
                self.groups[row.message] = self.groups[row.origin()] = self.given[place].group

    def sent(self, row: Row) -> Given:
        queue, actor = self.scenario.queues[row.queue], self.scenario.actors[row.agent]
        nth, self.made[row.agent] = self.made[row.agent], self.made[row.agent] + 1
        if actor["kind"] == "script":
            call = next(call for call in actor["calls"] if call["at"] == row.at)
            body, group, own_id, delay = call["body"], call["group"], call["id"], call["delay"]
        else:
            body, delay = actor["body"].replace("{n}", str(nth)), actor.get("delay_s", "")
            own_id = f"{actor['number']}-{nth}" if queue["fifo"] and actor.get("ids", True) else ""
            group = (f"g{nth % actor['groups']}" if "groups" in actor
                     else drawn_group(actor, self.scenario.seed, nth) if "key_groups" in actor else "")
        if queue.get("content_dedup") and not own_id:
            own_id = hashlib.sha256(body.encode()).hexdigest()
        own_delay = delay != "" and not queue["fifo"]
        return Given(group, own_id, int(delay) if own_delay else queue.get("delay_s", 0))

    def arrived(self, row: Row) -> Given:
        """A forward has the group of the message that was served, and its id. Where latencies differ, rows may not tell
        which forward arrives."""
        if row.agent not in self.scenario.actors:
            return Given(self.groups.get(row.detail), None, 0)
        least, greatest = self.scenario.latency(row.agent)
        way = row.agent, row.queue
        waiting = self.away[way]
        if least == greatest:
            message: str | None = waiting[0][1]
            self.away[way] = waiting[1:]
        else:
            may = {name for at, name in waiting if at + least <= row.at <= at + greatest}
            message = may.pop() if len(may) == 1 else None
            self.away[way] = [(at, name) for at, name in waiting if at + greatest > row.at]
        delay = self.scenario.queues[row.queue].get("delay_s", 0)
        return Given(self.groups.get(message) if message else None, message, delay)


def deduplication_key(row: Row, given: Given, scenario: Scenario) -> Key | None:
    """The queue, scope and deduplication id of what is sent to a FIFO queue, if the rows tell them."""
    queue = scenario.queues[row.queue]
    by_group = queue.get("dedup_scope", "queue") == "group"
    known = queue["fifo"] and given.id is not None and (given.group is not None or not by_group)
    return (row.queue, given.group if by_group else None, given.id) if known else None


def drawn_group(actor: Table, seed: int, nth: int) -> str:
    """The group of a producer's message that is drawn by weight: by word 2n of its words."""
    left = word(seed, actor["number"], 2 * nth) * sum(weight for _, weight in actor["key_groups"]) >> 32
    for group, weight in actor["key_groups"]:
        if left < weight:
            return str(group)
        left -= weight
    raise Broken("a drawn group past the last")


def word(seed: int, agent: int, place: int) -> int:
    """A word of an agent's ChaCha20 stream."""
    start = [0x61707865, 0x3320646E, 0x79622D32, 0x6B206574, seed & 0xFFFFFFFF, seed >> 32, 0, 0, 0, 0, 0, 0,
             place // 16, 0, agent, 0]
    state = start[:]
    for step in range(80):
        n = step % 8
        a, b, c, d = ((n, 4 + n, 8 + n, 12 + n) if n < 4
                      else (n - 4, 4 + (n - 3) % 4, 8 + (n - 2) % 4, 12 + (n - 1) % 4))
        for x, y, z, turn in ((a, b, d, 16), (c, d, b, 12), (a, b, d, 8), (c, d, b, 7)):
            state[x] = state[x] + state[y] & 0xFFFFFFFF
            mixed = state[z] ^ state[x]
            state[z] = (mixed << turn | mixed >> 32 - turn) & 0xFFFFFFFF
    return state[place % 16] + start[place % 16] & 0xFFFFFFFF


# ---- laws that are proved ----
def in_flight(log: Log, scenario: Scenario) -> None:
    """A message that was received is not received again or moved by a task until it is released. No more than `in_flight`
    of a queue's messages are in flight at once. Only a message in flight has its timeout changed, and only such a
    message leaves for the dead-letter queue."""
    flying: dict[str, set[str]] = collections.defaultdict(set)
    for row in log:
        held = flying[row.queue]
        if row.is_received() or row.call == "move":
            must(row.message not in held, row, "received or moved in flight")
        if row.is_changed() or row.call == "redrive":
            must(row.message in held, row, "changed, or gone to the dead-letter queue, though not in flight")
        if row.is_received():
            held.add(row.message)
            must(len(held) <= scenario.queues[row.queue].get("in_flight", 120_000), row, "over the limit")
        elif row.call == "release" or row.leaves():
            held.discard(row.message)


def the_end(log: Log, scenario: Scenario) -> None:
    """The messages that come to a queue are numbered from 0 on, and no row names one before it comes. Once it was
    deleted, has expired, or left for another queue, only answers `gone` and `repeat` and a consumer's `fail` and
    `forward` name it again; and `gone` is answered only then."""
    came: collections.Counter[str] = collections.Counter()
    left: set[str] = set()
    for row in log:
        number = scenario.queues[row.queue]["number"]
        if row.comes():
            must(row.message == f"m-{number}-{came[row.queue]}", row, "another number")
            came[row.queue] += 1
        elif row.message:
            site, nth = map(int, row.message[2:].split("-"))
            must(site == number and nth < came[row.queue], row, "named before it came")
            must(row.answer != "gone" or row.message in left, row, "not gone")
            may_follow = row.answer in ("gone", "repeat") or row.call in ("fail", "forward")
            must(row.message not in left or may_follow, row, "after its end")
        if row.leaves():
            left.add(row.message)


def dead_letters(log: Log, scenario: Scenario) -> None:
    """A message that comes back leaves for its queue's `dead_letter` if it was received exactly `max_receives` times
    since it came, and is released if fewer times. It is never received more often. Without `dead_letter` none leaves.
    What arrives from a queue left it so before, with the same origin, at least its latency before."""
    times: collections.Counter[str] = collections.Counter()
    origins: dict[str, str] = {}
    gone: dict[tuple[str, str, str], list[int]] = collections.defaultdict(list)
    for row in log:
        queue = scenario.queues[row.queue]
        times[row.message] += row.is_received()
        most = queue.get("max_receives", NEVER)
        must(not row.is_received() or times[row.message] <= most, row, "received too often")
        must(row.call != "release" or times[row.message] < most, row, "released though it should leave")
        left = times[row.message] == most and row.detail == queue.get("dead_letter")
        must(row.call != "redrive" or left, row, "left too early, or for another queue")
        if row.comes():
            origins[row.message] = row.origin()
        if row.call == "redrive":
            gone[row.queue, row.detail, origins[row.message]].append(row.at)
        if row.call == "arrive" and row.agent in scenario.queues:
            least, greatest = scenario.latency(row.agent)
            may_be = any(at + least <= row.at <= at + greatest for at in gone[row.agent, row.queue, row.detail])
            must(may_be, row, "arrives though it has not left")


def receipts(log: Log, scenario: Scenario) -> None:
    """The c-th receive of message n at queue S gives the receipt r-S-n-c. A delete by it is `gone` if the message has
    left, `deleted` if it is the newest (at a FIFO queue: of a message in flight), `kept` if it is an older one at a
    standard queue, and else ReceiptHandleIsInvalid, as for a receipt never given. A change is BadTimeout if it is over
    12 hours; else `ok` if it is the newest of a message in flight, but BadTimeout if its end would be over 12 hours
    after the receive; and else MessageNotInflight, or ReceiptHandleIsInvalid if never given. One that is `ok` tells the
    timeout that it asks for."""
    state = ReceiptState(scenario)
    for row in log:
        if row.is_received():
            state.times[row.message] += 1
            state.received_at[row.message] = row.at
            must(row.receipt == f"r{row.message[1:]}-{state.times[row.message]}", row, "another receipt")
        if row.call in ("delete", "change"):
            message, want = state.delete(row) if row.call == "delete" else state.change(row)
            must(row.answer == want, row, f"not {want}")
            must(row.message == (message if want[0].islower() else ""), row, "another message")
        if row.is_changed():
            told, longest = 1000 * int(row.detail), scenario.longest_asked_ms(row)
            is_script = scenario.actors[row.agent]["kind"] == "script"
            must(told == longest if is_script else told <= longest, row, "a timeout that is not asked for")
        state.follow(row)


class ReceiptState:
    """What a log says so far of receipts: how often each message was received and when last, which are in their queues
    and in flight, and how many came to each queue."""

    def __init__(self, scenario: Scenario):
        self.scenario = scenario
        self.times: collections.Counter[str] = collections.Counter()
        self.received_at: dict[str, int] = {}
        self.there: set[str] = set()
        self.flying: set[str] = set()
        self.came: collections.Counter[str] = collections.Counter()

    def follow(self, row: Row) -> None:
        self.came[row.queue] += row.comes()
        if row.comes():
            self.there.add(row.message)
        if row.is_received():
            self.flying.add(row.message)
        if row.call == "release" or row.leaves():
            self.flying.discard(row.message)
        if row.leaves():
            self.there.discard(row.message)

    def asked(self, row: Row) -> tuple[str, int]:
        return self.scenario.receipt(row.receipt, self.scenario.queues[row.queue]["number"], self.came[row.queue])

    def delete(self, row: Row) -> tuple[str, str]:
        """The message of a delete's receipt, and its answer."""
        (message, count), is_fifo = self.asked(row), self.scenario.queues[row.queue]["fifo"]
        if not message:
            return message, "ReceiptHandleIsInvalid"
        if message not in self.there:
            return message, "gone"
        if count == self.times[message] and (not is_fifo or message in self.flying):
            return message, "deleted"
        return message, "ReceiptHandleIsInvalid" if is_fifo or count > self.times[message] else "kept"

    def change(self, row: Row) -> tuple[str, str]:
        """The same of a change. A consumer's row of a refused change does not tell which timeout was asked for."""
        message, count = self.asked(row)
        longest = self.scenario.longest_asked_ms(row)
        if longest > LONGEST_FLIGHT_MS:
            return message, "BadTimeout"
        if not message or message in self.there and count > self.times[message]:
            return message, "ReceiptHandleIsInvalid"
        if count != self.times[message] or message not in self.flying:
            return message, "MessageNotInflight"
        may_be_late = row.at + longest > self.received_at[message] + LONGEST_FLIGHT_MS
        return message, "BadTimeout" if may_be_late and row.answer == "BadTimeout" else "ok"


def time(log: Log, scenario: Scenario) -> None:
    """Rows are in the order of time, none after the horizon. A receive gives at most the call's number of messages; one
    that waits gives some by its end, or ends `empty` in exactly its time."""
    given: collections.Counter[tuple[str, int]] = collections.Counter()
    waits: dict[str, int] = {}
    last = 0
    for row in log:
        must(last <= row.at <= scenario.horizon, row, "out of order, or after the horizon")
        last = row.at
        if row.call != "receive":
            continue
        call = scenario.last_receive(row)
        given[row.agent, row.at] += row.is_received()
        must(given[row.agent, row.at] <= int(call["max"] or 1), row, "too many")
        end = waits.pop(row.agent, None)
        in_time = end is None or (row.at <= end if row.answer == "ok" else row.answer == "empty" and (
            row.at == end or row.at < end and scenario.actors[row.agent].get("gather_ms", 0) > 0))
        must(in_time, row, "waits too long")
        if row.answer == "wait":
            waits[row.agent] = row.at + 1000 * int(call["wait"])
    must(all(end > scenario.horizon for end in waits.values()), None, "waits for ever")


def retention(log: Log, scenario: Scenario) -> None:
    """A message counts as enqueued when it comes, but a dead letter of a standard queue when it was enqueued before. Its
    retention ends `retention_s` after that, but not before it comes. It expires exactly then, and no row names it as one
    that is there from after that moment. The retention of what is left ends past the horizon. `expire` and `delete` tell
    its age. At that very moment only a row behind the expiry of another message names it: this is not proved."""
    since: dict[str, int] = {}
    expiry: dict[str, int] = {}
    expired: dict[str, int] = {}
    for row in log:
        message, queue = row.message, scenario.queues[row.queue]
        if row.comes():
            keeps = row.agent in scenario.queues and not queue["fifo"]
            since[message] = since[row.origin()] = since[row.origin()] if keeps else row.at
            expiry[message] = max(row.at, since[message] + 1000 * queue.get("retention_s", 345_600))
        elif row.is_received() or row.is_changed() or row.call == "release" or row.leaves():
            before = row.at < expiry[message] or row.at == expiry[message] == expired.get(row.queue)
            must(row.at == expiry[message] if row.call == "expire" else before, row, "another end")
            tells_age = row.answer in ("deleted", "expired")
            must(not tells_age or int(row.detail) == row.at - since[message], row, "another age")
            if row.call == "expire":
                expired[row.queue] = row.at
            if row.leaves():
                expiry.pop(message)
    must(all(at > scenario.horizon for at in expiry.values()), None, "stays too long")


def delays(log: Log, scenario: Scenario) -> None:
    """A message is not received, changed, released, redriven or moved before its delay is over: the send's own at a
    standard queue, else the queue's; what was redriven or moved has none. What is released and was not in flight is so
    exactly at the end of its delay, once. A delay that goes on at the end of the log ends past the horizon. Rows are in
    the order of time, so no row comes behind the end of a delay that goes on."""
    given = Sends(log, scenario).given
    ready: dict[str, int] = {}
    flying: set[str] = set()
    for place, row in enumerate(log):
        message = row.message
        if row.comes():
            if given[place].delay_s:
                ready[message] = row.at + 1000 * given[place].delay_s
            continue
        if row.call == "release" and message not in flying:
            must(ready.pop(message, None) == row.at, row, "no end of a delay")
        elif row.is_received() or row.is_changed() or row.call in ("release", "redrive", "move"):
            must(message not in ready, row, "before its delay is over")
        elif row.answer == "expired":
            must(row.at <= ready.pop(message, row.at), row, "expires behind the end of its delay")
        if row.is_received():
            flying.add(message)
        elif row.call == "release" or row.leaves():
            flying.discard(message)
    must(all(at > scenario.horizon for at in ready.values()), None, "still delayed")


def releases(log: Log, scenario: Scenario) -> None:
    """A message in flight is released, or leaves for the dead-letter queue, exactly when the timeout of its last receive
    or change ends. Until then it may be deleted or expire. If it is in flight at the end of the log, the timeout ends
    past the horizon. Rows are in the order of time, so none comes behind the end of the timeout of what is in flight.
    No timeout ends later than 12 hours after the last receive."""
    ends: dict[str, int] = {}
    since: dict[str, int] = {}
    for row in log:
        if row.is_received():
            ends[row.message], since[row.message] = row.at + scenario.visibility_ms(row), row.at
        elif row.is_changed():
            must(row.at <= ends.get(row.message, row.at), row, "changed behind the end of the timeout")
            ends[row.message] = row.at + 1000 * int(row.detail)
        elif row.call == "release" or row.leaves():
            end = ends.pop(row.message, row.at)
            must(row.at == end if row.call in ("release", "redrive") else row.at <= end, row, "not back just then")
        if row.is_received() or row.is_changed():
            must(ends[row.message] <= since[row.message] + LONGEST_FLIGHT_MS, row, "in flight for over 12 hours")
    must(all(end > scenario.horizon for end in ends.values()), None, "not back by the end")


def fifo(log: Log, scenario: Scenario) -> None:
    """When a message of a FIFO queue is received, each message of its group that came before it and is still in the
    queue was received by the same call; and no message of the group that came after it is in flight. A dead letter and
    a moved message have the group of their origin. That a forward has the group of what was served is not proved."""
    given = Sends(log, scenario).given
    groups: dict[str, tuple[str, str]] = {}
    there: dict[tuple[str, str], list[str]] = collections.defaultdict(list)
    calls: dict[str, tuple[str, int]] = {}
    for place, row in enumerate(log):
        message = row.message
        if not scenario.queues[row.queue]["fifo"] or not message:
            continue
        if row.comes():
            group = given[place].group
            if group is not None:
                groups[message] = (row.queue, group)
                there[groups[message]].append(message)
        elif row.is_received() and message in groups:
            others = there[groups[message]]
            before = others.index(message)
            same_call = all(calls.get(other) == (row.agent, row.at) for other in others[:before])
            must(same_call, row, "an earlier one waits")
            must(not any(other in calls for other in others[before:]), row, "a later one is in flight")
            calls[message] = (row.agent, row.at)
        elif row.call == "release" or row.leaves():
            calls.pop(message, None)
            if row.leaves() and message in groups:
                there[groups[message]].remove(message)


def repeats(log: Log, scenario: Scenario) -> None:
    """A row with the answer `repeat` is of a FIFO queue, and names a message that came there less than 5 minutes before.
    If it is of a send and the message was sent, both sends have one deduplication id, in one scope. A send to a FIFO
    queue is a repeat, or refused, if one of its id and scope was `new` there less than 5 minutes before."""
    given = Sends(log, scenario).given
    came: dict[str, tuple[int, Key | None]] = {}
    last: dict[Key, int] = {}
    for place, row in enumerate(log):
        key = deduplication_key(row, given[place], scenario) if row.call == "send" else None
        if row.answer == "repeat":
            at, other = came[row.message]
            must(scenario.queues[row.queue]["fifo"] and row.at < at + DEDUPLICATION_MS, row, "repeats nothing")
            must(key is None or other in (None, key), row, "repeats another")
        if row.comes():
            must(key is None or row.at >= last.get(key, -DEDUPLICATION_MS) + DEDUPLICATION_MS, row, "new again")
            came[row.message] = (row.at, key)
            if key is not None:
                last[key] = row.at


# ---- laws that hold by the definitions ----
def back_in_time(log: Log, scenario: Scenario) -> None:
    """What its timeout brings back at a moment is not changed or deleted by a call of that moment, which comes later."""
    ends: dict[str, int] = {}
    for row in log:
        message = row.message
        if row.is_received():
            ends[message] = row.at + scenario.visibility_ms(row)
        elif row.is_changed():
            must(row.at < ends[message], row, "changed though it comes back")
            ends[message] = row.at + 1000 * int(row.detail)
        elif row.call == "release" or row.leaves():
            end = ends.pop(message, NEVER)
            must(row.answer != "deleted" or row.at < end, row, "deleted though it comes back")


def deduplication(log: Log, scenario: Scenario) -> None:
    """A send to a FIFO queue, also a forward that arrives, is `repeat` if a message that was `new` by a send of the same
    deduplication id in the same scope came less than 5 minutes before it, and then it names that message; else it is
    `new`. At a standard queue, and of what was redriven or moved, all are `new`."""
    given = Sends(log, scenario).given
    last: dict[Key, Row] = {}
    made: dict[str, tuple[int, Key | None]] = {}
    for place, row in enumerate(log):
        if row.answer not in ("new", "repeat"):
            continue
        queue = scenario.queues[row.queue]
        if not queue["fifo"] or row.call == "arrive" and row.agent not in scenario.actors:
            must(row.answer == "new", row, "deduplicated")
            continue
        key = deduplication_key(row, given[place], scenario)
        if row.answer == "new":
            must(key not in last or row.at - last[key].at >= DEDUPLICATION_MS, row, "new again")
            made[row.message] = (row.at, key)
            if key is not None:
                last[key] = row
        else:
            must(row.message in made and row.at - made[row.message][0] < DEDUPLICATION_MS, row, "repeats nothing")
            must(key is None or made[row.message][1] in (None, key), row, "repeats another")


def journeys(log: Log, scenario: Scenario) -> None:
    """What a queue, task or consumer sends away (`redrive`, `move`, `forward`) arrives at that destination once, after
    its latency, a message of a queue or task with its origin; and nothing else arrives. Each receive, and an arrival
    that repeats a message, tells the origin with which the message came."""
    away: dict[tuple[str, str, str], list[int]] = collections.defaultdict(list)
    origins: dict[str, str] = {}
    for row in log:
        if row.call in ("redrive", "move", "forward"):
            origin = "" if row.call == "forward" else origins[row.message]
            away[row.agent, row.detail, origin].append(row.at)
        if row.call == "arrive":
            sent = away[row.agent, row.queue, "" if row.agent in scenario.actors else row.detail]
            least, greatest = scenario.latency(row.agent)
            must(bool(sent), row, "was not sent")
            must(sent[0] + least <= row.at <= sent.pop(0) + greatest, row, "too early or too late")
        if row.comes():
            origins[row.message] = row.origin()
            forwarded = row.call == "arrive" and row.agent in scenario.actors
            must(not forwarded or row.detail == "o" + row.message[1:], row, "a forward with another origin")
        tells = row.is_received() or (row.call, row.answer) == ("arrive", "repeat")
        must(not tells or row.detail == origins[row.message], row, "another origin")
    late = [at for key, sent in away.items() for at in sent if at + scenario.latency(key[0])[1] <= scenario.horizon]
    must(not late, None, "never arrives")


# ---- scalers ----
class Wakes:
    """What the rows of a queue say that was before a wake of an actor: its number at a moment, after all that agents with
    lesser numbers do then."""

    def __init__(self, log: Log, scenario: Scenario, queue: str):
        given = Sends(log, scenario).given
        numbered: dict[str, Table] = {**scenario.queues, **scenario.actors, **scenario.tasks}
        self.keys: list[tuple[int, int]] = []
        self.rows: list[Row] = []
        self.asked: list[tuple[int, Row]] = []
        self.visible = [0]
        there: set[str] = set()
        waiting: set[str] = set()
        for place, row in enumerate(log):
            if row.queue != queue:
                continue
            last = self.keys[-1] if self.keys and self.keys[-1][0] == row.at else (row.at, 0)
            answers = row.agent in waiting and row.call == "receive"
            if answers and row.answer == "ok":
                # it is a part of what brought the message
                self.keys.append(last)
            else:
                self.keys.append(max(last, (row.at, numbered[row.agent]["number"])))
            if row.call == "receive" and not answers:
                self.asked.append((len(self.keys) - 1, row))
            (waiting.add if row.answer == "wait" else waiting.discard)(row.agent)
            if row.call == "release" or row.comes() and not given[place].delay_s:
                there.add(row.message)
            elif row.is_received() or row.leaves():
                there.discard(row.message)
            self.rows.append(row)
            self.visible.append(len(there))

    def visible_before(self, at: int, number: int) -> int:
        return self.visible[bisect.bisect_left(self.keys, (at, number))]


def asked_for(scaler: Table, visible: int) -> int:
    """How many copies so many visible messages ask for: one for each so many of them, or as many as the first step says
    that has so many."""
    if "steps" not in scaler:
        whole, part = divmod(visible, scaler["visible_per_copy"])
        return int(whole + (part > 0))
    steps = [*scaler["steps"], [NEVER, scaler["copies_max"]]]
    return int(steps[[visible <= most for most, _ in steps].index(True)][1])


def changes_of(scaler: Table, wakes: Wakes, horizon: int) -> Iterator[tuple[int, str]]:
    """When a scaler changes how many copies ask, and both numbers as a row tells them."""
    number, reading = scaler["number"], 1000 * scaler.get("reading_s", 0)
    copies, changed = scaler.get("copies_min", 1), 0
    for read_at in range(scaler.get("start_ms", 0), horizon - reading + 1, 1000 * scaler["every_s"]):
        visible, now = wakes.visible_before(read_at, number), read_at + reading
        wanted = min(scaler["copies_max"], max(scaler.get("copies_min", 1), asked_for(scaler, visible)))
        after = copies
        if wanted > copies and now >= changed + 1000 * scaler.get("cooldown_out_s", 0):
            after = min(wanted, copies + scaler.get("added_max", 1000))
        elif wanted < copies and now >= changed + 1000 * scaler.get("cooldown_in_s", 0):
            after = max(wanted, copies - scaler.get("taken_max", 1000))
        if after != copies:
            yield now, f"{copies}/{after}"
            copies, changed = after, now


def scalers(log: Log, scenario: Scenario) -> None:
    """The rows `scale` of a scaler are just its changes, by how many messages were visible when it read."""
    for name, actor in scenario.actors.items():
        if actor["kind"] == "scaler":
            told = [row for row in log if row.call == "scale" and row.agent == name]
            changes = list(changes_of(actor, Wakes(log, scenario, actor["queue"]), scenario.horizon))
            for row, change in zip(told, changes):
                must((row.at, row.detail) == change, row, f"changes at {change[0]} to {change[1]}")
            must(len(told) == len(changes), None, f"{name} changes {len(changes)} times, and {len(told)} rows tell that")


def copies(log: Log, scenario: Scenario) -> None:
    """A copy that its scaler does not want asks for nothing, but for more of a batch that it gathers."""
    scaled = {name: actor for name, actor in scenario.actors.items() if "scaler" in actor and not actor.get("gather_ms")}
    for queue in {actor["queue"] for actor in scaled.values()}:
        wakes = Wakes(log, scenario, queue)
        for place, row in wakes.asked:
            if row.agent in scaled:
                actor = scaled[row.agent]
                scaler = scenario.actors[actor["scaler"]]
                said = [it for it in wakes.rows[:place] if it.call == "scale" and it.agent == scaler["name"]]
                number = int(said[-1].detail.partition("/")[2]) if said else scaler.get("copies_min", 1)
                nth = int(row.agent.rpartition("-")[2]) if "copies" in actor else 1
                must(nth <= number, row, f"asks while {number} copies are to ask")


# ---- what the rows say of the end ----
def what_is_left(log: Log, scenario: Scenario, ending: Ending) -> None:
    """The final queues have just the messages that came to a queue and have not left it, queue by queue in the order of
    their numbers. One is in flight just if the rows say so. It was received as often as they say, and has the origin that
    they tell. This law is proved."""
    found: dict[str, dict[str, Left]] = {name: {} for name in scenario.queues}
    for row in log:
        there = found[row.queue]
        if row.comes():
            there[row.message] = Left(row.queue, row.message, row.origin(), "rests", 0)
        elif row.leaves():
            there.pop(row.message)
        elif row.is_received():
            there[row.message] = there[row.message]._replace(place="inflight", receives=there[row.message].receives + 1)
        elif row.call == "release":
            there[row.message] = there[row.message]._replace(place="rests")
    told = [message for there in found.values() for message in there.values()]
    written = [message._replace(place=message.place if message.place == "inflight" else "rests") for message in ending.left]
    for before, after in zip(told, written):
        must(before == after, None, f"{after} is left, where the rows tell of {before}")
    must(len(told) == len(written), None, f"{len(written)} messages are left, where the rows tell of {len(told)}")


def what_is_under_way(log: Log, scenario: Scenario, ending: Ending) -> None:
    """As many messages were sent on to a queue as arrived there and are among the final transfers. This law is proved."""
    sent_on = collections.Counter(row.detail for row in log if row.call in ("redrive", "forward", "move"))
    arrived = collections.Counter(row.queue for row in log if row.call == "arrive")
    arrived.update(ending.under_way)
    must(sent_on == arrived, None, f"{dict(sent_on)} were sent on, and {dict(arrived)} arrived or are under way")


LAWS: tuple[Callable[[Log, Scenario], None], ...] = (
    in_flight, the_end, dead_letters, receipts, time, retention, delays, releases, fifo, repeats, back_in_time,
    deduplication, journeys, scalers, copies)


ENDING_LAWS: tuple[Callable[[Log, Scenario, Ending], None], ...] = (what_is_left, what_is_under_way)


def broken(log: Log, scenario: Scenario, ending: Ending | None = None) -> dict[str, str]:
    """The laws that a log breaks, each with the row at which it does; if its ending is there, the laws of that too."""
    faults = {}
    laws: dict[str, Callable[[], None]] = {law.__name__: functools.partial(law, log, scenario) for law in LAWS}
    if ending is not None:
        laws |= {law.__name__: functools.partial(law, log, scenario, ending) for law in ENDING_LAWS}
    for name, law in laws.items():
        try:
            law()
        except Broken as fault:
            faults[name] = str(fault)
        except (KeyError, StopIteration, ValueError, IndexError) as fault:
            faults[name] = f"a row names what is not there ({type(fault).__name__} {fault})"
    return faults
