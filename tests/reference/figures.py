"""The figures of a run: what is counted of each queue and each other agent over a stretch of it."""
from collections import Counter
from collections.abc import Container, Iterable, Iterator, Sequence
from typing import TYPE_CHECKING, NamedTuple, Optional

from doors import Doors, before, ways
from log import COMES, LEAVES, line_of

if TYPE_CHECKING:
    from settings import Scenario
    from sites import Row

# What a row with this call and answer counts as; of an arrival that it came, in whatever way.
COUNTED = {"send new": "sent", "send repeat": "sent_again", "arrive repeat": "forwarded_again", "receive ok": "receives",
           "receive wait": "waits", "receive empty": "empty_receives", "delete deleted": "deleted",
           "delete kept": "deletes_by_older_receipt", "delete gone": "deletes_of_gone", "change ok": "changes",
           "fail ok": "failed_services", "forward out": "forwarded", "redrive out": "dead_lettered",
           "move out": "moved_away", "expire expired": "lost_by_expiry", "start ok": "starts", "cancel ok": "cancels",
           "scale ok": "copies_changed"}
# Of a call that is refused.
REFUSED = {"send": "refused_sends", "receive": "refused_receives", "delete": "refused_deletes",
           "change": "refused_changes", "start": "refused_starts", "cancel": "refused_cancels"}
NAMES = ["sent", "sent_again", "came_by_forward", "came_by_redrive", "came_by_move", "forwarded_again", "receives",
         "waits", "empty_receives", "deleted", "deletes_by_older_receipt", "deletes_of_gone", "changes",
         "failed_services", "forwarded", "dead_lettered", "moved_away", "lost_by_expiry", *list(REFUSED.values())[:4],
         "starts", "cancels", "refused_starts", "refused_cancels", "copies_changed"]
# The actions of SQS by the calls of rows.
ACTIONS = {"send": "SendMessage", "receive": "ReceiveMessage", "delete": "DeleteMessage",
           "change": "ChangeMessageVisibility", "start": "StartMessageMoveTask", "cancel": "CancelMessageMoveTask"}
# Figures by their names, None where there is no number.
Told = Iterator[tuple[str, Optional[int]]]
# How long a window of time is, in milliseconds.
WINDOW = 300_000
# More messages than these that are there and not in flight are a backlog, unless another number is given.
BACKLOG = 10
HEADER = ["figure", "of", "name", "value"]


class Fields(NamedTuple):
    """A row of the log."""

    at: str
    queue: str
    agent: str
    call: str
    answer: str
    message: str
    receipt: str
    detail: str

    def said(self) -> str:
        return f"{self.call} {self.answer}"


class Stretch(NamedTuple):
    """Its first millisecond, and the one behind its last."""

    first: int
    end: int

    def has(self, row: Fields) -> bool:
        return self.first <= int(row.at) < self.end

    def part(self, start: int, end: int) -> int:
        """How many milliseconds from one moment to another lie in it."""
        return max(0, min(end, self.end) - max(start, self.first))


def kind_of(row: Fields, queues: Container[str]) -> str | None:
    """The name of the count in which a row is, if it is in one."""
    if row.said() == "arrive new":
        if row.detail[1:] == row.message[1:]:
            return "came_by_forward"
        return "came_by_redrive" if row.agent in queues else "came_by_move"
    return COUNTED.get(row.said()) or (REFUSED.get(row.call) if row.answer[0].isupper() else None)


def counts(rows: Iterable[Fields], queues: Container[str]) -> Iterator[tuple[str, int]]:
    kinds = [kind_of(row, queues) for row in rows]
    yield from ((name, kinds.count(name)) for name in NAMES)


def asks(rows: Iterable[Fields]) -> Iterator[bool]:
    """Of each row whether a request is made with it: a poll that waits is answered, and a receive gives some messages,
    without another one. A forward is sent as it arrives."""
    polling: set[str] = set()
    answered: dict[str, str] = {}
    for row in rows:
        if row.call == "arrive":
            yield row.answer == "repeat" or row.detail[1:] == row.message[1:]
        elif row.call != "receive":
            yield row.call in ACTIONS
        elif row.agent in polling or answered.get(row.agent) == row.at:
            polling.discard(row.agent)
            answered[row.agent] = row.at
            yield False
        else:
            if row.answer == "wait":
                polling.add(row.agent)
            elif row.answer == "ok":
                answered[row.agent] = row.at
            yield True


def requests(rows: Sequence[Fields], stretch: Stretch) -> Iterator[tuple[str, int]]:
    asked = [row for row, is_asked in zip(rows, asks(rows)) if is_asked and stretch.has(row)]
    made = Counter(ACTIONS.get(row.call, ACTIONS["send"]) for row in asked)
    yield from ((action, made[action]) for action in ACTIONS.values())
    yield "requests", len(asked)
    yield "refused_requests", sum(row.answer[0].isupper() for row in asked)


def depths(rows: Iterable[Fields]) -> Iterator[int]:
    """How many messages are in a queue after each row."""
    depth = 0
    for row in rows:
        depth += (row.said() in COMES) - (row.said() in LEAVES)
        yield depth


def flights(rows: Iterable[Fields]) -> Iterator[int]:
    """How many of them are in flight."""
    flying: set[str] = set()
    for row in rows:
        if row.said() == "receive ok":
            flying.add(row.message)
        elif row.said() == "release visible" or row.said() in LEAVES:
            flying.discard(row.message)
        yield len(flying)


def peak(name: str, numbers: Iterable[int], rows: Sequence[Fields], stretch: Stretch) -> Iterator[tuple[str, int]]:
    """The greatest of numbers, at the beginning of a stretch or after one of its rows, and when."""
    after = [(number, row) for number, row in zip(numbers, rows)]
    start = [number for number, row in after if int(row.at) < stretch.first][-1:] or [0]
    greatest = max([(start[0], stretch.first), *((number, int(row.at)) for number, row in after if stretch.has(row))],
                   key=lambda found: found[0])
    yield f"{name}_greatest", greatest[0]
    yield f"{name}_greatest_at_ms", greatest[1]


def backlogs(waiting: Iterable[int], most: int, rows: Iterable[Fields], stretch: Stretch) -> Told:
    """The last end of a backlog in a stretch, unless there is one in the end, and since when there is that one."""
    since: Optional[int] = None
    gone: Optional[int] = None
    for number, row in zip(waiting, rows):
        if number > most and since is None:
            since = int(row.at)
        elif number <= most and since is not None:
            since, gone = None, int(row.at) if stretch.has(row) else gone
    yield "backlog_gone_at_ms", gone if since is None else None
    yield "backlog_since_ms", since


def left(rows: Sequence[Fields], quota: int, most: int, stretch: Stretch) -> Told:
    """What is left of a queue's messages, and how long the quota was reached."""
    there, flying = [*depths(rows)], [*flights(rows)]
    ends = [int(row.at) for row in rows[1:]] + [stretch.end]
    yield "left", there[-1] if rows else 0
    yield "left_in_flight", flying[-1] if rows else 0
    yield "quota_ms", sum(stretch.part(int(row.at), end) for row, end, number in zip(rows, ends, flying)
                          if number >= quota)
    yield from backlogs((all_of - some for all_of, some in zip(there, flying)), most, rows, stretch)


def oldest(rows: Iterable[Fields], stretch: Stretch) -> Iterator[tuple[str, int]]:
    """The greatest age of the oldest message as one left a queue, or at the last moment, and when."""
    there: dict[str, int] = {}
    found = [(0, stretch.first)]

    def look(at: int) -> None:
        if there:
            found.append((at - next(iter(there.values())), at))

    for row in rows:
        if row.said() in LEAVES:
            if stretch.has(row):
                look(int(row.at))
            there.pop(row.message, None)
        elif row.said() in COMES:
            there[row.message] = int(row.at)
    look(stretch.end - 1)
    age, at = max(found, key=lambda it: it[0])
    yield "oldest_age_greatest_ms", age
    yield "oldest_age_greatest_at_ms", at


def services(rows: Sequence[Fields], stretch: Stretch) -> Told:
    """The services of an actor that ended, its receives that gave messages, and how long it was busy."""
    inside = [row for row in rows if stretch.has(row)]
    whole, time = stretch.end - stretch.first, busy(rows, stretch)
    yield "services", sum(row.call == "delete" or row.said() == "fail ok" for row in inside)
    yield "batches", len({row.at for row in inside if row.said() == "receive ok"})
    yield "busy_ms", time
    yield "busy_permille", time * 1000 // whole if whole > 0 else None


def busy(rows: Sequence[Fields], stretch: Stretch) -> int:
    """How many milliseconds of a stretch an actor held messages that it had not settled."""
    held, receiving, total = 0, False, 0
    ends = [int(row.at) for row in rows[1:]] + [stretch.end]
    for row, end in zip(rows, ends):
        if row.said() == "receive ok":
            held, receiving = held + 1 if receiving else 1, True
        elif row.call == "receive":
            held, receiving = 0, False
        elif row.call in ("delete", "fail"):
            held, receiving = max(0, held - 1), False
        total += stretch.part(int(row.at), end) if held else 0
    return total


def tries(rows: Sequence[Fields], stretch: Stretch) -> Iterator[tuple[str, int]]:
    """How often messages that a stretch deleted had been received, by the rows of their receives."""
    received = Counter[str]()
    found: list[int] = []
    for row in rows:
        received[row.message] += row.said() == "receive ok"
        if row.said() == "delete deleted" and stretch.has(row):
            found.append(received[row.message])
    yield "received_once", found.count(1)
    yield "received_again", len(found) - found.count(1)
    yield "tries_sum", sum(found)
    yield "tries_greatest", max(found, default=0)


def handled(rows: Sequence[Fields], stretch: Stretch) -> Iterator[tuple[str, int]]:
    """How many messages had calls to delete with one receipt of theirs, and with several, if the service of a receipt
    had not failed or the call deleted; and how many messages were received, and how often."""
    receipts: dict[str, str] = {}
    times, received = Counter[str](), Counter[str]()
    for row in rows:
        if row.said() == "receive ok":
            receipts[row.receipt] = row.message
            received[row.message] += stretch.has(row)
        elif row.call in ("delete", "fail"):
            message = receipts.pop(row.receipt, row.message if row.said() == "delete deleted" else "")
            times[message] += bool(message) and row.call == "delete" and stretch.has(row)
    numbers = [number for number in times.values() if number]
    yield "handled_once", numbers.count(1)
    yield "handled_again", len(numbers) - numbers.count(1)
    yield "handled_greatest", max(numbers, default=0)
    yield "received_messages", sum(number > 0 for number in received.values())
    yield "received_greatest", max(received.values(), default=0)


def of_moved(rows: Iterable[Fields], queues: Container[str]) -> Iterator[bool]:
    """Of each row of a queue whether its message came there by a move."""
    came: set[str] = set()
    for row in rows:
        if kind_of(row, queues) == "came_by_move":
            came.add(row.message)
        yield row.message in came


def rank(percent: int, found: Iterable[int]) -> Optional[int]:
    ascending = sorted(found)
    return ascending[-(-percent * len(ascending) // 100) - 1] if ascending else None


def ages(name: str, rows: Sequence[Fields], first: int, length: int) -> Told:
    """The ages of rows that delete, and the worst window of so many milliseconds from a first moment on."""
    found = [int(row.detail) for row in rows]
    yield f"{name}_sum_ms", sum(found)
    for end, percent in ("p50", 50), ("p95", 95), ("p99", 99), ("greatest", 100):
        yield f"{name}_{end}_ms", rank(percent, found)
    starts = [first + (int(row.at) - first) // length * length for row in rows]
    worst = {start: rank(95, (age for age, of in zip(found, starts) if of == start)) or 0 for start in starts}
    at, age = max(worst.items(), key=lambda window: window[1], default=(None, None))
    yield f"{name}_window_p95_ms", age
    yield f"{name}_window_p95_at_ms", at


def bound(percent: int, found: Sequence[int], left: int) -> Optional[int]:
    """The rank if so many more ages are greater than all others; None if one of those is it."""
    place = -(-percent * (len(found) + left) // 100)
    return sorted(found)[place - 1] if 0 < place <= len(found) else None


def bounds(name: str, rows: Sequence[Fields], left: Sequence[int], stretch: Stretch, length: int) -> Told:
    """The least and the greatest that each rank of the ages of rows that delete can be, and the worst window, where
    messages that are left have these ages at the last moment: as if each was deleted then, and as if none ever was."""
    found = [int(row.detail) for row in rows]
    for end, percent in ("p50", 50), ("p95", 95), ("p99", 99), ("greatest", 100):
        yield f"{name}_{end}_least_ms", rank(percent, [*found, *left])
        yield f"{name}_{end}_most_ms", bound(percent, found, len(left))
    places = [(int(row.at) - stretch.first) // length for row in rows]
    last = max(0, stretch.end - 1 - stretch.first) // length
    in_last = [age for age, place in zip(found, places) if place == last]
    before = [rank(95, [age for age, of in zip(found, places) if of == place]) or 0 for place in {*places} - {last}]
    yield f"{name}_window_p95_least_ms", max([*before, *([rank(95, [*in_last, *left]) or 0] if in_last or left else [])],
                                             default=None)
    most = bound(95, in_last, len(left))
    is_open = most is None and bool(left)
    yield f"{name}_window_p95_most_ms", None if is_open else max([*before, *([] if most is None else [most])],
                                                                 default=None)


def there(rows: Iterable[Fields], stretch: Stretch) -> dict[str, int]:
    """How long each message that is left has been there at the last moment of a stretch."""
    came: dict[str, int] = {}
    for row in rows:
        if row.said() in COMES:
            came[row.message] = int(row.at)
        elif row.said() in LEAVES:
            came.pop(row.message, None)
    return {message: max(0, stretch.end - 1 - at) for message, at in came.items()}


def ages_apart(rows: Sequence[Fields], queues: Container[str], stretch: Stretch, length: int) -> Told:
    """The ages, and then their bounds, of all messages that a stretch deleted, of those that came by no move, and of
    the others."""
    moves = [*of_moved(rows, queues)]
    deleted = [(is_moved, row) for is_moved, row in zip(moves, rows)
               if stretch.has(row) and row.said() == "delete deleted"]
    moved = {row.message for is_moved, row in zip(moves, rows) if is_moved}
    left = there(rows, stretch)
    found = {name: ([row for is_moved, row in deleted if is_moved in of],
                    [age for message, age in left.items() if (message in moved) in of])
             for name, of in (("age", (False, True)), ("new_age", (False,)), ("moved_age", (True,)))}
    for name, (gone, _) in found.items():
        yield from ages(name, gone, stretch.first, length)
    for name, (gone, still_there) in found.items():
        yield from bounds(name, gone, still_there, stretch, length)


def from_door_to_door(scenario: "Scenario", rows: Sequence[Fields], stretch: Stretch, length: int) -> Iterator[list[object]]:
    """The lines of the ages since the first sends, and of the forwards that leave them open."""
    doors, all_ways = Doors(rows, stretch), [*ways(scenario)]
    for queue in scenario.queues:
        reach = before(queue.name, all_ways)
        number = doors.open_at(queue.name, reach)
        for name, value in ages("door_age", doors.ages(queue.name), stretch.first, length):
            yield ["figure", queue.name, name, "" if value is None or number else value]
        yield ["figure", queue.name, "door_age_open", number]
        yield ["figure", queue.name, "door_age_may_come", doors.may_come(queue.name, reach)]
    for name in scenario.names()[len(scenario.queues):]:
        yield ["figure", name, "forwards_in_doubt", int(doors.is_in_doubt(name))]


def figures_text(scenario: "Scenario", made: Iterable["Row"], first: int, end: int, most: int = BACKLOG,
                 length: int = WINDOW) -> str:
    """The figures of all agents, over the part of a stretch that lies in the run."""
    stretch = Stretch(first, min(end, scenario.horizon + 1))
    queues = {queue.name: queue.in_flight for queue in scenario.queues}
    rows = [row for row in (Fields(*row.fields) for row in made) if int(row.at) < stretch.end]
    lines: list[Sequence[object]] = [HEADER]
    for name in scenario.names():
        own = [row for row in rows if (row.queue if name in queues else row.agent) == name]
        inside = [row for row in own if stretch.has(row)]
        figures: list[tuple[str, Optional[int]]] = [*counts(inside, queues), *requests(own, stretch)]
        if name in queues:
            figures += [*peak("depth", depths(own), own, stretch), *peak("in_flight", flights(own), own, stretch),
                        *oldest(own, stretch), *left(own, queues[name], most, stretch), *tries(own, stretch),
                        *handled(own, stretch), *ages_apart(own, queues, stretch, length)]
        else:
            figures += services(own, stretch)
        lines += [["figure", name, figure, "" if value is None else value] for figure, value in figures]
    lines += from_door_to_door(scenario, rows, stretch, length)
    return "".join(map(line_of, lines))
