"""Ages from door to door: since the first send of a message, over redrives, moves and forwards. The tools import it; it
is not a command.

Messages are followed by their origins and by the order of forwards, as origins.py has it. Where that order leaves open
which message was forwarded, the ages behind it are open too.

A message that is still elsewhere may come into a queue yet, if a way leads there.
"""
from __future__ import annotations

from collections import Counter
from collections.abc import Iterable
from typing import NamedTuple

from .logs import Head, Take
from .origins import Forwards, Origins
from .replay import BadRow, handlers_of, is_forward
from .statistics import at_rank, rank_of

# What is printed of the ages since the first send, by the shares of their percentiles.
DOOR_SHARES = {"door_age_p50": 0.5, "door_age_p95": 0.95, "door_age_max": 1.0}


class Door(NamedTuple):
    """When a message was first sent, and the bits of the consumers and queues whose forwards leave that open."""
    at: int
    doubts: int = 0


class Doors:
    """Follows all messages of a log, row by row, and counts by queue the ages since the first send of those that are
    deleted from a moment on. `served` has what each consumer serves. `ways` has the ways from queue to queue that are
    known before, or that a message went."""

    def __init__(self, first: int = 0, ways: Iterable[tuple[str, str]] = ()) -> None:
        self.first, self.ways = first, set(ways)
        self.origins, self.forwards = Origins[Door](), Forwards[Door]()
        self.served: dict[tuple[str, str], Door] = {}
        self.ages: dict[str, Counter[tuple[int, int]]] = {}
        # a bit for each consumer and queue
        self.bits: dict[tuple[str, str], int] = {}

    def take_of(self, head: Head) -> Take | None:
        """What takes in the rows with a head, after they have been used; None if they say nothing here."""
        name = HANDLERS.names.get((head.call, head.answer))
        take: Take | None = getattr(self, name) if name else None
        return take

    def sent(self, at: int, head: Head, message: str, receipt: str, detail: str) -> None:
        self.origins.enters(head, message, detail, Door(at))

    def arrived(self, at: int, head: Head, message: str, receipt: str, detail: str) -> None:
        is_new = is_forward(message, detail)
        door = self.forwarded_as(at, head) if is_new else self.origins.arrived(head, message, detail)
        if door is None:
            raise BadRow(f"{detail} was not on its way to {head.queue}: is this the whole log?")
        self.origins.enters(head, message, detail, door)

    def arrived_again(self, at: int, head: Head, message: str, receipt: str, detail: str) -> None:
        self.forwarded_as(at, head)

    def forwarded_as(self, at: int, head: Head) -> Door | None:
        """What the oldest forward under way was of; its consumer leaves that open where others were under way with it.
        """
        found = self.forwards.arrived(at, head)
        if found is None or not found.may_be_other:
            return found.known if found else None
        bit = self.bits.setdefault((head.agent, head.queue), 1 << len(self.bits))
        return Door(found.known.at, found.known.doubts | bit)

    def received(self, at: int, head: Head, message: str, receipt: str, detail: str) -> None:
        self.served[head.agent, message] = self.origins.of(head, message)

    def forwarded(self, at: int, head: Head, message: str, receipt: str, to: str) -> None:
        door = self.served.get((head.agent, message))
        if door is None:
            raise BadRow(f"{head.agent} did not receive {message}: is this the whole log?")
        self.forwards.sent(at, head, to, door)
        self.ways.add((head.queue, to))

    def failed(self, at: int, head: Head, message: str, receipt: str, detail: str) -> None:
        """The end of a service, whose receipt tells the message even if that is gone."""
        self.served.pop((head.agent, f"m{receipt[1:].rpartition('-')[0]}"), None)

    delete_called = delete_refused = failed

    def deleted(self, at: int, head: Head, message: str, receipt: str, detail: str) -> None:
        self.failed(at, head, message, receipt, detail)
        self.count(head.queue, at, self.origins.leaves(head, message, detail))

    def leaves(self, at: int, head: Head, message: str, receipt: str, detail: str) -> None:
        self.origins.leaves(head, message, detail)
        if head.answer == "out":
            self.ways.add((head.queue, detail))

    def count(self, queue: str, at: int, door: Door) -> None:
        if at >= self.first:
            self.ages.setdefault(queue, Counter())[door.doubts, at - door.at] += 1

    def open_of(self, queue: str) -> tuple[int, list[str]]:
        """The number of deleted messages of a queue whose first send is open, and the consumers who leave it so."""
        number, found, are_open = 0, 0, self.open_bits()
        for (doubts, _), count in self.ages.get(queue, {}).items():
            if doubts & are_open:
                number += count
                found |= doubts & are_open
        return number, sorted({agent for (agent, _), bit in self.bits.items() if bit & found})

    def open_bits(self) -> int:
        """The bits of those whose forwards did not keep their order."""
        return sum(bit for edge, bit in self.bits.items() if not self.forwards.edges[edge].keeps_order)

    def ages_of(self, queue: str) -> Counter[int]:
        """How many messages were deleted from a queue at each age since the first send."""
        together: Counter[int] = Counter()
        for (_, age), count in self.ages.get(queue, {}).items():
            together[age] += count
        return together

    def columns(self, queue: str) -> dict[str, int | None]:
        """The percentiles of the ages of a queue; None if no message was deleted, or if the first send of one is
        open."""
        ages = self.ages_of(queue)
        is_known = bool(ages) and not self.open_of(queue)[0]
        return {column: at_rank(ages, rank_of(sum(ages.values()), share)) if is_known else None
                for column, share in DOOR_SHARES.items()}

    def left(self) -> "Left":
        """The messages that are left at the end."""
        there: dict[str, list[int]] = {}
        under_way: dict[str, list[int]] = {}
        for door, _, queue in self.origins.there.values():
            there.setdefault(queue, []).append(door.at)
        for door, leave in self.origins.under_way.values():
            under_way.setdefault(leave.to, []).append(door.at)
        for (_, to), edge in self.forwards.edges.items():
            under_way.setdefault(to, []).extend(door.at for _, door in edge.under_way)
        return Left(there, under_way, self.ways)


class Left(NamedTuple):
    """When the messages were first sent that are left at the end, by the queue in which they are, or to which they are
    under way; and the ways from queue to queue."""
    there: dict[str, list[int]]
    under_way: dict[str, list[int]]
    ways: set[tuple[str, str]]

    def before(self, queue: str) -> set[str]:
        """The queues from which a queue can be reached, with itself."""
        found, wave = {queue}, {queue}
        while wave:
            wave = {start for start, to in self.ways if to in wave} - found
            found |= wave
        return found

    def may_come(self, queue: str) -> list[int]:
        """When those were first sent that may still come into a queue."""
        before = self.before(queue)
        return [at for name in before for at in (*self.under_way.get(name, ()),
                                                 *(self.there.get(name, ()) if name != queue else ()))]


HANDLERS = handlers_of(Doors)
