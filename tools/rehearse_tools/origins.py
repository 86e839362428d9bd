"""Which message is which over several queues. The tools that follow messages import it; it is not run by itself.

A message that is redriven or moved keeps its origin, by which it is known again. A forward makes a new message, and the
log does not tell which arrival is of which forward. Those of one consumer are taken in their order. That is right where
only one of them is under way, or several of one message, or where all take equally long; else it is open.
"""
from __future__ import annotations

import re
from collections import defaultdict, deque
from dataclasses import dataclass
from typing import Generic, NamedTuple, TypeVar

from .logs import Head
from .replay import BadRow

ORIGIN = re.compile(r"o-(0|[1-9][0-9]*)-(0|[1-9][0-9]*)")

Known = TypeVar("Known")


class Leave(NamedTuple):
    """That a message leaves a queue for another one."""
    queue: str
    to: str


def origin_of(head: Head, message: str, detail: str) -> str:
    """The origin of the message that a row brings into a queue."""
    return detail if head.call == "arrive" else f"o{message[1:]}"


def never_came(head: Head, message: str) -> BadRow:
    return BadRow(f"{message} never came into {head.queue}: is this the whole log?")


class Origins(Generic[Known]):
    """What is known of each message, which goes with it over redrives and moves. `there` has it by the id that the
    message has in its queue, with its origin and that queue; `under_way` by the origin, with its leave."""

    def __init__(self) -> None:
        self.there: dict[str, tuple[Known, str, str]] = {}
        self.under_way: dict[str, tuple[Known, Leave]] = {}

    def arrived(self, head: Head, message: str, detail: str) -> Known | None:
        """What is known of a message that was under way to the queue that it enters, or None."""
        found = self.under_way.pop(origin_of(head, message, detail), None)
        return found and found[0]

    def enters(self, head: Head, message: str, detail: str, known: Known) -> None:
        """Takes in what is known of a message that enters a queue."""
        origin = origin_of(head, message, detail)
        if not ORIGIN.fullmatch(origin):
            raise never_came(head, message)
        self.there[message] = known, origin, head.queue

    def of(self, head: Head, message: str) -> Known:
        """What is known of the message of a row, which is in a queue."""
        try:
            return self.there[message][0]
        except KeyError:
            raise never_came(head, message) from None

    def leaves(self, head: Head, message: str, detail: str) -> Known:
        """What is known of a message that leaves a queue; it is under way if it is redriven or moved."""
        known, origin, _ = self.there.pop(message, (None, None, None))
        if known is None or origin is None:
            raise never_came(head, message)
        if head.answer == "out":
            self.under_way[origin] = known, Leave(head.queue, detail)
        return known


@dataclass(frozen=True)
class Arrival(Generic[Known]):
    """What is known of the forward that arrives, and whether others were under way with it."""

    known: Known
    may_be_other: bool


class Edge(Generic[Known]):
    """The forwards of one consumer to one queue: those that are under way, whether two of different messages were at once
    since none was, and how long those took that arrived, in their order."""

    def __init__(self) -> None:
        self.under_way: deque[tuple[int, Known]] = deque()
        self.took: set[int] = set()
        self.overlap = False

    def sent(self, at: int, known: Known) -> None:
        self.overlap = self.overlap or bool(self.under_way) and self.under_way[-1][1] != known
        self.under_way.append((at, known))

    def arrived(self, at: int) -> Arrival[Known]:
        """The oldest forward under way."""
        sent, known = self.under_way.popleft()
        if len(self.took) < 2:
            self.took.add(at - sent)
        found = Arrival(known, self.overlap)
        self.overlap = self.overlap and bool(self.under_way)
        return found

    @property
    def keeps_order(self) -> bool:
        """Whether all took equally long."""
        return len(self.took) < 2


class Forwards(Generic[Known]):
    """What is known of each forward, which its arrival gets. `edges` has those under way by consumer and queue."""

    def __init__(self) -> None:
        self.edges: defaultdict[tuple[str, str], Edge[Known]] = defaultdict(Edge)

    def sent(self, at: int, head: Head, to: str, known: Known) -> None:
        self.edges[head.agent, to].sent(at, known)

    def arrived(self, at: int, head: Head) -> Arrival[Known] | None:
        """The forward that a row is the arrival of; None where none of its consumer is under way to its queue."""
        edge = self.edges.get((head.agent, head.queue))
        return edge.arrived(at) if edge and edge.under_way else None
