"""Ages from door to door: how long after its first send a message was deleted, over forwards, redrives and moves."""
from collections import defaultdict
from collections.abc import Iterable, Iterator, Sequence
from dataclasses import dataclass, field
from typing import TYPE_CHECKING, NamedTuple, Optional

from log import COMES, LEAVES
from settings import ConsumerSettings

if TYPE_CHECKING:
    from figures import Fields, Stretch
    from settings import Scenario


class FirstSend(NamedTuple):
    """When a message was first sent, if that is known; and whether it is only if forwards kept their order."""

    at: Optional[int]
    if_in_order: bool = False


@dataclass
class Forwards:
    """Those of an actor to a queue: the ones under way, whether they were of different first sends at once since none
    was, how long they took, and whether a new message came meanwhile."""

    under_way: list[tuple[int, FirstSend]] = field(default_factory=list)
    is_mixed: bool = False
    took: set[int] = field(default_factory=set)
    in_doubt: bool = False

    def out(self, at: int, first: FirstSend) -> None:
        self.is_mixed |= any(first != other for _, other in self.under_way)
        self.under_way.append((at, first))

    def arrived(self, at: int, is_new: bool) -> FirstSend:
        """The oldest one."""
        if not self.under_way:
            return FirstSend(None)
        sent, first = self.under_way.pop(0)
        self.took.add(at - sent)
        self.in_doubt |= is_new and self.is_mixed
        was_mixed, self.is_mixed = self.is_mixed, self.is_mixed and bool(self.under_way)
        return FirstSend(first.at, True) if was_mixed and first.at is not None else first

    def leave_open(self) -> bool:
        return len(self.took) > 1 and self.in_doubt


class Doors:
    """What the rows of a log say of first sends, of deletions in a stretch and of messages that are on their way."""

    def __init__(self, rows: Iterable["Fields"], stretch: "Stretch") -> None:
        self.first: dict[str, FirstSend] = {}
        self.there: dict[str, set[str]] = defaultdict(set)
        self.coming: dict[str, int] = defaultdict(int)
        self.forwards: dict[tuple[str, str], Forwards] = defaultdict(Forwards)
        self.deleted: dict[str, list[tuple[FirstSend, "Fields"]]] = defaultdict(list)
        for row in rows:
            self.take(row)
            if row.said() == "delete deleted" and stretch.has(row):
                self.deleted[row.queue].append((self.first[row.message], row))

    def take(self, row: "Fields") -> None:
        at, said = int(row.at), row.said()
        if said == "forward out":
            self.forwards[row.agent, row.detail].out(at, self.first[row.message])
        elif said == "arrive repeat":
            self.forwards[row.agent, row.queue].arrived(at, False)
        elif said in COMES:
            self.first[row.message] = self.came(row)
            self.there[row.queue].add(row.message)
        elif said in LEAVES:
            self.there[row.queue].discard(row.message)
            if row.answer == "out":
                self.coming[row.detail] += 1

    def came(self, row: "Fields") -> FirstSend:
        if row.call == "send":
            return FirstSend(int(row.at))
        if row.detail[1:] == row.message[1:]:
            return self.forwards[row.agent, row.queue].arrived(int(row.at), True)
        self.coming[row.queue] -= 1
        return self.first[f"m{row.detail[1:]}"]

    def open_at(self, queue: str, before: set[str]) -> int:
        """How many deletions of a queue have a first send that is open; it can be reached from those before it."""
        in_doubt = any(of.leave_open() for (_, to), of in self.forwards.items() if to in before)
        return sum(first.at is None or first.if_in_order and in_doubt for first, _ in self.deleted[queue])

    def may_come(self, queue: str, before: set[str]) -> int:
        """How many messages are in other queues from which this one can be reached, or under way to one or to this."""
        return (sum(len(self.there[name]) for name in before - {queue}) + sum(self.coming[name] for name in before)
                + sum(len(of.under_way) for (_, to), of in self.forwards.items() if to in before))

    def ages(self, queue: str) -> list["Fields"]:
        """The rows that delete, with the ages since the first sends."""
        return [row._replace(detail=str(int(row.at) - first.at)) for first, row in self.deleted[queue]
                if first.at is not None]

    def is_in_doubt(self, agent: str) -> bool:
        return any(of.leave_open() for (name, _), of in self.forwards.items() if name == agent)


def ways(scenario: "Scenario") -> Iterator[tuple[str, str]]:
    """The ways from queue to queue, by their names."""
    names = [queue.name for queue in scenario.queues]
    for queue in scenario.queues:
        if queue.policy:
            yield queue.name, names[queue.policy.queue]
    for actor in scenario.actors:
        if isinstance(actor.role, ConsumerSettings) and actor.role.forward:
            yield from ((names[actor.home], names[to]) for to in actor.role.forward.queues)
    for task in scenario.tasks:
        sources = [queue.name for queue in scenario.queues if queue.policy and queue.policy.queue == task.home]
        yield from ((names[task.home], to) for to in (sources if task.to is None else [names[task.to]]))


def before(queue: str, all_ways: Sequence[tuple[str, str]]) -> set[str]:
    """The queues from which a queue can be reached, and itself."""
    found = {queue}
    while more := {start for start, to in all_ways if to in found} - found:
        found |= more
    return found
