"""One replay of a log: which kinds of rows there are, and what takes the rows of each. The tools that read rows import
it; it is not run by itself.

What a tool makes of the rows of a queue is a class, which has a method for each kind of rows that it takes. KINDS has
the names of these methods.
"""
from __future__ import annotations

import gc
import re
from collections import Counter
from collections.abc import Callable, Container, Iterator, Mapping
from contextlib import contextmanager
from typing import Generic, NamedTuple, Protocol, TypeVar

from .console import Fault, shown
from .logs import NUMBER, REFUSALS, Head, Log, Rows, Take, What

# Each kind of rows, with the methods that may take it: the first of them that a class has does.
KINDS: dict[What, tuple[str, ...]] = {
    ("send", "new"): ("sent", "enters"), ("send", "repeat"): ("sent_again",),
    ("arrive", "new"): ("arrived", "enters"), ("arrive", "repeat"): ("arrived_again",),
    ("receive", "ok"): ("received",), ("receive", "wait"): ("waits",), ("receive", "empty"): ("received_nothing",),
    ("delete", "deleted"): ("deleted", "leaves"), ("delete", "kept"): ("delete_called",),
    ("delete", "gone"): ("delete_called",), ("change", "ok"): ("called",), ("start", "ok"): ("called",),
    ("cancel", "ok"): ("called",), ("fail", "ok"): ("failed",), ("forward", "out"): ("forwarded",),
    ("release", "visible"): ("released",), ("redrive", "out"): ("redriven", "leaves"),
    ("move", "out"): ("moved", "leaves"), ("expire", "expired"): ("expired", "leaves"),
    ("scale", "ok"): ("scaled",), ("sample", "ok"): (), ("task", "Completed"): (), ("task", "Failed"): (),
    **{(call, refusal): (f"{call}_refused", "refused")
       for call in ("send", "receive", "delete", "change", "start", "cancel") for refusal in REFUSALS}}
# What brings a message into the queue of a row, and what takes it out of there.
ENTERS = {what for what, names in KINDS.items() if "enters" in names}
LEAVES = {what for what, names in KINDS.items() if "leaves" in names}
# The rows whose detail is a number.
NUMBERED = {("delete", "deleted"), ("expire", "expired"), ("change", "ok")}
MESSAGE = re.compile("(?:m-[0-9]{1,19}-[0-9]{1,19})?")
# How many copies asked, and how many ask from then on.
COPIES = re.compile("([0-9]{1,4})/([0-9]{1,4})")
# Where a message may be; the final queues call the places so.
VISIBLE, IN_FLIGHT, DELAYED, NOWHERE = range(4)
FINAL_DELAYED = "delayed"


class BadRow(Exception):
    """A row that no log has after the rows before it; the text says why."""


class UnknownKind(BadRow):
    """A row that no log has at all."""


def is_row(head: Head, message: str, detail: str) -> bool:
    """Whether a row has numbers and ids where there have to be; its time has been looked at."""
    what = head.call, head.answer
    return bool(MESSAGE.fullmatch(message) and (message or what not in ENTERS)
                and (what not in NUMBERED or NUMBER.fullmatch(detail)))


class Counted(Protocol):
    """What takes rows, which also has how many of each kind it was given."""
    kinds: Counter[What]


Taker = TypeVar("Taker", bound=Counted)


class Handlers(NamedTuple):
    """The names of the methods that take rows, by their calls and answers; whether a row of another kind is a fault;
    and the methods that look themselves whether a row `is_row`."""
    names: Mapping[What, str]
    is_strict: bool
    sure: Container[str | None]


def ignored(at: int, head: Head, message: str, receipt: str, detail: str) -> None:
    """Takes a row that says nothing to a tool."""


def handlers_of(takes: type, is_strict: bool = False) -> Handlers:
    """The methods of a class that take rows; a kind for which it has none is ignored. Where it is strict, a row of an
    unknown kind is a fault, else it is ignored too."""
    found = {what: next((name for name in names if hasattr(takes, name)), None) for what, names in KINDS.items()}
    return Handlers({what: name for what, name in found.items() if name}, is_strict, getattr(takes, "SURE", ()))


class Replay(Rows, Generic[Taker]):
    """Gives each row to what takes those of its queue. `named` makes that for a queue that is not there yet, and puts
    it there. If `follower` is given, it takes each row after that, by what it returns for the head."""

    def __init__(self, queues: dict[str, Taker], named: Callable[[str], Taker], handlers: Handlers,
                 follower: Callable[[Head], Take | None] | None = None) -> None:
        super().__init__(self.taker_of)
        self.queues, self.named, self.handlers, self.follower = queues, named, handlers, follower
        self.last_at: int | None = None
        self.is_over = False

    def taker_of(self, head: Head) -> Take:
        what = head.call, head.answer
        if self.is_over:
            return ignored
        if self.handlers.is_strict and what not in KINDS:
            raise UnknownKind(f"{head.call},{head.answer}")
        queue = self.queues.get(head.queue) or self.named(head.queue)
        own: Take = getattr(queue, self.handlers.names.get(what, ""), ignored)
        after = self.follower(head) if self.follower else None
        return both(own, after) if after else own

    def count(self) -> None:
        """Adds to the queues how many rows of each kind they were given since this was done last."""
        for taken in self.heads.values() if not self.is_over else ():
            head = taken.head
            self.queues[head.queue].kinds[head.call, head.answer] += taken.rows - taken.noted
            taken.noted = taken.rows

    def forget(self) -> None:
        self.count()
        super().forget()

    def end(self) -> None:
        """Takes in that the rows that come count no more."""
        self.last_at = self.at if self.heads else None
        self.count()
        for taken in self.heads.values():
            taken.take = ignored
        self.is_over = True

    def finish(self) -> int | None:
        """Counts the rows at the end of the log. Returns the time of the last one that counts, None if there is none.
        """
        for _, pass_moment in self.moments:
            pass_moment()
        if not self.is_over:
            self.end()
        return self.last_at


def checked(take: Take) -> Take:
    """What gives a row on, if it `is_row`."""
    def take_checked(at: int, head: Head, message: str, receipt: str, detail: str) -> None:
        if not is_row(head, message, detail):
            raise UnknownKind(message)
        take(at, head, message, receipt, detail)

    return take_checked


class Checked(Replay[Taker]):
    """The same for what relies on rows, each of which `is_row`, but for the methods that are sure of that themselves.
    """

    def taker_of(self, head: Head) -> Take:
        take = super().taker_of(head)
        is_sure = self.handlers.names.get((head.call, head.answer)) in self.handlers.sure
        return take if is_sure else checked(take)


def both(first: Take, second: Take) -> Take:
    """What gives each row to two that take it."""
    def take(at: int, head: Head, message: str, receipt: str, detail: str) -> None:
        first(at, head, message, receipt, detail)
        second(at, head, message, receipt, detail)

    return take


def replay(log: Log, rows: Replay[Taker]) -> int | None:
    """Gives each row of a log to what takes those of its queue. Returns the time of the last row that counts, or None
    where there is none."""
    # no row makes a ring of objects, and the search for rings takes time
    was_enabled = gc.isenabled()
    gc.disable()
    try:
        with faults_told(log):
            log.give(rows)
    finally:
        if was_enabled:
            gc.enable()
    return rows.finish()


@contextmanager
def faults_told(log: Log) -> Iterator[None]:
    """Tells in which line of a log a row is that cannot be."""
    try:
        yield
    except UnknownKind:
        raise log.no_row() from None
    except BadRow as reason:
        raise Fault(f"{log.path} line {log.line}: {reason}") from None


def copies_in(detail: str) -> tuple[int, int]:
    """The two numbers of a row of a scaler: how many copies asked, and how many ask from then on."""
    found = COPIES.fullmatch(detail)
    if found is None:
        raise BadRow(f"{shown(detail)} is no change of copies")
    return int(found[1]), int(found[2])


def is_forward(message: str, detail: str) -> bool:
    """Whether an arrival is of a forward, which makes a new message: its origin has the numbers of its own id."""
    return detail[1:] == message[1:]


class Places:
    """Where the messages of a queue are. A log tells a delay only by its end, so that a message that enters is visible
    until that is known."""

    def put(self, at: int, message: str, place: int) -> object:
        """Puts a message in a place from a time on."""
        raise NotImplementedError

    def was_delayed(self, message: str) -> None:
        """Takes in, if a message is there that has not moved since it entered, that it has been delayed since."""
        raise NotImplementedError

    def received(self, at: int, head: Head, message: str, receipt: str, detail: str) -> None:
        self.put(at, message, IN_FLIGHT)

    def released(self, at: int, head: Head, message: str, receipt: str, detail: str) -> None:
        """The end of a delay where the message was not received since it entered, else of a visibility timeout."""
        self.was_delayed(message)
        self.put(at, message, VISIBLE)


def take_finals(log: Log, queues: Mapping[str, Places]) -> None:
    """Takes in from the final queues after a log which messages are still delayed."""
    for final in (log.finals or {}).values():
        if final.place == FINAL_DELAYED and final.queue in queues:
            queues[final.queue].was_delayed(final.message)
