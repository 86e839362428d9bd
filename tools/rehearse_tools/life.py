"""Says in words what happened to one message in the log of a run, or which messages fared worst:

    tools/life LOG [--rest REST.out] ID
    tools/life LOG [--rest REST.out] --worst [--most N]

ID is an origin, such as o-0-17, which a message keeps over redrives and moves, or the id that it had in one of its
queues, such as m-0-17. LOG is a file made by `run --log`, and REST.out what that run prints; or LOG is what `run`
prints without --log; - is standard input. A log without a report is that of a run that was ended: it is refused if it
comes by standard input, and of a file standard error says that the end was not seen. Each line has the time in
milliseconds and by the clock of the run, the queue, and what happened; the last line says where the message is in the
end. A message that a consumer forwards becomes another one, which follows after it. A log does not say which arrival
belongs to which forward. The forwards of one consumer are assigned in their order, which is right if the latency is
always the same.

--worst lists the ten messages that fared worst, or N: first those that expired, then those that were there longest,
from the first acceptance to the deletion or the end of the log, over redrives and moves.

Examples:

    ./sqs_rehearse run examples/dead_letters.toml | tools/life - o-0-4
    ./sqs_rehearse run examples/dead_letters.toml | tools/life - --worst --most 5
"""
from __future__ import annotations

import heapq
import re
from collections import Counter
from collections.abc import Callable, Container, Mapping, Sequence
from typing import Optional

from .console import Fault, Parser, refuse
from .logs import Final, Head, Log, Row, Rows, Take, What, message_of_receipt, tell_open
from .origins import Forwards, Origins, origin_of
from .replay import ENTERS, LEAVES, Checked, checked, faults_told, handlers_of, ignored, is_forward, replay
from .units import clock, decimal, duration as rounded, several

ID = re.compile(r"[mo]-(0|[1-9][0-9]*)-(0|[1-9][0-9]*)")
MOST = 10_000
RETURNS = {("release", "visible"), ("redrive", "out")}
FORWARD = "forward", "out"
WORDS = {
    ("send", "repeat"): "sent again by {agent}: a repeat, which made no message",
    ("arrive", "repeat"): "a forward of {agent} came as a repeat of it, which made no message",
    ("release", "visible"): "visible",
    ("redrive", "out"): "received often enough: on its way to the dead-letter queue {detail}",
    ("move", "out"): "taken by the move task {agent}: on its way to {detail}",
    ("fail", "ok"): "the service of {agent} failed; it did not delete the message",
}


def duration(milliseconds: int) -> str:
    if milliseconds < 1_000:
        return f"{milliseconds} ms"
    if milliseconds < 60_000:
        return f"{decimal(milliseconds / 1_000)} s"
    return clock(milliseconds)


class Found(Exception):
    """That an origin has been found, which is the text."""


def origin_named(log: Log, name: str) -> str:
    """The origin that a text names. An id of one queue is looked up in the row with which it came in."""
    refuse(not ID.fullmatch(name), f"{name} is no id of a message, as o-0-17 or m-0-17")
    if name.startswith("o"):
        return name
    def take(at: int, head: Head, message: str, receipt: str, detail: str) -> None:
        if message == name:
            raise Found(origin_of(head, message, detail))

    try:
        read(log, lambda head: take if (head.call, head.answer) in ENTERS else ignored)
    except Found as found:
        return str(found)
    raise Fault(f"{log.path} has no message {name}")


def read(log: Log, take_of: Callable[[Head], Take]) -> None:
    """Gives all rows of a log to what takes those with their head."""
    with faults_told(log):
        log.give(Rows(lambda head: checked(take_of(head))))


class Life:
    """The rows on one origin, under any of its ids; and by the index of a row what is known of a forward."""

    def __init__(self, origin: str) -> None:
        self.origin = origin
        self.rows: list[Row] = []
        self.comes_from: Row | None = None
        self.becomes: dict[int, Row] = {}


# Of a forward its row, and if it is of a life that is printed, that life and the row's place in it.
Forward = tuple[Row, Optional[tuple[Life, int]]]


class Lives:
    """The life of an origin and of those that it was forwarded as, in their order; `ids` has them by the ids that they
    had."""

    def __init__(self, log: Log, origin: str) -> None:
        self.forwards = Forwards[Forward]()
        self.all: dict[str, Life] = {}
        self.ids: dict[str | None, Life] = {}
        self.add(origin)
        read(log, self.take_of)
        refuse(not self.all[origin].rows, f"{log.path} has no message with the origin {origin}")

    def add(self, origin: str) -> None:
        if origin not in self.all:
            self.all[origin] = self.ids[f"m{origin[1:]}"] = Life(origin)

    def take_of(self, head: Head) -> Take:
        """What takes the rows with a head."""
        if head.call == "arrive":
            return self.take_arrival
        return self.take_forward if (head.call, head.answer) == FORWARD else self.take

    def take(self, at: int, head: Head, message: str, receipt: str, detail: str) -> Life | None:
        """Takes in a row; returns the life that it belongs to."""
        life = self.ids.get(message or message_of_receipt(receipt))
        if life is None or not (life.rows or (head.call, head.answer) in ENTERS):
            return None
        life.rows.append(Row(at, *head, message, receipt, detail))
        return life

    def take_forward(self, at: int, head: Head, message: str, receipt: str, detail: str) -> None:
        life = self.take(at, head, message, receipt, detail)
        told_of = (life, len(life.rows) - 1) if life else None
        self.forwards.sent(at, head, detail, (Row(at, *head, message, receipt, detail), told_of))

    def take_arrival(self, at: int, head: Head, message: str, receipt: str, detail: str) -> None:
        arrival = self.forwards.arrived(at, head)
        sent, told_of = arrival.known if arrival else (None, None)
        if told_of and head.answer == "new":
            of, place = told_of
            of.becomes[place] = Row(at, *head, message, receipt, detail)
            self.add(detail)
        if detail in self.all:
            self.ids[message] = self.all[detail]
        life = self.take(at, head, message, receipt, detail)
        if life and sent and len(life.rows) == 1:
            life.comes_from = sent


def next_of(rows: Sequence[Row], start: int, wanted: Container[tuple[str, str]]) -> Row | None:
    """The first row after row `start` that is of the same id and is one of what is wanted, or None."""
    message = rows[start].message
    return next((row for row in rows[start + 1:] if row.message == message and (row.call, row.answer) in wanted), None)


def told_entry(life: Life, place: int) -> str:
    """How a message came into a queue, and until when it was delayed there."""
    rows, row = life.rows, life.rows[place]
    after = next_of(rows, place, RETURNS | LEAVES | {("receive", "ok")})
    delayed = f", delayed until {after.at} ms" if after and after.call == "release" else ""
    if row.call == "send":
        return f"sent by {row.agent} as {row.message}{delayed}"
    if is_forward(row.message, row.detail):
        of = f", of {life.comes_from.message} in {life.comes_from.queue}" if life.comes_from else ""
        return f"came as a forward of {row.agent}{of}, as {row.message}{delayed}"
    return f"arrived from {row.agent} as {row.message}"


def told_receive(rows: Sequence[Row], place: int) -> str:
    row = rows[place]
    end = next_of(rows, place, RETURNS | LEAVES)
    if end is None:
        flight = "in flight from then on"
    elif end.at == row.at and end.call in ("release", "redrive"):
        flight = "back at once"
    else:
        flight = f"in flight for {duration(end.at - row.at)}, until {end.at} ms"
    return f"received by {row.agent} with {row.receipt}; {flight}"


def told_change(row: Row) -> str:
    if row.answer != "ok":
        return f"{row.agent} could not change its visibility timeout with {row.receipt}: {row.answer}"
    seconds = int(row.detail)
    until = f"in flight at most until {row.at + 1_000 * seconds} ms" if seconds else "back at once"
    return f"{row.agent} changed its visibility timeout to {seconds} s: {until}"


def told_delete(row: Row) -> str:
    if row.answer == "deleted":
        return f"deleted by {row.agent} with {row.receipt}, {duration(int(row.detail))} old"
    reasons = {"kept": "kept, as the receipt is an older one", "gone": "nothing was deleted, as it was gone already"}
    return f"{row.agent} asked for its deletion with {row.receipt}: {reasons.get(row.answer, 'refused, ' + row.answer)}"


def told_forward(life: Life, place: int) -> str:
    row, arrival = life.rows[place], life.becomes.get(place)
    if arrival is None:
        return f"{row.agent} forwarded it to {row.detail}, where it will be another message"
    return f"{row.agent} forwarded it to {row.detail}, where it is {arrival.detail} from {arrival.at} ms on"


def told(life: Life, place: int) -> str:
    """What the row with an index among the rows of a message says, in words."""
    row = life.rows[place]
    what = row.call, row.answer
    if what in ENTERS:
        return told_entry(life, place)
    if what == ("receive", "ok"):
        return told_receive(life.rows, place)
    if what == FORWARD:
        return told_forward(life, place)
    if row.call == "delete":
        return told_delete(row)
    if row.call == "change":
        return told_change(row)
    if what == ("expire", "expired"):
        return f"expired, {duration(int(row.detail))} old"
    refuse(what not in WORDS, f"a row at {row.at} ms has a call that no log has: {row.call},{row.answer}")
    return WORDS[what].format(agent=row.agent, detail=row.detail)


def told_end(rows: Sequence[Row], finals: Mapping[str, Final] | None, last: int) -> str:
    """The state of a message after the last row of the log, in words."""
    places = RETURNS | LEAVES | ENTERS | {("receive", "ok")}
    row = [row for row in rows if (row.call, row.answer) in places][-1]
    if row.answer in ("deleted", "expired"):
        return f"{row.answer} from {row.queue} at {row.at} ms"
    if row.answer == "out":
        return f"on its way from {row.queue} to {row.detail} since {row.at} ms"
    final = (finals or {}).get(row.message)
    if final:
        place = {"inflight": "in flight"}.get(final.place, final.place)
        due = f" until {final.due} ms" if final.due else ""
        return f"{place} in {row.queue}{due}; times received there: {final.receives}"
    place = {"receive": f"in flight with {row.agent}", "release": "visible"}.get(
        row.call, "visible or delayed, which the log alone does not tell,")
    return f"{place} in {row.queue} since {row.at} ms; the log ends at {last} ms"


def tell_life(life: Life, finals: Mapping[str, Final] | None, last: int) -> None:
    """Prints the lines of one origin."""
    width = len(str(life.rows[-1].at))
    queue_width = max(len(row.queue) for row in life.rows)
    print(f"The message {life.origin}")
    for place, row in enumerate(life.rows):
        print(f"{row.at:>{width}} ms  {clock(row.at)}  {row.queue:{queue_width}}  {told(life, place)}")
    print(f"In the end: {told_end(life.rows, finals, last)}")


def tell_lives(log: Log, name: str) -> None:
    log.keep()
    origin = origin_named(log, name)
    lives = Lives(log, origin)
    tell_open(log)
    for number, life in enumerate(lives.all.values()):
        if number:
            print()
        tell_life(life, log.finals, log.at)


class Stay:
    """How long a message was there, how often it was received, and where it ended; a worse stay is greater."""

    def __init__(self, origin: str, at: int) -> None:
        self.origin, self.since, self.receives = origin, at, 0
        self.until, self.end, self.is_lost = at, "", False

    def ends(self, at: int, end: str, is_lost: bool = False) -> "Stay":
        self.until, self.end, self.is_lost = at, end, is_lost
        return self

    @property
    def rank(self) -> tuple[bool, int, int, int, int]:
        """Expired before all others, then by how long; the one that came first before one that came later."""
        site, number = map(int, self.origin.split("-")[1:])
        return self.is_lost, self.until - self.since, -self.since, -site, -number

    def __lt__(self, other: "Stay") -> bool:
        return self.rank < other.rank


class Stays:
    """The stays of all messages; of those that have ended only the worst are kept."""

    def __init__(self, log: Log, most: int) -> None:
        self.origins, self.worst, self.most = Origins[Stay](), list[Stay](), most
        self.kinds, queues = Counter[What](), dict[str, Stays]()
        last = replay(log, Checked(queues, lambda name: queues.setdefault(name, self), HANDLERS)) or 0
        for stay, _, queue in self.origins.there.values():
            self.keep(stay.ends(last, f"left in {queue}"))
        for stay, leave in self.origins.under_way.values():
            self.keep(stay.ends(last, f"on its way from {leave.queue} to {leave.to}"))

    def enters(self, at: int, head: Head, message: str, receipt: str, detail: str) -> None:
        stay = self.origins.arrived(head, message, detail) or Stay(origin_of(head, message, detail), at)
        self.origins.enters(head, message, detail, stay)

    def received(self, at: int, head: Head, message: str, receipt: str, detail: str) -> None:
        self.origins.of(head, message).receives += 1

    def leaves(self, at: int, head: Head, message: str, receipt: str, detail: str) -> None:
        stay = self.origins.leaves(head, message, detail)
        if head.answer != "out":
            self.keep(stay.ends(at, f"{head.answer} from {head.queue}", head.call == "expire"))

    def keep(self, stay: Stay) -> None:
        if len(self.worst) < self.most:
            heapq.heappush(self.worst, stay)
        else:
            heapq.heappushpop(self.worst, stay)


HANDLERS = handlers_of(Stays)


def tell_worst(log: Log, most: int) -> None:
    """Prints the messages that fared worst, the worst first."""
    worst = sorted(Stays(log, most).worst, reverse=True)
    tell_open(log)
    cells = [(stay.origin, f"for {rounded(stay.until - stay.since)}", f"from {stay.since} ms to {stay.until} ms",
              f"received {several(stay.receives, 'time')}", stay.end) for stay in worst]
    widths = [max(map(len, column)) for column in zip(*cells)]
    for stay, line in zip(worst, cells):
        mark = "!! " if stay.is_lost else "   "
        print(mark + "  ".join(cell.ljust(width) for cell, width in zip(line, widths)).rstrip())


def main(words: Sequence[str]) -> int:
    parser = Parser(__doc__).take("--rest", flags=["--worst"], numbers={"--most": 10})
    parser.add_argument("log", metavar="LOG")
    parser.add_argument("id", metavar="ID", nargs="?")
    options = parser.parse_intermixed_args(words)
    refuse(options.worst == (options.id is not None),
           "an ID or --worst is needed, and not both (--help tells the usage)")
    refuse(not 1 <= options.most <= MOST, f"--most is 1 to {MOST:,}")
    log = Log(options.log, rest=options.rest)
    if options.worst:
        tell_worst(log, options.most)
    else:
        tell_lives(log, options.id)
    return 0
