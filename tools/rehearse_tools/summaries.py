"""What happened in each queue of a run, in plain units. tools/summary and tools/report import it."""
from __future__ import annotations

import math
import re
from collections import Counter
from collections.abc import Callable, Collection, Iterable, Mapping, Sequence
from typing import Any, NamedTuple, Optional

from .console import Fault, refuse, shown
from .doors import Doors, Left
from .fact_tables import rows_of
from .figures import Numbers, figures_in, summed
from .logs import FIGURE_HEADER, FIGURES_OF, NAME, PLACES, REFUSALS, Head, Log, Take, What, check_number
from .replay import BadRow, Replay, UnknownKind, copies_in, handlers_of, replay
from .units import duration, several
from .whole_logs import Names, WholeLog, figures_of_log

CAME_IN = ("sent", "came_by_forward", "came_by_redrive", "came_by_move")
WENT_OUT = ("deleted", "dead_lettered", "moved_away", "lost_by_expiry")
# What is sent from queue to queue, and what of it arrives.
LEFT_FOR_OTHERS, ARRIVED = ("forwarded", "dead_lettered", "moved_away"), (*CAME_IN[1:], "forwarded_again")
# What is counted, in its order. Where no other number has its name here, it is the figure of this name.
COUNTED = (*CAME_IN, "repeated_sends", "deleted", "handled_once", "handled_more_than_once", "receives",
           "received_messages", "failed_services", "forwarded", "moved_away", "dead_lettered", "lost_by_expiry",
           "SendMessage", "ReceiveMessage", "DeleteMessage", "ChangeMessageVisibility", "StartMessageMoveTask",
           "CancelMessageMoveTask", "empty_receives", "refused_requests", "copies_changed")
ID = re.compile("m-[0-9]{1,19}-[0-9]{1,19}")
# What of a report is the same where only some rows are counted.
STATE = ("in_flight", "transfers", "left")
# The parts behind a log that are looked at.
WANTED = ("transfer", "task", FIGURE_HEADER[0])
# More messages than these that are not in flight are a backlog, unless --backlog says otherwise.
BACKLOG = 10
# The rows whose detail is the name of a queue, or of a task.
TO_QUEUES, OF_TASKS = ("forward", "redrive", "move"), ("start", "cancel")

# Numbers by what they are, None where there is none.
Values = dict[str, Any]
# The values of a queue in each run, None where a run lacks it.
Sides = Sequence[Optional[Values]]


class Message:
    """A message in its queue."""

    __slots__ = "receives", "in_flight"

    def __init__(self) -> None:
        self.receives, self.in_flight = 0, False


class Queue:
    """What the rows of one queue say so far that its figures do not, and whether they can follow one another.

    `kinds` counts its rows. `alive` has the messages in the queue by id. `copies` has for each scaler how many copies
    ask since its last change. `figures` has its figures by their names.
    """

    __slots__ = ("name", "run", "number", "alive", "on_their_way", "filled_at", "report", "figures", "is_cut", "kinds",
                 "dead_lettered_to", "moved_to", "copies", "copies_greatest")

    def __init__(self, name: str, run: "Run") -> None:
        self.name, self.run = name, run
        self.number: float = math.inf
        self.alive: dict[str, Message] = {}
        self.on_their_way = 0
        self.filled_at: int | None = None
        self.report: Values = {}
        self.figures = Numbers()
        self.is_cut = False
        self.copies: dict[str, int] = {}
        self.clear()

    def clear(self) -> None:
        """Sets what is counted to nothing."""
        self.kinds: Counter[What] = Counter()
        self.dead_lettered_to: set[str] = set()
        self.moved_to: set[str] = set()
        self.copies_greatest = max(self.copies.values(), default=None)

    def begin(self) -> None:
        """Forgets what was counted before now; the messages that are there are kept."""
        self.clear()
        self.is_cut = True

    def sent(self, at: int, head: Head, message: str, receipt: str, detail: str) -> None:
        alive = self.alive
        if message in alive or not ID.fullmatch(message):
            raise BadRow(f"{shown(message)} cannot come in")
        if not alive:
            self.filled_at, self.number = at, int(message.split("-")[1])
        alive[message] = Message()

    def arrived(self, at: int, head: Head, message: str, receipt: str, detail: str) -> None:
        self.arrived_again(at, head, message, receipt, detail)
        self.sent(at, head, message, receipt, detail)

    def arrived_again(self, at: int, head: Head, message: str, receipt: str, detail: str) -> None:
        if not self.on_their_way:
            raise BadRow(f"nothing was on its way to {self.name}: is this the whole log?")
        self.on_their_way -= 1

    def is_not_here(self, message: str) -> BadRow:
        return BadRow(f"{shown(message)} is not in {self.name}: is this the whole log?")

    def leave(self, name: str) -> None:
        if self.alive.pop(name, None) is None:
            raise self.is_not_here(name)

    def received(self, at: int, head: Head, name: str, receipt: str, detail: str) -> None:
        message = self.alive.get(name)
        if message is None or message.in_flight:
            raise BadRow(f"{shown(name)} is not to be received in {self.name}: is this the whole log?")
        message.receives += 1
        if receipt != f"r{name[1:]}-{message.receives}":
            raise BadRow(f"{shown(receipt)} is not the next receipt of {name}: is this the whole log?")
        message.in_flight = True

    def released(self, at: int, head: Head, name: str, receipt: str, detail: str) -> None:
        message = self.alive.get(name)
        if message is None:
            raise self.is_not_here(name)
        message.in_flight = False

    def deleted(self, at: int, head: Head, name: str, receipt: str, age: str) -> None:
        if not age.isdecimal():
            raise BadRow(f"{shown(age)} is no age")
        self.leave(name)

    def forwarded(self, at: int, head: Head, name: str, receipt: str, to: str) -> None:
        (self.run.queues.get(to) or self.run.queue_named(to)).on_their_way += 1

    def redriven(self, at: int, head: Head, name: str, receipt: str, to: str) -> None:
        self.dead_lettered_to.add(to)
        self.forwarded(at, head, name, receipt, to)
        self.leave(name)

    def moved(self, at: int, head: Head, name: str, receipt: str, to: str) -> None:
        self.moved_to.add(to)
        self.forwarded(at, head, name, receipt, to)
        self.leave(name)

    def leaves(self, at: int, head: Head, name: str, receipt: str, detail: str) -> None:
        self.leave(name)

    def scaled(self, at: int, head: Head, name: str, receipt: str, detail: str) -> None:
        before, after = copies_in(detail)
        self.copies[head.agent] = after
        self.copies_greatest = max(before, after, self.copies_greatest or 0)

    def check_report(self, on_their_way: int, path: str) -> None:
        """Checks that the report agrees with the rows; if not, the files are of two runs, or one of them is damaged."""
        given = {**self.report, "transfers": on_their_way, "left": sum(self.report[place] for place in PLACES.values()),
                 "refusals": sum(self.report[name] for name in REFUSALS)}
        counted = {**{column: summed(self.figures[name] for name in names) for column, names in FIGURES_OF.items()},
                   "transfers": self.on_their_way, "left": self.figures["left"],
                   "refusals": self.figures["refused_requests"]}
        for column in STATE if self.is_cut else counted:
            check_number(path, f"{column} of {self.name}", counted[column], given[column])

    def values(self) -> Values:
        """The values of the queue, by the keys of JSON; None if there are none."""
        figures, report = self.figures, self.report
        counts = {**figures, "repeated_sends": figures["sent_again"] + figures["forwarded_again"],
                  "handled_more_than_once": figures["handled_again"]}
        came_in, left = sum(figures[key] for key in CAME_IN), figures["left"]
        handled, received = figures["handled_once"] + figures["handled_again"], figures["received_messages"]
        is_moved = figures["moved_age_p50_ms"] is not None
        return {
            "queue": self.name, "came_in": came_in, **{key: counts[key] for key in COUNTED},
            **({"there_before": left + sum(figures[key] for key in WENT_OUT) - came_in} if self.is_cut else {}),
            "handled_yet_not_deleted": handled - figures["deleted"],
            "times_handled_greatest": figures["handled_greatest"] or None,
            "tries_mean": round(figures["receives"] / received, 3) if received else None,
            "tries_greatest": figures["received_greatest"] or None,
            "left": left, "left_visible": report.get("visible"), "left_in_flight": figures["left_in_flight"],
            "left_delayed": report.get("delayed"), "left_visible_or_delayed": left - figures["left_in_flight"],
            "on_their_way_here": self.on_their_way,
            **{key: figures[key] for key in ("age_p50_ms", "age_p95_ms", "age_p99_ms", "age_greatest_ms")},
            # only beside those of moved messages
            **{key: figures[key] if is_moved else None for key in ("new_age_p50_ms", "new_age_p95_ms")},
            **{key: figures[key] for key in ("moved_age_p50_ms", "moved_age_p95_ms", "depth_greatest")},
            "depth_greatest_at_ms": figures["depth_greatest_at_ms"] if figures["depth_greatest"] else None,
            **{key: figures[key] for key in ("backlog_gone_at_ms", "backlog_since_ms")},
            "backlog_over": self.run.reading.backlog, "requests": figures["requests"],
            "copies_greatest": self.copies_greatest, "dead_lettered_to": sorted(self.dead_lettered_to),
            "moved_to": sorted(self.moved_to)}


HANDLERS = handlers_of(Queue, is_strict=True)


class Reading(NamedTuple):
    """What of a log is read: rows from a moment to another, whether the ages since the first send as well, and how many
    messages that are not in flight are no backlog yet. `has_figures` says that the figures of all that stand behind the
    report."""
    first: int | None = None
    last: int | None = None
    with_doors: bool = False
    backlog: int = BACKLOG
    has_figures: bool = False

    def words(self) -> list[str]:
        """The program's options for these figures."""
        numbers = {"--from": self.first, "--to": self.last, "--backlog": self.backlog}
        return [word for option, number in numbers.items() if number is not None for word in (option, str(number))]


class Rows(Replay[Queue]):
    """The rows of a run, which also notes whose names stand in them, before and after the end of what is counted."""

    def __init__(self, run: "Run") -> None:
        doors = run.doors
        super().__init__(run.queues, run.queue_named, HANDLERS, doors.take_of if doors else None)
        self.names = Names(set(), set(), {})

    def taker_of(self, head: Head) -> Take:
        take = super().taker_of(head)
        if not NAME.fullmatch(head.agent):
            raise UnknownKind(head.agent)
        self.names.queues.add(head.queue)
        self.names.agents.add(head.agent)
        if head.call not in (*TO_QUEUES, *OF_TASKS):
            return take
        named = self.names.queues if head.call in TO_QUEUES else self.names.agents

        def take_named(at: int, head: Head, message: str, receipt: str, detail: str) -> None:
            named.add(detail)
            take(at, head, message, receipt, detail)

        return take_named


class Run:
    """The queues of a run by name, in the order of its scenario. Rows are counted from a moment to another, both
    included; None if nothing is cut at that end."""

    def __init__(self, log: Log, reading: Reading) -> None:
        self.log, self.reading = log, reading
        self.queues: dict[str, Queue] = {}
        self.first, self.last = reading.first, reading.last
        self.doors = Doors(reading.first or 0) if reading.with_doors else None
        self.left_of_doors: Left | None = None
        self.row_count, self.has_report = 0, False
        self.last_at: int | None = None
        self.whole: WholeLog | None = None
        self.names = Names(set(), set(), {})

    def queue_named(self, name: str) -> Queue:
        if name not in self.queues:
            if not NAME.fullmatch(name):
                raise BadRow(f"{shown(name)} is no name of a queue")
            self.queues[name] = Queue(name, self)
        return self.queues[name]

    def take_rows(self) -> None:
        """Reads the rows, and counts what figures do not of those that are to be counted."""
        rows = Rows(self)

        def begin() -> None:
            rows.count()
            for queue in self.queues.values():
                queue.begin()

        rows.moments = [(moment, pass_moment) for moment, pass_moment in (
            (self.first, begin), (None if self.last is None else self.last + 1, rows.end)) if moment is not None]
        self.last_at, self.names = replay(self.log, rows), rows.names
        if self.first is not None and self.log.counts and self.first > self.log.at:
            raise Fault(f"--from {self.first} ms is after the last row of {self.log.name}, at {self.log.at} ms")
        self.row_count = sum(sum(queue.kinds.values()) for queue in self.queues.values())
        self.queues = {queue.name: queue for queue in sorted(self.queues.values(), key=lambda queue: queue.number)}
        self.left_of_doors = self.doors.left() if self.doors else None

    def find_rest(self) -> None:
        """Reads what follows the rows, if it does, and not these."""
        self.whole = WholeLog(self.log)
        lines = self.whole.rest()
        if lines:
            self.log.read_parts(iter(lines))

    def take_whole(self) -> None:
        """Takes in what figures do not say of a log that is whole, and then these. The names in some of its rows are all
        of them, unless the program says otherwise."""
        log, whole = self.log, self.whole
        refuse(whole is None or not log.report, "its report is missing")
        assert whole is not None
        log.check_left()
        for place, name in enumerate(log.report):
            self.queue_named(name).number = place
        transfers = (log.parts or {}).get("transfer", ())
        for record in transfers:
            self.queue_named(record[2]).on_their_way += 1
        self.row_count, self.last_at = whole.row_count(), whole.last_at()
        try:
            self.take_named(whole.names(False))
        except Fault:
            self.take_named(whole.names(True))
        left, arrived = (sum(queue.figures[figure] for queue in self.queues.values() for figure in figures)
                         for figures in (LEFT_FOR_OTHERS, ARRIVED))
        refuse(left - arrived != len(transfers), "more or less is on its way")
        self.take_details(whole)

    def take_named(self, names: set[tuple[str, str, str]]) -> None:
        """Takes in the figures, by the queues, agents and numbers of queues in rows."""
        tasks = {record[1] for record in (self.log.parts or {}).get("task", ())}
        self.names = Names(set(self.queues), {agent for _, agent, _ in names} | tasks, {})
        refuse(any(number and self.queue_named(queue).number != int(number) for queue, _, number in names),
               "its report has another order")
        self.take_figures(self.log)

    def take_details(self, whole: WholeLog) -> None:
        """Takes in from rows where messages went, and how many copies of consumers asked."""
        redriving, moving, scaling = ({name for name, queue in self.queues.items() if queue.figures[figure]}
                                      for figure in ("dead_lettered", "moved_away", "copies_changed"))
        for _, name, *_, to in whole.rows_of("redrive", "out") if redriving else ():
            self.queues[name].dead_lettered_to.add(to)
            # a queue has one dead-letter queue
            redriving.discard(name)
            if not redriving:
                break
        for _, name, *_, to in whole.rows_of("move", "out") if moving else ():
            self.queues[name].moved_to.add(to)
        for at, name, *words in whole.rows_of("scale", "ok") if scaling else ():
            self.queues[name].scaled(int(at), Head(name, *words[:3]), *words[3:])

    def not_empty_since(self) -> dict[str, int | None]:
        """Since when each queue is not empty of which messages are left."""
        left = {name: queue.figures["left"] for name, queue in self.queues.items()}
        return {**{name: queue.filled_at for name, queue in self.queues.items() if left[name]},
                **(self.whole.not_empty_since(left) if self.whole and self.has_report else {})}

    def take_figures(self, rest: Log) -> None:
        """Takes in the figures, and what followed the log, which may be in a file of its own. Where the end is cut,
        the report is not used."""
        report = rest.report if self.last is None else {}
        self.names.queues.update(self.queues, rest.report)
        self.names.numbers.update({name: int(queue.number) for name, queue in self.queues.items()
                                   if queue.number < math.inf})
        behind = (rest.parts or {}).get(FIGURE_HEADER[0], ()) if self.reading.has_figures else ()
        figures = figures_in(behind) or figures_of_log(self.log, self.names, self.reading.words())
        for name in {*self.queues, *report}:
            self.queues.setdefault(name, Queue(name, self)).figures = figures.get(name, Numbers())
        if rest.parts is not None and self.last is None:
            self.take_report(rest)

    def take_report(self, rest: Log) -> None:
        """Takes in the report, which has all queues in their order."""
        on_their_way = Counter(record[2] for record in (rest.parts or {}).get("transfer", ()))
        lacking = [name for name in (*self.queues, *on_their_way) if name not in rest.report]
        for name, numbers in rest.report.items():
            self.queues[name].report = numbers
            self.queues[name].check_report(on_their_way[name], rest.name)
        if lacking:
            raise rest.lacking(lacking[0])
        self.queues, self.has_report = {name: self.queues[name] for name in rest.report}, True


def read_runs(paths: Iterable[str], reading: Reading = Reading()) -> list[Run]:
    """The runs in the files, in their order."""
    logs = [Log(path, WANTED, may_lack_rows=True) for path in paths]
    for log in logs:
        log.keep()
    try:
        return runs_unread(logs, reading)
    except (Fault, ValueError):
        # the rows say what is wrong
        return runs_read(logs, reading)


def runs_unread(logs: Sequence[Log], reading: Reading) -> list[Run]:
    """The runs of logs that are whole, of which no row is read; a fault where that is not enough."""
    runs: list[Run] = []
    for log in map(Log.again, logs):
        if log.has_rest_alone():
            refuse(not runs or not runs[-1].log.is_open, "it has no log")
            last = runs[-1].log
            last.parts, last.report, last.left = log.parts, log.report, log.left
        else:
            runs.append(Run(log, reading))
            runs[-1].find_rest()
    is_cut = reading.first is not None or reading.last is not None or any(run.log.is_open for run in runs)
    refuse(is_cut or reading.with_doors or len(runs) > 2, "rows have to be read")
    for run in runs:
        run.take_whole()
    return runs


def runs_read(logs: Sequence[Log], reading: Reading) -> list[Run]:
    """The runs of logs whose rows are read."""
    runs: list[Run] = []
    rests: list[Log] = []
    for log in logs:
        run = Run(log, reading)
        run.take_rows()
        if log.has_rows:
            runs.append(run)
            rests.append(log)
        elif not runs or not runs[-1].log.is_open:
            raise Fault(f"{log.path} has no log, and no log without its report stands before it")
        else:
            runs[-1].log.complete(log)
            rests[-1] = log
        refuse(len(runs) > 2, f"{log.path} is the log of a third run: two can be told side by side")
    for run, rest in zip(runs, rests):
        run.log.check_open()
        run.take_figures(rest)
    return runs


def values_of(runs: Sequence[Run], names: Iterable[str] | None, is_full: bool = False) -> dict[str, Sides]:
    """For each queue of the runs, or each that is named, its values in each run; None if a run lacks it. In full they
    have also what is not shown, and takes longer."""
    there = dict.fromkeys(name for run in runs for name in run.queues)
    for name in names or ():
        refuse(name not in there, f"there is no queue {name}")
    since = [run.not_empty_since() if is_full else {} for run in runs]
    return {name: [{**run.queues[name].values(), **({"not_empty_since_ms": times.get(name)} if is_full else {}),
                    **doors_in(run, name)} if name in run.queues else None for run, times in zip(runs, since)]
            for name in dict.fromkeys(names or there)}


def doors_in(run: Run, name: str) -> dict[str, Any]:
    """The ages since the first send in a queue, if they are asked for."""
    if not run.doors:
        return {}
    number, agents = run.doors.open_of(name)
    return {**{f"{column}_ms": age for column, age in run.doors.columns(name).items()},
            "door_age_open": number, "door_age_open_by": agents,
            "door_may_come": len(run.left_of_doors.may_come(name)) if run.left_of_doors else 0}


def lost_in(run: Run) -> dict[str, int]:
    """How many messages were lost by expiry, by the names of the queues that lost any."""
    return {name: lost for name, queue in run.queues.items() if (lost := queue.figures["lost_by_expiry"])}


def lost_told(lost: Mapping[str, int]) -> str:
    return f"{sum(lost.values()):,} in {named(lost)}" if lost else ""


class Line(NamedTuple):
    """A line of a queue: the key of its value, its label, the function that writes it, and whether it is shown even if
    it is zero."""
    key: str
    label: str
    written: Callable[[Any], str]
    always: bool


WRITERS: dict[str, Callable[[Any], str]] = {"grouped": "{:,}".format, "hundredths": "{:,.2f}".format,
                                            "duration": duration}
LINES = tuple(Line(row["key"], row["label"], WRITERS[row["written"]], bool(row["always"])) for row in rows_of("lines"))
SHARES = tuple(row["key"] for row in rows_of("lines") if row["share"])
# The columns of the table of all queues: the keys of their values, with their titles.
OVERVIEW = {"came_in": "came in", "deleted": "deleted", "dead_lettered": "dead-lettered", "lost_by_expiry": "lost",
            "left": "left", "age_p50_ms": "age 50 %", "age_p95_ms": "age 95 %", "depth_greatest": "depth"}



def named(queues: Collection[str]) -> str:
    return " and ".join(queues) if len(queues) < 3 else f"{len(queues):,} queues"


def note_of(key: str, values: Values) -> str:
    """The note after a number if one run is shown."""
    note, of = "", values["came_in"] + values.get("there_before", 0)
    if key in SHARES and of:
        note = f"of {of:,}"
    if key == "handled_more_than_once" and values[key]:
        note += f", at most {values['times_handled_greatest']:,} times"
    elif key == "dead_lettered" and values[key]:
        note += f", to {named(values['dead_lettered_to'])}"
    elif key == "door_age_open":
        note = f"as forwards of {named(values['door_age_open_by'])} may overtake"
    elif key == "copies_greatest":
        note = f"changed {several(values['copies_changed'], 'time')}"
    elif key == "moved_away":
        note += f", to {named(values['moved_to'])}"
    elif key == "depth_greatest" and values[key]:
        note = f"at {duration(values['depth_greatest_at_ms'])}"
    elif key == "backlog_gone_at_ms" and values["backlog_since_ms"] is not None:
        note = f"(over {values['backlog_over']:,} wait since {duration(values['backlog_since_ms'])})"
    elif key == "backlog_gone_at_ms" and values[key] is None:
        note = f"(never over {values['backlog_over']:,} waited)"
    return note


def cell_of(line: Line, values: Values | None) -> str:
    """The text of a value in its cell; - if there is none."""
    if values is not None and line.key == "backlog_gone_at_ms" and values["backlog_since_ms"] is not None:
        return "never"
    return "-" if values is None or values[line.key] is None else line.written(values[line.key])


def difference(before: Values | None, after: Values | None, key: str) -> float | None:
    """The second run's value minus the first's, or None if one of them has none."""
    if before is None or after is None or before[key] is None or after[key] is None:
        return None
    found: float = round(after[key] - before[key], 3)
    return found


def cell_of_difference(line: Line, before: Values | None, after: Values | None) -> str:
    number = difference(before, after, line.key)
    if number is None:
        return "-"
    return ("+" if number > 0 else "-") + line.written(abs(number)) if number else "0"


def is_told(line: Line, sides: Sides) -> bool:
    """Whether a line is shown for a queue, whose values each run has on its side."""
    there = [values for values in sides if values]
    if there and line.key not in there[0]:
        return False
    if line.key == "depth_greatest_at_ms" and len(sides) == 1:
        return False
    if line.key == "left_visible_or_delayed" and all(values["left_visible"] is not None for values in there):
        return False
    if line.key.startswith(("age_", "tries_", "door_age_p", "door_age_m", "new_age_", "moved_age_")):
        return any(values[line.key] is not None for values in there)
    return line.always or any(values[line.key] for values in there)


def cells_of(values: Values) -> list[str]:
    """The numbers of a queue in the table of all, as texts; - if there is none."""
    return ["-" if values[key] is None else WRITERS["duration" if key.endswith("_ms") else "grouped"](values[key])
            for key in OVERVIEW]


def overview_of(queues: Mapping[str, Values]) -> list[str]:
    """The lines of that table: the titles, then the queues by name, with columns as wide as their texts."""
    rows = [["", *OVERVIEW.values()], *([name, *cells_of(values)] for name, values in queues.items())]
    widths = [max(map(len, column)) for column in zip(*rows)]
    return ["  ".join([f"{row[0]:{widths[0]}}", *(f"{cell:>{width}}" for cell, width in zip(row[1:], widths[1:]))])
            for row in rows]
