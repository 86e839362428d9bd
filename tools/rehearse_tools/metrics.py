"""Prints what CloudWatch would show of a run: the metrics of SQS by their names, for each queue and period, as CSV:

    tools/metrics LOG [--rest REST.out] [--scenario FILE.toml | --to TIME] [--period S] [--queue NAME ...]
        [--output FILE.csv]
    tools/metrics LOG [..] --alarm 'ApproximateAgeOfOldestMessage>300 for 5'
    tools/metrics LOG [..] --against FILE.json [--origin TIME] [--output FILE.csv]

LOG is what `run` prints, or a file made by `run --log`; then REST.out is what that run prints. - is standard input. A
run that was ended has no report: its log is refused if it comes by standard input. Of a log in a file of its own a line
on standard error says that the end was not seen, unless REST.out is named.

A period has 60 seconds unless --period says otherwise; the first one begins at the beginning of the run. A log does not
say when the run ends. With --scenario, the file that was run, that is its horizon, and with --to the time that is
given, such as 1h30m. The periods go on to there, although no row is there any more. The last period ends with the run,
so it may be shorter, and counts what happens at that moment. Without these words it ends with the last row, which a
line on standard error says. A queue without rows has periods too, if the report or --scenario names it.

The four numbers of messages count what happened within a period. NumberOfMessagesSent counts messages added by a send
or a forward, but not repeats, dead letters and what a move task brings. NumberOfMessagesReceived counts each message of
a receive. NumberOfEmptyReceives counts the receives that got none, a long poll when it ends. NumberOfMessagesDeleted
counts every deletion that succeeds, also a second one of the same message. The four approximate ones are those at the
end of a period. ApproximateAgeOfOldestMessage is in seconds, since the message came into this queue, rounded down, and
0 if the queue is empty. CloudWatch leaves out a message that was received more than three times and not deleted, as the
SQS guide on this metric says (general knowledge, not looked up). Here its age counts, so a message that fails again and
again makes the age climb. A log does not show a delay when it begins: a message counts as delayed if its release is in
the log, or if the final queues follow the log and say so.

--alarm prints, in place of the CSV, when an alarm would ring: when a metric is beyond a bound at the ends of that many
periods in a row. With a queue before the metric, as in orders.ApproximateAgeOfOldestMessage, only that queue is
watched; without one each queue is. It may be given several times. An alarm that has not rung by the end of the run, or
by the last row, may ring later. The status is 0 if none rang, 1 if one did, 2 for a fault.

--against compares the rehearsal with what CloudWatch measured, for example to rehearse last Tuesday first. FILE.json is
what `aws cloudwatch get-metric-data` or get-metric-statistics printed for periods of --period seconds. The label of
each result has the name of its metric and of its queue, as in "orders NumberOfMessagesSent"; if only one queue is
looked at, the label needs no queue. The run began at --origin, such as 2024-05-07T00:00:00Z, else at the earliest
measured moment. The statistic is Sum for the four numbers of messages. For the approximate ones CloudWatch has one
value a minute, and this tool that at the end of the period. There is a row for each period of both, with the
difference, which is the rehearsed value minus the measured one. A line on standard error for each metric has the means
of both.

Examples:

    ./sqs_rehearse run examples/dead_letters.toml
        | tools/metrics - --scenario examples/dead_letters.toml --queue orders --output metrics.csv
    ./sqs_rehearse run examples/dead_letters.toml
        | tools/metrics - --to 10min --alarm 'failed.ApproximateAgeOfOldestMessage>60 for 3'
"""
from __future__ import annotations

import math
import operator
import re
import sys
from argparse import Namespace
from collections import Counter, defaultdict, deque
from collections.abc import Iterable, Iterator, Sequence
from fractions import Fraction
from statistics import fmean
from typing import NamedTuple

from .arrivals import check_status, moment, points_of
from .console import Fault, Parser, check_output, note, print_text, refuse, shown, write_text
from .logs import NUMBER, Head, Log, What, tell_open
from .queues import json_in, read_any
from .replay import (DELAYED, IN_FLIGHT, MESSAGE, NOWHERE, NUMBERED, VISIBLE, Checked, Places, UnknownKind, handlers_of,
                     is_forward, replay, take_finals)
from .scenarios import names_of, scenario_at
from .units import clock, decimal, moment_of, several
from .units import NUMBER as MEASURE

# The statistics that are taken of what get-metric-statistics printed, the first one that is there.
STATISTICS = ("Sum", "Maximum", "Average", "Minimum")
# What a measured value may be.
VALUES = (1 - 10 ** 15, 10 ** 15 - 1)
COUNTS = ("NumberOfMessagesSent", "NumberOfMessagesReceived", "NumberOfMessagesDeleted", "NumberOfEmptyReceives")
SENT, RECEIVED, DELETED, EMPTY = range(len(COUNTS))
# The metrics of the numbers of messages in places.
PLACES = {VISIBLE: "ApproximateNumberOfMessagesVisible", IN_FLIGHT: "ApproximateNumberOfMessagesNotVisible",
          DELAYED: "ApproximateNumberOfMessagesDelayed"}
AGE = "ApproximateAgeOfOldestMessage"
METRICS = (*COUNTS, *PLACES.values(), AGE)
PERIODS_MOST = 86_400
VALUES_MOST = 20_000_000
COMPARISONS = {">": operator.gt, ">=": operator.ge, "<": operator.lt, "<=": operator.le}
ALARM = re.compile(rf"(?:(.+)\.)?([A-Za-z]+) ?(>=|<=|>|<) ?({MEASURE})(?: for ([1-9][0-9]{{0,4}}))?")


class Queue(Places):
    """What the rows of a queue have told, by the number of a period of so many milliseconds: `counts` has what happened
    in it, `steps` by how many messages more are in each place at its end, and `oldest` when the oldest one had come.

    `now` is the period of the last row, which ends at `until`; `happened` and `moved` have its counts and steps so far.
    All that comes after the period `last` is in that one.
    `stands` has the place of each message that is there, or, if it has not moved since it came, `-1 - period` with the
    period of that. `order` has the messages in the order in which they entered, with the time.
    """

    # These methods look at their rows themselves.
    SURE = frozenset(("sent", "arrived", "received", "released", "deleted", "leaves"))

    def __init__(self, name: str, path: str, period: int, last: float) -> None:
        self.name, self.path, self.period, self.last, self.kinds = name, path, period, last, Counter[What]()
        self.counts: list[defaultdict[int, int]] = [defaultdict(int) for _ in COUNTS]
        self.steps: list[defaultdict[int, int]] = [defaultdict(int) for _ in (*PLACES, NOWHERE)]
        self.stands: dict[str, int] = {}
        self.order: deque[tuple[str, int]] = deque()
        self.oldest: dict[int, int | None] = {}
        self.now, self.until = 0, period if last else math.inf
        self.happened, self.moved = [0] * len(self.counts), [0] * len(self.steps)

    def pass_to(self, at: int) -> None:
        """Takes in that a period has ended, as a moment is in a later one."""
        self.end_period()
        self.now = int(min(at // self.period, self.last))
        self.until = (self.now + 1) * self.period if self.now < self.last else math.inf

    def end_period(self) -> None:
        """Notes what happened in a period, and when the oldest message came that is there at its end."""
        for totals, numbers in ((self.counts, self.happened), (self.steps, self.moved)):
            for place, number in enumerate(numbers):
                if number:
                    totals[place][self.now] += number
                    numbers[place] = 0
        while self.order and self.order[0][0] not in self.stands:
            self.order.popleft()
        self.oldest[self.now] = self.order[0][1] if self.order else None

    def put(self, at: int, message: str, place: int) -> None:
        if at >= self.until:
            self.pass_to(at)
        try:
            stands = self.stands[message]
        except KeyError:
            raise self.not_here(at, message) from None
        self.moved[stands if stands >= 0 else VISIBLE] -= 1
        self.moved[place] += 1
        self.stands[message] = place

    def not_here(self, at: int, message: str) -> Exception:
        """What is wrong with a row whose message is not there."""
        if not MESSAGE.fullmatch(message):
            return UnknownKind(message)
        return Fault(f"{self.path}: {message} at {at} never came into {self.name}: is this the whole log?")

    def was_delayed(self, message: str) -> None:
        stands = self.stands.get(message, VISIBLE)
        if stands < 0:
            self.steps[VISIBLE][-1 - stands] -= 1
            self.steps[DELAYED][-1 - stands] += 1
            self.stands[message] = DELAYED

    def sent(self, at: int, head: Head, message: str, receipt: str, detail: str) -> None:
        self.enters(at, message)
        self.happened[SENT] += 1

    def arrived(self, at: int, head: Head, message: str, receipt: str, detail: str) -> None:
        self.enters(at, message)
        if is_forward(message, detail):
            self.happened[SENT] += 1

    def enters(self, at: int, message: str) -> None:
        if at >= self.until:
            self.pass_to(at)
        if not message or not MESSAGE.fullmatch(message):
            raise UnknownKind(message)
        self.moved[VISIBLE] += 1
        self.stands[message] = -1 - self.now
        self.order.append((message, at))

    def received(self, at: int, head: Head, message: str, receipt: str, detail: str) -> None:
        self.put(at, message, IN_FLIGHT)
        self.happened[RECEIVED] += 1

    def received_nothing(self, at: int, head: Head, message: str, receipt: str, detail: str) -> None:
        self.count(at, EMPTY)

    def delete_called(self, at: int, head: Head, message: str, receipt: str, detail: str) -> None:
        self.count(at, DELETED)

    def count(self, at: int, what: int) -> None:
        if at >= self.until:
            self.pass_to(at)
        self.happened[what] += 1

    def leaves(self, at: int, head: Head, message: str, receipt: str, detail: str) -> None:
        if (head.call, head.answer) in NUMBERED and not NUMBER.fullmatch(detail):
            raise UnknownKind(message)
        if at >= self.until:
            self.pass_to(at)
        stands = self.stands.pop(message, NOWHERE)
        if stands == NOWHERE:
            raise self.not_here(at, message)
        self.moved[stands if stands >= 0 else VISIBLE] -= 1

    def deleted(self, at: int, head: Head, message: str, receipt: str, detail: str) -> None:
        self.leaves(at, head, message, receipt, detail)
        self.happened[DELETED] += 1


HANDLERS = handlers_of(Queue)


class Scope(NamedTuple):
    """What is known of a run before its log is read: when it ends, in milliseconds, and its queues."""
    end: int | None = None
    queues: Sequence[str] = ()


class Metrics:
    """The queues of a log by name, in the order of the run, and how many periods of so many milliseconds there are. The
    last of them ends at `end`: with the run if that is known, else with the last row."""

    def __init__(self, log: Log, period: int, scope: Scope = Scope()) -> None:
        self.period = period
        last = math.inf if scope.end is None else max(0, scope.end - 1) // period
        found: dict[str, Queue] = {}

        def named(name: str) -> Queue:
            return found.setdefault(name, Queue(name, log.path, period, last))

        last_row = replay(log, Checked(found, named, HANDLERS))
        for queue in found.values():
            queue.end_period()
        take_finals(log, found)
        self.queues = {name: named(name) for name in (*scope.queues, *log.report, *found)}
        self.last_row, self.is_ended = last_row or 0, scope.end is not None
        self.end = self.last_row if scope.end is None else scope.end
        self.periods = 0 if last_row is None and scope.end is None else int(min(self.end // period, last)) + 1

    def end_of(self, period: int) -> int:
        """When a period ends."""
        return min((period + 1) * self.period, self.end)

    def values(self, queue: Queue) -> Iterator[list[int]]:
        """The values of all metrics, period by period."""
        levels = dict.fromkeys(PLACES, 0)
        since: int | None = None
        for period in range(self.periods):
            for place in PLACES:
                levels[place] += queue.steps[place].get(period, 0)
            since = queue.oldest.get(period, since)
            age = 0 if since is None else (self.end_of(period) - since) // 1_000
            yield [*(counts.get(period, 0) for counts in queue.counts), *levels.values(), age]


class Series(NamedTuple):
    """What was measured of a metric: its label, and pairs of a moment in milliseconds and a value."""
    label: str
    points: list[tuple[Fraction, float]]


class Difference(NamedTuple):
    """A period of a metric of a queue, as it was rehearsed and measured."""
    queue: str
    metric: str
    period: int
    rehearsed: int
    measured: float


def series_in(path: str) -> list[Series]:
    """What `aws cloudwatch get-metric-data` or get-metric-statistics printed."""
    found = json_in(read_any(path), path)
    results = found.get("MetricDataResults") if isinstance(found, dict) else None
    if isinstance(results, list) and all(isinstance(result, dict) for result in results):
        for result in results:
            check_status(result, path)
        return [Series(f"{result.get('Label', '')} {result.get('Id', '')}",
                       points_of(result.get("Timestamps"), result.get("Values"), path, VALUES, "value"))
                for result in results]
    points = found.get("Datapoints") if isinstance(found, dict) else None
    if not isinstance(points, list) or not all(isinstance(point, dict) for point in points):
        raise Fault(f"{path} is not what `aws cloudwatch get-metric-data` prints")
    values = [next((point[name] for name in STATISTICS if name in point), None) for point in points]
    times = [point.get("Timestamp") for point in points]
    return [Series(str(found.get("Label", "")), points_of(times, values, path, VALUES, "value"))]


def named_in(series: Series, names: Sequence[str], what: str) -> str:
    """The name that a label has among its words; if there is only one name, no label needs to have it."""
    found = [name for name in names if name in series.label.replace("/", " ").replace(".", " ").split()
             or name in series.label.split()]
    if len(found) == 1:
        return found[0]
    if not found and len(names) == 1:
        return names[0]
    raise Fault(f"the label {shown(series.label.strip())} names {len(found)} {what}, and has to name one")


def periods_of(series: list[Series], period: int, origin: str | None) -> list[list[tuple[int, float]]]:
    """For each series the numbers of its periods of `period` milliseconds, counted from an origin, and its values."""
    times = [time for one in series for time, _ in one.points]
    start = moment(origin, 1_000) if origin is not None else min(times, default=None)
    if start is None:
        raise Fault(f"{shown(origin)} is no time" if origin is not None else "nothing was measured")
    for time in times:
        if (time - start) % period:
            raise Fault(f"a measured period begins {clock(int(abs(time - start)))} from the origin, which is no whole "
                        f"number of periods of {period // 1_000} s")
    return [[(int((time - start) // period), value) for time, value in sorted(one.points)] for one in series]


def differences_of(metrics: Metrics, names: list[str], series: list[Series],
                   origin: str | None) -> Iterator[Difference]:
    """What was rehearsed and measured, period by period; what was measured at other times than the run is left out."""
    rehearsed = {name: list(metrics.values(metrics.queues[name])) for name in names}
    for one, points in zip(series, periods_of(series, metrics.period, origin)):
        kind, queue = named_in(one, METRICS, "metrics"), named_in(one, names, "queues of the log")
        inside = [(period, value) for period, value in points if 0 <= period < metrics.periods]
        if len(inside) < len(points):
            outside = len(points) - len(inside)
            note(f"{queue} {kind}: {outside:,} of {len(points):,} measured periods are not in the run")
        for period, value in inside:
            yield Difference(queue, kind, period, rehearsed[queue][period][METRICS.index(kind)], value)


def csv_of(differences: list[Difference], period: int) -> str:
    rows = [f"{one.period * period // 1_000},{one.queue},{one.metric},{one.rehearsed},{decimal(one.measured)},"
            f"{decimal(one.rehearsed - one.measured)}\n" for one in differences]
    return "second,queue,metric,rehearsed,measured,difference\n" + "".join(rows)


def sums_of(differences: list[Difference], period: int) -> Iterator[str]:
    """A line for each metric of a queue: the means, and how far the rehearsal is from what was measured."""
    groups: dict[tuple[str, str], list[Difference]] = {}
    for one in differences:
        groups.setdefault((one.queue, one.metric), []).append(one)
    for (queue, metric), found in groups.items():
        rehearsed, measured = fmean(one.rehearsed for one in found), fmean(one.measured for one in found)
        apart = [abs(one.rehearsed - one.measured) for one in found]
        worst = found[apart.index(max(apart))]
        share = f" ({100 * (rehearsed - measured) / measured:+.0f} %)" if measured else ""
        yield (f"{queue} {metric}: {several(len(found), 'period')}, mean {decimal(rehearsed)} "
               f"rehearsed, {decimal(measured)} measured{share}; {decimal(fmean(apart))} apart on "
               f"average, at most {decimal(max(apart))} at {clock(worst.period * period)}")


class Alarm:
    """A metric, a bound, and how many periods in a row must end with the metric beyond the bound."""

    def __init__(self, text: str) -> None:
        match = ALARM.fullmatch(text.strip())
        if not match or match[2] not in METRICS:
            raise Fault(f"{shown(text)} is no alarm, as 'ApproximateAgeOfOldestMessage>300 for 5'; the metrics are "
                        + ", ".join(METRICS))
        self.text, self.queue, self.place = text.strip(), match[1], METRICS.index(match[2])
        self.is_beyond, self.bound = COMPARISONS[match[3]], float(match[4])
        self.periods = int(match[5] or 1)

    def rings(self, values: Iterable[Sequence[float]]) -> Iterator[tuple[int, int | None]]:
        """The first and the last period of each time that it rings; the last is None if it still rings at the end."""
        count, since = 0, None
        for period, found in enumerate(values):
            if self.is_beyond(found[self.place], self.bound):
                count += 1
                if count == self.periods:
                    since = period
            else:
                if since is not None:
                    yield since, period
                count, since = 0, None
        if since is not None:
            yield since, None


def ringing(alarms: Iterable[Alarm], metrics: Metrics, queues: Sequence[Queue]) -> Iterator[str]:
    """A line for each time that an alarm rings."""
    for alarm in alarms:
        name = alarm.text.removeprefix(f"{alarm.queue}.")
        for queue in queues if alarm.queue is None else [metrics.queues[alarm.queue]]:
            for since, until in alarm.rings(metrics.values(queue)):
                end = "" if until is None else f", until {clock(metrics.end_of(until))}"
                yield f"{queue.name}: {name} rings at {clock(metrics.end_of(since))}{end}\n"


def write_csv(metrics: Metrics, queues: Sequence[Queue], path: str | None) -> None:
    rows = (",".join(map(str, [period * metrics.period // 1_000, queue.name, *values])) + "\n"
            for queue in queues for period, values in enumerate(metrics.values(queue)))
    header = ",".join(["second", "queue", *METRICS]) + "\n"
    if path is None:
        print_text(header)
        for row in rows:
            sys.stdout.write(row)
        print_text("")
    else:
        write_text(path, header + "".join(rows))


def scope_of(options: Namespace) -> Scope:
    """When the run ends, and which queues it has, as far as the command line tells."""
    if options.scenario is None:
        return Scope(moment_of("--to", options.last))
    scenario = scenario_at(options.scenario)
    horizon = scenario.get("horizon")
    if not isinstance(horizon, int) or horizon < 1:
        raise Fault(f"{options.scenario} has no horizon")
    return Scope(horizon, names_of(scenario, "queue"))


def check_run(metrics: Metrics, scope: Scope, options: Namespace) -> None:
    """Makes sure that the log may be of the run that the command line tells of."""
    if metrics.last_row > metrics.end:
        what = "--to" if options.scenario is None else f"the horizon of {options.scenario}"
        raise Fault(f"the log has a row at {clock(metrics.last_row)}, after {what} at {clock(metrics.end)}")
    other = next((name for name in metrics.queues if name not in scope.queues), None)
    if scope.queues and other is not None:
        raise Fault(f"{options.scenario} has no queue {shown(other)}: is it the scenario of this run?")


def check_queues(metrics: Metrics, log: Log, names: Iterable[str]) -> None:
    for name in names:
        if name not in metrics.queues:
            raise Fault(f"no row of the log is of queue {shown(name)}, and no report follows it" if log.is_open else
                        f"the run has no queue {shown(name)}")


def options_of(words: Sequence[str]) -> Namespace:
    parser = Parser(__doc__).take("--rest", "--scenario", "--to", "--against", "--origin", "--output",
                                  lists=["--queue", "--alarm"], numbers={"--period": 60})
    parser.add_argument("log", metavar="LOG")
    options = parser.parse_args(words)
    refuse(options.against and options.alarm, "--against and --alarm do not go together")
    refuse(options.origin and not options.against, "--origin goes with --against")
    refuse(options.scenario is not None and options.last is not None,
           "--scenario and --to both tell when the run ends: one is enough")
    refuse(not 1 <= options.period <= PERIODS_MOST, f"a period has 1 to {PERIODS_MOST} seconds")
    return options


def main(words: Sequence[str]) -> int:
    options = options_of(words)
    alarms = [Alarm(text) for text in options.alarm]
    check_output(options.output, [options.log, options.against])
    series = series_in(options.against) if options.against else []
    log, scope = Log(options.log, rest=options.rest), scope_of(options)
    metrics = Metrics(log, options.period * 1_000, scope)
    check_run(metrics, scope, options)
    check_queues(metrics, log, [*options.queue, *(alarm.queue for alarm in alarms if alarm.queue)])
    queues = [metrics.queues[name] for name in dict.fromkeys(options.queue or metrics.queues)]
    if len(queues) * metrics.periods > VALUES_MOST:
        raise Fault(f"{metrics.periods:,} periods of {len(queues):,} queues are too many: a longer --period is needed")
    differences = list(differences_of(metrics, [queue.name for queue in queues], series, options.origin)) \
        if options.against else []
    tell_open(log)
    if not metrics.is_ended:
        note(f"the last period ends with the last row, at {clock(metrics.last_row)}, as a log does not say when the "
             "run ends (--scenario FILE.toml or --to TIME does)")
    if options.against:
        write_text(options.output, csv_of(differences, metrics.period))
        for line in sums_of(differences, metrics.period):
            note(line)
        return 0
    if not alarms:
        write_csv(metrics, queues, options.output)
        return 0
    lines = list(ringing(alarms, metrics, queues))
    quiet = f"no alarm rings up to the {'end' if metrics.is_ended else 'last row'} at {clock(metrics.end)}\n"
    write_text(options.output, "".join(lines) or quiet)
    return 1 if lines else 0
