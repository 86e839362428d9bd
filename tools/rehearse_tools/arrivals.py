"""Makes scripts of sends: when messages arrive, from what was measured or by chance.

    tools/arrivals times FILE.csv [--column NAME] [--unit s] [--origin TIME] [--bodies NAME] [--group-ids NAME]
        [--deduplication-ids NAME]
    tools/arrivals metric FILE.json [--id ID] [--period S] [--origin TIME]
    tools/arrivals poisson --rate 5/s --duration 1h
    tools/arrivals bursts --size 100 --every 10min --over 5s --duration 1h
    tools/arrivals hours --numbers N0,N1,..,N23 --duration 2d

times     a column of times of a CSV file, the first one if --column names none: numbers of seconds (or of --unit: ms,
          s, min, h), or moments such as 2024-05-01T12:00:00Z. The run begins at the earliest of them, or at --origin
          if that is given. --bodies names the column with the messages' bodies, and for a FIFO queue --group-ids and
          --deduplication-ids those with their message group ids and deduplication ids.
metric    what `aws cloudwatch get-metric-data` or get-metric-statistics printed of NumberOfMessagesSent, as sums: the
          number of messages in each period of --period seconds (60). Each message gets a random moment of its period.
          --id names one of several results.
poisson   messages that come independently, --rate of them on average
bursts    --size messages every --every, each at a random moment within --over. Messages of a burst that would come at
          or after the end of --duration are left out.
hours     as poisson, with the number of messages in each hour of the day; the run begins at midnight

Each also takes:
--queue NAME   the queue; without columns of them a FIFO queue's messages get ids, and are in --groups N (10) message
               groups in turn
--body TEXT    the body; {n} in it is the number of the message from 0 on (message {n})
--seed N       the seed of what is random (0); the same words make the same scripts
--start MS     milliseconds that are added to each time
--side-by-side N    N scripts that run at the same time, which take the messages in turn (1); needs --output
--output FILE.csv   the script's file; without it the script goes to standard output

One script makes at most one call a millisecond, so a message may be put off to the next free millisecond. If one is put
off by 10 ms or more, a line on standard error says so, with the number of scripts side by side that would put off none.
A script has at most 100,000 messages. Several scripts are written to files FILE-1.csv, FILE-2.csv .. With --output the
actors that run them are printed, to be added to a scenario; its --scripts names their folder.

Examples:

    tools/arrivals poisson --rate 5/s --duration 1h --queue orders --output orders.csv
    tools/arrivals bursts --size 100 --every 10min --over 5s --duration 1h --seed 7 > bursts.csv
"""
from __future__ import annotations

import collections
import csv
import datetime
import io
import math
import os
import random
import re
import sys
from argparse import Namespace
from collections.abc import Callable, Iterable, Iterator, Sequence
from fractions import Fraction
from typing import Any, NamedTuple

from .console import Fault, Parser, check_output, csv_text, note, print_text, refuse, shown, write_text
from .queues import NAME, json_in, read_any
from .scenarios import text_of_string
from .scripts import AT_MOST, BODY_MOST, BYTES_MOST, FIELD_LIMIT, HEADER, RECORDS_MOST
from .units import NUMBER, UNITS, quantity

SENDS_MOST = 5_000_000
PLAIN_NUMBER = re.compile(r"-?[0-9]{1,15}(?:\.[0-9]{1,12})?")
RATE = re.compile(rf"({NUMBER})/({'|'.join(sorted(UNITS, key=len, reverse=True))})")
CALENDAR = re.compile(r"[0-9]{4}-[0-9]{2}-[0-9]{2}(?:$|[T ][0-9:.+Z-]{1,30}$)")
DAY, HOUR = 86_400_000, 3_600_000
SIDE_BY_SIDE_MOST = 1_000
# Milliseconds by which a message is put off before a line says so.
PUT_OFF_TOLD = 10

# A group id or a deduplication id.
ID = re.compile("[!-~]{1,128}")


class Arrival(NamedTuple):
    """When a message arrives, and its body, message group id and deduplication id, or None for those that are made."""

    time: Fraction | int
    body: str | None = None
    group: str | None = None
    id: str | None = None


def duration_of(text: str) -> Fraction:
    """A time in milliseconds, such as 1h; it has a unit, and is not zero."""
    found = quantity(text)
    if not found or not found[1] or not 0 < found[0] <= AT_MOST:
        raise Fault(f"{shown(text)} is no time with a unit, as 90s or 2h, within {AT_MOST:,} ms")
    return found[0]


def rate_of(text: str) -> Fraction:
    """The number of messages a millisecond that a rate is, such as 5/s."""
    match = RATE.fullmatch(text)
    if not match or not Fraction(match[1]):
        raise Fault(f"{shown(text)} is no rate, as 5/s or 300/min")
    return Fraction(match[1]) / UNITS[match[2]]


def older_form(text: str) -> str:
    """A moment of the calendar as Python reads it before 3.11: six digits of a second, and +00:00 as the zone."""
    parts = re.fullmatch("(.*[T ][0-9:]+)(?:[.,]([0-9]+))?(?:(Z)|([+-][0-9]{2}):?([0-9]{2})?)?", text)
    if not parts:
        return text
    start, fraction, _, hours, minutes = parts.groups()
    zone = f"{hours or '+00'}:{minutes or '00'}"
    return f"{start}.{(fraction or '0')[:6]:0<6}{zone}"


def moment(text: str, unit: int) -> Fraction | None:
    """A time in milliseconds: a number of units, or a moment of the calendar."""
    if PLAIN_NUMBER.fullmatch(text):
        return Fraction(text) * unit
    if not CALENDAR.match(text):
        return None
    try:
        found = datetime.datetime.fromisoformat(text if sys.version_info >= (3, 11) else older_form(text))
    except ValueError:
        return None
    if found.tzinfo is None:
        found = found.replace(tzinfo=datetime.timezone.utc)
    since = found - datetime.datetime(1970, 1, 1, tzinfo=datetime.timezone.utc)
    return Fraction(since // datetime.timedelta(microseconds=1), 1_000)


def moments_of(times: Iterable[Any], unit: int) -> list[Fraction] | None:
    """The milliseconds of some times, or None if one is no time."""
    found = [moment(str(time), unit) for time in times]
    known = [time for time in found if time is not None]
    return known if len(known) == len(found) else None


def counted_from(times: Sequence[Fraction], origin: str | None, unit: int) -> list[Fraction]:
    """Times counted from an origin, or from the earliest of them if none is given."""
    start = min(times) if origin is None else moment(origin, unit)
    if start is None:
        raise Fault(f"{shown(str(origin))} is no time")
    refuse(min(times) < start, f"a time is before the origin {origin}")
    return [time - start for time in times]


def records_in(path: str) -> list[list[str]]:
    """The records of a CSV file that has times."""
    csv.field_size_limit(FIELD_LIMIT)
    try:
        records = [record for record in csv.reader(io.StringIO(read_any(path), newline=""), strict=True) if record]
    except csv.Error as error:
        raise Fault(f"{path} is not CSV: {error}") from None
    refuse(not records, f"{path} has no times")
    return records


def column_of(header: Sequence[str], name: str, path: str) -> int:
    refuse(name not in header, f"{path} has no column {shown(name)}; it has {', '.join(map(shown, header))}")
    return header.index(name)


def times_of_file(options: Namespace) -> list[Arrival]:
    """The messages of a file of times, with what its columns say of them."""
    path, records = options.file, records_in(options.file)
    unit = UNITS.get(options.unit)
    if unit is None:
        raise Fault(f"{shown(options.unit)} is no unit; units are {', '.join(UNITS)}")
    names = options.column, options.bodies, options.group_ids, options.deduplication_ids
    has_header = any(name is not None for name in names) or moment(records[0][0].strip(), unit) is None
    places = [None if name is None else column_of(records[0], name, path) for name in names]
    times, others = [], []
    for number, record in enumerate(records[1:] if has_header else records, 2 if has_header else 1):
        if max(place or 0 for place in places) >= len(record):
            raise Fault(f"{path}: record {number} lacks one of the columns")
        time = moment(record[places[0] or 0].strip(), unit)
        body, *ids = [None if place is None else record[place] for place in places[1:]]
        if time is None:
            raise Fault(f"{path}: record {number} has no time as 12.5 or 2024-05-01T12:00:00Z")
        for name in ids:
            if name is not None and not ID.fullmatch(name):
                raise Fault(f"{path}: record {number} has an id that is not 1 to 128 ASCII characters without a space: "
                            f"{shown(name)}")
        times.append(time)
        others.append((body, *ids))
    refuse(not times, f"{path} has no times")
    return [Arrival(time, *other) for time, other in zip(counted_from(times, options.origin, unit), others)]


def points_of_metric(found: Any, name: str | None, path: str) -> list[tuple[Fraction, int]]:
    """Pairs of a time and a number of messages, by what CloudWatch printed."""
    results = found.get("MetricDataResults") if isinstance(found, dict) else None
    if isinstance(results, list):
        chosen = [result for result in results if isinstance(result, dict) and name in (None, result.get("Id"))]
        if len(chosen) != 1:
            raise Fault(f"{path} has {len(chosen)} results, of which --id names one: "
                        + ", ".join(shown(str(result.get("Id"))) for result in results if isinstance(result, dict)))
        check_status(chosen[0], path)
        times, values = chosen[0].get("Timestamps"), chosen[0].get("Values")
    elif isinstance(found, dict) and isinstance(found.get("Datapoints"), list):
        points = [point for point in found["Datapoints"] if isinstance(point, dict)]
        times, values = [point.get("Timestamp") for point in points], [point.get("Sum") for point in points]
    else:
        raise Fault(f"{path} is not what `aws cloudwatch get-metric-data` prints")
    return [(time, round(value))
            for time, value in points_of(times or None, values, path, (0, SENDS_MOST), "number of messages")]


def points_of(times: Any, values: Any, path: str, bounds: tuple[int, int], what: str) -> list[tuple[Fraction, float]]:
    """Pairs of a moment in milliseconds and a value, by lists that are equally long."""
    if not isinstance(times, list) or not isinstance(values, list) or len(times) != len(values):
        raise Fault(f"{path} has no Timestamps with as many Values")
    moments, (low, high) = moments_of(times, 1_000), bounds
    if moments is None or not all(isinstance(value, (int, float)) and low <= value <= high for value in values):
        raise Fault(f"{path} has a time or a {what} that is none")
    return list(zip(moments, map(float, values)))


def check_status(result: dict[str, Any], path: str) -> None:
    """Makes sure that CloudWatch answered; prints a line if values are missing."""
    status, name = str(result.get("StatusCode", "Complete")), shown(str(result.get("Id")))
    if status == "PartialData":
        note(f"{path}: the result {name} is PartialData: CloudWatch has more values, which --next-token gets")
    elif status != "Complete":
        raise Fault(f"{path}: the result {name} has the status {shown(status)}")


def times_of_metric(options: Namespace) -> list[Fraction]:
    points = points_of_metric(json_in(read_any(options.file), options.file), options.id, options.file)
    refuse(not 1 <= options.period <= 86_400, "a period has 1 to 86400 seconds")
    starts = counted_from([time for time, _ in points], options.origin, 1_000)
    chance, times = random.Random(options.seed), []
    for start, (_, count) in sorted(zip(starts, points)):
        times += within(chance, start, count, options.period * 1_000)
        check_count(len(times))
    return times


def within(chance: random.Random, start: Fraction, count: int, length: Fraction | int) -> list[Fraction]:
    """`count` random times within a length from a start on."""
    check_count(count)
    return sorted(start + int(chance.random() * float(length)) for _ in range(count))


def check_count(count: int) -> None:
    if count > SENDS_MOST:
        raise Fault(f"over {SENDS_MOST:,} messages")


def by_chance(chance: random.Random, rate: Fraction, start: Fraction | int, end: Fraction | int) -> list[int]:
    """The times of messages that come independently, at a rate, from a start until before an end."""
    # Of over ten million that are expected at least half come, but with a chance below 10 ** -600,000.
    check_count(int(rate * Fraction(end - start) / 2))
    times, at, mean, until = [], float(start), float(1 / rate) if rate else math.inf, float(end)
    while rate:
        at -= math.log(1 - chance.random()) * mean
        if at >= until:
            break
        times.append(int(at))
        check_count(len(times))
    return times


def times_of_poisson(options: Namespace) -> list[int]:
    return by_chance(random.Random(options.seed), rate_of(options.rate), 0, duration_of(options.duration))


def times_of_bursts(options: Namespace) -> list[Fraction]:
    every, over = duration_of(options.every), duration_of(options.over)
    end, chance, times, start = duration_of(options.duration), random.Random(options.seed), [], Fraction(0)
    refuse(options.size < 1, "--size is at least 1")
    while start < end:
        times += within(chance, start, options.size, over)
        check_count(len(times))
        start += every
    return [time for time in times if time < end]


def times_of_hours(options: Namespace) -> list[int]:
    numbers = options.numbers.split(",")
    if len(numbers) != 24 or not all(re.fullmatch(NUMBER, number) for number in numbers):
        raise Fault("--numbers has a number of messages for each of the 24 hours of a day, between commas")
    end, chance, times = duration_of(options.duration), random.Random(options.seed), []
    for start in range(0, math.ceil(end), HOUR):
        rate = Fraction(numbers[start % DAY // HOUR]) / HOUR
        times += by_chance(chance, rate, start, min(end, Fraction(start + HOUR)))
        check_count(len(times))
    return times


def free_times(arrivals: Iterable[Arrival], start: int, side_by_side: int = 1) -> Iterator[tuple[int, Arrival]]:
    """The arrivals in their order, each put off to the next millisecond in which one of the scripts is free."""
    lasts = collections.deque([-1] * side_by_side, maxlen=side_by_side)
    for arrival in sorted(arrivals, key=lambda arrival: arrival.time):
        at = max(int(arrival.time) + start, lasts[0] + 1)
        if at > AT_MOST:
            raise Fault(f"a message comes at {at:,} ms, and a script ends at {AT_MOST:,}")
        lasts.append(at)
        yield at, arrival


def tell_put_off(arrivals: list[Arrival], side_by_side: int) -> None:
    """Prints by how much messages are put off, and how many scripts side by side put off none."""
    times = sorted(int(arrival.time) for arrival in arrivals)
    late = [at - time for (at, _), time in zip(free_times(arrivals, 0, side_by_side), times) if at > time]
    if max(late, default=0) >= PUT_OFF_TOLD:
        enough = max(collections.Counter(times).values())
        note(f"{len(late):,} of {len(times):,} messages are put off, by up to {max(late):,} ms, as a script makes one "
             f"call a millisecond; --side-by-side {enough} puts off none")


def records_of(arrivals: Iterable[Arrival], options: Namespace) -> Iterator[list[Any]]:
    """The records of the sends."""
    is_fifo = bool(options.queue) and options.queue.endswith(".fifo")
    for number, (at, arrival) in enumerate(free_times(arrivals, options.start, options.side_by_side)):
        text = (options.body if arrival.body is None else arrival.body).replace("{n}", str(number))
        if not 1 <= len(text.encode("utf-8", "replace")) <= BODY_MOST:
            raise Fault(f"the body of message {number} has not 1 to {BODY_MOST:,} bytes: {shown(text)}")
        group, name = (f"g{number % options.groups}", f"m{number}") if is_fifo else ("", "")
        yield [at, "send", text, arrival.group or group, arrival.id or name, "", "", "", "", "", ""]


def write_scripts(records: list[list[Any]], options: Namespace) -> None:
    """Writes the scripts, and prints the actors that run them."""
    lanes = [records[lane::options.side_by_side] for lane in range(options.side_by_side)]
    parts = [lane[place:place + RECORDS_MOST] for lane in lanes for place in range(0, len(lane), RECORDS_MOST)]
    base, end = os.path.splitext(options.output)
    paths = [options.output] if len(parts) == 1 else [f"{base}-{number}{end}" for number in range(1, len(parts) + 1)]
    for path in paths:
        check_output(path, [getattr(options, "file", None)])
    tables = []
    for path, part in zip(paths, parts):
        text = csv_text([HEADER, *part])
        refuse(len(text.encode("utf-8", "replace")) > BYTES_MOST, f"a script has over {BYTES_MOST:,} bytes")
        write_text(path, text)
        name = os.path.splitext(os.path.basename(path))[0]
        tables.append(f'[[actor]]\nname = {text_of_string(name)}\nkind = "script"\n'
                      f"queue = {text_of_string(options.queue or 'QUEUE')}\n"
                      f"script = {text_of_string(os.path.basename(path))}\n")
    print_text("\n".join(tables))


# What makes the times of each kind, its options that take a text, and those that take a number. A file of times has
# whole messages.
KINDS: dict[str, tuple[Callable[[Namespace], list[Any]], tuple[str, ...], dict[str, int | None]]] = {
    "times": (times_of_file, ("--column", "--bodies", "--group-ids", "--deduplication-ids", "--unit"), {}),
    "metric": (times_of_metric, ("--id",), {"--period": 60}),
    "poisson": (times_of_poisson, ("--rate", "--duration"), {}),
    "bursts": (times_of_bursts, ("--every", "--over", "--duration"), {"--size": None}),
    "hours": (times_of_hours, ("--numbers", "--duration"), {})}


def options_of(words: Sequence[str]) -> Namespace:
    parser = Parser(__doc__)
    kinds = parser.add_subparsers(dest="kind", required=True, metavar="times|metric|poisson|bursts|hours")
    for name, (_, texts, numbers) in KINDS.items():
        kind = kinds.add_parser(name, add_help=False)
        kind.add_argument("-h", "--help", action="store_true")
        if name in ("times", "metric"):
            kind.add_argument("file", nargs="?", metavar="FILE")
            kind.add_argument("--origin")
        kind.take("--queue", "--body", "--output", *texts, numbers={
            "--groups": 10, "--seed": 0, "--start": 0, "--side-by-side": 1, **numbers})
        kind.set_defaults(body="message {n}", **({"unit": "s"} if name == "times" else {}))
    options = parser.parse_args(words)
    if options.help:
        parser.print_help()
        sys.exit(0)
    for option in ("file", "rate", "every", "over", "numbers", "size", "duration"):
        if getattr(options, option, "") is None:
            raise Fault(f"{options.kind} needs {'a FILE' if option == 'file' else '--' + option} (--help tells the "
                        f"usage)")
    return options


def main(words: Sequence[str]) -> int:
    options = options_of(words)
    if not 1 <= options.groups <= 1_000_000 or not 0 <= options.start <= AT_MOST:
        raise Fault(f"--groups is 1 to 1000000, and --start 0 to {AT_MOST}")
    if not 1 <= options.side_by_side <= (SIDE_BY_SIDE_MOST if options.output else 1):
        raise Fault(f"--side-by-side is 1 to {SIDE_BY_SIDE_MOST}, and needs --output")
    if options.queue and not NAME.fullmatch(options.queue):
        raise Fault(f"no queue of a scenario has the name {shown(options.queue)}")
    if options.kind == "times" and not (options.group_ids is None and options.deduplication_ids is None):
        if not (options.queue or "").endswith(".fifo"):
            raise Fault("message groups and deduplication ids are of a FIFO queue, which --queue names, as orders.fifo")
    check_output(options.output, [getattr(options, "file", None)])
    found = KINDS[options.kind][0](options)
    arrivals: list[Arrival] = found if options.kind == "times" else [Arrival(time) for time in found]
    tell_put_off(arrivals, options.side_by_side)
    records = list(records_of(arrivals, options))
    if options.output and records:
        write_scripts(records, options)
    elif len(records) > RECORDS_MOST:
        raise Fault(f"{len(records):,} messages take several scripts, which need --output")
    else:
        write_text(options.output, csv_text([HEADER, *records]))
    return 0
