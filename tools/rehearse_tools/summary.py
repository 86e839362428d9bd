"""Prints in plain units what happened in each queue of a run, or of two runs side by side:

    ./sqs_rehearse run SCENARIO | tools/summary -
    tools/summary LOG [--rest REST.out] [--queue NAME ...] [--from TIME] [--to TIME] [--door] [--backlog N]
        [--json]
    tools/summary BEFORE.log [OUTPUT] AFTER.log [OUTPUT] [--queue NAME ...] [--from TIME] [--to TIME] [--door]
        [--backlog N] [--json]

LOG is what `run` prints, or a file made by `run --log`; REST.out, or an OUTPUT after LOG, is what that run prints then.
One of the files may be -, which is standard input. If one run has several queues, a table comes first, with a line for
each; those that lost messages are marked with !!. --queue leaves out all other queues.

A run that was ended has no report. Its log is refused if it comes by standard input. Of a log in a file of its own the
first line says that the end was not seen, unless REST.out is named. That also leaves open which of the messages that
are left are delayed. A report that does not agree with the rows is refused.

Most numbers are figures, which the program counts of the log by proof. Only the greatest number of copies, the ages of
--door and what is on its way are counted here. The program is the one that SQS_REHEARSE in the environment names, or
else sqs_rehearse beside this folder. Standard input is kept in a file meanwhile. A log without its report takes longer,
and so do --from, --to and --door: then all rows are read here, too.

--from TIME, such as 90s or 1.5h, counts rows from then on, so that a warm-up is left out. Messages that are in a queue
by then are there, with the age that they have, but what they went through before does not count. --to TIME leaves out
the rows after it, and the report with them; messages that are left are those left then.

--door adds the ages of deleted messages since their first send, over redrives, moves and forwards: in the last queue of
a chain those from door to door. A log does not say which arrival belongs to which forward. The forwards of one consumer
are assigned in their order, which is right if only one of them is under way, or if all take equally long. Otherwise the
ages are open, and the number of messages concerned is printed in their place. Messages that may still come into the
queue, from where messages of the log did, are counted too.

sent          rows `send,new`. Messages that came otherwise have a line of their own: a forward is a message sent by a
              consumer of another queue. A message is an id in one queue: after a redrive or a move it is another one.
handled       A receive of a message is handled if DeleteMessage is called with its receipt, whatever that answers: a
              row `delete` of deleted, kept, gone or a refusal, with the receipt of a row `receive,ok` of the queue.
              The services of consumers that end well are such; one that fails (`fail`), or is under way in the end,
              is not. If a script deletes with the receipt of a service that has failed, only an answer of deleted
              counts. A message is handled more than once if two or more of its receives are handled, which takes
              two or more receipts: a second call with the same receipt does not count. A message that is handled, but
              not deleted, had its timeout end first: it is still in the queue, was dead-lettered or moved, or has
              expired.
tries         rows `receive,ok` of a message; the mean is over the messages that were received at all
lost          rows `expire`: messages that nobody deleted before the retention period ended
left          visible, in flight and delayed after the last row; on their way are redrives, moves and forwards to the
              queue that have not arrived
age           of deleted messages, from the enqueue time; 95 % is the least age that 95 of 100 do not pass. If a move
              task brought some of them, the ages of these and of new ones have lines of their own.
depth         messages in the queue, also delayed ones and those in flight
backlog gone  A backlog is more than --backlog (10) messages that are not in flight; delayed ones count, because a log
              does not show a delay when it begins. This is the last moment at which one ended: never if there is one
              in the end, and - if there was none.
copies that   Rows `scale` of scalers at the queue: the greatest number of copies that one of them let ask. If none
ask           changed the number, there is no line.
requests      Calls, as SQS bills them for short bodies: a receive is one with ten messages, with one, or empty, and a
              long poll is one from its beginning on. A forward is a SendMessage to the queue at which it arrives.
              Refused calls count. What the service does on its own, such as redrives and the moves of a task, does
              not.

--json prints the same numbers with fixed keys, times in milliseconds: runs, each with its queues, and the
differences, which are the second run minus the first. Colours are used on a terminal, if NO_COLOR is not set.

Examples:

    ./sqs_rehearse run examples/dead_letters.toml | tools/summary - --queue orders
    ./sqs_rehearse run --log run.log examples/dead_letters.toml > run.out
        && tools/summary run.log run.out --from 1min
"""
import json
import os
import sys
from collections.abc import Mapping, Sequence

from .console import BOLD, PLAIN, RED, Parser, is_terminal, print_text, refuse
from .logs import open_told
from .summaries import (BACKLOG, LINES, Reading, Run, Sides, Values, cell_of, cell_of_difference, difference,
                        is_told, lost_in, lost_told, note_of, overview_of, read_runs, values_of)
from .units import duration, window_of

# The width of what stands before the numbers, that of the numbers of one run, and those of two with their difference.
MARGIN, WIDTHS, TITLES = 31, (12, 13, 13, 14), ("before", "after", "difference")


class Style:
    """Emphasis for a terminal; without colour a text stays as it is."""

    def __init__(self, coloured: bool) -> None:
        self.coloured = coloured

    def bold(self, text: str) -> str:
        return f"{BOLD}{text}{PLAIN}" if self.coloured else text

    def alarm(self, text: str) -> str:
        return f"{RED}{text}{PLAIN}" if self.coloured else text


def heading_of(name: str, titles: str, style: Style) -> str:
    """The name of a queue, with the titles of the columns after it or, after a long name, below."""
    if not titles:
        return style.bold(name)
    gap = " " * (MARGIN - len(name)) if len(name) < MARGIN else "\n" + " " * MARGIN
    return style.bold(name) + gap + titles


def text_of_queue(name: str, sides: Sides, style: Style) -> str:
    """The lines of one queue in one run, or in two side by side."""
    widths = WIDTHS[:1] if len(sides) == 1 else WIDTHS[1:]
    titles = "".join(f"{title:>{width}}" for title, width in zip(TITLES, widths)) if len(sides) == 2 else ""
    lines = [heading_of(name, titles, style)]
    if all(values is None or not values["came_in"] and not values["requests"] for values in sides):
        return f"{lines[0]}\n   no message came in, and nobody called it\n"
    for line in LINES:
        if not is_told(line, sides):
            continue
        cells = [cell_of(line, values) for values in sides]
        if len(sides) == 2:
            cells.append(cell_of_difference(line, *sides))
        is_alarm = line.key == "lost_by_expiry" and any(values and values[line.key] for values in sides)
        label = ("!! " if is_alarm else "   ") + (line.label.upper() if is_alarm else line.label)
        text = f"{label:{MARGIN}}" + "".join(f"{cell:>{width}}" for cell, width in zip(cells, widths))
        if len(sides) == 1 and sides[0]:
            text = f"{text} {note_of(line.key, sides[0])}".rstrip()
        lines.append(style.alarm(text) if is_alarm else text)
    return "".join(f"{line}\n" for line in lines)


def text_of_run(title: str, run: Run, style: Style) -> str:
    """The lines on a run before its queues."""
    last = "no rows" if run.last_at is None else f"{run.row_count:,} rows, the last at {duration(run.last_at)}"
    lines = [f"{title}: {last}"]
    if run.log.is_open:
        lines.insert(0, open_told(run.log))
    window = [f"{word} {duration(at)}" for word, at in (("from", run.first), ("to", run.last)) if at is not None]
    if window:
        lines.append(f"   counted {' '.join(window)}")
    if not run.has_report:
        lines.append("   it is not told which of the messages left are delayed")
    lost = lost_in(run)
    if lost:
        lines.append(style.alarm(f"!! LOST BY EXPIRY: {lost_told(lost)}"))
    return "".join(f"{line}\n" for line in lines)


def table_of(queues: Mapping[str, Sides], style: Style) -> str:
    """A line for each queue of one run; marked are those that lost messages."""
    sides = {name: values for name, (values,) in queues.items() if values}
    titles, *lines = overview_of(sides)
    marked = [style.alarm(f"{line}  !!") if values["lost_by_expiry"] else line
              for line, values in zip(lines, sides.values())]
    return "".join(f"{line}\n" for line in [titles, *marked])


def text_of(runs: Sequence[Run], queues: Mapping[str, Sides], style: Style) -> str:
    titles = [run.log.name for run in runs]
    if len(runs) == 2:
        titles = [f"before, {titles[0]}", f"after, {titles[1]}"]
    heads = [text_of_run(title, run, style) for title, run in zip(titles, runs)]
    if len(runs) == 1 and len(queues) > 1:
        heads.append("\n" + table_of(queues, style))
    return "\n".join(["".join(heads), *(text_of_queue(name, sides, style) for name, sides in queues.items())])


def json_of(runs: Sequence[Run], queues: Mapping[str, Sides]) -> str:
    """The same numbers with fixed keys."""
    shares = [{"log": run.log.path, "end_seen": not run.log.is_open,
               **{key: at for key, at in (("from_ms", run.first), ("to_ms", run.last)) if at is not None},
               "rows": run.row_count, "last_row_at_ms": run.last_at, "has_report": run.has_report,
               "queues": [sides[place] for sides in queues.values() if sides[place]]}
              for place, run in enumerate(runs)]
    values: Values = next((side for sides in queues.values() for side in sides if side), {})
    numbers = [key for key in values if key not in ("queue", "there_before", "dead_lettered_to", "moved_to")]
    differences: list[Values] = [{"queue": name, **{key: difference(sides[0], sides[-1], key) for key in numbers}}
                   for name, sides in queues.items() if len(runs) == 2]
    return json.dumps({"runs": shares, "differences": differences}, indent=2) + "\n"


def main(words: Sequence[str]) -> int:
    parser = Parser(__doc__).take("--rest", "--from", "--to", flags=["--door", "--json"], lists=["--queue"],
                                  numbers={"--backlog": BACKLOG})
    parser.add_argument("files", nargs="+", metavar="FILE")
    options = parser.parse_args(words)
    files = [*options.files, *([options.rest] if options.rest else [])]
    refuse(files.count("-") > 1, "standard input can be read once")
    refuse(options.backlog < 0, "--backlog is at least 0")
    reading = Reading(*window_of(options.first, options.last), options.door, options.backlog)
    runs = read_runs(files, reading)
    queues = values_of(runs, options.queue, options.json)
    is_coloured = is_terminal(sys.stdout) and os.environ.get("TERM") != "dumb" and not os.environ.get("NO_COLOR")
    print_text(json_of(runs, queues) if options.json else text_of(runs, queues, Style(is_coloured)))
    return 0
