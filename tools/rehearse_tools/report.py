"""Runs a scenario and reports it in one HTML file, which opens in a browser without a network:

    tools/report SCENARIO --output FILE.html [--require 'orders.age_p95<60s' ..] [--queue NAME ..]
        [--title TEXT] [--from TIME] [--to TIME] [--v3] [--scripts DIR] [--program P]

The page has the requirements and whether they hold, a table of all queues, pictures over time that can be zoomed with
the mouse, all numbers of each queue, the settings with their seed, and the command that made it. Its head has the
version, the date, which is that of SOURCE_DATE_EPOCH if the environment has it, and the SHA-256 of the scenario and its
scripts. --require is as for tools/sweep: a column of the report of a queue, a comparison and a number; one
that fails or is undecided has a line on standard error. Without --queue the 20 queues with the most rows are shown.
--from counts the run from this time on, such as 90s or 1.5h, so that a warm-up is left out, and --to ends it. --title
is the title of the page, and --scripts the folder of the scenario's scripts. --v3 reads version 3 of scenarios too, as
`run --v3` does; --preview is its former name. The program is that of --program, else of SQS_REHEARSE of the
environment, else sqs_rehearse beside this folder. The status is 0, 1 if a requirement does not hold or the program
refuses the scenario, 2 for a fault.

Examples:

    tools/report examples/dead_letters.toml --output report.html
    tools/report examples/dead_letters.toml --require 'orders.age_p95<10s' --require 'failed.expiries=0'
        --output report.html
"""
from __future__ import annotations

import base64
import datetime
import gzip
import json
import os
import shlex
import tempfile
import time
from argparse import Namespace
from collections.abc import Iterable, Mapping, Sequence
from html import escape
from typing import IO, Any, NamedTuple

from .console import (Fault, Parser, check_library, check_output, check_title, command_of, library, read_bytes,
                      read_text, refuse, shown, tell, write_text)
from .drawing import ALARM, COLOURS, unit_of
from .figures import COST, Figures, text_of
from .histories import (PLACES, Course, Histories, History, ages_are_spread, ages_in, copies_levels, counts_in,
                        course_of, edges, levels, oldest)
from .logs import FIGURE_HEADER, Log
from .programs import TOP, program_of, ran, reading_words
from .requirements import Failure, Requirement
from .results import checksum
from .runs import Counting, Reported, as_wanted, extra_of, reported
from .scenarios import consumers_of, items_of, names_of, parsed, scripts_in, ways_of, written
from .summaries import (LINES, OVERVIEW, Reading, Run, cell_of, cells_of, is_told, lost_in, lost_told, note_of,
                        read_runs)
from .units import duration, several, window_of

QUEUES_MOST = 20
# A line that changes more often than this is a mean over an extent, in so many columns.
COLUMNS_OF_LINES, BINS = 750, 240
# The level of gzip: the best one takes three times as long, and saves a hundredth.
PACKING = 6
# The height of a picture's panels, of the gaps between them in shares of it, and of what is around them, in pixels.
HEIGHT_OF_SHARE, GAP, MARGINS = 62, 0.5, 110
# The keys at the top of a scenario, with the defaults of those that need not be given.
TOP_KEYS = {"version": "not given", "horizon": "not given", "seed": "0, the default", "sample": "0, the default"}
# The page, with the places for what is put in.
PAGE = os.path.join(os.path.dirname(os.path.abspath(__file__)), "report.html")


class Judged(NamedTuple):
    """A requirement, the queue that it was looked at for, why it fails there, or None, and what is left there."""
    requirement: Requirement
    queue: str
    failure: Failure | None
    left: str


def run_program(program: str, text: str, words: Sequence[str], out: IO[bytes]) -> str | None:
    """Runs the scenario with some options and writes its log and what follows into a file; returns the refusal, or
    None."""
    status, told = ran([program, "run", "--quiet", *words], text.encode("utf-8"), out)
    if status == 0:
        return None
    lines = told.decode("utf-8", "replace").split("\n")
    return next((line for line in lines if line), f"the program ended with status {status}")


def judged(requirements: Iterable[Requirement], report: Reported) -> list[Judged]:
    """For each requirement and each of its queues, why it does not hold, or None."""
    found = []
    for requirement in requirements:
        records = [record for record in report.records if requirement.is_of(record[0])]
        refuse(not records, f"{requirement.text}: there is no queue {requirement.queue}")
        for name, *texts in records:
            ages = report.ages[name]
            left = requirement.left_told(texts, ages) if requirement.is_age else ""
            found.append(Judged(requirement, name, requirement.failure(texts, ages), left))
    return found


def rows_of_table(rows: Iterable[Iterable[tuple[str, Any]]]) -> str:
    return "".join("<tr>" + "".join(f"<td{kind}>{escape(str(cell))}</td>" for kind, cell in row) + "</tr>\n"
                   for row in rows)


def requirements_html(found: list[Judged]) -> str:
    if not found:
        return ""
    rows = [((' class="holds"', "holds") if failure is None else (' class="fails"', failure.word),
             ("", requirement.text), ("", name), ("", failure.reason if failure else left and f"also with {left}"))
            for requirement, name, failure, left in found]
    return f"<h2>Requirements</h2>\n<table>{rows_of_table(rows)}</table>\n"


def summary_html(values: dict[str, Any]) -> str:
    """What happened in a queue, with the lines of tools/summary; messages that were lost are marked."""
    rows = []
    for line in LINES:
        if is_told(line, [values]):
            mark = ' class="fails"' if line.key == "lost_by_expiry" and values[line.key] else ""
            number = ' class="number fails"' if mark else ' class="number"'
            rows.append(((mark, line.label.replace("  ", "\u2003")), (number, cell_of(line, values)),
                         (mark, note_of(line.key, values))))
    return f"<table>{rows_of_table(rows)}</table>\n"


def overview_html(queues: dict[str, dict[str, Any]], drawn: list[str], scenario: Mapping[str, Any]) -> str:
    """A table of all queues, a line each, with a link to the part of those that are drawn below."""
    dead_letters = {queue.get("dead_letter") for queue in items_of(scenario, "queue")}
    titles = "".join(f"<th>{escape(title)}</th>" for title in ("queue", *OVERVIEW.values(), ""))
    lines = ""
    for name, values in queues.items():
        link = f'<a href="#{section_of(drawn.index(name) + 1)}">{escape(name)}</a>' if name in drawn else escape(name)
        count = values["came_by_redrive"]
        told = several(count, "dead letter") if name in dead_letters else ""
        mark = ' class="fails"' if values["lost_by_expiry"] else ""
        lines += f"<tr{mark}><td>{link}</td>" + "".join(
            f"<td>{escape(cell)}</td>" for cell in (*cells_of(values), told)) + "</tr>\n"
    return f'<h2>All queues</h2>\n<table class="queues"><tr>{titles}</tr>\n{lines}</table>\n'


def section_of(number: int) -> str:
    """The name of the part of the page that is about a queue."""
    return f"section-{number}"


def origin_of(text: str, scenario: dict[str, Any], folder: str) -> str:
    """By which version the page was made and when, and the checksums of what was rehearsed."""
    seconds = os.environ.get("SOURCE_DATE_EPOCH", "")
    now = int(seconds) if seconds.isdecimal() and len(seconds) < 12 else int(time.time())
    date = datetime.datetime.fromtimestamp(now, datetime.timezone.utc).date()
    version = read_text(os.path.join(TOP, "tools", "VERSION")).strip()
    names = scripts_in(scenario)
    sums = [("scenario", checksum(text.encode("utf-8"))),
            *((name, checksum(read_bytes(os.path.join(folder, name)))) for name in names)]
    return f"sqs_rehearse {version}, {date}. SHA-256 of the {', of '.join(f'{name} {found}' for name, found in sums)}."


def numbers_of(array: Any, size: int = 1) -> list[float | None]:
    """The numbers of an array for JSON, in a unit; null for each that is missing."""
    return [None if number != number else round(float(number) / size, 6) for number in array]


def line(times: Any, numbers: list[float | None], name: str, size: int, **more: Any) -> dict[str, Any]:
    return {"type": "scatter", "mode": "lines", "name": name, "x": numbers_of(times, size), "y": numbers,
            "line": {"color": COLOURS[name], "width": 1.5, **more}, "connectgaps": False}


def lines_of_means(course: Course, name: str, size: int, unit: int = 1) -> list[dict[str, Any]]:
    """A line of means over a paler extent, in columns of time; nothing if it is zero throughout."""
    bounds, means, least, greatest = course.extents(COLUMNS_OF_LINES)
    middles = (bounds[1:] + bounds[:-1]) / 2
    if not any(numbers_of(greatest)):
        return []
    edges_of = [{**line(middles, numbers_of(numbers, unit), name, size, width=0), "showlegend": False,
                 "hoverinfo": "skip", "legendgroup": name} for numbers in (least, greatest)]
    edges_of[1].update(fill="tonexty", fillcolor=f"{COLOURS[name]}38")
    return [*edges_of, {**line(middles, numbers_of(means, unit), name, size), "legendgroup": name}]


class Panel(NamedTuple):
    """A part of the picture of a queue: its title, its share of the height, what is in it, and the kind of its axis."""

    title: str
    share: float
    traces: list[dict[str, Any]]
    axis: str = "linear"


def bounds_of(requirements: list[Requirement], ends: list[float], unit: int) -> list[dict[str, Any]]:
    """Dashed lines at the bounds of requirements, from one end of the time to the other."""
    return [{"type": "scatter", "mode": "lines", "name": escape(one.text), "x": ends,
             "y": [round(float(one.bound) / unit, 6)] * 2, "line": {"color": ALARM, "width": 1.5, "dash": "dash"}}
            for one in requirements]


def panels_of(queue: History, start: int, end: int, size: int, requirements: Iterable[Requirement] = ()) -> list[Panel]:
    """What may be drawn of a queue."""
    bounds = edges(start, end, BINS)
    places, ages, counts, copies = [], [], [], []
    for name, place in PLACES.items():
        times, numbers = levels(queue, place, start, end)
        if len(times) <= COLUMNS_OF_LINES:
            places.append(line(times, numbers_of(numbers), name, size, shape="hv"))
        else:
            places += lines_of_means(course_of(times, numbers), name, size)
    for told in queue.copies.values():
        times, numbers = copies_levels(*told, start, end)
        copies.append(line(times, numbers_of(numbers), "copies", size, shape="hv"))
    ranks = dict(zip(("middle", "95 %", "greatest"), ages_in(queue, bounds)))
    unit, unit_size = unit_of(max((age for age in numbers_of(ranks["greatest"]) if age is not None), default=0))
    # from the beginning of a bin to its end, with gaps for bins without an age
    corners = [moment for pair in zip(bounds[:-1], bounds[1:]) for moment in pair]
    for name, found in reversed(ranks.items()):
        steps = [age for age in numbers_of(found, unit_size) for _ in range(2)]
        ages.append(line(corners, steps, name, size, width=2.5))
    course = oldest(queue, start, end)
    oldest_unit, oldest_size = unit_of(course.greatest())
    times, oldest_ages = course.corners()
    ages_of_oldest = [line(times, numbers_of(oldest_ages, oldest_size), "oldest", size)] \
        if len(times) <= COLUMNS_OF_LINES else lines_of_means(course, "oldest", size, oldest_size)
    for name, moments in (("redriven", queue.redrives), ("expired", queue.expiries)):
        counts.append({"type": "bar", "name": name, "x": numbers_of((bounds[1:] + bounds[:-1]) / 2, size),
                       "y": numbers_of(counts_in(moments, bounds)), "marker": {"color": COLOURS[name]}})
    if any(any(trace["y"]) for trace in ages):
        ages += bounds_of([one for one in requirements if one.is_age], [start / size, end / size], unit_size)
    is_log = bool(len(queue.ages)) and ages_are_spread(queue, bounds)
    return [Panel("messages", 4, places), Panel("copies<br>that ask", 1.5, copies),
            Panel(f"age when<br>deleted ({unit})", 2, ages, "log" if is_log else "linear"),
            Panel(f"oldest ({oldest_unit})", 1.5, ages_of_oldest), Panel("redriven,<br>expired", 1.5, counts)]


def drawn(panels: Sequence[Panel]) -> list[Panel]:
    """The panels, and what is in them, that have a number other than 0."""
    found = [panel._replace(traces=[trace for trace in panel.traces if "showlegend" in trace or any(trace["y"])])
             for panel in panels]
    return [panel for panel in found if panel.traces]


def layout_of(panels: Sequence[Panel], unit: str, start: float, end: float) -> dict[str, Any]:
    """Where the panels of a picture are, one below the other over the same time, and how high all are together."""
    whole = sum(panel.share for panel in panels) + GAP * (len(panels) - 1)
    layout: dict[str, Any] = {"height": round(HEIGHT_OF_SHARE * whole) + MARGINS, "barmode": "stack", "hovermode": "x",
              "margin": {"l": 100, "r": 20, "t": MARGINS // 2, "b": MARGINS // 2}, "showlegend": True,
              "legend": {"orientation": "h", "y": 1.0, "yanchor": "bottom", "traceorder": "normal"},
              "xaxis": {"title": f"time ({unit})", "anchor": f"y{len(panels)}", "range": [start, end]}}
    top = whole
    for number, (title, share, _, axis) in enumerate(panels, 1):
        domain = [max(0, round((top - share) / whole, 4)), round(top / whole, 4)]
        ticks: dict[str, Any] = {"dtick": 1} if axis == "log" else {"rangemode": "tozero"}
        layout[f"yaxis{number}"] = {"title": {"text": title, "standoff": 14}, "domain": domain, "type": axis, **ticks}
        top -= share + GAP
    return layout


def figure_html(number: int, queue: History, start: int, end: int, requirements: Iterable[Requirement] = ()) -> str:
    """A picture of a queue that zooms, with a text for those who do not see it; nothing if there is nothing to draw."""
    unit, size = unit_of(end - start)
    panels = drawn(panels_of(queue, start, end, size, [one for one in requirements if one.is_of(queue.name)]))
    if not panels:
        return ""
    traces = [{**trace, "yaxis": f"y{number}"} for number, panel in enumerate(panels, 1) for trace in panel.traces]
    layout = layout_of(panels, unit, start / size, end / size)
    words = (json.dumps(part).replace("</", "<\\/") for part in (traces, layout))
    told = escape(f"{queue.name} over time. {queue.counts()}.", quote=True)
    return f'<div id="queue-{number}" role="img" aria-label="{told}"></div>\n' \
           f'<script>draw("queue-{number}", {", ".join(words)}, ' \
           '{"responsive": true, "scrollZoom": true, "displaylogo": false});</script>\n'


def settings_html(scenario: Mapping[str, Any]) -> str:
    """The settings of the scenario, a row for each table; a script's text is left to the whole scenario below."""
    rows = [(("", key), ("", scenario.get(key, default))) for key, default in TOP_KEYS.items()]
    for of in ("queue", "actor", "task"):
        for item in scenario.get(of, []):
            told = ", ".join(f"{key} = {value}" for key, value in item.items() if key not in ("name", "calls"))
            rows.append((("", f"{of} {item.get('name')}"), ("", told)))
    return rows_of_table(rows)


def report_in(run: Run, figures: Figures, counting: Counting) -> Reported:
    """The report of a run whose output is in a file, with the figures that are wanted and what is counted from the log.
    """
    records = [[name, *map(text_of, numbers.values())] for name, numbers in run.log.report.items()]
    found = as_wanted(records, (run.log.parts or {}).get(FIGURE_HEADER[0], ()), figures)
    if counting.with_doors or found is None or found.is_open:
        with open(run.log.path, encoding="utf-8", newline="") as file:
            found = reported(file, counting, figures)
    return found or Reported([], {})


def page(options: Namespace, words: Sequence[str], text: str, path: str) -> tuple[str, list[Judged]]:
    """The page of a run whose log is in a file, and the requirements that were judged."""
    scenario = parsed(text, options.scenario)
    run, = read_runs([path], Reading(options.first, has_figures=True))
    requirements = [Requirement(requirement) for requirement in options.require]
    first, end = options.first or 0, min(scenario["horizon"], options.last or scenario["horizon"])
    extra = extra_of(requirement.column for requirement in requirements)
    figures = extra.figures(first, end, consumers_of(scenario))
    found = judged(requirements, report_in(run, figures, Counting(first, end, extra.with_doors, ways_of(scenario))))
    lost = lost_told(lost_in(run))
    body = (f'<p class="fails">Lost by expiry: {escape(lost)}</p>\n' if lost else "") + requirements_html(found)
    if run.row_count:
        histories = Histories(Log(path))
        queues, left_out = histories.chosen(options.queue, QUEUES_MOST)
        start = max(histories.first, options.first or 0)
        end = max(histories.end_of_traffic(), start + 1)
        values = {name: queue.values() for name, queue in run.queues.items()}
        body += overview_html(values, [queue.name for queue in queues], scenario)
        if end < histories.last:
            body += f"<p>Pictures end with the traffic, at {duration(end)}.</p>\n"
        for number, queue in enumerate(queues, 1):
            body += f'<h2 id="{section_of(number)}">{escape(queue.name)}</h2>\n'
            body += figure_html(number, queue, start, end, requirements)
            body += f"<details><summary>All numbers</summary>{summary_html(values[queue.name])}</details>\n"
        body = f"<p>Here are {escape(left_out)}.</p>\n{body}" if left_out else body
    told = f"{run.row_count:,} rows" + (f", the last at {duration(run.last_at)}" if run.last_at is not None else "")
    ends = "".join(f", {word} {duration(at)}" for word, at in (("counted from", options.first),
                                                               ("ended at", options.last)) if at is not None)
    intro = f"{os.path.basename(options.scenario)}, seed {scenario.get('seed', 0)}: {told}{ends}."
    # the script of plotly is a fourth as long when it is packed
    plotly = gzip.compress(library("plotly.offline", "python3-plotly").get_plotlyjs().encode("utf-8"), PACKING, mtime=0)
    return read_text(PAGE).format(
        title=escape(options.title or f"Rehearsal of {os.path.basename(options.scenario)}"), intro=escape(intro),
        origin=escape(origin_of(text, scenario, options.scripts)),
        library=base64.b64encode(plotly).decode("ascii"), body=body,
        settings=settings_html(scenario), scenario=escape(text),
        command=escape(f"{command_of('report')} {shlex.join(words)}")), found


def options_of(words: Sequence[str]) -> Namespace:
    parser = Parser(__doc__).take("--from", "--to", "--title", "--scripts", "--program", flags=["--v3"],
                                  lists=["--require", "--queue"])
    parser.add_argument("scenario", metavar="SCENARIO")
    parser.add_argument("--output", required=True)
    options = parser.parse_args(words)
    options.first, options.last = window_of(options.first, options.last)
    return options


def text_within(text: str, options: Namespace) -> str:
    """The text of the scenario, which ends where the counting does."""
    if options.first is None and options.last is None:
        return text
    scenario = parsed(text, options.scenario)
    horizon = scenario.get("horizon")
    if not isinstance(horizon, int):
        return text
    if options.first is not None and options.first > horizon:
        raise Fault(f"--from {options.first} ms is after the horizon of {horizon} ms")
    if options.last is None:
        return text
    cut: str = written({**scenario, "horizon": min(horizon, options.last)})
    return cut


def scripts_of(text: str, options: Namespace) -> list[str]:
    """The paths of the scripts that a scenario's text names, if the program may take it."""
    try:
        return [os.path.join(options.scripts, name) for name in scripts_in(parsed(text, options.scenario))]
    except Fault:
        return []


def main(words: Sequence[str]) -> int:
    options = options_of(words)
    check_title(options.title)
    for requirement in options.require:
        if Requirement(requirement).share is not None:
            raise Fault(f"{shown(requirement)}: a report has one run, and no share of runs (tools/sweep has)")
        if Requirement(requirement).column == COST:
            raise Fault(f"{shown(requirement)}: a report knows no price (tools/sweep has --price)")
    text = read_text(options.scenario)
    for name in options.queue:
        if name not in names_of(parsed(text, options.scenario), "queue"):
            raise Fault(f"the scenario has no queue {shown(name)}")
    cut_text = text_within(text, options)
    check_library("plotly", "python3-plotly")
    check_library("numpy", "python3-numpy")
    program = program_of(options.program)
    check_output(options.output, [options.scenario, program, *scripts_of(text, options)])
    # a file without a name is gone with the tool, whatever ends it
    with tempfile.TemporaryFile() as log:
        words_of_run = [*reading_words(options), *Figures(options.first or 0, 0).words()]
        refusal = run_program(program, cut_text, words_of_run, log)
        if refusal:
            tell(f"{shown(refusal)}; {command_of('explain')} tells more")
            return 1
        html, found = page(options, words, text, f"/dev/fd/{log.fileno()}")
    write_text(options.output, html)
    failed = [f"{requirement.told_of(name)} {failure.word}: {failure.reason}"
              for requirement, name, failure, _ in found if failure]
    for line in failed:
        tell(line)
    return 1 if failed else 0
