"""Draws the log of a run, or the rows of a sweep, as one picture, SVG, PNG or PDF by the file's ending:

    tools/picture LOG [--rest REST.out] [--output FILE.svg] [--queue NAME ...] [--from TIME] [--to TIME]
        [--title TEXT] [--scenario FILE.toml] [--require 'QUEUE.COLUMN<NUMBER' ..] [--width W] [--height H]
    tools/picture --sweep ROWS.csv --column QUEUE.COLUMN ... [--setting NAME] [--output FILE.svg]
        [--title TEXT] [--require 'QUEUE.COLUMN<NUMBER' ..] [--width W] [--height H]

For each queue it draws how many messages are visible, in flight and delayed over time. It draws the middle, 95 % and
greatest age of messages when they were deleted, in steps, if any were; and the age of the oldest message in the queue.
If a scaler changed how many copies ask, it draws that number. Bars show how many messages left for the dead-letter
queue or expired. A part that has nothing to show is left out, and a note says so; the top says how many messages
expired in which queue. LOG is a file made by `run --log`, and REST.out what that run prints; or LOG is what `run`
prints without --log; - is standard input. A log without a report is that of a run that was ended: it is refused if it
comes by standard input, and of a file the picture says that the end was not seen. Without --output an SVG goes to
standard output. Without --queue every queue is drawn, or the 20 with the most rows if there are more. --queue may be
given several times, and also names a queue without rows if the report of the run follows the log. --from and --to draw
a part of the run: a time as 90s, 1.5h, 1h30m or 1:30:00, without a unit milliseconds. --scenario names the scenario
that was run, which is shown with its seed below the title. W and H are in pixels.

If a line changes more than once a pixel, its mean is drawn over a paler extent from the least to the greatest number.
Ages have a logarithmic axis if the greatest is over 100 times that in the middle. Without --to a picture ends with the
traffic, if no message is left and the log goes on for long. --require, as for tools/sweep, draws the bound
of an age, or of how many messages there are, as a dashed line.

A title is one line of printable characters. If the usual font lacks some of them, a PNG or PDF takes them from another
font of the machine. If none has them, a line on standard error says so, and boxes replace them. An SVG leaves its texts
to the program that shows it.

A log does not show a delay when it begins: a message counts as delayed if its release is in the log, or if the final
queues follow the log and say so. A picture shows the counts at the end of each millisecond.

--sweep draws what tools/sweep has written, also with --spread: each column of the report that is named with
its queue, such as orders.age_p95, against a setting. The setting is that of --setting, else the first that
was varied and is no seed. A point is the mean of the runs of all seeds, with a bar for its 95 % interval, as
tools/sweep has it; the band around it goes from the least to the greatest run. If other settings were varied,
each combination of them has a curve of its own. Numbers of a setting that are far apart have a logarithmic
axis. --require draws the bound of a column that is drawn.

Examples:

    ./sqs_rehearse run examples/dead_letters.toml | tools/picture - --to 40000 --output picture.svg
    tools/sweep examples/short_timeout.toml --vary queue.jobs.visibility_s=2..10 --vary seed=1..10 > rows.csv
        && tools/picture --sweep rows.csv --column jobs.age_p95 --output curve.svg
"""
from __future__ import annotations

import math
import os
import textwrap
from argparse import Namespace
from collections.abc import Callable, Iterable, Sequence
from typing import Any

from .console import Fault, Parser, check_library, check_output, check_title, note, print_text, refuse, write_bytes
from .curves import sweep_picture
from .drawing import (ALARM, CAPTION, COLOURS, FOOT, FORMATS, GREY, LEFT, LINE, RIGHT, Sheet, bytes_of, head_of,
                      letters_without_font, ticks_of)
from .histories import (PLACES, Course, Histories, History, ages_are_spread, ages_in, copies_levels, counts_in,
                        course_of, edges, levels, numpy, oldest)
from .logs import Log, tell_open
from .requirements import Requirement
from .scenarios import scenario_at
from .summaries import lost_told, named
from .units import duration, several, window_of

# Each line is thinner than the one that is drawn before it, so that lines of equal numbers are seen side by side.
THICKNESSES = {"delayed": 3.6, "in flight": 2.4, "visible": 1.2}
QUEUES_MOST = 20
WIDTH_LEAST, WIDTH_MOST, HEIGHT_MOST = 640, 20_000, 50_000
NAME, PANEL_LEAST = 26, 24
DEPTHS, AGES, OLDEST, COUNTS = 130, 84, 64, 56
# The pixels of a bin of ages, and of a column of which a mean is drawn.
BIN, COLUMN = 7, 4
# The columns of the report whose requirements are lines among the messages.
DEPTH_COLUMNS = ("depth_max", "visible", "in_flight", "delayed")
# A bound is drawn up to so many times the greatest number.
BOUND_FAR = 3

# Words of a caption, each with its colour.
Words = list[tuple[str, str]]


class Panel:
    """A part of what is drawn of a queue: its height, its caption in coloured words, and how it is drawn.

    `greatest` is the greatest number of it, and `least` the least one if the axis is to be logarithmic.
    """

    def __init__(self, height: int, caption: Words, is_time: bool, draw: Callable[[Any], None], greatest: float,
                 least: float | None = None) -> None:
        self.height, self.caption, self.is_time, self.draw_lines = height, caption, is_time, draw
        self.greatest, self.least = greatest, least
        self.bounds: list[float] = []
        self.required, self.head = "", CAPTION

    def with_bounds(self, requirements: list[Requirement]) -> "Panel":
        """The same with lines at the bounds of requirements, which a line of the caption names."""
        near = [one for one in requirements if self.least is not None or one.bound <= BOUND_FAR * self.greatest]
        self.bounds = [float(one.bound) for one in near]
        self.required = "; ".join(one.text if one in near else f"{one.text} (far above)" for one in requirements)
        self.head = CAPTION + (LINE if requirements else 0)
        return self

    def draw(self, axes: Any) -> float:
        """Draws it, and gives the greatest number that the axis has to have."""
        self.draw_lines(axes)
        for bound in self.bounds:
            axes.axhline(bound, color=ALARM, linewidth=1, linestyle=(0, (5, 3)))
        return max([self.greatest, *self.bounds])


def draw_course(axes: Any, course: Course, columns: int, colour: str, thickness: float) -> None:
    """Draws a line; if it changes too often for that, its mean over a paler extent."""
    if len(course.firsts) <= columns:
        times, numbers = course.corners()
        # what stays at zero is not drawn, so that lines on one another do not mix there
        times, numbers = times.reshape(-1, 2), numbers.reshape(-1, 2).astype(float)
        is_zero = (numbers == 0).all(axis=1)
        middles = numpy.where(is_zero, numpy.nan, numbers.mean(axis=1))
        axes.plot(numpy.stack([times[:, 0], times.mean(axis=1), times[:, 1]], axis=1).ravel(),
                  numpy.stack([numbers[:, 0], middles, numbers[:, 1]], axis=1).ravel(), color=colour,
                  linewidth=thickness)
        return
    bounds, means, least, greatest = course.extents(columns // COLUMN)
    means = numpy.where(greatest == 0, numpy.nan, means)
    last = [numpy.append(numbers, numbers[-1]) for numbers in (least, greatest)]
    axes.fill_between(bounds, *last, step="post", color=colour, alpha=0.22, linewidth=0)
    axes.stairs(means, bounds, baseline=None, color=colour, linewidth=1.4)


def caption_of(courses: Iterable[Course], columns: int) -> Words:
    """What the caption of a panel says if its lines are means over extents."""
    return [("(mean, in a paler extent)", GREY)] if any(len(one.firsts) > columns for one in courses) else []


def depth_panel(queue: History, start: int, end: int, columns: int,
                requirements: Sequence[Requirement]) -> Panel | str:
    courses = {place: course_of(*levels(queue, number, start, end)) for place, number in PLACES.items()}
    greatest = max(int(course.firsts.max()) for course in courses.values())

    def draw(axes: Any) -> None:
        for place, thickness in THICKNESSES.items():
            if courses[place].firsts.any():
                draw_course(axes, courses[place], columns, COLOURS[place], thickness)

    caption = [("messages:", GREY), *((place, COLOURS[place]) for place in PLACES),
               *caption_of(courses.values(), columns)]
    if not greatest:
        return "no message was there"
    return Panel(DEPTHS, caption, False, draw, greatest).with_bounds(
        [one for one in requirements if one.column in DEPTH_COLUMNS])


def copies_panel(queue: History, start: int, end: int, columns: int) -> Panel | None:
    """How many copies each scaler lets ask; none if no number changed in the whole run."""
    courses = [course_of(*copies_levels(*told, start, end)) for told in queue.copies.values()]
    if not courses:
        return None

    def draw(axes: Any) -> None:
        for course in courses:
            draw_course(axes, course, columns, COLOURS["copies"], 1.6)

    caption = [("copies that", GREY), ("ask", COLOURS["copies"]), *caption_of(courses, columns)]
    return Panel(COUNTS, caption, False, draw, max(int(course.firsts.max()) for course in courses))


def age_panel(queue: History, bounds: Any, requirements: Sequence[Requirement]) -> Panel | str:
    steps = dict(zip(("middle", "95 %", "greatest"), ages_in(queue, bounds)))
    if numpy.isnan(steps["greatest"]).all():
        return "no message was deleted"
    greatest, is_log = float(numpy.nanmax(steps["greatest"])), ages_are_spread(queue, bounds)
    least = float(numpy.nanmin(steps["middle"])) if is_log else None

    def draw(axes: Any) -> None:
        for name, ages in reversed(steps.items()):
            axes.stairs(numpy.maximum(ages, 1) if is_log else ages, bounds, baseline=None, color=COLOURS[name],
                        linewidth=1.8)

    caption = [("age when deleted, logarithmic:" if is_log else "age when deleted{}:", GREY),
               *((name, COLOURS[name]) for name in steps)]
    return Panel(AGES, caption, True, draw, greatest, least).with_bounds([one for one in requirements if one.is_age])


def oldest_panel(queue: History, start: int, end: int, columns: int) -> Panel | None:
    course = oldest(queue, start, end)
    if not course.greatest():
        return None

    def draw(axes: Any) -> None:
        draw_course(axes, course, columns, COLOURS["oldest"], 1.1)

    caption = [("age{} of the", GREY), ("oldest message", COLOURS["oldest"]), *caption_of([course], columns)]
    return Panel(OLDEST, caption, True, draw, course.greatest())


def count_panel(queue: History, bounds: Any) -> Panel | str:
    counts = {"redriven": counts_in(queue.redrives, bounds), "expired": counts_in(queue.expiries, bounds)}
    if not any(found.any() for found in counts.values()):
        return "none was redriven or expired"

    def draw(axes: Any) -> None:
        width = numpy.diff(bounds) / 2
        for place, (name, found) in enumerate(counts.items()):
            axes.bar(bounds[:-1] + place * width, found, width, align="edge", color=COLOURS[name], linewidth=0)

    return Panel(COUNTS, [("messages", GREY), *((name, COLOURS[name]) for name in counts)], False, draw,
                 max(int(found.max()) for found in counts.values()))


def scaled(height: int, scale: float) -> int:
    """The whole pixels of a height that is stretched."""
    return math.floor(height * scale + 1e-9)


class Part:
    """What is drawn of one queue: its panels, and the lines of text above them."""

    def __init__(self, queue: History, start: int, end: int, width: int,
                 requirements: Sequence[Requirement] = ()) -> None:
        self.name, self.described = queue.name, f"{queue.name}: {queue.counts()}."
        own = [requirement for requirement in requirements if requirement.is_of(queue.name)]
        columns = width - LEFT - RIGHT
        bounds = edges(start, end, columns // BIN)
        found = [depth_panel(queue, start, end, columns, own), copies_panel(queue, start, end, columns),
                 age_panel(queue, bounds, own), oldest_panel(queue, start, end, columns), count_panel(queue, bounds)]
        self.panels = [panel for panel in found if isinstance(panel, Panel)]
        told = [f"Whole run: {queue.counts()}"]
        if queue.peak:
            moment = duration(queue.peak_at).replace(" ", "\u00a0")
            told.append(f"The peak was {several(queue.peak, 'message')} at {moment}")
        absent = [text for text in found if isinstance(text, str)]
        if absent:
            told.append(f"In the time drawn {' and '.join(absent)}")
        self.lines = textwrap.wrap(". ".join(told) + ".", columns // 7)
        heads = sum(panel.head for panel in self.panels)
        self.fixed = NAME + LINE * len(self.lines) + heads + (FOOT if self.panels else 0)

    def height(self, scale: float) -> int:
        return self.fixed + sum(scaled(panel.height, scale) for panel in self.panels)


class Picture(Sheet):
    """A sheet with the parts of queues, over the same time."""

    def __init__(self, width: int, height: int, start: int, end: int) -> None:
        super().__init__(width, height)
        self.start, self.end = start, end

    def part(self, part: Part, top: int, scale: float) -> None:
        y = top + NAME - 8
        self.text(LEFT, y, self.shortened(part.name, 11, "bold"), 11, weight="bold", color="#333333")
        for line in part.lines:
            y += LINE
            self.text(LEFT, y, line, 8.5, color="#333333")
        y = top + NAME + LINE * len(part.lines)
        for place, panel in enumerate(part.panels):
            height = scaled(panel.height, scale)
            self.panel(panel, y + panel.head, height, place == len(part.panels) - 1)
            y += panel.head + height

    def panel(self, panel: Panel, top: int, height: int, is_last: bool) -> None:
        axes = self.axes(top, height)
        greatest, unit = panel.draw(axes), ""
        if panel.least is not None:
            self.set_upright_log(axes, panel.least, greatest, height)
        else:
            unit = self.set_upright(axes, greatest, height, panel.is_time)
        axes.set_xlim(self.start, self.end)
        places, texts, time_unit = ticks_of(self.start, self.end, max(1, self.room // 80), True)
        axes.set_xticks(places, texts if is_last else [""] * len(texts), fontsize=8)
        words = [(words.format(f" ({unit})") if "{}" in words else words, colour) for words, colour in panel.caption]
        required = self.shortened(f"required: {panel.required}", 8.5, "bold") if panel.required else ""
        self.caption(axes, words, *([[(required, ALARM)]] if required else []))
        if is_last:
            self.text(self.width - RIGHT, top + height + 36, f"time ({time_unit})", 8, ha="right", color=GREY)


def scale_of(parts: Sequence[Part], head: int, height: int | None) -> float:
    """By what the panels are stretched so that all, below the titles, have the height that was asked for."""
    if height is None:
        return 1
    fixed, panels = head + sum(part.fixed for part in parts), sum(part.height(1) - part.fixed for part in parts)
    least = fixed + math.ceil(panels * PANEL_LEAST / COUNTS)
    if height < least:
        raise Fault(f"a height of {height} is too small for {len(parts)} queues: {least} is enough")
    return (height - fixed) / panels if panels else 1


def picture(parts: Sequence[Part], start: int, end: int, titles: tuple[str, str, str], width: int,
            height: int | None) -> Any:
    """The figure of the parts, below a title, the remarks, and what was lost."""
    head = head_of(*titles[1:])
    scale = scale_of(parts, head, height)
    total = head + sum(part.height(scale) for part in parts)
    whole = Picture(width, max(height or 0, total), start, end)
    top = whole.titles(*titles)
    for part in parts:
        whole.part(part, top, scale)
        top += part.height(scale)
    whole.figure.set_label("\n".join([titles[0], *filter(None, titles[1:]), *(part.described for part in parts)]))
    return whole.figure


def origin_of(path: str | None) -> str:
    """A remark on the scenario that was run."""
    if path is None:
        return ""
    scenario = scenario_at(path)
    version = f", version {scenario['version']}" if isinstance(scenario.get("version"), int) else ""
    return f"{os.path.basename(path)}{version}, seed {scenario.get('seed', 0)}"


def options_of(words: Sequence[str]) -> Namespace:
    parser = Parser(__doc__).take("--rest", "--setting", "--output", "--from", "--to", "--title", "--scenario",
                                  flags=["--sweep"], lists=["--column", "--queue", "--require"],
                                  numbers={"--width": 1000, "--height": None})
    parser.add_argument("log", metavar="LOG")
    options = parser.parse_args(words)
    refuse(not WIDTH_LEAST <= options.width <= WIDTH_MOST,
           f"a width of {options.width} will not do: it is {WIDTH_LEAST} to {WIDTH_MOST}")
    refuse(options.height is not None and not options.height <= HEIGHT_MOST,
           f"a height of {options.height} is too great: {HEIGHT_MOST} is the most")
    ending = os.path.splitext(options.output)[1].lower() if options.output else ".svg"
    refuse(ending not in FORMATS, f"{options.output} ends in none of {', '.join(FORMATS)}")
    options.kind = FORMATS[ending]
    options.first, options.last = window_of(options.first, options.last)
    check_title(options.title)
    of_logs = options.rest, options.queue or None, options.first, options.last, options.scenario
    refuse(options.sweep and any(option is not None for option in of_logs),
           "--rest, --queue, --from, --to and --scenario go with a LOG, not with --sweep")
    refuse(not options.sweep and (options.column or options.setting is not None),
           "--column and --setting go with --sweep")
    return options


def log_picture(options: Namespace) -> Any:
    """The figure of the queues of a log."""
    log = Log(options.log, rest=options.rest)
    histories = Histories(log)
    told = ", ".join(filter(None, [origin_of(options.scenario), "the log's end was not seen" if log.is_open else ""]))
    start = histories.first if options.first is None else options.first
    end = histories.end_of_traffic() if options.last is None else options.last
    if options.last is None and end < histories.last:
        told += f"{', ' if told else ''}drawn until the traffic ends; the log goes on to {duration(histories.last)}"
    quiet = [name for name in histories.known or () if name not in histories.queues]
    if quiet and not options.queue:
        told += f"{', ' if told else ''}no message came to {named(quiet)}"
    refuse(not 0 <= start < end, f"there is no time from {start} to {end} ms")
    queues, left_out = histories.chosen(options.queue, QUEUES_MOST)
    requirements = [Requirement(text) for text in options.require]
    for one in requirements:
        refuse(not any(one.is_of(queue.name) for queue in queues), f"{one.text}: no queue {one.queue} is drawn")
    parts = [Part(queue, start, end, options.width, requirements) for queue in queues]
    lost = {queue.name: len(queue.expiries) for queue in histories.queues.values() if queue.expiries}
    titles = (options.title or "Queues over time", ", ".join(text for text in (told, left_out) if text),
              f"Lost by expiry in the whole run: {lost_told(lost)}" if lost else "")
    tell_open(log)
    return picture(parts, start, end, titles, options.width, options.height)


def main(words: Sequence[str]) -> int:
    options = options_of(words)
    check_output(options.output, [options.log, options.sweep, options.scenario])
    check_library("matplotlib", "python3-matplotlib")
    figure = (sweep_picture if options.sweep else log_picture)(options)
    lacking = letters_without_font(figure) if options.kind != "svg" else ""
    if lacking:
        note(f"no font of this machine has {lacking}: boxes stand there, and an SVG would leave them to its viewer")
    data = bytes_of(figure, options.kind)
    if options.output:
        write_bytes(options.output, data)
    else:
        print_text(data.decode("utf-8"))
    return 0
