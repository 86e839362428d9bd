"""Draws a setting against a column of the report, over the rows of a sweep. tools/picture imports it; it is not a
command.
"""
from __future__ import annotations

import csv
import io
import math
import re
import statistics
from argparse import Namespace
from collections.abc import Iterable, Sequence
from typing import Any, Optional

from .console import Fault, read_text, refuse, shown
from .drawing import ALARM, CAPTION, FOOT, GREY, LEFT, LINE, RIGHT, Sheet, head_of, ticks_of
from .requirements import Requirement, folded_as, interval_of_mean
from .runs import ALL_COLUMNS
from .statistics import Interval

NUMBER = re.compile(r"[0-9]{1,19}(?:\.[0-9]{1,9})?")
HUES = ("#0072b2", "#d55e00", "#009e73", "#8e63b5", "#e69f00", "#c51b7d", "#111111", "#8c564b")
PANEL_HEIGHT, PANEL_LEAST, WORDS_MOST = 240, 60, 40
# A setting is on a logarithmic axis from so many numbers on, if the last is so many times the first, and the widest gap
# so many times the narrowest one.
SPREAD_LEAST, SPREAD, SPREAD_GAPS = 4, 20, 10
# The pixels of a letter, at most on average.
LETTER = 8

# The mean, the least and the greatest of a column over runs, and the interval of the mean or None.
Point = tuple[float, float, float, Optional[Interval]]


def is_age(column: str) -> bool:
    return column.startswith("age_")


class Rows:
    """What a sweep has written: the settings that were varied, and for each row their words, the queue and numbers."""

    def __init__(self, path: str) -> None:
        self.path = path
        try:
            records = list(csv.reader(io.StringIO(read_text(path)), strict=True))
        except csv.Error as error:
            raise Fault(f"{path} is not CSV: {error}") from None
        header = records[0] if records else []
        self.settings = header[:header.index("failed")] if "failed" in header else []
        rest = header[len(self.settings):]
        self.is_folded = rest[2:3] == ["runs"]
        self.columns = rest[3:] if self.is_folded else rest[2:]
        known = [f"{column}_{of}" for column in ALL_COLUMNS for of in folded_as(column)] \
            if self.is_folded else ALL_COLUMNS
        refuse(rest[:2] != ["failed", "queue"] or not set(self.columns) <= set(known), f"{path} has no rows of a sweep")
        self.rows: list[tuple[dict[str, str], str, int, dict[str, float]]] = []
        self.failed = 0
        for place, record in enumerate(records[1:], 2):
            if len(record) != len(header):
                raise Fault(f"{path}: record {place} has {len(record)} fields, and the header {len(header)}")
            self.take(record, place)

    def take(self, record: list[str], place: int) -> None:
        varied, failed, queue = (record[:len(self.settings)], *record[len(self.settings):][:2])
        if failed:
            self.failed += 1
            return
        texts = record[-len(self.columns):] if self.columns else []
        for text in texts:
            if text and not NUMBER.fullmatch(text):
                raise Fault(f"{self.path}: record {place} has {shown(text)}, which is no number")
        runs = record[len(varied) + 2] if self.is_folded else "1"
        if not re.fullmatch("[0-9]{1,9}", runs):
            raise Fault(f"{self.path}: record {place} has {shown(runs)} runs")
        numbers = {column: float(text) for column, text in zip(self.columns, texts) if text}
        self.rows.append((dict(zip(self.settings, varied)), queue, int(runs), numbers))

    def queues(self) -> list[str]:
        return list(dict.fromkeys(queue for _, queue, _, _ in self.rows))


class Curve:
    """For each word of a setting the numbers of a column: mean, least and greatest, and of how many runs."""

    def __init__(self, name: str, column: str) -> None:
        self.name, self.column = name, column
        self.numbers: dict[str, list[tuple[int, Point]]] = {}

    def add(self, word: str, runs: int, numbers: Point) -> None:
        self.numbers.setdefault(word, []).append((runs, numbers))

    def at(self, word: str) -> tuple[float, float, float, int] | None:
        """Mean, least, greatest and how many runs; None if no run has a number."""
        found = self.numbers.get(word)
        if not found:
            return None
        runs = sum(count for count, _ in found)
        mean = statistics.fmean(number[0] for _, number in found)
        return mean, min(number[1] for _, number in found), max(number[2] for _, number in found), runs

    def interval(self, word: str) -> Interval | None:
        """The 95 % interval of the mean: of single runs, or as folded rows have it; else None."""
        found = self.numbers.get(word, [])
        if len(found) == 1:
            return found[0][1][3]
        if any(runs != 1 for runs, _ in found):
            return None
        return interval_of_mean(self.column, [number[0] for _, number in found])


def setting_of(rows: Rows, wanted: str | None) -> str:
    """The setting along the axis: the one that was asked for, or the first that is no seed."""
    if wanted is not None and wanted not in rows.settings:
        raise Fault(f"{rows.path} does not vary {shown(wanted)}; it varies {', '.join(rows.settings) or 'nothing'}")
    found = wanted or next((name for name in rows.settings if name != "seed"), None)
    if found is None:
        raise Fault(f"{rows.path} varies no setting other than a seed; --setting seed draws that")
    return found


def curves_of(rows: Rows, setting: str, text: str) -> list[Curve]:
    """The curves of a column of a queue, as orders.age_p95: one for each combination of the other settings."""
    queue, _, column = text.rpartition(".")
    if queue not in rows.queues():
        raise Fault(f"{shown(text)}: the sweep has no queue {shown(queue)}; it has {', '.join(rows.queues())}")
    keys = [f"{column}_{of}" for of in ("mean", "least", "greatest")] if rows.is_folded else [column] * 3
    refuse(not set(keys) <= set(rows.columns), f"{shown(text)}: the sweep has no column {shown(column)}")
    curves: dict[tuple[tuple[str, str], ...], Curve] = {}
    for varied, name, runs, numbers in rows.rows:
        if name == queue:
            others = [(key, word) for key, word in varied.items() if key not in (setting, "seed")]
            title = ", ".join(f"{key} = {word}" for key, word in others)
            curve = curves.setdefault(tuple(others), Curve(title, column))
            if keys[0] in numbers:
                mean, least, greatest = (numbers[key] for key in keys)
                curve.add(varied[setting], runs, (mean, least, greatest, interval_in(column, mean, numbers)))
    if len(curves) > len(HUES):
        raise Fault(f"{len(curves)} curves are too many to tell apart: other settings than {setting} are varied, of "
                    f"which {len(HUES)} combinations can be drawn")
    return list(curves.values())


def interval_in(column: str, mean: float, numbers: dict[str, float]) -> Interval | None:
    """The interval of a mean that a folded row has; None if it has none."""
    ends = [numbers.get(f"{column}_mean_{end}") for end in ("low", "high")]
    half = numbers.get(f"{column}_half_width")
    if half is not None:
        return Interval(mean - half, mean + half)
    return None if ends[0] is None or ends[1] is None else Interval(ends[0], ends[1])


def are_spread(numbers: list[float]) -> bool:
    """Whether a logarithmic axis shows ascending numbers better, because most would be close together at the end of an
    even one."""
    gaps = [late - early for early, late in zip(numbers, numbers[1:])]
    return len(numbers) >= SPREAD_LEAST and numbers[0] > 0 and numbers[-1] >= SPREAD * numbers[0] \
        and max(gaps) >= SPREAD_GAPS * min(gaps)


class Axis:
    """The words of a setting: at their numbers if all are numbers, else side by side."""

    def __init__(self, rows: Rows, setting: str) -> None:
        self.setting = setting
        words = list(dict.fromkeys(varied[setting] for varied, _, _, _ in rows.rows))
        self.is_number = all(NUMBER.fullmatch(word) for word in words)
        if self.is_number:
            words.sort(key=float)
        elif len(words) > WORDS_MOST:
            raise Fault(f"{setting} has {len(words)} words, too many to stand side by side")
        self.places = {word: float(word) if self.is_number else place for place, word in enumerate(words)}
        self.is_log = self.is_number and are_spread(list(self.places.values()))

    def set_log_on(self, axes: Any, room: int, is_labelled: bool) -> None:
        """A logarithmic axis with the numbers themselves below it, as far as they have room."""
        low, high = min(self.places.values()), max(self.places.values())
        axes.set_xscale("log")
        axes.set_xlim(low / 1.2, high * 1.2)
        told: dict[str, float] = {}
        whole = math.log(high * 1.2 / (low / 1.2))
        for word, place in self.places.items():
            x = room * math.log(place / (low / 1.2)) / whole
            if all(abs(x - other) > LETTER * (len(word) + 1) for other in told.values()):
                told[word] = x
        axes.set_xticks([self.places[word] for word in told], list(told) if is_labelled else [""] * len(told),
                        fontsize=8)
        axes.set_xticks([], minor=True)

    def set_on(self, axes: Any, room: int, is_labelled: bool) -> None:
        if self.is_log:
            self.set_log_on(axes, room, is_labelled)
            return
        low, high = min(self.places.values()), max(self.places.values())
        margin = ((high - low) * 0.02 or 0.5) if self.is_number else 0.5
        axes.set_xlim(low - margin, high + margin)
        if self.is_number:
            is_whole = all(place.is_integer() for place in self.places.values())
            places, texts, _ = ticks_of(max(0, low - margin), high + margin, max(1, room // 80), False)
            pairs = [pair for pair in zip(places, texts) if not is_whole or float(pair[0]).is_integer()]
            places, texts = [place for place, _ in pairs], [text for _, text in pairs]
        else:
            places, most = list(self.places.values()), max(3, room // len(self.places) // 7)
            texts = [word if len(word) <= most else word[:most - 1] + "…" for word in self.places]
        axes.set_xticks(places, texts if is_labelled else [""] * len(texts), fontsize=8)


def draw_curves(axes: Any, axis: Axis, curves: Sequence[Curve]) -> float:
    """Draws the mean of each curve, and from the least to the greatest number; gives the greatest of all.

    Between words that are no numbers there is nothing, so that they are not joined.
    """
    greatest = 0.0
    for curve, hue in zip(curves, HUES):
        found = [(place, curve.at(word)) for word, place in axis.places.items()]
        shown_at = [(place, *numbers[:3]) if numbers else (place, *[math.nan] * 3) for place, numbers in found]
        places, means, least, most = zip(*shown_at)
        if axis.is_number:
            axes.fill_between(places, least, most, color=hue, alpha=0.18, linewidth=0)
        there = [(place, *numbers[1:3]) for place, numbers in found if numbers]
        width = 1 if axis.is_number else 5
        axes.vlines(*zip(*there) if there else ([], [], []), color=hue, alpha=0.45, linewidth=width)
        axes.plot(places, means, color=hue, linewidth=1.8 if axis.is_number else 0, marker="o", markersize=3.5)
        bars = [(place, mean, (mean - interval.low, interval.high - mean))
                for word, place, mean in zip(axis.places, places, means)
                if (interval := curve.interval(word)) and interval.low < interval.high]
        if bars:
            axes.errorbar(*list(zip(*bars))[:2], yerr=list(zip(*(sides for *_, sides in bars))), fmt="none", ecolor=hue,
                          elinewidth=1.6, capsize=4)
        greatest = max([greatest, *(number for number in most if not math.isnan(number))])
    return greatest


def runs_told(curves: Iterable[Curve], axis: Axis) -> str:
    """How many runs each point has."""
    counts = {found[3] for curve in curves for word in axis.places if (found := curve.at(word))}
    if not counts:
        return "no run has any"
    if counts == {1}:
        return "one run each"
    return f"mean, and least to greatest, of {min(counts):,}" \
        + (f" to {max(counts):,}" if len(counts) > 1 else "") + " runs"


def lines_of(words: Iterable[tuple[str, str]], room: int) -> list[list[tuple[str, str]]]:
    """Words in lines, as many in each as fit into a width; a word that does not fit is cut."""
    lines: list[list[tuple[str, str]]] = [[]]
    used = 0
    for text, colour in words:
        most = room // LETTER
        text = text if len(text) <= most else text[:most - 1] + "…"
        if lines[-1] and used + LETTER * len(text) > room:
            lines, used = [*lines, []], 0
        lines[-1].append((text, colour))
        used += LETTER * len(text) + 6
    return lines


class Panel:
    """A column against a setting: its curves, and the lines of words above it."""

    def __init__(self, rows: Rows, axis: Axis, text: str, room: int, requirements: Sequence[Requirement] = ()) -> None:
        self.text, self.axis = text, axis
        self.curves = curves_of(rows, axis.setting, text)
        unit = " (d)" if is_age(text.rpartition(".")[2]) else ""
        named = [(curve.name, hue) for curve, hue in zip(self.curves, HUES) if curve.name]
        self.required = [one for one in requirements if one.is_of(text.rpartition(".")[0])
                         and one.column == text.rpartition(".")[2]]
        bounds = [(f"required: {one.text}", ALARM) for one in self.required]
        has_intervals = any(curve.interval(word) for curve in self.curves for word in axis.places)
        bars = [("(bars: 95 % interval of the mean)", GREY)] if has_intervals else []
        self.lines = lines_of([(f"{text}{unit}: {runs_told(self.curves, axis)}", GREY), *bars, *bounds, *named], room)
        self.head = CAPTION + LINE * (len(self.lines) - 1)

    def draw(self, sheet: Sheet, top: float, height: int, is_last: bool) -> None:
        axes = sheet.axes(top + self.head, height)
        greatest, bounds = draw_curves(axes, self.axis, self.curves), [float(one.bound) for one in self.required]
        for bound in bounds:
            axes.axhline(bound, color=ALARM, linewidth=1, linestyle=(0, (5, 3)))
        unit = sheet.set_upright(axes, max([greatest, *bounds]), height, is_age(self.text.rpartition(".")[2]))
        self.axis.set_on(axes, sheet.room, is_last)
        sheet.caption(axes, *([(text.replace(" (d):", f" ({unit}):"), hue) for text, hue in line]
                              for line in self.lines))


def sweep_picture(options: Namespace) -> Any:
    """The figure of the columns that were asked for, over the rows of a sweep in a file."""
    refuse(not options.column, "--column is needed, as --column orders.age_p95")
    rows = Rows(options.log)
    refuse(not rows.rows, f"{options.log} has no variant that ran")
    axis = Axis(rows, setting_of(rows, options.setting))
    requirements = [Requirement(text) for text in options.require]
    panels = [Panel(rows, axis, text, options.width - LEFT - RIGHT, requirements)
              for text in dict.fromkeys(options.column)]
    for one in requirements:
        refuse(not any(one in panel.required for panel in panels), f"{one.text}: no --column is drawn of it")
    told = f"rows of variants that failed, and are left out: {rows.failed:,}" if rows.failed else ""
    fixed = head_of(told) + FOOT + sum(panel.head for panel in panels)
    height = PANEL_HEIGHT if options.height is None else (options.height - fixed) // len(panels)
    if height < PANEL_LEAST:
        raise Fault(f"a height of {options.height} is too small for {len(panels)} columns: "
                    f"{fixed + PANEL_LEAST * len(panels)} is enough")
    sheet = Sheet(options.width, max(options.height or 0, fixed + height * len(panels)))
    top = sheet.titles(options.title or f"What {axis.setting} does", told)
    for panel in panels:
        panel.draw(sheet, top, height, panel is panels[-1])
        top += panel.head + height
    sheet.text(sheet.width - RIGHT, top + 36, sheet.shortened(axis.setting, 8, "normal"), 8, ha="right", color=GREY)
    described = [" ".join(text.replace(" (d):", ":") for text, _ in line) for panel in panels
                 for line in panel.lines]
    sheet.figure.set_label("\n".join([options.title or f"What {axis.setting} does", *described]))
    return sheet.figure
