"""A sheet of matplotlib that is laid out in pixels from its top, with axes of times and counts. The tools that draw
import it; it is not a command.
"""
from __future__ import annotations

import functools
import html
import io
import logging
import math
import warnings
from collections.abc import Collection, Sequence
from typing import Any

from .console import Library

# What matplotlib says of its own folders and fonts is no line of a tool.
logging.getLogger("matplotlib").setLevel(logging.ERROR)
# letters_without_font finds letters that no font has, and the tool prints one line about them.
warnings.filterwarnings("ignore", message="Glyph .* missing from")

# The units of times, each with its milliseconds and how many of it a span has at least.
TIME_UNITS = (("ms", 1, 0), ("s", 1_000, 1), ("min", 60_000, 3), ("h", 3_600_000, 3), ("days", 86_400_000, 3))
# The ticks of a logarithmic axis of times, in milliseconds.
LOG_TICKS = ((1, "1 ms"), (10, "10 ms"), (100, "100 ms"), (1_000, "1 s"), (10_000, "10 s"), (60_000, "1 min"),
             (600_000, "10 min"), (3_600_000, "1 h"), (36_000_000, "10 h"), (86_400_000, "1 day"),
             (864_000_000, "10 days"))
STEPS_OF_UNIT = {"s": (10, 15, 20, 30), "min": (10, 15, 20, 30), "h": (3, 6, 12, 24, 48)}
COLOURS = {"visible": "#0072b2", "in flight": "#e69f00", "delayed": "#009e73", "redriven": "#d55e00",
           "expired": "#111111", "middle": "#3f1f69", "95 %": "#8e63b5", "greatest": "#c51b7d", "oldest": "#8c564b",
           "copies": "#56606b"}
GREY, ALARM = "#666666", "#b00020"
LEFT, RIGHT, HEAD, LINE, CAPTION, FOOT = 76, 30, 34, 16, 30, 52
# The kinds of pictures by the endings of their files.
FORMATS = {".svg": "svg", ".png": "png", ".pdf": "pdf"}
# Dots an inch, by which a pixel of a PNG is as long as one of an SVG.
DOTS = 96
matplotlib, fonts, boxes, drawn_texts, figures, agg = (Library(f"matplotlib{name}", "python3-matplotlib") for name in (
    "", ".font_manager", ".offsetbox", ".text", ".figure", ".backends.backend_agg"))


def nice_step(span: float, most: int, steps: Collection[float] = ()) -> float:
    """The least step of 1, 2 or 5 times a power of ten, or of `steps`, of which a span has at most `most` whole."""
    power: float = 10 ** (math.floor(math.log10(span / most)) - 1)
    tens = [factor * power for factor in (5, 10, 20, 50, 100)]
    fitting = [step for step in sorted({*tens, *steps}) if math.floor(span / step + 1e-9) <= most]
    in_unit = [step for step in fitting if step in steps]
    return in_unit[0] if in_unit and fitting[0] >= min(steps) else fitting[0]


def unit_of(span: float) -> tuple[str, int]:
    """The unit in which a span of time, in milliseconds, is read best, and how many milliseconds it has."""
    return next((unit, size) for unit, size, least in reversed(TIME_UNITS) if span >= least * size)


def number_text(value: float) -> str:
    return f"{value:,.3f}".rstrip("0").rstrip(".") if value % 1 else f"{round(value):,}"


def ticks_of(low: float, high: float, most: int, is_time: bool) -> tuple[list[float], list[str], str]:
    """Where an axis has its ticks, the text of each, and the unit of times."""
    unit, size = unit_of(high - low) if is_time else ("", 1)
    step = nice_step((high - low) / size, most, STEPS_OF_UNIT.get(unit, ()))
    step = max(1, step) if unit in ("", "ms") else step
    first, last = math.ceil(low / size / step - 1e-9), math.floor(high / size / step + 1e-9)
    places = [step * number * size for number in range(first, last + 1)]
    return places, [number_text(round(step * number, 6)) for number in range(first, last + 1)], unit


@functools.lru_cache
def letters_of(path: str) -> frozenset[int]:
    """The characters that the font of a file has, by their numbers."""
    try:
        return frozenset(fonts.get_font(path).get_charmap())
    except (OSError, RuntimeError):
        return frozenset()


@functools.lru_cache
def letters_of_family(name: str) -> frozenset[int]:
    """The characters that a font has by its family."""
    return letters_of(fonts.findfont(fonts.FontProperties(family=[name])))


@functools.lru_cache
def family_of(text: str) -> list[str] | None:
    """The fonts of a text: None for the usual one if it has all letters, else the usual one with another one after
    it."""
    lacking = frozenset(map(ord, text)) - letters_of_family("sans-serif")
    if not lacking:
        return None
    other = max(fonts.fontManager.ttflist, key=lambda font: len(lacking & letters_of(font.fname)))
    return ["sans-serif", other.name] if lacking & letters_of(other.fname) else None


def letters_without_font(figure: Any) -> str:
    """The letters of a figure that no font of its texts has."""
    lacking: dict[str, None] = {}
    for drawn in figure.findobj(drawn_texts.Text):
        there = [letters_of_family(name) for name in drawn.get_fontfamily()]
        lacking.update({letter: None for letter in drawn.get_text()
                        if letter != "\n" and not any(ord(letter) in letters for letters in there)})
    return "".join(lacking)


class Sheet:
    """A figure of matplotlib, laid out in pixels from the top."""

    def __init__(self, width: int, height: float) -> None:
        self.figure = figures.Figure(dpi=DOTS)
        self.width, self.height, self.room = width, height, width - LEFT - RIGHT
        self.figure.set_size_inches((width + 0.01) / DOTS, (height + 0.01) / DOTS)
        agg.FigureCanvasAgg(self.figure)

    def text(self, x: float, y: float, text: str, size: float, **more: Any) -> None:
        self.figure.text(x / self.width, 1 - y / self.height, text, fontsize=size, va="baseline", parse_math=False,
                         family=family_of(text), **more)

    def shortened(self, text: str, size: float, weight: str) -> str:
        """A text that fits into the width."""
        renderer = self.figure.canvas.get_renderer()
        while len(text) > 2:
            drawn = self.figure.text(0, 0, text, fontsize=size, weight=weight, family=family_of(text),
                                     parse_math=False)
            width = drawn.get_window_extent(renderer).width
            drawn.remove()
            if width <= self.room:
                break
            text = text[:max(1, min(len(text) - 2, int(len(text) * self.room / width) - 1))] + "…"
        return text

    def titles(self, title: str, told: str, alarm: str = "") -> int:
        """Writes the title, and below it the remarks, and what nobody may miss; returns where they end."""
        self.text(LEFT, 24, self.shortened(title, 12, "bold"), 12, weight="bold")
        lines = [line for line in ((told, "normal", GREY), (alarm, "bold", ALARM)) if line[0]]
        for place, (text, weight, colour) in enumerate(lines):
            self.text(LEFT, 42 + LINE * place, self.shortened(text, 8.5, weight), 8.5, weight=weight, color=colour)
        return head_of(told, alarm)

    def axes(self, top: float, height: float) -> Any:
        """A frame with a grid, over the whole width."""
        axes = self.figure.add_axes((LEFT / self.width, 1 - (top + height) / self.height, self.room / self.width,
                                     height / self.height))
        axes.tick_params(length=3, color="#888888", labelcolor="#333333")
        axes.grid(color="#e4e4e4", linewidth=0.7)
        axes.set_axisbelow(True)
        for side in ("top", "right"):
            axes.spines[side].set_visible(False)
        return axes

    def set_upright(self, axes: Any, greatest: float, height: int, is_time: bool) -> str:
        """Ticks from 0 to what is a little more than the greatest number; gives the unit."""
        greatest = max(1, greatest) * 1.05
        places, texts, unit = ticks_of(0, greatest, max(1, height // 22), is_time)
        axes.set_ylim(0, greatest)
        axes.set_yticks(places, texts, fontsize=8)
        return unit

    def set_upright_log(self, axes: Any, least: float, greatest: float, height: int) -> None:
        """A logarithmic axis of times from a little below the least to a little above the greatest, in milliseconds."""
        low, high = max(1, least) / 1.5, max(2, greatest) * 1.5
        axes.set_yscale("log")
        axes.set_ylim(low, high)
        ticks = [tick for tick in LOG_TICKS if low <= tick[0] <= high]
        ticks = ticks[::max(1, math.ceil(len(ticks) / max(1, height // 18)))]
        axes.set_yticks([place for place, _ in ticks], [text for _, text in ticks], fontsize=8)
        axes.set_yticks([], minor=True)

    def caption(self, axes: Any, *lines: Sequence[tuple[str, str]]) -> None:
        """Lines of words side by side above a frame, each in the colour of what it names."""
        rows = [boxes.HPacker(pad=0, sep=6, children=[
            boxes.TextArea(text, textprops={"color": colour, "size": 8.5, "parse_math": False,
                                            "family": family_of(text),
                                            "weight": "normal" if colour == GREY else "bold"})
            for text, colour in words]) for words in lines]
        axes.add_artist(boxes.AnchoredOffsetbox(
            "lower left", child=rows[0] if len(rows) == 1 else boxes.VPacker(children=rows, pad=0, sep=3), pad=0,
            borderpad=0.2, frameon=False, bbox_to_anchor=(0, 1), bbox_transform=axes.transAxes))


def head_of(*lines: str) -> int:
    """The height of the title, and of the lines below it that have a text."""
    return HEAD + LINE * sum(map(bool, lines))


def bytes_of(figure: Any, kind: str) -> bytes:
    """The bytes of a figure as svg, png or pdf; the same figure has the same.

    The label of the figure is its text for those who do not see it: a title, and lines that describe it.
    """
    stream, (title, _, described) = io.BytesIO(), figure.get_label().partition("\n")
    metadata = {"svg": {"Date": None, "Title": title}, "pdf": {"CreationDate": None, "Title": title},
                "png": {"Title": title, "Description": described}}[kind]
    with matplotlib.rc_context({"svg.fonttype": "none", "svg.hashsalt": "sqs_rehearse", "path.simplify": False}):
        figure.savefig(stream, format=kind, metadata=metadata)
    element = f"</title>\n <desc>{html.escape(described)}</desc>".encode("utf-8", "backslashreplace")
    return stream.getvalue().replace(b"</title>", element, 1) if kind == "svg" else stream.getvalue()
