"""Looks if the runs of a sweep have settled, and advises from when on to count. The tools import it; it is not a
command."""
from __future__ import annotations

from collections import Counter
from collections.abc import Sequence
from functools import partial
from typing import Any, NamedTuple, TextIO

from .decisions import Groups
from .drawing import ALARM, CAPTION, COLOURS, FOOT, GREY, RIGHT, Sheet, head_of, ticks_of
from .logs import REFUSALS, What
from .replay import Replay, handlers_of
from .runs import COLUMNS, Output
from .statistics import mean_of, moving_means, settled_from
from .units import exact
from .variants import horizon_of

# Into how many parts of equal length a run is cut, and of how many runs the mean is looked at.
PARTS = 200
RUNS_LEAST, RUNS_MOST = 5, 10
# How many rows are read at most, in some 2 s of a processor.
ROWS_MOST = 750_000
# Traffic is steady where in each tenth of a run between half and twice the mean comes in.
TENTHS, LEAST_SHARE, GREATEST_SHARE = 10, 0.5, 2.0
# The picture: over how many parts to both sides the mean moves, and its measures in pixels.
SMOOTH, WIDTH, PANEL, COLOUR = PARTS // 20, 1_000, 130, COLOURS["visible"]
# What the beginning changes of the mean depth less than this is left to stand.
PART_THAT_MATTERS = 0.05


class Series(NamedTuple):
    """The state of a queue over a run: the mean number of messages in it in each part, and how many came in in each
    tenth."""
    depths: list[float]
    entered: list[int]


class Advice(NamedTuple):
    """That a queue settles after some milliseconds, with the mean depth over all and from then on."""
    queue: str
    first: int
    whole: float
    rest: float


class Depth:
    """The messages in a queue over time, of a run of so many milliseconds."""

    def __init__(self, length: int) -> None:
        self.length, self.kinds = length, Counter[What]()
        self.number, self.since, self.entered = 0, 0.0, [0] * TENTHS
        self.areas = [0.0] * PARTS

    def pass_to(self, moment: float) -> None:
        """Notes that the number stayed as it is up to a moment, in parts of a run."""
        while self.since < moment:
            part = int(self.since)
            until = min(moment, part + 1)
            self.areas[part] += self.number * (until - self.since)
            self.since = until

    def enters(self, at: int, *_: object) -> None:
        self.pass_to(at * PARTS / self.length)
        self.number += 1
        self.entered[at * TENTHS // self.length] += 1

    def leaves(self, at: int, *_: object) -> None:
        self.pass_to(at * PARTS / self.length)
        self.number -= 1


HANDLERS = handlers_of(Depth)


def series_of(stream: TextIO, horizon: int) -> dict[str, Series]:
    """The series of each queue, from the log that a run prints; none where that is cut."""
    queues: dict[str, Depth] = {}
    rows = Replay(queues, lambda name: queues.setdefault(name, Depth(horizon + 1)), HANDLERS)
    if not Output(stream).is_whole(rows):
        return {}
    for queue in queues.values():
        queue.pass_to(PARTS)
    return {name: Series(queue.areas, queue.entered) for name, queue in queues.items()}


def advice_of(queue: str, runs: Sequence[Series], horizon: int) -> Advice | None:
    """From when on to count, by MSER-5 over the mean of some runs; None if all may count, or if that can't be
    decided."""
    entered = [sum(numbers) for numbers in zip(*(run.entered for run in runs))]
    # a burst is no run that could settle: about as many messages have to come in in each tenth
    mean = mean_of(entered)
    if not mean or not all(LEAST_SHARE * mean <= number <= GREATEST_SHARE * mean for number in entered):
        return None
    means = [mean_of(numbers) for numbers in zip(*(run.depths for run in runs))]
    cut = settled_from(means)
    if not cut:
        return None
    whole, rest = mean_of(means), mean_of(means[cut:])
    if abs(whole - rest) < PART_THAT_MATTERS * rest:
        return None
    return Advice(queue, -(-cut * (horizon + 1) // PARTS), whole, rest)


def deepest(groups: Groups) -> str:
    """The variant with the most messages at once in its queues, in the mean of its runs: it takes longest to settle."""
    known = groups.sweep.columns()
    place = known.index("depth_max") - len(known)

    def depth(key: str) -> float:
        rows = [row for row in groups.rows_of(key) if row[place]]
        return sum(int(row[place]) for row in rows) / (len(rows) or 1)

    return max(groups.numbers, key=depth)


class Looked(NamedTuple):
    """The series of some runs of a variant, which end at the same moment, by the names of their queues."""
    variant: str
    horizon: int
    queues: dict[str, list[Series]]

    @property
    def runs(self) -> int:
        return len(next(iter(self.queues.values()), []))


def looked_at(groups: Groups) -> Looked | None:
    """Runs the deepest variant again with its logs; None if its runs are too few or too long, or do not end
    together."""
    key, sweep = deepest(groups), groups.sweep
    width, numbers, left = len(sweep.columns()) + 1, [], ROWS_MOST
    for number in groups.numbers[key][:RUNS_MOST]:
        rows = groups.rows.get(number)
        if rows and rows[0][-width]:
            # about as many rows as the log has, by the columns of the report that count what happened
            left -= sum(int(number) for row in rows for number in row[1 - width:][:COLUMNS.index(REFUSALS[0])])
            numbers += [number] if left >= 0 else []
    scenarios = [sweep.varied(sweep.settings.words(number)) for number in numbers]
    horizons = {horizon_of(scenario) for scenario in scenarios}
    if len(numbers) < RUNS_LEAST or len(horizons) > 1:
        return None
    horizon = horizons.pop()
    runs = sweep.taken(scenarios, partial(series_of, horizon=horizon), groups.jobs)
    return Looked(key, horizon, {name: [run[name] for run in runs] for name in runs[0]
                                 if all(name in run for run in runs)})


def advise(looked: Looked) -> str | None:
    """A line that says from when on to count; None if there is nothing to advise."""
    found = [advice for name, runs in looked.queues.items() if (advice := advice_of(name, runs, looked.horizon))]
    if not found:
        return None
    queue, first, whole, rest = max(found, key=lambda advice: advice.first)
    return (f"the runs settle late: in {queue} the mean depth is {whole:,.1f} over all and {rest:,.1f} from "
            f"{exact(first)} on{f' with {looked.variant}' if looked.variant else ''}; --from {exact(first)} leaves "
            "their beginning out")


def picture_of(looked: Looked) -> Any:
    """Welch's picture: for each queue that messages came to the mean of all runs in each part of their time, and its
    moving mean; a dashed line is at the advice."""
    queues = {name: runs for name, runs in looked.queues.items() if any(sum(run.entered) for run in runs)}
    title = "When the runs settle" + (f", {looked.variant}" if looked.variant else "")
    height = head_of("x") + (CAPTION + PANEL) * len(queues) + FOOT
    sheet, described = Sheet(WIDTH, height), [title]
    top = sheet.titles(title, f"mean messages in the queue over {looked.runs} runs (pale), and their moving mean")
    for place, (name, runs) in enumerate(queues.items()):
        described.append(draw_queue(sheet, top, name, runs, looked.horizon, place == len(queues) - 1))
        top += CAPTION + PANEL
    sheet.figure.set_label("\n".join(described))
    return sheet.figure


def draw_queue(sheet: Sheet, top: int, name: str, runs: Sequence[Series], horizon: int, is_last: bool) -> str:
    """Draws a queue in a frame; returns what it shows in words."""
    depths = [run.depths for run in runs]
    means, smooth = [mean_of(numbers) for numbers in zip(*depths)], moving_means(depths, SMOOTH)
    part = (horizon + 1) / PARTS
    axes = sheet.axes(top + CAPTION, PANEL)
    middles = [part * (number + 0.5) for number in range(PARTS)]
    axes.plot(middles, means, color=f"{COLOUR}55", linewidth=1)
    axes.plot(middles[:len(smooth)], smooth, color=COLOUR, linewidth=1.8)
    axes.set_xlim(0, horizon + 1)
    sheet.set_upright(axes, max(means), PANEL, False)
    places, texts, unit = ticks_of(0, horizon + 1, sheet.room // 70, True)
    axes.set_xticks(places, texts if is_last else [], fontsize=8)
    if is_last:
        sheet.text(sheet.width - RIGHT, top + CAPTION + PANEL + 36, f"time ({unit})", 8, ha="right", color=GREY)
    advice = advice_of(name, runs, horizon)
    told = f"settled from {exact(advice.first)} on, by MSER-5" if advice else "no beginning to leave out is found"
    if advice:
        axes.axvline(advice.first, color=ALARM, linewidth=1, linestyle=(0, (5, 3)))
    sheet.caption(axes, [(name, COLOUR), (told, ALARM if advice else GREY)])
    return f"{name}: {told}"
