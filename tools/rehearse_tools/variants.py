"""The variants of a scenario that a sweep runs, and how they are run. The tools import it; it is not a command."""
from __future__ import annotations

import itertools
import math
import os
import re
import signal
import subprocess
import sys
import threading
import time
from collections import deque
from collections.abc import Callable, Iterable, Iterator, Mapping, Sequence
from concurrent.futures import Future, ThreadPoolExecutor, wait
from contextlib import contextmanager
from typing import Any, NamedTuple

from .console import Fault, Progress, is_terminal, read_bytes, read_text, refuse, stop, take_signals, tell, write_bytes
from .keys import VERSION_3
from .programs import version_words
from .runs import ALL_COLUMNS, COLUMNS, Ages, Counting, Ended, Engine, Extra, Ran, Take, piped, run
from .scenarios import Setting, consumers_of, parsed, scripts_in, value_of, varied, ways_of, written
from .scripts import NAME as SCRIPT_NAME

VARIANTS_MOST = 1_000_000
# How far lines of progress are apart in a file or pipe.
SECONDS_APART = 10
# How many runs are asked for ahead of the one whose turn it is.
AHEAD = 256
# For how long at most the main thread waits for a run before it looks for signals.
LOOK_SECONDS = 0.5
# A word of a list of values: a text in quotes, a list with no list in its lists, or anything else.
WORDS = re.compile(r'("[^"]*"|\[(?:[^\[\]]|\[[^\[\]]*\])*\]|[^",]+)(?:,(?!$)|$)')
RANGE = re.compile(r"(-?[0-9]+)\.\.(-?[0-9]+)(?:\.\.([1-9][0-9]*))?")


def values_of(text: str) -> list[str]:
    """The words of a list of values, with ranges written out."""
    words: list[str] = []
    at = 0
    while at < len(text):
        match = WORDS.match(text, at)
        if not match:
            raise Fault(f"{text} is no list of values, as 2,5,10 or 1..20")
        bounds = RANGE.fullmatch(match[1])
        if bounds:
            numbers = range(int(bounds[1]), int(bounds[2]) + 1, int(bounds[3] or 1))
            refuse(not 0 < len(numbers) <= VARIANTS_MOST, f"{match[1]} has no values or over {VARIANTS_MOST}")
            words += map(str, numbers)
        else:
            words.append(match[1])
        at = match.end()
    return words


class Given(NamedTuple):
    """A setting with its values as the command line has it: by --vary, or by --zip with the one before it."""
    kind: str
    words: str


class Settings:
    """What is varied: axes, of which all combinations are run, each of one setting or of several that go together.

    Variants have numbers from 1 on; the last axis changes first.
    """

    def __init__(self, given: Iterable[Given]) -> None:
        self.given = list(given)
        self.values: dict[str, list[str]] = {}
        self.axes: list[list[str]] = []
        for kind, words in self.given:
            self.add(kind, words)
        refuse(len(self) > VARIANTS_MOST, f"over {VARIANTS_MOST} variants")

    def add(self, kind: str, words: str) -> None:
        path, equals, values = words.partition("=")
        refuse(not equals or not values, f"{words} is no setting with values, as seed=1..20")
        refuse(path in self.values, f"{path} is given twice")
        self.values[path] = values_of(values)
        if kind == "vary":
            self.axes.append([path])
            return
        refuse(not self.axes, f"--zip {words} goes with the --vary before it, and there is none")
        first = self.axes[-1][0]
        if len(self.values[path]) != len(self.values[first]):
            raise Fault(f"{path} has {len(self.values[path])} values, and {first}, with which it goes, has "
                        f"{len(self.values[first])}")
        self.axes[-1].append(path)

    def check_doubles(self) -> None:
        """Makes sure that no run is there twice: runs that are put together count as independent ones."""
        for axis in self.axes:
            found = set()
            for words in zip(*(self.values[name] for name in axis)):
                value = tuple(repr(value_of(word)) for word in words)
                if value in found:
                    told = " ".join(f"{name}={word}" for name, word in zip(axis, words))
                    raise Fault(f"{told} is given twice, and --spread counts each run as an independent one")
                found.add(value)

    def __len__(self) -> int:
        return math.prod(len(self.values[axis[0]]) for axis in self.axes)

    def names(self) -> list[str]:
        return list(self.values)

    def tied(self, name: str) -> list[str]:
        """The settings that go with one, including itself; none if it is not varied."""
        return next((axis for axis in self.axes if name in axis), [])

    def words(self, number: int) -> list[str]:
        """The words of all settings in the variant of a number."""
        rest, found = number - 1, {}
        for axis in reversed(self.axes):
            rest, place = divmod(rest, len(self.values[axis[0]]))
            found.update({name: self.values[name][place] for name in axis})
        return [found[name] for name in self.values]


class Window(NamedTuple):
    """What is counted of each run: from a moment in milliseconds to another, both included; None if nothing is cut at
    that end."""
    first: int | None = None
    last: int | None = None


class Outcome(NamedTuple):
    """The rows of a variant: one for each queue, or one with the reason why it failed; and the ages of its messages by
    queue, if they are figures. A variant is lost if the program was ended by a signal, which says nothing of the
    variant: it must be run again."""
    rows: list[list[str]]
    ages: Mapping[str, Ages]
    is_lost: bool = False

    def is_failed(self, settings: int) -> bool:
        return bool(self.rows[0][settings])


def horizon_of(scenario: Mapping[str, Any]) -> int:
    """The last moment of a run in milliseconds; 0 if the scenario gives none, which the program refuses."""
    horizon = scenario.get("horizon")
    return horizon if isinstance(horizon, int) else 0


class Sweep:
    """A scenario, the settings to vary, and how a variant is run.

    `needs_ages` says of a report if the bounds of ages are wanted as well, which are figures. If `extra` wants any
    columns beside those of the report, the rows have all such columns, and where they are counted by the log it is read
    for each run. With `reads_version_3` scenarios may have version 3.
    """

    def __init__(self, path: str, settings: Settings, scripts: str, window: Window = Window(),
                 reads_version_3: bool = False) -> None:
        self.path, self.settings, self.program, self.reads_version_3 = path, settings, "", reads_version_3
        # the folder of the scripts that was named, and the one from which they are read
        self.folder = self.scripts = scripts
        self.window, self.extra = window, Extra()
        self.needs_ages: Callable[[list[list[str]]], bool] = lambda _: False
        self.engine: Engine = self.here
        self.cancel: Callable[[], None] = lambda: None
        self.given_text = read_text(path)
        self.scenario: dict[str, Any] = parsed(self.given_text, path)
        self.check_version()
        self.places = [Setting(place) for place in settings.names()]
        self.check_places()
        self.interrupted, self.lock = False, threading.Lock()
        self.running: set[subprocess.Popen[bytes]] = set()

    def check_version(self) -> None:
        """Makes sure that version 3 is asked for, before all variants fail for it."""
        versions = [str(self.scenario.get("version")), *self.settings.values.get("version", [])]
        if str(VERSION_3) in versions and not self.reads_version_3:
            raise Fault(f"{self.path} has version {VERSION_3}, which is read only for the word --v3")

    def check_places(self) -> None:
        """Makes sure that each setting names something, whatever the numbers of copies are."""
        choices = [words if place.is_count else words[:1]
                   for place, words in zip(self.places, self.settings.values.values())]
        for words in itertools.product(*choices):
            varied(self.scenario, dict(zip(self.places, words)))

    def of(self, path: str) -> "Sweep":
        """The same sweep of another scenario."""
        other = Sweep(path, self.settings, self.folder, self.window, self.reads_version_3)
        other.program, other.extra, other.cancel = self.program, self.extra, self.cancel
        if self.engine == self.here:
            other.keep_scripts(self.scripts)
        else:
            other.engine, other.scripts = self.engine, self.scripts
        return other

    def script_names(self) -> set[str]:
        """The names of the scripts that some variant may read."""
        varied_names = {word.strip('"') for path, words in self.settings.values.items() if path.endswith(".script")
                        for word in words}
        return {*scripts_in(self.scenario), *filter(SCRIPT_NAME.fullmatch, varied_names)}

    def script_paths(self) -> dict[str, str]:
        """The paths of these scripts by their names. The program reports those that are not there."""
        paths = {name: os.path.join(self.scripts, name) for name in self.script_names()}
        return {name: path for name, path in paths.items() if os.path.isfile(path)}

    def inputs(self) -> list[str]:
        """The paths of all that is read."""
        return [self.path, self.program, *(os.path.join(self.folder, name) for name in self.script_names())]

    def keep(self, folder: str) -> None:
        """Copies the program and the scripts into a folder, from which they are taken then: all runs have the same,
        whatever becomes of the files."""
        if os.statvfs(folder).f_flag & os.ST_NOEXEC:
            raise Fault(f"no program may run in {folder}: TMPDIR names another folder for temporary files")
        program, scripts = os.path.join(folder, "sqs_rehearse"), os.path.join(folder, "scripts")
        if self.program.endswith(".mjs"):
            # it is one of several files, of which it checks that they belong together
            os.symlink(self.program, program)
        else:
            write_bytes(program, read_bytes(self.program))
            os.chmod(program, 0o700)
        os.mkdir(scripts)
        self.program = program
        self.keep_scripts(scripts)

    def keep_scripts(self, folder: str) -> None:
        """Copies the scripts into a folder, unless it has them, from which they are read then."""
        for name, path in self.script_paths().items():
            copy = os.path.join(folder, name)
            if not os.path.exists(copy):
                write_bytes(copy, read_bytes(path))
        self.scripts = folder

    def header(self) -> list[str]:
        return [*self.settings.names(), "failed", "queue", *self.columns()]

    def columns(self) -> list[str]:
        return ALL_COLUMNS if self.extra.is_any else COLUMNS

    @contextmanager
    def watched(self, process: "subprocess.Popen[bytes]") -> Iterator[None]:
        """An interrupt kills the process while it is in here."""
        with self.lock:
            self.running.add(process)
        if self.interrupted:
            process.kill()
        try:
            yield
        finally:
            with self.lock:
                self.running.remove(process)

    def varied(self, words: Sequence[str]) -> dict[str, Any]:
        """The scenario with all settings put to words, which ends with what is counted."""
        scenario: dict[str, Any] = varied(self.scenario, dict(zip(self.places, words)))
        if self.window.last is not None and isinstance(scenario.get("horizon"), int):
            scenario["horizon"] = min(scenario["horizon"], self.window.last)
        return scenario

    def text(self, words: Sequence[str]) -> str:
        """The scenario with all settings put to words."""
        text: str = written(self.varied(words))
        return text

    def here(self, command: list[str], text: str, take: Take) -> Ended:
        """Runs the program on this machine."""
        return piped(command, text, take, self.watched)

    def command(self) -> list[str]:
        return [self.program, "run", *version_words(self.reads_version_3), "--scripts", self.scripts]

    def run(self, words: Sequence[str], has_figures: bool) -> Ran:
        """Runs the variant of some words, with figures if they are wanted."""
        scenario = self.varied(words)
        first, end = self.window.first or 0, horizon_of(scenario)
        figures = self.extra.figures(first, end, consumers_of(scenario)) if has_figures else None
        counting = Counting(first, end, self.extra.with_doors, ways_of(scenario))
        return run(self.command(), written(scenario), figures, counting, self.engine)

    def taken(self, scenarios: Sequence[dict[str, Any]], take: Take, jobs: int) -> list[Any]:
        """What `take` makes of the output of each of some scenarios, all of which the program accepts."""
        def taken_of(scenario: dict[str, Any]) -> Any:
            return self.engine(self.command(), written(scenario), take).taken

        with ThreadPoolExecutor(jobs) as pool:
            return list(pool.map(taken_of, scenarios))

    def outcome(self, number: int) -> Outcome:
        """Runs the variant of a number."""
        words = self.settings.words(number)
        if self.interrupted:
            return Outcome([], {}, True)
        has_figures = self.extra.is_any or self.window.first is not None
        ran = self.run(words, has_figures)
        if ran.records is not None and not has_figures and self.needs_ages(ran.records):
            ran = self.run(words, True)
        words = [word.strip('"') for word in words]
        if ran.records is None:
            reason = ran.told if ran.status >= 0 else f"ended by signal {-ran.status}"
            return Outcome([[*words, reason, *[""] * (1 + len(self.columns()))]], {}, ran.status < 0)
        return Outcome([[*words, "", *record] for record in ran.records], ran.ages)

    def outcomes(self, numbers: Sequence[int], jobs: int, progress: "Told") -> Iterator[tuple[int, Outcome]]:
        """The outcomes of variants in the order of their numbers, each as soon as those before it are there. They end
        early if there is an interrupt."""
        signal.signal(signal.SIGINT, self.interrupt)
        take_signals(self.interrupt)
        pool = ThreadPoolExecutor(jobs)
        waiting: deque[tuple[int, Future[Outcome]]] = deque()
        rest = iter(numbers)
        try:
            while True:
                for number in itertools.islice(rest, AHEAD + jobs - len(waiting)):
                    waiting.append((number, pool.submit(self.outcome, number)))
                if not waiting:
                    return
                number, future = waiting.popleft()
                while not wait([future], LOOK_SECONDS).done:
                    # Python takes a signal that comes as a wait begins only after that wait
                    pass
                outcome = future.result()
                if self.interrupted:
                    tell(f"interrupted after {progress}")
                    return
                progress.look(outcome.is_failed(len(self.places)))
                yield number, outcome
        finally:
            pool.shutdown(cancel_futures=True)

    def interrupt(self, *_: object) -> None:
        """Ends the runs that are under way, so that the rows before them can be written; a second one ends all."""
        self.interrupted = True
        signal.signal(signal.SIGINT, signal.default_int_handler)
        take_signals(stop)
        for process in list(self.running):
            process.kill()
        self.cancel()


class Told:
    """Shows how many variants have been run: on a terminal in one line, of which only the last text stays. If it is not
    known how many there will be, `total` is None."""

    def __init__(self, total: int | None) -> None:
        self.total, self.done, self.failed = total, 0, 0
        self.at: float | None = None

    def __str__(self) -> str:
        return f"{self.done} variants" if self.total is None else f"{self.done} of {self.total} variants"

    def look(self, is_failed: bool) -> None:
        """Notes that one more variant has been run."""
        self.done, self.failed = self.done + 1, self.failed + is_failed
        apart = 1 if is_terminal(sys.stderr) else SECONDS_APART
        if self.done == self.total:
            self.tell()
        elif self.at is None or time.monotonic() >= self.at + apart:
            self.at = time.monotonic()
            if is_terminal(sys.stderr):
                Progress.show(self.line())
            else:
                self.tell()

    def line(self) -> str:
        return f"{self} run, {self.failed} failed"

    def tell(self) -> None:
        tell(self.line())
