"""What a sweep decides: which variants meet what is required, and what came of it as the XML that JUnit writes and CI
systems show. And sweeps that end on their own: once a mean is known well enough, a requirement is decided, or the least
value of a setting is found.

The tools import it; it is not a command.
"""
from __future__ import annotations

from collections.abc import Callable, Iterable, Iterator, Mapping, Sequence
from typing import NamedTuple
from xml.etree import ElementTree

from .console import Fault, printable, refuse, tell
from .requirements import Requirement
from .runs import Ages, columns_in
from .statistics import Interval, Verdict, is_precise, looks, share_bounds, share_interval, verdict
from .units import number_of
from .variants import Sweep, Told

Rows = list[list[str]]
# How many variants that meet all requirements are named.
NAMED_MOST = 8


class Case(NamedTuple):
    """What came of a requirement in a variant: the lines of its failures, and those of runs of which nothing is known.
    It holds if there are none."""
    variant: str
    requirement: str
    failures: Sequence[str]
    losses: Sequence[str]


def text_of(suite: str, cases: Iterable[Case], ends: Iterable[str]) -> str:
    """The XML of a suite, with a test for each case, and with one that is an error for each reason why the sweep has
    not come to its end."""
    cases = [*cases, *(Case("the sweep", "comes to its end", (), (end,)) for end in ends)]
    root = ElementTree.Element("testsuites")
    parent = ElementTree.SubElement(
        root, "testsuite", name=printable(suite), tests=str(len(cases)),
        failures=str(sum(bool(case.failures and not case.losses) for case in cases)),
        errors=str(sum(bool(case.losses) for case in cases)))
    for case in cases:
        test = ElementTree.SubElement(parent, "testcase", classname=printable(case.variant),
                                      name=printable(case.requirement))
        lines = [printable(line) for line in (*case.losses, *case.failures)]
        if lines:
            kind = "error" if case.losses else "failure"
            ElementTree.SubElement(test, kind, message=lines[0]).text = "\n".join(lines)
    ElementTree.indent(root)
    return '<?xml version="1.0" encoding="UTF-8"?>\n' + ElementTree.tostring(root, encoding="unicode") + "\n"


class Tally:
    """In how many runs of a variant a requirement has held, and of how many."""

    def __init__(self) -> None:
        self.passed, self.runs = 0, 0

    def add(self, holds: bool) -> None:
        self.passed, self.runs = self.passed + holds, self.runs + 1


def key_of(words: Mapping[str, str], without: Sequence[str]) -> str:
    """A variant as it is named, by its settings without some."""
    return " ".join(f"{name}={word}" for name, word in words.items() if name not in without)


class Requirements:
    """Looks at the rows as they pass, and reports each requirement that fails.

    Variants are those without the settings that are spread over. `variants` says for each whether all requirements hold
    that must hold in each run. `tallies` says in how many runs each requirement of each queue has held. `failures` has
    the lines of those that fail in a run, and `losses` those of the runs of which nothing is known.
    """

    def __init__(self, texts: Iterable[str]) -> None:
        self.all = [Requirement(text) for text in texts]
        self.in_each = [requirement for requirement in self.all if requirement.share is None]
        self.in_share = [requirement for requirement in self.all if requirement.share is not None]
        self.failed, self.checked = 0, 0
        self.spread: list[str] = []
        self.queues: list[str] = []
        self.variants: dict[str, bool] = {}
        self.tallies: dict[str, dict[tuple[Requirement, str], Tally]] = {}
        self.failures: dict[tuple[str, str], list[str]] = {}
        self.losses: dict[str, list[str]] = {}

    def check_names(self, names: Iterable[str]) -> None:
        """Makes sure that each is of a queue that is there."""
        self.queues = list(names)
        for requirement in self.all:
            if not any(map(requirement.is_of, self.queues)):
                raise Fault(f"{requirement.text}: there is no queue {requirement.queue}")

    def are_open(self, report: Iterable[Sequence[str]]) -> bool:
        """Whether the records of a report leave open if some requirement holds, so that the log must be read."""
        return any(requirement.is_of(name) and requirement.is_open(numbers)
                   for name, *numbers in report for requirement in self.all)

    def looked_at(self, header: Sequence[str], rows: Iterable[list[str]],
                  ages: Mapping[str, Ages]) -> Iterator[list[str]]:
        """The rows, unchanged, each of which is looked at as it passes if something is required. The ages by queue, if
        they are known, are those of the run of these rows."""
        for row in rows:
            if self.all:
                self.look(header, row, ages)
            yield row

    def look(self, header: Sequence[str], row: Sequence[str], ages: Mapping[str, Ages]) -> None:
        """Looks at a row, and reports what fails of the requirements that must hold in each run."""
        width = len(columns_in(header))
        words = dict(zip(header[:-width - 2], row))
        variant, key = key_of(words, ()) or "the scenario as it is", key_of(words, self.spread)
        failed, queue, *numbers = row[-width - 2:]
        if failed:
            self.note(self.losses.setdefault(key, []), f"nothing is known of {variant}: {failed}")
            self.variants[key] = False
        for requirement in self.all:
            for name in filter(requirement.is_of, self.queues if failed else [queue]):
                failure = None if failed else requirement.failure(numbers, ages.get(name))
                tally = self.tallies.setdefault(key, {}).setdefault((requirement, name), Tally())
                tally.add(not failed and failure is None)
                if requirement.share is None and not failed:
                    self.checked, self.failed = self.checked + 1, self.failed + (failure is not None)
                    if failure:
                        told = requirement.told_of(queue)
                        self.note(self.failures.setdefault((key, told), []),
                                  f"{told} {failure.word} with {variant}: {failure.reason}")
                        self.variants[key] = False
        self.variants.setdefault(key, True)

    @staticmethod
    def note(lines: list[str], line: str) -> None:
        """Reports a line, and keeps it among others."""
        tell(line)
        lines.append(line)

    def verdicts(self, key: str) -> Iterator[tuple[str, Tally, Verdict | None]]:
        """For each tally of a variant the requirement with its name, the tally, and the verdict if it is on a share of
        runs."""
        for (requirement, queue), tally in self.tallies.get(key, {}).items():
            found = None if requirement.share is None else verdict(tally.passed, tally.runs, requirement.share)
            yield requirement.told_of(queue), tally, found

    def words(self, key: str) -> set[str]:
        """The words of all verdicts of a variant."""
        return {found.word for *_, found in self.verdicts(key) if found is not None}

    def are_decided(self, key: str) -> bool:
        """Whether nothing is open of a variant: some requirement has failed or is refuted, or all are shown. What is
        required of each run stays open to the last."""
        words = self.words(key)
        return (not self.variants.get(key, True) or "refuted" in words
                or not self.in_each and "undecided" not in words)

    def are_met(self, key: str) -> bool:
        """Whether a variant meets all: each run what is required of each, and what is required of a share is shown."""
        return self.variants.get(key, False) and self.words(key) <= {"shown"}

    def cases(self) -> Iterator[Case]:
        """What came of each requirement of each queue in each variant."""
        for key in self.variants:
            for text, tally, found in self.verdicts(key):
                failures = self.failures.get((key, text), [])
                if found is not None and found.word != "shown":
                    failures = [line_of(text, key, tally, found)]
                yield Case(key or "the scenario as it is", text, failures, self.losses.get(key, []))

    def tell_variants(self) -> None:
        """Reports for each variant, if runs are put together, in how many of them each requirement holds."""
        for key in self.variants if self.spread else ():
            for text, tally, found in self.verdicts(key):
                tell(line_of(text, key, tally, found))
                if found is not None:
                    self.checked, self.failed = self.checked + 1, self.failed + (found.word != "shown")

    def tell(self) -> None:
        """Reports the variants, how many requirements hold, and, if only some variants meet all, which ones."""
        self.tell_variants()
        tell(f"requirements that hold: {self.checked - self.failed} of {self.checked}")
        met = [key for key in self.variants if self.are_met(key)]
        if len(met) < len(self.variants) and len(self.variants) > 1:
            named = "; ".join(met[:NAMED_MOST]) + ("; .." if len(met) > NAMED_MOST else "")
            tell(f"variants that meet all of them: {len(met)} of {len(self.variants)}" + (f": {named}" if met else ""))


def line_of(text: str, key: str, tally: Tally, found: Verdict | None) -> str:
    """The line on a requirement over the runs of a variant. For a share of runs it has its verdict and bounds; for a
    fixed number of runs it has their interval."""
    runs, variant = f"{tally.passed} of {tally.runs} runs", f" with {key}" if key else ""
    if found is None:
        return f"{text} holds in {runs}{variant}, {percents(share_interval(tally.passed, tally.runs))} of all"
    more = f"; {found.more:,} more runs would decide if the share stays" if found.more else ""
    return (f"{text} is {found.word}{variant}: {runs}, {percents(share_bounds(tally.passed, tally.runs))} of all{more}")


def percents(interval: Interval) -> str:
    return f"{100 * interval.low:.1f} to {100 * interval.high:.1f} %"


class Groups:
    """The variants of a sweep without the settings that are spread over: each has the numbers of its runs, in the order
    of those settings."""

    def __init__(self, sweep: Sweep, spread: Sequence[str], jobs: int) -> None:
        self.sweep, self.jobs = sweep, jobs
        names = sweep.settings.names()
        self.numbers: dict[str, list[int]] = {}
        self.words: dict[str, dict[str, str]] = {}
        for number in range(1, len(sweep.settings) + 1):
            words = {name: word.strip('"') for name, word in zip(names, sweep.settings.words(number))
                     if name not in spread}
            key = key_of(words, ())
            self.numbers.setdefault(key, []).append(number)
            self.words[key] = words
        self.rows: dict[int, Rows] = {}
        self.progress = Told(None)

    def run(self, keys: Iterable[str], first: int, last: int, requirements: Requirements) -> bool:
        """Runs the runs from `first` on and before `last` of some groups; whether no interrupt has ended them."""
        numbers = sorted(number for key in keys for number in self.numbers[key][first:last])
        for number, outcome in self.sweep.outcomes(numbers, self.jobs, self.progress):
            self.rows[number] = list(requirements.looked_at(self.sweep.header(), outcome.rows, outcome.ages))
        return not self.sweep.interrupted

    def rows_of(self, key: str) -> Rows:
        """The rows of a group that have been run."""
        return [row for number in self.numbers[key] for row in self.rows.get(number, [])]

    def all_rows(self) -> Rows:
        return [row for number in sorted(self.rows) for row in self.rows[number]]

    def go_on(self, keys: Iterable[str], most: int, is_enough: Callable[[str], bool],
              requirements: Requirements) -> list[str]:
        """Runs groups until each has enough, or `most` runs; returns those that have not."""
        going, done = list(keys), 0
        for runs in looks(most):
            if not going or not self.run(going, done, runs, requirements):
                break
            done, going = runs, [key for key in going if not is_enough(key)]
        return going


def are_precise(rows: Rows, known: Sequence[str], columns: Sequence[str], wanted: float) -> bool:
    """Whether the mean of each of some columns, of those of the report, is known to within a part of it, in each queue
    that has numbers."""
    queues: dict[str, Rows] = {}
    for row in rows:
        queue, *numbers = row[-len(known) - 1:]
        queues.setdefault(queue, []).append([numbers[known.index(column)] for column in columns])
    found = [[number_of(text) for text in texts if text] for of_queue in queues.values() for texts in zip(*of_queue)]
    return all(is_precise(numbers, wanted) for numbers in found if numbers)


def until(groups: Groups, wanted: float | None, columns: Sequence[str], most: int, requirements: Requirements) -> bool:
    """Runs each variant again until its columns are known to within `wanted`, or, if that is None, until its
    requirements are decided. Returns whether that was reached for all."""
    def is_enough(key: str) -> bool:
        if wanted is None:
            return requirements.are_decided(key)
        return are_precise(groups.rows_of(key), groups.sweep.columns(), columns, wanted)

    going = groups.go_on(groups.numbers, most, is_enough, requirements)
    groups.progress.tell()
    if going and not groups.sweep.interrupted:
        what = "undecided" if wanted is None else f"not known to within {100 * wanted:g} %"
        tell(f"after {most} runs {len(going)} of {len(groups.numbers)} variants are {what}")
    return not going


def least(groups: Groups, name: str, most: int, requirements: Requirements) -> bool:
    """Finds by bisection, for each combination of the other settings, the least value of a setting that meets all that
    is required; whether there is one for each. It takes for granted that each greater value meets it too."""
    others: dict[str, list[str]] = {}
    for key, words in groups.words.items():
        others.setdefault(key_of(words, [name]), []).append(key)
    found = [search(groups, keys, most, requirements) for keys in others.values()]
    groups.progress.tell()
    for other, keys, place in zip(others, others.values(), found):
        if groups.sweep.interrupted:
            return False
        values = [groups.words[key][name] for key in keys]
        tried = [value for value, key in zip(values, keys) if groups.rows_of(key)]
        told = f"{values[place]}" if place < len(values) else f"none of {values[0]} to {values[-1]}"
        tell(f"the least {name} that meets all{f' with {other}' if other else ''} is {told}; tried {', '.join(tried)}")
    return all(place < len(keys) for place, keys in zip(found, others.values()))


def search(groups: Groups, keys: Sequence[str], most: int, requirements: Requirements) -> int:
    """The index of the first of some variants that meets all, by bisection; their number if none does."""
    def is_met(place: int) -> bool:
        groups.go_on([keys[place]], most, requirements.are_decided, requirements)
        return requirements.are_met(keys[place])

    low, high = -1, len(keys)
    while high - low > 1 and not groups.sweep.interrupted:
        # the greatest value is tried first: where it does not do, none does
        middle = high - 1 if high == len(keys) else (low + high) // 2
        low, high = (low, middle) if is_met(middle) else (middle, high)
    return high


def check_ascending(name: str, values: Sequence[str]) -> None:
    """Makes sure that the values that are searched are numbers that grow."""
    try:
        numbers = [int(value) for value in values]
    except ValueError:
        raise Fault(f"--least looks for a whole number, as {name}=1..64") from None
    refuse(numbers != sorted(set(numbers)), f"the values of --least {name} do not grow")
