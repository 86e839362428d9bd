"""What the reference answers to a text, in this process, and what a program answers to it."""
import math
import subprocess
from collections.abc import Sequence
from typing import NamedTuple

from faults import Fault
from figures import figures_text
from log import finals_text, log_text, report_text
from reader import read
from sites import World

SECONDS = 60


class Outcome(NamedTuple):
    """Status, standard output and standard error of a run."""

    status: int
    output: bytes
    error: bytes


def referred(source: bytes, greatest_version: int = 2, most_handlings: float = math.inf,
             wanted: Sequence[int] | None = None) -> Outcome:
    """What the reference answers to a run of a text without script files, with figures if any are wanted: from a moment to
    another, how many messages are no backlog, and how long a window is. TooLong, if it has more handlings."""
    try:
        scenario = read(source, {}, greatest_version)
    except Fault as fault:
        return Outcome(1, b"", f"{fault.line()}\n".encode())
    world = World(scenario)
    rows = world.run(most_handlings)
    figures = figures_text(scenario, rows, *wanted) if wanted else ""
    text = log_text(rows) + finals_text(world.sites) + report_text(world.sites, rows) + figures
    return Outcome(0, text.encode(), b"")


def answered(program: str, source: bytes, *words: str) -> Outcome:
    """What a program answers to it."""
    ended = subprocess.run([program, "run", *words], input=source, capture_output=True, timeout=SECONDS)
    return Outcome(ended.returncode, ended.stdout, ended.stderr)


def split_words(source: bytes) -> Sequence[str]:
    """The options by which three workers run the queues of a text in partitions of their own."""
    return "--workers", "3", "--parts", str(min(256, max(1, source.count(b"[[queue]]"))))


def first_difference(wanted: Outcome, found: Outcome) -> str:
    """The first line in which two outcomes differ, or nothing."""
    if wanted == found:
        return ""
    if (wanted.status, wanted.error) != (found.status, found.error):
        return f"status {wanted.status} {wanted.error!r}, and status {found.status} {found.error!r}"
    pairs = zip([*wanted.output.splitlines(), b""], [*found.output.splitlines(), b""])
    number, (left, right) = next((number, pair) for number, pair in enumerate(pairs, 1) if pair[0] != pair[1])
    return f"line {number}: {left.decode()!r}, and {right.decode()!r}"
