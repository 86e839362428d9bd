"""What the programs of tests/ share: how they count what holds and how they end, and how they run what has a bound. It
is not a command. With it they find the modules of tools/ and of tests/reference/."""
import pathlib
import resource
import signal
import subprocess
import sys
from collections.abc import Callable, Iterable
from typing import NoReturn

HERE = pathlib.Path(__file__).resolve().parent
TOP = HERE.parent
sys.path[1:1] = [str(HERE / "reference"), str(TOP / "tools")]


class Checks:
    """How many things hold of those that were looked at, and how many do not. Each that does not has a line."""

    def __init__(self) -> None:
        self.passed = self.failed = self.skipped = 0

    def expect(self, what: object, holds: object, found: object = "") -> None:
        """Counts a thing, and prints what it is and what was found if it does not hold."""
        if holds:
            self.passed += 1
        else:
            self.failed += 1
            print(f"{what}: {found}" if found != "" else what)

    def expect_none(self, faults: Iterable[str | None]) -> None:
        """Counts a thing for each fault; it holds if that is None or empty."""
        for fault in faults:
            self.expect(fault, not fault)

    def end(self) -> NoReturn:
        """Prints the last line of a program of tests/, and ends it: with status 1 if something does not hold."""
        skipped = f", {self.skipped} skipped" if self.skipped else ""
        print(f"{self.passed} passed, {self.failed} failed{skipped}")
        sys.exit(1 if self.failed or not self.passed else 0)


def limited(size: int, action: signal.Handlers = signal.SIG_IGN) -> Callable[[], None]:
    """What to do before a program starts, so that no file grows past a size. `action` is what the signal of it does."""
    def before() -> None:
        signal.signal(signal.SIGXFSZ, action)
        resource.setrlimit(resource.RLIMIT_CORE, (0, 0))
        resource.setrlimit(resource.RLIMIT_FSIZE, (size, size))
    return before


def timed(*words: str, text: str) -> tuple[str, float]:
    """What a command prints, which ends well, with a text as its input; and the seconds of the processor."""
    before = resource.getrusage(resource.RUSAGE_CHILDREN)
    ended = subprocess.run(words, input=text, text=True, capture_output=True, timeout=600)
    after = resource.getrusage(resource.RUSAGE_CHILDREN)
    if ended.returncode != 0:
        sys.exit(f"status {ended.returncode}: {ended.stderr.strip()}")
    return ended.stdout, after.ru_utime + after.ru_stime - before.ru_utime - before.ru_stime
