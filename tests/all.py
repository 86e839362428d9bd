"""Runs everything in tests/ over the program, side by side, with a line for each part and a sum at the end:

    tests/all [PROGRAM] [--quick | --only NAME,..] [--jobs N] [--late LATE] [--limit SECONDS] [--beside LOOPS]
              [--install]

PROGRAM is by default the one that ./sqs_rehearse would run without a build. LATE is the program of
crates/sqs_late_workers, by default the one that `rt run` has built there from the sources as they are; without it
tests/late and a part of tests/long are left out. --only runs the named parts. --jobs says how many parts run at once,
by default one for each processor that this process may use. --beside runs so many loops beside the parts, each of which
takes all that it can get of a processor: so a part shows whether it hangs on luck. --quick takes a minute or two on 4
processors: it leaves out wrong-bodies, long, test_clusters, test_slurm, test_picture, memory, late, huge, test_console,
test_package, test_poison, test_invocations, test_statistics, test_decisions, test_helps, test_shown, test_older and
page, the longest.

A part is a program in tests/, tools/layers --check, tests/wrong-bodies/test_run.py or a file tests/tools/test_*.py. A
program in tests/ is given PROGRAM, and its last line is `N passed, M failed`. The line of a part has what passed and
failed, its seconds, and those of processors; if it failed, its output stands below. A part that runs longer than
--limit (3600 s) is ended and has failed. What a part prints behind `note: ` is printed again before the sum. The
temporary folder of a part is removed: to keep a text that fails in tests/fuzz, run tests/fuzz by itself.

The last line is the sum, `N passed, M failed`, with `, K skipped` if something was left out. The status is 0 if nothing
failed, 1 if something did, and 2 if the tests cannot run. If packages are missing, a line names them, and no test
begins; with --install they are installed first. The script tests/all does that.
"""
from __future__ import annotations

import collections
import ctypes
import os
import re
import shutil
import signal
import subprocess
import sys
import tempfile
import time
from argparse import Namespace
from collections.abc import Iterable, Iterator, Mapping, Sequence
from typing import NamedTuple

TOP = os.path.dirname(os.path.dirname(os.path.abspath(__file__)))
sys.path.insert(0, os.path.join(TOP, "tools"))
import crate_list  # noqa: E402 (the folder of the tools comes first)
from rehearse_tools.console import Fault, Parser, Progress, ended, is_terminal, refuse  # noqa: E402
from rehearse_tools.programs import program_itself  # noqa: E402

LATE_CRATE = "sqs_late_workers"
# The script that runs this file, by whose name faults begin.
NAME = "all"
WITHOUT_PROGRAM = ("texts", "style", "house", "types", "examples", "layers", "wrong-bodies", "bell")
# Seconds of the longest parts, as measured. They begin first, so that no long one is left at the end.
SECONDS = {"wrong-bodies": 90, "page": 70, "memory": 60, "questions": 50, "test_clusters": 50, "long": 40,
           "test_picture": 32, "test_slurm": 25, "late": 20, "test_statistics": 20, "test_helps": 17,
           "test_package": 16, "test_console": 15, "underway": 15, "test_sessions": 14, "test_all": 14, "huge": 13,
           "test_shown": 12, "groups": 10, "reach": 20, "test_poison": 10, "test_invocations": 10, "test_summary": 10,
           "fuzz": 9, "test_decisions": 9, "test_from_plan": 9, "run": 8, "test_build": 8, "test_reference": 8,
           "test_runs": 8, "test_sweeps": 8, "terminal": 10, "bell": 9, "types": 7, "test_older": 30,
           "test_programs": 30, "test_ends": 8, "test_curves": 7, "test_report": 6, "test_settling": 6,
           "test_sweep": 5, "test_types": 5, "test_quantiles": 8, "test_arrivals": 4, "test_doors": 4}
NOT_QUICK = ("wrong-bodies", "long", "test_clusters", "test_slurm", "test_picture", "memory", "late", "huge",
             "test_console", "test_package", "test_poison", "test_invocations", "test_statistics", "test_decisions",
             "test_helps", "test_shown", "test_older", "page")
END_WITH_PARENT, SET_CHILD_SUBREAPER = 1, 36    # of prctl(2)
LOOK_SECONDS, GRACE_SECONDS = 0.02, 3
ENDING = (signal.SIGINT, signal.SIGTERM, signal.SIGHUP)


class Part(NamedTuple):
    """A part by its name, its command, and the programs that the command is given."""

    name: str
    words: list[str]
    wants: tuple[str, ...] = ()


class Counts(NamedTuple):
    """How many tests passed, failed and were left out."""

    passed: int = 0
    failed: int = 0
    skipped: int = 0


class Interrupted(Exception):
    """A signal that ends the tests, by its number."""


# The parts.
def programs_in_tests() -> Iterator[str]:
    """The names of the programs in tests/ itself, other than this one."""
    for entry in sorted(os.scandir(os.path.join(TOP, "tests")), key=lambda entry: entry.name):
        if entry.is_file() and os.access(entry.path, os.X_OK) and entry.name != NAME:
            yield entry.name


def unittest_of(folder: str, file: str) -> list[str]:
    return [sys.executable, "-m", "unittest", "discover", "-v", "-s", os.path.join("tests", folder), "-p", file]


def all_parts() -> dict[str, Part]:
    """All parts by their names."""
    wants = {"late": ("late",), "long": ("program", "late"), **dict.fromkeys(WITHOUT_PROGRAM, ())}
    parts = [Part("layers", [os.path.join(TOP, "tools", "layers"), "--check"]),
             Part("wrong-bodies", unittest_of("wrong-bodies", "test_run.py"))]
    parts += [Part(name, [os.path.join(TOP, "tests", name)], wants.get(name, ("program",)))
              for name in programs_in_tests()]
    files = sorted(os.listdir(os.path.join(TOP, "tests", "tools")))
    parts += [Part(file.removesuffix(".py"), unittest_of("tools", file))
              for file in files if file.startswith("test_") and file.endswith(".py")]
    return {part.name: part for part in parts}


def chosen_of(parts: Mapping[str, Part], only: str, is_quick: bool) -> list[Part]:
    """The parts that are wanted, the longest first."""
    names = [name for name in parts if not (is_quick and name in NOT_QUICK)]
    if only:
        names = only.split(",")
    for name in names:
        refuse(name not in parts, f"there is no part {name}; there are {', '.join(sorted(parts))}")
    return sorted((parts[name] for name in dict.fromkeys(names)), key=lambda part: -SECONDS.get(part.name, 0))


# The programs, and what the tests need.
def late_of(given: str | None) -> str | None:
    """The path of the program whose workers are late: the one that is given, or that was built from these sources."""
    if given is not None:
        refuse(not os.path.isfile(given) or not os.access(given, os.X_OK), f"there is no program {given}")
        return os.path.realpath(given)
    built = os.path.join(TOP, "crates", LATE_CRATE, "out", LATE_CRATE)
    if not os.access(built, os.X_OK):
        return None
    crates = crate_list.read(os.path.join(TOP, "crates.txt"))
    folders = [os.path.join(TOP, "crates", name) for name in {LATE_CRATE} | crate_list.below(crates, LATE_CRATE)]
    return built if crate_list.newest_source(folders)[0] <= os.path.getmtime(built) else None


def environment_of(program: str | None) -> dict[str, str]:
    """What the parts find: the program for the tools, and this Python without a script that looks for one. Python keeps
    the modules of the tools compiled, as each run of a tool would compile them anew."""
    environment = {name: value for name, value in os.environ.items() if name != "PYTHONDONTWRITEBYTECODE"}
    if program:
        environment["SQS_REHEARSE"] = program
    found = shutil.which("python3")
    if not found or not os.path.samefile(found, sys.executable):
        environment["PATH"] = os.path.dirname(sys.executable) + os.pathsep + os.environ.get("PATH", os.defpath)
    return environment


# What a part says.
def counts_of(text: str, status: int) -> Counts:
    """What passed, failed and was left out, by the output of a part. A part that prints no count is one, by its status.
    """
    ran = re.findall(r"^Ran (\d+) tests? in \S+\n\n(?:OK|FAILED|NO TESTS RAN)(.*)$", text, re.MULTILINE)
    said = re.search(r"^(\d+) passed, (\d+) failed(?:, (\d+) skipped)?\s*\Z", text, re.MULTILINE)
    if ran:
        numbers = {what: int(number) for what, number in re.findall(r"([a-z][a-z ]+)=(\d+)", ran[-1][1])}
        failed = sum(numbers.get(what, 0) for what in ("failures", "errors", "unexpected successes"))
        skipped = numbers.get("skipped", 0)
        counts = Counts(max(0, int(ran[-1][0]) - failed - skipped), failed, skipped)
    elif said:
        counts = Counts(*(int(number or 0) for number in said.groups()))
    else:
        counts = Counts(passed=int(status == 0))
    if counts.failed == 0 and (status != 0 or counts == Counts()):
        counts = counts._replace(failed=1)
    return counts


def left_out_of(text: str) -> list[str]:
    """What the output of a part says of what is left out, each thing once."""
    found = re.findall(r"^left out: (.*)$| \.\.\. skipped (['\"])(.*)\2$", text, re.MULTILINE)
    return list(dict.fromkeys(said or reason for said, _, reason in found))


def counts_text(counts: Counts) -> str:
    return f"{counts.passed} passed, {counts.failed} failed" + (f", {counts.skipped} skipped" if counts.skipped else "")


def print_part(name: str, counts: Counts, left_out: Sequence[str], took: str = "") -> None:
    """Prints the line of a part."""
    Progress.clear()
    said = f"left out: {', '.join(left_out)}" if left_out else ""
    print(f"{name:<17} {counts_text(counts):<32} {took:<36}{said}".rstrip(), flush=True)


def show_running(runs: Iterable["Run"], waiting: int) -> None:
    """Shows on a terminal which parts run."""
    if is_terminal(sys.stdout) and is_terminal(sys.stderr):
        line = f"running: {', '.join(run.part.name for run in runs)}; waiting: {waiting}"
        Progress.show(line[:shutil.get_terminal_size().columns - 8])


# Processes.
def become_reaper() -> None:
    """Makes this process the parent of all below it whose own parents end, so that it can end them."""
    ctypes.CDLL(None).prctl(SET_CHILD_SUBREAPER, 1, 0, 0, 0)


def begin_loops(count: int) -> None:
    """Begins loops that take all they can, each in a session of its own as a part is. They end with this process."""
    for _ in range(count):
        subprocess.Popen(["sh", "-c", "while :; do :; done"], stdin=subprocess.DEVNULL, start_new_session=True,
                         preexec_fn=lambda: ctypes.CDLL(None).prctl(END_WITH_PARENT, signal.SIGKILL, 0, 0, 0))


def processes() -> Iterator[tuple[int, int, int]]:
    """Each process that has not ended: its number, its parent's and its session's."""
    for name in filter(str.isdigit, os.listdir("/proc")):
        try:
            with open(f"/proc/{name}/stat", "rb") as file:
                state, parent, _, session = file.read().rpartition(b")")[2].split()[:4]
        except OSError:
            continue
        if state not in (b"Z", b"X"):
            yield int(name), int(parent), int(session)


def below(root: int) -> set[int]:
    """The processes below one, and those of the session that it leads, without itself."""
    found, others = {root}, list(processes())
    while new := {number for number, parent, session in others
                  if number not in found and (parent in found or session == root)}:
        found |= new
    return found - {root}


def send(number: int, to: Iterable[int]) -> None:
    for process in to:
        try:
            os.kill(process, number)
        except ProcessLookupError:
            pass


def end_all() -> None:
    """Ends all processes below this one. They are asked to end, and killed after a while."""
    asked: set[int] = set()
    until = time.monotonic() + GRACE_SECONDS
    while left := below(os.getpid()):
        if time.monotonic() < until:
            send(signal.SIGTERM, left - asked)
            asked |= left
        else:
            send(signal.SIGKILL, left)
        time.sleep(LOOK_SECONDS)
        next_ended()


def next_ended() -> tuple[int, int, float] | None:
    """A process that has ended, with its status and the processor seconds that it used, or None."""
    try:
        process, status, used = os.wait4(-1, os.WNOHANG)
    except ChildProcessError:
        return None
    return (process, os.waitstatus_to_exitcode(status), used.ru_utime + used.ru_stime) if process else None


class Run:
    """A part that runs, in a session and with a temporary folder of its own."""

    def __init__(self, part: Part, programs: Mapping[str, str | None], folder: str,
                 environment: Mapping[str, str]) -> None:
        self.part, self.folder, self.is_stopped = part, os.path.join(folder, part.name), False
        self.output = f"{self.folder}.output"
        os.mkdir(self.folder)
        words = [*part.words, *(program for want in part.wants if (program := programs[want]))]
        self.began = time.monotonic()
        with open(self.output, "wb") as output:
            self.process = subprocess.Popen(words, cwd=TOP, stdin=subprocess.DEVNULL, stdout=output,
                                            stderr=subprocess.STDOUT, start_new_session=True,
                                            env={**environment, "TMPDIR": self.folder})

    def seconds(self) -> float:
        return time.monotonic() - self.began

    def stop(self) -> None:
        """Ends the part itself first, so that it has nothing to say of the others."""
        self.is_stopped = True
        send(signal.SIGKILL, [self.process.pid, *below(self.process.pid)])

    def end(self, status: int, used: float) -> None:
        """Prints what came of the part, which has ended, keeps its counts and notes, and removes what it left."""
        seconds, self.used, self.process.returncode = self.seconds(), used, status
        send(signal.SIGKILL, below(self.process.pid))
        with open(self.output, encoding="utf-8", errors="backslashreplace") as file:
            text = file.read()
        shutil.rmtree(self.folder, ignore_errors=True)
        os.remove(self.output)
        self.counts, self.notes = counts_of(text, status), re.findall(r"^note: .*$", text, re.MULTILINE)
        print_part(self.part.name, self.counts, left_out_of(text), f"{seconds:7.1f} s, {used:6.1f} s of processors")
        if self.counts.failed:
            how = f"it was ended after {seconds:.0f} s" if self.is_stopped else f"it ended with status {status}"
            print("".join(f"    {line}\n" for line in [*text.splitlines(), how]), end="", flush=True)


def wait_for(running: Mapping[int, Run], limit: float) -> tuple[int, int, float]:
    """The process of the next part that ends, its status and processor seconds. What runs too long is stopped."""
    while True:
        for run in running.values():
            if not run.is_stopped and run.seconds() > limit:
                run.stop()
        has_ended = next_ended()
        if has_ended is None:
            time.sleep(LOOK_SECONDS)
        elif has_ended[0] in running:
            return has_ended


def run_parts(parts: Iterable[Part], programs: Mapping[str, str | None], options: Namespace) -> list[Run]:
    """Runs the parts, so many at once; each as it has ended. Interrupted, when a signal ends them all."""
    running: dict[int, Run] = {}
    waiting, done = collections.deque(parts), []
    for number in ENDING:
        signal.signal(number, interrupt)
    become_reaper()
    with tempfile.TemporaryDirectory(prefix="tests-all-", ignore_cleanup_errors=True) as folder:
        try:
            begin_loops(options.beside)
            while waiting or running:
                while waiting and len(running) < options.jobs:
                    run = Run(waiting.popleft(), programs, folder, environment_of(programs["program"]))
                    running[run.process.pid] = run
                show_running(running.values(), len(waiting))
                process, status, used = wait_for(running, options.limit)
                done.append(running.pop(process))
                done[-1].end(status, used)
        finally:
            for number in ENDING:
                signal.signal(number, signal.SIG_IGN)
            end_all()
    return done


def interrupt(number: int, _: object) -> None:
    raise Interrupted(number)


# The command line.
def options_of(words: Sequence[str]) -> Namespace:
    reading = Parser(__doc__).take("--late", flags=["--quick"], numbers={
        "--jobs": len(os.sched_getaffinity(0)), "--beside": 0})
    reading.add_argument("program", nargs="?")
    reading.add_argument("--only", default="")
    reading.add_argument("--limit", type=float, default=3600)
    options = reading.parse_args(words)
    refuse(options.quick and options.only, "--quick and --only exclude each other")
    refuse(options.jobs < 1, "--jobs is at least 1")
    return options


def main(words: Sequence[str]) -> int:
    if sys.version_info < (3, 11):
        raise Fault(f"the tests need Python 3.11 or later, and this is {sys.version.split()[0]}")
    options, began = options_of(words), time.monotonic()
    signal.signal(signal.SIGCHLD, signal.SIG_DFL)    # if it is ignored, no status of a child can be asked for
    chosen = chosen_of(all_parts(), options.only, options.quick)
    programs = {"program": None, "late": late_of(options.late)}
    if any(part.name not in WITHOUT_PROGRAM for part in chosen):
        programs["program"] = program_itself(options.program)
    left_out = [part for part in chosen if part.wants == ("late",) and not programs["late"]]
    for part in left_out:
        print_part(part.name, Counts(skipped=1), [f"`rt run` in crates/{LATE_CRATE} builds its program"])
    try:
        done = run_parts([part for part in chosen if part not in left_out], programs, options)
    except Interrupted as interrupted:
        Progress.clear()
        print("all: interrupted", file=sys.stderr)
        return 128 + int(interrupted.args[0])
    counts = [*(run.counts for run in done), *(Counts(skipped=1) for _ in left_out)]
    total, used = Counts(*map(sum, zip(*counts))), sum(run.used for run in done)
    parts = f"{len(counts)} part{'s' if len(counts) != 1 else ''}"
    print(f"{parts}, {time.monotonic() - began:.1f} s, {used:.1f} s of processors")
    print("".join(f"{note}\n" for run in done for note in run.notes) + counts_text(total))
    return 1 if total.failed else 0


if __name__ == "__main__":
    sys.argv[0] = NAME
    sys.exit(ended(main))
