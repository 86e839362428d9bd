"""What is known of a log of which no row is read here. The tools import it; it is not a command.

The program counts its figures, as it reads a log by a scenario, which says whose names stand in it. Here that is one
with these names alone. Its queues have the places that the ids of their messages tell, since receipts are those of a
queue by its number.

Of a log that is whole the report says whether rows lack. So what no figure says is looked up: rows are counted and
searched, which takes a fraction of the time.
"""
from __future__ import annotations

import csv
import io
import mmap
import re
import tempfile
from collections.abc import Iterator, Mapping, Sequence
from itertools import count
from typing import Any, NamedTuple

from .console import Fault, refuse
from .figures import Figured, figures_in
from .logs import FINAL_HEADER, LOG_HEADER, Log
from .programs import program_of, ran
from .replay import ENTERS, LEAVES
from .runs import first_line
from .scenarios import written

# The longest horizon that a scenario may have, in milliseconds, and how many queues it has at most.
HORIZON, QUEUES_MOST = 2_592_000_000, 1_000
NO_ROW = re.compile(r":([0-9]+): no row of this scenario's log")
HEADER, FINALS = (f"{','.join(header)}\n".encode() for header in (LOG_HEADER, FINAL_HEADER))
# The queue and the agent of a row, and the number of the queue where a message comes in.
NAMES = re.compile(rb"^[0-9]+,([^,\n]*),([^,\n]*),(?:(?:send|arrive),new,m-([0-9]{1,9})-)?", re.M)
# So many bytes are looked at once, and so many blocks of them for names at first.
BLOCK, SAMPLES = 1 << 18, 16


class WholeLog:
    """The rows of a log in a file that is kept, without the header of the log and what follows them."""

    def __init__(self, log: Log) -> None:
        try:
            self.data = mmap.mmap(log.kept.fileno(), 0, access=mmap.ACCESS_READ)
        except (OSError, ValueError):
            raise Fault("it cannot be mapped") from None
        after = self.data.rfind(b"\n" + FINALS) + 1
        self.begin, self.end = len(HEADER), after or len(self.data)
        refuse(self.data[:self.begin] != HEADER or self.data[-1:] != b"\n", "it has another header, or is cut")

    def rest(self) -> list[str]:
        """The lines behind the header of the final queues; none if that does not follow the rows."""
        return self.data[self.end + len(FINALS):].decode().split("\n")[:-1] if self.end < len(self.data) else []

    def bounds(self, step: int = 1) -> Iterator[tuple[int, int]]:
        """Where each `step`-th block of whole lines begins and ends."""
        at = self.begin
        while at < self.end:
            end = self.line_end(at + BLOCK)
            yield at, end
            at = end if step == 1 else self.line_end(at + step * BLOCK)

    def line_end(self, at: int) -> int:
        """The end of the line at a place, or the end of the rows."""
        return self.data.find(b"\n", min(at, self.end - 1)) + 1

    def blocks(self, step: int = 1) -> Iterator[bytes]:
        return (self.data[at:end] for at, end in self.bounds(step))

    def row_count(self) -> int:
        return sum(block.count(b"\n") for block in self.blocks())

    def last_at(self) -> int | None:
        """The time of the last row; None without rows."""
        line = self.data[self.data.rfind(b"\n", 0, self.end - 1) + 1:self.end]
        return int(line.partition(b",")[0]) if self.begin < self.end else None

    def names(self, all_of_it: bool) -> set[tuple[str, str, str]]:
        """The queues and agents of rows, with the numbers of queues that messages came into; or those of some rows,
        which are spread over the log."""
        step = 1 if all_of_it else 1 + (self.end - self.begin) // (SAMPLES * BLOCK)
        found = {names for block in self.blocks(step) for names in set(NAMES.findall(block))}
        return {(queue.decode(), agent.decode(), number.decode()) for queue, agent, number in found}

    def rows_of(self, call: str, answer: str) -> Iterator[list[str]]:
        """The fields of each row with a call and an answer that has no quotes."""
        what = f",{call},{answer},".encode()
        for block in self.blocks():
            at = block.find(what)
            while at >= 0:
                end = block.index(b"\n", at)
                fields = block[block.rfind(b"\n", 0, at) + 1:end].decode().split(",")
                if fields[3:5] == [call, answer] and len(fields) == len(LOG_HEADER):
                    yield fields
                at = block.find(what, end)

    def not_empty_since(self, left: Mapping[str, int]) -> dict[str, int]:
        """Since when each queue is not empty of which so many messages are left."""
        left, found = {queue: number for queue, number in left.items() if number}, {}
        lines = (line for at, end in reversed([*self.bounds()]) for line in reversed(self.data[at:end].splitlines()))
        while left and (line := next(lines, b"")):
            at, queue, _, call, answer, _ = line.decode().split(",", 5)
            what = call, answer
            if queue in left and (what in ENTERS or what in LEAVES):
                left[queue] += 1 if what in LEAVES else -1
                if not left[queue]:
                    found[queue] = int(at)
                    del left[queue]
        return found


class Names(NamedTuple):
    """The names in a log: of queues, and of all who act or stand in a detail; and the numbers of queues that are known
    by the ids of their messages."""
    queues: set[str]
    agents: set[str]
    numbers: dict[str, int]

    def in_places(self) -> list[str]:
        """The queues, each whose number is known in its place. Where no other queue is left, a name is made up."""
        placed = {number: name for name, number in self.numbers.items() if number < QUEUES_MOST}
        others = sorted(self.queues - {*placed.values()})
        made_up = (name for number in count() if (name := f"_{number}") not in self.queues | self.agents)
        found = [placed[place] if place in placed else others.pop() if others else next(made_up)
                 for place in range(max(placed, default=-1) + 1)]
        return [*found, *others]


def figures_of_log(log: Log, names: Names, words: Sequence[str]) -> Figured:
    """The figures that the program counts, with these options, of a log that is kept."""
    if not names.queues:
        return {}
    scenario = written({"version": 1, "horizon": HORIZON, "queue": [{"name": name} for name in names.in_places()],
                        "actor": [consumer(name, min(names.queues)) for name in sorted(names.agents - names.queues)]})
    with tempfile.TemporaryFile() as out:
        command = [program_of(None), "figures", *words, "/dev/stdin", log.place]
        status, told = ran(command, scenario.encode(), out)
        line = first_line(told) if status else ""
        no_row = NO_ROW.search(line)
        refuse(no_row, f"{log.path} line {no_row and no_row[1]} is no row of a log")
        refuse(status, f"{log.name}: {line}")
        out.seek(0)
        with io.TextIOWrapper(out, newline="") as records:
            return figures_in(csv.reader(records))


def consumer(name: str, queue: str) -> dict[str, Any]:
    return {"name": name, "kind": "consumer", "queue": queue, "service_min_ms": 1, "service_max_ms": 1}
