"""Tests the report of a run, also from a moment on: by the program's own reports of random scenarios, and by what is
counted from logs here."""
from __future__ import annotations

import csv
import io
import os
import random
import re
import subprocess
import unittest
from itertools import accumulate, chain
from typing import Any

from test_summary import LOG, PARTS, cases
from tool import COUNTED, PROGRAM, ToolCase, needs_program, printed, text_at
from scenario_texts import consumer, producer, queue_of, scenario_of, script, task
from rehearse_tools import runs
from rehearse_tools.console import csv_text
from rehearse_tools.figures import Figures, summed, text_of
from rehearse_tools.logs import FIGURE_HEADER, FIGURES_OF, PLACES, REFUSALS
from rehearse_tools.requirements import Requirement
from rehearse_tools.runs import COLUMNS, Ages
from rehearse_tools.statistics import Interval
from rehearse_tools.summaries import Reading, read_runs

SCENARIOS = 60
COMES, LEAVES = ("send,new", "arrive,new"), ("delete,deleted", "expire,expired", "redrive,out", "move,out")
# Columns whose numbers in two halves of a run add up to those of the whole.
ADDED = [*COLUMNS[:COLUMNS.index("depth_max")], "age_sum"]
# Three messages a second come in for a worker that does one in three seconds: most are left.
OVERLOADED = scenario_of(60_000, queue_of("q"), producer("p", "q", 9_000, (1, 1_999)), consumer("c", "q", (2_000, 4_000)))


def counts_of(text: str, first: int) -> dict[str, dict[str, str]]:
    """The columns of each queue from a moment on, as they are counted here from what a run prints."""
    log, _, rest = text.partition("\nfinal,queue,")
    rows = [(int(at), name, f"{call},{answer}", answer, detail)
            for at, name, _, call, answer, *_, detail in csv.reader(log.splitlines()[1:])]
    finals = [record for record in csv.reader(rest.splitlines()) if record[0] == "final"]
    found = {}
    for name in re.findall("^report,(.*?),[0-9]", rest, re.M):
        own = [row for row in rows if row[1] == name]
        inside = [row for row in own if row[0] >= first]
        said = [row[2] for row in inside]
        kinds = [said.count(kind) + (kind == "send,repeat") * said.count("arrive,repeat") for kind in COUNTED]
        refused = [sum(row[3] == refusal for row in inside) for refusal in REFUSALS]
        depths = [0, *accumulate((row[2] in COMES) - (row[2] in LEAVES) for row in own)]
        places = [sum(record[1] == name and record[4] == place for record in finals) for place in PLACES]
        ages = sorted(int(row[4]) for row in inside if row[2] == "delete,deleted")
        ranks = [ages[-(-percent * len(ages) // 100) - 1] if ages else "" for percent in (100, 50, 95, 99)]
        numbers = *kinds, *refused, max(depths[len(own) - len(inside):]), *places, sum(ages), *ranks
        found[name] = dict(zip(COLUMNS, map(str, numbers)))
    return found


def random_scenario(seed: int) -> str:
    """A scenario of two to four queues with dead letters, delays, long polls, forwards, failures and a move task."""
    chance = random.Random(seed)
    end = chance.choice(["", ".fifo"])
    names = [f"q{number}{end}" for number in range(chance.randint(2, 4))]
    horizon, parts = chance.choice([20_000, 90_000]), []
    for number, name in enumerate(names):
        keys: dict[str, Any] = {"visibility_s": chance.randint(1, 8), "delay_s": chance.choice([0, 0, 3]),
                                "retention_s": chance.choice([60, 345_600])}
        if number == 0:
            keys |= {"dead_letter": names[-1], "max_receives": chance.randint(1, 3), "latency_ms": 20}
        parts.append(queue_of(name, **keys))
    fifo = {"groups": chance.randint(1, 5), "ids": True} if end else {}
    for number, name in enumerate(names[:-1]):
        least = chance.randint(1, 300)
        parts.append(producer(f"p{number}", name, chance.randint(1, 300), (least, least + 200), chance.choice(["m", "{n}"]),
                              **fifo))
        forward = {"forward": names[number + 1], "latency_ms": 30} if chance.random() < 0.5 else {}
        least = chance.randint(1, 4_000)
        for copy in range(chance.randint(0, 3)):
            parts.append(consumer(f"c{number}-{copy}", name, (least, 2 * least), batch=chance.randint(1, 10),
                                  wait_s=chance.choice([0, 2]), fail_permille=chance.choice([0, 300]), **forward))
    operator = script("op", names[-1], "6000,start,,,,,,,,,t", "6001,cancel,,,,,,,,,t", "6002,cancel,,,,,,,,,t",
                      "9000,start,,,,,,,,,t", "9001,receive,,,,,,10,,,", "9500,start,,,,,,,,,t", "9600,cancel,,,,,,,,,t",
                      "9601,cancel,,,,,,,,,t", "9700,start,,,,,,,,,t")
    return scenario_of(horizon, *parts, operator, task("t", names[-1], to=names[0], per_second=5, latency_ms=20), seed=seed)


@needs_program
class Whole(unittest.TestCase):
    def test_stored_cases(self) -> None:
        """Where nothing is cut, all columns that figures have are those of the program's reports."""
        number = 0
        for number, (path, _, _, records) in enumerate(cases(), 1):
            run, = read_runs([path])
            for record in records:
                figures = run.queues[record["queue"]].figures
                with self.subTest(path=path, queue=record["queue"]):
                    self.assertEqual({column: text_of(summed(figures[name] for name in names))
                                      for column, names in FIGURES_OF.items()},
                                     {column: record[column] for column in FIGURES_OF})
        self.assertGreater(number, 100)

    def test_random_scenarios(self) -> None:
        """From a moment on all columns are those counted here, by the program's figures and by the log as well; before
        it, they add up to the whole with those of a run that ends then."""
        command, half, are_rich, are_open = [str(PROGRAM), "run", "--scripts", "."], 7_001, 0, 0
        for seed in range(SCENARIOS):
            text = random_scenario(seed)
            figures, counting = Figures(half, 0, has_columns=False), runs.Counting(half, 0)
            with self.subTest(seed=seed):
                whole, later = (runs.run(command, text, *more) for more in ((), (figures, counting)))
                by_log = runs.run(command, text, figures, counting._replace(with_doors=True))
                self.assertEqual((whole.status, later.status, later.records), (0, 0, by_log.records), whole.told)
                output = printed("run", "--quiet", "--scripts", ".", text=text)
                self.assertEqual(tables_of(later), counts_of(output, half))
                self.assertEqual(tables_of(whole), counts_of(output, 0))
                first = runs.run(command, text.replace("\nhorizon = ", f"\nhorizon = {half - 1} # "))
                for numbers in zip(*(tables_of(ran).values() for ran in (first, later, whole))):
                    for column in ADDED:
                        self.assertEqual(sum(int(of[column]) for of in numbers[:2]), int(numbers[2][column]))
                    are_rich += int(numbers[2]["redrives"]) > 0
                    are_open += any(int(numbers[0][name]) and int(numbers[1][name]) for name in REFUSALS)
        self.assertGreater(are_rich, SCENARIOS // 4)
        self.assertGreater(are_open, 3)


def tables_of(ran: runs.Ran) -> dict[str, dict[str, str]]:
    """The columns of each queue in a run's report."""
    return {name: dict(zip(COLUMNS, numbers)) for name, *numbers in ran.records or []}


class Cut(ToolCase):
    def test_output_that_ends_anywhere(self) -> None:
        """A program that is ended within its output has no report, or one that is cut."""
        text = LOG + PARTS
        for end in range(len(text) + 1):
            for first, is_extra in ((0, False), (2_500, True)):
                counting = runs.Counting(first, 60_000, is_extra)
                found = runs.reported(io.StringIO(text[:end]), counting)
                self.assertEqual(found is None, end < len(text), end)

    def told(self, first: int) -> dict[str, dict[str, str]]:
        """The columns of each queue of LOG from a moment on, by figures that the program counts of it."""
        run, = read_runs([self.write("run.txt", LOG + PARTS)], Reading(first))
        behind = [["figure", name, figure, text_of(number)] for name, queue in run.queues.items()
                  for figure, number in queue.figures.items()]
        text = LOG + PARTS + csv_text([FIGURE_HEADER, *behind])
        found = runs.reported(io.StringIO(text), runs.Counting(first, 0), Figures(first, 0, has_columns=False))
        assert found is not None
        return {name: dict(zip(COLUMNS, numbers)) for name, *numbers in found.records}

    @needs_program
    def test_from_a_moment_on(self) -> None:
        """From 2.5 s on queue a has a delete of a message that is kept, two deletes, a receive and what follows."""
        self.assertEqual(self.told(2_500), counts_of(LOG + PARTS, 2_500))
        found = self.told(2_500)
        self.assertEqual({column: number for column, number in found["a"].items() if number not in ("0", "")},
                         {"receives": "1", "empties": "2", "deletes": "2", "redrives": "1", "MessageNotInflight": "1",
                          "depth_max": "3", "age_sum": "5300", "age_max": "2800", "age_p50": "2500", "age_p95": "2800",
                          "age_p99": "2800"})
        self.assertEqual(self.told(2_601)["a"]["age_sum"], "2800")
        self.assertEqual(self.told(3_001)["a"]["depth_max"], "1")
        self.assertEqual(self.told(60_200)["d"], {**dict.fromkeys(COLUMNS, "0"), "expiries": "1", "depth_max": "1",
                                                  "age_max": "", "age_p50": "", "age_p95": "", "age_p99": ""})

    def test_the_cut_is_that_of_the_whole(self) -> None:
        """A cut before the first row and after the last one changes no number."""
        for path, *_ in cases():
            whole, cut = (read_runs([path], Reading(first))[0].queues for first in (None, 0))
            for name, queue in whole.items():
                with self.subTest(path=path, queue=name):
                    found = cut[name].values()
                    self.assertEqual({key: found[key] for key in queue.values()}, queue.values())

    def test_faults(self) -> None:
        self.write("run.txt", LOG)
        self.assert_stored_faults("runs, summary")


@needs_program
class Sweeps(ToolCase):
    def setUp(self) -> None:
        super().setUp()
        self.scenario = self.write("o.toml", OVERLOADED)

    def test_columns_of_a_sweep(self) -> None:
        """They are those of the log that the program writes for a run that ends then, as they are counted here."""
        words = "--vary", "seed=1..3", "--from", "10s", "--to", "40s"
        out, _ = self.ends(0, self.run_tool("sweep", self.scenario, *words))
        for seed, row in zip("123", csv.DictReader(io.StringIO(out))):
            text = OVERLOADED.replace("60000", f"40000\nseed = {seed}")
            counts = counts_of(printed("run", "--quiet", text=text), 10_000)["q"]
            self.assertEqual({column: row[column] for column in COLUMNS}, counts)
            self.assertGreater(int(row["sends"]), 0)

    def test_shares_and_their_collection(self) -> None:
        """A share counts the same, and its mark is another than that of a share that counts all."""
        words = self.scenario, "--vary", "seed=1..4", "--from", "10s", "--to", "40s"
        whole = self.run_tool("sweep", *words)[1]
        status, jobs, _ = self.run_tool("sweep", *words, "--print-jobs", "results", "--shares", "2")
        self.assertIn("--from 10000 --to 40000 ", jobs)
        for job in jobs.splitlines():
            self.assertEqual(subprocess.run(["sh", "-c", job], capture_output=True).returncode, 0)
        self.assertEqual(self.run_tool("sweep", "--collect", "results"), (0, whole, ""))
        uncut = self.run_tool("sweep", *words[:3], "--print-jobs", "results", "--shares", "2")[1]
        self.assertNotEqual(jobs.split("--mark ")[1][:8], uncut.split("--mark ")[1][:8])
        self.assertEqual(os.listdir(self.path("results"))[0].count("-of-2-"), 1)

    def test_faults(self) -> None:
        self.assert_stored_faults("runs, sweep")

    def test_a_report_of_messages_that_are_left(self) -> None:
        status, out, err = self.run_tool("report", self.scenario, "--require", "q.age_p95<90s", "--output", "o.html")
        self.assertEqual((status, out), (1, ""))
        self.assertTrue(err.startswith("report: q.age_p95<90s is undecided: it is "), err)
        self.assertIn('<td class="fails">is undecided</td><td>q.age_p95&lt;90s</td>', text_at(self.path("o.html")))


    def test_a_report_from_and_to_a_moment(self) -> None:
        """Its requirements are judged by what a sweep counts; the page says what was counted."""
        first, second = (dict(zip(*csv.reader(io.StringIO(self.run_tool("sweep", self.scenario, "--vary", "seed=0",
                                                                        *words)[1]))))
                         for words in (("--from", "30s"), ("--to", "20s")))
        for words, numbers, told in ((("--from", "30s"), first, "counted from 30.0 s"),
                                     (("--to", "20s"), second, "ended at 20.0 s")):
            requires = [word for column in ("sends", "deletes", "age_max", "depth_max", "visible")
                        for word in ("--require", f"q.{column}!={numbers[column]}")]
            _, err = self.ends(1, self.run_tool("report", self.scenario, *words, *requires, "--output", "o.html"))
            self.assertEqual(len(re.findall(r"^report: q\.\w+!=\d+ fails: it is ", err, re.M)), 4, err)
            self.assertIn(f", {told}.</p>", text_at(self.path("o.html")))
        self.assert_fault(self.run_tool("report", self.scenario, "--from", "2m", "--output", "o.html"),
                          "report: --from 120000 ms is after the horizon of 60000 ms")


class Left(unittest.TestCase):
    """Requirements on ages where messages are left, by counting."""

    def numbers(self, ages: list[int], left: int) -> list[str]:
        """The texts of a report in which messages of these ages were deleted and some are visible."""
        found = {**dict.fromkeys(COLUMNS, 0), "deletes": len(ages), "visible": left, "age_max": max(ages)}
        for column, share in (("age_p50", 50), ("age_p95", 95), ("age_p99", 99)):
            found[column] = sorted(ages)[-(-share * len(ages) // 100) - 1]
        return [str(found[column]) for column in COLUMNS]

    def word(self, text: str, ages: list[int], left: int, bounds: Interval | None = None) -> str:
        """What is said of a requirement; `bounds` are those of its column where figures tell them."""
        known = Ages({Requirement(text).column: bounds}) if bounds else None
        failure = Requirement(text).failure(self.numbers(ages, left), known)
        return failure.word if failure else "holds"

    def test_the_report_decides(self) -> None:
        """Of 100 ages 1 to 100 s and one that is left, the 95th percentile has rank 96 of 101: it lies between those of
        ranks 95 and 96, which a report knows as between 95 and 99 s."""
        ages = [1_000 * age for age in range(1, 101)]
        for text, word in (("q.age_p95<=99s", "holds"), ("q.age_p95>94s", "holds"), ("q.age_p95<95s", "fails"),
                           ("q.age_p95<=96s", "is undecided"), ("q.age_max<200s", "is undecided"),
                           ("q.age_max<100s", "fails"), ("q.sends=0", "holds")):
            self.assertEqual(self.word(text, ages, 1), word, text)
            self.assertEqual(Requirement(text).is_open(self.numbers(ages, 1)), word == "is undecided")

    def test_the_bounds_decide(self) -> None:
        """The one that is left is at least 1 s old, so that rank 96 of 101 is 95 or 96 s; or it is at least 99 s old."""
        ages = [1_000 * age for age in range(1, 101)]
        for text, low, word in (("q.age_p95<=96s", 95_000, "holds"), ("q.age_p95<96s", 95_000, "is undecided"),
                                ("q.age_p95<96s", 96_000, "fails")):
            self.assertEqual(self.word(text, ages, 1, Interval(low, 96_000)), word)

    def test_a_reason_tells_the_share(self) -> None:
        """Two of five are left: the middle of five has rank 3, which is the greatest of three or one that is left."""
        ages = Ages({"age_p50": Interval(2_000, 3_000)})
        failure = Requirement("q.age_p50<2500").failure(self.numbers([1_000, 2_000, 3_000], 2), ages)
        self.assertEqual(failure, ("is undecided", "it is 2000 ms, 2.00 s, of those deleted, and 2000 to 3000 ms with "
                                                   "the 2 that are left (40 %)"))

    def test_bounds_by_the_report_are_not_too_narrow(self) -> None:
        """Whatever ages the messages have that are left, what a report decides is so."""
        chance = random.Random(5)
        for _ in range(2_000):
            ages = [chance.randint(1, 50) for _ in range(chance.randint(1, 60))]
            left = [chance.randint(1, 80) for _ in range(chance.randint(1, 12))]
            column, share = chance.choice([("age_p50", 50), ("age_p95", 95), ("age_p99", 99), ("age_max", 100)])
            bound = chance.randint(1, 60)
            together = sorted(chain(ages, left))
            true = together[-(-share * len(together) // 100) - 1] < bound
            word = self.word(f"q.{column}<{bound}", ages, len(left))
            if word != "is undecided":
                self.assertEqual(word == "holds", true)
