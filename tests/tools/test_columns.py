"""Tests the columns of a sweep that no report has, which are figures: by a log written by hand, by random scenarios
against the report and the summary, and by the program."""
from __future__ import annotations

import csv
import io
import json
import math
import unittest
from typing import Any

from test_runs import OVERLOADED, random_scenario
from tool import HEADER, PROGRAM, ToolCase, ended, log_at, needs_program, printed
from scenario_texts import consumer, queue_of, scenario_of, script, task
from rehearse_tools.figures import COLUMNS as OF_FIGURES
from rehearse_tools.figures import Figures, bounds_of, figures_in
from rehearse_tools.requirements import Requirement
from rehearse_tools.runs import ALL_COLUMNS, COLUMNS, Ages, run
from rehearse_tools.statistics import Interval
from rehearse_tools.summaries import Reading, read_runs
from figures import ACTIONS

# m-0-0 is dead-lettered to d and moved back as m-0-2, and is 2 s old there when it is deleted; m-0-1 is new, and 2.5 s
# old. m-0-3 is left, 11 s old.
MD5 = "9dd4e461268c8034f5c8564e155c67a6"
TEXT = ended(log_at("columns.log"), "final,a,m-0-3,o-0-3,visible,,9000,0,,x\n")


# The scenario of this log, as far as a log is read by it.
SCENARIO = scenario_of(20_000, queue_of("a", dead_letter="d", max_receives=1, latency_ms=20), queue_of("d"),
                    script("shop", "a", "1,send,x,,,,,,,,"), consumer("w", "a", 1),
                    task("back", "d", to="a", latency_ms=1))


@needs_program
class ByHand(ToolCase):
    def found(self, first: int = 0, text: str = TEXT, **wanted: Any) -> tuple[dict[str, dict[str, str]], dict[str, Any]]:
        """By queue the columns of the figures of a log, and their bounds."""
        figures, scenario = Figures(first, 20_000, {}, **wanted), self.write("s.toml", SCENARIO)
        words = ["figures", *figures.words()[1:], scenario, self.write("run.csv", text)]
        figured = figures_in(csv.reader(io.StringIO(printed(*words))))
        return ({name: dict(zip(OF_FIGURES, figures.columns_of(name, figured))) for name in ("a", "d")},
                {name: bounds_of(figured[name]) for name in ("a", "d")})

    def test_new_and_moved_messages(self) -> None:
        found, bounds = self.found()
        self.assertEqual({column: found["a"][column] for column in OF_FIGURES[:10]}, {
            "requests": "9", "cost": "", "backlog_gone": "0", "new_age_p50": "2500", "new_age_p95": "2500",
            "new_age_max": "2500", "moved_age_p50": "2000", "moved_age_p95": "2000", "moved_age_max": "2000",
            "window_age_p95": "2500"})
        self.assertEqual({found["d"][column] for column in OF_FIGURES[3:10]}, {""})
        # one new message is left, 11 s old, and no moved one
        self.assertEqual(bounds["a"]["new_age_p50"], Interval(2_500, 2_500))
        self.assertEqual(bounds["a"]["new_age_p95"], Interval(11_000, math.inf))
        self.assertEqual(bounds["a"]["moved_age_max"], Interval(2_000, 2_000))

    def test_a_summary(self) -> None:
        """It has the ages apart if a move task brought messages that were deleted, and counts them anew with --from."""
        path = self.write("run.log", TEXT.partition("final,")[0])
        columns = [f"{kind}_age_p{percent}_ms" for kind in ("new", "moved") for percent in (50, 95)]
        for words, ages in (((), [2_500, 2_500, 2_000, 2_000]), (("--from", "5010"), [None, None, 2_000, 2_000]),
                            (("--to", "5010"), [None] * 4)):
            out = self.output("summary", path, "--json", "--queue", "a", *words)
            queue, = json.loads(out)["runs"][0]["queues"]
            self.assertEqual([queue[column] for column in columns], ages)
        self.assertIn("   age of moved ones, 95 %           2.00 s\n", self.run_tool("summary", path)[1])
        self.assertNotIn("ones", self.run_tool("summary", path, "--to", "5010")[1])

    def test_requests_and_their_cost(self) -> None:
        """Three sends, two deletions, and four receives, of which one got nothing."""
        self.assertEqual(self.found(price=1_000_000.0)[0]["a"]["cost"], "9")
        self.assertEqual(self.found(price=0.4)[0]["a"]["cost"], "0.000004")
        self.assertEqual(self.found(first=5_001)[0]["a"]["requests"], "4")

    def test_windows(self) -> None:
        """By windows of 10 ms each deletion has one of its own; what is left counts in that of the end."""
        for window in (10, 5_010, 100_000):
            found, bounds = self.found(window=window)
            self.assertEqual((found["a"]["window_age_p95"], bounds["a"]["window_age_p95"]),
                             ("2500", Interval(11_000, math.inf)))
        self.assertEqual(self.found(first=5_010, window=10)[0]["a"]["window_age_p95"], "2000")

    def test_backlogs(self) -> None:
        """Eleven that wait are a backlog, which ends with the first that is received; at the end it is not gone."""
        sends = "".join(f"{at},a,shop,send,new,m-0-{at},,{MD5}\n" for at in range(11))
        for rows, gone in ((sends, ""), (sends + "70,a,w,receive,ok,m-0-0,r-0-0-1,o-0-0\n", "70")):
            self.assertEqual(self.found(text=HEADER + rows)[0]["a"]["backlog_gone"], gone)


class Requirements(unittest.TestCase):
    def word(self, text: str, bounds: dict[str, Interval], left: int = 1, **columns: str) -> str | None:
        numbers = {**dict.fromkeys(ALL_COLUMNS, ""), **dict.fromkeys(COLUMNS, "0"), "visible": str(left), **columns}
        failure = Requirement(text).failure(list(numbers.values()), Ages(bounds=bounds))
        return failure and failure.word

    def test_messages_that_are_left(self) -> None:
        bounds = {"new_age_p95": Interval(1_000, 5_000), "window_age_p95": Interval(9_000, math.inf)}
        for text, word in (("q.new_age_p95<6s", None), ("q.new_age_p95<1s", "fails"),
                           ("q.new_age_p95<2s", "is undecided"), ("q.window_age_p95<1min", "is undecided"),
                           ("q.window_age_p95<9s", "fails")):
            self.assertEqual(self.word(text, bounds, new_age_p95="900", window_age_p95="900"), word, text)
        self.assertEqual(self.word("q.new_age_p95<1s", {}, 0, new_age_p95="900"), None)

    def test_numbers(self) -> None:
        self.assertEqual(self.word("q.cost<0.5", {}, cost="0.46"), None)
        self.assertEqual(self.word("q.cost<0.4", {}, cost="0.46"), "fails")
        self.assertEqual(self.word("q.backlog_gone<=0", {}, backlog_gone="0"), None)
        self.assertEqual(self.word("q.backlog_gone<1h", {}, backlog_gone="3600000"), "fails")
        failure = Requirement("q.backlog_gone<1h").failure([*["0"] * len(COLUMNS), *[""] * 99])
        self.assertEqual(failure, ("fails", "a backlog is there at the end"))


@needs_program
class Random(ToolCase):
    def test_against_report_and_summary(self) -> None:
        """New and moved messages are all that were deleted; one window is the run; the requests are the summary's."""
        moved = backlogs = 0
        for seed in range(40):
            text = random_scenario(seed)
            ran = run([str(PROGRAM), "run"], text, Figures(0, 90_000, {}, 100_000))
            summary, = read_runs([self.write("run.out", printed("run", "--quiet", text=text))], Reading())
            for name, *texts in ran.records or []:
                numbers, values = dict(zip(ALL_COLUMNS, texts)), summary.queues[name].values()
                with self.subTest(seed=seed, queue=name):
                    self.assertEqual(numbers["window_age_p95"], numbers["age_p95"])
                    greatest = [int(numbers[column]) for column in ("new_age_max", "moved_age_max") if numbers[column]]
                    self.assertEqual(str(max(greatest, default="")), numbers["age_max"])
                    self.assertEqual(int(numbers["requests"]), sum(values[action] for action in ACTIONS.values()))
                    gone = "" if values["backlog_since_ms"] is not None else str(values["backlog_gone_at_ms"] or 0)
                    self.assertEqual(numbers["backlog_gone"], gone)
                moved += bool(numbers["moved_age_max"])
                backlogs += numbers["backlog_gone"] not in ("", "0")
        self.assertGreater(moved, 3)
        self.assertGreater(backlogs, 10)


@needs_program
class Sweeps(ToolCase):
    scenario_text = OVERLOADED

    def sweep(self, *words: str) -> tuple[int, str, str]:
        return self.run_tool("sweep", self.scenario, *words)

    def test_columns(self) -> None:
        words = "--vary", "seed=1..5", "--price", "0.4", "--columns", "requests,cost,window_age_p95"
        status, out, _ = self.sweep(*words)
        rows = [line.split(",") for line in out.splitlines()]
        self.assertEqual((status, rows[0]), (0, "seed,failed,queue,requests,cost,window_age_p95".split(",")))
        for *_, requests, cost, _ in rows[1:]:
            self.assertAlmostEqual(float(cost), int(requests) * 0.4 / 1e6, places=6)
        spread = self.sweep("--vary", "seed=1..5", "--columns", "cost", "--price", "400000", "--spread", "seed")[1]
        self.assertAlmostEqual(float(spread.splitlines()[1].split(",")[3]), sum(int(row[3]) for row in rows[1:]) / 12.5,
                               places=2)
