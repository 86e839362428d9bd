"""Tests what the tools make of the figures that the program writes behind a report: by runs counted by hand, and by the
logs of random scenarios, of which the reference has the figures."""
from __future__ import annotations

import csv
import io
import math
import os
import subprocess
import unittest

from test_runs import random_scenario
from test_summary import LOG, PARTS
from tool import PROGRAM, ToolCase, log_at, needs_program, printed, text_at
from scenario_texts import consumer, queue_of, scenario_of, script
from rehearse_tools import runs
from rehearse_tools.figures import AGES, OF_QUEUE, OF_REPORT, Figures, bounds_of, figures_in
from rehearse_tools.scenarios import consumers_of, names_of, parsed
from rehearse_tools.statistics import Interval
from figures import Fields, Stretch, busy, depths, flights, peak, tries

SCENARIOS = 20
# In LOG the three messages of a are there from 200 ms on, and all in flight from 300 ms on. Its consumer left is busy
# from 100 to 2500 ms and from 3200 to 5300 ms, right from 300 to 3100 ms, and third from 2200 to 2600 ms. Of the two
# messages that are deleted one had been received twice.
FIGURES = log_at("batch.figures")
CONSUMERS = {"a": ["left", "right", "third"]}
# Figures that are made up, each of another number.
MADE_UP = ["requests", "backlog_gone_at_ms", "backlog_since_ms", *(f"{age}_ms" for age in AGES.values()),
           *(f"{age}_{bound}_ms" for age in (*AGES.values(), *OF_REPORT.values()) for bound in ("least", "most"))]
FIGURES += "".join(f"figure,{queue},{name},{number}\n" for queue, start in (("a", 100), ("d", 200))
                   for number, name in enumerate(MADE_UP, start) if name != "backlog_since_ms")
FIGURES += "figure,a,backlog_since_ms,\nfigure,d,backlog_since_ms,7\n"
# Three messages wait from 2 ms on. The consumer slow is busy from 1000 to 3500 ms; quick is from 1100 to 1600 ms, and
# from the next millisecond on, to 2101 ms. So two are in flight at 1100 ms, and q has two from 1600 ms on. The queue
# idle has no consumer, but an actor of another kind.
SCENARIO = scenario_of(
    9_999, queue_of("q"), queue_of("idle"), script("shop", "q", *(f"{at},send,{body},,,,,,,," for at, body in enumerate("abc"))),
    script("desk", "idle", "5000,receive,,,,,,1,,,"), consumer("slow", "q", 2_500, start_ms=1_000, idle_ms=86_400_000),
    consumer("quick", "q", 500, start_ms=1_100, idle_ms=86_400_000))
NAMES = "depth_max_at_ms,in_flight_max,in_flight_max_at_ms,received_again,tries_max,busy"


class Readers(ToolCase):
    """All that reads what a run prints takes it as if no figures were there."""

    def test_tools_that_read_a_log(self) -> None:
        for words in (("summary",), ("summary", "--json"), ("summary", "--door"), ("metrics",), ("life", "m-0-2"),
                      ("picture",)):
            for log, more in ((LOG + PARTS, ()), (LOG, ("--rest", self.path("rest.out")))):
                ran = []
                for figures in ("", FIGURES):
                    self.write("run.txt", log + (figures if not more else ""))
                    self.write("rest.out", PARTS + figures)
                    ran.append(self.run_tool(words[0], "run.txt", *more, *words[1:]))
                self.assertEqual(ran[0][0], 0, ran[0])
                self.assertEqual(*ran, (words, more))

    def test_runs_of_a_sweep(self) -> None:
        """The report is that of the program, or it is counted from the log."""
        plain, more = ([io.StringIO(LOG + PARTS + figures) for _ in range(2)] for figures in ("", FIGURES))
        self.assertEqual(runs.report_of(more[0]), runs.report_of(plain[0]))
        assert runs.report_of(io.StringIO(LOG + PARTS)) is not None
        self.assertEqual(*(runs.reported(stream, runs.Counting(0, 60_200)) for stream in (plain[1], more[1])))

    def test_damage(self) -> None:
        """A line that is cut, or has other fields, is damage here as elsewhere."""
        for damaged, told in ((FIGURES[:-1], " ends within a line"),
                              (FIGURES + "figure,a,sent\n", " line 115 is no record of the part figure after a log")):
            path = self.write("run.txt", LOG + PARTS + damaged)
            self.assert_fault(self.run_tool("summary", path), f"summary: {path}{told}")

    @needs_program
    def test_what_the_program_writes(self) -> None:
        scenario = self.write("s.toml", SCENARIO)
        ran = []
        for words in ([], ["--figures"], ["--from", "9000"]):
            done = printed("run", *words, scenario)
            self.assertEqual("\nfigure,of,name,value\n" in done, bool(words))
            self.write("run.txt", done)
            ran.append(self.run_tool("summary", "run.txt"))
        self.assertEqual(ran, [ran[0]] * 3)


class ByHand(unittest.TestCase):

    def test_bounds_and_moments_that_are_open(self) -> None:
        """No bound above, no bound below, no backlog; and what a million requests cost."""
        text = FIGURES
        for line, other in (("new_age_p50_least_ms,110", "new_age_p50_least_ms,"), ("new_age_p50_most_ms,111", "new_age_p50_most_ms,"),
                            ("backlog_gone_at_ms,101", "backlog_gone_at_ms,")):
            self.assertIn(f"figure,a,{line}\n", text)
            text = text.replace(f"figure,a,{line}\n", f"figure,a,{other}\n")
        figures = Figures(0, 62_499, CONSUMERS, 1_000, 0.5)
        self.assertEqual(figures.words(), ["--figures", "--from", "0", "--window-figures", "1000"])
        figured = figures_in(csv.reader(io.StringIO(text)))
        self.assertEqual(bounds_of(figured["a"])["new_age_p50"], Interval(0, math.inf))
        self.assertEqual(figures.columns_of("a", figured)[1:3], ["0.00005", "0"])

    def test_shares_of_time(self) -> None:
        """They are rounded down, so that 100 is all the time."""
        for length, share in ((4500, "100"), (4501, "99.97"), (7000, "64.28"), (45_000_000, "0.01"), (10**9, "0")):
            figures = Figures(10, 9 + length, CONSUMERS)
            found = figures.columns_of("a", figures_in(csv.reader(io.StringIO(FIGURES))))
            self.assertEqual(found[-6:], ["200", "3", "300", "1", "2", share])

    def test_figures_that_are_not_there(self) -> None:
        """A run whose figures are cut has no report: each of these lines is needed but the first and the counts."""
        lines, figures = FIGURES.splitlines(keepends=True), Figures(0, 62_499, CONSUMERS)
        for place in range(len(lines) + 1):
            text = LOG + PARTS + "".join(lines[:place])
            self.assertEqual(runs.report_of(io.StringIO(text), figures) is None, place < len(lines))


@needs_program
class Sweeps(ToolCase):
    scenario_text = SCENARIO

    def rows(self, *words: str) -> list[list[str]]:
        out, _ = self.ends(0, self.run_tool("sweep", self.scenario, *words))
        return list(csv.reader(io.StringIO(out)))[1:]

    def test_no_log_is_read_for_them(self) -> None:
        """It is read for ages since the first send alone, also where something is cut off at the beginning."""
        path, asked = self.write("program", f'#!/bin/sh\necho "$*" >> {self.path("asked")}\nexec {PROGRAM} "$@"\n'), []
        os.chmod(path, 0o700)
        for words in (NAMES, f"sends,{NAMES}", f"{NAMES},requests", f"{NAMES},door_age_p95", "sends"):
            for more in ((), ("--from", "2s")):
                self.rows("--columns", words, *more, "--program", path)
                asked.append(text_at(self.path("asked")).splitlines()[-1].partition(" --scripts ")[2].partition(" ")[2])
        whole, later = (f"--figures --from {first} --window-figures 300000" for first in (0, 2000))
        self.assertEqual(asked, [f"{words} --log /dev/null" for words in (whole, later)] * 3 + [
            whole, later, "--log /dev/null", f"{later} --log /dev/null"])

    def test_random_scenarios(self) -> None:
        """The columns are those that the reference makes of the log."""
        command, are_rich = [str(PROGRAM), "run", "--scripts", "."], 0
        for seed in range(SCENARIOS):
            text, first = random_scenario(seed), 0 if seed % 2 else 7_001
            scenario = parsed(text, "random")
            end, consumers = scenario["horizon"], consumers_of(scenario)
            ran = runs.run(command, text, Figures(first, end, consumers))
            done = subprocess.run([*command, "--quiet"], input=text, capture_output=True, text=True, check=True)
            lines = done.stdout.partition("\nfinal,queue,")[0].splitlines()[1:]
            rows, stretch = [Fields(*row) for row in csv.reader(lines)], Stretch(first, end + 1)
            for name, *numbers in ran.records or []:
                own = [row for row in rows if row.queue == name]
                found = dict([*peak("depth", depths(own), own, stretch),
                              *peak("in_flight", flights(own), own, stretch), *tries(own, stretch)])
                times = [busy([row for row in rows if row.agent == agent], stretch)
                         for agent in consumers.get(name, ())]
                wanted = [str(found[figure]) for figure in list(OF_QUEUE.values())[-5:]]
                share = str(10_000 * max(times) // (end + 1 - first)) if times else ""
                with self.subTest(seed=seed, queue=name):
                    self.assertEqual(numbers[-6:-1], wanted)
                    self.assertEqual(numbers[-1] and f"{100 * float(numbers[-1]):.0f}", share)
                are_rich += len(times) > 1 and max(times) > 0
            self.assertEqual(len(ran.records or []), len(names_of(scenario, "queue")), ran.told)
        self.assertGreater(are_rich, SCENARIOS // 4)
