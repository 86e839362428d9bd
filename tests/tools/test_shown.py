"""Tests that ten times as many seeds keep what a sweep prints as shown or refuted, by the program's own runs."""
import contextlib
import csv
import io
import re
from collections.abc import Callable
from typing import Any
from unittest import mock

from tool import ToolCase, needs_program
from scenario_texts import consumer, producer, queue_of, scenario_of, script

from rehearse_tools import sweep, variants

SEEDS, RUNS, TIMES = 500, 20, 10
SCENARIO = scenario_of(600_000, queue_of("q", visibility_s=20), producer("shop", "q", 40, (500, 1_500)),
                    consumer("worker", "q", (100, 1_500), wait_s=20, idle_ms=1, fail_permille=60))
# As SCENARIO, with an actor before the others that does nothing: all random numbers are others, and no law changes.
OTHER = SCENARIO.replace("[[actor]]", script("idle", "q") + "[[actor]]", 1)
COLUMNS = ("age_p50", "age_p95", "age_p99", "age_max", "age_sum", "receives", "empties", "depth_max")
VERDICT = re.compile(r": (q[^ ]* in [0-9]+%) is (?:(shown|refuted)|undecided): [0-9]+ of [0-9]+ runs,")


@needs_program
class Shown(ToolCase):
    known: dict[str, Any] = {}

    def setUp(self) -> None:
        super().setUp()
        self.scenario = self.write("a.toml", SCENARIO)
        self.other = self.write("b.toml", OTHER)
        run, known = variants.run, self.known

        def remembered(command: list[str], text: str, figures: Any, counting: Any, engine: Any) -> Any:
            """A run of the program, of which each is made once for all tests."""
            self.assertIsNone(figures)
            if text not in known:
                known[text] = run(command, text, engine=engine)
            return known[text]

        for patch in (mock.patch.object(variants, "run", remembered), mock.patch.object(sweep, "look_at_settling")):
            patch.start()
            self.addCleanup(patch.stop)

    def swept(self, first: int, runs: int, *words: str) -> tuple[list[dict[str, str]], str]:
        """The rows and the lines of a sweep over so many seeds from one on; after the last comes the first again."""
        seeds = ",".join(str(1 + (first + number) % SEEDS) for number in range(runs))
        with contextlib.redirect_stdout(io.StringIO()) as out, contextlib.redirect_stderr(io.StringIO()) as told:
            sweep.main([self.scenario, *words, "--vary", f"seed={seeds}"])
        return list(csv.DictReader(io.StringIO(out.getvalue()))), told.getvalue()

    def requirements(self) -> list[str]:
        """Claims that are untrue, true by a little, and plainly true over all seeds."""
        rows, _ = self.swept(0, SEEDS)
        words = []
        for column in ("age_p95", "age_max"):
            ages = sorted(int(row[column]) for row in rows)
            for passing, claimed in ((0.45, 50), (0.55, 50), (0.78, 80), (0.97, 80)):
                words += ["--require", f"q.{column}<{ages[round(passing * SEEDS)]} in {claimed}%"]
        return words

    def verdicts(self, first: int, runs: int, *words: str) -> dict[str, str]:
        """What is shown or refuted, and nothing for another claim."""
        return dict(VERDICT.findall(self.swept(first, runs, "--spread", "seed", *words)[1]))

    def differences(self, first: int, runs: int, *words: str) -> dict[tuple[str, str], str]:
        """The sign of each difference that is shown, and nothing for another, by variant and column."""
        rows, _ = self.swept(first, runs, "--spread", "seed", "--columns", ",".join(COLUMNS), *words)
        return {(next(iter(row.values())), column): ("-" if float(row[f"{column}_difference"]) < 0 else "+")
                if row[f"{column}_shown"] == "yes" else "" for row in rows for column in COLUMNS}

    def assert_kept(self, found: Callable[..., dict[Any, str]], *words: str) -> list[str]:
        """Of 200 cases 5 % at most say what ten times as many seeds do not say; returns what was said of each."""
        said, not_kept = [], []
        for first in range(0, SEEDS, RUNS):
            few, many = (found(first, runs, *words) for runs in (RUNS, TIMES * RUNS))
            self.assertEqual(few.keys(), many.keys())
            said += few.values()
            not_kept += [(first, key, word, many[key]) for key, word in few.items() if word and many[key] != word]
        self.assertEqual(len(said), 200)
        self.assertLessEqual(len(not_kept), 10, not_kept)
        return said

    def test_claims(self) -> None:
        """Eight claims on 25 sweeps. Those that are plainly true are shown often enough for a test."""
        self.assertGreaterEqual(self.assert_kept(self.verdicts, *self.requirements()).count("shown"), 20)

    def test_differences(self) -> None:
        """Eight columns of 25 sweeps. Failed messages come back later, and fewer receives are empty: both are shown."""
        said = self.assert_kept(self.differences, "--vary", "queue.q.visibility_s=20,40", "--against",
                                "queue.q.visibility_s=20")
        self.assertGreaterEqual(min(said.count("+"), said.count("-")), 20)

    def test_differences_of_nothing(self) -> None:
        """Two scenarios with the same law, one of them with other random numbers: what is shown is chance."""
        said = self.assert_kept(self.differences, "--against", self.other)
        self.assertLessEqual(len(list(filter(None, said))), 10)
