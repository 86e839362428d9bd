"""Tests the interface for notebooks: by the code of its page, by a case counted by hand, and against the commands."""
import contextlib
import csv
import doctest
import io
import json
import os
import re
import signal
import subprocess
import sys
import threading
import unittest
from unittest import mock

from tool import PROGRAM, ROOT, ToolCase, needs_program, text_at
from rehearse_tools import notebook
from rehearse_tools.console import Fault, library

try:
    library("pandas", "python3-pandas")
    needs_pandas = unittest.skipIf(False, "")
except Fault:
    needs_pandas = unittest.skip("pandas is missing, which Debian's package python3-pandas has")

CASES = os.path.join(ROOT, "tests", "cases", "by-hand")
SWEPT = os.path.join(ROOT, "examples", "short_timeout.toml")
PLANNED = {"queue.jobs.visibility_s": [2, 5], "seed": "1..6"}


def texts_of(rows: list) -> list:
    """The cells of a table as CSV has them."""
    return [["" if cell is None else str(cell) for cell in row.values()] for row in rows]


def told(function, *words, **named) -> tuple:
    """What a function gives, and the lines on standard error."""
    with contextlib.redirect_stderr(io.StringIO()) as stream:
        return function(*words, **named), stream.getvalue().splitlines()


@needs_program
class Page(ToolCase):
    @needs_pandas
    def test_its_code(self) -> None:
        blocks = re.findall(r"```pycon\n(.*?)```", text_at(ROOT, "docs", "NOTEBOOKS.md"), re.DOTALL)
        self.assertEqual(len(blocks), 7)
        test = doctest.DocTestParser().get_doctest("\n".join(blocks), {}, "NOTEBOOKS.md", None, None)
        runner = doctest.DocTestRunner(optionflags=doctest.NORMALIZE_WHITESPACE)
        before, path = os.getcwd(), list(sys.path)
        try:
            os.chdir(ROOT)
            failed, _ = told(runner.run, test)
        finally:
            os.chdir(before)
            sys.path[:] = path
        self.assertEqual(failed.failed, 0)


@needs_program
class Lists(ToolCase):
    """What needs no pandas."""

    def test_a_run_counted_by_hand(self) -> None:
        """Each stored log, with its parts, is what the tables have."""
        for name in ("expiry_in_every_place", "move_and_forward_under_way", "task_fails_after_a_move"):
            path = os.path.join(CASES, name)
            with open(f"{path}.out", encoding="utf-8", newline="") as file:
                wanted = list(csv.reader(file))
            found = notebook.rehearse(f"{path}.toml", as_lists=True)
            parts = [texts_of(table) for table in (found.finals, found.transfers, found.tasks, found.report)]
            records = [record[1:] for record in wanted if record[0] in notebook.PARTS]
            heads = [row[1:] for row in wanted if row[0] in notebook.PARTS and row in notebook.HEADERS.values()]
            self.assertEqual(sum(parts, []), [record for record in records if record not in heads], name)
            self.assertEqual(texts_of(found.rows), wanted[1:wanted.index(notebook.FINAL_HEADER)], name)
            self.assertEqual([row["sends"] for row in found.report], [row["sent"] for row in found.summary])

    def test_a_text_and_settings(self) -> None:
        text = text_at(SWEPT)
        first = notebook.rehearse(text, {"seed": 5}, as_lists=True)
        self.assertEqual(first, notebook.rehearse(SWEPT, {"seed": 5}, as_lists=True))
        self.assertNotEqual(first.rows, notebook.rehearse(SWEPT, {"seed": 6}, as_lists=True).rows)

    def test_version_3_is_asked_for(self) -> None:
        path = os.path.join(ROOT, "tests", "cases", "version-3", "backoff_by_receive_count.toml")
        for call in (lambda: notebook.rehearse(path, as_lists=True),
                     lambda: notebook.sweep(path, {"seed": [1]}, as_lists=True)):
            with self.assertRaisesRegex(Fault, "version"):
                call()
        # The second backoff is 3 s, and each later one: receives at 10, 1110, 4210 and 7310.
        run = notebook.rehearse(path, as_lists=True, v3=True)
        self.assertEqual([row["at"] for row in run.rows if row["call"] == "receive" and row["answer"] == "ok"],
                         [10, 1110, 4210, 7310])
        self.assertEqual(run, notebook.rehearse(path, as_lists=True, preview=True))
        for asked in ({"v3": True}, {"preview": True}):
            swept, _ = told(notebook.sweep, path, {"actor.c.backoff_s": [[1, 3], [4]]}, columns=["receives"],
                            as_lists=True, **asked)
            self.assertEqual([row["receives"] for row in swept.rows], [4, 2])

    def test_a_sweep_is_that_of_the_command(self) -> None:
        words = ["--vary", "queue.jobs.visibility_s=2,5", "--vary", "seed=1..6"]
        for options, more, is_met in (
                ({}, [], True), ({"first": "3s", "last": "20s"}, ["--from", "3s", "--to", "20s"], True),
                ({"spread": "seed", "columns": ["age_p95", "deletes"]},
                 ["--spread", "seed", "--columns", "age_p95,deletes"], True),
                ({"require": ["jobs.age_p95<7s", "jobs.sends=10"], "jobs": 2},
                 ["--require", "jobs.age_p95<7s", "--require", "jobs.sends=10"], False)):
            with self.subTest(options=options):
                found, lines = told(notebook.sweep, SWEPT, PLANNED, as_lists=True, **options)
                _, out, err = self.run_tool("sweep", SWEPT, *words, *more)
                header, *rows = csv.reader(io.StringIO(out))
                self.assertEqual((list(found.rows[0]), texts_of(found.rows)), (header, rows))
                self.assertEqual((found.is_met, [line for line in lines if " fails with " in line]),
                                 (is_met, [line for line in err.splitlines() if " fails with " in line]))

    def test_a_summary_is_that_of_the_command(self) -> None:
        before, after = self.path("before.log"), self.path("after.log")
        for path, seed in ((before, "1"), (after, "2")):
            with open(path, "wb") as file:
                scenario = self.run_tool("sweep", SWEPT, "--vary", f"seed={seed}", "--print-scenario")[1]
                subprocess.run([str(PROGRAM), "run"], input=scenario.encode(), stdout=file, check=True)
        runs = json.loads(self.run_tool("summary", before, after, "--json", "--from", "2s")[1])["runs"]
        self.assertEqual(notebook.summary([before, after], first="2s", as_lists=True),
                         [{"run": number, **queue} for number, run in enumerate(runs, 1) for queue in run["queues"]])
        queues = json.loads(self.run_tool("summary", before, "--json", "--door")[1])["runs"][0]["queues"]
        self.assertEqual(notebook.summary(before, door=True, as_lists=True), queues)

    def test_words_of_values(self) -> None:
        self.assertEqual([notebook.word_of(value) for value in (7, True, "x", "a,b", "1..3")],
                         ["7", "true", "x", '"a,b"', '"1..3"'])

    def test_an_interrupt_means_what_it_meant(self) -> None:
        def own(*_: object) -> None:
            raise AssertionError

        before = signal.signal(signal.SIGTERM, own)
        try:
            told(notebook.sweep, SWEPT, {"seed": [1]}, as_lists=True)
            self.assertEqual((signal.getsignal(signal.SIGTERM), sys.argv[0] == "sweep"), (own, False))
        finally:
            signal.signal(signal.SIGTERM, before)

    def test_faults(self) -> None:
        for line, call in (
                ("a sweep takes no output here; it takes vary, zip, require",
                 lambda: notebook.sweep(SWEPT, PLANNED, True, output="x")),
                ("bad is no setting, as seed", lambda: notebook.rehearse(SWEPT, {"bad.": 1}, as_lists=True)),
                ("the scenario has no table [[queue]] with the name none",
                 lambda: notebook.sweep(SWEPT, {"queue.none.delay_s": [1]}, True)),
                ("refused 14 OutOfRange at horizon", lambda: notebook.rehearse(SWEPT, {"horizon": 0}, as_lists=True)),
                ("cannot read none.toml", lambda: notebook.rehearse("none.toml", as_lists=True)),
                ("there is no program none", lambda: notebook.rehearse(SWEPT, program="none", as_lists=True))):
            with self.subTest(line=line), self.assertRaises(Fault) as caught:
                call()
            self.assertIn(line.replace("bad is", "bad. is"), str(caught.exception))

    def test_another_thread(self) -> None:
        found = []

        def run() -> None:
            try:
                notebook.sweep(SWEPT, PLANNED, True)
            except Fault as fault:
                found.append(str(fault))

        thread = threading.Thread(target=run)
        thread.start()
        thread.join()
        self.assertEqual(found, ["a sweep runs in the main thread, where it can be interrupted"])

    def test_without_pandas(self) -> None:
        with mock.patch.object(notebook, "library", side_effect=Fault("missing")):
            for call in (notebook.rehearse, notebook.summary, lambda path: notebook.sweep(path, PLANNED)):
                self.assertRaisesRegex(Fault, "^a table of pandas needs Debian's package python3-pandas, ", call, SWEPT)
