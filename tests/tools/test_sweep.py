"""Tests tools/sweep with a stand-in for the program whose report is known, and with the program where it is at hand. What
single commands print is in sessions/sweep.txt."""
import csv
import io
import os
import pty
import shlex
import signal
import subprocess
import sys

from tool import (HERE, LIMIT, PROGRAM, REPORT_HEADER, ROOT, TOOLS, ToolCase, needs_program, ran, read_whole, text_at,
                  wait_for)
from scenario_texts import consumer, producer, queue_of, scenario_of
from rehearse_tools.variants import values_of

COLUMNS = REPORT_HEADER.strip().removeprefix("report,queue,")
SCENARIO = scenario_of(1_000, queue_of("q", visibility_s=1), queue_of("r"), seed=0)
# The stand-in makes the file begun and takes an hour with a seed of 77; sessions/sweep.txt says what else it does.
STAND_IN = text_at(HERE, "stand-ins", "sweep")


class Sweep(ToolCase):
    scenario_text, stand_in = SCENARIO, STAND_IN

    def sweep(self, *words):
        return self.run_tool("sweep", *words, SQS_REHEARSE=self.program)

    def records(self, text):
        records = list(csv.reader(io.StringIO(text)))
        return records[0], records[1:]

    def test_jobs_name_the_command(self):
        """By the path by which it was called; or that in tools/, which runs from any folder."""
        own, link = os.path.join(TOOLS, "sweep"), self.path("sqs_rehearse-sweep")
        os.symlink(own, link)
        for command, wanted in (([own], own), ([link], link), (["./sqs_rehearse-sweep"], link),
                                ([sys.executable, "-m", "rehearse_tools", "sweep"], own)):
            _, out, err = ran([*command, self.scenario, "--vary", "seed=1", "--print-jobs", "jobs"], cwd=self.folder,
                              env={**os.environ, "PYTHONPATH": TOOLS, "SQS_REHEARSE": self.program})
            self.assertEqual((out.split()[0], err), (wanted, ""))

    def test_jobs_and_their_collection(self):
        words = self.scenario, "--vary", "queue.q.visibility_s=2,51", "--vary", 'horizon=7,"8"', "--vary", "seed=1"
        whole = self.sweep(*words)
        status, jobs, err = self.sweep(*words, "--print-jobs", "made here")
        self.assertEqual((status, err, len(jobs.splitlines())), (0, "", 4))
        statuses = []
        for job in reversed(jobs.splitlines()):
            command = f"{shlex.quote(sys.executable)} {job}"
            statuses.append(subprocess.run(["sh", "-c", command], cwd="/", capture_output=True).returncode)
        self.assertEqual(statuses, [1, 1, 0, 0])
        self.assertEqual(self.sweep("--collect", "made here"), (1, whole[1], ""))
        third, = (name for name in os.listdir(self.path("made here")) if name.startswith("3-of-4-"))
        os.remove(self.path(f"made here/{third}"))
        status, out, err = self.sweep("--collect", "made here", "--spread", "seed")
        self.assertEqual((status, err), (1, "sweep: 1 of 4 variants are left: 3\n"))
        self.assertEqual([row[:2] for row in self.records(out)[1]], [["2", "7"], ["2", "7"], ["2", "8"], ["2", "8"],
                                                                     ["51", "8"]])

    def test_version_3_is_asked_for(self):
        """Without --v3 nothing is run. With it, or its former name, the program gets the name that older ones know, too. The
        commands of jobs have --v3."""
        old, new = self.scenario, self.write("3.toml", SCENARIO.replace("version = 1", "version = 3"))
        told = "has version 3, which is read only for the word --v3"
        self.assert_fault(self.sweep(new, "--vary", "seed=1"), f"sweep: {new} {told}")
        self.assert_fault(self.sweep(old, "--vary", "version=2,3"), f"sweep: {old} {told}")
        self.write("program", STAND_IN.replace('"$1 $2 $4 $5 $#" = "run --scripts --log /dev/null 5"',
                                               '"$1 $2 $3 $5 $6 $#" = "run --preview --scripts --log /dev/null 6"'))
        words = new, "--vary", "seed=1..2", "--columns", "sends"
        for asked in ("--preview", "--v3"):
            self.assertEqual(self.sweep(*words, asked)[:2],
                             (0, "seed,failed,queue,sends\n1,,q,101\n1,,r,0\n2,,q,102\n2,,r,0\n"))
        status, jobs, err = self.sweep(*words, "--v3", "--print-jobs", "jobs")
        self.assertEqual((status, [" --v3 " in job for job in jobs.splitlines()], err), (0, [True, True], ""))
        first = subprocess.run(["sh", "-c", f"{shlex.quote(sys.executable)} {jobs.splitlines()[0]}"])
        self.assertEqual(first.returncode, 0)

    def test_ranges(self):
        """A range has both its ends; one with a step ends with the last step that is not past its end."""
        for text, values in (("0..100..10", "0 10 20 30 40 50 60 70 80 90 100"), ("0..99..50", "0 50"), ("1..3", "1 2 3"),
                             ("7..7", "7"), ("5,1..2,9", "5 1 2 9")):
            self.assertEqual(values_of(text), values.split(), text)

    def test_faults(self):
        known = (f"{COLUMNS},door_age_p50,door_age_p95,door_age_max,requests,cost,backlog_gone,new_age_p50,new_age_p95,"
                 "new_age_max,moved_age_p50,moved_age_p95,moved_age_max,window_age_p95,"
                 "depth_max_at_ms,in_flight_max,in_flight_max_at_ms,received_again,tries_max,busy").replace(",", ", ")
        self.assert_stored_faults("sweep", SQS_REHEARSE=self.program)
        for words, line in ((("--require", "q.sense<1"), "q.sense<1: there is no column sense"),
                            (("--vary", "seed=1", "--columns", "sends,x"), "there is no column x")):
            self.assert_fault(self.sweep(self.scenario, *words), f"sweep: {line}; there are {known}")

    def test_files_that_are_no_scenario(self):
        for data in (b"\x00\x01", b"version = ", "version = 1".encode("utf-16"), b"a = " + b"[" * 3_000):
            self.write("bad.toml", data)
            self.refusal(self.sweep("bad.toml", "--vary", "seed=1"))

    def test_requirements_of_collected_rows(self):
        _, jobs, _ = self.sweep(self.scenario, "--vary", "seed=1..2", "--print-jobs", "jobs")
        for job in jobs.splitlines():
            subprocess.run(["sh", "-c", f"{shlex.quote(sys.executable)} {job}"], check=True, capture_output=True)
        status, _, err = self.sweep("--collect", "jobs", "--require", "q.sends=101", "--spread", "seed")
        self.assertEqual((status, err), (1, "sweep: q.sends=101 fails with seed=2: it is 102\n"
                                         "sweep: q.sends=101 holds in 1 of 2 runs, 1.3 to 98.7 % of all\n"
                                         "sweep: requirements that hold: 1 of 2\n"))
        status, _, err = self.sweep("--collect", "jobs", "--require", "q.sends=101")
        self.assertEqual((status, err.splitlines()[-1]), (1, "sweep: variants that meet all of them: 1 of 2: seed=1"))

    def test_rows_so_far_are_kept_on_an_interrupt(self):
        """It comes when the first variant has been told, and the second one, of seed 77, runs."""
        for number, words in ((signal.SIGINT, ()), (signal.SIGTERM, ("--output", "rows.csv"))):
            command = [sys.executable, os.path.join(TOOLS, "sweep"), self.scenario, "--vary", "seed=1,77,4",
                       "--jobs", "1", "--columns", "sends", "--program", self.program, *words]
            pipe = subprocess.PIPE
            process = subprocess.Popen(command, cwd=self.folder, stdout=pipe, stderr=pipe, text=True)
            self.assertIn("1 of 3 variants run", process.stderr.readline())
            wait_for(lambda: os.path.exists(self.path("begun")))
            os.remove(self.path("begun"))
            process.send_signal(number)
            out, err = process.communicate(timeout=LIMIT)
            if words:
                out = text_at(self.path("rows.csv"))
            self.assertEqual((process.returncode, out), (130, "seed,failed,queue,sends\n1,,q,101\n1,,r,0\n"))
            self.assertIn("sweep: interrupted after 1 of 3 variants\n", err)

    def test_progress_on_a_terminal_is_one_line(self):
        reader, writer = pty.openpty()
        run = subprocess.Popen([sys.executable, os.path.join(TOOLS, "sweep"), self.scenario, "--vary", "seed=1..3",
                                "--jobs", "1", "--program", self.program], stdout=subprocess.PIPE, stderr=writer)
        os.close(writer)
        out = run.communicate(timeout=LIMIT)[0]
        told = read_whole(reader)
        self.assertEqual((run.returncode, len(out.splitlines())), (0, 7))
        self.assertRegex(told, rb"^(\r(sweep: [12] of 3 variants run, 0 failed)?\x1b\[K)+sweep: 3 of 3 variants run, "
                               rb"0 failed\r\n$")

    @needs_program
    def test_copies_change_nothing_of_other_actors(self):
        """What is sent to b does not depend on how many workers a has."""
        tables = [queue_of(name) + producer(f"{name}-sender", name, 9_000, (1, 1_999)) + consumer(
            f"{name}-worker", name, (100, 200)) for name in "ab"]
        path = self.write("two.toml", scenario_of(3_600_000, *tables))
        status, out, _ = self.sweep(path, "--program", PROGRAM, "--vary", "count.a-worker=1,2,5",
                                    "--columns", "sends,age_p99")
        rows = [row[3:] for row in self.records(out)[1] if row[2] == "b"]
        self.assertEqual((status, rows[1:]), (0, [rows[0]] * 2))

    @needs_program
    def test_example_of_the_documents(self):
        text = text_at(TOOLS, "README.md")
        start = text.index("$ tools/sweep examples/dead_letters.toml")
        quoted, told = text[start:text.index("\n```", start)].split("--table\n")
        words = shlex.split(quoted.replace("\\\n", "").replace("$ tools/sweep examples/", ROOT + "/examples/"))
        status, out, err = self.sweep(*words, "--table", "--program", PROGRAM)
        lines = [line for line in err.splitlines() if "variants run" not in line or " 4 of " in line]
        self.assertEqual((status, sorted(lines) + out.splitlines()), (1, sorted(told.splitlines()[:5])
                         + told.splitlines()[5:]))

