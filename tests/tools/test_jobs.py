"""Tests the jobs of a sweep: what a share writes, what is left after one was ended, and what is not collected."""
import os
import signal
import subprocess
import sys

from test_sweep import COLUMNS, SCENARIO, STAND_IN
from tool import LIMIT, TOOLS, ToolCase, text_at, wait_for
from rehearse_tools.results import Head, result_text


# It reports as many sends as the script has lines, and waits at the seed 3 until the test has changed what it reads.
OF_SCRIPT = f"""#!/bin/sh
[ "$*" = --help ] && exit 0
while read -r key equals value; do case $key in seed) seed=$value;; esac; done
if [ "$seed" = 3 ]; then
  echo > begun
  read -r line < changed
fi
echo "final,queue,message,origin,place,due,enqueued,receives,group,md5"
echo "report,queue,{COLUMNS}"
echo "report,q,$(($(wc -l < "$3/sends.csv"))),{"0," * 22},,,"
"""
ACTOR = '[[actor]]\nname = "a"\nkind = "script"\nqueue = "q"\nscript = "sends.csv"\n'


class Mixed(ToolCase):
    """The script and the program become others in the middle of a sweep."""

    def setUp(self) -> None:
        super().setUp()
        self.write("s.toml", SCENARIO.replace('[[queue]]\nname = "r"\n', "") + ACTOR)
        self.write("sends.csv", "1\n")
        self.script("program", OF_SCRIPT)
        for name in ("begun", "changed"):
            os.mkfifo(self.path(name))

    def swept(self, *words: str) -> tuple[int, str]:
        """Status and output of a sweep in whose third run the files are changed."""
        command = [sys.executable, os.path.join(TOOLS, "sweep"), "s.toml", "--vary", "seed=1..6", "--jobs", "1",
                   "--program", "./program", *words]
        process = subprocess.Popen(command, cwd=self.folder, stdout=subprocess.PIPE, stderr=subprocess.DEVNULL,
                                   text=True)
        self.addCleanup(process.kill)
        text_at(self.path("begun"))
        self.script("new", OF_SCRIPT.replace('$(($(wc -l < "$3/sends.csv")))', "777"))
        os.replace(self.path("new"), self.path("program"))
        self.write("sends.csv", "1\n2\n3\n")
        self.write("changed", "go on\n")
        out = process.communicate(timeout=60)[0]
        return process.returncode, out

    def test_a_share_has_one_script_and_one_program(self) -> None:
        words = "s.toml", "--vary", "seed=1..6", "--program", "./program", "--print-jobs", "results"
        mark = self.run_tool("sweep", *words)[1].split("--mark ")[1].split()[0]
        self.assertEqual(self.swept("--share", "1/1", "--results", "results"), (0, ""))
        self.assertEqual(os.listdir(self.path("results")), [f"1-of-1-{mark}.csv"])
        status, out, err = self.run_tool("sweep", "--collect", "results", "--columns", "sends")
        self.assertEqual((status, out, err),
                         (0, "seed,failed,queue,sends\n" + "".join(f"{seed},,q,1\n" for seed in range(1, 7)), ""))

    def test_a_sweep_has_one_script_and_one_program(self) -> None:
        self.assertEqual(self.swept("--columns", "sends"), (0, "seed,failed,queue,sends\n" + "".join(
            f"{seed},,q,1\n" for seed in range(1, 7))))


class Jobs(ToolCase):
    scenario_text, stand_in = SCENARIO, STAND_IN

    def setUp(self) -> None:
        super().setUp()
        self.words = self.scenario, "--vary", "queue.q.visibility_s=2", "--vary", "seed=1..6"
        self.results = self.path("results")

    def sweep(self, *words: str) -> tuple[int, str, str]:
        return self.run_tool("sweep", *words, SQS_REHEARSE=self.program)

    def jobs(self, *words: str) -> list[str]:
        """The commands of jobs for these words, or those of all."""
        status, out, err = self.sweep(*(words or self.words), "--print-jobs", "results")
        self.assertEqual((status, err), (0, ""))
        return out.splitlines()

    def rest(self) -> list[str]:
        return self.jobs(*self.words, "--rest")

    def run_job(self, job: str) -> tuple[int, str]:
        """The status and the standard error of a job, run from another folder, with the words that the shell gives."""
        words = subprocess.run(["sh", "-c", f"printf '%s\\0' {job}"], check=True, capture_output=True, text=True).stdout
        path, *words = words.split("\0")[:-1]
        self.assertEqual(path, os.path.join(TOOLS, "sweep"))
        status, _, err = self.run_tool("sweep", *words, folder="/")
        return status, err

    def files(self) -> list[str]:
        return sorted(os.listdir(self.results))

    def test_shares_are_as_one_sweep(self) -> None:
        whole = self.sweep(*self.words)[1]
        for number in (3, 1, 2, 4):
            self.assertEqual(self.sweep(*self.words, "--share", f"{number}/4", "--results", "results")[0], 0)
        self.assertEqual(len(self.files()), 4)
        self.assertEqual(self.sweep("--collect", "results"), (0, whole, ""))

    def test_jobs_of_shares(self) -> None:
        """Of six variants in four shares the first two have two each."""
        jobs = self.jobs(*self.words, "--shares", "4")
        self.assertEqual([" --share 1/4 " in jobs[0], " --share 4/4 " in jobs[3], len(jobs)], [True, True, 4])
        for job in jobs:
            self.assertEqual(self.run_job(job)[0], 0)
        self.assertEqual(self.sweep("--collect", "results")[1], self.sweep(*self.words)[1])

    def test_a_file_that_is_there_is_not_made_again(self) -> None:
        first = self.jobs()[0]
        self.run_job(first)
        status, err = self.run_job(first)
        self.assertEqual((status, err.endswith("is there already\n")), (0, True))
        # one that is cut is
        path = os.path.join(self.results, self.files()[0])
        with open(path, "r+b") as file:
            file.truncate(400)
        self.assertIn("1 of 1 variants run", self.run_job(first)[1])
        self.assertEqual(len(self.rest()), 5)

    def test_the_rest_is_printed(self) -> None:
        """All without a folder; then those whose file is missing, empty or cut, also where a share had them."""
        jobs = self.jobs()
        self.assertEqual(self.rest(), jobs)
        for job in jobs[:4]:
            self.run_job(job)
        self.assertEqual(self.rest(), jobs[4:])
        self.write(os.path.join("results", self.files()[1]), "")
        self.assertEqual(self.rest(), [jobs[1], *jobs[4:]])
        status, out, _ = self.sweep(*self.words, "--print-jobs", "results", "--rest", "--shares", "2")
        self.assertEqual((status, len(out.splitlines())), (0, 2))

    def test_a_job_that_is_ended_leaves_no_file(self) -> None:
        """As a scheduler ends it, or a person, once it has told of one variant and the next one, of seed 77, runs."""
        words = self.scenario, "--vary", "queue.q.visibility_s=2", "--vary", "seed=1,77,3"
        for number in (signal.SIGTERM, signal.SIGINT):
            command = [sys.executable, os.path.join(TOOLS, "sweep"), *words, "--share", "1/1", "--results", "results",
                       "--program", self.program, "--jobs", "1"]
            process = subprocess.Popen(command, cwd=self.folder, stderr=subprocess.PIPE, text=True)
            assert process.stderr is not None
            self.assertIn("1 of 3 variants run", process.stderr.readline())
            wait_for(lambda: os.path.exists(self.path("begun")))
            os.remove(self.path("begun"))
            process.send_signal(number)
            _, err = process.communicate(timeout=LIMIT)
            self.assertEqual((process.returncode, self.files()), (130, []), err)
            self.assertIn("interrupted after 1 of 3 variants", err)
        self.assertEqual(len(self.sweep(*words, "--print-jobs", "results", "--rest")[1].splitlines()), 3)

    def test_a_variant_whose_program_is_killed_is_left(self) -> None:
        """The killed program of seed 4 says nothing of the variant, so that it is run again."""
        self.write("program", STAND_IN.replace("done\n", 'done\n[ "$seed" = 4 ] && kill -9 $$\n'))
        _, err = self.ends(1, self.sweep(*self.words, "--share", "1/1", "--results", "results"))
        self.assertIn("sweep: variant 4 is left, as its run was ended by signal 9\n", err)
        status, out, err = self.sweep("--collect", "results")
        self.assertEqual((status, err, len(out.splitlines())), (1, "sweep: 1 of 6 variants are left: 4\n", 11))
        self.assertEqual([" --share 4/6 " in job for job in self.rest()], [True])

    def test_results_of_another_scenario_are_not_collected(self) -> None:
        """A scenario that has changed is another sweep, whose jobs are all left; both together are refused."""
        jobs = self.jobs()
        for job in jobs:
            self.run_job(job)
        old = self.files()[0][-12:-4]
        self.write("s.toml", SCENARIO.replace("horizon = 1000", "horizon = 2000"))
        changed = self.jobs()
        self.assertEqual(len(self.rest()), 6)
        status, err = self.run_job(jobs[0].replace("--share 1/6", "--share 1/3"))
        new = changed[0].split("--mark ")[1].split()[0]
        self.assertEqual((status, err), (2, "sweep: the scenario, its scripts, the settings and the program here are "
                                            f"those of the sweep {new}, and not of {old}\n"))
        for job in changed[:3]:
            self.run_job(job)
        marks = ", ".join(sorted([old, new]))
        self.assert_fault(self.sweep("--collect", "results"),
                          f"sweep: there are results of 2 sweeps, {marks}, which should be one: --mark names it")
        status, out, err = self.sweep("--collect", "results", "--mark", new)
        self.assertEqual((status, len(out.splitlines()), err.splitlines()[-1]),
                         (1, 7, "sweep: 3 of 6 variants are left: 4-6"))
        self.assert_fault(self.sweep("--collect", "results", "--mark", "01234567"),
                          "sweep: results has no whole result of the sweep 01234567: "
                          f"{self.files()[0]} is foreign: it is of the sweep {self.files()[0][-12:-4]}, and not of "
                          "01234567")

    def test_a_share_that_the_program_refuses_stays_refused(self) -> None:
        """Asked for again, it is there, and has the status of a refusal again."""
        words = (self.scenario, "--vary", "queue.q.visibility_s=51,2", "--share", "1/1", "--results", "results")
        self.assertEqual(self.sweep(*words)[0], 1)
        status, out, err = self.sweep(*words)
        path = os.path.join("results", self.files()[0])
        self.assertEqual((status, out, err),
                         (1, "", f"sweep: {path} is there already, in which 1 of 2 variants failed\n"))

    def test_results_of_another_version_of_the_program(self) -> None:
        rows = {1: [["1", "", "q", "7"]]}
        head = Head("0" * 64, "0" * 64, "0" * 64, (("vary", "seed=1"),), 1, 1)
        self.write(f"results/1-of-1-{head.mark}.csv", result_text(head, ["seed", "failed", "queue", "sends"], rows))
        self.assert_fault(self.sweep("--collect", "results", "--columns", "age_p95"),
                          "sweep: the results in results are of another version of the program, whose report has other "
                          "columns")

    def test_a_job_is_one_line(self) -> None:
        self.assert_fault(self.sweep(*self.words, "--print-jobs", "a\nb"),
                          f"sweep: a job is one line, and {os.path.join(self.folder, 'a') + chr(10) + 'b'!r} has a line "
                          "end")

    def test_scripts_and_the_program_are_parts_of_the_mark(self) -> None:
        scenario = self.write("a.toml", SCENARIO + '[[actor]]\nname = "a"\nkind = "script"\nqueue = "q"\n'
                              'script = "sends.csv"\n')
        words = scenario, "--vary", "actor.a.script=sends.csv,more.csv", "--vary", "seed=1"
        marks = set()
        for name, text in (("sends.csv", "1"), ("sends.csv", "2"), ("more.csv", "1"), ("program", STAND_IN + "\n"),
                           ("other.csv", "not read")):
            self.write(name, text)
            marks.add(self.jobs(*words)[0].split("--mark ")[1].split()[0])
        self.assertEqual(len(marks), 4)

    def test_a_file_that_is_bad_is_named(self) -> None:
        for job in self.jobs():
            self.run_job(job)
        name = self.files()[2]
        text = text_at(self.results, name)
        copy = f"6{self.files()[5][1:]}"
        for bad, line in ((text[:-1], "is cut: it has no end mark"), (text[:-80], "is cut: it has no end mark"),
                          (text.replace(",203,", ",20,"), "is not as it was written: its checksum is another")):
            self.write(f"results/{name}", bad)
            status, out, err = self.sweep("--collect", "results")
            self.assertEqual((status, len(out.splitlines())), (1, 11))
            self.assertEqual(err, f"sweep: {name} {line}\nsweep: 1 of 6 variants are left: 3\n")
        self.write(f"results/0{copy}", text)
        self.assertIn(f"sweep: 0{copy} is foreign: it holds variant 3, which is none of share 6/6 of 6",
                      self.sweep("--collect", "results")[2])

    def test_faults(self) -> None:
        self.assert_stored_faults("jobs", SQS_REHEARSE=self.program)
        command = "sweep", "-", "--vary", "seed=1", "--print-jobs", "r"
        self.assert_fault(self.run_command(*command, stdin=SCENARIO, SQS_REHEARSE=self.program),
                          "sweep: jobs read the scenario from a file, and not from standard input")
