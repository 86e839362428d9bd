"""Tests tests/all with small parts of a repository of its own, and that all tests of this repository are parts."""
import itertools
import os
import pathlib
import re
import shutil
import signal
import subprocess
import sys
import unittest
from unittest import mock

from tool import HERE, LIMIT, ROOT, ToolCase, is_running, module_at, text_at, wait_for

ALL = os.path.join(ROOT, "tests", "all.py")
everything = module_at(ALL, "tests_all")
# Without --missing it makes the file of $INSTALLED; before that the packages of $MISSING are not there.
SETUP = text_at(HERE, "stand-ins", "setup")
WRAPPER = text_at(HERE, "stand-ins", "where")
# The clock of a tests/all, which goes on by 3,000 seconds once a file is there.
CLOCK = """import os
import time

own = time.monotonic
time.monotonic = lambda: own() + 3_000 * os.path.exists(os.path.join(os.environ["HERE"], "later"))
"""
UNITTEST = """import unittest


class Some(unittest.TestCase):
    def test_passes(self):
        print("and more")

    @unittest.skip("no moon")
    def test_waits(self):
        pass
"""


class Small(ToolCase):
    """A small repository with a program that does nothing."""

    def setUp(self):
        super().setUp()
        for folder in ("tests/tools", "bin", "tmp"):
            os.makedirs(self.path(folder))
        self.copy("tests/all", "tests/all.py", "tools/crate_list.py", *(
            f"tools/rehearse_tools/{name}.py" for name in ("__init__", "console", "programs")))
        self.write("crates.txt", "low:\nsqs_late_workers: low\n")
        self.write("tests/wrong-bodies/test_run.py", UNITTEST)
        self.script("tools/setup", SETUP)
        self.script("tools/layers", "#!/bin/sh\necho 3 crates\n")
        self.script("sqs_rehearse", WRAPPER)
        self.program = shutil.copy(shutil.which("true"), self.path("bin/program"))
        os.symlink(sys.executable, self.path("bin/python3"))
        self.environment = {**os.environ, "TMPDIR": self.path("tmp"), "INSTALLED": self.path("installed"),
                            "SETUP_STATUS": "0", "MISSING": "", "BUILT": self.program, "HERE": self.folder,
                            "PATH": f"{self.path('bin')}:{os.environ['PATH']}"}
        self.environment.pop("SQS_REHEARSE", None)

    def part(self, name, text):
        self.script(f"tests/{name}", "#!/bin/bash\n" + text)

    def command(self, *words):
        return [self.path("tests/all"), *words]

    def run_all(self, *words, **environment):
        """Status, the lines of standard output, and standard error; started as by a service that heeds no child."""
        run = subprocess.run(self.command(*words), env={**self.environment, **environment}, text=True,
                             stdin=subprocess.DEVNULL, capture_output=True, cwd="/", timeout=LIMIT,
                             preexec_fn=lambda: signal.signal(signal.SIGCHLD, signal.SIG_IGN))
        self.assertEqual(os.listdir(self.path("tmp")), [])
        return run.returncode, run.stdout.splitlines(), run.stderr

    def told(self, *words, **environment):
        """What was counted of each part by its name, and the last line."""
        status, out, err = self.run_all(*words, **environment)
        self.assertEqual(err, "")
        lines = [re.match(r"(\S+) +(\d+ passed, \d+ failed(?:, \d+ skipped)?)(?:  |$)", line) for line in out]
        return status, {line[1]: line[2] for line in lines if line}, out[-1]


class Sums(Small):
    def test_each_part_has_a_line(self):
        """A part that says nothing is one; the unittest has one that passes and one that is left out."""
        self.script("bin/dpkg-query", "#!/bin/sh\necho installed\n")    # so that no engine of sweeps is installed
        self.part("run", "echo done; echo '7 passed, 0 failed'")
        self.write("tests/tools/test_some.py", UNITTEST)
        self.assertEqual(self.told(), (0, {"run": "7 passed, 0 failed", "layers": "1 passed, 0 failed",
                                           "test_some": "1 passed, 0 failed, 1 skipped",
                                           "wrong-bodies": "1 passed, 0 failed, 1 skipped"},
                                       "10 passed, 0 failed, 2 skipped"))

    def test_without_what_is_left_out_the_sum_is_short(self):
        self.assertEqual(self.run_all("--only", "layers")[1][-1], "1 passed, 0 failed")

    def test_a_part_that_fails_is_shown_whole(self):
        self.part("bad", "echo first; echo second >&2; echo; echo '2 passed, 3 failed'; exit 1")
        self.part("silent", "exit 5")
        self.part("wrong", "echo '4 passed, 0 failed'; exit 1")
        self.part("well", "echo hidden; echo '1 passed, 0 failed'")
        status, out, _ = self.run_all("--only", "bad,silent,wrong,well", "--jobs", "1")
        self.assertEqual((status, out[-1]), (1, "7 passed, 5 failed"))
        place = next(place for place, line in enumerate(out) if line.startswith("bad "))
        self.assertEqual(out[place + 1:place + 6], ["    first", "    second", "    ", "    2 passed, 3 failed",
                                                    "    it ended with status 1"])
        self.assertNotIn("hidden", "\n".join(out))

    def test_notes_stand_before_the_sum(self):
        """One part waits until the other has ended, and was asked for its status."""
        self.part("late_one", 'until [ -s "$HERE/noted" ] && ! kill -0 "$(< "$HERE/noted")" 2> /dev/null; do\n'
                  "sleep 0.01; done; echo 'note: the last'; echo '1 passed, 0 failed'")
        self.part("noted", 'echo $$ > "$HERE/noted"\n'
                  "echo 'note: the first'; echo 'no note: here'; echo '1 passed, 0 failed'")
        status, out, _ = self.run_all("--only", "late_one,noted", "--jobs", "2")
        self.assertEqual((status, out[-3:]), (0, ["note: the first", "note: the last", "2 passed, 0 failed"]))

    def test_seconds_of_the_clock_and_of_processors(self):
        self.part("sleeps", "sleep 1")
        self.part("works", "exec python3 -c 'import time\nwhile time.process_time() < 0.6: pass'")
        lines = self.run_all("--only", "sleeps,works", "--jobs", "2")[1]
        found = {line.split()[0]: [float(number) for number in re.findall(r"([\d.]+) s", line)] for line in lines[:2]}
        self.assertTrue(found["sleeps"][0] >= 1 and found["sleeps"][1] < 0.5, found)
        self.assertGreater(min(found["works"]), 0.5, found)

    def test_counts_of_an_output(self):
        ran = "\nRan 12 tests in 0.123s\n\n"
        for text, status, counts in (
                ("", 0, (1, 0, 0)), ("words\n", 1, (0, 1, 0)), ("words\n", -9, (0, 1, 0)),
                ("5 passed, 0 failed\n", 0, (5, 0, 0)), ("a\n5 passed, 2 failed, 1 skipped\n", 1, (5, 2, 1)),
                ("5 passed, 0 failed\n", 2, (5, 1, 0)), ("5 passed, 1 failed\n", 0, (5, 1, 0)),
                ("0 passed, 0 failed\n", 0, (0, 1, 0)), ("0 passed, 0 failed, 2 skipped\n", 0, (0, 0, 2)),
                ("5 passed, 0 failed\nmore\n", 0, (1, 0, 0)), ("it had 5 passed, 0 failed\n", 0, (1, 0, 0)),
                (ran + "OK\n", 0, (12, 0, 0)), (ran + "OK (skipped=3)\nlater\n", 0, (9, 0, 3)),
                (ran + "OK (skipped=3, expected failures=2)\n", 0, (9, 0, 3)),
                (ran + "FAILED (failures=1, errors=2, skipped=3)\n", 1, (6, 3, 3)),
                (ran + "FAILED (unexpected successes=1)\n", 1, (11, 1, 0)), (ran + "OK\n", 1, (12, 1, 0)),
                ("\nRan 0 tests in 0.000s\n\nOK\n", 0, (0, 1, 0)), ("\nRan 1 test in 0.1s\n\nOK\n", 0, (1, 0, 0)),
                ("\nRan 1 test in 0.1s\n\nFAILED (failures=7)\n", 1, (0, 7, 0))):
            with self.subTest(text=text, status=status):
                self.assertEqual(everything.counts_of(text, status), counts)


class Order(Small):
    def test_parts_run_side_by_side(self):
        """Each of three waits for the others."""
        for name in "abc":
            self.part(name, f'touch "$HERE/{name}.here"; until [ -e "$HERE/a.here" ] && [ -e "$HERE/b.here" ] &&\n'
                      '[ -e "$HERE/c.here" ]; do sleep 0.01; done')
        self.assertEqual(self.told("--only", "a,b,c", "--jobs", "3", "--limit", "60")[2], "3 passed, 0 failed")

    def test_no_more_than_jobs_run_at_once(self):
        """A part that finds another one fails; each stays a moment, in which another one would come."""
        for name in "abc":
            self.part(name, 'mkdir "$HERE/alone" && sleep 0.2 && rmdir "$HERE/alone"')
        self.assertEqual(self.told("--only", "a,b,c", "--jobs", "1")[2], "3 passed, 0 failed")

    def test_the_longest_begin_first(self):
        parts = {name: everything.Part(name, []) for name in ("texts", "memory", "layers", "long")}
        with mock.patch.object(everything, "SECONDS", {"long": 9, "memory": 40, "texts": 1}):
            names = [[part.name for part in everything.chosen_of(parts, *words)] for words in (
                ("", False), ("", True), ("texts,long,texts", False))]
        self.assertEqual(names, [["memory", "long", "texts", "layers"], ["texts", "layers"], ["long", "texts"]])

    def test_what_a_part_finds(self):
        """No input, a temporary folder of its own, the top folder, the program, and this Python."""
        self.part("run", 'read -r line && exit 1; echo "$TMPDIR $SQS_REHEARSE $1 $(type -P python3)"; pwd; exit 3')
        _, out, _ = self.run_all("--only", "run", self.program)
        folder, *found = out[1].split()
        self.assertRegex(folder, rf"^{self.path('tmp')}/tests-all-\w+/run$")
        self.assertEqual(found[:2], [self.program] * 2)
        self.assertTrue(os.path.samefile(found[2], sys.executable), found)
        self.assertEqual(out[2], f"    {self.folder}")


class Ends(Small):
    def processes(self):
        """The numbers of processes that the part has written."""
        try:
            return [int(word) for word in pathlib.Path(self.path("processes")).read_text().split()]
        except OSError:
            return []

    def part_that_stays(self, then=""):
        """A part with two children, of which one leaves its session and ignores what asks it to end."""
        self.part("stays", 'touch "$TMPDIR/file"; setsid bash -c \'trap "" TERM INT HUP; echo $$ >> "$HERE/processes"\n'
                  f'while :; do sleep 60; done\' & sleep 3600 & echo $$ $! >> "$HERE/processes"; {then} wait')

    def assert_ended(self):
        self.assertEqual([process for process in self.processes() if is_running(process)], [])
        self.assertEqual(os.listdir(self.path("tmp")), [])

    def test_a_part_that_hangs(self):
        """The clock passes the limit once all processes of the part are there."""
        self.part_that_stays('until [ "$(wc -w < "$HERE/processes")" = 3 ]; do sleep 0.01; done; touch "$HERE/later";')
        self.write("sitecustomize.py", CLOCK)
        words = "--only", "stays,layers", "--jobs", "1", "--limit", "1500"
        status, out, _ = self.run_all(*words, PYTHONPATH=self.folder)
        self.assertEqual((status, out[-1]), (1, "1 passed, 1 failed"))
        place = next(place for place, line in enumerate(out) if line.startswith("stays "))
        self.assertRegex(out[place], "^stays +0 passed, 1 failed ")
        shown = list(itertools.takewhile(lambda line: line.startswith("    "), out[place + 1:]))
        self.assertRegex(shown[-1], "^    it was ended after 3[0-9]{3} s$")
        self.assertEqual(len(self.processes()), 3)
        self.assert_ended()

    def test_what_a_part_leaves_is_ended(self):
        self.part("leaves", 'sleep 3600 & echo $! > "$HERE/processes"')
        self.assertEqual(self.told("--only", "leaves")[2], "1 passed, 0 failed")
        self.assert_ended()

    def test_an_interrupt_leaves_nothing(self):
        self.part_that_stays()
        self.part("too", 'echo $$ >> "$HERE/processes"; sleep 3600')
        for number in (signal.SIGINT, signal.SIGTERM):
            run = subprocess.Popen(self.command("--only", "stays,too", "--jobs", "2"), env=self.environment, text=True,
                                   stdout=subprocess.PIPE, stderr=subprocess.PIPE)
            wait_for(lambda: len(self.processes()) == 4)
            run.send_signal(number)
            told = run.communicate(timeout=LIMIT)
            self.assertEqual((run.returncode, *told), (128 + number, "", "all: interrupted\n"))
            self.assert_ended()
            os.remove(self.path("processes"))

    def test_loops_beside_the_parts(self):
        """They run in sessions of their own, and end with tests/all, also if it is killed."""
        self.part("stays", 'echo $$ > "$HERE/processes"; exec sleep 3600')
        for number in (signal.SIGTERM, signal.SIGKILL):
            run = subprocess.Popen(self.command("--only", "stays", "--beside", "2"), env=self.environment,
                                   stdout=subprocess.DEVNULL, stderr=subprocess.DEVNULL)
            wait_for(self.processes)
            begun = [process for process, parent, session in everything.processes()
                     if parent == run.pid and session == process]
            self.assertEqual(len(begun), 3)
            run.send_signal(number)
            self.assertIn(run.wait(LIMIT), (128 + number, -number))
            if number == signal.SIGKILL:
                os.kill(self.processes()[0], number)
            wait_for(lambda: not any(map(is_running, begun)))
            os.remove(self.path("processes"))


class Wants(Small):
    def test_a_program_is_found_or_told(self):
        self.part("run", 'test "$1" -ef "$HERE/bin/program"')
        self.assertEqual(self.told("--only", "run")[0], 0)
        self.assertEqual(self.told("--only", "run", self.path("sqs_rehearse"))[0], 0)
        script = self.path("tools/layers")
        for words, line in (((), "the program is not built yet"), (("/none",), "there is no program /none"),
                            ((script,), f"{script} is a script, and not the program itself")):
            self.assertEqual(self.run_all("--only", "run", *words, BUILT=""), (2, [], f"all: {line}\n"))
        self.assertEqual(self.told("--only", "layers", BUILT="")[0], 0)

    def test_words_that_are_wrong(self):
        for words, line in ((("--only", "walk"), "there is no part walk; there are layers, wrong-bodies"),
                            (("--only", "layers", "--quick"), "--quick and --only exclude each other"),
                            (("--quick", "--jobs", "0"), "--jobs is at least 1"),
                            (("--quick", "--late", "/none"), "there is no program /none"),
                            (("--quick", "--fast"), "unrecognized arguments: --fast (--help tells the usage)")):
            self.assertEqual(self.run_all(*words), (2, [], f"all: {line}\n"))

    @unittest.skipUnless(os.geteuid() == 0, "this user may not install packages")
    def test_what_is_missing_is_installed(self):
        words = "--only", "layers", "--install"
        status, out, _ = self.run_all(*words, MISSING="gcc git")
        self.assertEqual((status, out[0]), (0, "tools/setup installs gcc git"))
        self.assertTrue(os.path.exists(self.path("installed")))
        os.remove(self.path("installed"))
        self.assertEqual(self.run_all(*words, MISSING="gcc git", SETUP_STATUS="1")[::2],
                         (2, "all: tools/setup could not install gcc git\n"))

    def test_nothing_is_installed_unasked(self):
        for words in (("--only", "layers"), ("--quick",), ()):
            self.assertEqual(self.run_all(*words, MISSING="gcc git"), (
                2, [], "all: packages are missing: tests/all --install installs them by apt-get: gcc git\n"))
        self.assertFalse(os.path.exists(self.path("installed")))

    def test_what_is_missing_is_named_where_it_may_not_be_installed(self):
        self.script("bin/id", "#!/bin/sh\necho 1000\n")
        self.script("bin/sudo", "#!/bin/sh\nexit 1\n")
        self.assertEqual(self.run_all("--install", "--only", "layers", MISSING="gcc git"), (
            2, [], "all: packages are missing: as root, apt-get install -y --no-install-recommends gcc git\n"))
        self.script("bin/sudo", "#!/bin/sh\n")
        self.assertEqual(self.run_all("--only", "layers", "--install", MISSING="gcc git")[0], 0)

    def test_python_is_installed_too(self):
        os.remove(self.path("bin/python3"))
        for name in ("sh", "bash", "env", "dirname", "id", "dpkg-query"):
            os.symlink(shutil.which(name), self.path(f"bin/{name}"))
        words = dict(PATH=self.path("bin"), MISSING="python3")
        self.assertEqual(self.run_all("--help", **words), (2, [], "all: python3 is not on the PATH\n"))
        links = f"{shutil.which('ln')} -s {sys.executable} {self.path('bin/python3')}"
        self.script("tools/setup", f"#!/bin/sh\nif [ $# = 0 ]; then {links}; else echo python3; exit 1; fi\n")
        status, out, _ = self.run_all("--install", "--only", "layers", **words)
        self.assertEqual((status, out[0], out[-1]), (0, "tools/setup installs python3", "1 passed, 0 failed"))

    def test_another_system_than_debian(self):
        for name in ("sh", "bash", "env", "dirname"):
            os.symlink(shutil.which(name), self.path(f"bin/{name}"))
        status, out, _ = self.run_all("--only", "layers", MISSING="gcc git", PATH=self.path("bin"))
        self.assertEqual((status, out[0], out[-1]), (0, "there is no dpkg-query to ask what is missing; the tests need "
                                                     "these packages of Debian: gcc git", "1 passed, 0 failed"))

    def test_late_workers_are_left_out_or_found(self):
        """The program is found where it is newer than the sources that it stands on."""
        self.part("late", 'test "$1" -ef "$HERE/crates/sqs_late_workers/out/sqs_late_workers"')
        self.part("long", 'test $# = 2 || { echo "left out: late ones"; echo "3 passed, 0 failed, 1 skipped"; }')
        words = "--only", "late,long"
        _, out, _ = self.run_all(*words)
        self.assertRegex(out[0], "^late +0 passed, 0 failed, 1 skipped +left out: `rt run` in crates/sqs_late_workers")
        self.assertRegex(out[1], "^long +3 passed, 0 failed, 1 skipped  .*left out: late ones$")
        self.assertEqual(out[3:], ["3 passed, 0 failed, 2 skipped"])
        for folder in ("crates/low/src", "crates/high/src", "crates/sqs_late_workers/out"):
            os.makedirs(self.path(folder))
        late = self.script("crates/sqs_late_workers/out/sqs_late_workers", "#!/bin/sh\n")
        for source, seconds, last in (("low", -9, "2 passed, 0 failed"), ("high", 9, "2 passed, 0 failed"),
                                      ("low", 9, "3 passed, 0 failed, 2 skipped")):
            path = self.write(f"crates/{source}/src/lib.rt", "")
            os.utime(path, (os.path.getmtime(late) + seconds,) * 2)
            self.assertEqual(self.run_all(*words)[1][-1], last, source)
        self.assertEqual(self.run_all(*words, "--late", late)[1][-1], "2 passed, 0 failed")


class Repository(ToolCase):
    """The tests of this repository."""

    def setUp(self):
        super().setUp()
        self.parts = everything.all_parts()

    def test_all_programs_are_parts(self):
        """Whatever in tests/ can be run, or has a first line as if it could be, and all files of unittest."""
        for path in pathlib.Path(ROOT, "tests").iterdir():
            if path.is_file() and path.name != "all":
                is_program = os.access(path, os.X_OK) or path.read_bytes().startswith(b"#!")
                self.assertEqual(path.name in self.parts, is_program, path)
        commands = [" ".join(part.words) for part in self.parts.values()]
        for path in pathlib.Path(ROOT, "tests").rglob("test_*.py"):
            found = [command for command in commands if command.endswith(f"-s tests/{path.parent.name} -p {path.name}")]
            self.assertEqual(len(found), 1, path)
        self.assertIn(os.path.join(ROOT, "tools", "layers") + " --check", commands)

    def test_all_parts_are_in_the_map(self):
        """In tests/README.md each program and each file of tests stands in one row, under its own heading."""
        text = pathlib.Path(ROOT, "tests", "README.md").read_text(encoding="utf-8")
        rows = [line.split("|")[2:4] for line in text.splitlines() if line.startswith("| ")][1:]
        programs, files = (re.findall(r"`(\w+)`", " ".join(row[at] for row in rows)) for at in (0, 1))
        self.assertEqual(sorted([*programs, "layers", "wrong-bodies", *(f"test_{name}" for name in files)]),
                         sorted(self.parts))

    def test_names_that_are_known_are_parts(self):
        for names in (everything.NOT_QUICK, everything.SECONDS, everything.WITHOUT_PROGRAM):
            self.assertEqual(set(names) - set(self.parts), set())

    def test_what_is_quick(self):
        """--quick leaves out the parts that the head names, and the stored cases are none of them."""
        quick = [part.name for part in everything.chosen_of(self.parts, "", True)]
        self.assertEqual(set(self.parts) - set(quick), set(everything.NOT_QUICK))
        named = " ".join(everything.__doc__.split()).partition("it leaves out ")[2].partition(", the longest.")[0]
        self.assertEqual(tuple(re.split(", | and ", named)), everything.NOT_QUICK)
        self.assertLessEqual({"run", "program", "questions", "fuzz", "damaged", "texts"}, set(quick))
