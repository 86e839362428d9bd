"""Tests how all tools end: help, an unknown word, an output that is full or closed, a log that is no file."""
import os
import pathlib
import pty
import re
import stat
import subprocess
import sys
import time
from unittest import mock

from tool import LIMIT, LOG_HEADER, ROOT, SENT, TOOLS, USERS_TOOLS, ToolCase, ended, options_in, ran, read_whole
import helps
from rehearse_tools.console import Fault, check_output, with_commands, write_text

# Those that take words, and those that also run without one.
TAKING_TOOLS = (*USERS_TOOLS, "bench", "compute_cases.py")
OTHER_TOOLS = ("layers", "package", "proof-times")


class Ends(ToolCase):
    def ended(self, command):
        """Status, standard output and standard error of a command of the shell in the test's folder."""
        return ran(["bash", "-c", command], cwd=self.folder, env={**os.environ, "PATH": f"{TOOLS}:{os.environ['PATH']}"})

    def test_help_and_unknown_words(self):
        for name in (*TAKING_TOOLS, *OTHER_TOOLS):
            with self.subTest(tool=name):
                out = self.output(name, "--help")
                hostile = [(b"--nothing",), (b"\xff",), (b"--nothing", b"\xff\n")]
                if name in TAKING_TOOLS:
                    self.assertIn(f"tools/{name} ", out)
                    hostile.append(())
                for words in hostile:
                    self.refusal(self.run_tool(name, *words))

    def test_help_has_each_option(self):
        """No line has over 120 columns, by either command."""
        for name in (*TAKING_TOOLS, *OTHER_TOOLS):
            with self.subTest(tool=name):
                options = options_in(helps.source_of(name))
                told = self.run_tool(name, "--help")[1]
                options += ["--horizon", "--latency", "--output"] if name in ("from-queue", "from-plan") else []
                self.assertEqual([option for option in options if option not in told], [])
                wrapped = with_commands(told, "./sqs_rehearse", "./sqs_rehearse ", USERS_TOOLS)
                self.assertLessEqual(max(len(line) for text in (told, wrapped) for line in text.splitlines()), 120)

    def test_setup(self):
        self.assertIn("tools/setup\n", self.ended("setup --help")[1])
        self.assertEqual(self.ended("setup now"), (2, "", "setup: now is no word of it: it takes none, or --missing "
                                                          "(--help tells the usage)\n"))

    def test_commands_as_the_user_calls_them(self):
        """As tools/NAME, as a command of a package, or as sqs_rehearse NAME, by what ./sqs_rehearse sets."""
        os.symlink(os.path.join(TOOLS, "summary"), self.path("sqs_rehearse-summary"))
        for command, program, tool, told in (
                ("summary", "./sqs_rehearse", "tools/summary", "summary"),
                ("./sqs_rehearse-summary", "sqs_rehearse", "sqs_rehearse-summary", "sqs_rehearse-summary"),
                ("SQS_REHEARSE_TOOL='sqs_rehearse summary' summary", "sqs_rehearse", "sqs_rehearse summary",
                 "sqs_rehearse summary"),
                ("SQS_REHEARSE_TOOL='../a b/sqs_rehearse summary' summary", "../a b/sqs_rehearse",
                 "../a b/sqs_rehearse summary", "sqs_rehearse summary"),
                # what another tool was called by, and left in the environment
                ("SQS_REHEARSE_TOOL='sqs_rehearse sweep' summary", "./sqs_rehearse", "tools/summary", "summary")):
            with self.subTest(command=command):
                self.assertIn(f"\n    {program} run SCENARIO | {tool} -\n    {tool} LOG [--rest REST.out]",
                              self.ended(f"{command} --help")[1])
                self.assertEqual(self.ended(f"{command} none"),
                                 (2, "", f"{told}: cannot read none: No such file or directory\n"))
        self.assertIn("draws what sqs_rehearse sweep has",
                      self.ended("SQS_REHEARSE_TOOL='sqs_rehearse picture' picture --help")[1])

    def test_all_ways_to_call_a_tool(self):
        """By its file in tools/, all of one text; by a link of any name; by ./sqs_rehearse; by the package's name."""
        launchers = {pathlib.Path(TOOLS, name).read_bytes() for name in USERS_TOOLS}
        self.assertEqual(len(launchers), 1)
        modules = {path.stem.replace("_", "-") for path in pathlib.Path(TOOLS, "rehearse_tools").glob("*.py")
                   if re.search(r"^def main\(words", path.read_text(), re.MULTILINE)}
        self.assertEqual(modules - {"--main--"}, set(USERS_TOOLS))
        for name in USERS_TOOLS:
            with self.subTest(tool=name):
                os.symlink(os.path.join(TOOLS, name), self.path(f"my-{name}"))
                wanted = self.ended(f"{name} --help")[1]
                self.assertEqual(self.ended(f"./my-{name} --help"), (0, wanted, ""))
                self.assertEqual(self.ended(f"PYTHONPATH={TOOLS} {sys.executable} -m rehearse_tools {name} --help"),
                                 (0, wanted, ""))
                wrapped = self.ended(f"{ROOT}/sqs_rehearse {name} --help")
                self.assertEqual((wrapped[0], len(wrapped[1].splitlines()), wrapped[2]),
                                 (0, len(wanted.splitlines()), ""))

    def test_the_package_by_itself(self):
        command = f"PYTHONPATH={TOOLS} {sys.executable} -m rehearse_tools"
        for words, name in (("summary none", "summary"), ("summary '' --json", "summary"), ("", "rehearse_tools"),
                            ("''", "rehearse_tools"), ("no-tool", "rehearse_tools"), ("console", "rehearse_tools"),
                            ("from_plan x", "rehearse_tools")):
            with self.subTest(words=words):
                err = self.refusal(self.ended(f"{command} {words}"))
                self.assertTrue(err.startswith(f"{name}: "), err)
        for word in ("--help", "-h"):
            status, out, err = self.ended(f"{command} {word}")
            self.assertEqual((status, err), (0, ""))
            self.assertEqual([name for name in USERS_TOOLS if name not in out], [])

    def test_an_output_that_is_full_or_closed(self):
        self.write("log", ended((LOG_HEADER + SENT).decode()))
        for command in ("metrics log --to 1s", "summary log --to 1s", "life log o-0-0", "picture log",
                        "arrivals times times"):
            self.write("times", "1\n2\n")
            name = command.split()[0]
            with self.subTest(command=command):
                self.assertEqual(self.ended(f"{command} > /dev/full"),
                                 (2, "", f"{name}: cannot write standard output: No space left on device\n"))
                status, _, err = self.ended(f"{command} >&-")
                self.assertIn((status, err), ((2, f"{name}: standard output is closed\n"), (0, "")))
                self.assertEqual(self.ended(f"{command} | true")[2], "")

    def test_standard_input_that_is_closed(self):
        for command in ("metrics -", "summary -", "life - o-0-0", "picture -", "from-queue -", "from-plan -"):
            with self.subTest(command=command):
                self.refusal(self.ended(f"{command} <&-"))

    def test_a_folder_in_the_place_of_a_file(self):
        for command in ("metrics .", "summary .", "life . o-0-0", "picture .", "from-queue .", "from-plan .",
                        "arrivals times .", "sweep . --vary seed=1", "explain . --program /bin/true",
                        "report . --output r.html"):
            with self.subTest(command=command):
                name, *words = command.split()
                self.assertEqual(self.run_tool(name, *words), (2, "", f"{name}: cannot read .: Is a directory\n"))


class Reading(ToolCase):
    def test_progress_on_a_terminal_alone(self):
        """A second after its beginning a tool tells how far it is, and takes the line away again. However slow it is,
        it has begun when more is written than a pipe holds, and finds the rest more than a second later."""
        rows = "".join(f"{at},q,s,receive,wait,,,\n" for at in range(100_000, 160_000))
        log = ended(LOG_HEADER.decode() + rows).encode()
        for is_terminal in (True, False):
            reader, writer = pty.openpty() if is_terminal else os.pipe()
            run = subprocess.Popen([sys.executable, os.path.join(TOOLS, "summary"), "-"], stdin=subprocess.PIPE,
                                   stdout=subprocess.DEVNULL, stderr=writer)
            os.close(writer)
            run.stdin.write(log[:200_000])
            time.sleep(1.1)
            run.communicate(log[200_000:], timeout=LIMIT)
            told = read_whole(reader)
            self.assertEqual(run.returncode, 0)
            self.assertRegex(told, rb"^(\rsummary: [0-2] MB of standard input read\x1b\[K)+\r\x1b\[K$" if is_terminal
                             else rb"^$")


class OnATerminal(ToolCase):
    """No control character of a log, a scenario, a path or a word comes to a terminal, and all bytes to a pipe."""

    def shown(self, name, *words):
        """What a terminal gets that is standard output and error, and what pipes get."""
        command = [sys.executable, os.path.join(TOOLS, name), *words]
        reader, writer = pty.openpty()
        process = subprocess.Popen(command, stdin=subprocess.DEVNULL, stdout=writer, stderr=writer, cwd=self.folder)
        os.close(writer)
        text = read_whole(reader).replace(b"\r\n", b"\n").decode()
        process.wait(LIMIT)
        piped = subprocess.run(command, stdin=subprocess.DEVNULL, capture_output=True, cwd=self.folder)
        return text, (piped.stdout + piped.stderr).decode()

    def test_a_log(self):
        """Escapes of a foreign log, also those that erase, and the character that turns the order of letters."""
        name = "o\x1b[31mr\x1b[2J\u202ed\x9b"
        self.write("run.log", LOG_HEADER.decode() + f"0,{name},shop,send,new,m-0-0,,x\n5,{name},a,receive,ok,m-0-0,"
                   "r-0-0-1,o-0-0\n")
        for words in (["life", "run.log", "--worst"], ["life", "run.log", "o-0-0"], ["metrics", "run.log"]):
            with self.subTest(words=words):
                text, piped = self.shown(*words)
                self.assertIn("o\\x1b[31mr\\x1b[2J\\u202ed\\x9b", text)
                text = re.sub("\r[^\n]*?\x1b\\[K", "", text)
                self.assertEqual(re.findall("[\x00-\x08\x0b-\x1f\x7f-\x9f\u202e]", text), [])
                self.assertIn(name, piped)

    def test_what_is_long(self):
        self.write("run.log", LOG_HEADER.decode() + f"0,{'q' * 50_000},shop,send,new,m-0-0,,x\n")
        text, piped = self.shown("life", "run.log", "o-0-0")
        self.assertIn("q" * 50_000, piped)
        self.assertTrue("q\u2026\n" in text and max(map(len, text.split("\n"))) <= 4_001)
        text, piped = self.shown("summary", "n" * 5_000)
        self.assertTrue("n" * 5_000 in piped and len(text) < 1_100, text)

    def test_a_path_and_a_quoted_line(self):
        self.assertIn("cannot read \\x1b[31m: ", self.shown("summary", "\x1b[31m")[0])
        self.write("s.toml", 'version = 1\nhorizon = 1\nspeed = "\u202e" # \x9b\n[[queue]]\nname = "q"\n')
        text = self.shown("explain", "s.toml")[0]
        self.assertNotRegex(text, "[\u202e\x9b]")


class Writing(ToolCase):
    def test_special_files_are_written_and_stay(self):
        write_text("/dev/null", "x")
        self.assertTrue(stat.S_ISCHR(os.stat("/dev/null").st_mode))

    def test_what_cannot_be_written_is_told_before_the_work(self):
        path = self.write("file", "")
        for wrong in (self.folder, os.path.join(path, "x"), os.path.join(path, "x", "y"), self.path("new/x")):
            with self.assertRaises(Fault):
                check_output(wrong)
        self.assertEqual(os.listdir(self.folder), ["file"])

    def test_a_file_is_written_whole_or_not_at_all(self):
        """It has the rights that the user gives to new files. A link that stands where it is written first is not
        followed, and nothing is left over."""
        before = os.umask(0o027)
        self.addCleanup(os.umask, before)
        write_text(self.path("new"), "x")
        self.assertEqual(stat.S_IMODE(os.stat(self.path("new")).st_mode), 0o640)
        self.write("other", "kept")
        os.symlink("other", self.path("new.0.part"))
        with mock.patch("secrets.token_hex", return_value="0"), self.assertRaisesRegex(Fault, "File exists"):
            write_text(self.path("new"), "y")
        with mock.patch("os.replace", side_effect=OSError(28, "No space left")), self.assertRaises(Fault):
            write_text(self.path("new"), "y")
        self.assertEqual(sorted(os.listdir(self.folder)), ["new", "other"])
        self.assertEqual([self.read(name) for name in ("new", "other")], [b"x", b"kept"])


class Outputs(ToolCase):
    """What each tool is asked to write into."""

    def setUp(self):
        super().setUp()
        for name in ("log", "times", "plan", "rows", "queue", "measured", "a.csv", "s.svg"):
            self.write(name, name)
        for name in ("s.toml", "o.toml"):
            self.write(name, 'version = 1\nhorizon = 9\n[[queue]]\nname = "q"\n[[actor]]\nscript = "a.csv"\n')
        self.script("program", "#!/bin/sh\n")
        os.link(self.path("s.toml"), self.path("linked"))
        os.symlink("a.csv", self.path("led.svg"))

    def test_an_input_is_not_written_over(self):
        """Also by another name, a link or as a script of the scenario; nothing is changed or made."""
        before = {name: self.read(name) for name in os.listdir(self.folder)}
        sweep = "sweep s.toml --vary seed=1 --program ./program "
        for command, read in (
                ("metrics log --output log", "log"), ("metrics log --against measured --output measured", "measured"),
                ("metrics - --output log", "standard input"), ("picture led.svg --output led.svg", "led.svg"),
                ("picture log --scenario s.svg --output s.svg", "s.svg"),
                ("picture --sweep s.svg --column q.sends --output ./s.svg", "s.svg"),
                ("from-plan plan --output ./plan", "plan"), ("from-queue queue --output queue", "queue"),
                ("arrivals times times --output times", "times"),
                ("report s.toml --program ./program --output linked", "s.toml"),
                ("report s.toml --program ./program --output led.svg", "./a.csv"),
                (sweep + "--output s.toml", "s.toml"), (sweep + "--output a.csv", "./a.csv"),
                (sweep + "--output program", self.path("program")),
                (sweep + "--spread seed --settling led.svg", "./a.csv"),
                (sweep + "--spread seed --against o.toml --output o.toml", "o.toml"),
                ("sweep s.toml --vary seed=1 --print-scenario --output s.toml", "s.toml")):
            with self.subTest(command=command), open(self.path("log"), "rb") as file:
                name, *words = command.split()
                self.assert_fault(
                    ran([sys.executable, os.path.join(TOOLS, name), *words], cwd=self.folder, stdin=file),
                    f"{name}: cannot write {words[-1]}: it is the file that is read as {read}, and is to stay")
        self.assertEqual({name: self.read(name) for name in os.listdir(self.folder)}, before)

    def test_no_folder_is_made(self):
        for command in ("metrics log", "picture log", "from-plan plan", "from-queue queue", "arrivals times times",
                        "report s.toml --program ./program", "sweep s.toml --vary seed=1 --program ./program",
                        "sweep s.toml --vary seed=1 --print-scenario"):
            with self.subTest(command=command):
                name, *words = command.split()
                self.assert_fault(self.run_tool(name, *words, "--output", "a/b/c.svg"),
                                  f"{name}: cannot write a/b/c.svg: there is no folder a/b")
        self.assertFalse(os.path.exists(self.path("a")))
