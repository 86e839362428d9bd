"""What the tests of the tools share: where the tools are, and how one is run.

    SQS_REHEARSE=PROGRAM python3 -m unittest discover -s tests/tools

Without SQS_REHEARSE the tests that need the program are left out.
"""
import atexit
import contextlib
import csv
import importlib.machinery
import importlib.util
import os
import pathlib
import pickle
import re
import shlex
import shutil
import socket
import subprocess
import sys
import tempfile
import time
import unittest

HERE = os.path.dirname(os.path.abspath(__file__))
ROOT = os.path.dirname(os.path.dirname(HERE))
TOOLS = os.path.join(ROOT, "tools")
PROGRAM = os.environ.get("SQS_REHEARSE")
needs_program = unittest.skipUnless(PROGRAM, "SQS_REHEARSE does not name the program")
# Seconds after which what a test waits for is taken to hang; a busy machine may take long.
LIMIT = 600

sys.path[:0] = [TOOLS, os.path.dirname(HERE), os.path.join(os.path.dirname(HERE), "reference")]
from rehearse_tools.__main__ import TOOLS as USERS_TOOLS  # noqa: E402 (the folder of the package comes first)
from rehearse_tools.logs import Head  # noqa: E402


def module_at(path, name):
    """A program in Python as a module, so that its functions can be called."""
    loader = importlib.machinery.SourceFileLoader(name, path)
    module = importlib.util.module_from_spec(importlib.util.spec_from_loader(name, loader))
    loader.exec_module(module)
    return module


def module_of(name):
    """A tool as a module: one of the package, or a program of tools/ for those who work on this repository."""
    if name in USERS_TOOLS:
        return importlib.import_module(f"rehearse_tools.{name.replace('-', '_')}")
    return module_at(os.path.join(TOOLS, name), name)


def text_at(*parts):
    """The text of a file, by the parts of its path, with its line ends as they are."""
    with open(os.path.join(*parts), encoding="utf-8", newline="") as file:
        return file.read()


def log_at(name):
    """A text of logs/: a log that was written by hand, or what a tool has to make of one."""
    return text_at(HERE, "logs", name)


def options_in(path):
    """The options that a program in Python takes, by its text."""
    text = text_at(path)
    calls = [*re.findall(r'add_argument\(("--[a-z][a-z0-9-]*")', text), *re.findall(r"\.take\((.*?)\)\n", text, re.S)]
    return [option for call in calls for option in re.findall(r'"(--[a-z][a-z0-9-]*)"', call)]


class Forks:
    """The Python of which the runs of tools are forks, as forks.py has it. It starts with the first of them."""

    control = process = None

    @classmethod
    def start(cls):
        cls.control, other = socket.socketpair(socket.AF_UNIX, socket.SOCK_SEQPACKET)
        with other:
            words = [sys.executable, os.path.join(HERE, "forks.py"), str(other.fileno())]
            cls.process = subprocess.Popen(words, stdin=subprocess.DEVNULL, pass_fds=[other.fileno()])
        atexit.register(cls.process.wait)
        atexit.register(cls.control.close)

    @classmethod
    def status(cls, message, files):
        """The status of a run of a tool, by its name, words, folder and environment, and its three standard files."""
        if cls.control is None:
            cls.start()
        socket.send_fds(cls.control, [pickle.dumps(message)], [file.fileno() for file in files])
        return int(cls.control.recv(99))


HEADER = "at,queue,agent,call,answer,message,receipt,detail\n"
LOG_HEADER = HEADER.encode()
MD5 = "900150983cd24fb0d6963f7d28e17f72"
SENT = f"0,q,shop,send,new,m-0-0,,{MD5}\n".encode()


def wait_for(is_so):
    """Waits until something holds, and fails if it hangs. So a test makes sure of what has to come first."""
    until = time.monotonic() + LIMIT
    while not is_so():
        assert time.monotonic() < until, f"it has not come in {LIMIT} s"
        time.sleep(0.02)


def is_running(process):
    """Whether a process goes on; one that has ended may still wait for somebody to ask for its status."""
    try:
        return text_at(f"/proc/{process}/stat").rpartition(")")[2].split()[0] not in "ZX"
    except OSError:
        return False


def read_whole(reader):
    """All that was written to a pipe or a terminal, which nobody has open for writing any more."""
    text = b""
    try:
        while more := os.read(reader, 65_536):
            text += more
    except OSError:
        pass    # so a terminal tells it
    os.close(reader)
    return text


FINAL_HEADER = "final,queue,message,origin,place,due,enqueued,receives,group,md5\n"
REPORT_HEADER = (
    "report,queue,sends,repeats,receives,empties,deletes,expiries,redrives,moves,arrivals,OverLimit,MessageNotInflight,"
    "ReceiptHandleIsInvalid,BadTimeout,MissingGroup,MissingDeduplication,BadDelay,TaskRunning,NoTask,depth_max,visible,"
    "in_flight,delayed,age_sum,age_max,age_p50,age_p95,age_p99\n")
# What the first eighteen columns of a report count, by call and answer; refusals follow, by their names.
COUNTED = ("send,new", "send,repeat", "receive,ok", "receive,empty", "delete,deleted", "expire,expired", "redrive,out",
           "move,out", "arrive,new")


# The heads of what follows the final queues.
LAST_HEADERS = "transfer,from,to,kind,due,number,message,origin,md5\ntask,name,status,moved\n" + REPORT_HEADER
HEADERS = FINAL_HEADER + LAST_HEADERS


def ran(words, text=True, **more):
    """Status, standard output and standard error of a process that has ended: texts, or bytes without `text`."""
    run = subprocess.run(words, capture_output=True, text=text, **more)
    return run.returncode, run.stdout, run.stderr


def printed(*words, text=None):
    """What the program prints, which ends well, with a text as its standard input."""
    status, out, err = ran([PROGRAM, *words], input=text)
    assert (status, err) == (0, ""), err
    return out


def report_in(output, queue="q"):
    """What the report that a run has printed says of a queue, by its columns."""
    lines = (line for line in output.split("\n") if line.startswith(("report,queue,", f"report,{queue},")))
    return dict(zip(*(line.split(",") for line in lines)))


def ended(log, finals="", queues=()):
    """What a run prints that has this log: these records of its final queues follow, and a report that counts the rows
    of the log's queues, and of others. It has no numbers of ages, and no greatest depth."""
    rows = list(csv.reader(log.splitlines()))[1:]
    parts = [log, FINAL_HEADER, finals, LAST_HEADERS]
    for queue in dict.fromkeys([*(row[1] for row in rows), *queues]):
        kinds = [f"{row[3]},{row[4]}" for row in rows if row[1] == queue]
        counts = [kinds.count(kind) for kind in COUNTED]
        counts[1] += kinds.count("arrive,repeat")
        counts += [sum(row[1] == queue and row[4] == name for row in rows) for name in REPORT_HEADER.split(",")[11:20]]
        left = [record[4] for record in csv.reader(finals.splitlines()) if record[1] == queue]
        places = [left.count(place) for place in ("visible", "inflight", "delayed")]
        parts.append(",".join(map(str, ["report", queue, *counts, 0, *places, 0])) + ",,,,\n")
    return "".join(parts)


def open_end(name, log):
    """What a tool says of a log whose end it does not see."""
    return (f"{name}: the end of {log} was not seen, so it is not known whether the log is whole (--rest REST.out "
            "names the file with the rest)\n")


def row_of(at, message, detail=""):
    """A row of the queue q, as what takes rows is given it, without those fields that say what it is."""
    return at, Head("q", "", "", ""), message, "", detail


class ToolCase(unittest.TestCase):
    """A test with a folder of its own, in which it writes files and runs tools."""

    # The text of a scenario in s.toml, and of a stand-in for the program, if a class has them.
    scenario_text = stand_in = None

    def setUp(self):
        folder = tempfile.TemporaryDirectory()
        self.addCleanup(folder.cleanup)
        self.folder = folder.name
        if self.scenario_text is not None:
            self.scenario = self.write("s.toml", self.scenario_text)
        if self.stand_in is not None:
            self.program = self.script("program", self.stand_in)

    def path(self, name):
        return os.path.join(self.folder, name)

    def write(self, name, text):
        """Writes a file, of a text or of bytes, and makes its folder where that is not there; returns its path."""
        os.makedirs(os.path.dirname(self.path(name)), exist_ok=True)
        with open(self.path(name), "wb") as file:
            file.write(text if isinstance(text, bytes) else text.encode())
        return self.path(name)

    def read(self, name):
        """The bytes of a file of the test's folder."""
        with open(self.path(name), "rb") as file:
            return file.read()

    def copy(self, *names):
        """Copies files of the repository to their places in the test's folder."""
        for name in names:
            shutil.copymode(os.path.join(ROOT, name), self.write(name, pathlib.Path(ROOT, name).read_bytes()))

    def script(self, name, text):
        """Writes a file that can be run."""
        os.chmod(self.write(name, text), 0o755)
        return self.path(name)

    def log_of_example(self, name):
        """What the program prints of a scenario of examples/: the log, and what follows it."""
        path = self.path("run.log")
        with open(path, "wb") as file:
            subprocess.run([PROGRAM, "run", os.path.join(ROOT, "examples", name)], check=True, stdout=file)
        return path

    def run_command(self, name, *words, stdin=None, **environment):
        """Status, standard output and standard error of a tool that runs in the test's folder, from the start of Python
        on. The text of `stdin` comes by a pipe."""
        return ran([sys.executable, os.path.join(TOOLS, name), *words], input=stdin, cwd=self.folder,
                   env={**os.environ, **environment})

    def run_tool(self, name, *words, stdin=b"", folder=None, **environment):
        """The same by a fork, which has read the tool's modules before, for a tool of the package. What depends on how
        Python starts needs `run_command`. The bytes of `stdin` are its standard input."""
        if name not in USERS_TOOLS:
            return self.run_command(name, *words, **environment)
        with contextlib.ExitStack() as stack:
            files = [stack.enter_context(tempfile.TemporaryFile()) for _ in range(3)]
            files[0].write(stdin)
            files[0].seek(0)
            status = Forks.status((name, words, folder or self.folder, {**os.environ, **environment}), files)
            for file in files:
                file.seek(0)
            return status, *(file.read().decode("utf-8").replace("\r\n", "\n") for file in files[1:])

    def output(self, name, *words, **more):
        """The standard output of a tool that ends well, and says nothing."""
        status, out, err = self.run_tool(name, *words, **more)
        self.assertEqual((status, err), (0, ""))
        return out

    def ends(self, status, ran):
        """The standard output and standard error of a run that ends with a status."""
        self.assertEqual(ran[0], status, ran[2])
        return ran[1:]

    def refusal(self, ran):
        """The one line on standard error of a run that is refused, and tells nothing else."""
        status, out, err = ran
        self.assertEqual((status, out, len(err.splitlines())), (2, "", 1), err)
        return err

    def assert_fault(self, ran, line):
        """The tool told one line on standard error, and nothing else."""
        self.assertEqual(ran, (2, "", line + "\n"))

    def assert_stored_faults(self, test, **environment):
        """Each command that faults.csv has for a test is refused with the line that stands there."""
        rows = [row for row in csv.DictReader(text_at(HERE, "faults.csv").splitlines()) if row["test"] == test]
        self.assertTrue(rows, test)
        for row in rows:
            with self.subTest(command=row["command"]):
                name, *words = shlex.split(row["command"])
                self.assert_fault(self.run_tool(name, *words, **environment), f"{name}: {row['line']}")

    def assert_faults(self, name, faults):
        """The tool tells the line of each of some words."""
        for words, line in faults:
            with self.subTest(words=words):
                self.assert_fault(self.run_tool(name, *words), f"{name}: {line}")
