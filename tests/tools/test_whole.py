"""Tests that no tool takes a log that is not whole for a whole one: of runs that were ended, and of damaged logs."""
import itertools
import json
import re
import subprocess

from tool import HEADER, LOG_HEADER, MD5, PROGRAM, SENT, ToolCase, ended, needs_program, open_end, ran
from scenario_texts import producer, queue_of, scenario_of

# Two messages come into q, of which one is deleted and the other one is left; a poll of p is empty.
LOG = HEADER + f"""0,q,shop,send,new,m-0-0,,{MD5}
5,q,shop,send,new,m-0-1,,{MD5}
7,p,idle,receive,empty,,,
10,q,w,receive,ok,m-0-0,r-0-0-1,o-0-0
20,q,w,delete,deleted,m-0-0,r-0-0-1,20
"""
FINAL = "final,q,m-0-1,o-0-1,visible,,5,0,,x\n"
WHOLE = ended(LOG, FINAL)
MISSING = "the run did not end: its report is missing"
# Messages that nobody receives, so that memory runs out.
MANY = scenario_of(86_400_000, queue_of("q"), producer("p", "q", 1_000_000, 1))
# The tools that read a log, with what they need besides it.
WORDS = {"metrics": ("--to", "1s"), "picture": (), "life": ("m-0-0",), "summary": ()}
MORE_WORDS = {**WORDS, "life": ("--worst",), "metrics": ("--to", "1s", "--alarm", "NumberOfMessagesSent>9")}
CALLS = [*WORDS.items(), *MORE_WORDS.items()]
# summary compares more than the other tools, so its report needs the greatest depths and the ages as well.
DEPTHS = {"q": ("2,1,0,0,20,20,20,20,20", "0,1,0,0,0,,,,"), "p": ("0,0,0,0,0,,,,", "0,0,0,0,0,,,,")}
# Ways to read a log that is none.
HOSTILE_CALLS = (*CALLS, ("life", ("o-0-0",)), ("life", ("m-9-9",)), ("metrics", ()), ("summary", ("--door",)))
# Files that are no logs, by what is wrong with them.
HOSTILE_LOGS = {
    "empty": b"", "binary": bytes(range(256)) * 9, "no line end": LOG_HEADER + SENT + b"5,q,shop",
    "JSON": b'{"Attributes": {}}\n', "UTF-16": "at,queue\n".encode("utf-16"), "a picture": b"\x89PNG\r\n\x1a\n\0\0\0",
    "huge time": LOG_HEADER + SENT + b"9" * 5_000 + b",q,shop,send,new,m-0-1,,x\n",
    "no column detail": LOG_HEADER.replace(b",detail", b"") + b"0,q,shop,send,new,m-0-0,\n",
    "a row without its last column": LOG_HEADER + b"0,q,shop,send,new,m-0-0,\n",
    "a huge id": LOG_HEADER + b"0,q,shop,send,new,m-0-" + b"9" * 50 + b",,x\n",
    "no number for an age": LOG_HEADER + SENT + b"1,q,shop,delete,deleted,m-0-0,r-0-0-1,old\n",
    "backward": LOG_HEADER + SENT.replace(b"0,q", b"9,q", 1) + SENT,
    "a line without end": LOG_HEADER + b"0" * 3_000_000,
}


def for_summary(text):
    """The same text with the numbers in it that `summary` compares, too."""
    for queue, (right, kept) in DEPTHS.items():
        text = re.sub(f"(report,{queue},.*),{re.escape(kept)}\n", rf"\1,{right}\n", text)
    return text


@needs_program
class Damaged(ToolCase):
    def told(self, name, words, text, by_pipe):
        """How a tool ends that is given a text by a pipe or in a file."""
        text = for_summary(text)
        log = "-" if by_pipe else self.write("run.txt", text)
        return self.run_tool(name, log, *words, stdin=text.encode())

    def assert_refused(self, text, line, pipes=(True, False)):
        """Each tool tells one line of the text, and no more."""
        for name, words in CALLS:
            for by_pipe in pipes:
                with self.subTest(name=name, words=words, by_pipe=by_pipe):
                    path = "standard input" if by_pipe else self.path("run.txt")
                    self.assert_fault(self.told(name, words, text, by_pipe), f"{name}: {path}: {line}")

    def test_texts_that_are_no_logs(self):
        """The tool tells one line on standard error, and nothing else."""
        for case, data in HOSTILE_LOGS.items():
            self.write("hostile", data)
            for (name, words), log in itertools.product(HOSTILE_CALLS, ("hostile", "-")):
                with self.subTest(case=case, name=name, words=words, log=log):
                    err = self.refusal(self.run_tool(name, log, *words, stdin=data))
                    self.assertTrue(err.startswith(f"{name}: "), err)

    def test_whole(self):
        for name, words in CALLS:
            for by_pipe in (True, False):
                with self.subTest(name=name, words=words, by_pipe=by_pipe):
                    status, out, err = self.told(name, words, WHOLE, by_pipe)
                    self.assertEqual((status, err), (0, ""))
                    self.assertTrue(out)

    def test_a_log_that_ends_at_a_row(self):
        """A program that is ended has written whole rows, and nothing tells their end."""
        for rows in range(1, len(LOG.splitlines()) + 1):
            self.assert_refused("".join(LOG.splitlines(True)[:rows]), MISSING, pipes=(True,))

    def test_what_follows_is_cut(self):
        rest = WHOLE.removeprefix(LOG).splitlines(True)
        for lines in range(1, len(rest) - 1):
            self.assert_refused(LOG + "".join(rest[:lines]), MISSING)
        self.assert_refused(LOG + "".join(rest[:-1]), "the run did not end: its report lacks the queue p")

    def test_a_row_lost_or_doubled(self):
        lines = "its report is not of this log, or rows are lost or doubled: {} by the rows, and {} by what follows"
        rows = LOG.splitlines(True)
        self.assert_refused(WHOLE.replace(rows[3], ""), lines.format("empties of p is 0", 1))
        self.assert_refused(WHOLE.replace(rows[3], rows[3] * 2), lines.format("empties of p is 2", 1))
        self.assert_refused(WHOLE.replace(rows[2], ""), lines.format("sends of q is 1", 2))
        self.assert_refused(WHOLE.replace(rows[5], "20,q,w,delete,OverLimit,,r-0-0-1,\n"),
                            lines.format("deletes of q is 0", 1))
        self.assert_refused(WHOLE.replace(FINAL, ""), lines.format("visible of q is 0", 1).replace("rows, and", "final "
                                                                                                   "queues, and"))

    def test_a_log_in_a_file_of_its_own(self):
        """Its end was not seen, which each tool says first, unless --rest names the file with the rest."""
        log, rest = self.write("run.log", LOG), self.write("run.out", for_summary(WHOLE.removeprefix(LOG)))
        for name, words in CALLS:
            with self.subTest(name=name, words=words):
                whole = self.run_tool(name, self.write("whole", for_summary(WHOLE)), *words)
                status, out, err = self.run_tool(name, log, *words)
                told = out if name == "summary" else err
                self.assertEqual(status, 0)
                self.assertEqual(f"{told.splitlines()[0]}\n".removeprefix(f"{name}: "),
                                 open_end(name, log).removeprefix(f"{name}: "))
                remark = "the log&#x27;s end was not seen" if name == "picture" else ""
                self.assertIn(remark, out.replace("'", "&#x27;"))
                status, out, err = self.run_tool(name, log, "--rest", rest, *words)
                self.assertEqual((status, out.replace(log, self.path("whole")), err), whole)
                cut = self.write("cut.out", "".join(WHOLE.removeprefix(LOG).splitlines(True)[:-2]))
                self.assert_fault(self.run_tool(name, log, "--rest", cut, *words), f"{name}: {cut}: {MISSING}")
                empty = self.write("empty.out", "")
                self.assert_fault(self.run_tool(name, log, "--rest", empty, *words),
                                  f"{name}: {empty} is empty: no run has written to it")
                short = self.write("short.log", LOG.replace("20,q,w,delete,deleted,m-0-0,r-0-0-1,20\n", ""))
                self.assertIn("deletes of q is 0 by the rows, and 1 by what follows\n",
                              self.run_tool(name, short, "--rest", rest, *words)[2])
        self.assert_fault(self.run_tool("metrics", log, "--rest", log),
                          f"metrics: {log} has a log of its own, and is not the rest of another one")
        self.assert_fault(self.run_tool("life", "-", "--rest", "-", "--worst"),
                          "life: standard input can be read once")
        for path, end_seen in ((log, False), (self.path("whole"), True)):
            run, = json.loads(self.run_tool("summary", path, "--json", "--to", "9")[1])["runs"]
            self.assertEqual(run["end_seen"], end_seen)


@needs_program
class Program(ToolCase):
    def setUp(self):
        super().setUp()
        self.scenario = self.write("many.toml", MANY)

    def assert_all_refuse(self, output):
        """Each tool refuses what a program has written before it ended, and prints nothing."""
        for name, words in CALLS:
            with self.subTest(name=name, words=words):
                self.assert_fault(self.run_tool(name, "-", *words, stdin=output), f"{name}: standard input: {MISSING}")

    def test_a_run_that_is_killed(self):
        """The program is killed once 5,000 rows are there; what it has written of the last one is left out."""
        with subprocess.Popen([PROGRAM, "run", self.scenario], stdout=subprocess.PIPE) as run:
            rows = [run.stdout.readline() for _ in range(5_000)]
            run.kill()
        self.assert_all_refuse(b"".join(rows))

    def test_a_run_without_memory(self):
        status, out, err = ran(["bash", "-c", f"ulimit -v 6000; exec {PROGRAM} run {self.scenario}"], text=False)
        self.assertEqual((status, err), (3, b"refused 34 Memory\n"))
        self.assertGreater(out.count(b"\n"), 1_000)
        self.assert_all_refuse(out)
