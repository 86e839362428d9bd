"""Tests tools/summary on the stored cases by their own reports, and on damaged input. Logs written by hand are in
sessions/summary.txt."""
import csv
import glob
import io
import json
import os
import pty
import random
import re
import subprocess
import sys
import tempfile
from unittest import mock

from tool import HEADER, LIMIT, MD5, PROGRAM, ROOT, TOOLS, ToolCase, log_at, module_of, needs_program, printed, text_at
from scenario_texts import script
from rehearse_tools import summaries, whole_logs
from rehearse_tools.console import Fault
from rehearse_tools.logs import Log
from stored_cases import RUNNING, put, stored

# The stored cases, each in files of its own.
FOLDER = tempfile.TemporaryDirectory()
# A long poll; a batch of two; m-0-0 is handled by two consumers, m-0-1 after its timeout, m-0-2 as it has left for d.
LOG = log_at("batch.log")
PARTS = log_at("batch.rest")
TEXT = log_at("batch.txt")
FIFO = log_at("fifo.log")
# A delayed message, a forward that arrives and one that does not, a move, and one message in flight in the end.
WAYS = log_at("ways.log")
summary = module_of("summary")
KEYS = ["log", "end_seen", "rows", "last_row_at_ms", "has_report", "queues"]


def cases():
    """The stored outputs of runs: their path, their log, what follows it, and the report's records by queue."""
    for case in stored(*RUNNING):
        path, text = put(case, FOLDER.name).replace(".toml", ".out"), case.printed.decode()
        log, final, parts = text.partition("\nfinal,")
        records = list(csv.reader(text[text.index("\nreport,") + 1:].splitlines()))
        yield path, log + "\n", (final + parts)[1:], [dict(zip(records[0], record)) for record in records[1:]]


def rows_of(log):
    return list(csv.DictReader(io.StringIO(log)))


@needs_program
class SummaryCase(ToolCase):
    def write(self, name, text):
        """Writes a file, in whose rows x stands for the checksum of a body."""
        return super().write(name, text.replace(",,x\n", f",,{MD5}\n") if isinstance(text, str) else text)

    def queues(self, text):
        """What --json tells of the queues of a run, by their names."""
        run, = json.loads(self.output("summary", "--json", self.write("text", text)))["runs"]
        return {queue["queue"]: queue for queue in run["queues"]}

    def assert_values(self, values, **expected):
        self.assertEqual({key: values[key] for key in expected}, expected)


class Definitions(SummaryCase):
    def test_nearest_ranks(self):
        """Of the ages 1 to 1,000 s the ranks are 500, 950 and 990 s, also without a report."""
        log = HEADER + "".join(f"{i},q,p,send,new,m-0-{i},,x\n" for i in range(1_000))
        log += "".join(f"2000,q,c,receive,ok,m-0-{i},r-0-{i}-1,o-0-{i}\n" for i in range(1_000))
        log += "".join(f"3000,q,c,delete,deleted,m-0-{i},r-0-{i}-1,{1_000 * (i + 1)}\n" for i in range(1_000))
        self.assert_values(self.queues(log)["q"], age_p50_ms=500_000, age_p95_ms=950_000, age_p99_ms=990_000,
                           age_greatest_ms=1_000_000, depth_greatest=1_000, depth_greatest_at_ms=999,
                           ReceiveMessage=1, receives=1_000)

    def test_durations(self):
        for milliseconds, text in (
                (0, "0 ms"), (999, "999 ms"), (1_000, "1.00 s"), (9_994, "9.99 s"), (9_995, "10.0 s"),
                (10_246, "10.2 s"), (59_949, "59.9 s"), (59_950, "1 min 0 s"), (185_000, "3 min 5 s"),
                (3_599_499, "59 min 59 s"), (3_599_500, "1 h 0 min"), (86_369_999, "23 h 59 min"),
                (86_370_000, "1 day 0 h"), (2_592_000_000, "30 days 0 h")):
            self.assertEqual(summary.duration(milliseconds), text)


class Stored(SummaryCase):
    def test_reports(self):
        """The tool checks each column that it counts; here those that it tells are compared once more."""
        columns = {"sent": "sends", "repeated_sends": "repeats", "receives": "receives", "empty_receives": "empties",
                   "deleted": "deletes", "lost_by_expiry": "expiries", "dead_lettered": "redrives",
                   "moved_away": "moves", "depth_greatest": "depth_max", "left_visible": "visible",
                   "left_in_flight": "in_flight", "left_delayed": "delayed", "age_greatest_ms": "age_max",
                   "age_p50_ms": "age_p50", "age_p95_ms": "age_p95", "age_p99_ms": "age_p99"}
        compared = set()
        for path, log, parts, report in cases():
            runs = summary.read_runs([path])
            self.assertEqual([queue["queue"] for queue in report], list(runs[0].queues))
            for expected, queue in zip(report, runs[0].queues.values()):
                values = queue.values()
                for key, column in columns.items():
                    told = "" if values[key] is None else str(values[key])
                    self.assertEqual(told, expected[column], (path, column))
                self.assertEqual(values["came_in"], int(expected["sends"]) + int(expected["arrivals"]), path)
                left = values["deleted"] + values["lost_by_expiry"] + values["dead_lettered"] + values["moved_away"]
                self.assertEqual(values["came_in"] - left, values["left"], path)
                compared.add((path, queue.name))
            apart = summary.read_runs([self.write("log", log), self.write("parts", parts)])
            self.assertEqual(summary.values_of(apart, None), summary.values_of(runs, None), path)
        self.assertGreater(len(compared), 100)
        self.assertTrue(any(os.sep + "worked" + os.sep in path for path, _ in compared))

    def test_logs_alone(self):
        """A log alone tells the same, other than what is visible or delayed."""
        unknown = {"left_visible": None, "left_delayed": None}
        for path, log, parts, _ in cases():
            whole = summary.values_of(summary.read_runs([path]), None)
            alone = summary.values_of(summary.read_runs([self.write("log", log)]), None)
            for name, (values,) in alone.items():
                self.assertEqual(values, {**whole[name][0], **unknown}, path)

    def test_handled_by_brute_force(self):
        """Of each message the receipts are collected that were given to it and with which a deletion was called."""
        more = 0
        for path, log, _, _ in cases():
            given, used = {}, {}
            for row in rows_of(log):
                key = row["queue"], row["receipt"]
                if (row["call"], row["answer"]) == ("receive", "ok"):
                    given[key] = row["queue"], row["message"]
                elif row["call"] == "delete" and key in given:
                    used.setdefault(given[key], set()).add(key)
            for queue in summary.read_runs([path])[0].queues.values():
                numbers = [len(receipts) for (name, _), receipts in used.items() if name == queue.name]
                told = queue.figures["handled_once"], queue.figures["handled_again"]
                self.assertEqual(told, (numbers.count(1), len(numbers) - numbers.count(1)), (path, queue.name))
                more += told[1]
        self.assertGreater(more, 5)

    def test_requests_by_brute_force(self):
        """Calls of receive are their moments of ok or empty, and the polls that nothing ended."""
        calls = 0
        for path, log, _, _ in cases():
            moments, waiting = {}, {}
            for row in rows_of(log):
                agent = row["queue"], row["agent"]
                if row["call"] == "receive":
                    waiting[agent] = row["answer"] == "wait"
                    if row["answer"] != "wait":
                        moments.setdefault(row["queue"], set()).add((row["at"], row["agent"]))
            for queue in summary.read_runs([path])[0].queues.values():
                pending = [agent for agent, is_waiting in waiting.items() if is_waiting and agent[0] == queue.name]
                told = queue.values()["ReceiveMessage"]
                self.assertEqual(told, len(moments.get(queue.name, ())) + len(pending), (path, queue.name))
                calls += told
        self.assertGreater(calls, 1_000)


class Unread(SummaryCase):
    """Logs that are whole, of which no row is read."""

    def values(self, function, text):
        """The values by a function that makes runs, of the run that a text is of."""
        run, = function([self.kept(text)], summaries.Reading())
        return summary.values_of([run], None, True), run.row_count, run.last_at

    def kept(self, text):
        log = Log(self.write("run.txt", text), summaries.WANTED, may_lack_rows=True)
        log.keep()
        self.addCleanup(log.kept.close)
        return log

    def assert_alike(self, text):
        """They are the same in blocks of a few rows, of which few are looked through for names."""
        wanted = self.values(summaries.runs_read, text)
        for block in (whole_logs.BLOCK, 100):
            with mock.patch.multiple(whole_logs, BLOCK=block, SAMPLES=1):
                self.assertEqual(self.values(summaries.runs_unread, text), wanted)
        return wanted[0]

    def test_stored_cases(self):
        number = copies = 0
        for number, (path, log, parts, _) in enumerate(cases(), 1):
            with self.subTest(path=path):
                found = self.assert_alike(log + parts)
                copies += sum(bool(values["copies_greatest"]) for values, in found.values())
        self.assertGreater(number, 100)
        self.assertGreater(copies, 2)

    def test_a_receipt_that_looks_like_a_row(self):
        """A text of a script may have what a row of a move has."""
        calls = [f"{at},delete,,,,,{receipt},,,,"
                 for at, receipt in enumerate(('"r,move,out,r,r"', '"r""q,scale,ok,1/2"', '"r,redrive,out,"'), 5_000)]
        text = text_at(ROOT, "examples", "dead_letters.toml") + script("odd", "orders", *calls)
        found = self.assert_alike(printed("run", text=text))
        self.assertEqual([values["moved_to"] for values, in found.values()], [[], ["orders"]])

    def test_a_lost_row(self):
        """A forward that is lost is found by what is on its way; so is a message that left otherwise."""
        output = text_at(ROOT, "tests", "cases", "by-hand", "move_and_forward_under_way.out")
        rows = re.findall(".*,(?:forward|move),out,.*\n", output)
        self.assertEqual(len(rows), 2)
        for row in rows:
            with self.assertRaises(Fault):
                self.values(summaries.runs_unread, output.replace(row, ""))

    def test_rows_that_have_to_be_read(self):
        for reading in (summaries.Reading(1), summaries.Reading(None, 9), summaries.Reading(with_doors=True)):
            with self.assertRaisesRegex(Fault, "rows have to be read"):
                summaries.runs_unread([self.kept(LOG + PARTS)], reading)


class SideBySide(SummaryCase):

    def test_columns_align(self):
        """The texts of each column end below its title, also with a long name and great numbers."""
        name = "long-name-" * 8
        logs = [HEADER + "".join(f"{i * step},{name},p,send,new,m-0-{i},,x\n" for i in range(1_000))
                for step in (1, 2_592_000)]
        _, out, _ = self.run_tool("summary", self.write("before", logs[0]), self.write("after", logs[1]))
        lines = out.split("\n\n")[1].splitlines()
        self.assertEqual(lines[0], name)
        self.assertEqual({len(line) for line in lines[1:]}, {len(lines[1])})
        self.assertEqual(lines[1].split(), ["before", "after", "difference"])

    def test_fixed_keys(self):
        documents = [json.loads(self.run_tool("summary", "--json", *paths)[1]) for paths in (
            [self.write("a", LOG)], [self.write("b", LOG + PARTS)], [self.write("c", FIFO), self.write("d", WAYS)])]
        keys = {tuple(queue) for document in documents for run in document["runs"] for queue in run["queues"]}
        self.assertEqual(len(keys), 1)
        self.assertEqual({tuple(run) for document in documents for run in document["runs"]}, {tuple(KEYS)})
        self.assertEqual([len(document["differences"]) for document in documents], [0, 0, 3])
        told = {tuple(queue) for queue in documents[2]["differences"]}
        self.assertEqual(told, {tuple(key for key in keys.pop() if key not in ("dead_lettered_to", "moved_to"))})


class Stream(SummaryCase):
    def test_standard_input(self):
        self.assertEqual(self.run_command("summary", "-", stdin=LOG + PARTS),
                         (0, TEXT.replace("run.txt", "standard input"), ""))

    def test_a_pipe_by_its_path(self):
        """A shell gives what a command prints by such a path; it can be read once."""
        for words, log in (["summary"], LOG + PARTS), (["life", "m-0-2"], LOG + PARTS):
            os.mkfifo(self.path("pipe"))
            writer = subprocess.Popen(["cp", self.write("run.txt", log), "pipe"], cwd=self.folder)
            ran = self.run_tool(words[0], "pipe", *words[1:])
            self.assertEqual(writer.wait(LIMIT), 0)
            os.remove(self.path("pipe"))
            wanted = self.run_tool(words[0], "run.txt", *words[1:])
            self.assertEqual(ran, (0, wanted[1].replace("run.txt", "pipe"), ""))

    def test_messages_that_are_gone_are_forgotten(self):
        """A log in which one message at most is alive, and one service in ten fails."""
        rows = ["0,q,p,send,new,m-0-0,,x", "0,q,c,receive,ok,m-0-0,r-0-0-1,o-0-0", "1,q,q,release,visible,m-0-0,,",
                "2,q,c,receive,ok,m-0-0,r-0-0-2,o-0-0", "3,q,c,delete,deleted,m-0-0,r-0-0-2,3"]
        for i in range(1, 20_000):
            rows += [f"{10 * i},q,p,send,new,m-0-{i},,x", f"{10 * i + 1},q,c,receive,ok,m-0-{i},r-0-{i}-1,o-0-{i}",
                     f"{10 * i + 2},q,c,fail,ok,m-0-{i},r-0-{i}-1," if i % 10 == 0 else
                     f"{10 * i + 2},q,c,delete,deleted,m-0-{i},r-0-{i}-1,{2 + 100_000 * i}"]
            rows += [f"{10 * i + 3},q,q,expire,expired,m-0-{i},,9"] * (i % 10 == 0)
        run, = summary.read_runs([self.write("log", HEADER + "\n".join(rows) + "\n")])
        queue = run.queues["q"]
        self.assertEqual(queue.alive, {})
        self.assert_values(queue.values(), deleted=18_001, lost_by_expiry=1_999)

    def test_output_that_is_closed_early(self):
        path = self.write("run.txt", LOG + PARTS)
        run = subprocess.run(f"{sys.executable} {TOOLS}/summary {path} | true", shell=True, capture_output=True)
        self.assertEqual(run.stderr, b"")
        run = subprocess.run(f"{sys.executable} {TOOLS}/summary {path} > /dev/full", shell=True, capture_output=True)
        self.assertEqual((run.returncode, run.stderr),
                         (2, b"summary: cannot write standard output: No space left on device\n"))
        run = subprocess.run(f"{sys.executable} {TOOLS}/summary {path} >&-", shell=True, capture_output=True)
        self.assertEqual((run.returncode, run.stderr), (2, b"summary: standard output is closed\n"))


class Terminal(SummaryCase):
    def on_terminal(self, **environment):
        """What the tool writes on a terminal."""
        path, (parent, child) = self.write("run.txt", LOG + PARTS), pty.openpty()
        kept = {key: value for key, value in os.environ.items() if key != "NO_COLOR"}
        run = subprocess.run([sys.executable, os.path.join(TOOLS, "summary"), path], stdout=child, cwd=self.folder,
                             stderr=subprocess.PIPE, env={**kept, "TERM": "xterm", **environment})
        os.close(child)
        self.assertEqual((run.returncode, run.stderr), (0, b""))
        text = b""
        while not text.endswith(b"ChangeMessageVisibility              0\r\n"):
            text += os.read(parent, 65_536)
        os.close(parent)
        return text.decode()

    def test_colours(self):
        text = self.on_terminal()
        self.assertIn("\033[1;31m!! LOST BY EXPIRY: 1 in d\033[0m\r\n", text)
        self.assertIn("\033[1;31m!! LOST BY EXPIRY                         1 of 1\033[0m\r\n", text)
        self.assertIn("\033[1ma\033[0m\r\n", text)

    def test_no_colours(self):
        self.assertNotIn("\033", self.on_terminal(NO_COLOR="1"))
        self.assertNotIn("\033", self.on_terminal(TERM="dumb"))
        self.assertIn("\033", self.on_terminal(NO_COLOR=""))


class Figures(SummaryCase):
    """What of the log the program has to know to count it."""

    def test_many_names(self):
        """As many as a run may have, and one more."""
        for number, told in ((10_000, ""), (10_001, "refused 19 TooMany at actor")):
            path = self.write("log", HEADER + "".join(f"{at},q,p{at},receive,empty,,,\n" for at in range(number)))
            status, _, err = self.run_tool("summary", path)
            self.assertEqual((status, err), (2, f"summary: {path}: {told}\n") if told else (0, ""))


class Faults(SummaryCase):
    def test_texts_that_no_line_shows(self):
        """Those that are long, and characters that a terminal obeys; sessions/summary.txt has the others."""
        row = HEADER + "0,a,shop,send,new,m-0-0,,x\n"
        for text, line in (
                (HEADER + "x" * 3_000_000, "text has a line of over 1,048,576 letters"),
                (f"{row}1,a,shop,send,new,m-{'9' * 5_000}-1,,x\n", f"text line 3: m-{'9' * 98} cannot come in"),
                (f"{row}1,\033[2J,shop,send,new,m-0-1,,x\n", r"text line 3: '\x1b[2J' is no name of a queue"),
                (HEADER.encode() + b"0,a,shop,send,new,m-0-0,,\xff\xfe\n", "text is not UTF-8")):
            self.write("text", text)
            self.assert_fault(self.run_tool("summary", "text"), f"summary: {line}")

    def test_cut(self):
        """No prefix of a whole output is reported, other than one that ends with a row of its log."""
        text = LOG + PARTS
        whole = {end for end in range(len(LOG) + 1) if LOG[:end].endswith("\n")} | {len(text)}
        for end in (*range(0, len(LOG) - 150, 7), *range(len(LOG) - 150, len(text) + 1)):
            path = self.write("text", text[:end])
            try:
                summary.read_runs([path])
                passed = True
            except Fault:
                passed = False
            self.assertEqual(passed, end in whole, text[:end][-60:])

    def test_damaged_texts(self):
        """Letters and lines that are lost, doubled or exchanged make a fault, or another run that can be told."""
        words, refused = random.Random(1), 0
        for _ in range(400):
            pieces = (LOG + PARTS).splitlines(True) if words.random() < 0.5 else list(LOG + PARTS)
            for _ in range(words.randint(1, 2)):
                place = words.randrange(len(pieces))
                other = words.choice([*pieces, ",", "\n", '"', "\0", "\033", "\u0663"])
                pieces[place] = words.choice(["", pieces[place] * 2, other])
            try:
                runs = summary.read_runs([self.write("text", "".join(pieces))])
                queues = summary.values_of(runs, None)
                json.loads(summary.json_of(runs, queues))
                self.assertNotIn("\033", summary.text_of(runs, queues, summary.Style(False)))
            except Fault as fault:
                self.assertTrue(str(fault).isprintable())
                refused += 1
        self.assertGreater(refused, 200)


class Program(SummaryCase):
    @needs_program
    def test_examples(self):
        """Each example is summarised whole, with a report that agrees with its log."""
        paths = glob.glob(os.path.join(ROOT, "examples", "**", "*.toml"), recursive=True)
        self.assertGreater(len(paths), 10)
        for scenario in paths:
            run = subprocess.run([PROGRAM, "run", "--v3", scenario], capture_output=True, check=True, text=True)
            for values in self.queues(run.stdout).values():
                self.assertIsNotNone(values["left_visible"], scenario)
