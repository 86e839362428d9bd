"""Tests tools/bench, layers, proof-times and compute_cases.py, which those use who work on the program."""
import os
import re
import shutil
import subprocess
import unittest

from tool import HERE, PROGRAM, ToolCase, module_of, needs_program, printed, text_at

layers, proof_times = module_of("layers"), module_of("proof-times")

SCENARIO = """version = 1
horizon = 5
[[queue]]
name = "q"
[[actor]]
name = "s"
kind = "script"
queue = "q"
calls = "at,call,body,group,id,delay,receipt,max,wait,timeout,task\\n0,send,abc,,,,,,,,\\n"
"""
KINDS = ("one", "many", "fifo", "hot", "ring", "net", "chain", "fan", "flight", "backlog", "delay", "scripts", "sample",
         "quiet")
# A program that takes the words of a run and writes ROWS rows of a log.
WRITER = text_at(HERE, "stand-ins", "writer.c")
# Counts as valgrind writes them: those of the other program are half as many, but for the branches, of which it has a
# quarter.
VALGRIND = text_at(HERE, "stand-ins", "valgrind")
# How crates stand on one another.
CRATES = {"a": [], "b": ["a"], "c": ["a", "b"], "d": ["b", "c"]}
# What a check saved, with the moments in seconds.
SAVED = [
    (10, "Rattle-one.specs.Numbers.oantt"),
    (12, "Rattle-one-specs.contracts.list.List.push.Key.oantt"),
    (15, "Rattle-one-proofs.list.List.push.Proof.oantt"),
    (16, "Rattle-one-proofs.list.List.push.Code.Mir.oantt"),
    (20, "Rattle-one-proofs.Order.oantt"),
    (900, "Rattle-one-proofs.list.first.Answers.oantt"),
    (901, "Rattle-one.proofs.list.first.Proof.oantt"),
]


class Bench(ToolCase):
    def test_scenarios_have_the_size_that_was_asked_for(self):
        for kind in ("one", "many", "fifo", "hot", "backlog", "delay", "sample"):
            status, out, err = self.run_tool("bench", "--scenario", kind, "77")
            self.assertEqual((status, err, re.findall("count = ([0-9]+)", out)), (0, "", ["77"]))
        for kind, producers, each in (("chain", 40, 100), ("flight", 10, 400), ("fan", 63, 63)):
            status, out, err = self.run_tool("bench", "--scenario", kind, "4000")
            self.assertEqual((status, err, re.findall("count = ([0-9]+)", out)), (0, "", [str(each)] * producers))
        for kind, queues in (("net", 1_000), ("ring", 128), ("chain", 200), ("fan", 64)):
            status, out, _ = self.run_tool("bench", "--scenario", kind)
            self.assertEqual((status, out.count("[[queue]]")), (0, queues))
        status, out, _ = self.run_tool("bench", "--scenario", "scripts", "4000")
        calls = re.findall("^[0-9]+,(send|receive|delete),", out, re.MULTILINE)
        self.assertEqual((status, [calls.count(it) for it in ("send", "receive", "delete")]), (0, [2000, 1000, 1000]))
        status, out, _ = self.run_tool("bench", "--scenario", "quiet", "77")
        self.assertEqual((status, out.splitlines()[1]), (0, "horizon = 4620000"))

    @needs_program
    def test_the_program_reads_each_scenario(self):
        for kind in KINDS:
            out = self.output("bench", "--scenario", kind, "100")
            self.write(f"{kind}.toml", out)
            printed("check", self.path(f"{kind}.toml"))

    def test_faults(self):
        usage = ("a PROGRAM is needed, or --scenario and a KIND; then a SIZE and a TEMPO may follow (--help tells the "
                 "usage)")
        echo = shutil.which("echo")
        self.script("script", "#!/bin/sh\n")
        self.assert_faults("bench", (
                ((), usage), (("",), usage), (("--scenario",), usage), ((echo, "one", "1", "1", "1"), usage),
                (("none",), "there is no program none"),
                ((shutil.which("false"),), f"{shutil.which('false')} does not run"),
                ((echo,), f"{echo} makes no log: it is another program"),
                (("./script",), f"{self.path('script')} is a script, and not the program itself"),
                ((echo, "two"), f"there is no kind two; kinds are {', '.join(KINDS)}"),
                ((echo, "one", "0"), "SIZE is 1 to 1,000,000,000, and not 0"),
                (("--scenario", "one", "1", "-1"), "TEMPO is 1 to 1,000,000,000, and not -1"),
                (("--scenario", "one", "1", "x"), "TEMPO is 1 to 1,000,000,000, and not x"),
                (("--beside", "none", echo, "one"), "there is no program none"),
                (("--beside", echo, echo, "one"), f"{echo} makes no log: it is another program"),
                (("--beside", echo), usage),
                (("--beside", echo, "--scenario", "one"),
                 "--scenario prints a scenario, and measures nothing beside another program")))
        err = self.refusal(self.run_tool("bench", shutil.which("env"), "one", "1"))
        self.assertIn(" ends with status 127: ", err)

    def writer(self, name, rows):
        """The path of a program that writes so many rows."""
        self.write("writer.c", WRITER)
        subprocess.run(["gcc", f"-DROWS={rows}", "-o", self.path(name), self.path("writer.c")], check=True)
        return self.path(name)

    def test_two_programs_side_by_side(self):
        """Of ten rows: both counts, divided by the rows, and their ratio; and the means over the kinds, all alike."""
        first, second = self.writer("first", 10), self.writer("second", 10)
        self.script("valgrind", VALGRIND)
        path = f"{self.path('.')}:{os.environ['PATH']}"
        out = self.output("bench", "--beside", second, first, PATH=path)
        head, *lines, means = [line.split() for line in out.splitlines()]
        self.assertEqual(" ".join(head),
                         "kind size rows user seconds instructions a row writes a row mispredicted a row")
        self.assertEqual([line[0] for line in lines], list(KINDS))
        for line in lines:
            self.assertEqual((line[1:3], line[6:]),
                             (["10,000", "10"], "80.0 40.0 2.00 20.0 10.0 2.00 2.0 0.5 4.00".split()))
        self.assertEqual((means[:2], means[3:]), (["geometric", "mean"], ["2.00", "2.00", "4.00"]))

    def test_programs_that_write_other_bytes_are_not_set_side_by_side(self):
        first, second = self.writer("first", 10), self.writer("second", 11)
        status, out, err = self.run_tool("bench", "--beside", second, first, "one", "5", PATH="/nowhere")
        self.assertEqual((status, out, err),
                         (2, "", f"bench: {first} and {second} write other bytes of one 5\n"))

    @needs_program
    def test_a_measurement(self):
        """Ten messages are sent, received and deleted, each with a row of its own at least."""
        out = self.output("bench", PROGRAM, "one", "10", PATH="/nowhere")
        self.assertGreaterEqual(int(re.fullmatch(r"one +10 +([0-9,]+) rows +[0-9.]+ s\n", out)[1]), 30)


class Cases(ToolCase):
    def test_an_output_that_is_no_text(self):
        """Nothing is written; sessions/compute_cases.txt has the other faults."""
        self.write("cases/a.toml", SCENARIO)
        self.write("cases/a.out", b"\xff")
        self.assert_fault(self.run_tool("compute_cases.py", "out", "cases"),
                          "compute_cases.py: cases/a.out is not the output of cases/a.toml")
        self.assertEqual(os.listdir(self.folder), ["cases"])


class Layers(unittest.TestCase):
    def test_the_longest_chain_goes_down_step_by_step(self):
        self.assertEqual(layers.chain(CRATES, "d"), ["d", "c", "b", "a"])
        self.assertEqual(layers.chain(CRATES, "a"), ["a"])

    def test_each_path_down_is_a_way(self):
        # b to a; c to a, b, b-a; d to b, b-a, c, and those of c
        self.assertEqual([layers.ways(CRATES, name) for name in "abcd"], [0, 1, 3, 6])

    def test_all_that_lies_below(self):
        self.assertEqual(layers.below(CRATES, "c"), {"a", "b"})

    def test_the_engine_stands_on_nothing_of_sqs(self):
        crates = layers.read(os.path.join(layers.TOP, "crates.txt"))
        for name in layers.ENGINE:
            self.assertEqual([one for one in layers.below(crates, name) if one.startswith("sqs_")], [])


class ProofTimes(ToolCase):
    def setUp(self):
        super().setUp()
        for moment, name in SAVED:
            path = self.write(f"out/incremental/kept/{name}", "")
            os.utime(path, (moment, moment))

    def test_time_goes_to_what_is_saved_after_it(self):
        times = proof_times.times_of(self.folder, 120)
        # what belongs to no function, a pause between two checks and the first file have no time
        self.assertEqual({name: took for name, took in times.items() if took},
                         {"list.List.push": 6.0, "Order": 4.0, "list.first": 1.0})

    def test_a_crate_without_checks(self):
        self.assertEqual(proof_times.times_of(self.path("nowhere"), 120), {})

    def test_no_such_crate(self):
        self.assertEqual(self.run_tool("proof-times", "sqs_nowhere"),
                         (2, "", "proof-times: there is no crate sqs_nowhere\n"))
