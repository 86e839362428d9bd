"""tools/build proves crates side by side in their order, reports how far it is, and leaves nothing running behind."""
import fcntl
import os
import pathlib
import shutil
import signal
import subprocess
import sys
import types
import unittest

from tool import HERE, LIMIT, ROOT, ToolCase, is_running, module_at, module_of, ran, text_at, wait_for

build = module_of("build")
side_by_side = module_at(os.path.join(ROOT, "tools", "side_by_side.py"), "side_by_side")
BUILDING = "building the program, with proofs of all that it stands on: "
# In the place of rt: it notes its process, where it runs and its words, proves a crate as rt does and makes a program
# that prints its words; or it fails, takes long, is killed once, or finds all proved.
RT = text_at(HERE, "stand-ins", "rt")
CRATES = "sim_a:\nsim_b: sim_a std\nsim_c: sim_a\nsqs_rehearse: sim_b sim_c\nsqs_examples: sim_b\ntest_a: sim_a\n"


class Build(ToolCase):
    def setUp(self):
        super().setUp()
        os.mkdir(self.path("tmp"))
        self.copy(*(f"tools/{name}" for name in ("build", "crate_list.py", "side_by_side.py",
                                                 "rehearse_tools/__init__.py", "rehearse_tools/console.py")))
        for name in ("sim_a", "sim_b", "sim_c", "sqs_rehearse"):
            self.write(f"crates/{name}/src/lib.rt", "")
        self.write("crates.txt", CRATES)
        self.script("kit/rt", RT)
        os.symlink(sys.executable, self.path("kit/python3"))
        self.environment = {**os.environ, "PATH": self.path("kit") + ":/usr/bin:/bin", "TMPDIR": self.path("tmp"),
                            "RT_DOES": "", "RT_CALLS": self.path("calls")}

    def start(self, *words, does=""):
        return subprocess.Popen([self.path("tools/build"), *words], env={**self.environment, "RT_DOES": does}, cwd="/",
                                stdin=subprocess.DEVNULL, stdout=subprocess.PIPE, stderr=subprocess.PIPE, text=True,
                                preexec_fn=lambda: signal.signal(signal.SIGINT, signal.SIG_DFL))

    def build(self, *words, does=""):
        run = self.start(*words, does=does)
        out, err = run.communicate(timeout=LIMIT)
        self.assertEqual(os.listdir(self.path("tmp")), [])
        return run.returncode, out, [line.removeprefix("sqs_rehearse: ") for line in err.splitlines()]

    def calls(self):
        """The calls of rt: its process, the crate and the words of each."""
        path = pathlib.Path(self.path("calls"))
        return [line.split(" ", 2) for line in path.read_text().splitlines()] if path.exists() else []

    def await_call(self, crate):
        wait_for(lambda: any(call[1] == crate for call in self.calls()))

    def test_builds_what_the_program_stands_on_and_nothing_else(self):
        status, out, lines = self.build()
        self.assertEqual((status, out), (0, ""))
        self.assertRegex(lines[0], f"^{BUILDING}4 of 4 crates are left, about [0-9]+ minutes? with [0-9]+ at once on ")
        self.assertRegex(lines[1], "^proved sim_a, crate 1 of 4, about [0-9]+ minutes? left$")
        self.assertEqual({line.split(",")[0] for line in lines[2:4]}, {"proved sim_b", "proved sim_c"})
        self.assertEqual(lines[4:], ["proved sqs_rehearse, crate 4 of 4"])
        words = {crate: words.split()[0] for _, crate, words in self.calls()}
        self.assertEqual(words, {"sim_a": "lib", "sim_b": "lib", "sim_c": "lib", "sqs_rehearse": "run"})
        self.assertRegex(self.calls()[-1][2], "^run --jobs [1-4] -- --help$")

    def test_goes_on_as_a_command(self):
        self.assertEqual(self.build("--", "printf", "%s,", "--help", "x y")[:2], (0, "--help,x y,"))

    def test_takes_what_is_proved_already(self):
        for name in ("sim_a", "sim_b"):
            self.write(f"crates/{name}/out/rlib/stamp", "")
        status, _, lines = self.build()
        self.assertEqual((status, [call[1] for call in self.calls()]), (0, ["sim_c", "sqs_rehearse"]))
        self.assertTrue(lines[0].startswith(f"{BUILDING}2 of 4 crates are left"), lines)
        self.assertTrue(lines[1].startswith("proved sim_c, crate 3 of 4, "), lines)
        self.write("crates/sim_c/out/rlib/stamp", "")
        self.assertEqual(self.build(does="known"), (0, "", []))
        self.assertEqual([call[1] for call in self.calls()][2:], ["sqs_rehearse"])
        os.utime(self.path("crates/sim_a/src/lib.rt"), (2e9, 2e9))
        status, _, lines = self.build(does="known")
        self.assertEqual((status, len(lines), len(self.calls())), (0, 1, 7))
        self.assertTrue(lines[0].startswith(f"{BUILDING}4 of 4 crates are left"), lines)

    def test_a_source_that_changes_meanwhile_is_newer_than_the_program(self):
        """So the next run builds again, as ./sqs_rehearse compares the times of sources with that of the program."""
        self.assertEqual(self.build(does="edit sim_b")[0], 0)
        source, program = (os.stat(self.path(f"crates/{name}")).st_mtime
                           for name in ("sim_a/src/lib.rt", "sqs_rehearse/out/sqs_rehearse"))
        self.assertGreater(source, program)

    def test_a_crate_that_is_not_proved(self):
        status, out, lines = self.build(does="fail sim_b")
        self.assertEqual((status, out), (2, ""))
        self.assertEqual(lines[-2:], ["sim_b is wrong", "the program could not be built"])
        self.assertNotIn("sqs_rehearse", [call[1] for call in self.calls()])

    def test_a_check_that_is_killed_is_tried_once_more(self):
        again = "the check of sim_c was killed, most likely for memory; it is tried once more, alone"
        status, _, lines = self.build(does="killed sim_c")
        self.assertEqual((status, lines[-1]), (0, "proved sqs_rehearse, crate 4 of 4"))
        self.assertIn(again, lines)
        self.assertEqual([words for _, crate, words in self.calls() if crate == "sim_c"][1:], ["lib --jobs 1"])
        status, _, lines = self.build(does="always killed sim_c")
        self.assertIn(again, lines)
        self.assertEqual((status, lines[-2:]), (2, ["rt: the check was killed", "the program could not be built"]))

    def test_without_rt(self):
        os.remove(self.path("kit/rt"))
        self.assertEqual(self.build(), (2, "", [build.NO_RT]))

    def test_a_word_too_many(self):
        self.assertEqual(self.build("all")[::2], (2, ["build: unrecognized arguments: all (--help tells the usage)"]))
        self.assertEqual(self.build("--help")[1].splitlines()[0], build.__doc__.splitlines()[0])
        self.assertEqual(self.calls(), [])

    def test_an_interrupted_build_leaves_nothing_behind(self):
        for number, expected in ((signal.SIGINT, 130), (signal.SIGTERM, 143), (signal.SIGHUP, 129)):
            run = self.start(does="slow sim_b")
            self.await_call("sim_b")
            run.send_signal(number)
            err = run.communicate(timeout=LIMIT)[1]
            self.assertEqual((run.returncode, err.splitlines()[-1]), (expected, f"sqs_rehearse: {build.INTERRUPTED}"))
            self.assertFalse([call for call in self.calls() if is_running(call[0])])
            self.assertEqual(os.listdir(self.path("tmp")), [])
            os.remove(self.path("calls"))

    def test_ends_with_the_process_that_began_it(self):
        run = self.start(does="slow sim_b")
        self.await_call("sim_b")
        run.kill()
        run.communicate()
        wait_for(lambda: not any(is_running(call[0]) for call in self.calls()))

    def test_a_second_build_waits_for_the_first(self):
        first = self.start(does="wait sim_a")
        self.await_call("sim_a")
        second = self.start(does="known")
        self.assertEqual(second.stderr.readline(), "sqs_rehearse: another build is under way in this folder; this one "
                         "waits for it, and takes what it proves\n")
        self.write("calls.go", "")
        first.communicate(timeout=LIMIT), second.communicate(timeout=LIMIT)
        self.assertEqual((first.returncode, second.returncode), (0, 0))

    def test_a_build_that_is_ended_at_its_start(self):
        """Wherever it is by then, it does not get past the first crate."""
        run = self.start(does="wait sim_a")
        run.send_signal(signal.SIGTERM)
        run.communicate(timeout=LIMIT)
        self.assertIn(run.returncode, (143, -signal.SIGTERM))


class Order(unittest.TestCase):
    crates = {"low": [], "long": ["low"], "short": ["low"], "middle": ["long"], "top": ["middle", "short"]}

    def setUp(self):
        self.kept = {name: getattr(build, name) for name in ("SECONDS", "GAIN", "LARGE", "BESIDE")}
        build.SECONDS = {"low": 10, "long": 100, "short": 40, "middle": 50, "top": 20}
        build.GAIN, build.LARGE, build.BESIDE = 2, 50, 0.5

    def tearDown(self):
        for name, value in self.kept.items():
            setattr(build, name, value)

    def begun(self, plan):
        return list(iter(plan.begin, None))

    def test_the_longest_chain_goes_first(self):
        plan = build.Plan(self.crates, 2)
        self.assertEqual(self.begun(plan), ["low"])
        plan.end("low")
        self.assertEqual(self.begun(plan), ["long", "short"])

    def test_a_large_crate_gets_the_processors_that_no_other_waits_for(self):
        plan = build.Plan(self.crates, 4)
        self.begun(plan)
        self.assertEqual(plan.running, {"low": 1})
        plan.end("low")
        self.begun(plan)
        self.assertEqual(plan.running, {"long": 2, "short": 1})
        plan.end("short")
        plan.end("long")
        self.begun(plan)
        self.assertEqual(plan.running, {"middle": 4})

    def test_one_at_a_time_with_one_job(self):
        plan, order = build.Plan(self.crates, 1), []
        while plan.left():
            order += self.begun(plan)
            self.assertEqual(plan.running, {order[-1]: 1})
            plan.end(order[-1])
        self.assertEqual(order, ["low", "long", "middle", "short", "top"])

    def test_what_was_killed_runs_alone(self):
        plan = build.Plan(self.crates, 4)
        plan.end(*self.begun(plan))
        self.begun(plan)
        self.assertTrue(plan.end_killed("long"))
        self.assertEqual(self.begun(plan), [])
        plan.end("short")
        self.assertEqual((self.begun(plan), plan.running), (["long"], {"long": 1}))
        self.assertFalse(plan.end_killed("long"))

    def test_the_estimate_plays_the_plan_to_its_end(self):
        plan = build.Plan(self.crates, 1)
        self.assertEqual(build.seconds_left(plan, {}, 1), 220)
        self.assertEqual(build.seconds_left(plan, {}, 1.5), 330)
        self.begun(plan)
        self.assertEqual(build.seconds_left(plan, {"low": 6}, 1), 216)
        self.assertEqual(plan.running, {"low": 1})
        # 10, then 50 by two jobs; 25 by three jobs takes half as long again, since another crate is beside it; then 20
        self.assertEqual(build.seconds_left(build.Plan(self.crates, 4), {}, 1), 117.5)

    def test_each_crate_of_the_program_is_measured(self):
        crates = build.read(os.path.join(ROOT, "crates.txt"))
        self.assertEqual(set(self.kept["SECONDS"]), build.below(crates, build.PROGRAM) | {build.PROGRAM})


class Machine(unittest.TestCase):
    def replace(self, name, value, place=build):
        self.addCleanup(setattr, place, name, getattr(place, name))
        setattr(place, name, value)

    def test_little_memory_is_one_crate_at_a_time(self):
        self.replace("processors", lambda: 4)
        for memory, crates in ((2e9, 1), (7.8e9, 1), (64e9, 4)):
            self.replace("free_memory", lambda: memory)
            self.assertEqual(build.crates_at_once(), crates)

    def test_a_disk_that_is_too_full(self):
        self.replace("disk_usage", lambda _: types.SimpleNamespace(free=9e9), shutil)
        with self.assertRaisesRegex(build.Fault, "^the build wants 10 GB of disk below .*, and 9.0 GB are free$"):
            build.check_disk(1)
        build.check_disk(0.5)


class Locks(ToolCase):
    def test_crates_below_are_shared(self):
        crates = {}
        for name in ("low", "one", "other"):
            os.mkdir(self.path(name))
            crates[name] = types.SimpleNamespace(folder=self.path(name))
        held = side_by_side.locked([crates["low"], crates["one"]])
        held += side_by_side.locked([crates["low"], crates["other"]])
        for name in crates:
            handle = os.open(self.path(name), os.O_RDONLY)
            with self.assertRaises(BlockingIOError):
                fcntl.flock(handle, fcntl.LOCK_EX | fcntl.LOCK_NB)
            os.close(handle)
        for handle in held:
            os.close(handle)

    def run_side_by_side(self, text, *words):
        rt = self.script("rt", f"#!/usr/bin/env python3\n{text}")
        return ran([sys.executable, side_by_side.__file__, rt, *words])

    def test_the_script_of_the_kit_gets_the_locks(self):
        self.write("rtlib.py", "lock = None\n")
        text = ("import os, sys\nsys.path.insert(0, os.path.dirname(__file__))\nimport rtlib\n"
                "def main(words):\n    print(rtlib.lock.__name__, *words)\n    return -9\n")
        self.assertEqual(self.run_side_by_side(text, "lib", "x"), (137, "locked lib x\n", ""))

    def test_without_words(self):
        self.assert_fault(ran([sys.executable, side_by_side.__file__]),
                          "side_by_side.py: it takes RT and its words (--help tells the usage)")

    def test_another_program_runs_as_it_is(self):
        text = "import sys\nif __name__ == '__main__':\n    print(*sys.argv[1:])\n"
        self.assertEqual(self.run_side_by_side(text, "lib", "x"), (0, "lib x\n", ""))
