"""Tests tools/sweep --cluster on a real Dask cluster of this machine, against the bytes of a sweep without one."""
from __future__ import annotations

import json
import os
import shutil
import signal
import subprocess
import sys
import tempfile
import threading
import unittest
from collections.abc import Callable
from types import SimpleNamespace
from typing import NoReturn

from tool import TOOLS, ToolCase, needs_program, wait_for
from scenario_texts import consumer, producer, queue_of, scenario_of, table
from rehearse_tools import clusters
from rehearse_tools.console import Fault
from rehearse_tools.jobs import scripts_of
from rehearse_tools.variants import Given, Settings, Sweep

SCHEDULER, WORKER = shutil.which("dask-scheduler"), shutil.which("dask-worker")
needs_dask = unittest.skipUnless(SCHEDULER and WORKER, "Dask is not here: apt-get install python3-distributed")
SCENARIO = scenario_of(3_600_000, queue_of("q", visibility_s=30), producer("shop", "q", 10_000, (1, 600)),
                    consumer("worker", "q", (1, 600)), table("actor", name="operator", kind="script", queue="q",
                                                             script="calls.csv"))
CALLS = "at,call,body,group,id,delay,receipt,max,wait,timeout,task\n1000,send,hello,,,,,,,,\n"
ROWS_BEFORE_THE_END = 6


class Cluster:
    """A scheduler and its workers, of which each has a folder of its own."""

    def __init__(self) -> None:
        self.folder, self.processes = tempfile.mkdtemp(), list["subprocess.Popen[bytes]"]()
        self.workers: dict[str, "subprocess.Popen[bytes]"] = {}
        self.file = os.path.join(self.folder, "scheduler.json")
        self.scheduler = self.start(str(SCHEDULER), "--host", "127.0.0.1", "--port", "0", "--no-dashboard",
                                    "--scheduler-file", self.file, folder=self.folder)
        wait_for(self.has_address)

    def has_address(self) -> bool:
        """Whether the scheduler has written its address, which may take it a while from the first byte on."""
        try:
            with open(self.file, encoding="utf-8") as file:
                self.address: str = json.load(file)["address"]
        except (OSError, ValueError):
            return False
        return True

    def start(self, *words: str, folder: str) -> "subprocess.Popen[bytes]":
        environment = {name: value for name, value in os.environ.items() if name != "PYTHONPATH"}
        self.processes.append(subprocess.Popen(words, cwd=folder, stdin=subprocess.DEVNULL, stdout=subprocess.DEVNULL,
                                               stderr=subprocess.DEVNULL, env={**environment, "TMPDIR": folder}))
        return self.processes[-1]

    def start_worker(self) -> str:
        """The folder of a worker with one thread, which knows the scheduler alone."""
        folder = os.path.join(self.folder, f"worker{len(self.processes)}")
        os.mkdir(folder)
        self.workers[folder] = self.start(str(WORKER), self.address, "--nthreads", "1", "--no-nanny", "--no-dashboard",
                                          "--local-directory", folder, folder=folder)
        return folder

    def kill_worker(self, folder: str) -> None:
        process = self.workers.pop(folder)
        process.kill()
        process.wait()

    def end(self) -> None:
        """Ends all processes, the last one first."""
        for process in reversed(self.processes):
            process.kill()
            process.wait()
        shutil.rmtree(self.folder, ignore_errors=True)


class DaskCase(ToolCase):
    """A test on a cluster that the tests of its class share, with as many workers as it asks for at least."""

    shared: Cluster | None = None

    scenario_text = SCENARIO

    def setUp(self) -> None:
        super().setUp()
        self.write("scripts/calls.csv", CALLS)

    @classmethod
    def cluster_with(cls, workers: int) -> Cluster:
        """The cluster, which is started by the first test that asks for it, and again after one that ended it."""
        if cls.shared is None or cls.shared.scheduler.poll() is not None:
            cls.shared = Cluster()
            cls.addClassCleanup(cls.shared.end)
        while len(cls.shared.workers) < workers:
            cls.shared.start_worker()
        return cls.shared

    def words(self, *more: str) -> tuple[str, ...]:
        return (self.scenario, "--scripts", "scripts", *more)

    def rest_of(self, process: "subprocess.Popen[str]") -> tuple[int, str, str]:
        """The status and what is still to be read of both outputs of a sweep, of which some has been read."""
        assert process.stdout is not None and process.stderr is not None
        out, err = process.stdout.read(), process.stderr.read()
        return process.wait(), out, err

    def sweep(self, cluster: Cluster, *words: str) -> "subprocess.Popen[str]":
        """A sweep on a cluster that is under way."""
        command = [sys.executable, os.path.join(TOOLS, "sweep"), *self.words(*words), "--cluster", cluster.address]
        process = subprocess.Popen(command, cwd=self.folder, stdout=subprocess.PIPE, stderr=subprocess.PIPE, text=True)
        self.addCleanup(process.wait)
        self.addCleanup(process.kill)
        return process


@needs_dask
@needs_program
class Clusters(DaskCase):
    def test_a_worker_that_is_killed_in_the_middle(self) -> None:
        """Two workers run; one is killed, and a third one comes. The bytes are those of one machine."""
        wanted = self.run_tool("sweep", *self.words("--vary", "seed=1..80"))[1]
        cluster = self.cluster_with(2)
        process = self.sweep(cluster, "--vary", "seed=1..80")
        assert process.stdout is not None
        out = "".join(process.stdout.readline() for _ in range(ROWS_BEFORE_THE_END))
        cluster.kill_worker(next(iter(cluster.workers)))
        cluster.start_worker()
        self.assertLess(out.count("\n"), wanted.count("\n"))
        status, rest, err = self.rest_of(process)
        self.assertEqual((status, out + rest), (0, wanted), err)
        self.assertEqual(err.splitlines()[-1], "sweep: 80 of 80 variants run, 0 failed")

    def test_what_is_counted_and_refused(self) -> None:
        """Logs are counted where they are written; a refusal reads as on one machine; the hint is the same."""
        cluster = self.cluster_with(1)
        for more in (("--vary", "seed=1..3", "--from", "10m", "--require", "q.age_p95<1h"),
                     ("--vary", "queue.q.visibility_s=30,50000"),
                     ("--vary", "seed=1..5", "--spread", "seed", "--columns", "sends,age_p95"),
                     ("--vary", "seed=1..2", "--columns", "busy"),
                     ("--vary", "seed=1..2", "--from", "10m", "--columns", "busy,in_flight_max")):
            here = self.run_tool("sweep", *self.words(*more))
            self.assertEqual(self.run_tool("sweep", *self.words(*more), "--cluster", cluster.address), here)
        for folder in cluster.workers:
            wait_for(lambda: not [name for *_, names in os.walk(folder) for name in names if name == "calls.csv"])

    def test_an_interrupt(self) -> None:
        """The rows so far are whole, and the status is 130."""
        process = self.sweep(self.cluster_with(1), "--vary", "seed=1..2000")
        assert process.stdout is not None
        out = "".join(process.stdout.readline() for _ in range(ROWS_BEFORE_THE_END))
        process.send_signal(signal.SIGINT)
        rest, err = self.ends(130, self.rest_of(process))
        self.assertEqual({line.count(",") for line in (out + rest).splitlines()}, {out.splitlines()[0].count(",")})
        self.assertRegex(err.splitlines()[-1], "sweep: interrupted after [0-9]+ of 2000 variants")

    def test_a_scheduler_that_is_lost(self) -> None:
        cluster = self.cluster_with(1)
        process = self.sweep(cluster, "--vary", "seed=1..2000")
        assert process.stdout is not None
        for _ in range(ROWS_BEFORE_THE_END):
            process.stdout.readline()
        cluster.scheduler.kill()
        status, _, err = self.rest_of(process)
        self.assertEqual((status, err.splitlines()[-1]), (2, "sweep: the Dask scheduler is lost"))


@needs_program
class Faults(ToolCase):
    def test_words(self) -> None:
        self.write("s.toml", SCENARIO)
        self.assert_stored_faults("clusters")

    def test_scripts_outside_their_folder(self) -> None:
        """What leads out of the folder of the scripts is no name of one: it is neither read nor sent."""
        outside = self.write("calls.csv", CALLS)
        self.write("scripts/own.csv", CALLS)
        for name, found in (("../calls.csv", []), (outside, []), ("own.csv", ["own.csv"])):
            sweep = Sweep(self.write("s.toml", SCENARIO.replace("calls.csv", name)),
                          Settings([Given("vary", f"actor.operator.script={name}")]), self.path("scripts"))
            self.assertEqual(list(scripts_of(sweep)), found)

    def test_without_its_library(self) -> None:
        """A Python that finds no Dask tells which package has it."""
        scenario = self.write("s.toml", SCENARIO)
        self.write("without/distributed.py", "raise ImportError\n")
        ran = self.run_command("sweep", scenario, "--vary", "seed=1", "--cluster", "tcp://h:1",
                               PYTHONPATH=self.path("without"))
        self.assert_fault(ran, "sweep: --cluster needs Debian's package python3-distributed, which is for Debian's "
                               "python3")

    def test_what_the_library_raises(self) -> None:
        """Whatever it raises of a run that is cancelled, the run was cancelled; else its reason is in the fault."""
        class Future:
            def __init__(self, before: Callable[[], None]) -> None:
                self.before = before

            def result(self) -> NoReturn:
                self.before()
                raise TypeError("exceptions must derive from BaseException")

        cluster = object.__new__(clusters.Cluster)
        cluster.name, cluster.lock, cluster.is_cancelled, cluster.futures = "n", threading.Lock(), False, set()
        cluster.distributed = SimpleNamespace(CancelledError=OSError, KilledWorker=KeyError,
                                              comm=SimpleNamespace(CommClosedError=OSError))
        for before in (lambda: None, cluster.cancel):
            cluster.client = SimpleNamespace(submit=lambda *words, pure: Future(before), cancel=lambda futures: None)
            if before == cluster.cancel:
                self.assertEqual(cluster.ran(["./program"], b""), (-signal.SIGTERM, b"", b""))
            else:
                with self.assertRaisesRegex(Fault, "^a worker of the cluster cannot run the program: exceptions must"):
                    cluster.ran(["./program"], b"")

    @needs_dask
    def test_nobody_answers(self) -> None:
        scenario = self.write("s.toml", SCENARIO)
        err = self.refusal(self.run_tool("sweep", scenario, "--vary", "seed=1", "--cluster", "tcp://127.0.0.1:9"))
        self.assertTrue(err.startswith("sweep: cannot use the Dask scheduler at tcp://127.0.0.1:9: "), err)
