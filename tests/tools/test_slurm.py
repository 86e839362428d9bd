"""Tests examples/sweeps/slurm.sh on a real Slurm of this machine, with two nodes, against the bytes of one sweep."""
from __future__ import annotations

import os
import shutil
import socket
import subprocess
import tempfile
import unittest

from test_clusters import CALLS, SCENARIO
from tool import HERE, PROGRAM, ROOT, ToolCase, needs_program, text_at, wait_for

SCRIPT = os.path.join(ROOT, "examples", "sweeps", "slurm.sh")
SERVERS = [shutil.which(name, path=os.environ.get("PATH", os.defpath) + ":/usr/sbin")
           for name in ("munged", "slurmctld", "slurmd", "sbatch")]
needs_slurm = unittest.skipUnless(all(SERVERS) and os.getuid() == 0,
                                  "Slurm is not here, or the user is not root: apt-get install slurm-wlm munge")
CONFIGURATION = text_at(HERE, "slurm.conf")
# A run in the second task waits for as long as it is held, so that the task is sure to be cancelled while it runs.
HELD_PROGRAM = """#!/bin/sh
if [ "$SLURM_ARRAY_TASK_ID" = 2 ] && [ "$1" = run ]; then
  while [ -e {hold} ]; do : > {begun}; sleep 0.1; done
fi
exec {program} "$@"
"""


def free_ports(case: unittest.TestCase, count: int) -> list[int]:
    """Ports on which nobody listens, and which the system gives to nobody who asks for any port. Another run of this
    test finds others, as this one holds the port before them."""
    for first in range(20_000, 30_000, count + 1):
        held: list[socket.socket] = []
        try:
            for port in range(first, first + count + 1):
                held.append(socket.create_server(("127.0.0.1", port)))
        except OSError:
            continue
        finally:
            for opened in held[1:] if len(held) > count else held:
                opened.close()
        case.addCleanup(held[0].close)
        return list(range(first + 1, first + count + 1))
    raise AssertionError("no ports are free")


@needs_slurm
@needs_program
class Slurm(ToolCase):
    def setUp(self) -> None:
        super().setUp()
        self.servers = tempfile.mkdtemp()
        self.addCleanup(shutil.rmtree, self.servers, ignore_errors=True)
        self.environment = {**os.environ, "SLURM_CONF": os.path.join(self.servers, "slurm.conf"),
                            "SQS_REHEARSE": str(PROGRAM)}
        with open(self.environment["SLURM_CONF"], "w", encoding="utf-8") as file:
            file.write(CONFIGURATION.format(folder=self.servers, ports=free_ports(self, 3), cpus=os.cpu_count()))
        with open(os.path.join(self.servers, "munge.key"), "wb") as key:
            os.chmod(key.fileno(), 0o400)
            key.write(os.urandom(1024))
        os.mkdir(os.path.join(self.servers, "state"))
        self.start_servers()
        self.write("scripts/calls.csv", CALLS)
        scenario = self.write("s.toml", SCENARIO)
        self.words = scenario, "--scripts", self.path("scripts"), "--vary", "seed=1..6"

    def hold_runs(self) -> str:
        """Gives the tasks a program whose runs wait in the task with number 2 while a file is there; returns its path.
        The first such run makes another file, `begun`."""
        hold = self.write("hold", "")
        program = self.script("program", HELD_PROGRAM.format(hold=hold, begun=self.path("begun"), program=PROGRAM))
        self.environment["SQS_REHEARSE"] = program
        return hold

    def start_servers(self) -> None:
        munged, control, node, _ = map(str, SERVERS)
        files = {f"--{of}-file": os.path.join(self.servers, f"munge.{of}") for of in ("key", "log", "pid", "seed")}
        self.start(munged, "--force", "--foreground", f"--socket={self.servers}/munge.socket",
                   *(f"{option}={path}" for option, path in files.items()))
        wait_for(lambda: os.path.exists(f"{self.servers}/munge.socket"))
        self.start(control, "-D")
        self.start(node, "-D", "-N", "n1")
        self.start(node, "-D", "-N", "n2")
        wait_for(lambda: self.answer("sinfo", "--noheader", "--format=%D %t") == "2 idle")

    def start(self, *words: str) -> None:
        """A process that is ended with the test."""
        process = subprocess.Popen(words, stdin=subprocess.DEVNULL, stdout=subprocess.DEVNULL,
                                   stderr=subprocess.DEVNULL, env=self.environment)
        self.addCleanup(process.wait)
        self.addCleanup(process.terminate)

    def answer(self, *words: str) -> str | None:
        """What a command of Slurm prints; None if it fails, as it does while it reaches no server."""
        ran = subprocess.run(words, capture_output=True, text=True, env=self.environment)
        return None if ran.returncode else ran.stdout.strip()

    def submit(self, array: str, shares: int) -> str:
        """The number of the job that runs some shares."""
        told = self.answer("sbatch", f"--array={array}", "--cpus-per-task=1", f"--chdir={ROOT}",
                           f"--error={self.path('errors')}", SCRIPT, str(shares), self.path("results"), *self.words)
        assert told is not None
        self.assertRegex(told, "^Submitted batch job [0-9]+$")
        return told.split()[-1]

    def wait_until_ended(self) -> None:
        wait_for(lambda: self.answer("squeue", "--noheader") == "")

    def collected(self) -> tuple[int, str, str]:
        return self.run_tool("sweep", "--collect", "results")

    def test_a_task_that_is_cancelled(self) -> None:
        """It leaves no file, and reports what is left; once it is run again the bytes are those of one sweep."""
        wanted = self.run_tool("sweep", *self.words)[1]
        hold = self.hold_runs()
        job = self.submit("1-2", 2)
        wait_for(lambda: os.path.exists(self.path("begun")))
        subprocess.run(["scancel", f"{job}_2"], check=True, env=self.environment)
        self.wait_until_ended()
        os.remove(hold)
        self.assertEqual([name[:7] for name in os.listdir(self.path("results"))], ["1-of-2-"])
        _, err = self.ends(1, self.collected())
        self.assertIn("3 of 6 variants are left: 2,4,6", err)
        self.submit("2", 2)
        self.wait_until_ended()
        self.assertEqual(self.collected(), (0, wanted, ""))
