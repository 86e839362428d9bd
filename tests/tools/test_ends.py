"""Tests that a program ends with the tool that started it, whatever ends the tool, and that nothing of it is left."""
from __future__ import annotations

import os
import select
import signal
import subprocess
import sys

from test_sweep import SCENARIO
from tool import TOOLS, ToolCase

SIGNALS = signal.SIGTERM, signal.SIGHUP, signal.SIGQUIT, signal.SIGKILL, signal.SIGINT
# In the place of the program: it says by a pipe that it runs, and holds the pipe open for as long as it does.
STAND_IN = """#!/bin/sh
[ "$*" = --help ] && exit 0
exec 3> told
echo runs >&3
exec sleep 3600
"""
NOTEBOOK = "from rehearse_tools.notebook import {name}; {name}(open('s.toml').read(), {words}, as_lists=True)"
SWEEP = "s.toml", "--vary", "seed=1..9", "--jobs", "2"
# The commands that start the program. The first two get each signal, the others two of them.
COMMANDS = {
    "report": ("report", "s.toml", "--output", "r.html"),
    "sweep": ("sweep", *SWEEP),
    "explain": ("explain", "s.toml"),
    "a share": ("sweep", *SWEEP, "--share", "1/1", "--results", "results"),
    "a search": ("sweep", "s.toml", "--least", "queue.q.visibility_s=1..9", "--vary", "seed=1..9", "--spread", "seed",
                 "--require", "q.sends>0", "--jobs", "2"),
    "rehearse": ("-c", NOTEBOOK.format(name="rehearse", words="{}")),
    "a notebook's sweep": ("-c", NOTEBOOK.format(name="sweep", words="{'seed': '1..9'}, jobs=2")),
}
TIMEOUT = 60


def ignore_no_signal() -> None:
    """What a shell starts in the background may ignore some of them."""
    for number in SIGNALS:
        if number != signal.SIGKILL:
            signal.signal(number, signal.SIG_DFL)


class Ends(ToolCase):
    def start(self, name: str, *words: str) -> tuple["subprocess.Popen[bytes]", int]:
        """A tool in a folder of its own whose program runs, and the pipe that the program holds open."""
        folder = self.path(name)
        os.makedirs(os.path.join(folder, "tmp"))
        for file, text in (("s.toml", SCENARIO), ("program", STAND_IN)):
            self.write(f"{name}/{file}", text)
        os.chmod(os.path.join(folder, "program"), 0o755)
        os.mkfifo(os.path.join(folder, "told"))
        told = os.open(os.path.join(folder, "told"), os.O_RDONLY | os.O_NONBLOCK)
        self.addCleanup(os.close, told)
        command = [words[0] if words[0] == "-c" else os.path.join(TOOLS, words[0]), *words[1:]]
        process = subprocess.Popen(
            [sys.executable, *command], cwd=folder, stdin=subprocess.DEVNULL, stdout=subprocess.DEVNULL,
            stderr=subprocess.PIPE, preexec_fn=ignore_no_signal,
            env={**os.environ, "TMPDIR": os.path.join(folder, "tmp"), "SQS_REHEARSE": os.path.join(folder, "program"),
                 "PYTHONPATH": TOOLS})
        self.addCleanup(process.communicate)
        self.addCleanup(process.kill)
        return process, told

    def wait_for_the_program(self, process: "subprocess.Popen[bytes]", told: int) -> None:
        """Waits until the program runs, or until the tool has ended, which then has said why."""
        poll, end = select.poll(), os.pidfd_open(process.pid)
        self.addCleanup(os.close, end)
        for file in (told, end):
            poll.register(file, select.POLLIN)
        ready = dict(poll.poll(1000 * TIMEOUT))
        self.assertTrue(ready, "the program does not run")
        if told not in ready:
            self.fail(process.communicate()[1].decode())

    def said(self, told: int) -> bytes:
        """What programs say by the pipe; nothing once none of them is left."""
        poll = select.poll()
        poll.register(told, select.POLLIN)
        self.assertTrue(poll.poll(1000 * TIMEOUT), "a program says nothing, and does not end")
        return os.read(told, 4096)

    def test_each_signal_to_each_tool(self) -> None:
        runs = {(name, number): self.start(f"{name} {number.name}", *words)
                for place, (name, words) in enumerate(COMMANDS.items())
                for number in (SIGNALS if place < 2 else (signal.SIGHUP, signal.SIGKILL))}
        for (name, number), (process, told) in runs.items():
            with self.subTest(tool=name, signal=number.name):
                self.wait_for_the_program(process, told)
                self.assertEqual(self.said(told)[:5], b"runs\n")
                process.send_signal(number)
                errors = process.communicate(timeout=TIMEOUT)[1].decode()
                while self.said(told):
                    pass
                self.assertEqual(os.listdir(self.path(f"{name} {number.name}/tmp")), [])
                if number in (signal.SIGQUIT, signal.SIGKILL):
                    self.assertEqual(process.returncode, -number)
                elif "-c" not in COMMANDS[name]:
                    is_sweep = COMMANDS[name][0] == "sweep"
                    self.assertEqual(process.returncode, 130 if is_sweep else 128 + number, errors)
                    self.assertNotIn("Traceback", errors)
