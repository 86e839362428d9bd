"""Runs the jobs of a sweep by the files of examples/sweeps, and compares what is collected with one whole sweep."""
import json
import os
import shlex
import shutil
import subprocess
import unittest

from test_sweep import STAND_IN, SCENARIO
from tool import HERE, ROOT, ToolCase, ran, text_at

from rehearse_tools.console import library

FILES = os.path.join(ROOT, "examples", "sweeps")
# In the place of GNU parallel, where it is not here: it runs each line of its standard input.
PARALLEL = """#!/bin/sh
echo "$@" > words
exec xargs -d '\\n' -n 1 -P 2 sh -c
"""
# In the place of ssh: it notes each host, of which `dead` never answers, and `dying` only the first time. A job of `alive`
# waits until `dying` was given one, or for ten minutes.
SSH = text_at(HERE, "stand-ins", "ssh")


class Sweeps(ToolCase):
    scenario_text, stand_in = SCENARIO, STAND_IN

    def setUp(self):
        super().setUp()
        self.words = self.scenario, "--vary", "queue.q.visibility_s=2", "--vary", "seed=1..5"
        self.whole = self.sweep(*self.words)[1]
        self.write("jobs", self.sweep(*self.words, "--print-jobs", "results")[1])

    def sweep(self, *words):
        return self.run_tool("sweep", *words, SQS_REHEARSE=self.program)

    def run_it(self, *command, **environment):
        """Runs a command that must succeed, and returns what it printed on standard error."""
        return self.ends(0, ran(command, cwd=self.folder, stdin=subprocess.DEVNULL, env={**os.environ, **environment}))[1]

    def assert_collected(self, files=5):
        self.assertEqual(self.sweep("--collect", "results"), (0, self.whole, ""))
        self.assertEqual(len(os.listdir(self.path("results"))), files)

    def test_shares(self):
        os.rename(self.path("jobs"), self.path("of=1"))    # which awk would take for a setting
        self.run_it(f"{FILES}/share.sh", "of=1", "1", "2")
        self.assertEqual(len(os.listdir(self.path("results"))), 3)
        self.run_it(f"{FILES}/share.sh", "of=1", "2", "2")
        self.assert_collected()

    def test_words_that_are_missing(self):
        for command in (["share.sh"], ["share.sh", "jobs", "x", "2"], ["share.sh", "jobs", "1", "0"], ["parallel.sh"],
                        ["slurm.sh", "50", "results"]):
            status, out, err = ran([f"{FILES}/{command[0]}", *command[1:]], cwd=self.folder)
            self.assertEqual((status, out, err.split(".sh ")[0] + ".sh"),
                             (2, "", f"usage: {'sbatch ' * (command[0] == 'slurm.sh')}examples/sweeps/{command[0]}"))

    def test_parallel(self):
        self.write("hosts", "2/:\n")
        folder = os.environ["PATH"]
        if not shutil.which("parallel"):
            self.script("bin/parallel", PARALLEL)
            folder = f"{self.path('bin')}:{folder}"
        self.run_it(f"{FILES}/parallel.sh", "jobs", "hosts", PATH=folder)
        self.assert_collected()

    def run_on_hosts(self, *hosts):
        """Runs parallel.sh with a stand-in for ssh that runs all here, and returns its status and its errors.

        SHELL is not set, as in many containers."""
        self.write("hosts", "".join(f"{host}\n" for host in hosts))
        self.script("ssh", SSH)
        environment = {**os.environ, "PARALLEL_SSH": self.path("ssh"), "CALLS": self.path("calls")}
        environment.pop("SHELL", None)
        status, _, err = ran([f"{FILES}/parallel.sh", "jobs", "hosts"], cwd=self.folder, stdin=subprocess.DEVNULL,
                             env=environment)
        return status, err

    @unittest.skipUnless(shutil.which("parallel"), "GNU parallel is not here")
    def test_hosts_that_are_dead_and_that_die(self):
        """One host never answers, and one answers when it is asked and then refuses each job."""
        status, errors = self.run_on_hosts("# three hosts", "1/dead", "1/dying", "", "1/alive")
        self.assertEqual(status, 0, errors)
        self.assertIn("parallel.sh: dead does not answer, so it gets no jobs\n", errors)
        self.assert_collected()
        hosts = text_at(self.path("calls")).split()
        self.assertEqual(hosts.count("dead"), 1, hosts)
        self.assertGreaterEqual(hosts.count("dying"), 2, hosts)
        self.assertEqual(hosts.count("alive"), 6, hosts)

    def test_a_line_that_is_no_host(self):
        """Neither an option of ssh nor a command of the shell: nothing is run for it."""
        for line in ("-oProxyCommand=touch pwned", "4/-oProxyCommand=touch", "a;touch pwned", "1/$(touch pwned)"):
            with self.subTest(line=line):
                status, errors = self.run_on_hosts(line)
                self.assertEqual((status, errors.splitlines()[1:]), (1, ["parallel.sh: no host of hosts answers"]))
                self.assertIn(" is no name of a host, so it gets no jobs\n", errors)
        self.assertEqual(sorted(os.listdir(self.folder)), ["hosts", "jobs", "program", "s.toml", "ssh"])

    def test_no_host_that_answers(self):
        status, errors = self.run_on_hosts("4/dead")
        self.assertEqual((status, errors), (1, "parallel.sh: dead does not answer, so it gets no jobs\n"
                                               "parallel.sh: no host of hosts answers\n"))

    def test_slurm(self):
        """Each task runs its share, by the command in the folder, and by the installed one in another folder."""
        os.symlink(os.path.join(ROOT, "sqs_rehearse"), self.path("sqs_rehearse"))
        os.mkdir(self.path("bin"))
        os.symlink(os.path.join(ROOT, "sqs_rehearse"), self.path("bin/sqs_rehearse"))
        path = f"{self.path('bin')}:{os.environ['PATH']}"
        for task, folder in ((1, self.folder), (2, "/")):
            command = ["bash", f"{FILES}/slurm.sh", "2", self.path("results"), *self.words]
            subprocess.run(command, check=True, cwd=folder, capture_output=True, env={
                **os.environ, "SLURM_ARRAY_TASK_ID": str(task), "SLURM_CPUS_PER_TASK": "2", "PATH": path,
                "SQS_REHEARSE": self.program})
        self.assert_collected(2)

    def test_aws_batch(self):
        with open(f"{FILES}/batch.json", encoding="utf-8") as file:
            definition = json.load(file)
        command = definition["containerProperties"]["command"]
        folder, = (point["containerPath"] for point in definition["containerProperties"]["mountPoints"])
        self.assertEqual(sorted(definition["parameters"]), ["results", "sweep"])
        places = {f"{folder}/sqs_rehearse/": f"{ROOT}/", "Ref::results": self.path("results"),
                  "Ref::sweep": shlex.join(self.words)}
        for place, here in places.items():
            command = [word.replace(place, here) for word in command]
        for index in range(3):
            self.run_it(*command, AWS_BATCH_JOB_ARRAY_INDEX=str(index), AWS_BATCH_JOB_ARRAY_SIZE="3",
                        SQS_REHEARSE=self.program)
        self.assert_collected(3)

    def test_kubernetes(self):
        yaml = library("yaml", "python3-yaml")
        with open(f"{FILES}/kubernetes.yaml", encoding="utf-8") as file:
            spec = yaml.safe_load(file)["spec"]
        container, = spec["template"]["spec"]["containers"]
        bash, option, text = container["command"]
        self.assertIn(f"/{spec['completions']} --results", text)
        for place, here in (("/shared/sqs_rehearse/", f"{ROOT}/"), ("/shared/results", self.path("results")),
                            ("/50", "/2"), ("/shared/three_tries.toml --vary seed=1..1000", shlex.join(self.words))):
            self.assertIn(place, text)
            text = text.replace(place, here)
        for index in range(2):
            self.run_it(bash, option, text, JOB_COMPLETION_INDEX=str(index), SQS_REHEARSE=self.program)
        self.assert_collected(2)

    def test_commands_of_the_document(self):
        """Each file is named in it, and its sweep is one that can be asked for."""
        text = text_at(ROOT, "docs", "SWEEPS.md")
        for name in os.listdir(FILES):
            self.assertIn(f"examples/sweeps/{name}", text)
        end = text.index(" > jobs")
        words = text[text.rindex("./sqs_rehearse sweep examples/", 0, end):end].replace("\\\n", "").split()[2:]
        status, out, err = self.sweep(os.path.join(ROOT, words[0]), *words[1:])
        self.assertEqual((status, len(out.splitlines()), err), (0, 10_000, ""))
