"""The tools run under each Python from 3.9 on: all their files can be read by 3.9, and under an older Python that is
there their tests pass that need no library beside Python's own."""
from __future__ import annotations

import ast
import glob
import os
import pathlib
import re
import shutil
import subprocess
import sys
import unittest

from tool import LIMIT, PROGRAM, ROOT, TOOLS, needs_program

OLDEST = (3, 9)
# Files of tests/tools that need no library, and are quick.
TESTS = ("arrivals", "doors", "explain", "from_queue", "life", "metrics", "quantiles", "replay", "results", "runs",
         "scenarios", "summary", "units")
# The lines that import names of some modules.
NEWER = re.compile(r"^from (__future__|typing|collections\.abc|dataclasses) import (.*)$", re.M)
# Names of these modules that a version after 3.9 brought.
NEWER_NAMES = {"Self", "LiteralString", "ParamSpec", "TypeAlias", "TypeGuard", "Concatenate", "Never", "assert_never",
               "NotRequired", "Required", "override", "Buffer", "KW_ONLY", "Unpack", "TypeVarTuple", "reveal_type"}
# Calls that a version after 3.9 brought.
NEWER_CALLS = re.compile(r"\.total\(\)|\bpairwise\(|\bbatched\(|math\.cbrt|math\.exp2|\bzip\([^)]*strict=|"
                         r"process_group=|\.bit_count\(|import tomllib|datetime\.UTC|StrEnum|contextlib\.chdir|bisect\w*\([^)]*key=")


def python_files() -> list[str]:
    """The tools for users, each in Python."""
    return sorted(glob.glob(os.path.join(TOOLS, "rehearse_tools", "*.py")))


def older_pythons() -> dict[str, str]:
    """The paths of the Pythons from 3.9 to 3.10 that are there, by their versions: on the PATH, or of pyenv."""
    found = {}
    for minor in (9, 10):
        named = [shutil.which(f"python3.{minor}"), *sorted(glob.glob(os.path.expanduser(
            f"~/.pyenv/versions/3.{minor}.*/bin/python3")))]
        for path in filter(None, named):
            asked = subprocess.run([path, "-c", "import sys; print('%d.%d' % sys.version_info[:2])"], text=True,
                                   capture_output=True)
            if asked.returncode == 0 and asked.stdout == f"3.{minor}\n":
                found[f"3.{minor}"] = path
    return found


def environment_of(python: str) -> dict[str, str]:
    """The environment in which a Python runs the tools, and is the one that they find."""
    kept = {name: value for name, value in os.environ.items() if not name.startswith("PYTHON")}
    return {**kept, "PATH": os.path.dirname(python) + os.pathsep + os.environ.get("PATH", os.defpath)}


class Older(unittest.TestCase):
    def test_each_file_can_be_read(self) -> None:
        for path in python_files():
            with self.subTest(path=path):
                text = pathlib.Path(path).read_text(encoding="utf-8")
                tree = ast.parse(text, feature_version=OLDEST)
                names = {name.strip(" ()") for _, line in NEWER.findall(text) for name in line.split(",")}
                self.assertEqual(names & NEWER_NAMES, set())
                self.assertEqual(NEWER_CALLS.findall(text), [])
                self.assert_annotations_wait(tree)

    def assert_annotations_wait(self, tree: ast.Module) -> None:
        """A file with `X | None` in an annotation says that annotations are not computed."""
        annotated = [node.annotation for node in ast.walk(tree) if isinstance(node, (ast.AnnAssign, ast.arg))]
        returned = [node.returns for node in ast.walk(tree) if isinstance(node, ast.FunctionDef)]
        parts = (part for node in [*annotated, *returned] if node for part in ast.walk(node))
        is_used = any(isinstance(part, ast.BinOp) for part in parts)
        waits = any(isinstance(node, ast.ImportFrom) and node.module == "__future__" for node in tree.body)
        self.assertTrue(waits or not is_used)

    def test_under_the_oldest_python(self) -> None:
        there = older_pythons()
        if not there:
            self.skipTest("no Python 3.9 or 3.10 is here")
        for version, python in list(there.items())[:1]:
            environment = environment_of(python)
            # with the program some of them need libraries
            environment.pop("SQS_REHEARSE", None)
            for name in TESTS:
                with self.subTest(version=version, tests=name):
                    words = [python, "-B", "-m", "unittest", "discover", "-s", os.path.join("tests", "tools"), "-p",
                             f"test_{name}.py"]
                    ran = subprocess.run(words, cwd=ROOT, env=environment, text=True, timeout=LIMIT,
                                         stdin=subprocess.DEVNULL, capture_output=True)
                    self.assertEqual(ran.returncode, 0, ran.stderr)

    @needs_program
    def test_the_same_is_printed(self) -> None:
        """By each Python from 3.9 on that is there, as by this one."""
        example = os.path.join(ROOT, "examples", "short_timeout.toml")
        log = subprocess.run([str(PROGRAM), "run", example], check=True, capture_output=True).stdout
        for words in (["sweep", example, "--vary", "seed=1..3", "--columns", "deletes,age_p95,door_age_p95"],
                      ["explain", os.path.join(ROOT, "tests", "cases", "version-3", "heartbeat.toml")],
                      ["summary", "-", "--json"], ["metrics", "-"], ["life", "-", "--worst"]):
            told = [subprocess.run([python, "-B", os.path.join(TOOLS, words[0]), *words[1:]], input=log, cwd=ROOT,
                                   env=environment_of(python), capture_output=True)
                    for python in (sys.executable, *older_pythons().values())]
            for ran in told:
                self.assertEqual((ran.returncode, ran.stdout), (told[0].returncode, told[0].stdout), ran.stderr)
            self.assertNotEqual(told[0].stdout, b"", words)

    def test_an_older_one_is_refused(self) -> None:
        """In one line, by each tool, and also where annotations could not be read."""
        found = [path for minor in (6, 7, 8) for path in glob.glob(os.path.expanduser(
            f"~/.pyenv/versions/3.{minor}.*/bin/python3"))]
        if not found:
            self.skipTest("no Python before 3.9 is here")
        for python in found:
            ran = subprocess.run([python, "-B", os.path.join(TOOLS, "summary"), "x"], text=True, capture_output=True) \
                if sys.version_info >= OLDEST else None
            assert ran is not None
            self.assertEqual((ran.returncode, ran.stdout), (2, ""))
            self.assertRegex(ran.stderr, r"^summary needs Python 3\.9 or later, and this is Python 3\.[678]\n$")
