"""Tests tools/make_wheel.py, by which pip installs the package of the tools from this repository."""
import csv
import importlib.util
import os
import pathlib
import subprocess
import sys
import unittest
import zipfile

from tool import LIMIT, TOOLS, ToolCase, ran
from make_wheel import build_wheel, record_of

NAME = "rehearse_tools-{0}-py3-none-any.whl"
ASKED = "import rehearse_tools.keys, rehearse_tools.notebook; print(rehearse_tools.keys.TOP[0].name)"


class Wheel(ToolCase):
    def setUp(self):
        super().setUp()
        self.version = pathlib.Path(TOOLS, "VERSION").read_text(encoding="utf-8").strip()

    def assert_whole(self, folder):
        """The package in a folder has all files of the repository's, and can be imported from there."""
        for end in "*.py", "*.html", "facts/*.csv":
            for path in pathlib.Path(TOOLS, "rehearse_tools").glob(end):
                installed = pathlib.Path(folder, path.relative_to(TOOLS))
                self.assertEqual(installed.read_bytes(), path.read_bytes())
        environment = {**os.environ, "PYTHONPATH": folder}
        _, out, err = ran([sys.executable, "-B", "-c", ASKED], cwd=self.folder, env=environment)
        self.assertEqual((out, err), ("version\n", ""))

    def test_what_is_in_it(self):
        """Each file stands in the record with its checksum, and the name of the wheel has the version."""
        self.assertEqual(build_wheel(self.folder), NAME.format(self.version))
        with zipfile.ZipFile(self.path(NAME.format(self.version))) as archive:
            files = {name: archive.read(name) for name in archive.namelist()}
            archive.extractall(self.path("there"))
        info = f"rehearse_tools-{self.version}.dist-info"
        rows = [tuple(row) for row in csv.reader(files.pop(f"{info}/RECORD").decode().splitlines())]
        wanted = [tuple(map(str, record_of(name, data))) for name, data in files.items()]
        self.assertEqual(rows, [*wanted, (f"{info}/RECORD", "", "")])
        self.assertIn(f"Version: {self.version}\n", files[f"{info}/METADATA"].decode())
        self.assert_whole(self.path("there"))

    @unittest.skipUnless(importlib.util.find_spec("pip"), "pip is not here")
    def test_pip_installs_it_without_a_network(self):
        target = self.path("target")
        self.ends(0, ran([sys.executable, "-m", "pip", "install", "--quiet", "--no-index", "--no-cache-dir",
                          "--disable-pip-version-check", "--target", target, TOOLS], timeout=LIMIT,
                         stdin=subprocess.DEVNULL))
        self.assert_whole(target)
