"""Tests of tests/types, in a folder that has a copy of it and few files."""
import shutil
import sys
import unittest

from tool import ToolCase, ran

TYPED = '"""A tool."""\n\n\ndef twice(number: int) -> int:\n    return 2 * number\n'
MODULE = "/** @param {number} number */\nexport const twice = (number) => 2 * number;\n"
LEFT_OUT = ("note: tests/types leaves the page out, since tsc is missing: Debian's package node-typescript has it",)
HAS_TSC = shutil.which("tsc") is not None


@unittest.skipUnless(shutil.which("mypy") and shutil.which("pyflakes3"), "mypy or pyflakes3 is missing")
class Types(ToolCase):
    def setUp(self):
        super().setUp()
        for path, text in {"tests/all.py": TYPED, "tests/house": f"#!/usr/bin/env python3\n{TYPED}",
                           "tools/rehearse_tools/__init__.py": "", "tools/one.py": TYPED,
                           "tools/text": "#!/bin/sh\n", "page/one.js": MODULE}.items():
            self.write(path, text)
        self.copy("tests/checks.py", "tests/types", "page/tsconfig.json")

    def looked(self):
        """The status of tests/types and the lines that it prints."""
        status, out, err = ran([sys.executable, self.path("tests/types")])
        self.assertEqual(err, "")
        return status, out.splitlines()

    def summed(self, typed, styled, modules, failed):
        """The last two lines for so many files by each checker, of which so many have faults."""
        count, skipped = (modules, "") if HAS_TSC else (0, ", 1 skipped")
        return [f"{typed} files by mypy, {styled} by pyflakes, {count} by tsc",
                f"{typed + styled + count - failed} passed, {failed} failed{skipped}"]

    def test_all_is_well(self):
        """mypy takes one.py, the package's __init__.py, all.py, checks.py, house and types; pyflakes takes the same six;
        tsc takes one.js."""
        self.assertEqual(self.looked(), (0, [*(() if HAS_TSC else LEFT_OUT), *self.summed(6, 6, 1, 0)]))

    def test_faults(self):
        """A signature without types, a call against the types of another one, and an import that is not used."""
        self.write("tools/bare.py", "def twice(number):\n    return 2 * number\n")
        self.write("tools/wrong", "#!/usr/bin/env python3\nimport one\n\none.twice('2')\n")
        self.write("tests/unused", "#!/usr/bin/env python3\nimport os\n")
        status, lines = self.looked()
        self.assertEqual((status, lines[-2:]), (1, self.summed(8, 9, 1, 3)))
        self.assertEqual([line.split(": ")[0].split(":")[0:2] for line in lines[:-2] if line not in LEFT_OUT],
                         [["tools/bare.py", "1"], ["tools/wrong", "4"], ["tests/unused", "2"]])

    @unittest.skipUnless(HAS_TSC, "tsc is missing")
    def test_faults_of_the_page(self):
        """A module that calls a function against its types."""
        self.write("page/wrong.js", 'import { twice } from "./one.js";\n\ntwice("2");\n')
        status, lines = self.looked()
        self.assertEqual((status, lines[-2:]), (1, self.summed(6, 6, 2, 1)))
        self.assertEqual([line.split("(")[0] for line in lines[:-2]], ["page/wrong.js"])
