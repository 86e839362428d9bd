"""What documents say of the code is so: names in backquotes are there, what a crate exports stands in its README, and
numbers are counted."""
from __future__ import annotations

import pathlib
import re
import unittest

from tool import ROOT
import crate_list

TOP = pathlib.Path(ROOT)
CRATES = sorted(path for path in (TOP / "crates").iterdir() if path.is_dir())
WORD = re.compile("[A-Za-z_][A-Za-z0-9_]*")
QUOTED = re.compile("`([^`\n]+)`")
BLOCK = re.compile("```.*?```", re.S)
USED = re.compile(r"pub use [^;]*?(?:\{([^}]*)\}|::(\w+))\s*;")
DECLARED = re.compile(r"pub (?:fn|struct|enum|trait|const|type) (\w+)")
# Names of places in a table of calls and answers, and in a command.
PLACES = {"ID", "RECEIPT", "BODY", "AGE", "NUMBER", "PLACE", "ORIGIN", "CRATE", "SITE", "COUNT"}
NUMBERS = ("no", "One", "Two", "Three", "Four", "Five", "Six", "Seven", "Eight", "Nine", "Ten")


def own_files(crate: pathlib.Path) -> list[pathlib.Path]:
    """The files of a crate, but for what was built of it and its README."""
    return [path for path in crate.rglob("*") if path.is_file() and path.relative_to(crate).parts[0] != "out"
            and path.name != "README.md"]


def words_of(crate: pathlib.Path) -> set[str]:
    """All words in the files of a crate, and in their names."""
    words: set[str] = set()
    for path in own_files(crate):
        words.update(WORD.findall(path.as_posix()), WORD.findall(path.read_text(encoding="utf-8", errors="ignore")))
    return words


def exports_of(crate: pathlib.Path) -> set[str]:
    """The names that a crate's lib.rt exports."""
    path = crate / "src" / "lib.rt"
    text = path.read_text(encoding="utf-8") if path.exists() else ""
    used = (name.strip().split(" as ")[-1] for match in USED.finditer(text)
            for name in (match[1] or match[2]).split(","))
    return {*filter(None, used), *DECLARED.findall(text)}


class Readmes(unittest.TestCase):
    @classmethod
    def setUpClass(cls) -> None:
        cls.words = {crate.name: words_of(crate) for crate in CRATES}
        edits = {path.stem for path in (TOP / "crates").glob("*/must-fail/*.edit")}
        for path in (TOP / "tests/wrong-bodies").rglob("*.edits"):
            edits.update(re.findall("^edit: (.*)$", path.read_text(encoding="utf-8"), re.MULTILINE))
        cls.crates = crate_list.read(str(TOP / "crates.txt"))
        cls.known = {*cls.words, *edits, *PLACES, "rt"}

    def test_names_in_backquotes(self) -> None:
        """They are in the crate, in one below it or one that its README names too, or are files, options or edits."""
        for crate in CRATES:
            text = BLOCK.sub("", (crate / "README.md").read_text(encoding="utf-8"))
            near = {crate.name, *crate_list.below(self.crates, crate.name),
                    *(name for name in self.words if re.search(rf"\b{name}\b", text))}
            known = self.known.union(*(self.words[name] for name in near))
            for quoted in QUOTED.findall(text):
                with self.subTest(crate=crate.name, quoted=quoted):
                    if not quoted.startswith("--") and not (TOP / quoted.split("CRATE")[0].split()[0]).exists():
                        self.assertEqual([word for word in WORD.findall(quoted) if word not in known], [])

    def test_constants_are_those_of_the_crate(self) -> None:
        for crate in CRATES:
            text = BLOCK.sub("", (crate / "README.md").read_text(encoding="utf-8"))
            found = {quoted for quoted in QUOTED.findall(text) if re.fullmatch("[A-Z][A-Z_]+", quoted)}
            self.assertEqual(found - self.words[crate.name] - PLACES, set(), crate.name)

    def test_exports_stand_in_the_readme(self) -> None:
        for crate in CRATES:
            text = (crate / "README.md").read_text(encoding="utf-8")
            left_out = [name for name in exports_of(crate) if not re.search(rf"\b{name}\b", text)]
            self.assertEqual(sorted(left_out), [], crate.name)


class Counted(unittest.TestCase):
    def test_what_is_never_reached(self) -> None:
        libraries = [path for crate in CRATES if not crate.name.startswith("test_") for path in own_files(crate)
                     if path.suffix == ".rt" and path.relative_to(crate).parts[0] == "src"]
        count = sum(path.read_text(encoding="utf-8").count("unreachable!()") for path in libraries)
        said = re.search(r"`unreachable!\(\)` is in (\d+) places", (TOP / "docs" / "DECISIONS.md").read_text())
        assert said is not None
        self.assertEqual(int(said[1]), count)

    def test_public_functions_without_a_contract(self) -> None:
        """Their number, and how many of them each crate has that PROOFS.md names."""
        found: dict[str, int] = {}
        for crate in CRATES:
            for path in [] if crate.name.startswith("test_") else sorted((crate / "src").rglob("*.rt")):
                text = path.read_text(encoding="utf-8")
                for match in re.finditer(r"^ *pub (?:const )?fn \w+", text, re.M):
                    if "ensures" not in re.split(r"\n *\{|\{\n|;\n", text[match.start():], maxsplit=1)[0]:
                        found[crate.name] = found.get(crate.name, 0) + 1
        text = " ".join((TOP / "docs" / "PROOFS.md").read_text(encoding="utf-8").split())
        said = re.search(r"is exact, but for (\d+), which have none\. (\w+) are of `sqs_shell`", text)
        assert said is not None
        self.assertEqual((int(said[1]), said[2]), (sum(found.values()), NUMBERS[found["sqs_shell"]]))

    def test_the_order_of_reading(self) -> None:
        """Each file of the table in PROOFS.md uses only those before it, and none of another file of definitions."""
        text = (TOP / "docs" / "PROOFS.md").read_text(encoding="utf-8")
        table = [line.split("|")[2] for line in text.split("## What to read in order")[1].split("## The properties")[0]
                 .splitlines() if line.startswith("|")][2:]
        crate, before = "", set[str]()
        for name, file in re.findall(r"`(\w+)`: |(\w+) \d+", " ".join(table)):
            crate = name or crate
            if file:
                path = TOP / "crates" / crate / "specs" / f"{file}.antt"
                used = re.findall(r"use Rattle\.(\w+)\.specs\.(\w+)", path.read_text(encoding="utf-8"))
                mine = {f"{of}/{it}" for of, it in used if (TOP / "crates" / of / "specs" / f"{it}.antt").exists()}
                self.assertEqual(mine - before, set(), f"{crate}/{file}")
                before.add(f"{crate}/{file}")
        self.assertGreater(len(before), 50)

    def test_each_document_ends_with_a_line_end(self) -> None:
        for path in [*TOP.glob("*.md"), *(TOP / "docs").glob("*.md"), *(crate / "README.md" for crate in CRATES)]:
            self.assertTrue(path.read_bytes().endswith(b"\n"), path)
