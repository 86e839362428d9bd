"""Runs the sessions of sessions/, which are commands of the tools with what these print; its README says how they read."""
import os
import re
import shlex
import unittest
from typing import NamedTuple

from tool import HEADER, HERE, MD5, PROGRAM, ROOT, ToolCase, ended, module_at, needs_program, ran, text_at

MARK = re.compile(r"(file|ended|\$|[|!=?+\\-])(?: (.*))?")
STORED = re.compile(r"(\S+)(?: lines (\d+)-(\d*))?")
PROGRESS = re.compile("^sweep: .* variants run, .*\n", re.M)
is_printed = module_at(os.path.join(ROOT, "tests", "questions"), "questions").is_printed


class Step(NamedTuple):
    """A file or a command, by their marks the lines that are said of it, and pairs of lines of which the second ones take
    the place of the first."""

    mark: str
    words: list
    said: dict
    edits: list

    def say(self, mark, line):
        if mark == "-" and (not self.edits or self.edits[-1][1]):
            self.edits.append(([], []))
        (self.edits[-1]["-+".index(mark)] if mark in "-+" else self.said[mark]).append(line)

    def text(self, folder):
        """The text of the lines, behind those of files that are named, with what is replaced in it."""
        text = "".join(stored_text(folder, *STORED.fullmatch(line).groups()) for line in self.said["="])
        text += "".join(f"{line}\n" for line in self.said["|"])
        for lines, new in self.edits:
            old = "\n".join(lines) + "\n" * (not new)
            assert old in text, old
            text = text.replace(old, "\n".join(new))
        return text.removesuffix("\n") if self.said["\\"] else text


def stored_text(folder, name, first, last):
    """The text of a file of a session's folder or else of the tests' one, or of some of its lines."""
    text = text_at(folder if os.path.exists(os.path.join(folder, name)) else HERE, name)
    return text if first is None else "".join(text.splitlines(True)[int(first) - 1:int(last) if last else None])


def sessions_in(path):
    """The steps of each session of a file, by its title. What stands before the first title is shared by all."""
    shared, found = [], {}
    steps = shared
    for line in text_at(path).split("\n"):
        match = MARK.fullmatch(line)
        if line.startswith("# "):
            steps = found[line.removeprefix("# ")] = [*shared]
        elif match and match[1] in ("file", "ended", "$"):
            steps.append(Step(match[1], shlex.split(match[2]), {mark: [] for mark in "|!=?\\"}, []))
        elif match:
            steps[-1].say(match[1], match[2] or "")
        else:
            assert not line or len(steps) == (0 if steps is shared else len(shared)), f"{path}: no mark: {line}"
    for title, steps in found.items():
        assert any(step.mark == "$" for step in steps), f"{path}: no command: {title}"
    return found


@needs_program
class Sessions(ToolCase):
    def write_file(self, step):
        name, *queues = step.words
        text = step.text(self.folder)
        if text.startswith(HEADER):
            text = text.replace(",,x\n", f",,{MD5}\n")
        path = self.write(name, ended(text, queues=queues) if step.mark == "ended" else text)
        os.chmod(path, 0o755)

    def run_step(self, step):
        """Runs a command, and compares its status and both its outputs."""
        words, environment = [*step.words], {}
        while "=" in words[0]:
            name, _, environment[name] = words.pop(0).partition("=")
        if os.path.exists(self.path("program")):
            environment.setdefault("SQS_REHEARSE", self.path("program"))
        words = [word.replace("examples/", f"{ROOT}/examples/") for word in words]
        if words[0] == "cat":
            found = 0, self.read(words[1]).decode(), ""
        elif words[0] in ("run", "check"):
            found = ran([PROGRAM, *words], cwd=self.folder)
        elif words[-2:-1] == ["<"]:
            found = self.run_command(*words[:-2], stdin=self.read(words[-1]).decode(), **environment)
        else:
            found = self.run_tool(*words, **environment)
        wanted = int("".join(step.said["?"]) or 0), step.text(self.folder), "".join(f"{line}\n" for line in step.said["!"])
        if "variants run" not in wanted[2]:
            found = *found[:2], PROGRESS.sub("", found[2])
        is_so = found[0] == wanted[0] and all(map(is_printed, wanted[1:], found[1:]))
        self.assertTrue(is_so, f"{words}: {found}, not {wanted}")

    def run_session(self, steps):
        for step in steps:
            if step.mark == "$":
                self.run_step(step)
            else:
                self.write_file(step)


def load_tests(loader, tests, pattern):
    """A test for each session, by the name of its file and its title."""
    folder = os.path.join(HERE, "sessions")
    for name in sorted(name for name in os.listdir(folder) if name.endswith(".txt")):
        for title, steps in sessions_in(os.path.join(folder, name)).items():
            method = f"test_{name}_{title}".replace(" ", "_").replace(".txt", "")
            setattr(Sessions, method, lambda self, steps=steps: self.run_session(steps))
            tests.addTest(Sessions(method))
    return tests


if __name__ == "__main__":
    unittest.main()
