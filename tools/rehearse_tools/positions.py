"""The positions of a scenario's keys and values in its text. tools/explain imports it; it is not a command.

A reader of TOML has accepted the text, so it is enough to find where keys and values end.
"""
from __future__ import annotations

import json
import re
from typing import Union

SPACE = re.compile(r"(?:[ \t\r\n]|#[^\n]*)*")
BARE_KEY = re.compile(r"[A-Za-z0-9_-]+")
BARE_VALUE = re.compile(r"[^\s,\]}#]+(?: [0-9][^\s,\]}#]*)?")
SHORT_STRING = re.compile(r'''"(?:[^"\\\n]|\\.)*"|'[^'\n]*\'''')
ENDS_OF_LONG_STRINGS = {'"""': re.compile(r'\\.|("{3,5})', re.S), "'''": re.compile("('{3,5})")}

# The keys and numbers that lead to a value, as ("queue", 0, "name").
Path = tuple[Union[str, int], ...]


class Lost(Exception):
    """No reader of TOML accepts the text."""


class Positions:
    """The positions of keys and values, by their paths, such as ("queue", 0, "name"): where each key begins and each
    value is.

    A table of a list has its header, or the brace that opens it, as its value.
    """

    def __init__(self, text: str) -> None:
        self.text = text
        self.keys: dict[Path, int] = {}
        self.values: dict[Path, tuple[int, int]] = {}
        self.counts: dict[Path, int] = {}
        try:
            self.read()
        except (IndexError, RecursionError):
            raise Lost from None

    def read(self) -> None:
        text = self.text
        prefix: Path = ()
        at = self.after_space(1 if text.startswith("\ufeff") else 0)
        while at < len(text):
            if text[at] == "[":
                prefix, at = self.header(at)
            else:
                at = self.pair(prefix, at)
            at = self.after_space(at)

    def after_space(self, at: int) -> int:
        space = SPACE.match(self.text, at)
        return space.end() if space else at

    def header(self, at: int) -> tuple[Path, int]:
        """A header of a table; gives the path of what follows."""
        start, is_list = at, self.text.startswith("[[", at)
        words, at = self.key(at + (2 if is_list else 1))
        path: Path = ()
        for place, word in enumerate(words):
            path += (word,)
            if place < len(words) - 1 and path in self.counts:
                path += (self.counts[path] - 1,)
        if is_list:
            self.counts[path] = self.counts.get(path, 0) + 1
            path += (self.counts[path] - 1,)
        at = self.text.index("]", at) + (2 if is_list else 1)
        self.keys.setdefault(path, start)
        self.values[path] = start, at
        return path, at

    def pair(self, prefix: Path, at: int) -> int:
        """Reads a key and its value; returns where they end."""
        start = at
        words, at = self.key(at)
        if self.text[at] != "=":
            raise Lost
        path = (*prefix, *words)
        for length in range(len(prefix) + 1, len(path) + 1):
            self.keys.setdefault(path[:length], start)
        return self.value(path, self.after_space(at + 1))

    def key(self, at: int) -> tuple[list[str], int]:
        """The words of a key, which may have dots, and where the text after it begins."""
        words: list[str] = []
        while True:
            at = self.after_space(at)
            if self.text[at] in "\"'":
                end = self.string_end(at)
                words.append(string_value(self.text[at:end]))
            else:
                match = BARE_KEY.match(self.text, at)
                if not match:
                    raise Lost
                words, end = [*words, match[0]], match.end()
            at = self.after_space(end)
            if self.text[at] != ".":
                return words, at
            at += 1

    def value(self, path: Path, at: int) -> int:
        start, text = at, self.text
        if text[at] in "\"'":
            at = self.string_end(at)
        elif text[at] == "[":
            at, number = self.after_space(at + 1), 0
            while text[at] != "]":
                at, number = self.after_comma(self.value((*path, number), at)), number + 1
            at += 1
        elif text[at] == "{":
            at = self.after_space(at + 1)
            while text[at] != "}":
                at = self.after_comma(self.pair(path, at))
            at += 1
        else:
            match = BARE_VALUE.match(text, at)
            if not match:
                raise Lost
            at = match.end()
        self.values[path] = start, at
        self.keys.setdefault(path, start)
        return at

    def after_comma(self, at: int) -> int:
        at = self.after_space(at)
        return self.after_space(at + 1) if self.text[at] == "," else at

    def string_end(self, at: int) -> int:
        for mark, ends in ENDS_OF_LONG_STRINGS.items():
            if self.text.startswith(mark, at):
                found = next((match for match in ends.finditer(self.text, at + 3) if match[1]), None)
                break
        else:
            found = SHORT_STRING.match(self.text, at)
        if not found:
            raise Lost
        return found.end()

    def line_and_column(self, at: int) -> tuple[int, int]:
        """The line and the column of a position, both from 1; a byte order mark does not count."""
        start = self.text.rfind("\n", 0, at) + 1
        mark = 1 if start == 0 and self.text.startswith("\ufeff") else 0
        return self.text.count("\n", 0, at) + 1, at - start + 1 - mark

    def line_at(self, at: int) -> str:
        """The text of the line of a position."""
        start = self.text.rfind("\n", 0, at) + 1
        end = self.text.find("\n", at)
        return self.text[start:end if end >= 0 else len(self.text)].strip("\ufeff\r")


def string_value(quoted: str) -> str:
    """What a short string in quotes says."""
    if quoted[0] == "'":
        return quoted[1:-1]
    short = re.sub(r"\\U([0-9A-Fa-f]{8})", lambda match: json.dumps(chr(int(match[1], 16)))[1:-1], quoted)
    try:
        return str(json.loads(short, strict=False))
    except ValueError:
        raise Lost from None
