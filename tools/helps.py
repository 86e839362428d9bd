"""Reads the help texts of the tools and of the program as blocks. manual.py and completions.py import it; it is not a
command.

Empty lines separate the blocks. Commands are indented by four spaces; a line indented by eight continues the one above.
A list has terms, each with its explanation after it, whose next lines keep its column. All else is a paragraph.
"""
from __future__ import annotations

import ast
import os
import re
from collections.abc import Mapping, Sequence
from typing import Any, NamedTuple

from rehearse_tools.console import TOOLS, read_text

COMMAND_INDENT, CONTINUES_FROM = 4, 8
QUOTED = re.compile(r"`([^`]*)`")
# The help texts of ./sqs_rehearse, of the program itself, and of its words by name.
Texts = tuple[str, str, Mapping[str, str]]


class Block(NamedTuple):
    """A part of a help text.

    `kind` is paragraph, commands or list. `lead` is the text of a paragraph, or the line with a colon above a list.
    `rows` are the commands, or pairs of a term and its explanation.
    """

    kind: str
    lead: str
    rows: list[Any]


def source_of(name: str) -> str:
    """The path of the file that has a tool: its module, or its script in tools/."""
    module = os.path.join(TOOLS, "rehearse_tools", f"{name.replace('-', '_')}.py")
    return module if os.path.exists(module) else os.path.join(TOOLS, name)


def text_of(name: str) -> str:
    """The help text of a tool, with which its file begins: a docstring of Python, or a comment of bash."""
    path = source_of(name)
    text = read_text(path)
    if path.endswith(".py"):
        return (ast.get_docstring(ast.parse(text), clean=False) or "").strip()
    comment = re.match(r"#!.*\n((?:#.*\n)+)", text)
    return re.sub(r"^# ?", "", comment[1] if comment else "", flags=re.MULTILINE).strip()


def purpose_of(text: str) -> str:
    """What a tool does, by the first sentence of its help text, as a manual page and a list have it."""
    line = re.sub(r":  .*", "", text.split("\n", 1)[0]).rstrip(":. ")
    return line[:1].lower() + line[1:]


def blocks_of(text: str) -> list[Block]:
    """The blocks of a help text. A command in its first line, as in the tools in bash, is a block too."""
    text = re.sub(r"\A(.*:)  (\S.*)\n?", r"\1\n\n    \2\n\n", text.strip("\n"))
    return [block_of(part.splitlines()) for part in re.split(r"\n{2,}", text.rstrip())]


def block_of(lines: list[str]) -> Block:
    if all(indent_of(line) >= COMMAND_INDENT for line in lines):
        return Block("commands", "", commands_of(lines))
    has_lead = len(lines) > 1 and lines[0].endswith(":") and not is_list(lines[:1]) and is_list(lines[1:])
    lead, lines = (lines[0], lines[1:]) if has_lead else ("", lines)
    if is_list(lines):
        return Block("list", lead, rows_of(lines))
    return Block("paragraph", " ".join(lines), [])


def indent_of(line: str) -> int:
    return len(line) - len(line.lstrip())


def is_list(lines: Sequence[str]) -> bool:
    """Whether a line is indented, or has a gap between a term and its explanation."""
    return any(line.startswith(" ") or "  " in line.strip() for line in lines)


def commands_of(lines: Sequence[str]) -> list[str]:
    """The commands, each in one line; a line of a loop of the shell keeps its indent."""
    commands: list[str] = []
    for line in lines:
        if commands and indent_of(line) >= CONTINUES_FROM:
            commands[-1] += " " + line.strip()
        else:
            commands.append(line[COMMAND_INDENT:])
    return commands


def rows_of(lines: Sequence[str]) -> list[list[str]]:
    """The terms of a list, each with its explanation."""
    column = min((indent_of(line) for line in lines if indent_of(line) >= CONTINUES_FROM), default=None)
    rows: list[list[str]] = []
    for line in lines:
        if rows and indent_of(line) >= CONTINUES_FROM:
            rows[-1][1] += " " + line.strip()
        elif gap := re.match(r" *(\S.*?) {2,}(\S.*)", line):
            rows.append([gap[1], gap[2]])
        elif column and line[column - 1:column] == " ":
            rows.append([line[:column].strip(), line[column:]])
        else:
            rows.append([line.strip(), ""])
    return rows


def usage_of(text: str) -> str | None:
    """The usage in a help text of the program, or None."""
    return next((block.lead.removeprefix("Usage: ") for block in blocks_of(text) if is_usage(block)), None)


def is_usage(block: Block) -> bool:
    return block.kind == "paragraph" and block.lead.startswith("Usage: ")


def words_of(text: str) -> list[str]:
    """The program's words by its help text; the word for help is left out."""
    return [term for block in blocks_of(text) if block.lead == "Commands:" for term, _ in block.rows if term != "help"]
