"""Makes bash completions from the help texts that helps.py reads. tools/package imports it; it is not a command."""
from __future__ import annotations

import os
import re
from collections import defaultdict
from collections.abc import Mapping
from typing import Optional

import helps
from rehearse_tools.console import read_text

# Words and options by their kinds; those of None take nothing.
Words = defaultdict[Optional[str], set[str]]

OPTION = re.compile(r"(?<![\w-])(--[a-z][a-z0-9-]*)(?: ([^\s\[\]]+))?")
# What an option takes as prose names it; and what stands for a file.
STANDS_FOR = re.compile(r"[A-Z]+(\.[a-z]+)?")
OF_FILES = re.compile(r"FILE|P|.*\.[a-z]+")
FIRST_WORD = re.compile(r" ([a-z]+)(?![\w./])")
# The script, with the places for the words of all commands and for their names.
SCRIPT = os.path.join(os.path.dirname(os.path.abspath(__file__)), "completions.bash")


def kind_of(option: str, value: str) -> str | None:
    """Whether an option takes files, folders, queues or something else; None if it takes nothing."""
    if option == "--queue":
        return "queues"
    if value == "DIR":
        return "folders"
    return None if not value else "files" if OF_FILES.fullmatch(value) else "others"


def prose_in(block: helps.Block) -> list[str]:
    """The prose of a block."""
    return [] if block.kind == "commands" else [block.lead, *map(" ".join, block.rows)]


def commands_in(block: helps.Block, own: str) -> list[str]:
    """The options and words after a tool's command in a block, and the terms that are options, with their values."""
    if block.kind == "commands":
        return [row.partition(own)[2] for row in block.rows]
    quoted = [text for prose in prose_in(block) for text in helps.QUOTED.findall(prose)]
    return [*(text.removeprefix(own) for text in quoted if text.startswith(own)),
            *(term for term, _ in block.rows if term.startswith("-"))]


def of_tool(name: str, text: str) -> Words:
    """The words and options of a tool by their kinds. Prose names options of other programs too, so an option in prose
    counts only with what it takes, as --groups N."""
    found: Words = defaultdict(set, {"options": {"--help"}})
    for block in helps.blocks_of(text):
        commands = commands_in(block, f"tools/{name}")
        found["words"] |= {match[1] for command in commands if (match := FIRST_WORD.match(command))}
        options = [pair for command in commands for pair in OPTION.findall(command)]
        options += [pair for prose in prose_in(block) for pair in OPTION.findall(helps.QUOTED.sub("", prose))
                    if STANDS_FOR.fullmatch(pair[1].rstrip(".,;:"))]
        for option, value in options:
            found["options"].add(option)
            found[kind_of(option, "" if value.startswith("--") else value)].add(option)
    return found


def of_word(text: str) -> Words:
    """The options of a word of the program by their kinds."""
    found: Words = defaultdict(set)
    for block in helps.blocks_of(text):
        for term, text in block.rows if block.lead == "Options:" else ():
            option, value = re.findall(r"(--[a-z][a-z0-9-]*)( <)?", term)[0]
            kind = "files" if re.search(r"\bfile\b", text) else "folders" if "folder" in text else "others"
            found["options"].add(option)
            found[kind if value else None].add(option)
    return found


def case_of(command: str, found: Words) -> str:
    """The line of the script for a command."""
    lists = (f"{kind}='{' '.join(sorted(found[kind]))}'" for kind in ("words", "options", "files", "folders", "queues",
                                                                     "others") if found[kind])
    return f"    {command}) {' '.join(lists)} ;;"


def script(help_of: helps.Texts, tools: Mapping[str, str]) -> str:
    """The script for the program and its tools, from their help texts, which manual.page_of_program takes too."""
    first, _, words = help_of
    options = {"--help", "--version", *re.findall(r"(?<![\w-])--[a-z][a-z0-9-]*", first)}
    top: Words = defaultdict(set, {"words": {*words, *tools}, "options": options})
    cases = [("''", top), *((word, of_word(text)) for word, text in words.items()),
             *((name, of_tool(name, text)) for name, text in tools.items())]
    names = ["sqs_rehearse", *(f"sqs_rehearse-{name}" for name in tools)]
    text = read_text(SCRIPT).replace("%WORDS%", "\n".join(case_of(*case) for case in cases))
    return text.replace("%NAMES%", " ".join(names))
