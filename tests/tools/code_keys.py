"""The keys of a scenario as the reader's code has them: each is read in one line, with its type, range and default."""
from __future__ import annotations

import os
import re
from collections.abc import Iterator

from tool import ROOT, text_at
from rehearse_tools.keys import (ITEMS, NUMBER, NUMBER_OR_NUMBERS, NUMBERS, QUANTILES, REQUIRED, STEPS, STRETCHES,
                                 TABLES, TEXT, TEXT_OR_TEXTS, TRUTH, WEIGHTS, Key)

SOURCES = os.path.join(ROOT, "crates", "sim_scenario", "src")
# A function of a file, or of an implementation of a trait for a type.
FUNCTION = re.compile(r"\n( *)(?:pub(?:\(crate\))? )?fn (\w+).*?\n\1}|\nimpl[^\n]* for (\w+)", re.DOTALL)
# A key that is read, or a function of the reader that reads others.
READ = re.compile(
    r'(?:section|newer)\s*\.(required|optional|maybe)\(\s*"(\w+)",\s*&(\w+)(?:\(((?:[^()]|\([^()]*\))*)\)|\s*{[^}]*})?(?:,\s*([\w:]+))?,?\s*\)|'
    r'section\s*\.(bounds)\(\s*"(\w+)",\s*"(\w+)",\s*([\d_]+)|'
    r'section\s*\.(required_list)\("(\w+)"\)|'
    r'(agent_list)\([^"()]*(?:\(\))?[^"()]*"(\w+)"\)|'
    r'\btime\(\s*\w+,\s*"(\w+)",\s*"(\w+)",\s*"(\w+)",\s*section,?\s*\)|'
    r'\b(queue_list|kind|policy|latency|sending|forward|calls|stopping|scaling|failing|serving|'
    r'gap|service|outages|'
    r'stretches_by|one_stretch|groups|target)\(')
# What the two bounds of a time have at most, and how many items a list has.
TIME = re.compile(r'section\.bounds\(low, high, ([\d_]+)\)')
ITEMS_IN = re.compile(r'list_of\(section, value, key, ([\d_]+), ([\d_]+), &\w+\)')
# One chance of all outages, or one of each: its range, and its default.
CHANCES = re.compile(r'fn one_for_all.*?Integer\(([\d_]+), ([\d_]+)\).*?unwrap_or\(([\d_]+)\)', re.DOTALL)
LIST = re.compile(r'(?:_KEYS: &\[&str\] = &\[|&\[)((?:\s*"\w+",?)+)\s*\]')
# The words of each list that a key's value may be one of.
WORDS = {"SCOPES": ("queue", "group"), "kinds": ("script", "producer", "consumer", "scaler"), "FAILURES": ("each", "whole"),
         "SERVINGS": ("each", "once"), "JITTERS": ("none", "full")}
# The keys whose values are the least values of others, by their names in the code; each may be 0.
LEAST = {"start": "start_ms", "from": "fails_from_ms", "least": "copies_min"}
# The types of values that are lists, by what the tables call them, with the files that read them.
LISTS_OF = {"WeightedGroups": (WEIGHTS, "groups.rt"), "Stretches": (STRETCHES, "outages.rt"),
            "KinQueues": (TEXT_OR_TEXTS, "named.rt"), "Steps": (STEPS, "targets.rt")}
# The functions that several files use, with their files.
SHARED = {"latency": "queues.rt", "stopping": "producers.rt", "outages": "outages.rt", "stretches_by": "outages.rt",
          "one_stretch": "outages.rt", "target": "targets.rt"}


def functions(file: str) -> dict[str, str]:
    """The bodies of the functions in a file of the reader. Methods of a trait are named as `Queues::read`."""
    text = text_at(SOURCES, file)
    found, owner = {}, ""
    for match in FUNCTION.finditer(text):
        indent, name, type_ = match.groups()
        if type_:
            owner = type_
        else:
            found[f"{owner}::{name}" if indent else name] = match.group(0)
    return found


def number(text: str) -> int | None:
    digits = text.replace("_", "")
    return int(digits) if digits.isdigit() else None


def default_of(how: str, type_: str, text: str | None) -> int | str | None:
    """A default, in the unit of the key."""
    if how != "optional" or text is None:
        return REQUIRED if how == "required" else None
    value = number(text)
    if value is not None:
        return value // 1000 if type_ == "Seconds" else value
    return {"true": True, "false": False}.get(text, text.split("::")[-1].lower())


def key_of(how: str, name: str, type_: str, bounds: str | None, text: str | None) -> Key:
    default = default_of(how, type_, text)
    if type_ in LISTS_OF:
        kind, file = LISTS_OF[type_]
        return Key(name, kind, *items_in(file), default=default)
    if name == "fails_permille":
        chances = CHANCES.search(text_at(SOURCES, "outages.rt"))
        assert chances
        return Key(name, NUMBER_OR_NUMBERS, *map(number, chances.groups()))
    if type_ == "Boolean":
        return Key(name, TRUTH, default=default)
    words = [bound.strip() for bound in (bounds or "").split(",")]
    numbers = [number(word) for word in words]
    if type_ == "Integers":
        assert ITEMS[name] == (numbers[2], numbers[3]), name
        return Key(name, NUMBERS, numbers[0], numbers[1])
    if type_ == "SizedText":
        return Key(name, TEXT, numbers[0], numbers[1], default)
    if type_ not in ("Integer", "Count", "Seconds"):
        return Key(name, TEXT, default=default, words=WORDS.get(words[0]))
    least = LEAST.get(words[0])
    return Key(name, NUMBER, 0 if least else numbers[0], numbers[1], default, least=least)


def items_in(file: str) -> tuple[int | None, int | None]:
    """How many items the list has that a file reads."""
    items = ITEMS_IN.search(text_at(SOURCES, file))
    assert items
    return number(items[1]), number(items[2])


def times_of(quantiles: str, low: str, high: str) -> Iterator[Key]:
    """The keys of a time: quantiles, or two bounds."""
    most = TIME.search(text_at(SOURCES, "distributions.rt"))
    assert most
    yield Key(quantiles, QUANTILES, *items_in("distributions.rt"))
    yield Key(low, NUMBER, 1, number(most[1]), REQUIRED)
    yield Key(high, NUMBER, 1, number(most[1]), REQUIRED, least=low)


def keys_in(body: str, others: dict[str, str]) -> Iterator[Key]:
    """The keys that a function reads, in order, with those of the functions that it calls."""
    for match in READ.finditer(body[body.index("{"):]):
        (how, name, type_, bounds, default, pair, low, high, most, _, several, _, agents, quantiles, least, greatest,
         call) = match.groups()
        if how:
            yield key_of(how, name, type_, bounds, default)
        elif pair:
            yield Key(low, NUMBER, 1, number(most), REQUIRED)
            yield Key(high, NUMBER, 1, number(most), REQUIRED, least=low)
        elif several:
            yield Key(several, TABLES, default=REQUIRED)
        elif agents:
            yield Key(agents, TABLES)
        elif quantiles:
            yield from times_of(quantiles, least, greatest)
        elif call in others and f"fn {call}" not in body:
            yield from keys_in(others[call], others)


def code_keys(file: str, function: str) -> list[Key]:
    """The keys of a table, which a function in a file reads."""
    others = {**{name: functions(at)[name] for name, at in SHARED.items()}, **functions(file)}
    return list(keys_in(others[function], others))


def newest_versions() -> list[int]:
    """The newest versions that may be read, without and with the word for it."""
    return [int(it) for it in re.findall(r"Newest::\w+ => (\d+),", text_at(SOURCES, "draft.rt"))]


def listed_keys(*files: str) -> set[str]:
    """The keys that the tables of some files may have, as they are listed there."""
    return {name for file in files for match in LIST.finditer(text_at(SOURCES, file))
            for name in re.findall(r'"(\w+)"', match.group(1))}
