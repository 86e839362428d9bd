"""Reads a scenario, changes settings of it, and writes it. The tools import it; it is not a command."""
from __future__ import annotations

import copy
import datetime
import fnmatch
import json
import re
from collections.abc import Mapping
from typing import Any

from .console import Fault, read_text, toml_of
from .scripts import NAME as SCRIPT_NAME

LISTS = ("queue", "actor", "task")
COPIES_MOST = 10_000
BARE_KEY = re.compile("[A-Za-z0-9_-]+")
WHOLE_NUMBER = re.compile("[+-]?[0-9]{1,30}")


def parsed(text: str, path: str) -> dict[str, Any]:
    """The tables of a scenario's text, as the program finds them."""
    try:
        return toml_of(text.removeprefix("\ufeff"))
    except (ValueError, RecursionError) as error:
        reason = "it is nested too deep" if isinstance(error, RecursionError) else error
        raise Fault(f"{path} is no TOML: {reason}") from None


def scenario_at(path: str) -> dict[str, Any]:
    """The scenario in a file, or on standard input if the path is -."""
    return parsed(read_text(path), path)


def items_of(scenario: Mapping[str, Any], of: str) -> list[dict[str, Any]]:
    """The tables of a list of a scenario. Anything else in the list, which the program refuses, is skipped."""
    found = scenario.get(of, [])
    return [item for item in found if isinstance(item, dict)] if isinstance(found, list) else []


def scripts_in(scenario: Mapping[str, Any]) -> list[str]:
    """The scripts that a scenario names, in its order. The program refuses what can be no name of one."""
    names = [actor["script"] for actor in items_of(scenario, "actor") if isinstance(actor.get("script"), str)]
    return list(filter(SCRIPT_NAME.fullmatch, dict.fromkeys(names)))


def names_of(scenario: Mapping[str, Any], of: str) -> list[str]:
    return [item["name"] for item in items_of(scenario, of) if isinstance(item.get("name"), str)]


def ways_of(scenario: Mapping[str, Any]) -> frozenset[tuple[str, str]]:
    """From which queue to which messages may go, by redrives, forwards and moves. A task without a destination brings
    each message back to where it came from."""
    redrives = [(queue.get("name"), queue.get("dead_letter")) for queue in items_of(scenario, "queue")]
    forwards = [(actor.get("queue"), to) for actor in items_of(scenario, "actor") for to in forwards_of(actor)]
    moves = [(task.get("queue"), to) for task in items_of(scenario, "task") for to in (
        [task["to"]] if "to" in task else [name for name, dead in redrives if dead == task.get("queue")])]
    return frozenset((start, to) for start, to in (*redrives, *forwards, *moves)
                     if isinstance(start, str) and isinstance(to, str))


def forwards_of(actor: Mapping[str, Any]) -> list[Any]:
    """The queues to which an actor forwards each message: one, or those of a list."""
    to = actor.get("forward", [])
    return to if isinstance(to, list) else [to]


def names_of_agents(actor: Mapping[str, Any]) -> list[str]:
    """The name of an actor, or those of its copies."""
    name, copies = actor.get("name"), actor.get("copies")
    if not isinstance(name, str):
        return []
    return [f"{name}-{number}" for number in range(1, copies + 1)] if isinstance(copies, int) else [name]


def consumers_of(scenario: Mapping[str, Any]) -> dict[str, list[str]]:
    """The names of the consumers of each queue whose rows say how long they are busy. A consumer that gathers messages
    holds some before it begins to serve, which no row says."""
    found: dict[str, list[str]] = {}
    for actor in items_of(scenario, "actor"):
        if actor.get("kind") == "consumer" and isinstance(actor.get("queue"), str) and not actor.get("gather_ms"):
            found.setdefault(actor["queue"], []).extend(names_of_agents(actor))
    return found


def text_of_string(text: str) -> str:
    """A string in TOML's double quotes; JSON's escapes are also TOML's, which wants one more."""
    return json.dumps(text, ensure_ascii=False).replace("\x7f", "\\u007F")


def text_of_key(key: str) -> str:
    return key if BARE_KEY.fullmatch(key) else text_of_string(key)


def text_of_value(value: Any) -> str:
    """A value in TOML, in one line."""
    if isinstance(value, bool):
        return "true" if value else "false"
    if isinstance(value, str):
        return text_of_string(value)
    if isinstance(value, list):
        return "[" + ", ".join(map(text_of_value, value)) + "]"
    if isinstance(value, dict):
        return "{" + ", ".join(f"{text_of_key(key)} = {text_of_value(item)}" for key, item in value.items()) + "}"
    if isinstance(value, (datetime.date, datetime.time)):
        return value.isoformat()
    return str(value)


def lines_of_table(table: Mapping[str, Any]) -> list[str]:
    return [f"{text_of_key(key)} = {text_of_value(value)}" for key, value in table.items()]


def text_of_table(of: str, keys: Mapping[str, Any]) -> str:
    """A table of a list of a scenario."""
    return "\n".join([f"[[{of}]]", *lines_of_table(keys), ""])


def written(scenario: Mapping[str, Any]) -> str:
    """The text of a scenario: its top keys, then a table for each item of its lists."""
    is_list = {key: isinstance(value, list) and value != [] and all(isinstance(item, dict) for item in value)
               for key, value in scenario.items()}
    lines = lines_of_table({key: value for key, value in scenario.items() if not is_list[key]})
    for key, value in scenario.items():
        for item in value if is_list[key] else ():
            lines += ["", f"[[{text_of_key(key)}]]", *lines_of_table(item)]
    return "\n".join(lines) + "\n"


def list_of(word: str) -> list[Any] | None:
    """The list that a word is, as TOML has it, or None."""
    try:
        found = toml_of(f"word = {word}")["word"]
    except (ValueError, RecursionError):
        return None
    return found if isinstance(found, list) else None


def value_of(word: str) -> int | str | list[Any]:
    """The value of a setting's word: a whole number, true, false, a list, or a text, which may be in double quotes."""
    if WHOLE_NUMBER.fullmatch(word):
        return int(word)
    found = list_of(word) if word.startswith("[") else None
    if found is not None:
        return found
    if word in ("true", "false"):
        return word == "true"
    if re.fullmatch(r'"[^"]*"', word):
        return str(parsed(f"word = {word}", word)["word"])
    return word


class Setting:
    """A part of a scenario that can be set. It is a key at the top, such as seed; a key of a table, such as
    queue.orders.delay_s, or of all whose names match a name with asterisks, such as actor.worker-*.batch; or
    count.NAME, how many copies of an actor's table there are."""

    def __init__(self, path: str) -> None:
        self.path = path
        self.of, _, rest = path.partition(".") if "." in path else ("", "", path)
        self.name, _, self.key = (rest, ".", "count") if self.of == "count" else rest.rpartition(".")
        if self.of not in ("", "count", *LISTS) or bool(self.of) != bool(self.name) \
                or not re.fullmatch("[a-z_]+", self.key):
            raise Fault(f"{path} is no setting, as seed, queue.NAME.KEY, actor.NAME.KEY, task.NAME.KEY or count.NAME")

    @property
    def is_count(self) -> bool:
        return self.of == "count"

    def put(self, scenario: dict[str, Any], word: str) -> int:
        """Sets the setting to a word; returns in how many tables."""
        if not self.of:
            scenario[self.key] = value_of(word)
            return 1
        tables = [item for item in items_of(scenario, self.of)
                  if isinstance(item.get("name"), str) and fnmatch.fnmatchcase(item["name"], self.name)]
        for table in tables:
            table[self.key] = value_of(word)
        return len(tables)

    def copy_actor(self, scenario: dict[str, Any], word: str) -> None:
        """Replaces the actor's table by copies with the names NAME-1, NAME-2 and so on: the first in its place, the
        others after all actors. So the number of every other actor, and with it what is random of it, stays as it
        is."""
        if not re.fullmatch("[0-9]{1,5}", word) or not 1 <= int(word) <= COPIES_MOST:
            shown = word if len(word) < 30 else word[:30] + ".."
            raise Fault(f"{self.path} of {shown} is no number of copies, which has 1 to {COPIES_MOST}")
        if self.name not in names_of(scenario, "actor"):
            raise Fault(f"the scenario has no table [[actor]] with the name {self.name}")
        actors, others = [], []
        for actor in scenario["actor"]:
            if isinstance(actor, dict) and actor.get("name") == self.name:
                others += [{**actor, "name": f"{self.name}-{number}"} for number in range(2, int(word) + 1)]
                actor = {**actor, "name": f"{self.name}-1"}
            actors.append(actor)
        scenario["actor"] = actors + others


def varied(scenario: dict[str, Any], words: Mapping[Setting, str]) -> dict[str, Any]:
    """A scenario with each setting of `words` put to its word; actors are copied after what names them is set."""
    scenario = copy.deepcopy(scenario)
    places = {setting: 0 if setting.is_count else setting.put(scenario, word) for setting, word in words.items()}
    for setting, word in words.items():
        if setting.is_count:
            setting.copy_actor(scenario, word)
    for setting, word in words.items():
        if not setting.is_count and not places[setting] + setting.put(scenario, word):
            raise Fault(f"the scenario has no table [[{setting.of}]] with the name {setting.name}")
    return scenario
