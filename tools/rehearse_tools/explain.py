"""Says why the program refuses a scenario, and where in its text:

    tools/explain SCENARIO [--v3] [--scripts DIR] [--program P]

The first line has the file, line and column, and after them the program's own line. Below are the line of the text,
and in whole sentences what is wrong: which queue or actor it is, what the range is, which key or name was meant, which
other key belongs to it. - is standard input, and --scripts the folder of the scenario's scripts, as for the program.
With --v3 the program reads version 3 too, as `run --v3` does; --preview is its former name. The program is that of
--program, else of SQS_REHEARSE of the environment, else sqs_rehearse beside this folder. The status is 0 if the program
accepts the scenario, 1 if it refuses it, and 2 for any other fault.

Of a scenario that the program accepts the first line is that of `check`. Below are, for each queue with consumers, how
many messages a second are sent to it by producers and scripts, the mean service of each consumer, and the load: the
rate times the mean service, by the number of consumers. Further tries of a message are left out.

Examples:

    tools/explain examples/first.toml
    sed 's/horizon = .*/horizon = 0/' examples/first.toml | tools/explain -
"""
from __future__ import annotations

import difflib
import os
import re
import tempfile
from collections.abc import Iterator, Sequence
from typing import Any

from .console import Fault, Parser, print_text, read_bytes, read_text, shown, toml_of
from .fact_tables import rows_of
from .keys import (ACTORS, FIFO, ITEMS, NUMBER, NUMBER_OR_NUMBERS, REQUIRED, TABLES, TEXT, VERSION_3, VERSIONS, Key,
                   keys_of)
from .loads import text_of_loads
from .positions import Lost, Path, Positions
from .programs import program_of, ran, reading_words
from .scenarios import items_of, names_of, parsed, text_of_value as text_of
from .scripts import fault_of_script, nearest
from .units import several

REFUSED = re.compile(r"refused ([0-9]+) ([A-Za-z]+)(?: at (.*))?", re.S)
PLACE = re.compile(r"(queue|actor|task)\[([0-9]+)\](?:\.(.*))?", re.S)
RECORD = re.compile(r"(calls|script)(?::([0-9]+))?")
ITEM = re.compile(r"(\w+)\[([0-9]+)\]")
TOML_PLACE = re.compile(r"(.*) \(at (?:line ([0-9]+), column ([0-9]+)|end of document)\)")
KINDS = {str: "a text", bool: "true or false", int: "a whole number", float: "a number with a fraction", list: "a list",
         dict: "a table"}
NAMES = {"queue": "A queue's name has 1 to 80 ASCII letters, digits, - and _, and for a FIFO queue .fifo at its end, "
                  "which counts among the 80.",
         "actor": "A name has 1 to 80 ASCII letters, digits, - and _."}
# Of each kind of key that may be a list: what the list has, what an item of it is, and by which rule.
LISTS, ITEM_FORMS, ITEM_RULES = ({row["told"]: row[column] for row in rows_of("kinds") if row[column]}
                                 for column in ("list", "form", "rule"))
NAME_MOST = 80
COPIES_MOST = 1_000
# The kinds of actors that may have copies.
COPIED = ("producer", "consumer")
LINE_MOST = 160


class Scenario:
    """The text of a scenario, its contents and their positions, and the place of the error in it."""

    def __init__(self, text: str, place: str | None) -> None:
        self.text, self.positions = text, Positions("")
        self.found: dict[str, Any] = {}
        try:
            self.found = toml_of(text.removeprefix("\ufeff"))
            self.positions = Positions(text)
        except (ValueError, RecursionError, Lost):
            pass
        match = PLACE.fullmatch(place or "")
        self.of, self.number = (match[1], int(match[2])) if match else ("", 0)
        # a text, or None where the refusal is of a table as a whole
        self.key: Any = match[3] if match else place or ""
        self.table: Any = self.found
        if match:
            items = self.found.get(self.of, [])
            self.table = items[self.number] if isinstance(items, list) and self.number < len(items) else {}
        self.record: int | None = None
        found = RECORD.fullmatch(self.key or "")
        if match and found:
            self.key, self.record = found[1], int(found[2] or 0)
        # the number of an item of the list at the key, or None
        self.item: int | None = None
        found = ITEM.fullmatch(self.key or "")
        if match and found:
            self.key, self.item = found[1], int(found[2])
        self.is_table = isinstance(self.table, dict)

    @property
    def path(self) -> Path:
        head: Path = (self.of, self.number) if self.of else ()
        if self.key is None:
            return head
        path: Path = (*head, self.key)
        return path if self.item is None or (*path, self.item) not in self.positions.values else (*path, self.item)

    @property
    def kind(self) -> str | None:
        return self.value("kind") if isinstance(self.value("kind"), str) else None

    @property
    def version(self) -> int:
        found = self.found.get("version")
        return found if type(found) is int and found in VERSIONS else 1

    def value(self, key: str | None) -> Any:
        return self.table.get(key) if self.is_table else None

    def value_here(self) -> Any:
        """The value at the place of the fault: of the key, or of an item of its list."""
        value = self.value(self.key)
        if self.item is None or not isinstance(value, list):
            return value
        return value[self.item] if self.item < len(value) else ""

    def what_is_here(self) -> str:
        """What the fault is of, as it begins a sentence: a key of a table, or an item of its list."""
        of = f"{self.key} of {self.title()}"
        return of if self.item is None else f"Item number {self.item + 1} of {of}"

    def keys(self) -> dict[str, Key]:
        return {key.name: key for key in keys_of(self.of, self.kind, self.version)}

    @property
    def known(self) -> Key | None:
        """The key at the place of the fault, if its table may have it."""
        return self.keys().get(self.key)

    def is_fifo(self) -> bool:
        """Whether the queue, or the home of the actor or task, is a FIFO queue."""
        return str(self.value("name" if self.of == "queue" else "queue")).endswith(".fifo")

    def at_home(self, of: str) -> list[dict[str, Any]]:
        """The tables of actors or tasks that are at the home of the actor."""
        return [item for item in items_of(self.found, of) if item.get("queue") == self.value("queue")]

    def title(self) -> str:
        """The name of the table for messages: its kind and its name."""
        if not self.of:
            return "the scenario"
        name, kind = self.value("name"), self.kind if self.of == "actor" and self.kind in ACTORS else self.of
        return f"the {kind} {shown(name)}" if isinstance(name, str) else f"{kind} number {self.number + 1}"

    def offset(self, path: Path, is_value: bool = False) -> int | None:
        """The position in the text of a value or of its key, else of its table; None if that is not known."""
        if is_value and path in self.positions.values:
            return self.positions.values[path][0]
        for length in range(len(path), 0, -1):
            found = self.positions.keys.get(path[:length])
            if found is not None:
                return found
        return None


def unknown_key(scenario: Scenario) -> str:
    """A key that its table does not have: of another kind of queue, beside another key, or none at all."""
    key, title, found = scenario.key, scenario.title(), scenario.known
    if found and found.queues and (found.queues == FIFO) != scenario.is_fifo():
        what = "is" if scenario.of == "queue" else "is at"
        other = "a standard queue" if found.queues == FIFO else "a FIFO queue"
        return f"{key} is a key of {found.queues} queues alone, and {title} {what} {other}."
    if key in ("calls", "script") and found:
        return f"{title} has both calls and script; one of them is enough."
    if found and found.beside:
        return f"{key} stands only together with {' or '.join(found.beside)}, which {title} does not have."
    if found and key == "fail_service_ms":
        return f'{title} has batch_service = "once", beside which {key} stands only together with batch_fails = ' \
               '"whole".'
    for name, taking in scenario.keys().items():
        if key in taking.replaces and scenario.is_table and name in scenario.table:
            return f"{title} has both {key} and {name}; {name} takes its place."
    version = next((it for it in VERSIONS if key in {known.name for known in
                                                     keys_of(scenario.of, scenario.kind, it)}), scenario.version)
    if not found and version != scenario.version:
        latencies = "latency_ms" if scenario.version == 1 else "latency_min_ms and latency_max_ms"
        return f"{key} is a key of version {version}; version {scenario.version} has " \
               f"{latencies if key.startswith('latency_') else 'no such key'}."
    kinds = [kind for kind in ACTORS if key in {known.name for known in keys_of("actor", kind, scenario.version)}]
    if scenario.of == "actor" and kinds:
        return f"{key} is a key of a {' or '.join(kinds)}, and {title} is none."
    names = [name for name, found in scenario.keys().items()
             if not found.queues or (found.queues == FIFO) == scenario.is_fifo()]
    return f"{shown(key or '')} is no key of {title}; it has {', '.join(names)}.{nearest(key, names)}"


def missing_key(scenario: Scenario) -> str:
    """A key that has to be there, the one that may be there in its place, and one that may have been meant for it."""
    key, title, found, keys = scenario.key, scenario.title(), scenario.known, scenario.keys()
    if key == "calls":
        return f"{title} has neither calls nor script, and needs one of them."
    text = f"{title} has no {key}, which is required"
    if found and found.beside:
        text += f" beside {' or '.join(found.beside)}"
    if found and found.queues:
        text += f" at a {found.queues} queue"
    if not (found and found.beside):
        text += next((f"; {name} may be there in its place" for name in keys if key in keys[name].replaces), "")
    unknown = [name for name in scenario.table if name not in keys] if scenario.is_table else []
    near = difflib.get_close_matches(key, unknown, 1, 0.6)
    return f"{text}.{range_beside(scenario, found)}" + (f" Is {shown(near[0])} meant to be it?" if near else "")


def range_text(key: Key | None) -> str:
    if key is None:
        return ""
    if key.words:
        return f" It is {', '.join(key.words[:-1])} or {key.words[-1]}."
    if key.name == "version":
        return f" It is {VERSIONS[0]} or {VERSIONS[1]}, or {VERSION_3} for the word --v3."
    if key.kind in LISTS:
        each = ", each from {:,} to {:,}".format(*ITEMS[key.name]) if key.name in ITEMS else ""
        return f" It has {key.low:,} to {key.high:,} {LISTS[key.kind]}{each}."
    if key.kind == TEXT and key.high:
        return f" It has {key.low:,} to {key.high:,} bytes."
    if key.kind not in (NUMBER, NUMBER_OR_NUMBERS):
        return f" It is {key.kind}."
    default = "" if key.default in (None, REQUIRED) else f", and {key.default:,} where it is not given"
    return f" It has {key.low:,} to {key.high:,}{default}."


def least_of(scenario: Scenario, key: Key | None) -> Any:
    """The value of the key that is the least value of a key, or its default."""
    if key is None or key.least is None:
        return None
    default = scenario.keys()[key.least].default if key.least in scenario.keys() else None
    return scenario.table.get(key.least, default) if scenario.is_table else None


def range_beside(scenario: Scenario, key: Key | None) -> str:
    """The range of a key, which begins at the value of another one where that is its least."""
    least = least_of(scenario, key)
    if not key or not isinstance(least, int) or not (key.low or 0) <= least <= (key.high or 0):
        return range_text(key)
    return f" It has {least:,} to {key.high:,}, as {key.least} is {least:,}."


def wrong_type(scenario: Scenario) -> str:
    key, found, value = scenario.key, scenario.known, scenario.value(scenario.key)
    if key is None:
        item = f"Item number {scenario.number + 1} of {scenario.of}"
        return f"{item} is {kind_of(scenario.table)}, and has to be a table."
    if scenario.item is not None:
        return f"{item_text(scenario)}, and has to be {ITEM_FORMS[found.kind] if found else 'of another kind'}."
    hint = ""
    if found and found.kind == NUMBER and isinstance(value, str) and value.strip().isdigit():
        hint = " A number stands without quotes."
    elif found and found.kind == TABLES:
        hint = f" Each begins with [[{key}]]."
    elif isinstance(value, list) and key in {"forward", "fails_permille"}:
        why = "which is of version 3" if key == "forward" else "which stands only beside fails_between_ms"
        return f"{key} of {scenario.title()} is a list, {why}."
    wanted, told = (found.kind, "" if found.kind == TABLES else range_text(found)) if found else ("of another kind", "")
    return f"{key} of {scenario.title()} is {kind_of(value)}, and has to be {wanted}.{hint}{told}"


def kind_of(value: Any) -> str:
    return KINDS.get(type(value), "a date or time")


def item_text(scenario: Scenario) -> str:
    """An item of a list, as it begins a sentence."""
    return f"{scenario.what_is_here()} is {shown(text_of(scenario.value_here()))}"


def wrong_length(scenario: Scenario, found: Key) -> str:
    """A list with too few or too many items."""
    value = scenario.value(found.name)
    count = len(value) if isinstance(value, list) else 0
    text = f"{found.name} of {scenario.title()} has {several(count, 'item')}"
    if found.kind != NUMBER_OR_NUMBERS:
        return f"{text}.{range_text(found)}"
    beside = found.beside[-1]
    return f"{text}, and {beside} {several(len(scenario.value(beside) or []), 'pair')}. Each pair has one number."


def out_of_range(scenario: Scenario) -> str:
    key, value, found = scenario.key, scenario.value(scenario.key), scenario.known
    value = str(value).lower() if isinstance(value, bool) else value
    text = f"{key}{f' of {scenario.title()}' if scenario.of else ''} is {shown(str(value))}."
    if key == "queue" and not scenario.of:
        return "A scenario has at least one queue."
    if key == "version" and not scenario.of and value == VERSION_3:
        return f"{text} It is read only for the word --v3."
    if scenario.item is not None:
        rule = "It has {:,} to {:,}.".format(*ITEMS[key]) if found and key in ITEMS else \
            ITEM_RULES[found.kind] if found else ""
        return f"{item_text(scenario)}. {rule}"
    if found and (found.kind in LISTS or isinstance(value, list)):
        return wrong_length(scenario, found)
    if key == "kind" and found and found.words and value in ACTORS:
        return f"{text} A {value} is an actor of version {VERSION_3}."
    if key == "body":
        return f"{text} It has 1 byte at least for the first message, and 1,024 at most for the last."
    if key == "script":
        return f"{text} The name of a script has 1 to 80 ASCII letters, digits, ., - and _, and no dot first."
    if key == "sampled":
        return f"{text} It has 1 to hosts, which is {scenario.value('hosts') or 1}."
    if key == "reading_s":
        return f"{text} It has 0 to {scenario.value('every_s') - 1:,}, since it is less than every_s."
    least = least_of(scenario, found)
    if found and isinstance(least, int) and isinstance(value, int) and value < least:
        return f"{text} It may not be less than {found.least}, which is {least:,}."
    return f"{text}{range_beside(scenario, found)}{nearest(value, found.words) if found and found.words else ''}"


def copies_of(scenario: Scenario, item: Any) -> list[str]:
    """The names of the copies of an actor's table, if it has some."""
    if not isinstance(item, dict) or item.get("kind") not in COPIED or scenario.version < VERSION_3:
        return []
    count = item.get("copies")
    return [f"{item.get('name')}-{number}" for number in range(1, count + 1)] \
        if isinstance(count, int) and 1 <= count <= COPIES_MOST else []


def taken_before(scenario: Scenario) -> Iterator[dict[str, str]]:
    """The names that each table before the place of the fault takes, each with what has it."""
    for of in ("queue", "actor", "task"):
        items = scenario.found.get(of, [])
        for number, item in enumerate(items if isinstance(items, list) else []):
            if (of, number) == (scenario.of, scenario.number):
                return
            if isinstance(item, dict):
                line, _ = line_of(scenario, (of, number, "name"))
                copies = copies_of(scenario, item) if of == "actor" else []
                yield {**{name: f"A copy of the {item.get('kind')} in line {line}" for name in copies},
                       str(item.get("name")): f"The {of} in line {line}"}


def bad_name(scenario: Scenario) -> str:
    value = str(scenario.value("name"))
    if scenario.key == "copies":
        longest = max(copies_of(scenario, scenario.table), key=len, default=value)
        return f"The name {shown(longest)} of a copy has {len(longest)} characters, and may have {NAME_MOST}."
    return f"The name {shown(value)} will not do. {NAMES['queue' if scenario.of == 'queue' else 'actor']}"


def name_twice(scenario: Scenario) -> str:
    names = [str(scenario.value("name"))] if scenario.key == "name" else copies_of(scenario, scenario.table)
    for taken in taken_before(scenario):
        for name in names:
            if name in taken:
                return f"{taken[name]} has the name {shown(name)} already; queues, actors and tasks share their names."
    return f"The name {shown(names[0])} stands twice."


def unknown_queue(scenario: Scenario) -> str:
    value, key, title = str(scenario.value_here()), scenario.key, scenario.title()
    if key == "scaler":
        scalers = [item["name"] for item in scenario.at_home("actor")
                   if item.get("kind") == "scaler" and isinstance(item.get("name"), str)]
        return f"{key} of {title} is {shown(value)}, and no actor with kind = \"scaler\" at its queue has this name." \
               f"{nearest(value, scalers)}"
    queues = names_of(scenario.found, "queue")
    if value not in queues:
        return f"{scenario.what_is_here()} is {shown(value)}, and there is no queue of this name." \
               f"{nearest(value, queues)}"
    if scenario.of == "task" and key == "queue":
        return f"{title} is at {value}, which is no queue's dead_letter; a task moves dead letters alone."
    return f"{key} of {title} is the queue itself; it has to be another one."


def kind_mismatch(scenario: Scenario) -> str:
    value, home = str(scenario.value_here()), scenario.value("name" if scenario.of == "queue" else "queue")
    kinds = ["a FIFO queue" if str(name).endswith(".fifo") else "a standard queue" for name in (value, home)]
    return f"{scenario.what_is_here()} is {shown(value)}, {kinds[0]}, and {shown(str(home))} is {kinds[1]}; " \
           "both have to be of one kind."


def too_many(scenario: Scenario) -> str:
    if not scenario.of and scenario.key in ("actor", "task"):
        return "Actors and tasks together are at most 10,000."
    if scenario.key == "copies":
        return "Actors with all their copies, and tasks, are at most 10,000 together."
    if scenario.record is not None:
        return "A script has at most 100,000 records after the first, and 16,777,216 bytes."
    if scenario.known and scenario.known.kind in LISTS:
        return wrong_length(scenario, scenario.known)
    return "A scenario has at most 1,000 queues." if scenario.key else "A scenario has at most 16,777,216 bytes."


def not_toml(scenario: Scenario) -> tuple[tuple[int, int] | None, str]:
    """What Python's reader of TOML says, which need not be what stopped the program's."""
    try:
        toml_of(scenario.text.removeprefix("\ufeff"))
    except RecursionError:
        return None, "The text is nested too deep."
    except ValueError as error:
        match = TOML_PLACE.fullmatch(str(error))
        if not match:
            return None, f"{shown(str(error))}."
        if match[2]:
            return (int(match[2]), int(match[3])), f"{match[1]}."
        lines = scenario.text.removeprefix("\ufeff").split("\n")
        return (len(lines), len(lines[-1]) + 1), f"{match[1]}, as the text ends."
    return None, "It may be a number past 64 bits, or a key that is given twice."


EXPLAINED = {"UnknownKey": unknown_key, "MissingKey": missing_key, "WrongType": wrong_type, "OutOfRange": out_of_range,
             "BadName": bad_name, "NameTwice": name_twice, "UnknownQueue": unknown_queue,
             "KindMismatch": kind_mismatch, "TooMany": too_many}


def line_of(scenario: Scenario, path: Path) -> tuple[int | str, int | str]:
    at = scenario.offset(path)
    if at is None:
        return "?", "?"
    return scenario.positions.line_and_column(at)


def shown_line(line: str, column: int) -> str:
    """A line of a text with a mark below the column."""
    line, column = line.replace("\t", " "), column - 1
    start = max(0, column - LINE_MOST // 2)
    part = re.sub(r"[^\x20-\x7e\xa0-\uffff]", "?", line[start:start + LINE_MOST])
    return f"  {part}\n  {' ' * (column - start)}^\n"


def explained_script(scenario: Scenario, path: str, folder: str, line: str) -> str:
    """An error in a record of a script: its position, and what is wrong with it."""
    text, number = scenario.value(scenario.key), scenario.record or 1
    if scenario.key == "script":
        file = os.path.join(folder, text)
        if not os.path.isfile(file):
            return f"{path}:{line_of(scenario, scenario.path)[0]}: {line}\nThe script of {scenario.title()} is to be " \
                   f"in {shown(file)}, and there is no such file; --scripts names the folder.\n"
        path, text = file, read_text(file)
        first: int | None = 1
    else:
        first = first_line_of_script(scenario)
    at, record, reason = fault_of_script(text, number, scenario.is_fifo(),
                                         [str(task.get("name")) for task in scenario.at_home("task")])
    row = line_of(scenario, scenario.path)[0] if first is None or at is None else first + at - 1
    quoted = f"  {shown(record)}\n" if record else ""
    return f"{path}:{row}: {line}\n{quoted}Record {number} of {scenario.title()}: {reason}\n"


def first_line_of_script(scenario: Scenario) -> int | None:
    """The line of the text in which a script begins; None if the script is in one line with escapes."""
    start, end = scenario.positions.values[scenario.path]
    quoted = scenario.positions.text[start:end]
    if not quoted.startswith(('"""', "'''")):
        return None
    row, _ = scenario.positions.line_and_column(start)
    return row + (1 if quoted[3:5] == "\r\n" or quoted[3:4] == "\n" else 0)


def explanation(text: str, path: str, folder: str, refusal: re.Match[str]) -> str:
    """The lines that explain a refusal."""
    line, kind, scenario = refusal[0], refusal[2], Scenario(text, refusal[3])
    if kind == "NotToml":
        place, reason = not_toml(scenario)
        if place is None:
            return f"{path}: {line}\n{reason}\n"
        lines = text.removeprefix("\ufeff").split("\n")
        row, column = place
        return f"{path}:{row}:{column}: {line}\n{shown_line(lines[row - 1], column)}{reason}\n"
    if kind == "BadScript" and scenario.path in scenario.positions.values and isinstance(
            scenario.value(scenario.key), str):
        return explained_script(scenario, path, folder, line)
    reason = EXPLAINED.get(kind, lambda _: "")(scenario)
    reason = reason[:1].upper() + reason[1:] if not reason.startswith(scenario.key or "\0") else reason
    at = scenario.offset(scenario.path, kind not in ("UnknownKey", "MissingKey"))
    if at is None:
        return f"{path}: {line}\n{reason}\n"
    row, column = scenario.positions.line_and_column(at)
    return f"{path}:{row}:{column}: {line}\n{shown_line(scenario.positions.line_at(at), column)}{reason}\n"


def checked(program: str, data: bytes, words: Sequence[str]) -> tuple[int, str, str]:
    """Status and lines of the program's check of a scenario's bytes, with some options."""
    with tempfile.TemporaryFile() as out:
        status, told = ran([program, "check", *words], data, out)
        out.seek(0)
        return status, out.read().decode("utf-8", "replace"), told.decode("utf-8", "replace")


def main(words: Sequence[str]) -> int:
    parser = Parser(__doc__).take("--scripts", "--program", flags=["--v3"])
    parser.add_argument("scenario", metavar="SCENARIO")
    options = parser.parse_args(words)
    data = read_bytes(options.scenario)
    status, out, err = checked(program_of(options.program), data, reading_words(options))
    if status == 0:
        print_text(out + text_of_loads(parsed(data.decode("utf-8"), options.scenario), options.scripts))
        return 0
    line, path = err.strip("\n"), "standard input" if options.scenario == "-" else options.scenario
    refusal = REFUSED.fullmatch(line)
    if not refusal:
        raise Fault(shown(line.split("\n")[0]) or f"the program ended with status {status}")
    try:
        text = data.decode("utf-8")
    except UnicodeDecodeError as error:
        print_text(f"{path}: {line}\nThe text is not UTF-8 from byte {error.start + 1:,} on.\n")
        return 1
    print_text(explanation(text, path, options.scripts, refusal))
    return 1
