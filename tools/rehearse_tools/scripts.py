"""The calls of scripts: how they are written, and what is wrong with one. The tools import it; it is not a command."""
from __future__ import annotations

import csv
import difflib
import io
import re
from collections.abc import Iterable, Iterator, Mapping, Sequence

HEADER = "at,call,body,group,id,delay,receipt,max,wait,timeout,task".split(",")
AT_MOST = 4_294_967_295
RECORDS_MOST = 100_000
BYTES_MOST = 16_777_216
BODY_MOST = 1_024
# What the program takes for the name of a script; no such name leads out of a folder.
NAME = re.compile("[A-Za-z0-9_-][A-Za-z0-9._-]{0,79}")
NUMBER = re.compile("0|[1-9][0-9]{0,9}")
# For each call the fields that are needed and those that may stand; group and id only at a FIFO queue.
CALLS: dict[str, tuple[tuple[str, ...], tuple[str, ...]]] = {
    "send": (("body",), ("delay", "group", "id")), "receive": ((), ("max", "wait", "timeout")),
    "delete": (("receipt",), ()), "change": (("receipt", "timeout"), ()), "start": (("task",), ()),
    "cancel": (("task",), ())}
RANGES = {"at": (0, AT_MOST), "delay": (0, AT_MOST), "max": (1, 10), "wait": (0, 20), "timeout": (0, AT_MOST)}
LENGTHS = {"body": 1_024, "group": 128, "id": 128, "receipt": 100}
FIELD_LIMIT = 1 << 25


def nearest(word: object, words: Iterable[str]) -> str:
    """A question that names the nearest of some words; empty if none is near."""
    found = difflib.get_close_matches(str(word), list(words), 1, 0.6)
    return f" Did you mean {found[0]}?" if found else ""


def records_of(text: str) -> Iterator[tuple[int, list[str]]]:
    """The records of a script, each with the line in which it begins; blank lines are none."""
    csv.field_size_limit(FIELD_LIMIT)
    reader = csv.reader(io.StringIO(text, newline=""))
    while True:
        first = reader.line_num + 1
        try:
            record = next(reader)
        except (StopIteration, csv.Error):
            return
        if record:
            yield first, record


def fault_of_script(text: str, number: int, is_fifo: bool, tasks: Sequence[str]) -> tuple[int | None, str, str]:
    """The line at which record `number` of a script begins, its text, and what is wrong with it, as far as the rules
    show.

    `tasks` has the names of the tasks whose queue is that of the script.
    """
    before: list[str] = []
    for place, (line, record) in enumerate(records_of(text), 1):
        if place == number:
            return line, ",".join(record), fault_of_record(record, place, before, is_fifo, tasks)
        before = record
    return None, "", "The script has no such record: it begins with the record " + ",".join(HEADER) + "."


def fault_of_record(record: list[str], place: int, before: list[str], is_fifo: bool, tasks: Sequence[str]) -> str:
    if place == 1:
        return f"The first record has to be {','.join(HEADER)}."
    if len(record) != len(HEADER):
        return f"It has {len(record)} fields, and needs {len(HEADER)}: {','.join(HEADER)}."
    fields = dict(zip(HEADER, record))
    return (fault_of_number("at", fields) or fault_of_fields(fields, is_fifo) or fault_of_values(fields, tasks)
            or fault_of_time(fields, dict(zip(HEADER, before)), place) or "A text in it may be not as it has to be.")


def fault_of_number(field: str, fields: Mapping[str, str]) -> str | None:
    low, high = RANGES[field]
    text = fields[field]
    if not NUMBER.fullmatch(text):
        return f"Its {field} has to be a whole number without leading zeros, and is {text[:40] or 'empty'}."
    if not low <= int(text) <= high:
        return f"Its {field} is {text}, and has {low:,} to {high:,}."
    return None


def fault_of_fields(fields: Mapping[str, str], is_fifo: bool) -> str | None:
    """A call that there is not, a field that it does not have, or one that it lacks."""
    call = fields["call"]
    if call not in CALLS:
        return f"There is no call {call[:40] or 'without a name'}; calls are {', '.join(CALLS)}.{nearest(call, CALLS)}"
    needed, may = CALLS[call]
    for field, text in fields.items():
        if field in ("at", "call") or not text:
            continue
        if field in ("group", "id") and call == "send" and not is_fifo:
            return f"It has the field {field}, which messages of a FIFO queue have alone."
        if field not in needed + may:
            return f"A {call} has no field {field}, and this one is {text[:40]}."
    lacking = [field for field in needed if not fields[field]]
    return f"A {call} needs the field {lacking[0]}." if lacking else None


def fault_of_values(fields: Mapping[str, str], tasks: Sequence[str]) -> str | None:
    for field in ("delay", "max", "wait", "timeout"):
        if fields[field] and (fault := fault_of_number(field, fields)):
            return fault
    for field, most in LENGTHS.items():
        length = len(fields[field].encode("utf-8", "replace"))
        if length > most:
            return f"Its {field} has {length:,} bytes, and may have {most:,}."
        if field != "body" and not re.fullmatch("[!-~]*", fields[field]):
            return f"Its {field} has a character other than the ASCII ones without space."
    if fields["task"] and fields["task"] not in tasks:
        return f"No task at this queue has the name {fields['task'][:80]}.{nearest(fields['task'], tasks)}"
    return None


def fault_of_time(fields: Mapping[str, str], before: Mapping[str, str], place: int) -> str | None:
    """A call that is not later than the one before it, or than the end of the wait of that."""
    if place < 3 or not NUMBER.fullmatch(before.get("at", "")):
        return None
    at, earlier, wait = int(fields["at"]), int(before["at"]), before.get("wait", "")
    if at <= earlier:
        return f"Its time {at} is not after that of the call before it, {earlier}."
    if NUMBER.fullmatch(wait) and at <= earlier + 1_000 * int(wait):
        end = earlier + 1_000 * int(wait)
        return f"Its time {at} is not after {end}, the end of the wait of the receive before it."
    return None
