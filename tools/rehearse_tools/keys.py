"""The keys of a scenario with their kinds, ranges and defaults, as facts/keys.csv and facts/kinds.csv have them."""
from __future__ import annotations

from collections.abc import Mapping, Sequence
from typing import NamedTuple

from .fact_tables import rows_of

# The kinds by what the table of keys calls them: a name, a queue's name and a file's name are texts.
KINDS = {row["kind"]: row["told"] for row in rows_of("kinds")}
NUMBER, TEXT, TRUTH, TABLES, NUMBERS, QUANTILES, WEIGHTS, STRETCHES, STEPS, TEXT_OR_TEXTS, NUMBER_OR_NUMBERS = map(
    KINDS.__getitem__, ("number", "text", "truth", "tables", "numbers", "quantiles", "weights", "stretches", "steps",
                        "queue or queues", "number or numbers"))
REQUIRED = "required"
STANDARD, FIFO = "standard", "FIFO"
# The name of the rows that stand for the keys of a latency.
LATENCY = "latency"


class Key(NamedTuple):
    """A key of a table: its kind, its range or allowed words, and its default (None if it may be absent without one).
    Also the only kind of queue that may have it, the keys beside one of which alone it may occur, the key that is its
    least value, the first version that has it, and the keys in whose place it may be. The range of a text is in bytes,
    and that of a list is how many items it has. Where a number may be a list, the range is that of each number."""

    name: str
    kind: str
    low: int | None = None
    high: int | None = None
    default: int | str | None = None
    words: Sequence[str] | None = None
    queues: str | None = None
    beside: Sequence[str] = ()
    least: str | None = None
    since: int = 1
    replaces: Sequence[str] = ()


def default_of(text: str, kind: str) -> int | str | None:
    """A default, of which one in backquotes is the value of another key."""
    if not text or text.startswith("`"):
        return None
    if kind == "truth":
        return text == "true"
    return int(text) if text.isdigit() else text


def key_of(row: Mapping[str, str]) -> Key:
    low, high = (int(row[name]) if row[name] else None for name in ("low", "high"))
    words, beside, replaces = (tuple(row[name].split()) for name in ("words", "beside", "replaces"))
    return Key(row["name"], KINDS[row["kind"]], low, high, default_of(row["default"], row["kind"]), words or None,
               row["queues"] or None, beside, row["least"] or None, int(row["since"]), replaces)


def keys_in(table: str) -> list[Key]:
    """The keys of a table, without those of a latency."""
    return [key_of(row) for row in ROWS if row["table"] == table and row["kind"] != LATENCY]


def latency(version: int, beside: Sequence[str] = ()) -> list[Key]:
    """The keys of a latency in a version of scenarios: one time in the first, and two bounds from the second on."""
    return [key._replace(beside=beside) for key in keys_in(LATENCY) if (key.since == 1) == (version == 1)]


ROWS = rows_of("keys")
TOP, QUEUE, HEAD, TASK = keys_in("top"), keys_in("queue"), keys_in("actor"), keys_in("task")
ACTORS = {kind: [*HEAD, *keys_in(kind)] for kind in HEAD[1].words or ()}
SCRIPT, PRODUCER, CONSUMER, SCALER = (ACTORS[kind] for kind in ("script", "producer", "consumer", "scaler"))
# What each item of a list of numbers may be.
ITEMS = {row["name"]: (int(low), int(high)) for row in ROWS if row["items"] for low, high in [row["items"].split()]}
# The versions that are read, and the one that is read only for the word --v3.
VERSIONS = (1, 2, 3)
VERSION_3 = 3


def consumer_keys(latencies: Sequence[Key]) -> list[Key]:
    """The keys of a consumer, with those of a forward's latency behind the forward."""
    place = [key.name for key in CONSUMER].index("forward") + 1
    return [*CONSUMER[:place], *latencies, *CONSUMER[place:]]


def keys_of(of: str, kind: str | None, version: int) -> list[Key]:
    """The keys of a table in a version: of the top if `of` is empty, of queues, tasks, or actors of a kind."""
    keys = TOP
    if of == "queue":
        keys = QUEUE + latency(version, ("dead_letter",))
    elif of == "task":
        keys = TASK + latency(version)
    elif of == "actor":
        keys = consumer_keys(latency(version, ("forward",))) if kind == "consumer" else ACTORS.get(kind or "", HEAD)
    return [as_of(key, version) for key in keys if key.since <= version]


def kinds_of(version: int) -> list[str]:
    """The kinds of actors that a version has, which are those with keys of their own in it."""
    return [kind for kind in ACTORS if any(key.since <= version for key in keys_in(kind))]


def as_of(key: Key, version: int) -> Key:
    """A key as a version has it: a queue that may be a list of them is a text before version 3."""
    if key == HEAD[1]:
        return key._replace(words=tuple(kinds_of(version)))
    is_text = key.kind == TEXT_OR_TEXTS and version < VERSION_3
    return key._replace(kind=TEXT, low=None, high=None) if is_text else key
