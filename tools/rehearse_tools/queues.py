"""Makes queues of a scenario from attributes of real ones, or from those of a plan or template. from-queue and
from-plan import it; it is not a command.

Attributes are texts by the names that SQS's GetQueueAttributes gives them.
"""
from __future__ import annotations

import codecs
import json
import re
from collections.abc import Mapping
from typing import Any

from .console import Fault, read_bytes, shown
from .keys import ROWS, key_of

NAME_MOST = 80
# Attributes that are whole numbers, with the scenario's keys, which have their defaults and ranges.
NUMBERS = {row["aws"]: key_of(row) for row in ROWS
           if row["table"] == "queue" and row["kind"] == "number" and row["aws"].isalpha()}
SCOPES = {"queue": "queue", "messageGroup": "group"}
USED = {"QueueArn", "QueueUrl", "QueueName", "FifoQueue", "FifoThroughputLimit", "ContentBasedDeduplication",
        "DeduplicationScope", "RedrivePolicy", "ReceiveMessageWaitTimeSeconds", *NUMBERS}
# Attributes that every queue has, or that say nothing about how a queue behaves.
SILENT = {"CreatedTimestamp", "LastModifiedTimestamp", "KmsDataKeyReusePeriodSeconds", "MaximumMessageSize",
          "SqsManagedSseEnabled", "Tags"}
NOT_MODELLED = {
    "Policy": "the model has no access policies",
    "RedriveAllowPolicy": "the model has no policy of who may name a dead-letter queue",
    "KmsMasterKeyId": "the model has no encryption",
}
COUNTS = ("ApproximateNumberOfMessages", "ApproximateNumberOfMessagesNotVisible", "ApproximateNumberOfMessagesDelayed")
# The most messages that are sent as the depth of a queue.
DEPTH_MOST = 5_000_000
# So many values of a file are looked at, as one may name another many times over.
STEPS_MOST = 1_000_000
NAME = re.compile(r"[A-Za-z0-9_-]{1,80}|[A-Za-z0-9_-]{1,75}\.fifo")


class Queue:
    """One queue: the lines of its table, the remarks on it, and its faults.

    `called` has the names under which its source knows attributes, if they are not SQS's. `present` has how many
    messages are to be there in the beginning, by the attribute that says so.
    """

    def __init__(self, name: str, called: Mapping[str, str] | None = None) -> None:
        self.name, self.fifo, self.called = name, name.endswith(".fifo"), called or {}
        self.dead_letter: str | None = None
        self.wait: int | None = 0
        self.lines = [f'name = "{name}"']
        self.notes: list[str] = []
        self.faults: list[str] = []
        self.present: dict[str, int] = {}

    def note(self, text: str) -> None:
        """Adds a remark, in characters that a comment of a scenario may have."""
        self.notes.append(re.sub(r"[^ -~]", "?", text))

    def fault(self, text: str) -> None:
        self.faults.append(text)

    def title(self, attribute: str) -> str:
        return self.called.get(attribute, attribute)

    def number(self, what: str, text: Any, low: int, high: int) -> int | None:
        """The number in a text, or None if it is no number of the range, which is a fault."""
        if not re.fullmatch("[0-9]{1,18}", str(text)):
            self.fault(f"{what} is no number: {shown(str(text))}")
        elif not low <= int(text) <= high:
            self.fault(f"{what} of {text} is beyond a scenario, which has {low} to {high}")
        else:
            return int(text)
        return None

    def is_true(self, attributes: Mapping[str, str], attribute: str) -> bool:
        value = attributes.get(attribute, "false").lower()
        if value not in ("true", "false"):
            self.fault(f"{self.title(attribute)} is neither true nor false: {shown(attributes[attribute])}")
        return value == "true"


def text_in(data: bytes) -> str:
    """The text of bytes in UTF-8, or in UTF-16 after a byte order mark, as PowerShell writes it."""
    is_wide = data.startswith((codecs.BOM_UTF16_LE, codecs.BOM_UTF16_BE))
    return data.decode("utf-16" if is_wide else "utf-8-sig")


def read_any(path: str) -> str:
    """The text of a file in one of the encodings that programs of AWS's users write."""
    try:
        return text_in(read_bytes(path))
    except UnicodeDecodeError:
        raise Fault(f"{path} is neither UTF-8 nor UTF-16") from None


def json_in(text: str, path: str) -> Any:
    try:
        return json.loads(text)
    except (ValueError, RecursionError) as error:
        raise Fault(f"{path} is not JSON: {'it is nested too deep' if isinstance(error, RecursionError) else error}") \
            from None


def add_numbers(queue: Queue, attributes: Mapping[str, str], unknown: Mapping[str, str]) -> None:
    """Adds the keys that are numbers; `unknown` has for attributes whose value is not known the reason."""
    for attribute, key in NUMBERS.items():
        if attribute not in attributes:
            reason = f"is not known: {unknown[attribute]}" if attribute in unknown else "is not given"
            queue.note(f"DEFAULT: {key.name} of {key.default}, as {queue.title(attribute)} {reason}")
            continue
        number = queue.number(queue.title(attribute), attributes[attribute], key.low or 0, key.high or 0)
        queue.lines.append(f"{key.name} = {number}")


def add_fifo(queue: Queue, attributes: Mapping[str, str]) -> None:
    if queue.is_true(attributes, "FifoQueue") and not queue.fifo:
        queue.fault(f"{queue.title('FifoQueue')} is true, but the name does not end in .fifo")
    if not queue.fifo:
        return
    dedup = "true" if queue.is_true(attributes, "ContentBasedDeduplication") else "false"
    scope = attributes.get("DeduplicationScope", "queue")
    if scope not in SCOPES:
        queue.fault(f"{queue.title('DeduplicationScope')} is neither queue nor messageGroup: {shown(scope)}")
    queue.lines += [f"content_dedup = {dedup}", f'dedup_scope = "{SCOPES.get(scope)}"']
    limit, title = attributes.get("FifoThroughputLimit", "perQueue"), queue.title("FifoThroughputLimit")
    if limit != "perQueue":
        queue.note(f"{title} {shown(limit)} is left out: the model has no throughput quota")


def add_redrive(queue: Queue, attributes: Mapping[str, str], latency: int) -> None:
    if "RedrivePolicy" not in attributes:
        return
    title = queue.title("RedrivePolicy")
    try:
        policy = json.loads(attributes["RedrivePolicy"])
        target, most = policy["deadLetterTargetArn"], policy["maxReceiveCount"]
        name = str(target.rpartition(":")[2])
    except (ValueError, TypeError, KeyError, AttributeError, RecursionError):
        queue.fault(f"{title} has no deadLetterTargetArn and maxReceiveCount")
        return
    queue.dead_letter = name
    if not NAME.fullmatch(name):
        queue.fault(f"its dead-letter queue has a name that no scenario has: {shown(name)}")
    if name == queue.name:
        queue.fault("it is its own dead-letter queue, which no scenario has")
    elif name.endswith(".fifo") != queue.fifo:
        queue.fault(f"its dead-letter queue {shown(name)} is of the other kind, which no scenario has")
    most = queue.number("maxReceiveCount", most, 1, 1_000)
    queue.lines += [f'dead_letter = "{name}"', f"max_receives = {most}", f"latency_ms = {latency}"]
    queue.note(f"DEFAULT: latency_ms of {latency}, how long a redrive takes, as nothing tells it")


def add_present(queue: Queue, attributes: Mapping[str, str], has_depth: bool) -> None:
    """Notes which messages are there in the beginning: with depth those that wait, else none."""
    counts = {key: attributes[key] for key in COUNTS if attributes.get(key, "0") != "0"}
    if counts and not has_depth:
        queue.note("its present messages are left out: a rehearsal begins with empty queues")
    for key, text in counts.items() if has_depth else ():
        number = queue.number(key, text, 0, DEPTH_MOST)
        if key.endswith("NotVisible"):
            queue.note(f"its {text} messages in flight are left out: who has them deletes them, or they come back")
        elif number:
            queue.present[key] = number


def add_notes(queue: Queue, attributes: Mapping[str, str], unknown: Mapping[str, str]) -> None:
    """Adds notes on what the attributes have and the model does not."""
    for key, reason in NOT_MODELLED.items():
        if attributes.get(key) not in (None, "", "false"):
            queue.note(f"{queue.title(key)} is left out: {reason}")
    title = queue.title("ReceiveMessageWaitTimeSeconds")
    queue.wait = queue.number(title, attributes.get("ReceiveMessageWaitTimeSeconds", "0"), 0, 20)
    for key in unknown.keys() - NUMBERS.keys():
        queue.note(f"DEFAULT: {shown(key)} is not known, as {unknown[key]}")
    for key in sorted(set(attributes) - USED - SILENT - set(NOT_MODELLED) - set(COUNTS)):
        queue.note(f"{shown(key)} is left out: this tool does not know it")


def queue_of(name: str, attributes: Mapping[str, str], latency: int, called: Mapping[str, str] | None = None,
             unknown: Mapping[str, str] | None = None, has_depth: bool = False) -> Queue:
    """The queue of a name with these attributes; `unknown` has why others are not known."""
    queue = Queue(name, called)
    add_numbers(queue, attributes, unknown or {})
    add_fifo(queue, attributes)
    add_redrive(queue, attributes, latency)
    add_present(queue, attributes, has_depth)
    add_notes(queue, attributes, unknown or {})
    return queue


def with_dead_letters(queues: list[Queue], what: str) -> list[Queue]:
    """The queues, and those that are only named as dead-letter queues. `what` is the word for the source of a queue."""
    by_name: dict[str, Queue] = {}
    for queue in queues:
        if queue.name in by_name:
            queue.fault(f"two {what}s are of a queue of this name")
        by_name[queue.name] = queue
    for queue in queues:
        name = queue.dead_letter
        if name and name not in by_name and not queue.faults:
            added = Queue(name)
            added.note(f"DEFAULT: all its settings, as no {what} is of this dead-letter queue of {queue.name}")
            by_name[name] = added
    return list(by_name.values())


class Found:
    """A queue of the file: its name, its attributes as texts, and notes on it.

    `unknown` has the attributes that the file gives, but not as a value, and why.
    """

    def __init__(self, place: str, name: str) -> None:
        self.place, self.name = place, name
        self.attributes: dict[str, str] = {}
        self.unknown: dict[str, str] = {}
        self.notes: list[str] = []

    def set(self, attribute: str, value: Any) -> None:
        """Takes a value, which JSON may have as a number, true, false or a table."""
        if isinstance(value, bool):
            value = str(value).lower()
        elif isinstance(value, (dict, list)):
            value = json.dumps(value)
        if value is not None and value != "":
            self.attributes[attribute] = str(value)

    def set_redrive(self, target: "Found", receives: int) -> None:
        self.attributes["RedrivePolicy"] = json.dumps({"deadLetterTargetArn": target.name, "maxReceiveCount": receives})


def named(name: Any, place: str, is_fifo: bool) -> str:
    """The name of a queue. If it is not known, one is made up from the queue's place."""
    if isinstance(name, str) and name:
        return name
    end = ".fifo" if is_fifo else ""
    return re.sub("[^A-Za-z0-9_-]+", "-", place)[:NAME_MOST - len(end)].strip("-") + end


def table(found: Any, *keys: str) -> dict[str, Any]:
    """The table at some keys, one within the other; empty if there is none."""
    for key in keys:
        found = found.get(key) if isinstance(found, dict) else None
    return found if isinstance(found, dict) else {}


def tables(found: dict[str, Any], key: str) -> list[dict[str, Any]]:
    """The tables of a list."""
    items = found.get(key)
    return [item for item in items if isinstance(item, dict)] if isinstance(items, list) else []


def last_name(text: str) -> str:
    """The name at the end of an ARN or URL."""
    return re.split("[:/]", text)[-1]


def number_in(value: Any) -> int | None:
    """A whole number, which a file may have as a text; None if the value is no number."""
    if isinstance(value, str) and re.fullmatch("[0-9]{1,9}", value):
        return int(value)
    return value if isinstance(value, int) and not isinstance(value, bool) and 0 <= value < 10 ** 9 else None


def truth_in(value: Any, default: bool) -> bool:
    """A truth, which a file may have as a text."""
    found = {"true": True, "false": False}.get(str(value).lower())
    return default if found is None else found
