"""Scripts: CSV, and the calls that its records are."""
from collections.abc import Container
from enum import Enum, auto

from settings import Call

HEADER = ["at", "call", "body", "group", "id", "delay", "receipt", "max", "wait", "timeout", "task"]
MARK = b"\xef\xbb\xbf"
MOST_BYTES, MOST_CALLS, GREATEST_NUMBER = 16_777_216, 100_000, 4_294_967_295
COMMA, QUOTE, LINE_ENDS = 0x2C, 0x22, (0x0A, 0x0D)
# By the name of a call the fields that it needs, and those that it may have besides. Sends to FIFO queues may have two
# more.
FIELDS: dict[str, tuple[set[str], set[str]]] = {
    "send": ({"body"}, {"delay"}), "receive": (set(), {"max", "wait", "timeout"}), "delete": ({"receipt"}, set()),
    "change": ({"receipt", "timeout"}, set()), "start": ({"task"}, set()), "cancel": ({"task"}, set())}
RANGES = {"delay": (0, GREATEST_NUMBER), "timeout": (0, GREATEST_NUMBER), "max": (1, 10), "wait": (0, 20)}
MOST_VISIBLE = {"group": 128, "id": 128, "receipt": 100}


class ScriptFault(Exception):
    """A fault by its number, 19 or 20, and the number of its record, if it has one."""

    def __init__(self, number: int, record: int | None = None) -> None:
        super().__init__(number, record)
        self.number, self.record = number, record


class State(Enum):
    """What comes next: a record, a field, more of a field without or with quotes, or what follows a second quote."""

    RECORD = auto()
    FIELD = auto()
    PLAIN = auto()
    QUOTED = auto()
    CLOSED = auto()


def next_state(state: State, byte: int) -> State:
    """The state after a byte that is no end of a record."""
    if state is State.QUOTED:
        return State.CLOSED if byte == QUOTE else State.QUOTED
    if byte == QUOTE and state in (State.RECORD, State.FIELD, State.CLOSED):
        return State.QUOTED
    return State.FIELD if byte == COMMA else State.PLAIN


def csv_records(data: bytes) -> list[list[bytes]]:
    """The records of a text, as the reader of the crate csv has them. Blank lines are none."""
    records: list[list[bytes]] = []
    record: list[bytes] = []
    field, state = bytearray(), State.RECORD
    for byte in data:
        if byte in LINE_ENDS and state is not State.QUOTED:
            if state is not State.RECORD:
                records.append([*record, bytes(field)])
            record, field, state = [], bytearray(), State.RECORD
            continue
        before, state = state, next_state(state, byte)
        if state is State.FIELD:
            record.append(bytes(field))
            field = bytearray()
        elif state is State.PLAIN or (state is State.QUOTED and before in (State.QUOTED, State.CLOSED)):
            field.append(byte)
    if state is not State.RECORD:
        records.append([*record, bytes(field)])
    return records


def number_of(text: str) -> int | None:
    """A number of 1 to 10 digits without leading zeros, up to 32 bits."""
    if not 1 <= len(text) <= 10 or not set(text) <= set("0123456789") or (text[0] == "0" and text != "0"):
        return None
    return int(text) if int(text) <= GREATEST_NUMBER else None


def is_visible(text: str, most: int) -> bool:
    """Whether a text is 1 to so many bytes of ASCII without blanks."""
    return 1 <= len(text) <= most and all("!" <= char <= "~" for char in text)


def is_value(name: str, text: str, tasks: Container[str]) -> bool:
    """Whether a field that is given has a value of its own."""
    if name == "body":
        return len(text.encode("utf-8")) <= 1024
    if name in MOST_VISIBLE:
        return is_visible(text, MOST_VISIBLE[name])
    if name == "task":
        return text in tasks
    low, high = RANGES[name]
    number = number_of(text)
    return number is not None and low <= number <= high


def call_of(record: list[str], is_fifo: bool, tasks: Container[str]) -> Call | None:
    """The call that a record is, or None if it is bad."""
    if len(record) != len(HEADER) or record[1] not in FIELDS or number_of(record[0]) is None:
        return None
    needed, optional = FIELDS[record[1]]
    if record[1] == "send" and is_fifo:
        optional = optional | {"group", "id"}
    given = {name: text for name, text in zip(HEADER[2:], record[2:]) if text}
    if not needed <= set(given) <= needed | optional or not all(is_value(*it, tasks) for it in given.items()):
        return None
    numbers = {name: int(text) for name, text in given.items() if name in RANGES}
    texts = {name: text for name, text in given.items() if name not in RANGES}
    if record[1] == "receive":
        numbers = {"max": 1, "wait": 0, **numbers}
    return Call(int(record[0]), record[1], **texts, **numbers)    # type: ignore[arg-type]


def decoded_records(data: bytes) -> list[list[str]]:
    """The records of a script after its limits and its encoding are judged."""
    records = csv_records(data.removeprefix(MARK)) if len(data) <= MOST_BYTES else []
    if len(data) > MOST_BYTES or len(records) - 1 > MOST_CALLS:
        raise ScriptFault(19)
    try:
        data.decode("utf-8")
    except UnicodeDecodeError:
        raise ScriptFault(20) from None
    return [[field.decode("utf-8") for field in record] for record in records]


def calls_of(data: bytes, is_fifo: bool, tasks: Container[str]) -> list[Call]:
    """The calls of a script at a home of this kind with these tasks."""
    records = decoded_records(data)
    if not records or records[0] != HEADER:
        raise ScriptFault(20, 1)
    calls: list[Call] = []
    free = -1
    for number, record in enumerate(records[1:], 2):
        call = call_of(record, is_fifo, tasks)
        if call is None or call.at <= free:
            raise ScriptFault(20, number)
        free = call.at + 1000 * (call.wait or 0)
        calls.append(call)
    return calls
