"""A queue and its messages: what each call does to them, without rows."""
import hashlib
from dataclasses import dataclass
from enum import Enum

from faults import Refused, grant
from settings import QueueSettings
from words import Draws

MOST_COUNT, MOST_SITES = 2 ** 62 - 1, 2 ** 32
LONGEST_DELAY_S, LONGEST_TIMEOUT_S, LONGEST_FLIGHT, DEDUPLICATION = 900, 43_200, 43_200_000, 300_000
OVER_LIMIT, NOT_INFLIGHT, NO_RECEIPT, BAD_TIMEOUT, NO_GROUP, NO_DEDUPLICATION, BAD_DELAY = range(1, 8)

# The site and the number of a message's first acceptance.
Origin = tuple[int, int]


class Place(Enum):
    DELAYED = "delayed"
    VISIBLE = "visible"
    INFLIGHT = "inflight"


@dataclass
class Message:
    """A message of a queue. It is due for release if it is delayed or in flight."""

    number: int
    origin: Origin
    body: str
    group: str | None
    enqueued: int
    place: Place
    due: int | None
    came_from: int | None
    receives: int = 0
    received: int = 0


@dataclass
class Load:
    """What a transfer carries. A forward has an id for deduplication and no origin."""

    kind: str
    message: str
    body: str
    group: str | None
    origin: Origin | None = None
    enqueued: int = 0


def origin_text(origin: Origin) -> str:
    return f"o-{origin[0]}-{origin[1]}"


def receipt_parts(receipt: str) -> tuple[int, int, int] | None:
    """Site, message and receive of the text of a receipt, or None."""
    kind, _, rest = receipt.partition("-")
    words = rest.split("-")
    if kind != "r" or len(words) != 3:
        return None
    if any(not word.isascii() or not word.isdigit() or (word[0] == "0" and word != "0") for word in words):
        return None
    site, number, count = map(int, words)
    is_good = site < MOST_SITES and number <= MOST_COUNT and 1 <= count <= MOST_COUNT
    return (site, number, count) if is_good else None


class Queue:
    """The messages of a queue in order of arrival, by number, and its deduplication entries."""

    def __init__(self, number: int, settings: QueueSettings, seed: int) -> None:
        self.number, self.settings = number, settings
        self.draws = Draws(seed, number)
        self.messages: dict[int, Message] = {}
        self.arrivals = 0
        # By scope and id the end of each entry and the number of its message.
        self.entries: dict[tuple[str | None, str], tuple[int, int]] = {}

    def id(self, number: int) -> str:
        return f"m-{self.number}-{number}"

    def receipt(self, message: Message) -> str:
        return f"r-{self.number}-{message.number}-{message.receives}"

    def count(self, place: Place) -> int:
        return sum(message.place is place for message in self.messages.values())

    def room(self) -> int:
        return self.settings.in_flight - self.count(Place.INFLIGHT)

    # What may be received.
    def available(self, hosts: set[int] | None = None) -> list[Message]:
        """The messages that may be received from the hosts seen, or from all."""
        if self.settings.is_fifo:
            return self.available_by_group()
        return [message for message in self.messages.values() if message.place is Place.VISIBLE
                and (hosts is None or message.number % self.settings.hosts in hosts)]

    def available_by_group(self) -> list[Message]:
        closed = {message.group for message in self.messages.values() if message.place is Place.INFLIGHT}
        groups: dict[str | None, list[Message]] = {}
        for message in self.messages.values():
            if message.place is Place.DELAYED:
                closed.add(message.group)
            elif message.group not in closed:
                groups.setdefault(message.group, []).append(message)
        return [message for group in groups.values() for message in group]

    def sampled_hosts(self) -> set[int]:
        """The hosts that a short poll of a standard queue asks, from one that is drawn."""
        hosts = self.settings.hosts
        first = self.draws.uniform(0, hosts - 1)
        return {(first + number) % hosts for number in range(self.settings.sampled)}

    def timeout(self, timeout_s: int | None) -> int:
        return 1000 * (self.settings.visibility_s if timeout_s is None else timeout_s)

    def give(self, now: int, most: int, timeout_s: int | None, hosts: set[int] | None = None) -> list[Message]:
        """The first messages that are available, as many as there is room for. Each is in flight then."""
        given = self.available(hosts)[:min(most, self.room())]
        for message in given:
            message.receives += 1
            message.received = now
            message.place, message.due = Place.INFLIGHT, now + self.timeout(timeout_s)
        return given

    # What comes in.
    def accept(self, now: int, body: str, group: str | None, delay: int = 0, origin: Origin | None = None,
               came_from: int | None = None) -> Message:
        number = self.arrivals
        self.arrivals += 1
        place, due = (Place.DELAYED, now + delay) if delay else (Place.VISIBLE, None)
        message = Message(number, origin or (self.number, number), body, group, now, place, due, came_from)
        self.messages[number] = message
        return message

    def send(self, now: int, body: str, group: str | None, id: str | None, delay_s: int | None) -> tuple[str, int]:
        """The answer to a send, new or repeat, with the number of the message."""
        if self.settings.is_fifo:
            return self.send_fifo(now, body, group, id, delay_s)
        grant(delay_s is None or delay_s <= LONGEST_DELAY_S, BAD_DELAY)
        delay = self.settings.delay if delay_s is None else 1000 * delay_s
        return "new", self.accept(now, body, None, delay).number

    def send_fifo(self, now: int, body: str, group: str | None, id: str | None, delay_s: int | None) -> tuple[str, int]:
        grant(not delay_s, BAD_DELAY)
        grant(group is not None, NO_GROUP)
        if id is None:
            grant(self.settings.content_dedup, NO_DEDUPLICATION)
            id = hashlib.sha256(body.encode("utf-8")).hexdigest()
        scope = (group if self.settings.is_scoped_by_group else None, id)
        end, number = self.entries.get(scope, (now, 0))
        if now < end:
            return "repeat", number
        number = self.accept(now, body, group, self.settings.delay).number
        self.entries[scope] = (now + DEDUPLICATION, number)
        return "new", number

    def arrive(self, now: int, load: Load, source: int) -> tuple[str, int, bool]:
        """The answer to an arrival with the number of the message, and whether that is too old to stay."""
        if load.kind == "forward":
            return *self.send(now, load.body, load.group, load.message, None), False
        is_redrive = load.kind == "redrive"
        message = self.accept(now, load.body, load.group, 0, load.origin, source if is_redrive else None)
        if is_redrive and not self.settings.is_fifo:
            message.enqueued = load.enqueued
        return "new", message.number, now - message.enqueued >= self.settings.retention

    # Calls by receipt.
    def found(self, receipt: str) -> tuple[int, int, Message | None]:
        """Number and receive of a receipt that may have been given, and the message, or None if it is gone."""
        parts = receipt_parts(receipt)
        if parts is None or parts[0] != self.number or parts[1] >= self.arrivals:
            raise Refused(NO_RECEIPT)
        _, number, count = parts
        message = self.messages.get(number)
        grant(message is None or count <= message.receives, NO_RECEIPT)
        return number, count, message

    def delete(self, now: int, receipt: str) -> tuple[str, int, int | None]:
        """The answer, the number of the message, and its age if it was deleted."""
        number, count, message = self.found(receipt)
        if message is None:
            return "gone", number, None
        is_newest = count == message.receives
        grant(not self.settings.is_fifo or is_newest and message.place is Place.INFLIGHT, NO_RECEIPT)
        if not is_newest:
            return "kept", number, None
        del self.messages[number]
        return "deleted", number, now - message.enqueued

    def change(self, now: int, receipt: str, timeout_s: int) -> Message:
        """Changes the visibility of a message in flight. With a timeout of 0 the caller gives it back."""
        grant(timeout_s <= LONGEST_TIMEOUT_S, BAD_TIMEOUT)
        _, count, message = self.found(receipt)
        if message is None or message.place is not Place.INFLIGHT or count < message.receives:
            raise Refused(NOT_INFLIGHT)
        grant(now + 1000 * timeout_s <= message.received + LONGEST_FLIGHT, BAD_TIMEOUT)
        message.due = now + 1000 * timeout_s
        return message

    # What returns or leaves.
    def load_of(self, message: Message, kind: str) -> Load:
        """What carries a message that leaves."""
        del self.messages[message.number]
        return Load(kind, self.id(message.number), message.body, message.group, message.origin, message.enqueued)

    def has_to_leave(self, message: Message) -> bool:
        """Whether a message that would be visible again leaves for the dead-letter queue."""
        policy = self.settings.policy
        return policy is not None and message.place is Place.INFLIGHT and message.receives >= policy.max_receives
