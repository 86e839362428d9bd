"""Tables of a scenario's text: their keys, the types of their values, and the faults of both."""
import math
import tomllib
from collections.abc import Callable, Collection, Iterator
from typing import Any, TypeVar

from faults import Fault, must
from scripts import MARK, MOST_BYTES, is_visible

X = TypeVar("X")
# How a value at a place is read.
Type = Callable[[Any, str], X]
MOST_TIME, MOST_DAY = 2_592_000_000, 86_400_000


def check_numbers(value: Any) -> None:
    """An integer past 64 bits cannot be said."""
    if type(value) is int and not -2 ** 63 <= value < 2 ** 63:
        raise ValueError("an integer past 64 bits")
    for item in value.values() if isinstance(value, dict) else value if isinstance(value, list) else ():
        check_numbers(item)


def float_of(text: str) -> float:
    value = float(text)
    if math.isinf(value) and "inf" not in text:
        raise ValueError("a float past its range")
    return value


def document_of(text: bytes) -> dict[str, Any]:
    """The table of a document, or the fault 19 or 10."""
    if len(text) > MOST_BYTES:
        raise Fault(19)
    try:
        document = tomllib.loads(text.removeprefix(MARK).decode("utf-8"), parse_float=float_of)
        check_numbers(document)
    except (ValueError, RecursionError):
        raise Fault(10) from None
    return document


class Table:
    """A table, with the text before its keys in their places."""

    def __init__(self, values: dict[str, Any], prefix: str = "") -> None:
        self.values, self.prefix = values, prefix

    def place(self, key: str) -> str:
        return f"{self.prefix}{key}"

    def has(self, key: str) -> bool:
        return key in self.values

    def only(self, keys: Collection[str]) -> None:
        """The first key that there should not be, in the order of bytes, is 11."""
        for key in sorted(set(self.values) - set(keys), key=lambda key: key.encode("utf-8")):
            raise Fault(11, self.place(key))

    def required(self, key: str, type_of: Type[X]) -> X:
        must(key in self.values, 12, self.place(key))
        return type_of(self.values[key], self.place(key))

    def optional(self, key: str, type_of: Type[X], default: X) -> X:
        return type_of(self.values[key], self.place(key)) if key in self.values else default

    def maybe(self, key: str, type_of: Type[X]) -> X | None:
        return type_of(self.values[key], self.place(key)) if key in self.values else None


def typed(of: type[X]) -> Type[X]:
    """A value that is of this type and of none below it, as true is no integer."""
    def read(value: Any, place: str) -> X:
        must(type(value) is of, 13, place)
        found: X = value
        return found
    return read


text, boolean, whole, tables = typed(str), typed(bool), typed(int), typed(list)


def such(type_of: Type[X], is_in_range: Callable[[X], bool]) -> Type[X]:
    """A value of a type that is in its range."""
    def read(value: Any, place: str) -> X:
        found = type_of(value, place)
        must(is_in_range(found), 14, place)
        return found
    return read


def integer(low: int, high: int) -> Type[int]:
    return such(whole, lambda number: low <= number <= high)


def one_of(*words: str) -> Type[str]:
    return such(text, lambda word: word in words)


def sized_text(low: int, high: int) -> Type[str]:
    """A text of so many bytes."""
    return such(text, lambda found: low <= len(found.encode("utf-8")) <= high)


def items_in(value: Any, place: str, least: int, most: int) -> Iterator[tuple[Any, str]]:
    """The items of a list with so many, each with its place, after the faults of the list."""
    items = tables(value, place)
    must(len(items) >= least, 14, place)
    must(len(items) <= most, 19, place)
    return ((item, f"{place}[{number}]") for number, item in enumerate(items))


def pair_in(value: Any, place: str) -> tuple[Any, Any]:
    first, second = such(tables, lambda pair: len(pair) == 2)(value, place)
    return first, second


def quantiles(value: Any, place: str) -> list[tuple[int, int]]:
    """Pairs [permille, ms] from 0 to 1,000, whose permilles ascend and whose times do not descend."""
    pairs: list[tuple[int, int]] = []
    items = list(items_in(value, place, 2, 32))
    for number, (item, at) in enumerate(items):
        low, high = (0, 0) if number == 0 else (pairs[-1][0] + 1, 999)
        if number == len(items) - 1:
            low, high = 1000, 1000
        first, second = pair_in(item, at)
        permille = integer(low, high)(first, at)
        time = integer(pairs[-1][1] if pairs else 1, MOST_DAY)(second, at)
        pairs.append((permille, time))
    return pairs


def list_of(type_of: Type[X], least: int, most: int) -> Type[list[X]]:
    return lambda value, place: [type_of(item, at) for item, at in items_in(value, place, least, most)]


def one_or(list_type: Type[list[X]], type_of: Type[X], count: int) -> Type[list[X]]:
    """A list, or one value in place of so many."""
    return lambda value, place: list_type(value, place) if type(value) is list else [type_of(value, place)] * count


def one_or_more(type_of: Type[X], most: int) -> Type[list[X]]:
    return one_or(list_of(type_of, 1, most), type_of, 1)


def one_or_each(type_of: Type[X], count: int) -> Type[list[X]]:
    """A value for all of so many, or a list with one for each."""
    def read(value: Any, place: str) -> list[X]:
        must(len(value) == count, 14, place)
        return list_of(type_of, count, count)(value, place)
    return one_or(read, type_of, count)


def weighted_group(value: Any, place: str) -> tuple[str, int]:
    """A pair [group, weight]."""
    first, second = pair_in(value, place)
    group = such(text, lambda found: is_visible(found, 128))(first, place)
    return group, integer(1, 1_000_000)(second, place)


def stretch(value: Any, place: str) -> range:
    """A pair [from, to] of moments, of which the second is not in the stretch of time."""
    first, second = pair_in(value, place)
    begin = integer(0, MOST_TIME)(first, place)
    return range(begin, integer(begin, MOST_TIME)(second, place))


def steps(value: Any, place: str) -> list[tuple[int, int]]:
    """Pairs [visible, copies], of which each has more visible messages than the one before it."""
    pairs: list[tuple[int, int]] = []
    for item, at in items_in(value, place, 1, 32):
        first, second = pair_in(item, at)
        visible = integer(pairs[-1][0] + 1 if pairs else 0, 1_000_000)(first, at)
        pairs.append((visible, integer(0, 1_000)(second, at)))
    return pairs
