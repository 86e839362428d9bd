"""Random words by ChaCha20 (RFC 8439), and what is drawn by a word."""
from collections.abc import Iterator, Sequence

WORD_BITS = 32
MASK = (1 << WORD_BITS) - 1
CONSTANTS = [0x61707865, 0x3320646E, 0x79622D32, 0x6B206574]
COLUMNS = [(0, 4, 8, 12), (1, 5, 9, 13), (2, 6, 10, 14), (3, 7, 11, 15)]
DIAGONALS = [(0, 5, 10, 15), (1, 6, 11, 12), (2, 7, 8, 13), (3, 4, 9, 14)]

# A list of pairs (permille, milliseconds).
Quantiles = Sequence[tuple[int, int]]


def rotated(word: int, by: int) -> int:
    return (word << by | word >> (WORD_BITS - by)) & MASK


def quarter_round(state: list[int], a: int, b: int, c: int, d: int) -> None:
    for first, second, third, by in ((a, b, d, 16), (c, d, b, 12), (a, b, d, 8), (c, d, b, 7)):
        state[first] = (state[first] + state[second]) & MASK
        state[third] = rotated(state[third] ^ state[first], by)


def block(seed: int, agent: int, number: int) -> list[int]:
    """The 16 words of a block. The key is the seed's 8 little-endian bytes and 24 zeros, the stream is the agent."""
    key = seed.to_bytes(8, "little") + bytes(24)
    start = CONSTANTS + [int.from_bytes(key[place:place + 4], "little") for place in range(0, 32, 4)]
    start += [number & MASK, number >> WORD_BITS, agent & MASK, agent >> WORD_BITS]
    state = list(start)
    for _ in range(10):
        for places in COLUMNS + DIAGONALS:
            quarter_round(state, *places)
    return [(left + right) & MASK for left, right in zip(state, start)]


def words_of(seed: int, agent: int) -> Iterator[int]:
    number = 0
    while True:
        yield from block(seed, agent, number)
        number += 1


def time_at(quantiles: Quantiles, word: int) -> int:
    """The time that a word gives: linear between the pairs around its position, rounded down."""
    position = word * 1000
    for (low, least), (high, greatest) in zip(quantiles, quantiles[1:]):
        if position < high << WORD_BITS:
            part = position - (low << WORD_BITS)
            return least + part * (greatest - least) // ((high - low) << WORD_BITS)
    raise AssertionError("a position is below 1,000")


def place_by_weight(weights: Sequence[int], word: int) -> int:
    """The place of the first weight that, added to those before it, is over the word's share."""
    share = word * sum(weights) >> WORD_BITS
    for place, weight in enumerate(weights):
        if share < weight:
            return place
        share -= weight
    raise AssertionError("a share is below the sum")


class Draws:
    """The words of an agent, one after another."""

    def __init__(self, seed: int, agent: int) -> None:
        self.words = words_of(seed, agent)

    def word(self) -> int:
        return next(self.words)

    def uniform(self, low: int, high: int) -> int:
        """A number from low to high. It takes a word even if they are equal."""
        return low + (self.word() * (high - low + 1) >> WORD_BITS)

    def chance(self, permille: int) -> bool:
        return self.word() * 1000 >> WORD_BITS < permille

    def between(self, low: int, high: int) -> int:
        """A latency: it takes a word only if the bounds differ."""
        return self.uniform(low, high) if low < high else low
