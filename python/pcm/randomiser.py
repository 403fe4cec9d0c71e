"""The static randomiser, which spreads the lines of a module over its banks (docs/FORMATS.md, "The randomiser's words")."""
from typing import Iterator


def splitmix(seed: int) -> Iterator[int]:
    """The words of SplitMix64, without end."""
    mask = (1 << 64) - 1
    while True:
        seed = (seed + 0x9E3779B97F4A7C15) & mask
        word = seed
        word = (word ^ word >> 30) * 0xBF58476D1CE4E5B9 & mask
        word = (word ^ word >> 27) * 0x94D049BB133111EB & mask
        yield word ^ word >> 31


class Randomiser:
    """That of a module of so many lines, a power of two, by its seed."""

    def __init__(self, lines: int, seed: int) -> None:
        bits, words = lines.bit_length() - 1, splitmix(seed)
        self._keys = [next(words) & 0xFFFF for _ in range(3)]
        self._width = bits // 2
        self._low, self._high = (1 << self._width) - 1, (1 << bits - self._width) - 1

    def place(self, line: int) -> int:
        """Where a line goes: counted through the banks, the regions of each, and the lines of each of these."""
        one, two, three = self._keys
        left, right = line >> self._width, line & self._low
        left ^= (right ^ one) ** 2 & self._high
        right ^= (left ^ two) ** 2 & self._low
        left ^= (right ^ three) ** 2 & self._high
        return left << self._width | right

    def line(self, place: int) -> int:
        """The line that goes to a place."""
        one, two, three = self._keys
        left, right = place >> self._width, place & self._low
        left ^= (right ^ three) ** 2 & self._high
        right ^= (left ^ two) ** 2 & self._low
        left ^= (right ^ one) ** 2 & self._high
        return left << self._width | right
