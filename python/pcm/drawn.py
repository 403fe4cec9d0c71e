"""Drawn traces (docs/FORMATS.md, "The generated trace"), of modules of any size; `pcm gen` prints those of small ones."""
import itertools
from typing import Dict, Iterator, NamedTuple

from .randomiser import splitmix
from .rows import PowerCut, Read, Row, Write

_MASK = (1 << 64) - 1


class Draw(NamedTuple):
    """How a trace is drawn: by the options of these names, and the lines of the module and the bytes of each."""

    seed: int
    rows: int
    write_percent: int
    cuts: int
    step: int
    hot: int
    lines: int
    size: int


def draw_of(options: Dict[str, str]) -> Draw:
    """That of a stream's options, all of which are given."""
    lines = int(options["banks"]) * int(options["regions"]) * int(options["lines"])
    named = {name: int(options[name.replace("_", "-")]) for name in ("seed", "rows", "write_percent", "cuts", "step", "hot")}
    return Draw(**named, lines=lines, size=int(options["line"]))


def _rotated(word: int, by: int) -> int:
    return (word << by | word >> (64 - by)) & _MASK


def _words(seed: int) -> Iterator[int]:
    """The words of xoshiro256++, seeded by SplitMix64."""
    one, two, three, four = itertools.islice(splitmix(seed), 4)
    while True:
        yield (_rotated((one + four) & _MASK, 23) + one) & _MASK
        kept = two << 17 & _MASK
        three ^= one
        four ^= two
        two ^= three
        one ^= four
        three ^= kept
        four = _rotated(four, 45)


def drawn(it: Draw) -> Iterator[Row]:
    """The rows of a drawn trace."""
    words, part, tick = _words(it.seed), max(1, it.rows // (it.cuts + 1)), 0
    for row in range(1, it.rows + 1):
        tick += next(words) % (it.step + 1)
        if row % part == 0 and row // part <= it.cuts:
            yield PowerCut(tick)
            continue
        word = next(words)
        is_hot = it.hot and (word >> 40) % 10 < 9
        line = word % (min(it.hot, it.lines) if is_hot else it.lines)
        if (word >> 32) % 100 < it.write_percent:
            yield Write(tick, line, b"".join(next(words).to_bytes(8, "little") for _ in range(it.size // 8)))
        else:
            yield Read(tick, line)
