"""What became of the rows of a trace."""
from dataclasses import dataclass
from typing import ClassVar, Dict, Optional, Tuple, Type


@dataclass(frozen=True)
class Outcome:
    """What became of a row. `row` is its number, from 1; `tick` is when (in ticks)."""

    word: ClassVar[str] = ""
    falls_short: ClassVar[bool] = False
    row: int
    tick: int


@dataclass(frozen=True)
class Stored(Outcome):
    """A write is stored: its last action ended at `tick`; `place` is the array line that holds it."""

    word: ClassVar[str] = "stored"
    place: int


@dataclass(frozen=True)
class Merged(Outcome):
    """A newer write of the line, which arrived at `tick`, took this one's place in the queue."""

    word: ClassVar[str] = "merged"


@dataclass(frozen=True)
class Queued(Outcome):
    """A write is still in the protected queue in the end; `tick` is its own arrival."""

    word: ClassVar[str] = "queued"
    falls_short: ClassVar[bool] = True


@dataclass(frozen=True)
class Full(Outcome):
    """A write is refused as it arrives: its bank's queue is full."""

    word: ClassVar[str] = "full"
    falls_short: ClassVar[bool] = True


@dataclass(frozen=True)
class Worn(Outcome):
    """A write is refused as it arrives: a worn line of its bank had found no spare."""

    word: ClassVar[str] = "worn"
    falls_short: ClassVar[bool] = True


@dataclass(frozen=True)
class Read(Outcome):
    """A read is served from the array line `place`, at `tick`, with `data`."""

    word: ClassVar[str] = "read"
    place: int
    data: bytes


@dataclass(frozen=True)
class Forwarded(Outcome):
    """A read is answered from the queue as it arrives, with `data`."""

    word: ClassVar[str] = "forwarded"
    data: bytes


@dataclass(frozen=True)
class Busy(Outcome):
    """A read is refused as it arrives: as many wait as may."""

    word: ClassVar[str] = "busy"
    falls_short: ClassVar[bool] = True


@dataclass(frozen=True)
class Lost(Outcome):
    """A read that waited is lost at a power cut, at `tick`."""

    word: ClassVar[str] = "lost"
    falls_short: ClassVar[bool] = True


@dataclass(frozen=True)
class Cut(Outcome):
    """The power was cut."""

    word: ClassVar[str] = "cut"


@dataclass(frozen=True)
class Settled:
    """Every bank has gone on to `tick`: all outcomes that are known by then came before."""

    tick: int


@dataclass(frozen=True)
class Backlog:
    """What waits in a bank (`bank`, from 0), which has gone on to `tick`: the `writes` of its queue, one that is in flight among them, and the
    `reads`, one that is served among them. `mark` is `going`, or `exhausted` (a worn line found no spare: each write is refused as worn from
    then on), or `halted` (a control line is worn: no line write is begun any more)."""

    tick: int
    bank: int
    writes: int
    reads: int
    mark: str


@dataclass(frozen=True)
class Wear:
    """How worn a module is, which has gone on to `tick`; numbers of all its array lines, free spares too, as a snapshot has them: `pulses` of all,
    the `most` of a line, their `mean`, rounded down; active `pointers`; `senses`, and cells that pulses drove to 1 (`set`) and to 0 (`reset`)."""

    tick: int
    pulses: int
    most: int
    mean: int
    pointers: int
    senses: int
    set: int
    reset: int


@dataclass(frozen=True)
class Newest:
    """The newest bytes of a line (`data`), of a module that has gone on to `tick`."""

    tick: int
    line: int
    data: bytes


@dataclass(frozen=True)
class Shape:
    """What a module is: its `banks`, the `regions` of each, the `lines` of a region, the `spares` of a bank, the bytes of a `line`, and how many
    writes a bank's queue holds and how many reads may wait there. `version` is that of what is told: by `tell="module"` it is 2, and the other
    numbers and words are the options of the same names; else they are None."""

    version: int
    banks: int
    regions: int
    lines: int
    spares: int
    line: int
    write_queue: int
    read_queue: int
    seed: Optional[int] = None
    psi: Optional[int] = None
    read_ticks: Optional[int] = None
    iter_ticks: Optional[int] = None
    policy: Optional[str] = None
    registers: Optional[str] = None


MARKS = ("going", "exhausted", "halted")
# In the order of their numbers in c/pcm.h.
KINDS: Tuple[Type[Outcome], ...] = (Stored, Merged, Queued, Full, Worn, Read, Forwarded, Busy, Lost, Cut)
_BY_WORD: Dict[str, Type[Outcome]] = {it.word: it for it in KINDS}


def outcome_of(word: str, row: int, tick: int, place: str, data: str) -> Outcome:
    """The outcome of a row by its printed fields."""
    kind = _BY_WORD[word]
    if kind is Stored:
        return Stored(row, tick, int(place))
    if kind is Read:
        return Read(row, tick, int(place), bytes.fromhex(data))
    if kind is Forwarded:
        return Forwarded(row, tick, bytes.fromhex(data))
    return kind(row, tick)


def _backlog_of(tick: int, bank: int, data: str) -> Backlog:
    writes, reads, mark = data.split(" ")
    if mark not in MARKS:
        raise ValueError(mark)
    return Backlog(tick, bank, int(writes), int(reads), mark)


def _wear_of(tick: int, data: str) -> Wear:
    pulses, most, mean, pointers, senses, ones, zeros = map(int, data.split(" "))
    return Wear(tick, pulses, most, mean, pointers, senses, ones, zeros)


def _shape_of(version: int, data: str) -> Shape:
    fields = data.split(" ")
    banks, regions, lines, spares, line, write_queue, read_queue = map(int, fields[:7])
    if version < 2 and len(fields) == 7:
        return Shape(version, banks, regions, lines, spares, line, write_queue, read_queue)
    seed, psi, read_ticks, iter_ticks = map(int, fields[7:11])
    policy, registers = fields[11:]
    return Shape(
        version, banks, regions, lines, spares, line, write_queue, read_queue, seed, psi, read_ticks, iter_ticks, policy, registers
    )


def told_of(line: str) -> Optional["Outcome | Backlog | Wear | Newest | Shape | Settled"]:
    """What a line of a stream tells: an outcome, what waits in a bank, how worn the module is, what a line's newest bytes are, what the module is,
    or that it has settled; nothing for the header."""
    row, word, tick, place, data = line.rstrip("\n").split(",")
    if word == "settled":
        return Settled(int(tick))
    if word == "bank":
        return _backlog_of(int(tick), int(place), data)
    if word == "wear":
        return _wear_of(int(tick), data)
    if word == "bytes":
        return Newest(int(tick), int(place), bytes.fromhex(data))
    if word == "shape":
        return _shape_of(int(place), data)
    if row == "row":
        return None
    return outcome_of(word, int(row), int(tick), place, data)
