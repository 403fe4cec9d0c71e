"""The rows of a trace."""
import csv
import re
from dataclasses import dataclass
from typing import IO, Iterable, Iterator, Optional, Sequence, Union

HEADER = "tick,op,arg,data\n"


def masked(data: Sequence[Optional[int]]) -> str:
    """The digits of bytes, two dots for each that is to stay. `ValueError` where one is no byte, 0 to 255."""
    return "".join(".." if byte is None else bytes((byte,)).hex() for byte in data)


# What a row gives: the bytes of a line, or the digits of one that gives some of them.
Given = Union[bytes, str]


def text_of(op: str, tick: int, number: Optional[int], data: Given) -> str:
    """The text of a row by its letter and its number: a line, or the row that a settle until waits for, None where that is any."""
    named = "" if number is None or op not in "RWMPU" else str(number)
    return f"{tick},{op},{named},{data if isinstance(data, str) else data.hex()}\n"


@dataclass(frozen=True)
class Read:
    """A read of a line arrives at a tick."""

    tick: int
    line: int

    def text(self) -> str:
        return f"{self.tick},R,{self.line},\n"


@dataclass(frozen=True)
class Write:
    """A write of a whole line arrives at a tick: 64 bytes, or 128 where lines have as many."""

    tick: int
    line: int
    data: bytes

    def text(self) -> str:
        return f"{self.tick},W,{self.line},{self.data.hex()}\n"


@dataclass(frozen=True)
class MaskedWrite:
    """A write that gives some bytes of a line, at least one: `None` stands for each byte that is to stay."""

    tick: int
    line: int
    data: Sequence[Optional[int]]

    def text(self) -> str:
        return f"{self.tick},M,{self.line},{masked(self.data)}\n"


@dataclass(frozen=True)
class PowerCut:
    """The power is cut at a tick, and is there again at once."""

    tick: int

    def text(self) -> str:
        return f"{self.tick},C,,\n"


@dataclass(frozen=True)
class Settle:
    """Every bank goes on to a tick. A row of streams alone, without a number."""

    tick: int

    def text(self) -> str:
        return f"{self.tick},S,,\n"


@dataclass(frozen=True)
class Query:
    """Every bank goes on to a tick, and what waits in each then is told. A row of streams alone, without a number."""

    tick: int

    def text(self) -> str:
        return f"{self.tick},Q,,\n"


@dataclass(frozen=True)
class SettleUntil:
    """The module goes on until `row`, the number of a row that came before, has its outcome, or where that is None any row that had none: to the
    first tick behind which it has, and to `tick` where it has none by then. The rows behind may have any tick from the reached one on. A row of
    streams alone, without a number."""

    tick: int
    row: Optional[int] = None

    def text(self) -> str:
        return f"{self.tick},U,{'' if self.row is None else self.row},\n"


@dataclass(frozen=True)
class Look:
    """Every bank goes on to a tick, and how worn the module is then is told. A row of streams alone, without a number."""

    tick: int

    def text(self) -> str:
        return f"{self.tick},L,,\n"


@dataclass(frozen=True)
class Peek:
    """Every bank goes on to a tick, and what a line's newest bytes are then is told. A row of streams alone, without a number."""

    tick: int
    line: int

    def text(self) -> str:
        return f"{self.tick},P,{self.line},\n"


Row = Union[Read, Write, MaskedWrite, PowerCut, Settle, Query, SettleUntil, Look, Peek]
# Those that settle, by their letters: a stream's alone, and without a number.
SETTLING = {"S": Settle, "Q": Query, "U": SettleUntil, "L": Look, "P": Peek}


def numbered(rows: Iterable[Row]) -> Iterator[Row]:
    """The rows that have a number, which are a trace by themselves: without those that settle."""
    return (row for row in rows if not isinstance(row, tuple(SETTLING.values())))


def write_trace(rows: Iterable[Row], file: IO[str]) -> int:
    """Writes the header and the rows of a trace, and answers how many rows there were."""
    file.write(HEADER)
    count = 0
    for row in rows:
        file.write(row.text())
        count += 1
    return count


def read_trace(file: Iterable[str]) -> Iterator[Row]:
    """The rows of a trace, as the program takes it: quotes, empty lines and a byte order mark are no fault. Open the file with newline="".
    `ValueError` names the first row that isn't one."""
    number = count = 0
    try:
        for record in csv.reader(_unmarked(file)):
            if not record:
                continue
            if number:
                row = _row_of(record, count)
                count += record[1] not in SETTLING
                yield row
            elif ",".join(record) + "\n" != HEADER:
                raise ValueError("header")
            number += 1
    except csv.Error:
        raise ValueError(f"row {number}: fields") from None
    except ValueError as wrong:
        raise ValueError(f"row {number}: {wrong}") from None


def _unmarked(file: Iterable[str]) -> Iterator[str]:
    """Lines, of which the first has lost a byte order mark."""
    for number, line in enumerate(file):
        yield line.removeprefix("\ufeff") if number == 0 else line


def _row_of(fields: Sequence[str], count: int) -> Row:
    """The row of these fields, behind so many that have a number; `ValueError` has the first thing wrong with it, a word of docs/FORMATS.md."""
    if len(fields) != 4:
        raise ValueError("fields")
    op, data = fields[1], fields[3]
    if op not in ("R", "W", "M", "C", *SETTLING):
        raise ValueError("op")
    tick = _natural("tick", fields[0])
    if op == "U":
        return SettleUntil(tick, _row_before(count, fields[2], data))
    if op == "C" or (op in SETTLING and op != "P"):
        if fields[2] or data:
            raise ValueError("line" if fields[2] else "payload")
        return PowerCut(tick) if op == "C" else SETTLING[op](tick)
    line = _natural("line", fields[2])
    form = {"R": "", "P": "", "W": "(?:[0-9a-fA-F]{2})+", "M": r"(?:[0-9a-fA-F]{2}|\.\.)+"}[op]
    if not re.fullmatch(form, data):
        raise ValueError("payload")
    if op in "RP":
        return Read(tick, line) if op == "R" else Peek(tick, line)
    if op == "W":
        return Write(tick, line, bytes.fromhex(data))
    pairs = (data[at:at + 2] for at in range(0, len(data), 2))
    return MaskedWrite(tick, line, [None if pair == ".." else int(pair, 16) for pair in pairs])


def _row_before(count: int, text: str, data: str) -> Optional[int]:
    """The number of one of so many rows, None where none is named."""
    row = _natural("line", text) if text else None
    if row is not None and not 1 <= row <= count:
        raise ValueError("line")
    if data:
        raise ValueError("payload")
    return row


def _natural(kind: str, text: str) -> int:
    if not (text.isascii() and text.isdigit()):
        raise ValueError(kind)
    return int(text)
