"""The passes of `python3 -m pcm parts` in Python: what parts.c does where there is a C compiler, byte for byte; its head says what each is.

    python3 partwise.py split|draw|place|keep|merge WORD ..

It takes any trace that the program takes: quotes, empty lines and a byte order mark, too."""
import argparse
import csv
import heapq
import io
import os
import struct
import sys
from typing import BinaryIO, Callable, Dict, Iterator, List, NamedTuple, Optional, Sequence, Tuple, Union

if not __package__:
    sys.path[0] = os.path.dirname(os.path.dirname(os.path.abspath(__file__)))

from pcm.drawn import Draw, drawn
from pcm.randomiser import Randomiser
from pcm.rows import HEADER
from pcm.words import TOLD, fault_kind

# How many parts there may be: as many as a module may have banks.
MOST_PARTS = 64
# The characters of a key: where a line stands, in 16, and what it is of, in two.
KEY = 18
# What a row is in an index, and one whose place is only counted on.
READ, WRITE, CUT, SETTLE, PASSED = 0, 1, 2, 3, 7
_KINDS = {"R": READ, "W": WRITE, "M": WRITE, "C": CUT, "S": SETTLE, "Q": SETTLE, "L": SETTLE}
# A row of an index: ticks, bank and kind; line; rows that passed.
RECORD = struct.Struct("<QII")
_MOST_PASSED = 0xFFFFFFFF
_MOST = (1 << 64) - 1
_LAST = "f" * 16
# Behind what banks tell: a cut's own row or the answers of banks, a look's, a settle's.
_BANK, _WEAR, _SETTLED = 0x40, 0x80, 0x81


class PassFault(Exception):
    """A pass ends with a status, and a line that says why."""

    def __init__(self, status: int, line: str) -> None:
        super().__init__(line)
        self.status = status


# Splitting.


class _Part(NamedTuple):
    """Where the rows of a part go, and what is known of them."""

    rows: BinaryIO
    known: Optional[BinaryIO]


def _range(text: str) -> range:
    """The banks of a part, as FIRST-LAST."""
    first, _, last = text.partition("-")
    return range(int(first), int(last) + 1)


class _Splitter:
    """Rows on their way to the parts of their banks, in a module of so many lines in so many banks, by the seed of its randomiser."""

    def __init__(self, sizes: Tuple[int, int, int], parts: Sequence[Tuple[range, _Part]], has_header: bool) -> None:
        banks, self.lines, seed = sizes
        self._lines_of_bank = self.lines // banks
        self._place = Randomiser(self.lines, seed).place
        self._parts = [part for _, part in parts]
        self._part_of = {bank: number for number, (banks_of, _) in enumerate(parts) for bank in banks_of}
        self.first: Optional[int] = None
        self.rows, self.tick, self.ends_in_cut = 0, 0, False
        self._counts, self._noted = [0] * len(parts), [0] * len(parts)
        for part in self._parts if has_header else ():
            part.rows.write(HEADER.encode())

    def take(self, op: str, tick: int, line: int, row: bytes) -> None:
        """Takes the next row."""
        kind = _KINDS[op]
        self.first = tick if self.first is None else self.first
        self.tick, self.ends_in_cut = tick, kind == CUT
        self.rows += kind != SETTLE
        if kind in (CUT, SETTLE):
            bank, to = 0, list(range(len(self._parts)))
        else:
            bank = self._place(line) // self._lines_of_bank
            to = [self._part_of[bank]] if bank in self._part_of else []
        for part in to:
            self._counts[part] += kind != SETTLE
            self._note(part, tick << 9 | bank << 3 | kind, line)
            self._parts[part].rows.write(row)

    def _note(self, part: int, first: int, line: int) -> None:
        index = self._parts[part].known
        if index is None:
            return
        index.write(RECORD.pack(first, line, self._note_passed(index, part, _MOST_PASSED)))
        index.flush()

    def _note_passed(self, index: BinaryIO, part: int, room: int) -> int:
        """Notes that rows passed, but for so few that a record has room for them; answers how many these are."""
        passed = self.rows - self._noted[part]
        while passed > room:
            index.write(RECORD.pack(PASSED, 0, min(passed, _MOST_PASSED)))
            passed -= min(passed, _MOST_PASSED)
        self._noted[part] = self.rows
        return passed

    def end(self, off: bool) -> None:
        """Adds the cut with which the power goes, where it does, and closes all files."""
        if off and self.first is not None and not self.ends_in_cut:
            self.take("C", self.tick, 0, f"{self.tick},C,,\n".encode())
        for number, part in enumerate(self._parts):
            if part.known:
                self._note_passed(part.known, number, 0)
                part.known.close()
            part.rows.flush()
        for part in self._parts:
            part.rows.close()

    def told(self, is_piece: bool) -> str:
        """What is told of all parts."""
        ticks = f"ticks {self.first} {self.tick} {int(self.ends_in_cut)}\n" if is_piece and self.first is not None else ""
        return "".join(f"part {part} {count}\n" for part, count in enumerate(self._counts)) + f"{ticks}rows {self.rows}\n"


def _split(words: Sequence[str]) -> None:
    parser = argparse.ArgumentParser(add_help=False)
    parser.add_argument("--off", action="store_true")
    parser.add_argument("--index")
    parser.add_argument("--piece", type=int, nargs=3)
    for name in ("banks", "regions", "lines", "seed", "size"):
        parser.add_argument(name, type=int)
    parser.add_argument("ranges")
    parser.add_argument("to")
    asked = parser.parse_args(words)
    ranges = [_range(text) for text in asked.ranges.split(",")]
    piece, is_first = (asked.piece[0], asked.piece[1] == 0) if asked.piece else (0, True)
    names = [f"{part}.{piece}" for part in range(len(ranges))]
    outs: Sequence[Union[int, str]] = [f"{asked.to}{name}" for name in names]
    if asked.to[:1].isdigit():
        outs = [int(fd) for fd in asked.to.split(",")]
    # (an index is at the bottom: no part has a row of which nothing is known)
    parts = [_Part(open(out, "wb"), open(f"{asked.index}{name}", "wb") if asked.index else None) for out, name in zip(outs, names)]
    sizes = asked.banks, asked.banks * asked.regions * asked.lines, asked.seed
    splitter = _Splitter(sizes, list(zip(ranges, parts)), is_first)
    _split_trace(splitter, asked.size, asked.piece)
    splitter.end(asked.off)
    sys.stdout.write(splitter.told(asked.piece is not None))


def _draw(words: Sequence[str]) -> None:
    parser = argparse.ArgumentParser(add_help=False)
    parser.add_argument("--off", action="store_true")
    parser.add_argument("--index")
    parser.add_argument("numbers")
    parser.add_argument("banks", type=int)
    parser.add_argument("range")
    asked = parser.parse_args(words)
    draw = Draw._make(map(int, asked.numbers.split(",")))
    part = _Part(open(1, "wb", closefd=False), open(asked.index, "wb") if asked.index else None)
    splitter = _Splitter((asked.banks, draw.lines, draw.seed), [(_range(asked.range), part)], True)
    for row in drawn(draw):
        text = row.text()
        op, line = text.split(",", 3)[1:3]
        splitter.take(op, row.tick, int(line or 0), text.encode())
    splitter.end(asked.off)


def _split_trace(splitter: _Splitter, size: int, piece: Optional[Sequence[int]]) -> None:
    shape = splitter.lines, size, True
    records = _records(piece)
    if not (piece and piece[1]) and ",".join(next(records, [])) + "\n" != HEADER:
        raise PassFault(3, "trace row 0: header")
    for record in records:
        kind = fault_kind(record, splitter.tick, shape, splitter.rows + 1)
        if record[1:2] in (["U"], ["P"]) and kind in (None, "line", "payload"):
            kind = "until" if record[1] == "U" else "peek"
        if kind:
            raise PassFault(3, f"trace row {splitter.rows + 1}: {kind}")
        tick, op, arg, _ = record
        splitter.take(op, int(tick), int(arg or 0), (",".join(record) + "\n").encode("latin-1"))


def _records(piece: Optional[Sequence[int]]) -> Iterator[List[str]]:
    """The records of the trace on standard input, or of a piece of it."""
    csv.field_size_limit(2**31 - 1)
    source = sys.stdin.buffer
    if piece:
        source.seek(piece[1])
        source = io.BytesIO(source.read(piece[2] - piece[1]))
    text = io.TextIOWrapper(source, encoding="latin-1", newline="")
    first = text.readline().removeprefix("\xef\xbb\xbf")
    try:
        yield from (record for record in csv.reader(_behind(first, text)) if record)
    except csv.Error:
        raise PassFault(3, "the trace has a row that Python's csv doesn't read") from None


def _behind(first: str, text: io.TextIOWrapper) -> Iterator[str]:
    yield first
    yield from text


# Placing.


class _Row(NamedTuple):
    """A row of a part that has come: its number in the whole trace, its line, its bank."""

    number: int
    line: int
    bank: int


class _Index:
    """Where a part's rows stand in the whole trace, read one by one."""

    def __init__(self, names: Sequence[str]) -> None:
        self._names = list(names)
        self._file: Optional[BinaryIO] = None
        self.kind, self.bank, self.line, self.tick = PASSED, 0, 0, 0
        # (of the part's last row its number there and in the whole trace; how often all settled)
        self.number, self.row, self.settles = 0, 0, 0
        self.has_ended = False
        self.pending: Dict[int, _Row] = {}

    def step(self) -> None:
        """Goes to the part's next row."""
        while True:
            record = self._record()
            if len(record) < RECORD.size:
                self.has_ended = True
                return
            first, self.line, passed = RECORD.unpack(record)
            self.row += passed
            self.kind, self.bank, self.tick = first & 7, first >> 3 & 63, first >> 9
            if self.kind == PASSED:
                continue
            if self.kind == SETTLE:
                self.settles += 1
                return
            self.number += 1
            self.pending[self.number] = _Row(self.row, self.line, self.bank)
            return

    def _record(self) -> bytes:
        while True:
            record = self._file.read(RECORD.size) if self._file else b""
            if record or not self._names:
                return record
            if self._file:
                self._file.close()
            self._file = open(self._names.pop(0), "rb")

    @property
    def place(self) -> int:
        """Where the last row stands in the whole trace, among those that have a number and those that settle."""
        return self.row + self.settles


def _is_now(index: _Index, number: int, row: _Row, word: bytes, tick: int) -> bool:
    """Whether a stream tells now of a row that has come, the next of which it tells something."""
    if word in (b"stored", b"read"):
        is_there = index.kind in (CUT, SETTLE) or index.bank == row.bank
        return is_there and number < index.number + (index.kind == SETTLE) and tick <= index.tick
    if word == b"merged":
        return index.kind == WRITE and index.line == row.line and number < index.number
    if word == b"lost":
        return index.kind == CUT and number < index.number
    return word != b"queued" and number == index.number and index.kind != SETTLE


def _not_of_the_part() -> PassFault:
    return PassFault(3, "the rows aren't those of a stream of this part")


class _Placer:
    """Puts keys in front of what the stream of a part tells."""

    def __init__(self, banks: range, by_number: bool, index: _Index) -> None:
        self._banks, self._by_number, self._index = banks, by_number, index
        # (what the module tells, the part tells that has its first bank)
        self._is_first = 0 in banks
        # (whether all is told of the row at which the index stands: what a row decides itself comes last)
        self._is_done = True

    def placed(self, line: bytes) -> bytes:
        """A line with its key; nothing, where another part has it."""
        return self._answer(line) if line.startswith(b",") else self._row(line)

    def _step(self) -> None:
        self._index.step()
        self._is_done = False

    def _answer(self, line: bytes) -> bytes:
        """A line without a number: what the module or its banks answer where all settle."""
        index = self._index
        if line.startswith(b",shape,"):
            return f"{0:016x}01".encode() + line if self._is_first and not self._by_number else b""
        while not index.has_ended and (index.kind != SETTLE or self._is_done):
            self._step()
        fields = line.split(b",")
        if index.kind != SETTLE or fields[1] not in (b"bank", b"wear", b"settled"):
            raise _not_of_the_part()
        within = _WEAR if fields[1] == b"wear" else _SETTLED
        is_own = within == _WEAR or self._is_first
        if fields[1] == b"bank":
            within = _BANK + int(fields[3])
            is_own = int(fields[3]) in self._banks
        self._is_done = fields[1] == b"settled"
        return f"{index.place:016x}{within:02x}".encode() + line if is_own and not self._by_number else b""

    def _row(self, line: bytes) -> bytes:
        index = self._index
        try:
            told, word, tick, _ = line.split(b",", 3)
            number, at = int(told), int(tick)
        except ValueError:
            raise _not_of_the_part() from None
        while index.number < number and not index.has_ended:
            self._step()
        row = index.pending.get(number)
        if row is None:
            raise _not_of_the_part()
        while not index.has_ended and (self._is_done or not _is_now(index, number, row, word, at)):
            self._step()
        del index.pending[number]
        self._is_done = not index.has_ended and number == index.number and index.kind != SETTLE
        if word == b"cut" and not self._is_first:
            return b""
        if self._by_number:
            key = f"{row.number:016x}00"
        else:
            key = (_LAST if index.has_ended else f"{index.place:016x}") + f"{_BANK if word == b'cut' else row.bank:02x}"
        return f"{key}{row.number},".encode() + line[len(told) + 1:]


def _place(words: Sequence[str]) -> None:
    by_number = words[:1] == ["--by-number"]
    banks, *names = words[by_number:]
    lines, out = sys.stdin.buffer, sys.stdout.buffer
    if lines.readline() != TOLD.encode() + b"\n":
        raise _not_of_the_part()
    placer = _Placer(_range(banks), by_number, _Index(names))
    if 0 in _range(banks):
        out.write(f"{0:018x}{TOLD}\n".encode())
    for line in lines:
        out.write(placer.placed(line))


# Reports, and all parts together.


def _keep(words: Sequence[str]) -> None:
    (text,) = words
    banks = _range(text)
    lines, out = sys.stdin.buffer, sys.stdout.buffer
    head = lines.readline()
    if not head:
        raise _not_of_the_part()
    if 0 in banks:
        out.write(f"{0:018x}".encode() + head)
    for line in lines:
        number, bank, _ = line.split(b",", 2)
        if int(bank) in banks:
            out.write(f"{int(number):016x}01".encode() + line)


def _merge(words: Sequence[str]) -> None:
    lines, senses, *names = words
    out, cuts = sys.stdout.buffer, 0
    files = [open(name, "rb") for name in names]
    looks: List[bytes] = []
    for line in heapq.merge(*files, key=_key):
        within = line[16:KEY]
        if looks and within != b"80":
            out.write(_joined_look(looks, int(lines), cuts * int(senses)))
            looks = []
        if within == b"80":
            looks.append(line[KEY:])
            continue
        cuts += within == b"40" and line[KEY:KEY + 1] != b","
        out.write(line[KEY:])
    for file in files:
        file.close()


def _key(line: bytes) -> bytes:
    if len(line) <= KEY:
        raise PassFault(3, "a part has a line without a key")
    return line[:KEY]


def _joined_look(looks: Sequence[bytes], lines: int, senses: int) -> bytes:
    """The answer of a look by those of the parts. At a cut each part senses control lines of all banks: so many senses, of all parts but
    one, aren't of the whole."""
    fields = [look.rstrip(b"\n").rsplit(b",", 1) for look in looks]
    numbers = [[int(number) for number in field[1].split()] for field in fields]
    found = [min(sum(column), _MOST) for column in zip(*numbers)]
    found[1] = max(one[1] for one in numbers)
    found[2] = found[0] // lines
    found[4] -= (len(looks) - 1) * senses
    return fields[0][0] + b"," + " ".join(map(str, found)).encode() + b"\n"


PASSES: "Dict[str, Callable[[Sequence[str]], None]]" = {"split": _split, "draw": _draw, "place": _place, "keep": _keep, "merge": _merge}


def main(words: Sequence[str]) -> int:
    """Makes the pass that the first word names; answers the status."""
    try:
        PASSES[words[0]](words[1:])
        sys.stdout.flush()
        return 0
    except PassFault as wrong:
        said, status = str(wrong), wrong.status
    except OSError as wrong:
        said, status = f"{wrong.filename or 'standard output'}: {wrong.strerror}", 4 if isinstance(wrong, FileNotFoundError) else 5
    except KeyboardInterrupt:
        return 130
    print(said, file=sys.stderr)
    # (nothing that is still held goes out behind this)
    os._exit(status)


if __name__ == "__main__":
    sys.exit(main(sys.argv[1:]))
