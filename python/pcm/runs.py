"""A run by the files that it left: its results or its snapshots, and where they are given its trace, wear report, image and summary."""
import codecs
import collections
import csv
import functools
import hashlib
import io
import itertools
import os
import re
import sys
import tempfile
from dataclasses import dataclass, field
from typing import Dict, Iterator, List, NamedTuple, Optional, Sequence, Tuple, cast

from .devices import Units
from .errors import PcmError, ReadFault, error_of
from .image import Image, ImageError
from .progress import Progress
from .randomiser import Randomiser
from .rows import SETTLING
from .snapshots import HEADERS, Snapshot, SnapshotError, read_snapshots
from .words import RESULTS, TOLD
from .worn import HEADER as WEAR, MOST, MOST_PULSES, ROLES, Wear, Worn

OUTCOMES = ("stored", "merged", "queued", "full", "worn", "read", "forwarded", "busy", "lost", "cut")
# The operation of each outcome's row.
OPERATIONS = {word: "W" if at < 5 else "R" if at < 9 else "C" for at, word in enumerate(OUTCOMES)}
# The options of a run that say what it was, with their defaults.
DEFAULTS: Dict[str, str] = {
    "banks": "4", "regions": "2", "lines": "64", "line": "64", "spares": "8", "seed": "0", "write-queue": "32", "read-queue": "32",
    "psi": "100", "policy": "pause", "registers": "guarded", "read-ticks": "5", "iter-ticks": "10", "lo": "100000000", "hi": "100000000",
    "misses": "0", "input": "source",
}
# The options of a drawn trace, and those of a stream's end.
DRAWN: Dict[str, str] = {"rows": "1000", "write-percent": "50", "cuts": "0", "step": "10", "hot": "0"}
STREAMS: Dict[str, str] = {"end": "drain", "until": "end"}
# So many rows of a file are read between two looks at the clock.
_TOLD_EACH = 1 << 12
# The digits of the greatest number.
_MOST_DIGITS = 20
_HEXADECIMAL = re.compile("[0-9a-fA-F]+")
_ROLE = re.compile(rf"{ROLES[0]} [0-9]{{1,10}}|{'|'.join(ROLES[1:])}")


class FileFault(PcmError):
    """A file isn't what a report is made of, or two files aren't of one run (status 3)."""

    def __init__(self, line: str) -> None:
        super().__init__(3, line)


class Known(NamedTuple):
    """What became of a row: its operation, its line (none of a cut, nor where a stream's trace isn't given), outcome, tick and place."""

    op: str
    line: Optional[int]
    word: str
    tick: int
    place: Optional[int]


class Arrival(NamedTuple):
    """A row of a trace: its tick, its operation (`W` for masked writes, too) and its line (none of a cut)."""

    tick: int
    op: str
    line: Optional[int]


@dataclass(frozen=True)
class Shape:
    """How a module is built: its banks, the regions of each, the lines of each region, the spares of each bank, and whether registers
    stand in the array."""

    banks: int
    regions: int
    lines: int
    spares: int
    in_array: bool

    @functools.cached_property
    def slots(self) -> int:
        """The slots of a bank."""
        return self.regions * (self.lines + 1)

    @functools.cached_property
    def array_lines(self) -> int:
        """The array lines of a bank: slots, spares and control lines."""
        return self.slots + self.spares + (self.regions + self.spares + 1) * self.in_array

    def options(self) -> Dict[str, str]:
        """The options that build it."""
        home = "array" if self.in_array else "guarded"
        return {"banks": str(self.banks), "regions": str(self.regions), "lines": str(self.lines), "spares": str(self.spares), "registers": home}


class Source(NamedTuple):
    """A file that a report is made of: what it is to the run, its name, and its bytes."""

    kind: str
    name: str
    data: bytes

    @property
    def checksum(self) -> str:
        """The SHA-256 of its bytes."""
        return hashlib.sha256(self.data).hexdigest()

    @property
    def text(self) -> str:
        """Its text, without a byte order mark."""
        return self.data.removeprefix(codecs.BOM_UTF8).decode("utf-8", "replace")


@dataclass
class Run:
    """A run: its name, its options and where each is known from, its files, what became of each row of its trace (none of them, where
    snapshots alone are known), what else is known of it, how many nanoseconds a tick stands for, where that was told, the units of its energy, the
    rate, in megabytes a second, for which its life is told, and what is remarked where its times aren't those of the device."""

    name: str
    options: Dict[str, str]
    origins: Dict[str, str]
    files: List[Source]
    rows: List[Known]
    arrivals: Optional[List[Arrival]] = None
    wear: Optional[Wear] = None
    image: Optional[Image] = None
    summary: Optional[Dict[str, int]] = None
    snapshots: List[Snapshot] = field(default_factory=list)
    explained: Optional[str] = None
    tick_ns: Optional[float] = None
    units: Units = Units()
    rate: Optional[float] = None
    remark: str = ""

    @property
    def has_rows(self) -> bool:
        """Whether it is known what became of each row."""
        return any(file.kind == "results" for file in self.files)

    @property
    def total(self) -> int:
        """How many rows were served."""
        return len(self.rows) if self.has_rows or not self.snapshots else self.snapshots[-1].rows

    @property
    def spares(self) -> Optional[int]:
        """The spares of the module, where any of its options is known."""
        return self.shape.banks * self.shape.spares if self.origins else None

    @functools.cached_property
    def shape(self) -> Shape:
        """How the module is built, by the options; these must be whole by then."""
        banks, regions, lines, spares = (int(self.options[name]) for name in ("banks", "regions", "lines", "spares"))
        return Shape(banks, regions, lines, spares, self.options["registers"] == "array")

    @functools.cached_property
    def banks(self) -> List[Optional[int]]:
        """The bank of each row: by its place, or else by its line, where one is known."""
        wide = self.shape.array_lines
        return [
            row.place // wide if row.place is not None else None if row.line is None else self.bank_of_line(row.line) for row in self.rows
        ]

    @functools.cached_property
    def waits(self) -> Dict[Tuple[str, Optional[int]], List[int]]:
        """The ticks from arrival to outcome, from the least on, by outcome and bank, and by outcome alone; none without a trace."""
        found: Dict[Tuple[str, Optional[int]], List[int]] = collections.defaultdict(list)
        for row, came, bank in zip(self.rows, self.arrivals or [], self.banks):
            found[row.word, bank].append(row.tick - came.tick)
        for (word, bank), ticks in list(found.items()):
            ticks.sort()
            if bank is not None:
                found[word, None] += ticks
        return {key: sorted(ticks) if key[1] is None else ticks for key, ticks in found.items()}

    @functools.cached_property
    def counts(self) -> Dict[str, int]:
        """How often each outcome came."""
        if self.snapshots and not self.has_rows:
            return {word: getattr(self.snapshots[-1], word) for word in OUTCOMES}
        found = collections.Counter(row.word for row in self.rows)
        return {word: found[word] for word in OUTCOMES}

    @functools.cached_property
    def _randomiser(self) -> Randomiser:
        return Randomiser(self.shape.banks * self.shape.regions * self.shape.lines, int(self.options["seed"]))

    def bank_of_line(self, line: int) -> int:
        """The bank of a line of the module, by the randomiser."""
        return self._randomiser.place(line) // (self.shape.regions * self.shape.lines)


def opened(kind: str, name: str, progress: Optional[Progress] = None) -> Source:
    """A file's bytes; `-` is standard input."""
    shown = os.fsencode(name).decode("utf-8", "replace")
    try:
        if name == "-":
            return Source(kind, "standard input", b"".join(_pieces(cast(io.BufferedReader, sys.stdin.buffer), progress)))
        with open(name, "rb") as file:
            return Source(kind, shown, file.read())
    except OSError as wrong:
        raise ReadFault(4, f"{shown}: {wrong.strerror}") from None


def _pieces(file: io.BufferedReader, progress: Optional[Progress]) -> Iterator[bytes]:
    """A pipe's bytes as they come, with the rows of so far as progress."""
    rows = 0
    if progress is not None:
        progress.restart()
    while True:
        piece = file.read1(1 << 18)
        if not piece:
            return
        rows += piece.count(b"\n")
        if progress is not None:
            progress.rows(rows, None, "rows read")
        yield piece


def results_of(source: Source, progress: Optional[Progress] = None, line_bytes: Optional[int] = None) -> List[Known]:
    """The rows of results, or those of a stream in the order of their numbers; of lines of so many bytes, where that is known."""
    records = _records(source, progress)
    header = _header(records)
    if header == RESULTS.split(","):
        return [_result(source, at, record) for at, record in _whole(source, records, 7, line_bytes)]
    if header == TOLD.split(","):
        return _streamed(source, _whole(source, records, 5, line_bytes))
    raise FileFault(f"{source.name} row 0: header")


def parted(table: Source) -> Tuple[Source, Source]:
    """A trace and the results behind it, of a text that has both."""
    head, found, rest = table.data.partition(f"\n{RESULTS}\n".encode())
    if not found:
        raise FileFault(f"{table.name}: no results behind the trace: their first line must be {RESULTS}")
    return Source("trace", table.name, head + found[:1]), Source("results", table.name, found[1:] + rest)


def joined(trace: Source, results: Source) -> bytes:
    """A trace with results behind it, as `pcm check` reads them."""
    return (trace.data if trace.data.endswith(b"\n") else trace.data + b"\n") + results.data


def fault_of(status: int, said: bytes, words: Sequence[str], trace: Source, results: Source) -> PcmError:
    """The exception for what the program said, by its words, of a trace with results behind it: `why` begins with the name of the one that the
    fault is about, and has the line of that one."""
    with tempfile.NamedTemporaryFile() as whole:
        whole.write(joined(trace, results))
        whole.flush()
        wrong = error_of(status, said, words, whole.name)
    if wrong.line == "trace too long":
        return type(wrong)(wrong.status, wrong.line, f"{trace.name} with {results.name} behind it")
    if not re.match("(trace|results) row ", wrong.line):
        return wrong
    above = joined(trace, results._replace(data=b"")).count(b"\n")
    why = wrong.why or ""
    at = re.match(r"(line |the results end with line )(\d+)", why)
    # (a trace that has no results behind it goes on into what stands there)
    if wrong.line.startswith("trace ") and not (at and int(at[2]) > above):
        return type(wrong)(wrong.status, wrong.line, f"{trace.name}: {why}" if why else trace.name)
    if at:
        why = f"{at[1]}{int(at[2]) - above}{why[at.end():]}"
    return type(wrong)(wrong.status, wrong.line, f"{results.name}: {why}" if why else results.name)


def are_snapshots(source: Source) -> bool:
    """Whether a file is one of snapshots, by its header."""
    return tuple(source.text.split("\n", 1)[0].rstrip("\r").split(",")) in HEADERS


def snapshots_of(source: Source) -> List[Snapshot]:
    """The snapshots of a file; there is at least one."""
    try:
        found = list(read_snapshots(source.text.splitlines()))
    except SnapshotError as wrong:
        raise FileFault(f"{source.name} {wrong}") from None
    if not found:
        raise FileFault(f"{source.name}: no snapshot")
    return found


def arrivals_of(source: Source, progress: Optional[Progress] = None) -> List[Arrival]:
    """The rows of a trace that have a number."""
    records = _records(source, progress)
    if next(records, (0, []))[1] != ["tick", "op", "arg", "data"]:
        raise FileFault(f"{source.name} row 0: header")
    found: List[Arrival] = []
    for at, record in records:
        tick, op, line = _fields(source, at, record, 4)[:3]
        if op not in ("R", "W", "M", "C", *SETTLING):
            raise FileFault(f"{source.name} row {at}: op")
        if op not in SETTLING:
            known = None if op == "C" else _natural(source, at, "line", line)
            found.append(Arrival(_natural(source, at, "tick", tick), "W" if op == "M" else op, known))
        if len(found) > 1 and found[-1].tick < found[-2].tick:
            raise FileFault(f"{source.name} row {at}: order")
    return found


def wear_of(source: Source, progress: Optional[Progress] = None) -> Wear:
    """A wear report, with or without what `--print lines` adds."""
    plain = _plain_wear(source, progress or Progress(False))
    if plain is not None:
        return plain
    records = _records(source, progress)
    header = _header(records)
    if header[:4] != WEAR:
        raise FileFault(f"{source.name} row 0: header")
    wear = Wear("pointers" in header)
    for at, record in records:
        row = _worn(source, at, header, record)
        wear.extend([row.bank], [row.pulses], [row.role], None if row.pointers is None else [row.pointers])
    return wear


def _plain_wear(source: Source, progress: Progress) -> Optional[Wear]:
    """A wear report in the form in which it is printed, read fast; None where it is anything else, which is for `_records` to tell."""
    file = io.BytesIO(source.data)
    header = file.readline().decode("latin-1").rstrip("\n").split(",")
    wear = Wear("pointers" in header)
    if header[:4] != WEAR:
        return None
    progress.restart()
    while True:
        rows = [line.rstrip(b"\n").split(b",") for line in itertools.islice(file, _TOLD_EACH)]
        if not rows:
            return wear
        if any(len(row) != len(header) for row in rows):
            return None
        try:
            _extend(wear, dict(zip(header, zip(*rows))))
        except (OverflowError, ValueError):
            return None
        progress.rows(len(wear), file.tell() / len(source.data), f"rows of {source.name}")


def _extend(wear: Wear, columns: Dict[str, Tuple[bytes, ...]]) -> None:
    """Adds plain rows by their columns. `ValueError` where one isn't so."""
    roles = [role.decode("ascii") for role in columns.pop("role")]
    found = {name: list(map(int, column)) for name, column in columns.items() if name in MOST}
    are_plain = all(b"".join(column).isdigit() or not any(column) and name not in MOST for name, column in columns.items())
    are_short = all(len(text) < _MOST_DIGITS for column in columns.values() for text in column)
    if not (are_plain and are_short and all(map(_ROLE.fullmatch, roles)) and found["array"] == list(range(len(wear), len(wear) + len(roles)))):
        raise ValueError("not of the plain form")
    wear.extend(found["bank"], found["pulses"], roles, found.get("pointers"))


def _worn(source: Source, at: int, header: List[str], record: List[str]) -> Worn:
    """A row of a wear report. What an array can't tell is empty behind the role."""
    fields = dict(zip(header, _fields(source, at, record, len(header))))
    role = fields.pop("role")
    told = {
        name: _natural(source, at, name, text, MOST.get(name, MOST_PULSES)) for name, text in fields.items() if text or name in MOST
    }
    if told["array"] > at - 1:
        raise FileFault(f"{source.name} row {at}: array (line {at - 1} is missing: a report wants all array lines, without --skip)")
    if told["array"] != at - 1:
        raise FileFault(f"{source.name} row {at}: array")
    if not _ROLE.fullmatch(role) or int(role.partition(" ")[2] or 0) > MOST["array"]:
        raise FileFault(f"{source.name} row {at}: role")
    return Worn(told["array"], told["bank"], told["pulses"], role, told.get("pointers"))


def summary_of(source: Source) -> Dict[str, int]:
    """The numbers of a summary, by their words."""
    words = ("rows", *OUTCOMES, "retired", "pulses")
    pairs = [line.split(" ") for line in source.text.splitlines()]
    if [pair[0] for pair in pairs] != list(words):
        raise FileFault(f"{source.name}: not a summary")
    return {pair[0]: _natural(source, at, pair[0], " ".join(pair[1:])) for at, pair in enumerate(pairs, 1)}


def image_of(source: Source) -> Image:
    """The module of an image."""
    try:
        return Image.read(source.data)
    except ImageError as wrong:
        raise FileFault(f"{source.name}: {wrong}") from None


def shape_of_wear(source: Source, wear: Wear) -> Shape:
    """How the module of a wear report is built: it has a line of a slot for each line of the module, and a gap for each region."""
    every = range(len(wear))
    banks = wear.banks[-1] + 1 if wear else 0
    regions, rest = divmod(wear.count("gap", every), max(1, banks))
    lines, over = divmod(wear.count("line", every), max(1, banks * regions))
    control = wear.count("control", every) > 0
    spares = (len(wear) // max(1, banks) - regions * (lines + 1) - (regions + 1) * control) // (1 + control)
    shape = Shape(banks, regions, lines, spares, control)
    if rest or over or not lines or spares < 0 or wear.banks.tobytes() != b"".join(bytes([at]) * shape.array_lines for at in range(banks)):
        raise FileFault(f"{source.name}: not the wear report of a whole module")
    return shape


def _header(records: Iterator[Tuple[int, List[str]]]) -> List[str]:
    """The fields of the first record; none where there is none."""
    for _, fields in records:
        return fields
    return []


def _records(source: Source, progress: Optional[Progress] = None) -> Iterator[Tuple[int, List[str]]]:
    """The records of a file with commas, numbered from 0."""
    reader = csv.reader(io.TextIOWrapper(io.BytesIO(source.data), "utf-8-sig", "replace", newline=""))
    at, lines = 0, max(1, source.data.count(b"\n"))
    if progress is not None:
        progress.restart()
    try:
        for record in reader:
            if record:
                yield at, record
                at += 1
            if progress is not None and at % _TOLD_EACH == 0:
                progress.rows(at, at / lines, f"rows of {source.name}")
    except csv.Error:
        raise FileFault(f"{source.name} row {at}: fields") from None


def _fields(source: Source, at: int, record: List[str], count: int) -> List[str]:
    if len(record) != count:
        raise FileFault(f"{source.name} row {at}: fields")
    return record


def _natural(source: Source, at: int, name: str, text: str, most: Optional[int] = None) -> int:
    if not (text.isascii() and text.isdigit() and len(text) <= _MOST_DIGITS and (most is None or int(text) <= most)):
        raise FileFault(f"{source.name} row {at}: {name}")
    return int(text)


def _whole(
    source: Source, records: Iterator[Tuple[int, List[str]]], columns: int, line_bytes: Optional[int]
) -> Iterator[Tuple[int, List[str]]]:
    """Records of so many fields, of which the last is data, and that with the outcome three before it: a line's digits where a read is
    answered, as many in each, else none."""
    sizes: Tuple[int, ...] = (128, 256) if line_bytes is None else (2 * line_bytes,)
    for at, record in records:
        word, data = _fields(source, at, record, columns)[-4], record[-1]
        if word in ("read", "forwarded"):
            if len(data) not in sizes or not _HEXADECIMAL.fullmatch(data):
                raise FileFault(f"{source.name} row {at}: data")
            sizes = (len(data),)
        elif data and word in OPERATIONS:
            raise FileFault(f"{source.name} row {at}: data")
        yield at, record


def _result(source: Source, at: int, record: List[str]) -> Known:
    number, op, line, word, tick, place, _ = _fields(source, at, record, 7)
    if number != str(at):
        raise FileFault(f"{source.name} row {at}: row")
    known = _outcome(source, at, word, tick, place)
    if op != known.op:
        raise FileFault(f"{source.name} row {at}: op")
    if op == "C":
        return known
    return known._replace(line=_natural(source, at, "line", line))


def _outcome(source: Source, at: int, word: str, tick: str, place: str) -> Known:
    if word not in OPERATIONS:
        raise FileFault(f"{source.name} row {at}: outcome")
    if (place != "") != (word in ("stored", "read")):
        raise FileFault(f"{source.name} row {at}: place")
    known = _natural(source, at, "place", place) if place else None
    return Known(OPERATIONS[word], None, word, _natural(source, at, "tick", tick), known)


def _streamed(source: Source, records: Iterator[Tuple[int, List[str]]]) -> List[Known]:
    found: Dict[int, Known] = {}
    for at, record in records:
        number, word, tick, place, _ = _fields(source, at, record, 5)
        if word in ("bank", "wear", "shape", "settled") and number == "":
            continue
        row = _natural(source, at, "row", number)
        if row in found:
            raise FileFault(f"{source.name} row {at}: row {row} comes twice")
        found[row] = _outcome(source, at, word, tick, place)
    for row in range(1, len(found) + 1):
        if row not in found:
            raise FileFault(f"{source.name}: row {row} is missing")
    return [found[row] for row in range(1, len(found) + 1)]
