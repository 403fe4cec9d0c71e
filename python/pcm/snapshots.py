"""A stream as it ages: `pcm stream --print snapshots`."""
import contextlib
import itertools
import os
import subprocess
import tempfile
from typing import BinaryIO, Iterable, Iterator, NamedTuple, Optional, Tuple, Union

from .errors import error_of
from .pipes import GATHERED, exchanged, lines_of
from .program import Program, command, words_of
from .progress import Progress
from .rows import HEADER, Row

# No number of the program has more digits.
_DIGITS = 20


class Snapshot(NamedTuple):
    """What a stream had done when so many `rows` were served: the tick that it had reached, how many rows had each outcome by then, the
    spares in use (`retired`), the pulses of all array lines, the most of any line and the mean rounded down, the active pointers of
    all array lines, and how often their lines were sensed and their cells driven to 1 (`set`) and to 0 (`reset`): None where that isn't
    told, as by a program older than 1.4."""

    rows: int
    tick: int
    stored: int
    merged: int
    queued: int
    full: int
    worn: int
    read: int
    forwarded: int
    busy: int
    lost: int
    cut: int
    retired: int
    pulses: int
    most: int
    mean: int
    pointers: int
    senses: Optional[int] = None
    set: Optional[int] = None
    reset: Optional[int] = None

    @property
    def known(self) -> int:
        """How many rows have an outcome."""
        return sum(self[2:12])


# What may be empty or missing.
_ENERGY = ("senses", "set", "reset")
# What never falls from one snapshot to the next; the last may have as many rows as the one before it.
_GROWING = ("rows", "tick", *Snapshot._fields[2:12], "retired", "pulses", "most", "mean", *_ENERGY)
# The headers of snapshots, with energy and without.
HEADERS = (Snapshot._fields, Snapshot._fields[: -len(_ENERGY)])
BEGIN = Snapshot(*[0] * len(Snapshot._fields))


class SnapshotError(ValueError):
    """A line isn't one of snapshots: `row` is its number, 0 that of the header, and `kind` is `header`, `fields`, the name of the number
    that is wrong, or `order of` the one that falls."""

    def __init__(self, row: int, kind: str) -> None:
        super().__init__(f"row {row}: {kind}")
        self.row = row
        self.kind = kind


def read_snapshots(file: Iterable[str]) -> Iterator[Snapshot]:
    """The snapshots of a file, or of other lines, in their order. `SnapshotError` names a line that isn't so."""
    at, before, ended = -1, BEGIN, False
    names: Tuple[str, ...] = Snapshot._fields
    for at, line in enumerate(file):
        fields = line.rstrip("\r\n").split(",")
        if at == 0:
            names = tuple(fields)
            if names not in HEADERS:
                raise SnapshotError(0, "header")
            continue
        now = _parsed(at, fields, names)
        fallen = next((name for name in _GROWING if _falls(getattr(before, name), getattr(now, name))), "rows" if ended else None)
        if fallen is not None:
            raise SnapshotError(at, f"order of {fallen}")
        if now.known > now.rows or not now.mean <= now.most <= now.pulses:
            raise SnapshotError(at, "rows" if now.known > now.rows else "most")
        # (the rows stand still only in the last one, behind the drain)
        ended, before = at > 1 and now.rows == before.rows, now
        yield now
    if at < 0:
        raise SnapshotError(0, "header")


def _falls(before: Optional[int], now: Optional[int]) -> bool:
    """Whether a number fell; one that isn't told doesn't."""
    return before is not None and now is not None and now < before


def _parsed(at: int, fields: "list[str]", names: "tuple[str, ...]") -> Snapshot:
    """A line's numbers, by their names."""
    if len(fields) != len(names):
        raise SnapshotError(at, "fields")
    for name, text in zip(names, fields):
        if not (text.isascii() and text.isdigit() and len(text) <= _DIGITS) and (text or name not in _ENERGY):
            raise SnapshotError(at, name)
    return Snapshot(*(int(text) if text else None for text in fields))  # type: ignore[arg-type]


def snapshots(
    trace: Union[Iterable[Row], str, "os.PathLike[str]", None] = None, /, *, every: Optional[int] = None, program: Program = None,
    progress: Optional[bool] = None, **options: object,
) -> Iterator[Snapshot]:
    """Replays a trace as a stream: rows, which are taken as the program takes them, or the path of a trace, or none with `input="drawn"`.
    Gives a snapshot each `every` rows served (the program's own number, if None), as it becomes known, and one in the end. Options are
    those of `pcm stream`, with `_` for `-`. An end that isn't one of a whole stream is an exception behind the snapshots before it.

    A wait for the next snapshot that is longer than a second tells on standard error how many rows are served, how many a second and which
    part of the trace, where that is a terminal, or always with `progress=True`, or never with False."""
    more = ["--print", "snapshots", *words_of({"every": every, **options})]
    words, path = [*command("stream", program), *more], None
    with contextlib.ExitStack() as held:
        said = held.enter_context(tempfile.TemporaryFile())
        if trace is None or isinstance(trace, (str, os.PathLike)):
            path = None if trace is None else os.fspath(trace)
            given: Union[int, BinaryIO] = held.enter_context(open(path or os.devnull, "rb"))
            pieces: Iterable[bytes] = ()
        else:
            given, pieces = subprocess.PIPE, _pieces(trace)
        process = held.enter_context(subprocess.Popen(words, stdin=given, stdout=subprocess.PIPE, stderr=said))
        # (where the snapshots are left before their end, the program ends too)
        held.callback(process.kill)
        watched, last = Progress(progress), BEGIN
        held.callback(watched.clear)
        total = _total(options) if options.get("input") == "drawn" else None

        def tell() -> None:
            watched.rows(last.rows, last.rows / total if total else _share(given))

        lines = lines_of(exchanged(process, iter(pieces), tell, watched.shown))
        header = next(lines, None)
        if header is not None:
            for last in read_snapshots(itertools.chain([header], lines)):
                watched.clear()
                yield last
        if process.wait() not in (0, 1):
            said.seek(0)
            raise error_of(process.returncode, said.read(), ["stream", *more], path)
        if header is None:
            raise SnapshotError(0, "header")


def _total(options: "dict[str, object]") -> Optional[int]:
    """The rows of a drawn trace."""
    text = str(options.get("rows", 1000))
    return int(text) if text.isascii() and text.isdigit() else None


def _share(given: Union[int, BinaryIO]) -> Optional[float]:
    """How far the program has read the file that it was handed: it reads by this file's own position."""
    try:
        size = 0 if isinstance(given, int) else os.fstat(given.fileno()).st_size
        return None if isinstance(given, int) or not size else os.lseek(given.fileno(), 0, os.SEEK_CUR) / size
    except OSError:
        return None


def _pieces(rows: Iterable[Row]) -> Iterator[bytes]:
    """A trace in pieces for a pipe."""
    gathered = bytearray(HEADER.encode())
    for row in rows:
        gathered += row.text().encode()
        if len(gathered) >= GATHERED:
            yield bytes(gathered)
            gathered.clear()
    yield bytes(gathered)
