"""A run in parts: what is asked for, and the folder in which its parts stand."""
import contextlib
import dataclasses
import errno
import fcntl
import json
import os
import pathlib
from dataclasses import dataclass, field
from typing import Dict, Iterator, List, NamedTuple, Optional, Tuple

from .drawn import Draw, draw_of
from .errors import PcmError, UsageError
from .runs import DRAWN, Shape
from .words import COMMANDS

# What stands in a file of the folder that says how parts were asked for.
_VERSION = 2
# Of what is printed: rows, which are put in their places, and reports of which each part keeps the rows of its banks.
PLACED, KEPT = ("rows",), ("wear", "lines", "map")
# A stream draws the rows of a part by itself where there are so few parts: it draws those of others more slowly than a pass in C does, and its
# own without making text of them.
_FEW = 8


def part_of(bank: int, banks: int, parts: int) -> int:
    """The part that has a bank: banks that follow each other are in one, and all parts have as many, but for one."""
    return bank * parts // banks


class InUse(PcmError):
    """Another call is at work in a folder (status 5)."""


class Broken(PcmError):
    """What should stand in a folder doesn't (status 4)."""


@dataclass(frozen=True)
class Asked:
    """A run in parts: the options of its stream, in how many parts it is, whether its rows are printed by their numbers, and its trace, a
    file by its whole path, its bytes and the time of its last change, or nothing where that is standard input or drawn."""

    options: Dict[str, str]
    parts: int
    by_number: bool
    trace: Optional[str] = None
    size: Optional[int] = None
    changed: Optional[int] = None

    def value(self, name: str) -> str:
        """The value of an option of the stream."""
        return self.options.get(name, COMMANDS["stream"].options[name].default)

    @property
    def kind(self) -> str:
        """What is printed."""
        return self.value("print")

    @property
    def is_drawn(self) -> bool:
        """Whether the seed draws the trace."""
        return self.value("input") == "drawn"

    @property
    def banks(self) -> int:
        """The banks of the module."""
        return int(self.value("banks"))

    @property
    def shape(self) -> Shape:
        """The sizes of the module."""
        regions, lines, spares = (int(self.value(name)) for name in ("regions", "lines", "spares"))
        return Shape(self.banks, regions, lines, spares, self.value("registers") == "array")

    @property
    def senses(self) -> int:
        """How many control lines a power cut reads back, in the whole module."""
        shape = self.shape
        return (shape.regions + shape.spares + 1) * shape.banks * shape.in_array

    def banks_of(self, part: int) -> str:
        """The banks of a part, the first one and the last one."""
        first, behind = (-(-it * self.banks // self.parts) for it in (part, part + 1))
        return f"{first}-{behind - 1}"

    @property
    def draw(self) -> Draw:
        """How its rows are drawn."""
        return draw_of({name: self.value(name) for name in COMMANDS["stream"].options})

    def draws_itself(self, is_fast: bool) -> bool:
        """Whether the stream of a part draws its rows, where the pass that may do so is fast or isn't."""
        if not self.is_drawn or self.kind in PLACED or self.value("end") == "off" or not COMMANDS["stream"].options["rows"].takes(self.value("rows")):
            return False
        return self.parts <= _FEW or not is_fast

    def words(self) -> List[str]:
        """The words of the stream of a part whose rows it reads."""
        left_out = ("input", *DRAWN)
        return [word for name, value in self.options.items() if name not in left_out for word in (f"--{name}", value)]

    def drawn_words(self, part: int) -> List[str]:
        """Those of one that draws them itself."""
        first, last = self.banks_of(part).split("-")
        return [*(word for name, value in self.options.items() for word in (f"--{name}", value)), "--first-bank", first, "--last-bank", last]

    def drawing(self, part: int, index: Optional[pathlib.Path]) -> List[str]:
        """The words of the pass that draws a part."""
        words = ["draw", *["--off"] * (self.value("end") == "off"), *(["--index", str(index)] if index else [])]
        return [*words, ",".join(map(str, self.draw)), self.value("banks"), self.banks_of(part)]

    def splitting(self, folder: pathlib.Path, to: str, piece: "Optional[Piece]" = None) -> List[str]:
        """The words of the pass that splits the trace, or a piece of it, behind all of which a cut is still to be added."""
        words = ["split", *["--off"] * (self.value("end") == "off" and piece is None)]
        if self.kind in PLACED:
            words += ["--index", str(folder / "index.")]
        if piece is not None:
            words += ["--piece", *map(str, piece)]
        ranges = ",".join(map(self.banks_of, range(self.parts)))
        return [*words, *(self.value(name) for name in ("banks", "regions", "lines", "seed", "line")), ranges, to]


class Piece(NamedTuple):
    """A piece of a trace that is split by itself: its number, and the bytes from which and up to which it goes."""

    number: int
    begin: int
    end: int


@dataclass
class Told:
    """What the pass told that split a trace, or a piece of it: how many rows have a number, and of each part how many; of a piece that has
    rows the first tick and the last one, and whether the last row is a cut."""

    rows: int = 0
    counts: List[int] = field(default_factory=list)
    ticks: Optional[Tuple[int, int, bool]] = None

    @staticmethod
    def read(text: str) -> "Told":
        """By its text."""
        told = Told()
        for word, *numbers in (line.split() for line in text.splitlines()):
            if word == "part":
                told.counts.append(int(numbers[1]))
            elif word == "ticks":
                told.ticks = int(numbers[0]), int(numbers[1]), numbers[2] == "1"
            else:
                told.rows = int(numbers[0])
        return told


@dataclass
class Split:
    """What a trace was split into: its rows with a number, those of each part, and the bytes of each part's pieces. A drawn trace has none."""

    rows: int
    counts: List[int]
    sizes: List[List[int]]

    @staticmethod
    def drawn(asked: Asked) -> "Split":
        """That of a drawn trace, whose parts are drawn each by itself."""
        _, rows, _, cuts, *_ = asked.draw
        # (a row with the power's last cut more, unless one is a cut by itself)
        apart = max(1, rows // (cuts + 1))
        more = asked.value("end") == "off" and not (rows % apart == 0 and rows // apart <= cuts)
        return Split(rows + more, [], [[]] * asked.parts)


class Folder:
    """Where the parts of a run stand: `asked`, `split`, and of part K the pieces `trace.K.P` and `index.K.P`, `told.K` and `done.K`, which
    says that `told.K` is whole. Each is there whole or not at all, but for what a process that was killed left behind, which the next call takes away."""

    def __init__(self, path: "str | os.PathLike[str]") -> None:
        self.path = pathlib.Path(path)

    def name(self, kind: str, part: int) -> pathlib.Path:
        """A part's file."""
        return self.path / f"{kind}.{part}"

    def piece(self, kind: str, part: int, piece: int) -> pathlib.Path:
        """A piece of a part's trace or index."""
        return self.path / f"{kind}.{part}.{piece}"

    def sizes(self, part: int, pieces: int) -> List[Optional[int]]:
        """The bytes of a part's pieces; None of one that isn't there."""
        return [_size(self.piece("trace", part, piece)) for piece in range(pieces)]

    # (the locks go with the process that holds them, however it ends)

    @contextlib.contextmanager
    def held(self, part: Optional[int] = None) -> Iterator[None]:
        """Nobody else works at the folder meanwhile, or at this part of it."""
        with contextlib.ExitStack() as files:
            self._lock(files, self.path / "lock", fcntl.LOCK_EX if part is None else fcntl.LOCK_SH)
            if part is not None:
                self._lock(files, self.name("lock", part), fcntl.LOCK_EX)
            yield

    def _lock(self, files: contextlib.ExitStack, path: pathlib.Path, how: int) -> None:
        file = files.enter_context(open(path, "ab"))
        try:
            fcntl.flock(file, how | fcntl.LOCK_NB)
        except OSError as wrong:
            if wrong.errno not in (errno.EWOULDBLOCK, errno.EACCES):
                raise
            raise InUse(5, f"{self.path}: another call is at work there") from None

    def begin(self) -> None:
        """Makes the folder where it isn't there."""
        self.path.mkdir(exist_ok=True)
        if not (self.path / "asked").exists() and any(it.name != "lock" for it in self.path.iterdir()):
            raise UsageError(2, f"{self.path} has other files: name a folder that is empty, or isn't there")

    def asked(self) -> Optional[Asked]:
        """What was asked for when the folder was made; None of a new one."""
        found = self._read("asked")
        if found is None:
            return None
        if found.pop("version", None) != _VERSION:
            raise UsageError(2, f"{self.path} was made by another version: name another folder")
        return Asked(**found)

    def note_asked(self, asked: Asked) -> None:
        """Notes it."""
        self._write("asked", {"version": _VERSION, **dataclasses.asdict(asked)})

    def split(self) -> Optional[Split]:
        """How the trace was split; None where it wasn't, or a part that wasn't played isn't there whole."""
        found = self._read("split")
        if found is None:
            return None
        split = Split(**found)
        is_there = (self.status(part) is not None or self.sizes(part, len(sizes)) == sizes for part, sizes in enumerate(split.sizes))
        return split if all(is_there) else None

    def was_split(self) -> Optional[Split]:
        """How it was split, whether its parts are still there or not."""
        found = self._read("split")
        return None if found is None else Split(**found)

    def note_split(self, split: Split) -> None:
        """Notes that the trace is split."""
        self._write("split", dataclasses.asdict(split))

    def status(self, part: int) -> Optional[int]:
        """The status with which a part was played; None where it wasn't, or what it told isn't there whole."""
        found = self._read(f"done.{part}")
        if found is None or _size(self.name("told", part)) != found["size"]:
            return None
        return int(found["status"])

    def note_done(self, part: int, status: int, new: pathlib.Path) -> None:
        """Notes that a part is played, and puts in its place what it told."""
        size = _size(new)
        new.replace(self.name("told", part))
        self._write(f"done.{part}", {"status": status, "size": size})

    def missing(self, parts: int) -> List[int]:
        """The parts that aren't played."""
        return [part for part in range(parts) if self.status(part) is None]

    def forget_new(self, part: int) -> pathlib.Path:
        """The name under which a part tells until it is done. What a process that was killed left of it goes, even where another still writes
        there."""
        for left in self.path.glob(f"new.{part}.*"):
            left.unlink(missing_ok=True)
        return self.path / f"new.{part}.{os.getpid()}"

    def forget_pieces(self) -> None:
        """Takes away what a trace was split into."""
        for kind in ("trace", "index"):
            for left in self.path.glob(f"{kind}.*.*"):
                left.unlink(missing_ok=True)

    def _read(self, name: str) -> "Optional[Dict]":
        try:
            text = (self.path / name).read_text(encoding="utf-8")
        except FileNotFoundError:
            return None
        try:
            found = json.loads(text)
        except ValueError:
            raise Broken(4, f"{self.path / name} isn't what a call wrote there: remove the folder") from None
        return found

    def _write(self, name: str, what: "Dict") -> None:
        new = self.path / f"{name}.new"
        with open(new, "w", encoding="utf-8") as file:
            json.dump(what, file)
            file.write("\n")
            file.flush()
            os.fsync(file.fileno())
        new.replace(self.path / name)


def _size(path: pathlib.Path) -> Optional[int]:
    try:
        return path.stat().st_size
    except FileNotFoundError:
        return None


def trace_of(path: str) -> Tuple[str, int, int]:
    """A file that is split: its whole path, its bytes and the time of its last change."""
    found = os.stat(path)
    return os.path.realpath(path), found.st_size, found.st_mtime_ns
