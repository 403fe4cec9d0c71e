"""Whole traces, by the command `run`."""
import io
import os
import subprocess
from dataclasses import dataclass, field
from typing import Dict, Iterable, Iterator, List, Optional, Union

from .errors import error_of
from .image import Image
from .outcomes import Outcome, outcome_of
from .program import Program, command, words_of
from .rows import Row, write_trace
from .words import Handed


@dataclass(frozen=True)
class ResultRow:
    """A row of the results: its number, its operation (`R`, `W` or `C`), its line (none of a power cut), and what became of it."""

    number: int
    op: str
    line: Optional[int]
    outcome: Outcome

    def text(self) -> str:
        """The row as the program prints it."""
        told, line = self.outcome, "" if self.line is None else self.line
        place, data = getattr(told, "place", ""), getattr(told, "data", b"")
        return f"{self.number},{self.op},{line},{told.word},{told.tick},{place},{data.hex()}\n"


@dataclass(frozen=True)
class WearLine:
    """A line of the wear report: the array line, its bank, how often it was pulsed, and its role (`line 7`, `gap`, `free`, ..)."""

    array: int
    bank: int
    pulses: int
    role: str


@dataclass(frozen=True)
class Result:
    """What a run printed. `status` is 1 where some row fell short of what it asked for, else 0. Of `rows`, `summary`, `wear` and `image`
    one is there: that which `print` named."""

    status: int
    rows: List[ResultRow] = field(default_factory=list)
    summary: Dict[str, int] = field(default_factory=dict)
    wear: List[WearLine] = field(default_factory=list)
    image: Optional[Image] = None


def run(trace: Union[Iterable[Row], str, "os.PathLike[str]", None] = None, /, *, program: Program = None, **options: object) -> Result:
    """Replays a whole trace: rows, or the path of a trace, or none with `input="drawn"`. Options are those of `pcm run`, with `_` for `-`,
    as `banks=4`, `print="wear"`. At most 400,000 rows; `Module` takes any number."""
    more = words_of(options)
    words, path, text = [*command("run", program), *more], None, io.StringIO()
    if trace is None or isinstance(trace, (str, os.PathLike)):
        path = None if trace is None else os.fspath(trace)
        with open(path or os.devnull, "rb") as given:
            done = subprocess.run(words, stdin=given, stdout=subprocess.PIPE, stderr=subprocess.PIPE, check=False)
    else:
        write_trace(trace, text)
        done = subprocess.run(words, input=text.getvalue().encode(), stdout=subprocess.PIPE, stderr=subprocess.PIPE, check=False)
    if done.returncode not in (0, 1):
        # (a pipe has been read by now)
        regular = path if path is not None and os.path.isfile(path) else None
        raise error_of(done.returncode, done.stderr, ["run", *more], regular, _handed(text))
    return result_of(done.returncode, done.stdout, str(options.get("print", "results")))


def _handed(trace: io.StringIO) -> Iterator[Handed]:
    """The rows of a trace that was written, as they are told of: each with the tick of the one before."""
    before = 0
    for number, line in enumerate(trace.getvalue().splitlines(keepends=True)[1:], 1):
        yield Handed(number, before, line)
        tick = line.partition(",")[0]
        before = int(tick) if tick.isdecimal() else before


def result_of(status: int, printed: bytes, what: str) -> Result:
    """What a run printed, read back. `what` is one of `results`, `summary`, `wear` and `image`."""
    if what == "image":
        return Result(status, image=Image.read(printed))
    lines = printed.decode().splitlines()
    if what == "summary":
        return Result(status, summary={word: int(number) for word, number in (line.split(" ") for line in lines)})
    cells = [line.split(",") for line in lines[1:]]
    if what == "wear":
        return Result(status, wear=[WearLine(int(array), int(bank), int(pulses), role) for array, bank, pulses, role in cells])
    return Result(status, rows=[_row_of(*fields) for fields in cells])


def _row_of(number: str, op: str, line: str, word: str, tick: str, place: str, data: str) -> ResultRow:
    return ResultRow(int(number), op, int(line) if line else None, outcome_of(word, int(number), int(tick), place, data))
