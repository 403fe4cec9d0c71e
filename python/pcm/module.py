"""A module that answers as it goes: behind a pipe to `pcm stream`, or in this process."""
import copy
import os
from types import TracebackType
from typing import IO, Dict, Iterable, Iterator, List, Optional, Sequence, Type, Union

from .errors import TraceError, UsageError
from .linked import Linked, has
from .outcomes import Backlog, Outcome, Shape, Wear
from .program import Program, command, words_of
from .randomiser import Randomiser
from .rows import HEADER, Given, MaskedWrite, PowerCut, Read, Row, Write, masked, numbered, text_of
from .streamed import Streamed
from .words import LARGE, LATEST_TICK, Handed, wrong_row


class Module:
    """A phase-change memory module: behind a pipe, or in this process.

    `way` says which: `"program"`, or `"library"`, libpcm.so.1, with the same answers; else the environment's PCM_WAY does, where no program is
    named; else it is the library, where there is one, no program is named by the environment's PCM either, and it does what is asked for. The
    library is the one that PCM_LIBRARY names, or else is in the wheel, built or installed. It makes no copies, its options are those of a module
    (and `end="drain"`, `tell`), of which a wrong one shows at once, it knows from the start which lines there are, and no call of it waits, so
    `progress` tells nothing.

    Rows are numbered from 1 in the order in which they are handed in; each call answers its row's number. Outcomes come from `settle`,
    `settle_until`, `finish` and `outcomes`, each once, in the order in which they become known. Rows may be handed in at any rate and
    answers taken at any time: what the pipes don't hold is kept here, so neither side ever waits for the other. Behind `finish` or
    `close`, and where the program draws the rows, none is taken (`ValueError`). `tick` is that of the last row or settle; behind
    `settle_until` the one that was reached. A `Module` isn't to be used by two threads at once.

    With `end="off"` the program adds a cut at the end, unless the last row is one and no settle came behind it: its outcome has the next number,
    which no call has answered (with `until="refused"` the one behind the refused row).

    A row that can't be one is refused as it is handed in, by a `TraceError` whose `status` is None: it isn't sent, nor written to the log,
    and the module goes on. Such are a tick that falls, is beyond 2**40 or is no whole number, a write of another size than a line has, one
    that gives no byte, a settle until of a row that wasn't handed in and, once the `shape` is known, a line that the module hasn't; where it
    isn't known, the program finds such a line, and ends. `line_size` is how many bytes a line has, by the option `line` or by the shape;
    where the program was told so otherwise, the caller sets it (None: any).

    Options are those of `pcm stream`, with `_` for `-`, as `banks=4`, `write_queue=8`, `policy="cancel"`, `end="off"`. `program` names
    the program (else the environment's PCM, or `./pcm` of the checkout) that is to serve it. A call that waits for more than a second tells on standard error
    how many rows have an outcome, and how many a second, where that is a terminal, or always with `progress=True`, or never with False.

    `log` is a text file to which the header is written, and each row with a number before it is sent: a trace that plays the same again by the
    same options, also into another `Module` (`play`); but with `end="off"`, where a settle came last, its cut comes at the tick of the log's
    last row, unless you end with a `cut` of your own. Where the file's `write` fails, its exception is the call's: the row isn't sent and has
    no number, and the module goes on. Whether such a row stands in the file all the same, as a buffered one may write it later, is the
    file's to know. The caller closes the file.

    With `copies=True` the module can be copied (`copy`): the C compiler `cc` builds a library for that, which is preloaded into the program;
    or `copies` is the path of one that was built (`make -C c copies`)."""

    def __init__(
        self, *, program: Program = None, progress: Optional[bool] = None, log: Optional[IO[str]] = None, copies: Union[bool, str] = False,
        way: Optional[str] = None, **options: object,
    ) -> None:
        if options.get("print") not in (None, "rows"):
            raise UsageError(2, "a Module tells the outcome of each row; for other prints there are run, snapshots, and the words of pcm.command('stream')")
        self._rows = self.tick = 0
        self._takes_rows = options.get("input") != "drawn"
        self._is_closed = False
        self._log = log
        self._shape: Optional[Shape] = None
        self._tells_shape = options.get("tell") in ("shape", "module")
        self._lines, self._seed = LARGE.all_lines, int(str(options.get("seed") or 0))
        self._randomiser: Optional[Randomiser] = None
        # (all other sizes are refused)
        self.line_size: Optional[int] = {"None": 64, "64": 64, "128": 128}.get(str(options.get("line")))
        self._way = self._opened(way, program, progress, copies, options)
        try:
            if log is not None:
                log.write(HEADER)
        except BaseException:
            self.close()
            raise

    def _opened(
        self, way: Optional[str], program: Program, progress: Optional[bool], copies: Union[bool, str], options: Dict[str, object]
    ) -> Union[Linked, Streamed]:
        """The module, by the way that is asked for, or else by the library, where it can."""
        named = program is not None or bool(copies)
        asked = way or ("" if named else os.environ.get("PCM_WAY", ""))
        if not asked:
            asked = "library" if not named and not os.environ.get("PCM") and has(options) else "program"
        if asked not in ("library", "program"):
            raise ValueError(f"a module's way is library or program, not {asked!r}")
        if asked == "library" and copies:
            raise ValueError("the library makes no copies of a module: way=\"program\" does")
        if asked == "library":
            linked = Linked(options)
            self._lines = linked.shape.banks * linked.shape.regions * linked.shape.lines
            if self._tells_shape:
                self._learn(linked.shape)
            return linked
        return Streamed(command("stream", program), words_of(options), progress, copies, self._learn)

    def _learn(self, shape: Shape) -> None:
        self._shape, self.line_size = shape, shape.line
        self._seed = self._seed if shape.seed is None else shape.seed
        self._lines = shape.banks * shape.regions * shape.lines

    @property
    def status(self) -> Optional[int]:
        """The program's, or what it would be: 0, or 1 where some row fell short; None until the end was seen."""
        return self._way.status

    @property
    def shape(self) -> Optional[Shape]:
        """What the module is, as it tells by `tell="shape"`, or in full by `tell="module"`; it waits for that. None where it isn't told. `ValueError` where the module was closed
        before it was known."""
        while self._tells_shape and self._shape is None:
            self._way.await_told()
        return self._shape

    def bank_of(self, line: int) -> int:
        """The bank of a line, in whose queue its writes wait, by the `shape`, which it waits for, and the option `seed`. `ValueError` where the shape
        isn't told, `IndexError` where the module has no such line."""
        shape = self.shape
        if shape is None:
            raise ValueError("the module doesn't tell its shape (tell=\"shape\")")
        if not 0 <= line < shape.banks * shape.regions * shape.lines:
            raise IndexError(f"the module has no line {line}")
        if self._randomiser is None:
            self._randomiser = Randomiser(shape.banks * shape.regions * shape.lines, self._seed)
        return self._randomiser.place(line) // (shape.regions * shape.lines)

    def write(self, tick: int, line: int, data: bytes) -> int:
        """A write of a whole line arrives at a tick. Answers the row's number."""
        if type(data) is not bytes:
            data = memoryview(data).tobytes()
        return self._hand("W", tick, line, data, self.line_size is None or len(data) == self.line_size)

    def write_masked(self, tick: int, line: int, data: Sequence[Optional[int]]) -> int:
        """A write that gives some bytes of a line arrives at a tick; `None` stands for each byte that stays. Answers the row's number. `ValueError`
        where a byte is none, 0 to 255."""
        digits = masked(data)
        is_line = self.line_size is None or len(digits) == 2 * self.line_size
        return self._hand("M", tick, line, digits, is_line and digits.strip(".") != "")

    def read(self, tick: int, line: int) -> int:
        """A read of a line arrives at a tick. Answers the row's number."""
        return self._hand("R", tick, line)

    def cut(self, tick: int) -> int:
        """The power is cut at a tick, and is there again at once. Answers the row's number."""
        return self._hand("C", tick, 0)

    def play(self, rows: Iterable[Row]) -> List[Outcome]:
        """Hands the rows of a trace in, as `read_trace` reads them of a `log`, and settles at the tick of the last one: where that was kept of a
        module with the same options, this one stands as that did. Rows that settle are passed over. Answers as `settle`; a log that is long
        may come piece by piece."""
        for row in numbered(rows):
            self._play(row)
        return self.settle(self.tick)

    def settle(self, tick: int) -> List[Outcome]:
        """Every bank goes on to a tick. Answers all outcomes known by then that weren't answered before."""
        self._settle("S", tick)
        return self._way.take()

    def settle_until(self, row: int, tick: int) -> List[Outcome]:
        """The module goes on until a row that was handed in, by its number, has its outcome: from the tick at which it stands to the first one
        behind which that is known, and to `tick` where it isn't by then, as of a write that stays queued. The reached tick is `self.tick`, from
        which the next row may go on. Answers as `settle`."""
        self._settle("U", tick, row, type(row) is int and 0 < row <= self._rows)
        return self._way.take()

    def settle_any(self, tick: int) -> List[Outcome]:
        """The same, until any row has its outcome that had none: to the first tick behind which something is to tell, and to `tick` where nothing is by
        then."""
        self._settle("U", tick, None)
        return self._way.take()

    def peek(self, line: int, tick: Optional[int] = None) -> bytes:
        """Every bank goes on to a tick (None: that at which the module stands, so that none passes). Answers a line's newest bytes: those that the
        module accepted last, wherever they are. No line is sensed for it. Outcomes known by then come from the next `settle`, `outcomes` or `finish`."""
        self._settle("P", self.tick if tick is None else tick, line, type(line) is int and 0 <= line < self._lines)
        return self._way.newest()

    def banks(self, tick: int) -> List[Backlog]:
        """Every bank goes on to a tick. Answers what waits in each then, in order, and whether it goes on; outcomes known by then come from the
        next `settle`, `outcomes` or `finish`."""
        self._settle("Q", tick)
        return self._way.banks()

    def wear(self, tick: Optional[int] = None) -> Wear:
        """Every bank goes on to a tick (None: that at which the module stands). Answers how worn the module is then; it goes over all array lines.
        Outcomes known by then come from the next `settle`, `outcomes` or `finish`."""
        self._settle("L", self.tick if tick is None else tick)
        return self._way.wear()

    def copy(self) -> "Module":
        """A module that stands as this one does at its tick, and goes on by itself; it may be copied, too, and is closed by itself. It takes as long
        behind a million rows as behind one. Outcomes that weren't taken yet are this module's alone, and the copy has no log. `ValueError` where
        copies weren't asked for, or no rows are taken any more; a `PcmError` where the program has ended or can't be copied."""
        if not self._way.can_be_copied:
            raise ValueError("the module is made without copies=True")
        self._settle("S", self.tick)
        made = copy.copy(self)
        made._log = None
        made._way = self._way.copied(made._learn)
        return made

    def outcomes(self) -> Iterator[Outcome]:
        """The outcomes that have come by now and weren't answered before. It doesn't wait. Behind `close` they are those that had come by then."""
        return self._way.coming()

    def finish(self) -> List[Outcome]:
        """No more rows come: the banks drain (or, with `end="off"`, the power stays off). Answers all outcomes that weren't answered
        before; `status` is then 0, or 1 where some row fell short of what it asked for. Once the end was seen, further calls answer as
        that was, behind `close` too; `ValueError` where the module was closed before."""
        self._takes_rows = False
        self._way.finish()
        return self._way.take()

    def close(self) -> None:
        """Ends the module, whatever it does, and frees what it held. It may be called again, and behind anything. Behind it `outcomes` answers what
        was known by then, and so do `shape`, where it was, and `finish`, where the end was seen; all other calls are a `ValueError`."""
        self._takes_rows = False
        self._is_closed = True
        self._way.close()

    def __enter__(self) -> "Module":
        return self

    def __exit__(self, kind: Optional[Type[BaseException]], error: Optional[BaseException], trace: Optional[TracebackType]) -> None:
        try:
            if error is None and not self._way.has_ended:
                self.finish()
        finally:
            self.close()

    def _play(self, row: Row) -> int:
        if isinstance(row, Write):
            return self.write(row.tick, row.line, row.data)
        if isinstance(row, MaskedWrite):
            return self.write_masked(row.tick, row.line, row.data)
        if isinstance(row, Read):
            return self.read(row.tick, row.line)
        if isinstance(row, PowerCut):
            return self.cut(row.tick)
        raise TypeError(f"no row of a trace: {row!r}")

    def _settle(self, op: str, tick: int, row: Optional[int] = 0, is_right: bool = True) -> None:
        """Hands a row that settles in, which names this row or line, None where it is any, and waits for its answer."""
        if not (is_right and self._takes_rows and type(tick) is int and self.tick <= tick <= LATEST_TICK):
            self._look_at(op, tick, row, b"")
            tick, row = int(tick), None if row is None else int(row)
        self.tick = self._way.settle(self._rows + 1, op, tick, row)

    def _hand(self, op: str, tick: int, line: int, data: Given = b"", is_right: bool = True) -> int:
        """Hands a row with a number in: it is refused, or isn't written to the log, or else it is sent and counted."""
        if not (is_right and self._takes_rows and type(tick) is int and self.tick <= tick <= LATEST_TICK and type(line) is int and 0 <= line < self._lines):
            self._look_at(op, tick, line, data)
            tick, line = int(tick), int(line)
        if self._log is not None:
            self._log.write(text_of(op, tick, line, data))
        number = self._rows + 1
        self._way.hand(number, op, tick, line, data)
        self._rows, self.tick = number, tick
        return number

    def _look_at(self, op: str, tick: int, number: Optional[int], data: Given) -> None:
        """Refuses a row that can't be one. (A number of another type may be right: its text tells.)"""
        if not self._takes_rows:
            raise ValueError("the module is closed" if self._is_closed else "no more rows are taken")
        row, size = Handed(self._rows + 1, self.tick, text_of(op, tick, number, data)), len(data) if isinstance(data, bytes) else len(data) // 2
        told = wrong_row(row, (self._lines, self.line_size or size, True))
        if told:
            raise TraceError(None, f"trace row {row.number}: {told[0]}", told[1])
