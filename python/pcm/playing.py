"""The processes of a run in parts: one that splits its trace, and for each part a stream, with the passes behind it."""
import contextlib
import fcntl
import os
import pathlib
import shutil
import signal
import subprocess
import sys
import time
from typing import IO, BinaryIO, Callable, Dict, Iterator, List, NamedTuple, Optional, Sequence

from .compiling import compiled
from .errors import PcmError
from .parted import KEPT, PLACED, Asked, Folder, Piece, Split, Told
from .partwise import CUT, RECORD
from .pipes import GATHERED as PIECE

# How often processes are looked at, in seconds, and by when one has ended whose pipes have.
_TICK, _SOON = 0.02, 0.5
# Linux's name for setting the bytes that a pipe holds, and how many are wanted.
_SET_PIPE_SIZE, _PIPE = 1031, 1 << 20
_NOT_PLAIN, _BROKEN_OFF = 9, 70
# How a pass ends where a pipe that it writes to isn't read.
_UNREAD = (-signal.SIGPIPE, 5)
_PARTWISE = os.path.join(os.path.dirname(os.path.abspath(__file__)), "partwise.py")


class PartFailed(PcmError):
    """A part's stream, or a pass behind it, ended otherwise than with a whole run."""


class NotPlain(PcmError):
    """The trace isn't of the form that the pass in C reads (status 3)."""


@contextlib.contextmanager
def passes(in_c: bool) -> Iterator[List[str]]:
    """The words that start a pass: in C where that is wanted and there is a compiler, else in Python."""
    with compiled("parts", in_c) as built:
        yield [built] if built else plain_passes()


def plain_passes() -> List[str]:
    """The words that start a pass in Python."""
    return [sys.executable, "-IB", _PARTWISE]


class Run(NamedTuple):
    """A run in parts: where they stand, what was asked for, and the words that start a stream, the pass that splits, and other passes."""

    folder: Folder
    asked: Asked
    stream: List[str]
    splitter: List[str]
    passing: List[str]

    @property
    def draws_inside(self) -> bool:
        """Whether each stream draws its rows by itself."""
        return self.asked.draws_itself(self.passing != plain_passes())


def _all_of(pipe: Optional[IO[bytes]]) -> bytes:
    return pipe.read() if pipe else b""


class _Process:
    """A process, and what it says on standard error: at most a line, for which a pipe has room."""

    def __init__(self, words: Sequence[str], **how) -> None:
        self.running = subprocess.Popen(words, stderr=subprocess.PIPE, **how)

    @property
    def status(self) -> Optional[int]:
        """How it ended; None while it runs."""
        return self.running.poll()

    def said(self) -> str:
        """What it said, once it has ended."""
        return _all_of(self.running.stderr).decode(errors="replace").strip()

    def end(self) -> None:
        """Ends it, however far it is."""
        if self.running.poll() is None:
            self.running.kill()
        self.running.wait()
        for file in (self.running.stdout, self.running.stderr):
            if file is not None:
                file.close()


@contextlib.contextmanager
def _starting(what: str) -> Iterator[None]:
    """Says what can't be started where the machine has no room for it."""
    try:
        yield
    except OSError as wrong:
        if wrong.filename is not None:
            raise
        raise PcmError(_BROKEN_OFF, f"{what} can't be started: {wrong.strerror}") from None


class Playing:
    """A part that is being played: its stream and what stands behind it, into a file of the folder. Its trace comes from an open file, or
    from its pieces, so many, in the folder; or it is drawn, by the stream or in front of it."""

    def __init__(self, run: Run, part: int, source: Optional[int] = None, pieces: int = 1) -> None:
        self.part, self._folder = part, run.folder
        self._new = run.folder.forget_new(part)
        # (that of a drawn part is written while it is read)
        self._index = self._new.with_name(f"{self._new.name}.index")
        line = [[*run.stream, *run.asked.words()]]
        if run.draws_inside:
            line = [[*run.stream, *run.asked.drawn_words(part)]]
        elif run.asked.is_drawn:
            line.insert(0, [*run.passing, *run.asked.drawing(part, self._index if run.asked.kind in PLACED else None)])
        elif source is None:
            line.insert(0, ["cat", *(str(run.folder.piece("trace", part, piece)) for piece in range(pieces))])
        self._is_fed = len(line) > 1
        line += _behind(run, part, [self._index] if run.asked.is_drawn else [run.folder.piece("index", part, it) for it in range(pieces)])
        self._processes: List[_Process] = []
        try:
            if run.asked.is_drawn and run.asked.kind in PLACED:
                self._index.touch()
            with _starting(f"part {part}"), open(self._new, "wb") as out:
                self._start(line, subprocess.DEVNULL if source is None else source, out)
        except BaseException:
            self.end()
            raise

    def _start(self, line: List[List[str]], source: int, out: BinaryIO) -> None:
        """Starts processes, each of which reads what the one before it writes."""
        for at, one in enumerate(line):
            before = self._processes[-1].running.stdout if at else None
            to = out if at == len(line) - 1 else subprocess.PIPE
            self._processes.append(_Process(one, stdin=before or source, stdout=to, env={**os.environ, "LC_ALL": "C"}))
            if before:
                before.close()

    def ended(self) -> bool:
        """Whether all of it has ended; a failure is raised."""
        if any(it.status is None for it in self._processes):
            # (the one that reads may have failed: then the one that writes ends, too)
            return False
        feeding, (stream, *behind) = self._processes[:self._is_fed], self._processes[self._is_fed:]
        failed = [it for it in (*feeding, *behind) if it.status not in (0, -signal.SIGPIPE)]
        if stream.status not in (0, 1, *_UNREAD):
            # (a trace that breaks off has no fault of its own)
            raise self._failure(failed[0] if stream.status == 3 and failed and feeding else stream)
        # (the last one that failed of itself: those before it wrote to nobody)
        if failed or stream.status in _UNREAD or any(it.status for it in feeding):
            raise self._failure((failed or ([stream] if stream.status in _UNREAD else feeding))[-1])
        self._folder.note_done(self.part, stream.status, self._new)
        return True

    def _failure(self, process: _Process) -> PartFailed:
        line, status = process.said(), process.running.wait()
        if status < 0:
            return PartFailed(_BROKEN_OFF, f"part {self.part} was ended by signal {-status}")
        if status == 6:
            line += " (a part has more rows than a stream takes: --parts, of which there are more, makes them shorter)"
        return PartFailed(status, f"part {self.part}: status {status}: {line}")

    def end(self) -> None:
        """Ends all of it, and takes away what isn't whole."""
        for it in self._processes:
            it.end()
        self._new.unlink(missing_ok=True)
        self._index.unlink(missing_ok=True)


def _behind(run: Run, part: int, pieces: Sequence[pathlib.Path]) -> List[List[str]]:
    """What stands behind the stream of a part, whose index is in these pieces."""
    asked, folder, passing, banks = run.asked, run.folder, run.passing, run.asked.banks_of(part)
    if asked.kind in KEPT:
        return [[*passing, "keep", banks]]
    if asked.kind not in PLACED:
        return []
    index = list(map(str, pieces))
    if not asked.by_number:
        return [[*passing, "place", banks, *index]]
    sort = shutil.which("sort")
    if sort is None:
        raise PcmError(_BROKEN_OFF, "rows by their numbers need the program sort")
    return [[*passing, "place", "--by-number", banks, *index], [sort, "-S", "64M", "-T", str(folder.path)]]


@contextlib.contextmanager
def _ending(*started: "Sequence[Playing | _Process]") -> Iterator[None]:
    """All that was started is at an end behind this."""
    try:
        yield
    finally:
        for some in started:
            for it in some:
                it.end()


class _Splitting(_Process):
    """The pass that splits a trace."""

    def __init__(self, run: Run, source: int, fds: Sequence[int] = (), piece: Optional[Piece] = None) -> None:
        to = ",".join(map(str, fds)) or str(run.folder.path / "trace.")
        words = run.asked.splitting(run.folder.path, to, piece)
        super().__init__([*run.splitter, *words], stdin=source, stdout=subprocess.PIPE, pass_fds=fds)

    def ended(self) -> bool:
        """Whether it has ended well; a fault of the trace is raised."""
        if self.status is None:
            return False
        if self.status == _NOT_PLAIN:
            raise NotPlain(3, "the trace isn't of the plain form that is read fast (quotes, empty lines, a mark); --python reads any")
        if self.status:
            raise _split_failure(self.status, self.said())
        return True

    def told(self) -> Told:
        """What it told of the parts: a short line of each."""
        return Told.read(_all_of(self.running.stdout).decode())


class SplitFailed(PcmError):
    """The trace can't be split: it has a fault, or couldn't be read, or a part couldn't be written."""


def _split_failure(status: int, line: str) -> SplitFailed:
    if status < 0:
        return SplitFailed(_BROKEN_OFF, f"the splitter was ended by signal {-status}")
    row, _, kind = line.partition(": ")
    if kind == "until":
        return SplitFailed(3, f"{row}: a settle until ends at a tick that one bank decides for all: such a trace isn't split")
    if kind == "peek":
        return SplitFailed(3, f"{row}: a peek is answered by one bank's part alone: such a trace isn't split")
    return SplitFailed(status, line)


def split_to_files(run: Run, source: int, tell: Callable[[], None], pieces: int = 1) -> Split:
    """Splits the trace into files of the folder, so many pieces of it side by side. Where one has a fault, or isn't plain, all of it is split
    as one: so the first fault is told."""
    folder, parts = run.folder, run.asked.parts
    before = folder.was_split()
    folder.forget_pieces()
    try:
        split = _split_pieces(run, source, tell, _pieces_of(source, pieces))
    except (SplitFailed, NotPlain) as wrong:
        if pieces == 1 or wrong.status != 3:
            raise
        folder.forget_pieces()
        os.lseek(source, 0, os.SEEK_SET)
        split = _split_pieces(run, source, tell, [])
    is_other = before is not None and (before.rows, before.counts) != (split.rows, split.counts)
    if is_other and len(folder.missing(parts)) < parts:
        raise SplitFailed(3, f"{folder.path} has parts of another trace: name another folder")
    folder.note_split(split)
    return split


def _pieces_of(source: int, count: int) -> List[Piece]:
    """Pieces of a file, each of which ends with a line; none where it is to be one."""
    if count == 1:
        return []
    size, ends = os.fstat(source).st_size, []
    for at in (size * number // count for number in range(1, count)):
        while at < size:
            found = os.pread(source, PIECE, at)
            end = found.find(b"\n")
            at += end + 1 if end >= 0 else len(found)
            if end >= 0 or not found:
                break
        ends.append(at)
    bounds = sorted({0, *ends, size})
    return [Piece(number, *bound) for number, bound in enumerate(zip(bounds, bounds[1:]))]


def _split_pieces(run: Run, source: int, tell: Callable[[], None], pieces: List[Piece]) -> Split:
    """Splits a file's pieces side by side, or all of a source."""
    folder, asked = run.folder, run.asked
    started: List[_Splitting] = []
    with _ending(started), _starting("the splitter"), contextlib.ExitStack() as files:
        for piece in pieces:
            # (each of them reads from a place of its own)
            own = files.enter_context(open(f"/proc/self/fd/{source}", "rb", buffering=0))
            started.append(_Splitting(run, own.fileno(), piece=piece))
        if not pieces:
            started.append(_Splitting(run, source))
        left = started
        while left:
            left = [it for it in left if not it.ended()]
            tell()
            time.sleep(_TICK)
        told = [it.told() for it in started]
    whole = Told(sum(it.rows for it in told), [sum(counts) for counts in zip(*(it.counts for it in told))])
    ticks = [it.ticks for it in told if it.ticks]
    if any(one[1] > other[0] for one, other in zip(ticks, ticks[1:])):
        raise SplitFailed(3, "ticks fall")
    if pieces and ticks and asked.value("end") == "off" and not ticks[-1][2]:
        _add_cut(run, whole, ticks[-1][1], len(pieces) - 1)
    return Split(whole.rows, whole.counts, [[size or 0 for size in folder.sizes(part, len(told))] for part in range(asked.parts)])


def _add_cut(run: Run, whole: Told, tick: int, piece: int) -> None:
    """Adds the cut with which the power goes to the last piece of each part."""
    whole.rows += 1
    for part in range(run.asked.parts):
        whole.counts[part] += 1
        with open(run.folder.piece("trace", part, piece), "ab") as file:
            file.write(f"{tick},C,,\n".encode())
        if run.asked.kind in PLACED:
            with open(run.folder.piece("index", part, piece), "ab") as file:
                file.write(RECORD.pack(tick << 9 | CUT, 0, 1))


def _wait(splitting: "_Splitting", parts: List[Playing], tell: Callable[[], None]) -> None:
    """Until the trace is split, and the parts are played."""
    left = list(parts)
    while True:
        try:
            left = [it for it in left if not it.ended()]
        except PartFailed:
            # (a part that gets no more of its trace fails, too)
            with contextlib.suppress(subprocess.TimeoutExpired):
                splitting.running.wait(_SOON)
            if splitting.status in (None, 0, *_UNREAD):
                raise
        if not left or splitting.status not in (None, *_UNREAD):
            if splitting.ended() and not left:
                return
        tell()
        time.sleep(_TICK)


def play_on_the_way(run: Run, source: int, tell: Callable[[], None]) -> Split:
    """Plays all parts at once, while the trace is split."""
    parts: List[Playing] = []
    splitters: List[_Splitting] = []
    with _ending(splitters, parts), _starting("all parts at once"), contextlib.ExitStack() as files:
        pipes = []
        for part in range(run.asked.parts):
            if run.asked.kind in PLACED:
                # (read while it is written: what is read of it is there by then)
                run.folder.piece("index", part, 0).touch()
            reads, writes = os.pipe()
            pipes.append(files.enter_context(open(writes, "wb", buffering=0)))
            with open(reads, "rb", buffering=0) as given:
                with contextlib.suppress(OSError):
                    fcntl.fcntl(writes, _SET_PIPE_SIZE, _PIPE)
                parts.append(Playing(run, part, given.fileno()))
        splitters.append(_Splitting(run, source, [it.fileno() for it in pipes]))
        files.close()
        _wait(splitters[0], parts, tell)
        told = splitters[0].told()
    return Split(told.rows, told.counts, [])


class _Batch:
    """Parts that are played from files, or drawn, some at a time."""

    def __init__(self, run: Run, split: Split, files: contextlib.ExitStack) -> None:
        self._run, self._split, self._files = run, split, files
        self.running: Dict[int, Playing] = {}
        self._sources: Dict[int, BinaryIO] = {}
        self.failed: List[PcmError] = []
        self.done, self._read = 0, 0

    def start(self, part: int) -> None:
        """Lets a part begin."""
        pieces, source = len(self._split.sizes[part]), None
        if pieces == 1:
            file = open(self._run.folder.piece("trace", part, 0), "rb", buffering=0)
            self._sources[part] = self._files.enter_context(file)
            source = file.fileno()
        self.running[part] = Playing(self._run, part, source, pieces)

    def look(self) -> None:
        """Takes out those that have ended."""
        for part, one in list(self.running.items()):
            try:
                if not one.ended():
                    continue
            except PcmError as wrong:
                self.failed.append(wrong)
            one.end()
            del self.running[part]
            if part in self._sources:
                self._sources.pop(part).close()
            self._read += sum(self._split.sizes[part])
            self.done += 1

    @property
    def read(self) -> int:
        """The bytes of traces that were read, as far as that is known."""
        return self._read + sum(os.lseek(it.fileno(), 0, os.SEEK_CUR) for it in self._sources.values())


def play_parts(run: Run, split: Split, missing: Sequence[int], jobs: int, tell: Callable[[int, int], None], goes_on: bool) -> None:
    """Plays these parts, from files or as they are drawn, so many at a time; of those that fail the first is told, behind the others where
    it goes on."""
    left = list(missing)
    with contextlib.ExitStack() as files:
        batch = _Batch(run, split, files)
        try:
            while left or batch.running:
                while left and len(batch.running) < jobs:
                    batch.start(left.pop(0))
                time.sleep(_TICK)
                batch.look()
                if batch.failed and not goes_on:
                    break
                tell(batch.done, batch.read)
        finally:
            for one in batch.running.values():
                one.end()
        if batch.failed:
            raise batch.failed[0]
