"""A module behind a pipe to `pcm stream`."""
import collections
import copy
import os
import selectors
import subprocess
import tempfile
from typing import Callable, Deque, Iterator, List, Optional, Sequence, Union

from .copying import Asks, Copied
from .errors import PcmError, error_of
from .outcomes import Backlog, Newest, Outcome, Settled, Shape, Wear, told_of
from .progress import Progress
from .rows import HEADER, Given, text_of
from .words import Handed

# Rows are gathered up to so many bytes before they are handed to the pipe.
_GATHERED = 1 << 16


class Streamed:
    """A module that the program serves, which was started by these words (the command's options behind `named`). What the pipes don't hold is kept
    here, so neither side ever waits for the other. `learn` is told the module's shape once it is known."""

    def __init__(
        self, named: Sequence[str], options: Sequence[str], progress: Optional[bool], copies: Union[bool, str], learn: Callable[[Shape], None]
    ) -> None:
        self._options, self._learn = list(options), learn
        self._answered = self._tick = 0
        self._tail = b""
        self._out = bytearray(HEADER.encode())
        self._known: Deque[Outcome] = collections.deque()
        # (rows that the program may not have read yet: one of them is told where it is faulty)
        self._unread: Deque[Handed] = collections.deque()
        self._settled: Optional[int] = None
        self._backlogs: List[Backlog] = []
        self._wear: Optional[Wear] = None
        self._newest: Optional[Newest] = None
        self.status: Optional[int] = None
        # (whether it waits to hand rows out, whether the program's end was seen, and whether it was closed)
        self._writing = self._ended = self._closed = False
        self._heard = b""
        self._progress = Progress(progress)
        self._asks = Asks(copies) if copies else None
        self._said, self._poll = tempfile.TemporaryFile(), selectors.DefaultSelector()
        self.process: Union[Copied, "subprocess.Popen[bytes]"]
        words = [*named, *options]
        try:
            if self._asks is not None:
                self.process = self._asks.started(words, self._said)
            else:
                self.process = subprocess.Popen(words, stdin=subprocess.PIPE, stdout=subprocess.PIPE, stderr=self._said)
        except BaseException:
            self._said.close()
            self._poll.close()
            if self._asks is not None:
                self._asks.close()
            raise
        self._begin()

    def _begin(self) -> None:
        """The pipes are waited for."""
        assert self.process.stdin is not None and self.process.stdout is not None
        self._to, self._from = self.process.stdin.fileno(), self.process.stdout.fileno()
        try:
            os.set_blocking(self._to, False)
            os.set_blocking(self._from, False)
            self._poll.register(self._from, selectors.EVENT_READ)
        except BaseException:
            self.close()
            raise

    def hand(self, number: int, op: str, tick: int, line: int, data: Given) -> None:
        """Hands a row with this number in; it is sent sooner or later."""
        self.gather(number, text_of(op, tick, line, data))
        self._tick = tick
        if len(self._out) >= _GATHERED:
            self._pump(wait=False)
            if self._ended:
                raise self.fault()

    def gather(self, number: int, text: str) -> None:
        """A row, by its text, is to be sent; one that settles has the number of the next row."""
        self._out += text.encode()
        self._unread.append(Handed(number, self._tick, text))

    def settle(self, number: int, op: str, tick: int, row: Optional[int]) -> int:
        """Hands a row that settles in, waits for its answer, and answers the tick that was reached."""
        self._backlogs, self._wear, self._newest, self._settled = [], None, None, None
        self.gather(number, text_of(op, tick, row, b""))
        while self._settled is None:
            if self._ended:
                raise self.fault()
            self._pump(wait=True)
        self._unread.clear()
        self._tick = self._settled
        self._progress.clear()
        return self._settled

    def await_told(self) -> None:
        """Waits for what is told next."""
        if self._ended:
            raise self.fault()
        self._pump(wait=True)
        self._progress.clear()

    def banks(self) -> List[Backlog]:
        """What the last query told."""
        return self._backlogs

    def wear(self) -> Wear:
        """What the last look told."""
        assert self._wear is not None
        return self._wear

    def newest(self) -> bytes:
        """What the last peek told."""
        assert self._newest is not None
        return self._newest.data

    def take(self) -> List[Outcome]:
        """The outcomes that were told and not taken."""
        known = list(self._known)
        self._known.clear()
        return known

    def coming(self) -> Iterator[Outcome]:
        """Those that have come by now, one by one."""
        if not self._closed:
            self._pump(wait=False)
        while self._known:
            yield self._known.popleft()

    def copied(self, learn: Callable[[Shape], None]) -> "Streamed":
        """One that goes on from where this one stands."""
        assert self._asks is not None
        made = copy.copy(self)
        made._learn, made._tail, made._out, made._heard = learn, b"", bytearray(), b""
        made._known, made._unread, made._backlogs, made._wear = collections.deque(), collections.deque(), [], None
        made._progress, made._poll, made._writing = Progress(self._progress.shown), selectors.DefaultSelector(), False
        made.process, made._said, made._asks = self._asks.copied()
        made._begin()
        return made

    def finish(self) -> None:
        """No more rows come; waits for the program's end."""
        while self._out and not self._ended:
            self._pump(wait=True)
        self._close_input()
        while not self._ended:
            self._pump(wait=True)
        self._progress.clear()
        if self._reap() not in (0, 1):
            raise self.fault()

    def close(self) -> None:
        """Ends the program, whatever it does."""
        self._writing = False
        self._closed = True
        self._progress.clear()
        self._poll.close()
        self._close_input()
        if self.process.returncode is None:
            if not self._ended:
                self.process.kill()
            self.process.wait()
        if self.process.stdout is not None:
            self.process.stdout.close()
        if self._asks is not None:
            self._asks.close()
        self._hear()
        self._said.close()

    @property
    def can_be_copied(self) -> bool:
        """Whether copies were asked for."""
        return self._asks is not None

    @property
    def has_ended(self) -> bool:
        """Whether the program's end was waited for."""
        return self.process.returncode is not None

    def _pump(self, wait: bool) -> None:
        """Hands rows to the pipe and takes answers from it, as far as it lets; where asked, waits until one of the two was possible, or it is
        time to tell of progress."""
        if self._ended:
            return
        if self._closed:
            raise ValueError("the module is closed")
        if wait:
            self._progress.rows(self._answered)
        if bool(self._out) != self._writing:
            self._writing = bool(self._out)
            if self._writing:
                self._poll.register(self._to, selectors.EVENT_WRITE)
            else:
                self._poll.unregister(self._to)
        for key, _ in self._poll.select(0 if not wait else 0.5 if self._progress.shown else None):
            if key.fd == self._from:
                self._take_in()
            elif self._writing:
                self._hand_out()

    def _hand_out(self) -> None:
        try:
            sent = os.write(self._to, memoryview(self._out)[:_GATHERED])
            del self._out[:sent]
        except BlockingIOError:
            pass
        except BrokenPipeError:
            # (the program has ended; its answers, and why, are still to be read)
            self._out.clear()
            self._close_input()

    def _take_in(self) -> None:
        try:
            piece = os.read(self._from, 1 << 18)
        except BlockingIOError:
            return
        if not piece:
            self._ended = True
            return
        lines = (self._tail + piece).split(b"\n")
        self._tail = lines.pop()
        for line in lines:
            try:
                told = told_of(line.decode())
            except (ValueError, KeyError):
                raise PcmError(None, f"not a line of a stream: {line[:80]!r}") from None
            if isinstance(told, Settled):
                self._settled = told.tick
            elif isinstance(told, Backlog):
                self._backlogs.append(told)
            elif isinstance(told, Wear):
                self._wear = told
            elif isinstance(told, Newest):
                self._newest = told
            elif isinstance(told, Shape):
                self._learn(told)
            elif told is not None:
                self._known.append(told)
                self._answered += 1
                self._is_read(told.row)

    def _is_read(self, row: int) -> None:
        """The program has read the rows up to this one."""
        while self._unread and self._unread[0].number <= row:
            self._unread.popleft()

    def _close_input(self) -> None:
        if self._writing:
            self._poll.unregister(self._to)
            self._writing = False
        if self.process.stdin is not None and not self.process.stdin.closed:
            self.process.stdin.close()

    def _reap(self) -> int:
        self.status = self.process.wait()
        return self.status

    def fault(self) -> PcmError:
        """What went wrong, by the program's status and what it said."""
        self._progress.clear()
        return error_of(self._reap(), self._hear(), ["stream", *self._options], handed=self._unread)

    def _hear(self) -> bytes:
        """What the program has said of faults."""
        if not self._said.closed:
            self._said.seek(0)
            self._heard = self._said.read()
        return self._heard
