"""Runs a program and tells on standard error how far it is: `pcm stream --progress ..`.

    python3 watching.py PROGRAM COMMAND WORD ..     COMMAND is run or stream, and --progress is taken away

What the program prints goes through unchanged, and its status is this one's. How far it is: the rows that it printed, how many a second,
and which share of a file it read, or of its drawn rows it printed; where it prints no row before its end, the time that passed and the
share. Behind its own line it says what is wrong, as the wrapper does."""
import contextlib
import os
import re
import selectors
import signal
import stat
import subprocess
import sys
from typing import List, Optional

if __name__ == "__main__":
    sys.path.insert(0, os.path.dirname(os.path.dirname(os.path.abspath(__file__))))

from pcm.progress import Progress
from pcm.words import explain

_PIECE = 1 << 16
# How often it is looked at, in seconds.
_TICK = 0.2
_WRITE_FAULT = 5


def share_read(process: int) -> Optional[float]:
    """Which share of the file on its standard input a process has read; None where that is no file."""
    try:
        found = os.stat(0)
        if not stat.S_ISREG(found.st_mode) or not found.st_size:
            return None
        with open(f"/proc/{process}/fdinfo/0", encoding="ascii") as told:
            at = re.search(r"(?m)^pos:\s*(\d+)", told.read())
        return min(1.0, int(at.group(1)) / found.st_size) if at else None
    except OSError:
        return None


def _value(words: List[str], name: str, default: str) -> str:
    found = re.findall(rf"(?:^|\n)--{name}[=\n](.*)", "\n".join(words))
    return found[0] if found else default


class Watched:
    """A program that runs, and what is known of how far it is."""

    def __init__(self, program: str, command: str, words: List[str]) -> None:
        self._words = [command, *words]
        self._snapshots = _value(words, "print", "") == "snapshots"
        rows = _value(words, "rows", "1000")
        self._drawn = int(rows) if _value(words, "input", "") == "drawn" and rows.isdigit() and int(rows) else None
        self._lines, self._said = 0, b""
        # (from the beginning of the last line that is ended)
        self._last = b""
        self._faulty = False
        self._progress = Progress(True)
        started = [program, *(words if command == "stream" else self._words)]
        self._process = subprocess.Popen(started, stdout=subprocess.PIPE, stderr=subprocess.PIPE)

    def _rows(self) -> int:
        """The rows that are done: a line is one, but of snapshots the first number of the last line."""
        if not self._snapshots:
            return max(0, self._lines - 1)
        number = self._last.partition(b",")[0]
        return int(number) if number.isdigit() else 0

    def _count(self, piece: bytes) -> None:
        self._lines += piece.count(b"\n")
        if self._snapshots:
            text = self._last + piece
            self._last = text[text.rfind(b"\n", 0, max(0, text.rfind(b"\n"))) + 1 :]

    def _tell(self) -> None:
        if self._progress.due:
            rows = self._rows()
            if rows:
                self._progress.rows(rows, rows / self._drawn if self._drawn else share_read(self._process.pid))
            else:
                self._progress.time(share_read(self._process.pid))

    def _pass_on(self, piece: bytes) -> bool:
        """Hands a piece on to standard output; False where that takes no more, as where its reader is gone."""
        self._count(piece)
        try:
            while piece:
                piece = piece[os.write(1, piece) :]
        except BrokenPipeError:
            return False
        except OSError:
            self._faulty = True
            return False
        return True

    def run(self) -> int:
        """Waits for its end, and answers its status, negative where a signal ended it. A signal to end goes to the program, and what that
        printed before still goes through."""
        for it in (signal.SIGINT, signal.SIGTERM, signal.SIGHUP):
            signal.signal(it, lambda number, _: self._process.send_signal(number))
        try:
            self._watch()
        finally:
            status = self._process.wait()
            self._progress.clear()
        if self._faulty:
            self._said, status = b"write fault\n", _WRITE_FAULT
        os.write(2, self._said)
        return status

    def why(self) -> Optional[str]:
        """What is wrong with the words or the trace, where the program said that something is."""
        return explain(self._words, self._said.decode(errors="replace"), "/dev/stdin" if os.path.isfile("/dev/stdin") else None)

    def _watch(self) -> None:
        output, said = self._process.stdout, self._process.stderr
        assert output is not None and said is not None  # (both are pipes)
        with selectors.DefaultSelector() as waiting, output, said:
            for it in (output, said):
                waiting.register(it, selectors.EVENT_READ)
            while waiting.get_map():
                for key, _ in waiting.select(_TICK):
                    piece = os.read(key.fd, _PIECE)
                    if key.fileobj is said:
                        self._said += piece
                    if not piece or (key.fileobj is output and not self._pass_on(piece)):
                        waiting.unregister(key.fileobj)
                        (said if key.fileobj is said else output).close()
                self._tell()


def main(asked: List[str]) -> int:
    """Runs what is asked for, and ends as it ended."""
    program, command, *words = asked
    watched = Watched(program, command, [it for it in words if it != "--progress"])
    status = watched.run()
    if status in (2, 3, 6) and os.environ.get("PCM_EXPLAIN", "1" if sys.stderr.isatty() else "0") == "1":
        why = watched.why()
        if why:
            print(f"pcm: {why}", file=sys.stderr)
    if status < 0:
        with contextlib.suppress(OSError):
            signal.signal(-status, signal.SIG_DFL)
        os.kill(os.getpid(), -status)
    return status


if __name__ == "__main__":
    sys.exit(main(sys.argv[1:]))
