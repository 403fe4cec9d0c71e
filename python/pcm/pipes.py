"""A process between two pipes: neither side waits for the other."""
import os
import selectors
import subprocess
from typing import Callable, Iterator, Optional

# Pieces of so many bytes are handed to a pipe.
GATHERED = 1 << 16


def exchanged(process: "subprocess.Popen[bytes]", pieces: Iterator[bytes], tell: Callable[[], None], shown: bool) -> Iterator[bytes]:
    """What a process prints, in pieces, while it is handed pieces as far as its pipe takes them. Where progress is shown, it is told in
    between."""
    left = b""
    with selectors.DefaultSelector() as poll:
        assert process.stdout is not None
        poll.register(process.stdout, selectors.EVENT_READ)
        if process.stdin is not None:
            os.set_blocking(process.stdin.fileno(), False)
            poll.register(process.stdin, selectors.EVENT_WRITE)
        while True:
            tell()
            for key, _ in poll.select(0.5 if shown else None):
                if key.fileobj is process.stdout:
                    piece = os.read(key.fd, GATHERED)
                    if not piece:
                        return
                    yield piece
                else:
                    left = left or next(pieces, b"")
                    sent = _handed(key.fd, left)
                    left = left[sent:]
                    if sent is None and process.stdin is not None:
                        poll.unregister(process.stdin)
                        process.stdin.close()


def lines_of(pieces: Iterator[bytes]) -> Iterator[str]:
    """The lines of what comes in pieces; one that isn't ended doesn't count."""
    tail = b""
    for piece in pieces:
        *lines, tail = (tail + piece).split(b"\n")
        yield from (line.decode(errors="replace") for line in lines)


def cut(data: bytes) -> Iterator[bytes]:
    """Bytes in pieces for a pipe."""
    return (data[at:at + GATHERED] for at in range(0, len(data), GATHERED))


def _handed(pipe: int, piece: bytes) -> Optional[int]:
    """How much of a piece a pipe has taken; None where nothing is left to hand over, or nobody takes it."""
    try:
        return os.write(pipe, piece) or None
    except BlockingIOError:
        return 0
    except BrokenPipeError:
        # (the program has ended; its lines, and why, are still to be read)
        return None
