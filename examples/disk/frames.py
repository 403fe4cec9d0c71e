"""Frames of NBD, as a client builds and reads them, and a model of what `pcm disk` answers to any bytes where no power cut comes and no line
wears out. It is written from docs/FORMATS.md, and knows nothing of the program."""
import io
import os
import struct
import subprocess
from typing import Iterable, List, NamedTuple, Optional, Sequence, Tuple, Union

Bytes = Union[bytes, bytearray, memoryview]
GREETING = b"NBDMAGICIHAVEOPT\0\3"
OPTION, ANSWER, REQUEST, REPLY = 0x49484156454F5054, 0x3E889045565A9, 0x25609513, 0x67446698
EXPORT_NAME, ABORT, LIST, INFO, GO = 1, 2, 3, 6, 7
ACK, SERVER, TOLD, UNSUPPORTED, INVALID, UNKNOWN, TOO_BIG = 1, 2, 3, 0x80000001, 0x80000003, 0x80000006, 0x80000009  # (ERR_UNSUP and its like)
READ, WRITE, LEAVE, FLUSH = 0, 1, 2, 3
FLAGS = 1 | 4 | 8  # of them FLUSH and FUA
REFUSED, IO, MEMORY, EINVAL, NO_SPACE, SHUTDOWN = 1, 5, 12, 22, 28, 108
MOST_BYTES, MOST_DATA = 32 << 20, 8192


def option(which: int, data: bytes = b"", size: Optional[int] = None) -> bytes:
    """An option with its data, of which `size` may say otherwise."""
    return struct.pack(">QII", OPTION, which, len(data) if size is None else size) + data


def asking(name: bytes = b"", infos: Sequence[int] = ()) -> bytes:
    """The data of INFO and GO."""
    return struct.pack(">I", len(name)) + name + struct.pack(f">H{len(infos)}H", len(infos), *infos)


def request(command: int, at: int = 0, size: int = 0, data: bytes = b"", cookie: int = 0, flags: int = 0) -> bytes:
    """A request with the bytes behind it."""
    return struct.pack(">IHHQQI", REQUEST, flags, command, cookie, at, size) + data


def write(at: int, data: bytes, cookie: int = 0, flags: int = 0) -> bytes:
    """A request that writes."""
    return request(WRITE, at, len(data), data, cookie, flags)


def answer(which: int, kind: int, data: bytes = b"") -> bytes:
    """What is answered to an option."""
    return struct.pack(">QIII", ANSWER, which, kind, len(data)) + data


def reply(error: int, cookie: int, data: bytes = b"") -> bytes:
    """What is answered to a request."""
    return struct.pack(">IIQ", REPLY, error, cookie) + data


BEGIN = struct.pack(">I", 3) + option(GO, asking())


class Ending(Exception):
    """How the program ends: its status, and what it says."""

    def __init__(self, status: int, said: str = "") -> None:
        super().__init__(status, said)
        self.status, self.said = status, said


CUT_OFF = 3, "message cut off\n"
NO_MESSAGE = 3, "no message\n"


class Model:
    """A disk of so many bytes that takes whole messages of the bytes of a client; `out` is what it answered."""

    def __init__(self, size: int, data: bytes) -> None:
        self.disk, self.data, self.at = bytearray(size), data, 0
        self.out: List[bytes] = []

    def take(self, count: int) -> bytes:
        """The next bytes of the client."""
        if self.at + count > len(self.data):
            raise Ending(*CUT_OFF)
        self.at += count
        return self.data[self.at - count:self.at]

    def is_over(self) -> bool:
        """Whether the client's bytes end here."""
        return self.at == len(self.data)

    def say(self, *data: bytes) -> None:
        """Answers."""
        self.out += data

    def run(self) -> Tuple[bytes, int, str]:
        """What is answered to all of the client's bytes, the status, and what is said on standard error."""
        try:
            self.handshake()
            while True:
                if self.is_over():
                    raise Ending(0)
                self.request()
        except Ending as end:
            return b"".join(self.out), end.status, end.said

    def handshake(self) -> None:
        """Options up to the one that begins the requests."""
        self.say(GREETING)
        if self.is_over():
            raise Ending(0)
        flags, = struct.unpack(">I", self.take(4))
        if flags > 3:
            raise Ending(*NO_MESSAGE)
        while True:
            if self.is_over():
                raise Ending(0)
            if self.option(flags & 2 == 0):
                return

    def option(self, wants_zeros: bool) -> bool:
        """Whether requests begin behind it."""
        magic, which, size = struct.unpack(">QII", self.take(16))
        if magic != OPTION:
            raise Ending(*NO_MESSAGE)
        data, told = self.take(size), struct.pack(">QH", len(self.disk), FLAGS)
        if which == EXPORT_NAME:
            self.say(told, bytes(124 * wants_zeros))
            return True
        if which == ABORT:
            self.say(answer(which, ACK))
            raise Ending(0)
        if which == LIST:
            self.say(*([answer(which, INVALID)] if data else [answer(which, SERVER, bytes(4)), answer(which, ACK)]))
        elif which not in (INFO, GO):
            self.say(answer(which, UNSUPPORTED))
        elif size > MOST_DATA:
            self.say(answer(which, TOO_BIG))
        elif not are_infos(data):
            self.say(answer(which, INVALID))
        else:
            self.say(answer(which, TOLD, bytes(2) + told), answer(which, ACK))
            return bool(which == GO)
        return False

    def request(self) -> None:
        """Answers one request."""
        magic, flags, command, cookie, at, size = struct.unpack(">IHHQQI", self.take(28))
        if magic != REQUEST:
            raise Ending(*NO_MESSAGE)
        if command == LEAVE:
            raise Ending(0)
        data, error, told = self.take(size) if command == WRITE else b"", 0, b""
        if flags > 1 or command not in (READ, WRITE, FLUSH) or (command != FLUSH and size > MOST_BYTES):
            error = EINVAL
        elif command == READ:
            error, told = self.read(at, size)
        elif command == WRITE:
            error = self.write(at, data)
        self.say(reply(error, cookie, told))

    def read(self, at: int, size: int) -> Tuple[int, bytes]:
        """An error's number, and the bytes."""
        if size == 0 or at + size > len(self.disk):
            return EINVAL, b""
        return 0, bytes(self.disk[at:at + size])

    def write(self, at: int, data: bytes) -> int:
        """An error's number."""
        if not data or at + len(data) > len(self.disk):
            return NO_SPACE if data else EINVAL
        self.disk[at:at + len(data)] = data
        return 0


def are_infos(data: bytes) -> bool:
    """Whether these are the data of INFO or GO."""
    if len(data) < 6:
        return False
    name, = struct.unpack(">I", data[:4])
    return bool(name + 6 <= len(data) and len(data) == name + 6 + 2 * struct.unpack(">H", data[4 + name:6 + name])[0])


class Reply(NamedTuple):
    """What was answered to a request."""

    error: int
    data: Union[bytes, bytearray] = b""


class Client:
    """A client of a program that serves a disk on its standard input and output; one request at a time."""

    def __init__(self, words: Sequence[str], said: Optional[int] = subprocess.PIPE) -> None:
        # (ended by `with`)
        self.program = subprocess.Popen(words, stdin=subprocess.PIPE, stdout=subprocess.PIPE, stderr=said, bufsize=0)  # pylint: disable=consider-using-with
        self.cookie = 0
        assert isinstance(self.program.stdin, io.FileIO) and isinstance(self.program.stdout, io.FileIO)
        self.to, self.back, self.size = self.program.stdin, self.program.stdout, 0

    def __enter__(self) -> "Client":
        self.send(BEGIN)
        self.take(len(GREETING))
        self.size, = struct.unpack(">xxQxx", self.take(20 + 12 + 20)[20:32])
        return self

    def __exit__(self, *_: object) -> None:
        self.end(b"")

    def send(self, *parts: Bytes) -> None:
        """Bytes go to the server."""
        sent = os.writev(self.to.fileno(), parts)
        for part in parts:
            view = memoryview(part)[sent:]
            sent = max(0, sent - len(part))
            while view:
                view = view[self.to.write(view):]

    def take(self, count: int) -> bytearray:
        """The server's next bytes."""
        found, done = bytearray(count), 0
        with memoryview(found) as view:
            while done < count:
                came = self.back.readinto(view[done:])
                if not came:
                    raise EOFError("the server ended")
                done += came
        return found

    def asks(self, command: int, at: int = 0, size: int = 0, data: Bytes = b"", flags: int = 0) -> Reply:
        """A request, and what is answered."""
        self.cookie += 0x100000001
        self.send(request(command, at, size, b"", self.cookie, flags), data)
        magic, error, cookie = struct.unpack(">IIQ", self.take(16))
        if magic != REPLY or cookie != self.cookie:
            raise ValueError(f"a reply to {self.cookie} begins with {magic:#x}, and is to {cookie}")
        return Reply(error, self.take(size) if command == READ and error == 0 else b"")

    def read(self, at: int, size: int) -> Reply:
        """Reads."""
        return self.asks(READ, at, size)

    def write(self, at: int, data: Bytes) -> Reply:
        """Writes."""
        return self.asks(WRITE, at, len(data), data)

    def end(self, last: bytes = request(LEAVE)) -> Tuple[int, str]:
        """Says something last, and waits for the end: the status, and what was said."""
        if self.program.poll() is None and not self.to.closed:
            try:
                self.send(last)
            except BrokenPipeError:
                pass
        out, said = self.program.communicate()
        return self.program.returncode, (said or b"").decode() + ("" if not out else f" and {len(out)} bytes more")


def served(words: Iterable[str], data: bytes, seconds: float = 60) -> Tuple[bytes, int, str]:
    """What a program answers to all bytes of a client, its status, and what it says."""
    done = subprocess.run([*words], input=data, capture_output=True, timeout=seconds)
    return done.stdout, done.returncode, done.stderr.decode()
