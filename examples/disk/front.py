"""What a relay's client says and is told: NBD's fixed newstyle with simple replies, over a socket that doesn't block."""
import collections
import socket
import struct
from typing import Callable, Deque, Generator, List, NamedTuple, Optional

import frames
from frames import Bytes, Reply

MULTI, READ_ONLY = 1 << 8, 2  # flags: all connections see one disk; it takes no writes
DIRECT = 1 << 14  # bytes: so many are read where they are to stand
EXPORT, SIZES = 0, 3  # what INFO and GO tell


class Export(NamedTuple):
    """What a client may ask for by its name."""

    size: int
    block: int
    flags: int


class Asked(NamedTuple):
    """A request, without its cookie."""

    command: int
    flags: int
    at: int
    size: int
    data: bytearray


class Leaves(Exception):
    """The client goes, or says what is no message."""


class Client:
    """One client. `export` tells of a name that it asks for, `serve` answers a request."""

    def __init__(self, sock: socket.socket, export: Callable[["Client", str], Optional[Export]], serve: Callable[["Client", Asked], Reply]) -> None:
        sock.setblocking(False)
        self.sock, self.export, self.serve = sock, export, serve
        self.is_switch, self.power = False, 0  # whether it has the export `cut`; how many cuts were told before it
        self.buffer, self.begin, self.end = memoryview(bytearray(1 << 16)), 0, 0
        self.out: Deque[memoryview] = collections.deque()
        self.says = self.session()
        self.wanted, self.done = bytearray(next(self.says)), 0

    def receive(self) -> None:
        """Takes what has come, behind all that came before, and answers."""
        try:
            if len(self.wanted) - self.done >= DIRECT:
                came = self.sock.recv_into(memoryview(self.wanted)[self.done:])
                self.done += came
            else:
                came = self.end = self.sock.recv_into(self.buffer)
                self.begin = 0
        except BlockingIOError:
            return
        if came == 0:
            raise Leaves
        self.go_on()

    def go_on(self) -> None:
        """Takes what stands in the buffer, as long as all answers go out."""
        while not self.out:
            count = min(len(self.wanted) - self.done, self.end - self.begin)
            if count:
                self.wanted[self.done:self.done + count] = self.buffer[self.begin:self.begin + count]
                self.done, self.begin = self.done + count, self.begin + count
            if self.done < len(self.wanted):
                return
            try:
                self.wanted, self.done = bytearray(self.says.send(self.wanted)), 0
            except StopIteration:
                raise Leaves from None

    def send(self) -> None:
        """Says what it can."""
        while self.out:
            try:
                sent = self.sock.sendmsg([*self.out][:16])
            except BlockingIOError:
                return
            while self.out and sent >= len(self.out[0]):
                sent -= len(self.out.popleft())
            if sent:
                self.out[0] = self.out[0][sent:]

    def say(self, *data: Bytes) -> None:
        """Answers."""
        self.out.extend(memoryview(it) for it in data if it)
        self.send()

    def session(self) -> Generator[int, bytearray, None]:
        """What it says, from the greeting on: yields how many bytes are wanted, and is sent these."""
        self.say(frames.GREETING)
        flags, = struct.unpack(">I", (yield 4))
        is_over = flags > 3
        while not is_over:
            magic, which, size = struct.unpack(">QII", (yield 16))
            if magic != frames.OPTION or size > frames.MOST_DATA:
                return
            data = bytes((yield size)) if size else b""
            if which == frames.EXPORT_NAME:
                export = self.export(self, data.decode(errors="replace"))
                if export is None:
                    return
                self.say(struct.pack(">QH", export.size, export.flags), bytes(124 * (flags & 2 == 0)))
                break
            is_over = which == frames.ABORT
            if self.option(which, data):
                break
        while not is_over:
            magic, flags, command, cookie, at, size = struct.unpack(">IHHQQI", (yield 28))
            if magic != frames.REQUEST or command == frames.LEAVE or (command == frames.WRITE and size > frames.MOST_BYTES):
                return
            told = self.serve(self, Asked(command, flags, at, size, (yield size) if command == frames.WRITE and size else bytearray()))
            self.say(frames.reply(told.error, cookie), told.data)

    def option(self, which: int, data: bytes) -> bool:
        """Answers an option; whether requests begin behind it."""
        if which == frames.ABORT:
            self.say(frames.answer(which, frames.ACK))
        elif which == frames.LIST and not data:
            self.say(*(frames.answer(which, frames.SERVER, struct.pack(">I", len(it)) + it) for it in (b"", b"cut")), frames.answer(which, frames.ACK))
        elif which in (frames.INFO, frames.GO) and frames.are_infos(data):
            return self.tell(which, data)
        else:
            self.say(frames.answer(which, frames.INVALID if which in (frames.LIST, frames.INFO, frames.GO) else frames.UNSUPPORTED))
        return False

    def tell(self, which: int, data: bytes) -> bool:
        """Answers INFO or GO."""
        end = 4 + struct.unpack_from(">I", data)[0]
        asked: List[int] = [it for it, in struct.iter_unpack(">H", data[end + 2:])]
        export = self.export(self, data[4:end].decode(errors="replace"))
        if export is None:
            self.say(frames.answer(which, frames.UNKNOWN))
            return False
        told = [struct.pack(">HQH", EXPORT, export.size, export.flags)]
        if SIZES in asked:
            told.append(struct.pack(">HIII", SIZES, 1, export.block, frames.MOST_BYTES))
        self.say(*(frames.answer(which, frames.TOLD, it) for it in told), frames.answer(which, frames.ACK))
        return which == frames.GO
