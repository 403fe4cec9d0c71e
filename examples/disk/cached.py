"""A volatile cache before a disk, as other disks have one: what a write brings is durable once it is flushed, and not before. So software that forgets a
flush loses something, at some power cut. Nothing that is promised of the disk holds of what stands here.

Behind each sector of a write a coin says whether some sector that is held, any of them, goes to the disk; a flush sends all, in a drawn order; before a cut
that comes between requests a coin for each says whether it goes; and a cut takes all that are left."""
import random
from typing import Callable, Dict, Iterator, Tuple

from frames import Reply

Asks = Callable[[int, int], Reply]


def pieces(at: int, size: int, sector: int) -> Iterator[Tuple[int, int]]:
    """Where each sector's part of some bytes begins, and its size."""
    end = at + size
    while at < end:
        next_ = min(end, at - at % sector + sector)
        yield at, next_ - at
        at = next_


class Cache:
    """At most so many sectors of the disk that `read` and `write` ask."""

    def __init__(self, most: int, sector: int, seed: int, read: Asks, write: Callable[[int, bytes], Reply]) -> None:
        self.most, self.sector, self.draw = most, sector, random.Random(seed)
        self.ask_read, self.ask_write = read, write
        self.held: Dict[int, bytearray] = {}

    def lose(self) -> None:
        """The power was cut."""
        self.held.clear()

    def send(self, sector: int) -> int:
        """One goes to the disk."""
        error = self.ask_write(sector * self.sector, bytes(self.held[sector])).error
        if error == 0:
            self.held.pop(sector, None)
        return error

    def send_any(self) -> int:
        """Any of them, where there is one."""
        return self.send(self.draw.choice(list(self.held))) if self.held else 0

    def flush(self) -> int:
        """All of them."""
        error = 0
        while self.held and error == 0:
            error = self.send_any()
        return error

    def scatter(self) -> None:
        """A cut is about to come."""
        for sector in list(self.held):
            if self.draw.random() < 0.5 and sector in self.held:
                self.send(sector)

    def put(self, at: int, data: bytes) -> int:
        """Bytes of one sector."""
        sector, begin = divmod(at, self.sector)
        if sector not in self.held:
            error = self.send_any() if len(self.held) >= self.most else 0
            found = self.ask_read(sector * self.sector, self.sector) if error == 0 else Reply(error)
            if found.error:
                return found.error
            self.held[sector] = bytearray(found.data)
        self.held[sector][begin:begin + len(data)] = data
        return 0

    def write(self, at: int, data: bytes, is_through: bool) -> int:
        """Any bytes; with `is_through` they are durable then."""
        for begin, size in pieces(at, len(data), self.sector):
            error = self.put(begin, data[begin - at:begin - at + size])
            if error == 0 and is_through:
                error = self.send(begin // self.sector)
            elif error == 0 and self.draw.random() < 0.5:
                error = self.send_any()
            if error:
                return error
        return 0

    def read(self, at: int, size: int) -> Reply:
        """Any bytes, as they were written last."""
        error, data = self.ask_read(at, size)
        found = bytearray(data)
        for begin, count in pieces(at, size, self.sector) if error == 0 else ():
            held = self.held.get(begin // self.sector)
            if held:
                found[begin - at:begin - at + count] = held[begin % self.sector:begin % self.sector + count]
        return Reply(error, found)
