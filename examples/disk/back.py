"""What a relay asks its program: each request as often as power cuts want it, its log, and what became of all."""
import io
from typing import Optional, Tuple

import frames
from cached import Cache, pieces
from frames import Bytes, Reply
from front import Asked
from power import Power
from recorded import NOTE, Fault, Log, Record
from words import Words, Wrong

BURST = 65536  # bytes of a read by which time passes


class Attached(frames.Client):
    """A client of a program that another one has greeted."""

    def __init__(self, to: io.FileIO, back: io.FileIO, size: int) -> None:  # pylint: disable=super-init-not-called
        self.to, self.back, self.size, self.cookie = to, back, size, 0

    def end(self, last: bytes = b"") -> Tuple[int, str]:
        """It isn't asked any more."""
        self.to.close()
        self.back.close()
        return 0, ""


class Disk:
    """The program, its log, and what became of requests."""

    def __init__(self, words: Words) -> None:
        own, seed = words.own, words.number("cut-seed", 1)
        self.words, self.sector, self.is_torn = words, words.number("sector", 4096), own["tear"] == "any"
        self.power = Power(own["on-cut"], words.cuts, words.number("cut-every", 10000), int(own["cut-requests"]), seed)
        self.counts = dict(requests=0, reads=0, writes=0, flushes=0, read_bytes=0, written_bytes=0, read_only=0)
        self.log: Optional[Log] = None
        self.cache: Optional[Cache] = None
        self.behind = 0  # how many requests of its log the program has answered
        self.program = self.begin()
        self.size = self.program.size
        if int(own["cache"]):
            self.cache = Cache(int(own["cache"]), self.sector, seed, lambda at, size: self.through(frames.READ, at, size),
                               lambda at, data: self.through(frames.WRITE, at, len(data), data))
        if own["log"]:
            self.begin_log()

    def begin(self) -> frames.Client:
        """The program is started, or is there already."""
        if self.words.own["attached"]:
            to, back, size, self.behind = map(int, self.words.own["attached"].split(","))
            return Attached(io.FileIO(to, "w"), io.FileIO(back), size)
        program = frames.Client(self.words.program(), None)
        try:
            return program.__enter__()
        except (EOFError, BrokenPipeError):
            raise Wrong(f"{self.words.program()[0]} disk: it has ended: {' '.join(self.words.program()[2:])}") from None

    def begin_log(self) -> None:
        """What was logged is asked again."""
        only = self.words.own["log-requests"]
        log = Log(self.words.own["log"], self.words.of_options(), int(only) if only else None)
        for number, it in enumerate(log.again(), 1):
            error = it.error if it.command == NOTE or number <= self.behind else self.once(it.command, it.at, it.size, it.data, it.flags).error
            if error != it.error:
                raise Fault(f"{log.name}, request {number}: it is answered otherwise: another program has written the log")
            if error == frames.SHUTDOWN:
                self.power.comes(is_told=False)
        self.log = log

    def once(self, command: int, at: int, size: int, data: Bytes = b"", flags: int = 0) -> Reply:
        """A request, as the program answers it."""
        reply = self.program.asks(command, at, size, data, flags)
        self.counts["requests"] += 1
        self.counts["reads" if command == frames.READ else "writes" if command == frames.WRITE else "flushes"] += 1
        if command == frames.WRITE and reply.error == 0:
            self.counts["written_bytes"] += size
        elif command == frames.READ and reply.error == 0:
            self.counts["read_bytes"] += size
        elif reply.error == frames.IO:
            self.counts["read_only"] = 1
        if self.log is not None:
            self.log.keep(Record(command, at, size, reply.error, flags, data))
            if command == frames.WRITE and reply.error:
                self.log.keep(Record(NOTE, self.made(at, data), 0))
            if command == frames.FLUSH or flags:
                self.log.flush()
        return reply

    def made(self, at: int, data: Bytes) -> int:
        """How many bytes of a stopped write are there."""
        done = 0
        for begin, size in pieces(at, len(data), self.sector):
            while (found := self.once(frames.READ, begin, size)).error == frames.SHUTDOWN:
                self.power.comes(is_told=False)
            if found.error or found.data != bytes(data[begin - at:begin - at + size]):
                break
            done = begin - at + size
        return done

    def through(self, command: int, at: int, size: int, data: Bytes = b"", flags: int = 0) -> Reply:
        """The same, where what a power cut ended is asked again, sector by sector, unless clients are told of the cut."""
        parts = [(at, size)]
        if command == frames.WRITE and self.is_torn:
            parts = list(pieces(at, size, self.sector))
            self.power.draw.shuffle(parts)
        found = []
        view = memoryview(data)
        while parts:
            begin, count = parts.pop(0)
            reply = self.once(command, begin, count, view[begin - at:begin - at + count] if command == frames.WRITE else b"", flags)
            if reply.error == frames.SHUTDOWN and not self.power.comes():
                parts[:0] = pieces(begin, count, self.sector) if count else [(begin, count)]
            elif reply.error:
                return Reply(reply.error)
            else:
                found.append(reply.data)
        return Reply(0, found[0] if len(found) == 1 else b"".join(found))

    def cut(self) -> bool:
        """The power is cut between requests: time passes, by reads, until the program's is. Whether it was."""
        told = self.power.told
        if self.cache is not None:
            self.cache.scatter()
        while self.power.left > 0 and self.power.told == told:
            error = self.once(frames.READ, 0, min(BURST, self.size)).error
            if error == frames.SHUTDOWN:
                self.power.comes(is_told=True)
            elif error:
                break
        if self.cache is not None and self.power.told != told:
            self.cache.lose()
        return self.power.told != told

    def serve(self, it: Asked) -> Reply:
        """A client's request."""
        if it.command not in (frames.READ, frames.WRITE, frames.FLUSH) or it.flags > 1:
            return Reply(frames.EINVAL)
        if it.command != frames.FLUSH and (it.size == 0 or it.size > frames.MOST_BYTES or it.at + it.size > self.size):
            return Reply(frames.NO_SPACE if it.command == frames.WRITE and it.size else frames.EINVAL)
        if it.command == frames.WRITE and self.counts["read_only"]:
            return Reply(frames.REFUSED)
        if it.command != frames.READ and self.power.before_a_request() and self.cut():
            return Reply(frames.SHUTDOWN)
        if self.cache is None:
            return self.through(it.command, it.at, it.size, it.data, it.flags)
        reply = self.by_cache(self.cache, it)
        if reply.error == frames.SHUTDOWN:
            self.cache.lose()
        return reply

    def by_cache(self, cache: Cache, it: Asked) -> Reply:
        """The same, by a cache."""
        if it.command == frames.READ:
            return cache.read(it.at, it.size)
        error = cache.write(it.at, it.data, it.flags != 0) if it.command == frames.WRITE else cache.flush()
        return self.through(it.command, 0, 0) if it.command == frames.FLUSH and error == 0 else Reply(error)

    def told(self) -> str:
        """The counts as text."""
        return "".join(f"{name} {count}\n" for name, count in {**self.counts, **self.power.counts()}.items())
