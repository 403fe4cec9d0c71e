#!/usr/bin/env python3
"""Which rows of its module the requests of a disk's log are: how sectors lie on lines (atomic_sectors, disk_lines), and what each request reads and writes
there. Their ticks aren't in a log: `play` hands them to a module as one that waits for room would, each a tick behind the one before.

    rows.py PCM LOG TRACE [--option VALUE ..]      writes a trace of them, by options in the place of the log's; TRACE.args has all

A write that a cut stopped amid a sector has no rows of that sector. (Where it wrote what stood there, its log doesn't tell how far it came.)"""
import collections
import pathlib
import subprocess
import sys
from typing import IO, Deque, Dict, Iterator, List, NamedTuple, Optional, Set, Tuple

sys.path.append(str(pathlib.Path(__file__).resolve().parent.parent.parent / "python"))
import frames  # noqa: E402
import recorded  # noqa: E402
from cached import pieces  # noqa: E402
from frames import Bytes  # noqa: E402
from pcm.randomiser import Randomiser  # noqa: E402
from recorded import NOTE, Fault, Record  # noqa: E402
from words import sectors_of  # noqa: E402

HEADER = "tick,op,arg,data\n"
LAST_TICK = 2**40
DEFAULTS = {
    "banks": "4", "regions": "2", "lines": "64", "line": "64", "spares": "8", "seed": "0", "sector": "4096", "write-queue": "32", "read-queue": "32", "psi": "100",
    "lo": "100000000", "hi": "100000000", "registers": "guarded", "policy": "pause",
}
NOT_THE_MODULES = ("sector", "cuts", "cut-every", "cut-seed", "cut-ticks", "on-cut")


class Row(NamedTuple):
    """A row without its tick."""

    op: str
    line: int
    data: str = ""

    def at(self, tick: int) -> str:
        """The row as it stands in a trace."""
        return f"{tick},{self.op},{self.line if self.op != 'C' else ''},{self.data}\n"


def options_of(log: str) -> Dict[str, str]:
    """The options of a disk by its log: those that are said, and the others."""
    words = recorded.options_of(log)
    return {**DEFAULTS, **{name[2:]: value for name, value in zip(words[::2], words[1::2])}}


class Layout:
    """How a disk's sectors lie on the lines of its module."""

    def __init__(self, options: Dict[str, str]) -> None:
        self.banks, self.regions, self.lines, self.line, self.sector = (int(options[it]) for it in ("banks", "regions", "lines", "line", "sector"))
        self.all, self.block = self.banks * self.regions * self.lines, self.sector // self.line
        self.randomiser = Randomiser(self.all, int(options["seed"]))
        self.sectors = sectors_of(self.all, self.line, self.block)

    def of_module(self, line: int) -> int:
        """The line of the module that is a line of the disk."""
        around, bank = divmod(line, self.banks)
        offset, region = divmod(around, self.regions)
        return self.randomiser.line((bank * self.regions + region) * self.lines + offset)

    def of_disk(self, line: int) -> int:
        """The line of the disk that is a line of the module."""
        place, offset = divmod(self.randomiser.place(line), self.lines)
        bank, region = divmod(place, self.regions)
        return (offset * self.regions + region) * self.banks + bank

    def place(self, line: int) -> Tuple[int, int, int]:
        """Bank, region and offset of a line of the module."""
        place, offset = divmod(self.randomiser.place(line), self.lines)
        return (*divmod(place, self.regions), offset)

    def word(self, sector: int) -> Tuple[int, int]:
        """The line of the disk that holds a sector's word of the map, and the byte of it."""
        line, at = divmod(sector, self.line // 4)
        return (self.sectors + 1) * self.block + line, 4 * at


class Sectors:
    """A disk's sectors as requests leave them."""

    def __init__(self, layout: Layout) -> None:
        self.layout, self.free, self.is_open = layout, layout.sectors, False
        self.moved: Dict[int, int] = {}  # the blocks of sectors that aren't in their own
        self.held: Dict[int, bytes] = {}  # what was written to each
        self.newest: Dict[int, int] = {}  # of each line of the disk: the request that wrote it last

    def block(self, sector: int) -> int:
        """Where a sector stands."""
        return self.moved.get(sector, sector)

    def sector_in(self, block: int) -> Optional[int]:
        """Which sector stands in a block."""
        if block == self.free or block > self.layout.sectors:
            return None
        return next((sector for sector, it in self.moved.items() if it == block), block)

    def bytes_of(self, sector: int) -> bytes:
        """What a sector holds."""
        return self.held.get(sector, bytes(self.layout.sector))

    def reads(self, *lines: int) -> Iterator[Row]:
        """Lines of the disk are read."""
        for line in lines:
            yield Row("R", self.layout.of_module(line))

    def opens(self) -> Iterator[Row]:
        """The free block is looked for, behind a cut or in the beginning."""
        if not self.is_open:
            self.is_open = True
            yield from self.reads(*(self.layout.word(sector)[0] for sector in range(self.layout.sectors)))

    def lines_of(self, block: int) -> range:
        """The lines of a block."""
        return range(block * self.layout.block, (block + 1) * self.layout.block)

    def read(self, sector: int) -> Iterator[Row]:
        """A sector is read."""
        yield from self.opens()
        yield from self.reads(self.layout.word(sector)[0], *self.lines_of(self.block(sector)))

    def write(self, number: int, sector: int, begin: int, data: Bytes) -> Iterator[Row]:
        """Bytes of a sector are written."""
        if len(data) < self.layout.sector:
            yield from self.read(sector)
        yield from self.opens()
        old, line, (map_line, at) = bytearray(self.bytes_of(sector)), self.layout.line, self.layout.word(sector)
        old[begin:begin + len(data)] = data
        yield from self.reads(map_line)
        for i, it in enumerate(self.lines_of(self.free)):
            self.newest[it] = number
            yield Row("W", self.layout.of_module(it), old[i * line:(i + 1) * line].hex())
        word = (self.free + 1).to_bytes(4, "little").hex()
        self.newest[map_line] = number
        yield Row("M", self.layout.of_module(map_line), ".." * at + word + ".." * (line - at - 4))
        self.held[sector] = bytes(old)
        self.moved[sector], self.free = self.free, self.block(sector)

    def request(self, number: int, it: Record, made: Optional[int]) -> Iterator[Row]:
        """What a request makes of them; `made` of a write that was stopped."""
        size = self.layout.sector
        if it.command == frames.READ:
            for at, _ in pieces(it.at, it.size, size):
                yield from self.read(at // size)
        elif it.command == frames.WRITE:
            for at, count in pieces(it.at, it.size if made is None else made, size):
                yield from self.write(number, at // size, at % size, it.data[at - it.at:at - it.at + count])
        if it.error == frames.SHUTDOWN:
            self.is_open = False
            yield Row("C", 0)


def rows_of(log: str, sectors: Sectors, since: int = 0, end: Optional[int] = None) -> Iterator[Row]:
    """The rows of all requests of a log, or of those between two of its bytes."""
    stopped: Optional[Tuple[int, Record]] = None
    with recorded.opened(log) as file:
        file.seek(since or file.tell())
        for number, it in enumerate(recorded.records(file, log), 1):
            if it.command == NOTE and stopped:
                yield from sectors.request(*stopped, made=it.at)
                stopped = None
            elif it.command == frames.WRITE and it.error:
                stopped = number, it
            elif stopped and it.error == frames.SHUTDOWN:
                yield Row("C", 0)  # (amid a look at what it has made)
            elif not stopped:
                yield from sectors.request(number, it, None)
            if end is not None and file.tell() >= end:
                break


def of_module(options: Dict[str, str]) -> List[str]:
    """The words of a stream on the module alone."""
    return [word for key, value in options.items() if key not in NOT_THE_MODULES for word in (f"--{key}", value)]


class Player:
    """A module that takes rows as a disk would hand them on: it knows what waits in each bank, and a row for which there is no room waits until there is."""

    def __init__(self, pcm: str, options: Dict[str, str]) -> None:
        self.process = subprocess.Popen([pcm, "stream", *of_module(options)], text=True, stdin=subprocess.PIPE, stdout=subprocess.PIPE)
        layout, self.room = Layout({"sector": "4096", **options}), {"W": int(options["write-queue"]), "R": int(options["read-queue"])}
        self.layout = layout
        self.waits: Dict[Tuple[int, str], Dict[int, None]] = collections.defaultdict(dict)
        self.place: Dict[int, Tuple[int, str]] = {}
        self.stopped: Set[Tuple[int, str]] = set()
        self.sent: Deque[str] = collections.deque([HEADER])
        self.number = 0  # of the last row

    def settle(self, row: str) -> int:
        """Sends what is to be sent, and answers the tick at which the module stands behind a row that settles."""
        assert self.process.stdin and self.process.stdout
        self.process.stdin.write("".join([*self.sent, row]))
        self.process.stdin.flush()
        self.sent.clear()
        for line in self.process.stdout:
            number, word, tick, *_ = line.split(",", 3)
            if word == "settled":
                return int(tick)
            if number.isdigit() and int(number) in self.place:
                del self.waits[self.place.pop(int(number))][int(number)]
        raise Fault("the program has ended: a row isn't one of such a module")

    def makes_room(self, here: Tuple[int, str], tick: int) -> int:
        """Waits until a bank has room; the tick then. (What is known is some rows old: first the module goes on to this one's tick.)"""
        waits = self.waits[here]
        if len(waits) >= self.room[here[1]] and here not in self.stopped:
            self.settle(f"{tick},S,,\n")
        while len(waits) >= self.room[here[1]] and here not in self.stopped:
            reached = self.settle(f"{tick + 1000000},U,{next(iter(waits))},\n")
            if reached == tick + 1000000:
                self.stopped.add(here)  # (such a bank stores nothing any more)
            tick = reached
        return tick

    def play(self, rows: Iterator[Tuple[int, Row]], trace: IO[str]) -> int:
        """Writes rows, each with the tick before which it doesn't come, into a trace; the last one's tick."""
        late, tick = 0, 0
        for wanted, row in rows:
            self.number, tick = self.number + 1, wanted + late
            if row.op != "C":
                here = self.layout.place(row.line)[0], "R" if row.op == "R" else "W"
                reached = self.makes_room(here, tick)
                late, tick = late + reached - tick, reached
                self.waits[here][self.number] = None
                self.place[self.number] = here
            if tick > LAST_TICK - 2000000:
                raise Fault("the log lasts beyond the last tick, 2^40")
            text = row.at(tick)
            trace.write(text)
            self.sent.append(text)
            if len(self.sent) >= 64:
                self.settle(f"{tick},S,,\n")
        trace.flush()
        self.settle(f"{tick},S,,\n")
        return tick

    def close(self) -> None:
        """Nothing comes any more."""
        assert self.process.stdin and self.process.stdout
        self.process.stdin.close()
        for _ in self.process.stdout:
            pass
        self.process.wait()


def main(pcm: str, log: str, trace: str, *words: str) -> None:
    """Writes a trace."""
    options = options_of(log)
    rows = rows_of(log, Sectors(Layout(options)))
    options.update((name[2:], value) for name, value in zip(words[::2], words[1::2]))
    player = Player(pcm, options)
    with open(trace, "w", encoding="ascii") as file:
        file.write(HEADER)
        player.play(enumerate(rows, 1), file)
    player.close()
    with open(f"{trace}.args", "w", encoding="ascii") as file:
        file.write(" ".join(of_module(options)) + "\n")


if __name__ == "__main__":
    if len(sys.argv) < 4 or len(sys.argv) % 2 or not all(it.startswith("--") for it in sys.argv[4::2]):
        sys.exit(__doc__)
    try:
        main(*sys.argv[1:])
    except (Fault, OSError) as fault:
        sys.exit(str(fault))
