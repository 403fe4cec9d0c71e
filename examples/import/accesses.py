"""What all importers share: options, lines in, and rows of a `pcm` trace out.

An importer says how a line of its format is read, as accesses: a cycle, read or write, an address, a number of bytes, and the
bytes where the format has them. All else is done here, so every importer has the same options and the same answers:

* An access is one row for each line of the module that it touches. Line `ADDRESS div SIZE` is the line of an address; beyond the
  module's lines it is refused, or taken modulo their number with --fold.
* A write of all bytes of a line is a row `W`, a write of some of them a row `M`, with `..` for the others.
* The tick of a row is `CYCLE div CYCLES_PER_TICK`. Cycles never fall, and a tick is at most 2^40.
* A line ends with LF or CRLF; the last end may be missing. A line that isn't of the form ends the reading with `line N: WHY` on
  standard error and status 1. But for --stream nothing is written before all of the input is read. An input without accesses gives
  the header alone.
* With --cache a write-back cache of so many lines stands between: an access that hits makes no row, a miss reads its line, unless all of
  it is written, and the line that leaves its set, the one least recently used, is written whole where it was written to. What is in the
  cache behind the last access stays there.
* `pcm run` takes at most 400,000 rows. More are refused, or cut into pieces with --pieces; ticks go on from piece to piece.
* With --stream rows are written as they are made, any number of them, for `./pcm stream`: so an importer stands in a pipe behind a
  program that is still running. What was written before a line that is refused stays written then.
"""

import argparse
import os
import re
import shutil
import sys
import tempfile
from typing import Callable, Iterable, NamedTuple, Optional

MOST_ROWS = 400_000
MOST_TICK = 2**40
ADDRESSES = 2**64
MOST_BYTES = 4096
# Lines of the largest module, which streams take; `pcm run` takes at most 65,536.
MOST_LINES = 2**26
HEADER = b"tick,op,arg,data\n"


class Refusal(Exception):
    """Why the input isn't taken."""


class WrongWords(Refusal):
    """Why the options aren't taken."""


class Access(NamedTuple):
    """One access of a trace. `data` has its `size` bytes, where the format tells them."""

    cycle: int
    writes: bool
    address: int
    size: int
    data: Optional[bytes] = None


class Importer(NamedTuple):
    """A format: its head, how its reader is made from the options, and options of its own."""

    head: str
    reader: Callable[[argparse.Namespace], Callable[[str], Iterable[Access]]]
    add_options: Callable[[argparse.ArgumentParser], None] = lambda parser: None
    has_data: bool = False


def matched(pattern: "re.Pattern", text: str, form: str) -> "re.Match":
    """The parts of a line, which as a whole is of the form."""
    found = pattern.fullmatch(text)
    if found is None:
        raise Refusal("not of the form " + form)
    return found


def splitmix_words(seed: int):
    """The 64-bit words of SplitMix64, without end."""
    while True:
        seed = (seed + 0x9E3779B97F4A7C15) % 2**64
        word = (seed ^ (seed >> 30)) * 0xBF58476D1CE4E5B9 % 2**64
        word = (word ^ (word >> 27)) * 0x94D049BB133111EB % 2**64
        yield word ^ (word >> 31)


def line_filler(options: argparse.Namespace) -> Callable[[int], bytes]:
    """The bytes of a line, by its address, where the trace doesn't tell them."""
    words = splitmix_words(options.seed)

    def little(numbers: Iterable[int]) -> bytes:
        return b"".join((number % 2**64).to_bytes(8, "little") for number in numbers)

    fillers = {
        "zero": lambda start: bytes(options.size),
        "address": lambda start: little(range(start, start + options.size, 8)),
        "seed": lambda start: little(next(words) for _ in range(options.size // 8)),
    }
    fillers["trace"] = fillers["seed"]
    return fillers[options.data]


class Cache:
    """A write-back cache of whole lines: what accesses of a memory are left of those of a processor."""

    def __init__(self, options: argparse.Namespace):
        if options.cache % options.ways:
            raise WrongWords(f"--cache {options.cache} isn't a multiple of --ways {options.ways}")
        if options.data == "trace":
            raise WrongWords("a cache has no bytes of the trace: --data zero, address or seed")
        self.size, self.ways = options.size, options.ways
        # (of each set its lines, the least recently used first, and whether each was written to)
        self.sets = [{} for _ in range(options.cache // options.ways)]

    def of(self, access: Access) -> Iterable[Access]:
        """What the memory sees of an access."""
        behind = access.address + access.size
        for line in range(access.address // self.size, (behind - 1) // self.size + 1):
            here, start = self.sets[line % len(self.sets)], line * self.size
            written = here.pop(line, None)
            if written is None:
                if len(here) == self.ways:
                    oldest = next(iter(here))
                    if here.pop(oldest):
                        yield Access(access.cycle, True, oldest * self.size, self.size)
                if not (access.writes and access.address <= start and start + self.size <= behind):
                    yield Access(access.cycle, False, start, self.size)
            here[line] = bool(written) or access.writes


class Rows:
    """Turns accesses into rows, one after the other."""

    def __init__(self, options: argparse.Namespace):
        self.options = options
        self.fill = line_filler(options)
        self.cache = None if options.cache is None else Cache(options)
        self.cycle = 0

    def of(self, access: Access) -> Iterable[bytes]:
        """The rows of an access, one for each line that it touches."""
        self.check(access)
        self.cycle = access.cycle
        for one in (access,) if self.cache is None else self.cache.of(access):
            last = one.address + one.size - 1
            for line in range(one.address // self.options.size, last // self.options.size + 1):
                yield self.row(one, line)

    def check(self, access: Access) -> None:
        """Refuses an access that no row can tell."""
        if not 1 <= access.size <= MOST_BYTES:
            raise Refusal(f"a size of {access.size} bytes; sizes are 1 to {MOST_BYTES}")
        if access.address + access.size > ADDRESSES:
            raise Refusal("an address beyond 2^64")
        if access.cycle < self.cycle:
            raise Refusal(f"cycle {access.cycle} comes behind cycle {self.cycle}")
        if access.cycle // self.options.per_tick > MOST_TICK:
            raise Refusal(f"cycle {access.cycle} is beyond tick 2^40; see --per-tick")

    def row(self, access: Access, line: int) -> bytes:
        """The row of an access at one line."""
        number = self.number(line)
        tick = access.cycle // self.options.per_tick
        if not access.writes:
            return b"%d,R,%d,\n" % (tick, number)
        start = line * self.options.size
        first = max(access.address - start, 0)
        behind = min(access.address + access.size - start, self.options.size)
        given = self.bytes_at(access, start, first, behind)
        letter = b"W" if behind - first == self.options.size else b"M"
        digits = b".." * first + given.hex().encode() + b".." * (self.options.size - behind)
        return b"%d,%b,%d,%b\n" % (tick, letter, number, digits)

    def number(self, line: int) -> int:
        """The line of the module that stands for a line of the address space."""
        if self.options.fold or line < self.options.lines:
            return line % self.options.lines
        raise Refusal(f"line {line} is beyond the module's {self.options.lines} lines; see --lines and --fold")

    def bytes_at(self, access: Access, start: int, first: int, behind: int) -> bytes:
        """The bytes from `first` to below `behind` that a write gives the line that starts at an address."""
        if access.data is None or self.options.data != "trace":
            return self.fill(start)[first:behind]
        skipped = start + first - access.address
        return access.data[skipped : skipped + behind - first]


class Pieces:
    """Traces under way in a folder of their own, each of at most so many rows."""

    def __init__(self, folder: str, options: argparse.Namespace):
        self.folder = folder
        self.options = options
        self.names = []
        self.file = None
        self.begin()

    def begin(self) -> None:
        self.close()
        self.names.append(os.path.join(self.folder, str(len(self.names) + 1)))
        self.file = open(self.names[-1], "wb")
        self.file.write(HEADER)
        self.rows = 0

    def add(self, row: bytes) -> None:
        if self.rows == self.options.most_rows:
            if self.options.pieces is None:
                raise Refusal(f"more than {self.options.most_rows} rows; --pieces NAME cuts them into NAME-001.csv and so on")
            self.begin()
        self.file.write(row)
        self.rows += 1

    def close(self) -> None:
        if self.file is not None:
            self.file.close()


def lines_of(source) -> Iterable[str]:
    """The lines of the input without their ends. A byte is a character, so that any bytes have an answer."""
    for line in source:
        if line.endswith(b"\n"):
            line = line[:-2] if line.endswith(b"\r\n") else line[:-1]
        yield line.decode("latin-1")


def gather(importer: Importer, options: argparse.Namespace, source, add: Callable[[bytes], object]) -> None:
    """Hands on each row of the input, or refuses it by the number of a line."""
    read = importer.reader(options)
    rows = Rows(options)
    for number, text in enumerate(lines_of(source), 1):
        try:
            for access in read(text):
                for row in rows.of(access):
                    add(row)
        except Refusal as why:
            raise Refusal(f"line {number}: {why}") from None


def stream(importer: Importer, options: argparse.Namespace, source, out) -> None:
    """Writes rows as they are made; what was made before a refusal is written too."""
    out.write(HEADER)
    try:
        gather(importer, options, source, out.write)
    finally:
        out.flush()


def write_whole(importer: Importer, options: argparse.Namespace, source, out) -> None:
    """Writes one trace or numbered pieces, once all of the input is read."""
    with room_for(options.pieces) as folder:
        pieces = Pieces(folder, options)
        try:
            gather(importer, options, source, pieces.add)
        finally:
            pieces.close()
        hand_out(pieces, options, out)


def room_for(pieces: Optional[str]) -> "tempfile.TemporaryDirectory[str]":
    """A folder for what is gathered, beside the pieces where these are named."""
    beside = None if pieces is None else os.path.dirname(pieces) or "."
    try:
        return tempfile.TemporaryDirectory(prefix="pcm-import-", dir=beside)
    except OSError as why:
        raise Refusal(f"{why.filename if pieces is None else pieces}: {why.strerror}") from None


def hand_out(pieces: Pieces, options: argparse.Namespace, out) -> None:
    """Writes what was gathered: one trace to standard output, or numbered files in their place."""
    if options.pieces is None:
        with open(pieces.names[0], "rb") as trace:
            shutil.copyfileobj(trace, out)
        out.flush()
        return
    for number, name in enumerate(pieces.names, 1):
        os.replace(name, f"{options.pieces}-{number:03}.csv")


def ranged(least: int, most: int) -> Callable[[str], int]:
    """Reads a number of an option."""

    def number(text: str) -> int:
        if not re.fullmatch("[0-9]{1,20}", text) or not least <= int(text) <= most:
            raise argparse.ArgumentTypeError(f"{text} isn't a number from {least} to {most}")
        return int(text)

    return number


def module_lines(text: str) -> int:
    """Reads the lines of a module."""
    lines = ranged(4, MOST_LINES)(text)
    if lines & (lines - 1):
        raise argparse.ArgumentTypeError(f"{text} isn't a power of two, as the lines of a module are")
    return lines


def parser_of(importer: Importer) -> argparse.ArgumentParser:
    """The options that every importer has, and this one's own."""
    parser = argparse.ArgumentParser(description=importer.head, formatter_class=argparse.RawDescriptionHelpFormatter, allow_abbrev=False)
    rules = ["zero", "address", "seed"] + ["trace"] * importer.has_data
    parser.add_argument("--size", type=int, choices=[64, 128], default=64, help="bytes of a line, as run's --line (64)")
    parser.add_argument("--lines", type=module_lines, default=512, metavar="N", help="lines of the module: banks*regions*lines (512); those of "
                        "run have at most 65536, of streams 67108864")
    parser.add_argument("--fold", action="store_true", help="take lines modulo --lines; else one beyond them is refused")
    parser.add_argument("--per-tick", type=ranged(1, 10**12), default=1, metavar="CYCLES", help="cycles of the trace in a tick (1)")
    parser.add_argument("--data", choices=rules, default=rules[-1], help="the bytes of writes: all 0; in each eight bytes their own "
                        f"address, lowest byte first; {'' if importer.has_data else 'or '}words of SplitMix64, new ones for each row"
                        f"{'; or those of the trace' if importer.has_data else ''} (%(default)s)")
    parser.add_argument("--seed", type=ranged(0, 2**64 - 1), default=0, help="seed of the words (0)")
    parser.add_argument("--cache", type=ranged(1, 2**24), metavar="N", help="lines of a write-back cache in front of the memory (none)")
    parser.add_argument("--ways", type=ranged(1, 2**24), default=4, metavar="N", help="lines of a set of the cache (4)")
    many = parser.add_mutually_exclusive_group()
    many.add_argument("--pieces", metavar="NAME", help="write NAME-001.csv, NAME-002.csv and so on in the place of standard output")
    many.add_argument("--stream", action="store_true", help="write rows as they are made, any number, for `./pcm stream`")
    parser.add_argument("--most-rows", type=ranged(1, MOST_ROWS), default=MOST_ROWS, metavar="N", help="rows of a trace or piece (400000)")
    importer.add_options(parser)
    return parser


def main(importer: Importer, words, source, out, told) -> int:
    """Runs an importer; its status is 0, 1 where the input is refused or the output isn't taken, or 130 where it is broken off. Of wrong
    words the parser tells, and ends the process with status 2."""
    parser = parser_of(importer)
    options = parser.parse_args(words)
    try:
        importer.reader(options)
        Rows(options)
    except WrongWords as why:
        parser.error(str(why))
    write = stream if options.stream else write_whole
    try:
        write(importer, options, source, out)
    except (Refusal, OSError) as why:
        print(why, file=told)
        return 1
    except KeyboardInterrupt:
        print("broken off", file=told)
        return 130
    return 0


def begin(importer: Importer) -> None:
    """Runs an importer by the words and pipes of its process, and ends it."""
    sys.stderr.reconfigure(errors="surrogateescape")
    status = main(importer, sys.argv[1:], sys.stdin.buffer, sys.stdout.buffer, sys.stderr)
    try:
        sys.stdout.flush()
    except OSError:
        # (it was told of, and nothing more is written there in the end)
        os.dup2(os.open(os.devnull, os.O_WRONLY), sys.stdout.fileno())
    sys.exit(status)
