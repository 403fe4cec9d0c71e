"""The image of a module: its state as bytes, as `--print image` writes it and `pcm show` (of a large module `pcm view`) reads it
(docs/FORMATS.md)."""
import struct
from dataclasses import dataclass, field
from typing import Dict, Iterator, List, NamedTuple, Optional, Sequence, Tuple, Union, overload

from .randomiser import Randomiser
from .words import LARGE, SMALL, Sizes


class _Format(NamedTuple):
    """How an image begins, the sizes that it has room for, and the bytes of a number of lines or of a register."""

    magic: bytes
    most: Sizes
    width: int


_SMALL = _Format(b"PCMIMG01", SMALL, 2)
_LARGE = _Format(b"PCMIMG02", LARGE, 4)

# Behind the last array line of the image of a large module.
_END = 0xFFFFFFFF


class ImageError(ValueError):
    """Bytes that aren't an image: `at` is the first byte of the field that is wrong, and `kind` a word of docs/FORMATS.md."""

    def __init__(self, at: int, kind: str) -> None:
        super().__init__(f"image byte {at}: {kind}")
        self.at = at
        self.kind = kind


@dataclass
class Region:
    """A region's Start and Gap registers, and the stores since its last gap move."""

    start: int
    gap: int
    counter: int


@dataclass
class Entry:
    """A write in a bank's queue: its line in the bank, and its bytes, `None` where one isn't given."""

    line: int
    data: List[Optional[int]]


@dataclass
class Bank:
    """A bank: whether it found no spare, the slots that its used spares were given to, its regions, and its queue, the oldest first."""

    mark: int
    replaced: List[int] = field(default_factory=list)
    regions: List[Region] = field(default_factory=list)
    entries: List[Entry] = field(default_factory=list)


class ListedLines(Sequence[bytes]):
    """The cells of all array lines of a large module, of which only those that aren't all 0 are kept."""

    def __init__(self, count: int, size: int, listed: Dict[int, bytes]) -> None:
        self._count = count
        self._zeros = bytes(size)
        self.listed = listed

    def __len__(self) -> int:
        return self._count

    @overload
    def __getitem__(self, at: int) -> bytes: ...

    @overload
    def __getitem__(self, at: slice) -> List[bytes]: ...

    def __getitem__(self, at: Union[int, slice]) -> Union[bytes, List[bytes]]:
        if isinstance(at, slice):
            return [self[one] for one in range(*at.indices(self._count))]
        one = at + self._count if at < 0 else at
        if not 0 <= one < self._count:
            raise IndexError("there is no such array line")
        return self.listed.get(one, self._zeros)

    def __eq__(self, other: object) -> bool:
        if isinstance(other, ListedLines):
            return (self._count, self._zeros, self.listed) == (other._count, other._zeros, other.listed)
        return NotImplemented


@dataclass
class Image:
    """A module: the bytes of a line, the lines of a region, the spares of a bank, the seed of the randomiser, whether registers stand in
    the array, its banks, the cells of each array line, data before check cells, the lowest bit of a byte first, and whether it is spelled
    as that of a large module."""

    line_bytes: int
    lines: int
    spares: int
    seed: int
    registers_in_array: bool
    banks: List[Bank]
    cells: Sequence[bytes]
    large: bool = False

    @property
    def check_bytes(self) -> int:
        """The bytes of a line's check cells."""
        return 8 if self.line_bytes == 64 else 16

    @property
    def regions(self) -> int:
        """The regions of a bank."""
        return len(self.banks[0].regions)

    @property
    def slots(self) -> int:
        """The slots of a bank: each region has a place more than it has lines."""
        return self.regions * (self.lines + 1)

    @property
    def array_lines(self) -> int:
        """The array lines of a bank: its slots, its spares, and where registers stand in the array its control lines."""
        return self.slots + self.spares + ((self.regions + self.spares + 1) if self.registers_in_array else 0)

    @staticmethod
    def read(data: bytes) -> "Image":
        """The image that these bytes are, of a module of any size; `ImageError` where they are none, as `pcm show` would tell, or
        `pcm view` where they begin as that of a large module."""
        return _Reader(data).image()

    def touched(self) -> Iterator[Tuple[int, bytes]]:
        """The array lines of which a cell is 1, each by its number and its cells."""
        if isinstance(self.cells, ListedLines):
            yield from sorted(self.cells.listed.items())
        else:
            yield from ((array, cells) for array, cells in enumerate(self.cells) if any(cells))

    def write(self) -> bytes:
        """The bytes of the image."""
        size, banks, form = self.line_bytes, self.banks, _LARGE if self.large else _SMALL
        head = "<BBBIHQB" if self.large else "<BBBHHQB"
        parts = [form.magic, struct.pack(head, size, len(banks), self.regions, self.lines, self.spares, self.seed, self.registers_in_array)]
        for bank in banks:
            parts.append(struct.pack("<BH", bank.mark, len(bank.replaced)))
            parts += [struct.pack("<I", slot) for slot in bank.replaced]
            registers = "<IIH" if self.large else "<HHH"
            parts += [struct.pack(registers, region.start, region.gap, region.counter) for region in bank.regions]
            parts.append(struct.pack("<H", len(bank.entries)))
            for entry in bank.entries:
                given = bytes(
                    sum((entry.data[8 * at + bit] is not None) << bit for bit in range(8)) for at in range(size // 8)
                )
                parts += [struct.pack("<I", entry.line), bytes(byte or 0 for byte in entry.data), given]
        if self.large:
            rows = (struct.pack("<I", array) + cells for array, cells in self.touched())
            return b"".join([*parts, *rows, struct.pack("<I", _END)])
        return b"".join([*parts, *self.cells])

    def array_line(self, bank: int, slot: int) -> int:
        """The array line of a bank's slot: the last spare that it was given, or its own."""
        base = bank * self.array_lines
        for spare, replaced in reversed(list(enumerate(self.banks[bank].replaced))):
            if replaced == slot:
                return base + self.slots + spare
        return base + slot

    def place(self, line: int) -> Tuple[int, int]:
        """The bank of a line of the module, and its line there, by the randomiser; `IndexError` where the module has no such line."""
        lines = self.regions * self.lines
        if not 0 <= line < len(self.banks) * lines:
            raise IndexError(f"the module has no line {line}")
        return divmod(Randomiser(len(self.banks) * lines, self.seed).place(line), lines)

    def slot(self, bank: int, line: int) -> int:
        """The slot of a bank's line, where the registers of its region put it."""
        number, offset = divmod(line, self.lines)
        region = self.banks[bank].regions[number]
        place = (offset + region.start) % self.lines
        return number * (self.lines + 1) + place + (place >= region.gap)

    def newest(self, line: int) -> bytes:
        """The newest bytes of a line of the module, as `pcm show` prints them: each byte is that of the newest write in the queue that
        gives it, or else what the line's array line is read as."""
        bank, here = self.place(line)
        data = bytearray(self.decode(self.array_line(bank, self.slot(bank, here))))
        for entry in self.banks[bank].entries:
            if entry.line == here:
                for at, byte in enumerate(entry.data):
                    data[at] = data[at] if byte is None else byte
        return bytes(data)

    def pointers(self, array_line: int) -> List[Tuple[int, int]]:
        """The active pointers of an array line by its own check cells: of each the bit that it points to, and what replaces it."""
        data, check = self._halves(array_line)
        bits, full, entries = _layout(self.line_bytes)
        width = bits.bit_length() - 1
        number = int.from_bytes(check, "little")
        last = (entries - 1) * (width + 1)
        active = [number >> (last + at) & 1 for at in range(entries - 1)]
        count = entries if number >> full & 1 else (active + [0]).index(0)
        return [
            (number >> (at * (width + 1)) & (bits - 1), number >> (at * (width + 1) + width) & 1) for at in range(count)
        ]

    def decode(self, array_line: int) -> bytes:
        """The bytes that an array line stands for: its data cells, but for those that an active pointer stands in for."""
        data, _ = self._halves(array_line)
        number = int.from_bytes(data, "little")
        for bit, value in self.pointers(array_line):
            number = number & ~(1 << bit) | value << bit
        return number.to_bytes(self.line_bytes, "little")

    def _halves(self, array_line: int) -> Tuple[bytes, bytes]:
        cells = self.cells[array_line]
        return cells[: self.line_bytes], cells[self.line_bytes:]


def _layout(line_bytes: int) -> Tuple[int, int, int]:
    """Of a line: its bits, the check cell `full`, and its pointers."""
    bits = 8 * line_bytes
    entries = 6 if line_bytes == 64 else 8
    return bits, entries * bits.bit_length(), entries


class _Reader:
    def __init__(self, data: bytes) -> None:
        self.data = data
        self.at = 0

    def take(self, size: int) -> bytes:
        if len(self.data) - self.at < size:
            raise ImageError(self.at, "short")
        self.at += size
        return self.data[self.at - size: self.at]

    def number(self, size: int, kind: str, most: Optional[int] = None) -> int:
        begun = self.at
        value = int.from_bytes(self.take(size), "little")
        if most is not None and value > most:
            raise ImageError(begun, kind)
        return value

    def power(self, size: int, least: int, most: int) -> int:
        begun = self.at
        value = self.number(size, "shape")
        if not least <= value <= most or value & (value - 1):
            raise ImageError(begun, "shape")
        return value

    def image(self) -> Image:
        magic = self.take(8)
        form = _LARGE if magic == _LARGE.magic else _SMALL
        if magic != form.magic:
            raise ImageError(0, "magic")
        begun = self.at
        size = self.number(1, "size")
        if size not in (64, 128):
            raise ImageError(begun, "size")
        banks, regions = self.power(1, 1, form.most.banks), self.power(1, 1, form.most.regions)
        begun = self.at
        lines = self.power(form.width, 4, form.most.lines)
        if banks * regions * lines > form.most.all_lines:
            raise ImageError(begun, "shape")
        spares, seed = self.number(2, "shape", most=1024), self.number(8, "seed")
        home = self.number(1, "shape", most=1)
        parts = [self.bank(form.width, size, regions, lines, spares) for _ in range(banks)]
        image = Image(size, lines, spares, seed, bool(home), parts, [], form is _LARGE)
        count, row = banks * image.array_lines, size + image.check_bytes
        image.cells = self.listed(count, row) if image.large else [self.take(row) for _ in range(count)]
        if self.at < len(self.data):
            raise ImageError(self.at, "extra")
        return image

    def listed(self, count: int, row: int) -> ListedLines:
        """The array lines of the image of a large module: each number above the one before it, with cells of which one is 1."""
        listed: Dict[int, bytes] = {}
        least = 0
        while True:
            begun = self.at
            number = self.number(4, "line")
            if number == _END:
                return ListedLines(count, row, listed)
            if not least <= number < count:
                raise ImageError(begun, "line")
            begun = self.at
            cells = self.take(row)
            if not any(cells):
                raise ImageError(begun, "line")
            listed[number] = cells
            least = number + 1

    def bank(self, width: int, size: int, regions: int, lines: int, spares: int) -> Bank:
        bank = Bank(self.number(1, "bank", most=1))
        slots = regions * (lines + 1)
        bank.replaced = [self.number(4, "bank", most=slots - 1) for _ in range(self.number(2, "bank", most=spares))]
        for _ in range(regions):
            start, gap = self.number(width, "bank", most=lines - 1), self.number(width, "bank", most=lines)
            bank.regions.append(Region(start, gap, self.number(2, "bank")))
        bank.entries = list(self.entries(self.number(2, "bank", most=256), size, regions * lines))
        return bank

    def entries(self, count: int, size: int, lines: int) -> Iterator[Entry]:
        for _ in range(count):
            line, data, begun = self.number(4, "entry", most=lines - 1), self.take(size), self.at
            given = int.from_bytes(self.take(size // 8), "little")
            if given == 0 or any(byte and not given >> at & 1 for at, byte in enumerate(data)):
                raise ImageError(begun, "entry")
            yield Entry(line, [byte if given >> at & 1 else None for at, byte in enumerate(data)])
