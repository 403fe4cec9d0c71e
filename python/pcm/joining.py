"""What the streams of a run's parts print joined to what one stream prints."""
import contextlib
import signal
import struct
import subprocess
from typing import BinaryIO, Dict, List, Sequence

from .errors import PcmError, WriteFault
from .parted import KEPT, PLACED, Asked, Broken, Folder, part_of

_MOST = (1 << 64) - 1
_MAGIC, _LARGE_MAGIC = b"PCMIMG01", b"PCMIMG02"
_END = 0xFFFFFFFF


class NotAReport(ValueError):
    """What a part printed isn't the report that is joined."""


def _text(file: BinaryIO) -> List[str]:
    lines = file.read().decode(errors="replace").splitlines()
    if not lines:
        raise NotAReport("it is empty")
    return lines


def summary(files: Sequence[BinaryIO], out: BinaryIO, rows: int) -> None:
    """Counts of all parts, of which the whole trace has so many rows. Each part has all cuts."""
    counts: List[Dict[str, int]] = []
    for file in files:
        pairs = [line.partition(" ") for line in _text(file)]
        counts.append({word: int(number) for word, _, number in pairs})
    found = {word: min(sum(one[word] for one in counts), _MOST) for word in counts[0]}
    found.update(rows=rows, cut=counts[0]["cut"])
    out.write("".join(f"{word} {number}\n" for word, number in found.items()).encode())


def energy(files: Sequence[BinaryIO], out: BinaryIO) -> None:
    """The counts of each bank, by its part, and their sums."""
    rows: Dict[int, List[str]] = {}
    head = ""
    for part, file in enumerate(files):
        head, *lines = _text(file)
        for fields in (line.split(",") for line in lines):
            if fields[0] != "all" and part_of(int(fields[0]), len(lines) - 1, len(files)) == part:
                rows[int(fields[0])] = fields
    sums = [min(sum(int(row[at]) for row in rows.values()), _MOST) for at in (1, 2, 3)]
    told = [",".join(rows[bank]) for bank in sorted(rows)]
    out.write("\n".join([head, *told, ",".join(["all", *map(str, sums)]), ""]).encode())


class _Image:
    """The image of a part, read bank by bank."""

    def __init__(self, file: BinaryIO) -> None:
        self._file = file
        magic = self._take(8)
        if magic not in (_MAGIC, _LARGE_MAGIC):
            raise NotAReport("it is no image")
        self.is_large = magic == _LARGE_MAGIC
        sizes = self._take(3 + (4 if self.is_large else 2) + 2 + 8 + 1)
        self.head = magic + sizes
        self._size, self.banks, self._regions = sizes[0], sizes[1], sizes[2]
        lines, spares, _, home = struct.unpack("<IHQB" if self.is_large else "<HHQB", sizes[3:])
        self._array_lines = self._regions * (lines + 1) + spares + (self._regions + spares + 1) * home
        self._cells = self._size + (8 if self._size == 64 else 16)
        self._listed = -1

    def _take(self, count: int) -> bytes:
        data = self._file.read(count)
        if len(data) != count:
            raise NotAReport("it is cut off")
        return data

    def kept(self) -> bytes:
        """What the next bank keeps."""
        begin = self._take(3)
        used = int.from_bytes(begin[1:], "little")
        begin += self._take(4 * used + self._regions * (10 if self.is_large else 6) + 2)
        writes = int.from_bytes(begin[-2:], "little")
        return begin + self._take(writes * (4 + self._size + self._size // 8))

    def copy_cells(self, bank: int, out: BinaryIO, is_own: bool) -> None:
        """Writes the cells of the next bank's array lines, where they are wanted."""
        if self.is_large:
            self._copy_listed((bank + 1) * self._array_lines, out, is_own)
        elif is_own:
            for _ in range(self._array_lines):
                out.write(self._take(self._cells))
        else:
            self._file.seek(self._array_lines * self._cells, 1)

    def _copy_listed(self, until: int, out: BinaryIO, is_own: bool) -> None:
        while True:
            if self._listed < 0:
                self._listed = int.from_bytes(self._take(4), "little")
            if self._listed >= until:
                return
            cells = self._take(self._cells)
            if is_own:
                out.write(self._listed.to_bytes(4, "little") + cells)
            self._listed = -1


def image(files: Sequence[BinaryIO], out: BinaryIO) -> None:
    """Each bank, and the cells of its array lines, as its part left them."""
    images = [_Image(file) for file in files]
    banks = images[0].banks
    out.write(images[0].head)
    for bank in range(banks):
        kept = [one.kept() for one in images]
        out.write(kept[part_of(bank, banks, len(files))])
    for bank in range(banks):
        for part, one in enumerate(images):
            one.copy_cells(bank, out, part_of(bank, banks, len(files)) == part)
    if images[0].is_large:
        out.write(_END.to_bytes(4, "little"))


def join(folder: Folder, asked: Asked, rows: int, passing: Sequence[str], out: BinaryIO) -> int:
    """Writes what one stream prints, by what the parts in a folder told, of a trace with so many rows, by the words that start a pass; answers
    the status of one stream."""
    statuses = [folder.status(part) or 0 for part in range(asked.parts)]
    if asked.kind in (*PLACED, *KEPT):
        _merge(folder, asked, passing, out)
        return max(statuses)
    with contextlib.ExitStack() as opened:
        files = [opened.enter_context(open(folder.name("told", part), "rb")) for part in range(asked.parts)]
        try:
            if asked.kind == "summary":
                summary(files, out, rows)
            else:
                {"energy": energy, "image": image}[asked.kind](files, out)
        except (ValueError, LookupError):
            raise Broken(3, f"{folder.path}: what a part told isn't what a stream prints") from None
    out.flush()
    return max(statuses)


def _merge(folder: Folder, asked: Asked, passing: Sequence[str], out: BinaryIO) -> None:
    shape = asked.shape
    words = [str(shape.banks * shape.array_lines), str(asked.senses), *(str(folder.name("told", part)) for part in range(asked.parts))]
    out.flush()
    done = subprocess.run([*passing, "merge", *words], stdin=subprocess.DEVNULL, stdout=out, stderr=subprocess.PIPE, check=False)
    said = done.stderr.decode(errors="replace").strip()
    if done.returncode in (-signal.SIGPIPE, 5):
        raise WriteFault(5, said or "standard output: Broken pipe")
    if done.returncode:
        raise PcmError(done.returncode if done.returncode > 0 else 70, said or "the last pass was ended by a signal")
