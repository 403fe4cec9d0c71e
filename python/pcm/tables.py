"""What commands of the package share: how they end, words, names of runs, and tables as text."""
import argparse
import contextlib
import math
import os
import shlex
import sys
from typing import Callable, Dict, List, NoReturn, Optional, Sequence

from .errors import PcmError, UsageError


def answered(name: str, about: Optional[str], words: Sequence[str], work: Callable[[Sequence[str]], int]) -> int:
    """The status of a command: its help is printed, or its work is done, which answers one. Whatever goes wrong is told in one line, with the
    program's status for it; a file that isn't there has 4, an output that can't be written 5, and what is broken off 130."""
    if "--help" in words or "-h" in words:
        print(about)
        return 0
    _open_closed()
    try:
        if sys.stdout is None:
            raise PcmError(5, "standard output is closed")
        status = work(words)
        sys.stdout.flush()
        return status
    except PcmError as wrong:
        said, status = str(wrong), wrong.status or 1
    except FileNotFoundError as wrong:
        said, status = str(wrong) if wrong.errno is None else f"{wrong.filename}: {wrong.strerror}", 4
    except KeyboardInterrupt:
        said, status = "broken off", 130
    except OSError as wrong:
        # (nothing more is written there in the end)
        os.dup2(os.open(os.devnull, os.O_WRONLY), sys.stdout.fileno())
        said, status = f"{wrong.filename or 'standard output'}: {wrong.strerror}", 5
    # (a name may be of any bytes)
    # (nobody is told where that is closed)
    if sys.stderr is not None:
        with contextlib.suppress(OSError):
            print(f"{name}: {said.encode('utf-8', 'surrogateescape').decode('utf-8', 'replace')}", file=sys.stderr, flush=True)
    return status


def _open_closed() -> None:
    """Lets no file that is opened here get the number of standard input, output or error where these are closed: what reads or writes there
    has a fault."""
    for fd, how in enumerate((os.O_WRONLY, os.O_RDONLY, os.O_WRONLY)):
        try:
            os.fstat(fd)
        except OSError:
            os.open(os.devnull, how)


def parsed_options(words: str) -> Dict[str, str]:
    """The options of a stream that stand in one word, behind `stream` or not."""
    try:
        parts = shlex.split(words)
    except ValueError as wrong:
        raise UsageError(2, f"--options {words!r}: {wrong}") from None
    pairs: List[str] = []
    for part in parts[parts[:1] == ["stream"]:]:
        pairs += part.split("=", 1) if part.startswith("--") else [part]
    if len(pairs) % 2:
        raise UsageError(2, f"--options: {pairs[-1]} wants a value")
    found = {}
    for name, value in zip(pairs[::2], pairs[1::2]):
        if not name.startswith("--") or name in ("--print", "--every"):
            raise UsageError(2, f"--options: {name} can't stand there: options of a stream but --print and --every")
        if name[2:] in found:
            raise UsageError(2, f"--options: {name} stands twice")
        found[name[2:]] = value
    return found


class Parser(argparse.ArgumentParser):
    """A reader of words whose faults are exceptions, and whose options take values that begin with a dash."""

    @classmethod
    def of_runs(cls, name: str) -> "Parser":
        """With the words that commands over runs share: files, or runs to be made, with their options; and how the command tells."""
        words = cls(prog=f"python3 -m pcm {name}", add_help=False, allow_abbrev=False)
        words.add_argument("files", nargs="*")
        words.add_argument("--run", action="store_true")
        words.add_argument("--options", action="append", default=[])
        words.add_argument("--csv", action="store_true")
        words.add_argument("--progress", action="store_true", default=None)
        return words

    def parse_args(self, args=None, namespace=None):
        joined: List[str] = []
        for word in args or ():
            if joined and joined[-1] == "--options":
                joined[-1] += f"={word}"
            else:
                joined.append(word)
        return super().parse_args(joined, namespace)

    def error(self, message: str) -> NoReturn:
        raise UsageError(2, f"{message}; --help tells more")


def table(head: Sequence[str], rows: Sequence[Sequence[object]], csv: bool) -> str:
    """A table as text: in columns, or with commas."""
    cells = [list(head), *([_cell(cell, csv) for cell in row] for row in rows)]
    if csv:
        return "".join(",".join(row) + "\n" for row in cells)
    wide = [max(len(row[at]) for row in cells) for at in range(len(head))]
    are_words = [any(isinstance(row[at], str) for row in rows) for at in range(len(head))]
    padded = [[cell.ljust(width) if left else cell.rjust(width) for cell, width, left in zip(row, wide, are_words)] for row in cells]
    return "".join("  ".join(row).rstrip() + "\n" for row in padded)


def _cell(cell: object, csv: bool) -> str:
    if cell is None:
        return "" if csv else "-"
    if isinstance(cell, float):
        return rounded(cell, csv)
    text = f"{cell:,}" if isinstance(cell, int) and not csv else str(cell)
    return f'"{text}"' if csv and ("," in text or '"' in text) else text


def rounded(number: float, csv: bool = False) -> str:
    """Four digits of a number, or all before its point."""
    if number == 0 or not 1e-3 <= abs(number) < 1e15:
        return f"{number:.4g}"
    digits = max(0, 3 - math.floor(math.log10(abs(number))))
    return f"{number:.{digits}f}" if csv else f"{number:,.{digits}f}"


def names_of(words: Sequence[str], made: Sequence[Dict[str, str]]) -> List[str]:
    """Names of runs by their options: where there are several, by those in which they differ."""
    if len(made) == 1:
        return [words[0] if words else "defaults"]
    names = dict.fromkeys(name for options in made for name in options)
    differ = [name for name in names if len({options.get(name) for options in made}) > 1]
    return [" ".join(f"{name} {options[name]}" for name in differ if name in options) or "defaults" for options in made]
