"""The first row of each bank that breaks a rule.

A table tells the lowest row that breaks a rule, and most further ones of its bank break one since that one does. A bank's first doesn't
follow from another bank's: a rule looks at the rows of one bank and at the ticks of cuts, and at no cut's outcome. So the program explains a
table for each bank, in which nothing else is wrong (`Parted`)."""
import csv
import io
import re
import subprocess
from collections import Counter
from typing import Callable, Dict, Iterator, List, NamedTuple, Optional, Sequence

from .errors import error_of
from .explanation import RULES, Explanation, read_explanation
from .program import Program, command
from .runs import Source, parted
from .words import COMMANDS, HEADER, RESULTS

# What says of a table why it breaks a rule, or `ok`.
Says = Callable[[bytes], str]


class Told(NamedTuple):
    """A row of a table: its fields in the trace, and its line in the results, which is printed."""

    asks: List[str]
    answer: str

    @property
    def line(self) -> Optional[int]:
        """The line that it reads or writes; none of a cut."""
        return int(self.asks[2]) if self.asks[2] else None

    @property
    def outcome(self) -> str:
        """Its outcome's word and tick, as an explanation tells them, and the bytes of an answered read."""
        _, _, _, word, tick, _, data = self.answer.split(",")
        return f"{word} {tick}, data {data}" if data else f"{word} {tick}"


class Parted:
    """A table whose banks are looked at one by one: that of a bank has all rows, each with its number and its tick.

    A row of another bank stands there as a write that is worn. It breaks no rule, since all rows of its bank are: behind a worn row each write
    is to be worn, and none is stored. It is no row of the bank at hand, so it changes nothing there; and as it comes it is judged whether that
    bank has room, as it was. A cut stands there with its own tick, the only outcome of one that is right, at which no other row looks. So the
    rows of the bank at hand keep and break the rules that they do in the whole table, and no other row breaks one but `Room` of this bank."""

    def __init__(self, rows: Sequence[Told], banks: Sequence[int], size: int) -> None:
        self._rows, self._size = rows, size
        self._bank_of = [None if row.line is None else banks[row.line] for row in rows]
        self._kept = [(",".join(row.asks), row.answer) for row in rows]
        self._neutral = [self._neutral_of(number, row) for number, row in enumerate(rows, 1)]

    @property
    def banks(self) -> List[int]:
        """The banks of which it has rows, in order."""
        return sorted({bank for bank in self._bank_of if bank is not None})

    def first(self, bank: Optional[int], says: Says) -> Optional[Explanation]:
        """Why the first row of a bank breaks a rule, or of the cuts, where none is given; None where none does."""
        told = read_explanation(says(self._table(bank)))
        return None if told is None else read_explanation(self._as_told(told))

    def _neutral_of(self, number: int, row: Told) -> "tuple[str, str]":
        """What stands for a row that isn't looked at, in the trace and in the results."""
        tick = int(row.asks[0])
        if row.line is None:
            return f"{tick},C,,", f"{number},C,,cut,{tick},,"
        return f"{tick},W,{row.line},{'00' * self._size}", f"{number},W,{row.line},worn,{tick},,"

    def _table(self, bank: Optional[int]) -> bytes:
        rows = [kept if of == bank else neutral for of, kept, neutral in zip(self._bank_of, self._kept, self._neutral)]
        lines = [",".join(HEADER), *(asks for asks, _ in rows), RESULTS, *(answer for _, answer in rows), ""]
        return "\n".join(lines).encode("ascii")

    def _as_told(self, told: Explanation) -> str:
        """An explanation's text, with what the whole table tells of the row, which may be another bank's or a cut, and of all cuts."""
        row, lines = self._rows[told.row - 1], told.text.split("\n")
        if row.asks[1] == "R":
            lines[1] = lines[1].replace("  asks   write of", "  asks   read of")
        lines[2] = f"  told   {row.outcome}"
        cut = r"row (\d+)(, tick \d+: cut, )cut \d+$"
        return "\n".join(re.sub(cut, self._with_outcome, line) for line in lines)

    def _with_outcome(self, cut: "re.Match[str]") -> str:
        """A cut's line, with the outcome that the whole table has of it."""
        number, told = cut.groups()
        return f"row {number}{told}{self._rows[int(number) - 1].outcome}"


def rows_of(table: bytes) -> Iterator[Told]:
    """The rows of a table that the program took."""
    trace, results = parted(Source("table", "table", table))
    records = (it for it in csv.reader(io.StringIO(trace.text, newline="")) if it)
    next(records)
    yield from (Told(*both) for both in zip(records, results.data.decode("ascii").splitlines()[1:]))


def banks_of(options: Dict[str, str], program: Program = None) -> List[int]:
    """The bank of each line of the module."""
    known = COMMANDS["map"].options
    words = [word for name, value in options.items() if name in known for word in (f"--{name}", value)]
    done = subprocess.run([*command("map", program), *words], stdout=subprocess.PIPE, stderr=subprocess.PIPE, check=False)
    if done.returncode:
        raise error_of(done.returncode, done.stderr, ["map", *words])
    return [int(row.split(",")[1]) for row in done.stdout.decode().splitlines()[1:]]


def firsts(table: bytes, options: Dict[str, str], says: Says, program: Program = None) -> List[Explanation]:
    """Why the first row of each bank that breaks a rule does, in the order of banks, and behind them that of the first cut with another tick
    than its own, of a table that the program took."""
    size = int(options.get("line", COMMANDS["explain"].options["line"].default))
    whole = Parted(list(rows_of(table)), banks_of(options, program), size)
    found = (whole.first(bank, says) for bank in (*whole.banks, None))
    return [it for it in found if it is not None]


def counted(found: Sequence[Explanation], options: Dict[str, str]) -> str:
    """How many banks break a rule, and how many of these rows break which; and what a cut breaks, which is no bank's."""
    many = options.get("banks", COMMANDS["explain"].options["banks"].default)
    rules = Counter(it.rule for it in found if it.bank is not None)
    cuts = [f"; a cut breaks {it.rule}" for it in found if it.bank is None]
    return f"banks: {sum(rules.values())} of {many} break a rule: {', '.join(f'{it} {rules[it]}' for it in RULES)}{''.join(cuts)}\n"
