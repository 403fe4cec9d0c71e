"""The rows of a wear report, in columns: a large module has millions of array lines."""
import itertools
from array import array
from typing import Iterable, List, NamedTuple, Optional

# The first fields of its header; what `--print lines` adds stands behind them.
HEADER = ["array", "bank", "pulses", "role"]
# What an array line is to its bank. The first is followed by the number of the line that it holds.
ROLES = ("line", "gap", "free", "retired", "control")
_CODES = {role: code for code, role in enumerate(ROLES)}
# The greatest numbers of columns; of pulses and the others behind them it is `MOST_PULSES`.
MOST_PULSES = (1 << 64) - 1
MOST = {"array": (1 << 32) - 1, "bank": 255, "pulses": MOST_PULSES, "pointers": 255}


class Worn(NamedTuple):
    """A row of a wear report; `pointers` is None where it isn't told."""

    array: int
    bank: int
    pulses: int
    role: str
    pointers: Optional[int] = None


class Wear:
    """The wear report of a whole module: bank and pulses of each array line, by its number, what it is, and where they are told its active
    pointers."""

    def __init__(self, tells_pointers: bool) -> None:
        self.banks = array("B")
        self.pulses = array("Q")
        self.pointers: Optional["array[int]"] = array("B") if tells_pointers else None
        self._roles, self._held = bytearray(), array("I")

    def extend(self, banks: Iterable[int], pulses: Iterable[int], roles: Iterable[str], pointers: Optional[Iterable[int]]) -> None:
        """More rows, by their columns. `OverflowError` where a number is above the greatest of its column."""
        self.banks.extend(banks)
        self.pulses.extend(pulses)
        for role, _, held in (it.partition(" ") for it in roles):
            self._roles.append(_CODES[role])
            self._held.append(int(held or 0))
        if self.pointers is not None:
            self.pointers.extend(pointers or ())

    def __len__(self) -> int:
        return len(self.pulses)

    def __getitem__(self, at: int) -> Worn:
        pointers = None if self.pointers is None else self.pointers[at]
        return Worn(at, self.banks[at], self.pulses[at], self.role(at), pointers)

    def role(self, at: int) -> str:
        """The role of an array line, as a report tells it."""
        role = ROLES[self._roles[at]]
        return f"{role} {self._held[at]}" if role == ROLES[0] else role

    def count(self, role: str, lines: range) -> int:
        """How many of some array lines, which stand beside one another, have a role."""
        return self._roles.count(_CODES[role], lines.start, lines.stop)

    def find(self, role: str, lines: range) -> List[int]:
        """Those of some array lines that have a role."""
        wanted, at = _CODES[role], lines.start - 1
        found: List[int] = []
        while True:
            at = self._roles.find(wanted, at + 1, lines.stop)
            if at < 0:
                return found
            found.append(at)

    def where(self, values: Iterable[int], role: str, has_it: bool) -> Iterable[int]:
        """Those of the lines' values whose line has a role, or has another one."""
        table = bytes((at == _CODES[role]) == has_it for at in range(256))
        return itertools.compress(values, self._roles.translate(table))
