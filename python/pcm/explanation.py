"""What `pcm explain` says of a row that breaks a rule, read back."""
import re
from dataclasses import dataclass, field
from typing import Callable, Dict, List, Match, Optional, Pattern, Tuple, Union

from .errors import PcmError
from .outcomes import Outcome, outcome_of
from .runs import OPERATIONS


class ExplanationError(PcmError):
    """A text isn't an explanation (status 3): `at` is the line's number, from 1, and the words say what should stand there."""

    def __init__(self, at: int, wanted: str, line: str) -> None:
        shown = f"{line[:80]!r}" + ".." * (len(line) > 80) if line else "nothing"
        super().__init__(3, f"line {at} of an explanation should be {wanted}, and is {shown}")
        self.at = at


@dataclass(frozen=True)
class Asks:
    """What a row asks for: `op` is `R`, `W` or `C`; its line and its bank (none of a power cut), and the tick at which it came."""

    op: str
    line: Optional[int]
    tick: int
    bank: Optional[int]


@dataclass(frozen=True)
class Answer:
    """What a row was told: an outcome's word, its tick, and the bytes of an answered read."""

    word: str
    tick: int
    data: Optional[bytes]


@dataclass(frozen=True)
class Fact:
    """A line of what breaks the clause: its key and its words. `queue` says whether the queue gives every byte of the line, and `why`, why a
    write may not stand there; other keys have a class that tells more."""

    key: str
    words: str

    @property
    def rows(self) -> Tuple[int, ...]:
        """The numbers of the rows that it names."""
        return ()


@dataclass(frozen=True)
class TickFact(Fact):
    """A tick: `own`, at which the row came; `least`, the first at which it may end; `bound` and `latest`, the last of a read and of a write."""

    tick: int


@dataclass(frozen=True)
class RowFact(Fact):
    """A row, or that there is none: `from` gave the newest bytes from `byte` on, what was told was newest before `stale`, `ahead` leaves the
    queue first, `cut` comes behind, `next` is the line's next accepted write, `first` is worn, and from `other` the row doesn't lie apart;
    beside others of its line `newer` may not stand."""

    row: Optional[int]
    byte: Optional[int] = None

    @property
    def rows(self) -> Tuple[int, ...]:
        return () if self.row is None else (self.row,)


@dataclass(frozen=True)
class RowsFact(Fact):
    """The writes that `stand` in the bank's queue as the row comes, or the reads of which each `waits`, and the most that may."""

    most: int
    numbers: Tuple[int, ...]

    @property
    def rows(self) -> Tuple[int, ...]:
        return self.numbers


@dataclass(frozen=True)
class BankFact(Fact):
    """The `bank` that holds more than it may."""

    bank: int


@dataclass(frozen=True)
class BytesFact(Fact):
    """The `newest` bytes of the line."""

    data: bytes


@dataclass(frozen=True)
class ReadBetween:
    """A read is right from one tick to another, but at some between, with these bytes."""

    first: int
    last: int
    but: Tuple[int, ...]
    data: bytes

    def takes(self, tick: int) -> bool:
        """Whether a read at this tick is right."""
        return self.first <= tick <= self.last and tick not in self.but


@dataclass(frozen=True)
class StoredBy:
    """A store is right behind a tick and within `alone` of it, or later by what the bank does by then; below the tick of its first worn row
    (`below`), `apart` ticks from each of `stores`, and at none of `reads`."""

    behind: int
    alone: int
    a_store: int
    a_read: int
    a_cut: int
    below: Optional[int] = None
    apart: int = 0
    stores: Tuple[int, ...] = ()
    reads: Tuple[int, ...] = ()

    def latest(self, stores: int = 0, reads: int = 0, cuts: int = 0) -> int:
        """The last tick, where so many further writes are stored, and so many reads read by then, and so many cuts come behind the row."""
        return self.behind + self.alone + stores * self.a_store + reads * self.a_read + cuts * self.a_cut

    def takes(self, tick: int, stores: int = 0, reads: int = 0, cuts: int = 0) -> bool:
        """Whether a store at this tick is right, where the bank does so much by then."""
        in_time = self.behind < tick <= self.latest(stores, reads, cuts) and (self.below is None or tick < self.below)
        return in_time and tick not in self.reads and all(abs(tick - other) >= self.apart for other in self.stores)


# An answer that would be right; where one tick alone is, an outcome of the row.
Right = Union[ReadBetween, StoredBy, Outcome]


@dataclass(frozen=True)
class Explanation:
    """Why a row breaks a rule (`serves`, `queue`, `worn` or `tick`): what it asks, what it was told, the clause that it breaks and the clause
    in a sentence, what breaks it, and all answers that would be right. None is where the bank `no_room` holds too much as the row comes, or
    where clauses leave no tick; and none is told of a row that breaks `Earned` alone. `text` is what the program printed."""

    row: int
    rule: str
    asks: Asks
    told: Answer
    clause: str
    sentence: str
    facts: Tuple[Fact, ...]
    right: Tuple[Right, ...]
    no_room: Optional[int]
    text: str = field(repr=False, compare=False)

    def of(self, key: str) -> Tuple[Fact, ...]:
        """The facts of this key."""
        return tuple(fact for fact in self.facts if fact.key == key)

    @property
    def bank(self) -> Optional[int]:
        """The bank that it is about: one that holds too much, or the row's own; none of a cut else."""
        return self.asks.bank if self.no_room is None else self.no_room


RULES = ("serves", "queue", "worn", "tick")
_NUMBER, _BYTES = r"[0-9]{1,20}", r"(?:[0-9a-f]{2})+"
_ASKED = rf"(?:(?:read|write) of line {_NUMBER}|cut)"
_TOLD = rf"(?:{'|'.join(OPERATIONS)}) {_NUMBER}"
_A_ROW = rf"row (?P<row>{_NUMBER})(?:, tick {_NUMBER}: {_ASKED}, {_TOLD})?"
_SOME_ROWS = rf"rows (none|{_NUMBER}(?: {_NUMBER})*)"
_TICKS = rf"{_NUMBER}(?: {_NUMBER})*"

_HEAD = re.compile(rf"row ({_NUMBER}): ({'|'.join(RULES)})")
_ASKS = re.compile(rf"  asks   (?:(read|write) of line ({_NUMBER})|cut) at tick ({_NUMBER})(?:, bank ({_NUMBER}))?")
_ANSWER = re.compile(rf"  told   ({'|'.join(OPERATIONS)}) ({_NUMBER})(?:, data ({_BYTES}))?")
_BREAKS = re.compile(r"  breaks ([A-Z][A-Za-z]+): (.+)")
_FACT = re.compile(r"         ([a-z]+) +(.+)")
_RIGHT = re.compile(r"  right  (.+)")
_NONE = re.compile(rf"none(?:: bank ({_NUMBER}) has no room as it comes)?")


def _natural(text: Optional[str]) -> Optional[int]:
    return None if text is None else int(text)


def _numbers(text: Optional[str]) -> Tuple[int, ...]:
    """The numbers that stand in words."""
    return tuple(int(it) for it in re.findall(_NUMBER, text or ""))


def _tick_fact(key: str, found: Match[str]) -> Fact:
    return TickFact(key, found[0], sum(int(it) for it in found.groups()))


def _row_fact(key: str, found: Match[str]) -> Fact:
    parts = found.groupdict()
    return RowFact(key, found[0], _natural(parts["row"]), _natural(parts.get("byte")))


def _rows_fact(key: str, found: Match[str]) -> Optional[Fact]:
    """None where they aren't as many as is said."""
    numbers = _numbers(found[3])
    return RowsFact(key, found[0], int(found[2]), numbers) if len(numbers) == int(found[1]) else None


# The forms of the words behind each key, and what is made of them.
_FACTS: Dict[str, Tuple[Pattern[str], Callable[[str, Match[str]], Optional[Fact]]]] = {
    key: (re.compile(form), made) for key, form, made in (
        ("own", rf"tick ({_NUMBER})", _tick_fact),
        ("least", rf"({_NUMBER}) \+ ({_NUMBER})", _tick_fact),
        ("bound", rf"({_NUMBER}): {_NUMBER} \+ {_NUMBER} \+ \({_NUMBER} \+ 1\) \* {_NUMBER}", _tick_fact),
        ("latest", rf"({_NUMBER}): {_NUMBER} stored, {_NUMBER} read and {_NUMBER} cuts by then", _tick_fact),
        ("from", rf"byte (?P<byte>{_NUMBER}): (?:{_A_ROW}|no write)", _row_fact),
        ("stale", rf"what is told was newest before row (?P<row>{_NUMBER})", _row_fact),
        ("ahead", rf"{_A_ROW}|no write of the line stands", _row_fact),
        ("cut", rf"{_A_ROW}|none comes behind it", _row_fact),
        ("next", rf"{_A_ROW}|no later write of the line is accepted", _row_fact),
        ("first", _A_ROW, _row_fact), ("other", _A_ROW, _row_fact), ("newer", _A_ROW, _row_fact),
        ("stand", rf"({_NUMBER}) of ({_NUMBER}) writes: {_SOME_ROWS}", _rows_fact),
        ("waits", rf"({_NUMBER}) of ({_NUMBER}) reads: {_SOME_ROWS}", _rows_fact),
        ("bank", rf"({_NUMBER})", lambda key, found: BankFact(key, found[0], int(found[1]))),
        ("newest", rf"({_BYTES})", lambda key, found: BytesFact(key, found[0], bytes.fromhex(found[1]))),
        ("queue", r"gives (?:every byte|not every byte) of the line", lambda key, found: Fact(key, found[0])),
        ("why", r".+", lambda key, found: Fact(key, found[0])),
    )
}

_READ = re.compile(rf"read ({_NUMBER}) to ({_NUMBER})((?:, but {_NUMBER})*), data ({_BYTES})")
_STORED = re.compile(
    rf"stored behind ({_NUMBER}) by (?:\1) \+ ({_NUMBER}) \+ ({_NUMBER}) for each further store, ({_NUMBER}) for each read"
    rf" and ({_NUMBER}) for each cut behind it(?:, below ({_NUMBER}))?(?:, ({_NUMBER}) apart from ({_TICKS}))?(?:, not at ({_TICKS}))?"
)
_AT_ONE = re.compile(rf"(?:(forwarded) ({_NUMBER}), data ({_BYTES})|(lost|busy|merged|queued|full|worn|cut) ({_NUMBER}))")


def _right(row: int, words: str) -> Optional[Right]:
    """An answer that would be right for a row; None where these words aren't one."""
    found = _READ.fullmatch(words)
    if found:
        return ReadBetween(int(found[1]), int(found[2]), _numbers(found[3]), bytes.fromhex(found[4]))
    found = _STORED.fullmatch(words)
    if found:
        behind, alone, a_store, a_read, a_cut = (int(it) for it in found.groups()[:5])
        below, apart, stores, reads = found.groups()[5:]
        return StoredBy(behind, alone, a_store, a_read, a_cut, _natural(below), int(apart or 0), _numbers(stores), _numbers(reads))
    found = _AT_ONE.fullmatch(words)
    return outcome_of(found[1] or found[4], row, int(found[2] or found[5]), "", found[3] or "") if found else None


class _Lines:
    """The lines of a text, which are taken one by one."""

    def __init__(self, text: str) -> None:
        self._lines = text.split("\n")
        # (each line is ended, so nothing stands behind the last one)
        if self._lines.pop():
            raise ExplanationError(len(self._lines) + 1, "ended by a line feed", text[-80:])
        self.at = 1

    def fault(self, wanted: str) -> ExplanationError:
        """The exception for the line at hand."""
        return ExplanationError(self.at, wanted, self._lines[0] if self._lines else "")

    def next(self, form: Pattern[str]) -> Optional[Match[str]]:
        """The parts of the line at hand, where it is of a form; None where it isn't."""
        return form.fullmatch(self._lines[0]) if self._lines else None

    def take(self, form: Pattern[str], wanted: str) -> Match[str]:
        """The parts of the line at hand, which has to be of a form; the next is at hand then."""
        found = self.next(form)
        if found is None:
            raise self.fault(wanted)
        self.step()
        return found

    def step(self) -> None:
        """The next line is at hand."""
        del self._lines[0]
        self.at += 1

    @property
    def ended(self) -> bool:
        return not self._lines


def read_explanation(text: str) -> Optional[Explanation]:
    """What the program printed; None where that is `ok`. `ExplanationError` says which line of another text isn't as it should be."""
    if text == "ok\n":
        return None
    lines = _Lines(text)
    head = lines.take(_HEAD, "`row NUMBER: RULE`, or `ok`")
    asked = lines.take(_ASKS, "what the row asks, `  asks   read of line 0 at tick 0, bank 0`")
    answer = lines.take(_ANSWER, "what the row was told, `  told   read 5, data ff..`")
    if (answer[1] in ("read", "forwarded")) != (answer[3] is not None):
        raise ExplanationError(3, "an outcome with bytes exactly where a read is answered", answer[0])
    breaks = lines.take(_BREAKS, "the clause, `  breaks NAME: SENTENCE`")
    facts = _facts(lines)
    right, no_room = ((), None) if breaks[1] == "Earned" and lines.ended else _rights(lines, int(head[1]))
    op = {"read": "R", "write": "W"}.get(asked[1], "C")
    return Explanation(
        row=int(head[1]), rule=head[2], asks=Asks(op, _natural(asked[2]), int(asked[3]), _natural(asked[4])),
        told=Answer(answer[1], int(answer[2]), None if answer[3] is None else bytes.fromhex(answer[3])), clause=breaks[1], sentence=breaks[2],
        facts=facts, right=right, no_room=no_room, text=text,
    )


def _facts(lines: _Lines) -> Tuple[Fact, ...]:
    facts: List[Fact] = []
    found = lines.next(_FACT)
    while found:
        form, made = _FACTS.get(found[1], (None, None))
        parts = form.fullmatch(found[2]) if form else None
        fact = made(found[1], parts) if made and parts and found[0] == f"         {found[1]:<6} {found[2]}" else None
        if fact is None:
            raise lines.fault("a fact of a known form")
        facts.append(fact)
        lines.step()
        found = lines.next(_FACT)
    return tuple(facts)


def _rights(lines: _Lines, row: int) -> Tuple[Tuple[Right, ...], Optional[int]]:
    """The answers that would be right, to the end; and where none is since a bank has no room, that bank."""
    wanted = "an answer that would be right, `  right  ANSWER`"
    found = lines.next(_RIGHT)
    none = _NONE.fullmatch(found[1]) if found else None
    if none:
        lines.step()
        if not lines.ended:
            raise lines.fault("nothing, where no answer is right")
        return (), _natural(none[1])
    right: List[Right] = []
    while not right or not lines.ended:
        found = lines.next(_RIGHT)
        answer = _right(row, found[1]) if found else None
        if answer is None:
            raise lines.fault(wanted)
        right.append(answer)
        lines.step()
    return tuple(right), None
