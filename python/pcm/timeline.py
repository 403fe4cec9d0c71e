"""A row that breaks a rule, drawn in time among the rows of its bank: what it was told, and all answers that would be right."""
import bisect
import collections
import math
from typing import Callable, Dict, Iterator, List, Mapping, NamedTuple, Optional, Sequence, Set, Tuple

from .charts import shortened
from .drawing import BLUE, GRID, INK, LIGHT, ORANGE, PALE, PAPER, RULE, SOFT, Picture, width_of
from .explanation import BytesFact, Explanation, Fact, ReadBetween, Right, RowFact, RowsFact, StoredBy, TickFact
from .runs import Arrival, Known

WIDTH = 900.0
# How many rows of the bank are drawn beside those that the explanation names, the nearest ones.
OTHERS = 12
_LANE, _BAR, _SIZE = 21.0, 11.0, 12.0
_LEFT, _GAP = 10.0, 14.0
# How much wider bold words are.
_BOLD = 1.12
_ASKED = {"R": "read of line", "W": "write of line", "C": "cut"}
# What is told as a row comes, or never: it has no time of its own.
_AT_ONCE = ("queued", "full", "worn", "forwarded", "busy", "cut")

# What the foot of a picture says of colours and shapes.
_KEYS = (("told", "dot", ORANGE), ("right: where it may end", "dot", BLUE), ("a write", "bar", RULE), ("a read", "rod", RULE))


class TableRow(NamedTuple):
    """A row of a trace with its result: its number, the tick at which it came, its operation and line, its outcome and the tick of that."""

    number: int
    came: int
    op: str
    line: Optional[int]
    word: str
    tick: int

    @property
    def asks(self) -> str:
        """What it asks for."""
        return _ASKED[self.op] + ("" if self.line is None else f" {self.line}")

    def words(self) -> str:
        """The row as explanations name it."""
        return f"row {self.number}, tick {self.came}: {self.asks}, {self.word} {self.tick}"


def table_of(arrivals: Sequence[Arrival], results: Sequence[Known]) -> List[TableRow]:
    """The rows of a trace with what became of them."""
    return [TableRow(at, *came, told.word, told.tick) for at, (came, told) in enumerate(zip(arrivals, results), 1)]


class Lane(NamedTuple):
    """A line of the picture: what stands left of it (the key of a fact, a row) and right of it, its title, the ticks from which and to which
    it is drawn (to the picture's end, where it has none), and how: `bar` of a write, `rod` of a read, `dot` in its end, `bracket`, or `none`.
    It has holes, the `gaps` between two ticks each, and a `tail` where it may end later."""

    key: str
    name: str
    words: str
    title: str
    begin: int
    end: Optional[int]
    shape: str
    colour: str = RULE
    bold: bool = False
    gaps: Tuple[Tuple[int, int], ...] = ()
    tail: bool = False

    @property
    def is_own(self) -> bool:
        """Whether it is of what the row itself was told, or of what would be right."""
        return self.colour in (ORANGE, BLUE)


class Times:
    """Where each tick stands across: in the order of ticks, and the longer a stretch in which nothing happens, the more it is shortened."""

    def __init__(self, ticks: Set[int], left: float, right: float) -> None:
        self.ticks = sorted(ticks)
        shares = [0.0]
        for before, after in zip(self.ticks, self.ticks[1:]):
            shares.append(shares[-1] + 1 + math.log2(after - before))
        # (a picture of one tick has it in its middle)
        wide = (right - left) / shares[-1] if shares[-1] else 0.0
        self.places = [left + share * wide if wide else (left + right) / 2 for share in shares]

    def place(self, tick: float) -> float:
        """Where a tick stands; one that nothing is at, between those around it."""
        at = bisect.bisect_left(self.ticks, tick)
        if at == len(self.ticks) or self.ticks[at] == tick or at == 0:
            return self.places[min(at, len(self.ticks) - 1)]
        share = (tick - self.ticks[at - 1]) / (self.ticks[at] - self.ticks[at - 1])
        return self.places[at - 1] + share * (self.places[at] - self.places[at - 1])


def around(told: Explanation, rows: Sequence[TableRow], bank_of: Callable[[int], int]) -> Tuple[List[TableRow], int]:
    """The rows to be drawn: the row itself, those that the explanation names, and the nearest others of its bank, cuts among them; and how
    many others of its bank are left out."""
    named = {told.row, *(row for fact in told.facts for row in fact.rows)}
    mates = [
        row.number for row in rows
        if row.number not in named and (row.line is None or told.bank is None or bank_of(row.line) == told.bank)
    ]
    near = sorted(mates, key=lambda number: abs(number - told.row))[:OTHERS]
    return [rows[number - 1] for number in sorted({*named, *near}) if number <= len(rows)], len(mates) - len(near)


def keys_of(told: Explanation) -> Dict[int, str]:
    """The keys of the facts that name each row."""
    found: Dict[int, List[str]] = collections.defaultdict(list)
    for fact in told.facts:
        for row in fact.rows:
            if fact.key not in found[row]:
                found[row].append(fact.key)
    return {row: ", ".join(keys) for row, keys in found.items()}


def _lane_of(row: TableRow, key: str) -> Lane:
    """The lane of another row of the bank; one that an explanation names has a dark edge."""
    shape = "dot" if row.word in _AT_ONCE and row.word != "queued" else "bar" if row.op == "W" else "rod"
    end = None if row.word == "queued" else row.tick
    name, told = f"row {row.number}  {row.asks}", f"{row.word} {row.tick}"
    return Lane(key, name, told, row.words(), row.came, end, shape, INK if key else RULE, bool(key))


def _told_lane(row: TableRow, told: Explanation) -> Lane:
    """The lane of what the row itself was told."""
    data = told.told.data
    title = row.words() + (f", data {data.hex()}" if data else "")
    lane = _lane_of(row, "told")
    return lane._replace(title=title, colour=ORANGE)


def _right_lane(row: TableRow, answer: Right, title: str) -> Lane:
    """The lane of an answer that would be right; its title are the words of the explanation."""
    if isinstance(answer, ReadBetween):
        but = "".join(f", but {tick}" for tick in answer.but)
        words, gaps = f"read {answer.first} to {answer.last}{but}", tuple((tick - 1, tick + 1) for tick in answer.but)
        return Lane("right", "", words, title, answer.first, answer.last, "rod", BLUE, gaps=gaps)
    if isinstance(answer, StoredBy):
        return _stored_lane(answer, title)
    words = f"{answer.word} {answer.tick}"
    return Lane("right", "", words, title, row.came, None if answer.word == "queued" else answer.tick, "dot", BLUE)


def _stored_lane(answer: StoredBy, title: str) -> Lane:
    """The lane of a store: to its bound where the bank does nothing else by then, or below the first worn row."""
    first, last, below = answer.behind + 1, answer.latest(), answer.below
    more = below is None or below > last + 1
    last = last if below is None else min(last, below - 1)
    gaps = [(tick - answer.apart, tick + answer.apart) for tick in answer.stores] + [(tick - 1, tick + 1) for tick in answer.reads]
    words = f"stored {first} to {last}" + " or later" * more if first <= last else "stored at no tick"
    return Lane("right", "", words, title, first, max(first, last), "bar" if first <= last else "none", BLUE, gaps=tuple(gaps), tail=more)


def _fact_lanes(row: TableRow, facts: Sequence[Fact]) -> Iterator[Lane]:
    """Brackets of the bounds that the facts tell."""
    for fact in facts:
        if isinstance(fact, TickFact) and fact.key != "own":
            words = f"from {fact.tick} on" if fact.key == "least" else f"by {fact.tick}"
            yield Lane(fact.key, "", words, f"{fact.key} {fact.words}", row.came, fact.tick, "bracket", INK)


def _notes(facts: Sequence[Fact]) -> Iterator[str]:
    """What facts say that no row or bracket shows."""
    for fact in facts:
        if isinstance(fact, RowsFact):
            yield f"{fact.key} {fact.words.partition(':')[0]}"
        elif type(fact) is Fact or isinstance(fact, RowFact) and (fact.key == "stale" or fact.row is None and fact.byte is None):
            yield f"{fact.key}: {fact.words}"
        elif isinstance(fact, TickFact) and fact.key != "own":
            yield f"{fact.key} {fact.words}"


def lanes_of(told: Explanation, rows: Sequence[TableRow]) -> List[Lane]:
    """The lanes of the picture, from the top: those rows that take one, and below the row itself what bounds it and what is right. A cut
    has one where it is the row itself; others are lines over all."""
    keys, lanes = keys_of(told), []
    for row in rows:
        if row.number != told.row:
            lanes += [_lane_of(row, keys.get(row.number, ""))] if row.op != "C" else []
            continue
        lanes.append(_told_lane(row, told))
        lanes += _fact_lanes(row, told.facts)
        titles = [f"right: {line[9:]}" for line in told.text.splitlines() if line.startswith("  right  ")]
        lanes += [_right_lane(row, answer, title) for answer, title in zip(told.right, titles)]
        if not told.right:
            lanes.append(Lane("right", "", "none", titles[0], row.came, row.came, "none", BLUE))
    return lanes


class Drawing:
    """A picture while it is drawn: its lanes, the cuts over them, and where ticks stand."""

    def __init__(self, told: Explanation, rows: Sequence[TableRow], left_out: int, colours: Mapping[str, str]) -> None:
        self.told, self.rows, self.left_out = told, rows, left_out
        self.lanes = lanes_of(told, rows)
        self.cuts = [row for row in rows if row.op == "C" and row.number != told.row]
        self.heading = _wrapped(f"{told.clause}: {told.sentence}", WIDTH - 2 * _LEFT, 13)
        self.notes = _wrapped("; ".join(_notes(told.facts)), WIDTH - 2 * _LEFT, _SIZE)
        keyed = max(width_of(lane.key, _SIZE) for lane in self.lanes)
        self.names = _LEFT + keyed + 10
        self.left = self.names + max(_width(lane.name, lane.bold) for lane in self.lanes) + _GAP
        self.right = WIDTH - min(230.0, max(_width(lane.words, lane.is_own) for lane in self.lanes)) - _LEFT - _GAP
        self.times = Times(set(self._marked()), self.left + 8, self.right - 22)
        self.cut_lines = _levels([(self.times.place(row.came), self._cut_words(row)) for row in self.cuts])
        self.top = 44.0 + 18 * (len(self.heading) + len(self.notes)) + 16 * max([0, *(1 + level for level in self.cut_lines)])
        self.low = self.top + _LANE * len(self.lanes)
        self.bytes = self._newest()
        height = self.low + 34 + 56 * bool(self.bytes) + 26
        about = f"row {told.row} breaks {told.clause}: {told.sentence}"
        self.picture = Picture(WIDTH, height, about, "; ".join(lane.title for lane in self.lanes if lane.key), colours)

    def _cut_words(self, row: TableRow) -> str:
        key = keys_of(self.told).get(row.number, "")
        return f"cut, row {row.number}" + f" ({key})" * bool(key and key != "cut")

    def _newest(self) -> Optional[bytes]:
        """The line's newest bytes, where the row was told others."""
        newest = [fact.data for fact in self.told.facts if isinstance(fact, BytesFact)]
        return newest[0] if newest and self.told.told.data is not None else None

    def draw(self) -> Picture:
        """Draws all."""
        self._head()
        self._ground()
        for at, lane in enumerate(self.lanes):
            self._lane(lane, self.top + _LANE * at)
        self._cuts()
        self._axis()
        if self.bytes is not None:
            self._strips(self.bytes, self.told.told.data or b"")
        self._foot()
        return self.picture

    def _head(self) -> None:
        about = f"row {self.told.row} breaks the rule {self.told.rule}"
        bank = "" if self.told.bank is None else f", bank {self.told.bank}"
        self.picture.text(_LEFT, 22, about + bank, 15, "start", bold=True)
        for at, line in enumerate(self.heading):
            self.picture.text(_LEFT, 42 + 18 * at, line, 13, "start")
        for at, line in enumerate(self.notes, len(self.heading)):
            self.picture.text(_LEFT, 42 + 18 * at, line, _SIZE, "start", SOFT)

    def _ground(self) -> None:
        """The band of the row itself, and thin lines at the ticks that have their numbers below."""
        own = [at for at, lane in enumerate(self.lanes) if lane.is_own]
        first, last = min(own), max(own)
        self.picture.rectangle(_LEFT - 4, self.top + _LANE * first, WIDTH - 2 * _LEFT + 8, _LANE * (last - first + 1), PALE)
        for _, x in self._numbered():
            self.picture.line([(x, self.top), (x, self.low)], GRID, width=1)

    def _marked(self) -> List[int]:
        """The ticks at which something is drawn, in the order in which they are to have their numbers: those of the row itself first."""
        own = [lane for lane in self.lanes if lane.is_own or lane.shape == "bracket"]
        holes = [tick for lane in own for hole in lane.gaps for tick in hole if lane.begin < tick and (lane.end is None or tick < lane.end)]
        others = [lane for lane in self.lanes if lane not in own]
        return list(dict.fromkeys([*_ends(own), *(row.came for row in self.cuts), *holes, *_ends(others)]))

    def _numbered(self) -> List[Tuple[int, float]]:
        """As many ticks as have room for their numbers, and where they stand."""
        found: List[Tuple[int, float]] = []
        taken: List[Tuple[float, float]] = []
        for tick in self._marked():
            x, half = self.times.place(tick), width_of(str(tick), 11) / 2 + 1
            if all(x + half <= low or high <= x - half for low, high in taken):
                taken.append((x - half, x + half))
                found.append((tick, x))
        return found

    def _lane(self, lane: Lane, top: float) -> None:
        """A lane: its words on both sides, and what stands between."""
        base = top + _LANE / 2 + 4
        colour = lane.colour if lane.is_own else INK
        with self.picture.titled(lane.title):
            if lane.key:
                self.picture.text(_LEFT, base, lane.key, _SIZE, "start", colour, italic=True)
            if lane.name:
                self.picture.text(self.names, base, lane.name, _SIZE, "start", bold=lane.bold)
            words = shortened(lane.words, (WIDTH - self.right - _GAP) / (_BOLD if lane.is_own else 1))
            self.picture.text(self.right + _GAP, base, words, _SIZE, "start", colour, bold=lane.is_own)
            if lane.shape == "bracket":
                self._bracket(lane, top + _LANE / 2)
            elif lane.shape == "dot":
                self._dot(lane, top + _LANE / 2)
            elif lane.shape != "none":
                self._bar(lane, top + (_LANE - _BAR) / 2)

    def _bar(self, lane: Lane, top: float) -> None:
        """A bar from arrival to outcome, filled for a write, hollow for a read; where a write stays in the queue it is open at its end."""
        begin, end = sorted((self.times.place(lane.begin), self.right if lane.end is None else self.times.place(lane.end)))
        wide = max(end - begin, 3.0)
        fill = lane.colour if lane.is_own else RULE
        edge = f"M{begin:.1f},{top:.1f}h{wide:.1f}v{_BAR:.1f}h{-wide:.1f}z"
        if lane.end is None:
            edge = f"M{end:.1f},{top:.1f}H{begin:.1f}v{_BAR:.1f}H{end:.1f}"
        self.picture.path(edge, fill if lane.shape == "bar" else PAPER, lane.colour, 2.2 if lane.bold or lane.shape == "rod" else 1.2)
        if lane.tail:
            self.picture.line([(begin + wide, top + _BAR / 2), (begin + wide + 24, top + _BAR / 2)], lane.colour, dashed=True, width=3)
        for low, high in lane.gaps:
            self._hole(lane, max(low, lane.begin), high, top)

    def _hole(self, lane: Lane, low: int, high: int, top: float) -> None:
        """Ticks within a range that aren't right, between these two."""
        if lane.end is None or low < lane.end and high > lane.begin:
            begin, end = self.times.place(low), self.times.place(min(high, lane.end or high))
            self.picture.rectangle(begin + 1, top - 2, max(end - begin - 2, 2.5), _BAR + 4, PALE)
            self.picture.line([(begin + 1, top + _BAR / 2), (max(end - 1, begin + 3), top + _BAR / 2)], SOFT, dashed=True, width=1)

    def _dot(self, lane: Lane, y: float) -> None:
        """A dot where it ends, and the way there."""
        begin, end = self.times.place(lane.begin), self.times.place(lane.begin if lane.end is None else lane.end)
        if end != begin:
            self.picture.line([(begin, y), (end, y)], lane.colour, width=1.6)
        self.picture.dot(end, y, 5.5, lane.colour)
        if lane.end is None:
            self.picture.line([(end, y), (self.right, y)], lane.colour, dashed=True, width=1.6)

    def _bracket(self, lane: Lane, y: float) -> None:
        begin, end = self.times.place(lane.begin), self.times.place(lane.end if lane.end is not None else lane.begin)
        self.picture.line([(begin, y - 5), (begin, y), (end, y), (end, y - 5)], INK, width=1.4)

    def _cuts(self) -> None:
        """Cuts, as lines over all."""
        for row, level in zip(self.cuts, self.cut_lines):
            x = self.times.place(row.came)
            with self.picture.titled(row.words()):
                self.picture.line([(x, self.top - 2 - 16 * level), (x, self.low)], INK, dashed=True, width=1.6)
                self.picture.text(x, self.top - 5 - 16 * level, self._cut_words(row), 11.5, bold=row.number in keys_of(self.told))

    def _axis(self) -> None:
        """The numbers of ticks below."""
        self.picture.line([(self.left, self.low), (self.right, self.low)], SOFT, width=1)
        for tick, x in self._numbered():
            self.picture.line([(x, self.low), (x, self.low + 4)], SOFT, width=1)
            self.picture.text(x, self.low + 17, str(tick), 11, colour=SOFT)
        self.picture.text(self.right + _GAP, self.low + 17, "ticks", _SIZE, "start", SOFT, italic=True)

    def _strips(self, newest: bytes, told: bytes) -> None:
        """The bytes of the line, those that were told above the newest ones: coloured where they differ."""
        top, each = self.low + 32, (self.right - self.left) / len(newest)
        givers = {fact.byte: fact.row for fact in self.told.facts if isinstance(fact, RowFact) and fact.key == "from"}
        for at, (words, data, colour) in enumerate((("told", told, ORANGE), ("newest", newest, BLUE))):
            y = top + 16 * at
            with self.picture.titled(f"{words} {data.hex()}"):
                self.picture.text(_LEFT, y + 11, words, _SIZE, "start", colour, italic=True)
                for byte, (one, other) in enumerate(zip(data, newest if at == 0 else told)):
                    self.picture.rectangle(self.left + each * byte, y, each - 1, 12, colour if one != other else GRID)
                self.picture.text(self.right + _GAP, y + 11, f"{data[:2].hex()}..{data[-2:].hex()}", _SIZE, "start", colour)
        self.picture.text(self.names, top + 11, f"bytes 0 to {len(newest) - 1}", _SIZE, "start")
        taken = 0.0
        for first, row in givers.items():
            x, words = self.left + each * (first or 0), "no write" if row is None else f"row {row}"
            if x >= taken:
                self.picture.text(x, top + 42, words, 11, "start", SOFT)
                taken = x + width_of(words, 11)

    def _foot(self) -> None:
        """What the colours and shapes say."""
        y, x = self.picture.height - 9, _LEFT
        for words, shape, colour in _KEYS:
            if shape == "dot":
                self.picture.dot(x + 8, y - 4, 5, colour)
            else:
                self.picture.path(f"M{x:.1f},{y - 9:.1f}h16v10h-16z", colour if shape == "bar" else PAPER, colour, 1.6)
            self.picture.text(x + 21, y, words, 11, "start", SOFT)
            x += 31 + width_of(words, 11)
        left = f"; {self.left_out:,} more rows of the bank" * bool(self.left_out)
        self.picture.text(x, y, "open end: stays in the queue; long waits drawn shorter" + left, 11, "start", SOFT)


def _ends(lanes: Sequence[Lane]) -> List[int]:
    """The ticks at which lanes begin and end."""
    return [tick for lane in lanes for tick in (lane.begin, lane.end) if tick is not None]


def _width(words: str, bold: bool) -> float:
    """About how wide words of a lane are."""
    return width_of(words, _SIZE) * (_BOLD if bold else 1)


def _wrapped(words: str, width: float, size: float) -> List[str]:
    """Words in lines no wider than so many pixels."""
    lines: List[str] = []
    for word in words.split():
        if lines and width_of(f"{lines[-1]} {word}", size) <= width:
            lines[-1] += f" {word}"
        else:
            lines.append(word)
    return lines


def _levels(words: Sequence[Tuple[float, str]]) -> List[int]:
    """For words around places across, on which line above the others each stands so that none covers another."""
    ends: List[float] = []
    found = []
    for x, text in words:
        half = width_of(text, 11.5) / 2 + 3
        level = next((at for at, end in enumerate(ends) if end <= x - half), len(ends))
        ends[level:level + 1] = [x + half]
        found.append(level)
    return found


def timeline(told: Explanation, rows: Sequence[TableRow], bank_of: Callable[[int], int], colours: Mapping[str, str] = LIGHT) -> Picture:
    """The picture of an explanation, over the rows of its table and the bank of each line."""
    return Drawing(told, *around(told, rows, bank_of), colours).draw()
