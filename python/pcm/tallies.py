"""The numbers of a run that a report shows."""
from typing import Dict, Iterable, List, NamedTuple, Optional, Sequence, Tuple

from .runs import Run
from .snapshots import BEGIN, Snapshot
from .worn import Wear

QUANTILES = (50.0, 90.0, 99.0, 99.9)


def waits(run: Run, word: str, bank: Optional[int] = None) -> List[int]:
    """The ticks from arrival to outcome of the rows with an outcome (of one bank), from the least on; none without a trace."""
    return run.waits.get((word, bank), [])


def quantile(ordered: Sequence[int], percent: float) -> Optional[int]:
    """The least of ordered values that at least so many per cent of them don't exceed."""
    if not ordered:
        return None
    rank = -(-len(ordered) * round(percent * 10) // 1000)
    return ordered[max(0, rank - 1)]


def first_refused(run: Run) -> Tuple[Optional[int], Optional[int]]:
    """The number of the first write that is refused (full or worn), and its tick. Of snapshots alone those of the first by which one was."""
    if run.has_rows:
        return next(((number, row.tick) for number, row in enumerate(run.rows, 1) if row.word in ("full", "worn")), (None, None))
    return next(((one.rows, one.tick) for one in run.snapshots if one.full + one.worn), (None, None))


class Level(NamedTuple):
    """How many writes, or reads, wait: the most in each part of the time, and the mean over all of it."""

    most: List[int]
    mean: float


def levels(run: Run, words: Iterable[str], ends: Iterable[str], span: int, parts: int) -> List[Level]:
    """Bank by bank, how many rows of some outcomes wait at the end of each tick: from their arrival until the tick of those that `ends`
    names. The span is parted into equal parts."""
    changes: List[Dict[int, int]] = [{} for _ in range(run.shape.banks)]
    begins, stops = set(words), set(ends)
    for row, came, bank in zip(run.rows, run.arrivals or [], run.banks):
        if row.word in begins and bank is not None:
            here = changes[bank]
            here[came.tick] = here.get(came.tick, 0) + 1
            if row.word in stops:
                here[row.tick] = here.get(row.tick, 0) - 1
    return [_level(here, span, parts) for here in changes]


def _level(changes: Dict[int, int], span: int, parts: int) -> Level:
    most, now, part, before, area = [0] * parts, 0, 0, 0, 0
    for tick in sorted(changes):
        here = tick * parts // span
        most[part + 1: here + 1] = [now] * (here - part)
        area += now * (tick - before)
        now += changes[tick]
        part, before = here, tick
        most[part] = max(most[part], now)
    most[part + 1:] = [now] * (parts - part - 1)
    return Level(most, (area + now * (span - before)) / span)


def grown(ticks: Iterable[int], span: int, parts: int) -> List[int]:
    """How many of some ticks have come by the end of each part of the time."""
    found = [0] * parts
    for tick in ticks:
        found[tick * parts // span] += 1
    total = 0
    for part, number in enumerate(found):
        total += number
        found[part] = total
    return found


def spare_ticks(run: Run) -> List[int]:
    """When each spare is first seen in use, by the places of stores and reads: at that tick or before it was given. Spares are given in
    order, so those before it are in use by then too."""
    shape, given, ticks = run.shape, [0] * run.shape.banks, []
    placed = sorted((row.tick, row.place) for row in run.rows if row.place is not None)
    for tick, place in placed:
        bank, at = divmod(place, shape.array_lines)
        more = at - shape.slots + 1 - given[bank]
        if more > 0:
            given[bank] += more
            ticks += [tick] * more
    return ticks


def retired(run: Run) -> Optional[int]:
    """The spares in use in the end, where the summary or the wear report is there."""
    if run.wear is not None:
        return run.wear.count("retired", range(len(run.wear)))
    if run.summary is not None:
        return run.summary["retired"]
    return run.snapshots[-1].retired if run.snapshots else None


def all_pulses(run: Run) -> Optional[int]:
    """The pulses of all array lines in the end, where a file tells them."""
    if run.wear is not None:
        return sum(run.wear.pulses)
    if run.summary is not None:
        return run.summary["pulses"]
    return run.snapshots[-1].pulses if run.snapshots else None


class Pulses(NamedTuple):
    """Of a bank: its stores, the pulses of its slots and spares, and those of its control lines."""

    stores: int
    lines: int
    control: int

    @property
    def a_store(self) -> Optional[float]:
        """All pulses for each store."""
        return (self.lines + self.control) / self.stores if self.stores else None


def pulses(run: Run) -> List[Pulses]:
    """Bank by bank, what the wear report tells."""
    found = []
    stores = [0] * run.shape.banks
    for row in run.rows:
        if row.word == "stored" and row.place is not None:
            stores[row.place // run.shape.array_lines] += 1
    for bank, number in enumerate(stores):
        wear, here = (run.wear.pulses, groups(run, bank)) if run.wear else ((), [])
        counts = {group: sum(group.of(wear)) for group in here}
        control = sum(count for group, count in counts.items() if group.words == CONTROL)
        found.append(Pulses(number, sum(counts.values()) - control, control))
    return found


# What stands behind a bank's slots and spares.
CONTROL = "control"


class Group(NamedTuple):
    """Array lines of a bank that stand beside one another: a region's, the spares or the control lines."""

    bank: int
    words: str
    lines: range

    def of(self, values: Sequence[int]) -> Sequence[int]:
        """The values of its lines, of those of all array lines."""
        return values[self.lines.start: self.lines.stop]

    def parts(self, lines: int) -> int:
        """Of how many parts of so many lines it is."""
        return -(-len(self.lines) // lines)


def groups(run: Run, bank: int) -> List[Group]:
    """A bank's regions, spares and control lines, but for those that are empty."""
    shape = run.shape
    first, width = bank * shape.array_lines, shape.lines + 1
    parts = [(f"region {at}", at * width, (at + 1) * width) for at in range(shape.regions)]
    parts += [("spares", shape.slots, shape.slots + shape.spares), (CONTROL, shape.slots + shape.spares, shape.array_lines)]
    return [Group(bank, words, range(first + begin, first + end)) for words, begin, end in parts if begin < end]


class Square(NamedTuple):
    """Array lines beside one another: the greatest of their values, and a role that one of them has, where that is to be seen."""

    value: int
    role: Optional[str]


def squares(group: Group, wear: Wear, values: Sequence[int], lines: int) -> List[Square]:
    """A group in parts of so many lines."""
    here = group.of(values)
    roles: Dict[int, str] = {}
    # (of lines with several roles the last of these is to be seen)
    for role in ("free", "control", "gap", "retired"):
        roles.update(((at - group.lines.start) // lines, role) for at in wear.find(role, group.lines))
    return [Square(max(here[at * lines: (at + 1) * lines]), roles.get(at)) for at in range(group.parts(lines))]


def lost_at_cuts(run: Run) -> Dict[int, int]:
    """How many reads were lost at each tick with a cut."""
    found = {row.tick: 0 for row in run.rows if row.word == "cut"}
    for row in run.rows:
        if row.word == "lost":
            found[row.tick] = found.get(row.tick, 0) + 1
    return found


def pointers(run: Run) -> Optional[Sequence[int]]:
    """The active pointers of each array line, by the wear report of `--print lines` or by the image."""
    if run.wear and run.wear.pointers is not None:
        return run.wear.pointers
    if run.image is None:
        return None
    found = bytearray(len(run.image.cells))
    for at, _ in run.image.touched():
        found[at] = len(run.image.pointers(at))
    return found


def sampled(snapshots: Sequence[Snapshot], most: int) -> List[Snapshot]:
    """The begin, and at most so many snapshots at equal distances, with the last; each has more rows than the one before it, but for the
    last where there are no rows at all."""
    # (the one before the last, where the drain behind it served no more rows)
    apart = [one for one, after in zip(snapshots, snapshots[1:]) if one.rows < after.rows] + list(snapshots[-1:])
    count = min(most, len(apart))
    return [BEGIN, *(apart[(at + 1) * len(apart) // count - 1] for at in range(count))]


def first_with(snapshots: Iterable[Snapshot], name: str, least: int) -> Optional[int]:
    """The rows of the first snapshot in which a number is at least so many."""
    return next((one.rows for one in snapshots if getattr(one, name) >= least), None)


def shares(samples: Sequence[Snapshot], word: str) -> List[float]:
    """Between each two samples, how many rows got an outcome, for each 100 rows served."""
    return [
        100 * (getattr(now, word) - getattr(before, word)) / max(1, now.rows - before.rows) for before, now in zip(samples, samples[1:])
    ]
