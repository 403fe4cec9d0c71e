"""The pictures of a report. Those of several runs have one scale, which is handed in."""
from typing import Dict, List, NamedTuple, Optional, Sequence, Tuple

from .drawing import (
    BLUE, GREEN, HEAT, ORANGE, PALE, PALE_BLUE, PAPER, PURPLE, RED, RULE, SOFT, VARIABLES, Picture, figure, width_of,
)
from .plots import (
    Axis, Panel, Room, Series, at_the_ends, fitting, key_rows, keys, level, of_names, plot, round_step, short, upright,
)
from .runs import OUTCOMES
from .tallies import Group, Level, Pulses, Square

WIDTH = 460
COLOURS = {
    "stored": BLUE, "merged": BLUE, "queued": ORANGE, "full": ORANGE, "worn": ORANGE, "read": GREEN, "forwarded": GREEN, "busy": ORANGE,
    "lost": RED, "cut": SOFT,
}
# The most squares of a row of the map, and the widest one.
_COLUMNS, _CELL = 66, 16.0
# The most squares of all maps of a module, and those of a group of lines that stand beside one another.
_SQUARES, _OF_A_GROUP = 20_000, 5_000
_EDGES = {"gap": BLUE, "retired": RED, "control": GREEN, "free": RULE}


def of_counts(counts: Dict[str, int], most: int, title: str) -> Picture:
    """A bar for each outcome."""
    told = ", ".join(f"{word} {counts[word]:,}" for word in OUTCOMES)
    picture = Picture(WIDTH, 262, title, told, VARIABLES)
    rows, y = max(1, sum(counts.values())), 4
    # (all pictures of a page have bars of one length, which leave room for the longest count)
    bar = WIDTH - 57 - 125 - max(68.0, 8 + width_of(f"{most:,}", 13))
    for word in OUTCOMES:
        group = {"stored": "writes", "read": "reads", "cut": "cuts"}.get(word)
        if group:
            y += 0 if word == "stored" else 10
            picture.text(2, y + 15, group, 12, "start", SOFT, italic=True)
        picture.text(118, y + 15, word, 13, "end")
        picture.rectangle(125, y + 3, bar, 16, PALE)
        picture.rectangle(125, y + 3, bar * counts[word] / max(1, most), 16, COLOURS[word])
        picture.text(WIDTH - 57, y + 15, f"{counts[word]:,}", 13, "end")
        picture.text(WIDTH - 4, y + 15, _share(counts[word], rows), 12, "end", SOFT)
        y += 23
    return picture


def _share(count: int, rows: int) -> str:
    """A part of all rows in per cent; one that isn't none isn't told as none."""
    return "<0.1%" if 0 < 2000 * count < rows else f"{100 * count / rows:.1f}%"


def heat(value: int, most: int) -> int:
    """The step of the palette's heat for a value: 0 for none, 1 to 8 for equal parts up to the most, and 8 above."""
    return 0 if value == 0 else min(8, 1 + (value - 1) * 8 // most)


def bounds(step: int, most: int) -> Tuple[int, int]:
    """The least and the greatest value of a step of heat from 1 on; the second is below the first where no value has it."""
    return -(-(step - 1) * most // 8) + 1, -(-step * most // 8)


def grain(groups: Sequence[Group]) -> int:
    """How many array lines a square of a module's maps stands for: as few as leave maps of a size that can be looked at."""
    lines = 1
    while sum(group.parts(lines) for group in groups) > _SQUARES or max(group.parts(lines) for group in groups) > _OF_A_GROUP:
        lines *= 2
    return lines


def of_cells(groups: Sequence[Group], squares: Sequence[Sequence[Square]], most: int, title: str, told: str) -> Picture:
    """A map of array lines: a row, or several, of coloured squares for each group."""
    places = max((len(here) for group, here in zip(groups, squares) if group.words.startswith("region")), default=1)
    columns = -(-places // -(-places // _COLUMNS))
    wide = min(_CELL, (WIDTH - 64) / columns)
    high = 14.0 if max(len(here) for here in squares) <= columns else max(wide, 7.0)
    heights = [max(14.0, -(-len(here) // columns) * high) + 3 for here in squares]
    picture = Picture(WIDTH, 30 + sum(heights), title, told, VARIABLES)
    picture.text(0, 15, title, 14, "start", bold=True)
    steps: List[List[str]] = [[] for _ in HEAT]
    edges: Dict[str, List[str]] = {role: [] for role in _EDGES}
    top = 28.0
    for group, here, height in zip(groups, squares, heights):
        picture.text(56, top + max(high, 12) / 2 + 4, group.words, 12, "end", SOFT)
        for at, square in enumerate(here):
            x, y = 62 + at % columns * wide, top + at // columns * high
            steps[heat(square.value, most)].append(_square(x, y, wide - 1, high - 1))
            if square.role is not None:
                edges[square.role].append(_edge(square.role, x, y, wide - 1, high - 1))
        top += height
    _paint(picture, steps, edges)
    return picture


def _square(x: float, y: float, wide: float, high: float) -> str:
    return f"M{figure(x)},{figure(y)}h{figure(wide)}v{figure(high)}h{figure(-wide)}z"


def _edge(role: str, x: float, y: float, wide: float, high: float) -> str:
    """The outline of a role; a retired line is struck through, too."""
    around = _square(x + 0.5, y + 0.5, wide - 1, high - 1)
    return around + (f"M{figure(x)},{figure(y + high)}l{figure(wide)},{figure(-high)}" if role == "retired" else "")


def _paint(picture: Picture, steps: List[List[str]], edges: Dict[str, List[str]]) -> None:
    for name, squares in zip(HEAT, steps):
        if squares:
            picture.path("".join(squares), name)
    for role, outlines in edges.items():
        _outline(picture, role, outlines)


def _outline(picture: Picture, role: str, outlines: List[str]) -> None:
    """Draws outlines of a role; that of retired lines stands on paper, so that it is seen on dark cells."""
    if outlines and role == "retired":
        picture.path("".join(outlines), None, PAPER, 3.2)
    if outlines:
        picture.path("".join(outlines), None, _EDGES[role], 1.5)


def of_heat(most: int, unit: str, control: bool) -> Picture:
    """What the colours and outlines of the maps say, of which some have control lines or none has."""
    picture = Picture(WIDTH, 86, f"Colours and outlines of the maps, up to {most:,} {unit}", "", VARIABLES)
    picture.text(2, 13, f"{unit}, up to" + " (control lines may have more)" * control, 12, "start", SOFT, italic=True)
    x = 2.0
    for step, name in enumerate(HEAT):
        least, greatest = bounds(step, most) if step else (0, 0)
        if least <= greatest:
            words = f"{greatest:,}" if greatest < 100_000 else short(greatest)
            picture.rectangle(x, 21, 47, 13, name)
            picture.text(x + 23.5, 48, words, 11, "middle", SOFT)
            x += 50
    x = 2.0
    outlines = (("gap", "a region's gap"), ("retired", "retired"), ("free", "unused spare"), ("control", "control line"))
    for role, words in outlines if control else outlines[:3]:
        picture.path(_square(x, 64, 14, 14), HEAT[0])
        _outline(picture, role, [_edge(role, x, 64, 14, 14)])
        picture.text(x + 20, 75, words, 12, "start")
        x += 34 + width_of(words, 12)
    return picture


class Bins(NamedTuple):
    """Columns of a histogram: so many of a width from 0 on, and where `beyond` one more for all above."""

    width: int
    columns: int
    beyond: bool

    def counted(self, ordered: Sequence[int]) -> List[int]:
        """How many values stand in each column."""
        found = [0] * (self.columns + self.beyond)
        for value in ordered:
            found[min(len(found) - 1, value // self.width)] += 1
        return found

    def words(self, column: int) -> str:
        """The values of a column."""
        first = column * self.width
        if column == self.columns:
            return f"{first:,} and more"
        return f"{first:,}" if self.width == 1 else f"{first:,} to {first + self.width - 1:,}"


def binned(limit: int, most: int) -> Bins:
    """About 40 columns that reach a limit, and one for what is above."""
    width = max(1, round(round_step((limit + 1) / 40)))
    count = limit // width + 1
    return Bins(width, count, most >= count * width)


def of_waits(title: str, series: Sequence[Tuple[str, str, List[int]]], bins: Bins, top: float, marks: Sequence[Tuple[float, str]]) -> Picture:
    """A histogram of ticks: of each series its name, colour, and the counts of the columns; `top` is the greatest share in per cent."""
    every = max(1, sum(sum(counts) for _, _, counts in series))
    told = f"{every:,} rows; " + ", ".join(words for _, words in marks)
    picture = Picture(WIDTH, 290, title, told, VARIABLES)
    reach = bins.columns * bins.width
    step, middle = max(1, round_step(reach / 8)), 0.5 * (bins.width == 1)
    ticks: List[Tuple[float, str]] = [(step * k + middle, short(step * k)) for k in range(int(reach / step) + 1) if step * k < reach]
    if bins.beyond:
        ticks = [it for it in ticks if it[0] < 0.94 * reach] + [(reach + bins.width / 2, f"{short(reach)}+")]
    across = Axis("ticks", 0, reach + (bins.width if bins.beyond else 0), ticks)
    drawn = [
        Series(name, colour, [(at * bins.width, 100 * number / every) for at, number in enumerate(counts)])
        for name, colour, counts in series
    ]
    panel, room = Panel(title, across, fitting("% of them", top), drawn, "stacked", bins.width), Room(46, 72, WIDTH - 60, 168)
    plot(picture, panel, room)
    upright(picture, panel, room, [(value + 0.5, words) for value, words in marks if value < reach])
    return picture


def _over_time(title: str, told: str, up: Axis, span: int, series: List[Series]) -> Picture:
    above = 72 if any(one.name for one in series) else 50
    picture = Picture(WIDTH, above + 150, title, told, VARIABLES)
    step = max(1, round_step(span / 5))
    across = Axis("ticks", 0, span, [(step * k, short(step * k)) for k in range(int(span / step) + 1)])
    plot(picture, Panel(title, across, up, series, stroke=1.5), Room(46, above, WIDTH - 70, 100))
    return picture


def _steps(values: Sequence[int], span: int) -> List[Tuple[float, float]]:
    """A value in each of equal parts of the time, as points."""
    return [(span * at / len(values), float(value)) for at, value in enumerate([*values, values[-1]])]


def of_levels(bank: int, writes: Level, reads: Level, span: int, top: int) -> Picture:
    """How many writes and reads wait at a bank over time."""
    told = f"writes at most {max(writes.most)}, {writes.mean:.2f} in the mean; reads at most {max(reads.most)}, {reads.mean:.2f} in the mean"
    series = [
        Series("", PALE_BLUE, _steps(writes.most, span), steps=True, filled=True),
        Series("writes in the queue", BLUE, _steps(writes.most, span), steps=True),
        Series("reads that wait", ORANGE, _steps(reads.most, span), steps=True),
    ]
    return _over_time(f"bank {bank}", told, fitting("rows, the most in each part of the time", top, 4, True), span, series)


def of_growth(title: str, values: Sequence[int], span: int, top: int, colour: str) -> Picture:
    """A number that grows over time."""
    told = f"{values[-1]:,} in the end; half of them by tick {_half(values, span):,}" if values[-1] else "none"
    up = fitting("so far", max(1, top), 4, True)
    return _over_time(title, told, up, span, [Series("", colour, _steps(values, span), steps=True)])


def _half(values: Sequence[int], span: int) -> int:
    """The end of the part of the time in which half of the last value is reached."""
    part = next(at for at, value in enumerate(values) if 2 * value >= values[-1])
    return span * (part + 1) // len(values)


class Curve(NamedTuple):
    """A curve over rows: its name, the words at its end, its colour, and its points."""

    name: str
    end: str
    colour: str
    points: Sequence[Tuple[float, float]]
    dashed: bool = False


def of_rows(
    title: str, told: str, up: Axis, curves: Sequence[Curve], steps: bool = False, mark: Optional[Tuple[float, str]] = None
) -> Picture:
    """Curves over the rows served, with their names below; `mark` is a level of the axis with its words."""
    span = max(1.0, *(curve.points[-1][0] for curve in curves))
    # (one that lies on another before it is dashed, so that both are seen)
    curves = [
        one._replace(dashed=one.dashed or any(_lies_on(one, other, up) for other in curves[:at])) for at, one in enumerate(curves)
    ]
    series = [Series("", one.colour, one.points, one.dashed, steps, dotted=False) for one in curves]
    named = [Series(shortened(one.name, 400), one.colour, (), one.dashed) for one in curves if one.name]
    rows, right = key_rows(named, WIDTH - 8), max(54.0, *(12 + width_of(one.end, 12) for one in curves))
    picture = Picture(WIDTH, 226 + 20 * len(rows) * bool(named), title, told, VARIABLES)
    room = Room(46, 50, WIDTH - 46 - right, 130)
    step = max(1, round_step(span / 5))
    across = Axis("rows served", 0, span, [(step * k, short(step * k)) for k in range(int(span / step) + 1)])
    panel = Panel(title, across, up, series, stroke=1.8)
    if mark is not None:
        level(picture, panel, room, *mark)
    plot(picture, panel, room)
    at_the_ends(picture, panel, room, [one.end for one in curves])
    for number, row in enumerate(rows):
        keys(picture, 4, 236 + 20 * number, row, 3)
    return picture


def _lies_on(one: Curve, other: Curve, up: Axis) -> bool:
    """Whether two curves of one length differ nowhere by more than a hundredth of the axis."""
    pairs = zip(one.points, other.points)
    return len(one.points) == len(other.points) and all(100 * abs(a[1] - b[1]) <= up.most - up.least for a, b in pairs)


def shortened(words: str, width: float) -> str:
    """Words that are no wider than so many pixels."""
    if width_of(words, 12) <= width:
        return words
    while words and width_of(words + "..", 12) > width:
        words = words[:-1]
    return words + ".."


def of_pulses(banks: Sequence[Pulses], top: float) -> Picture:
    """Pulses for each store, by bank."""
    names = [str(at) for at in range(len(banks))]
    shown = [("slots and spares", BLUE, [(bank.lines, bank.stores) for bank in banks])]
    if any(bank.control for bank in banks):
        shown.append(("control lines", PURPLE, [(bank.control, bank.stores) for bank in banks]))
    series = [
        Series(name, colour, [(at, round(number / stores, 2)) for at, (number, stores) in enumerate(pairs) if stores])
        for name, colour, pairs in shown
    ]
    told = ", ".join(f"bank {at}: {_two(bank.a_store)}" for at, bank in enumerate(banks))
    picture = Picture(WIDTH, 290, "Pulses for each store, by bank", told, VARIABLES)
    panel = Panel("Pulses for each store", of_names("bank", names), fitting("pulses", top), series, "bars")
    plot(picture, panel, Room(46, 72, WIDTH - 60, 168))
    return picture


def _two(number: Optional[float]) -> str:
    return "no store" if number is None else f"{number:.2f}"
