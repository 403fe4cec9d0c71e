"""Plots over the drawing kit: axes, curves, bars and stacked columns."""
import math
from typing import List, NamedTuple, Sequence, Tuple

from .drawing import GRID, INK, PAPER, SOFT, Picture, Point, figure, width_of


class Series(NamedTuple):
    """A curve, or the bars of one colour: its name, colour, and points; `steps` holds a value until the next point, `filled` fills what is
    below, and a curve of no steps has dots where `dotted`."""

    name: str
    colour: str
    points: Sequence[Point]
    dashed: bool = False
    steps: bool = False
    filled: bool = False
    dotted: bool = True


class Axis(NamedTuple):
    """An axis: its words, its least and greatest value, the marks on it with their words, and whether it is logarithmic."""

    words: str
    least: float
    most: float
    marks: Sequence[Tuple[float, str]]
    is_log: bool = False

    def share(self, value: float) -> float:
        """How far along the axis a value stands, from 0 to 1."""
        least, most = self.least, self.most
        if self.is_log:
            least, most, value = math.log(least), math.log(most), math.log(max(value, least))
        return (value - least) / (most - least)


class Panel(NamedTuple):
    """A plot: `kind` is `curves`, of lines so wide as `stroke`, `bars` (side by side, over an axis of names) or `stacked` (columns of the
    width `column`, which begin at their points)."""

    title: str
    across: Axis
    up: Axis
    series: List[Series]
    kind: str = "curves"
    column: float = 1
    stroke: float = 2


class Room(NamedTuple):
    """Where a plot stands in its picture: the corner and size of the rectangle between its axes."""

    left: float
    top: float
    width: float
    height: float


def linear(words: str, most: float, step: float, form: str = "{:g}") -> Axis:
    """A linear axis from 0."""
    return Axis(words, 0, most, [(step * k, form.format(step * k)) for k in range(int(most / step) + 1)])


def fitting(words: str, most: float, marks: int = 5, whole: bool = False) -> Axis:
    """A linear axis from 0 to the first mark that isn't below a value, with about so many marks, which are whole numbers where asked."""
    step = max(round_step(most / marks), 1 if whole else 0)
    count = max(1, math.ceil(most / step))
    return Axis(words, 0, step * count, [(step * k, short(step * k)) for k in range(count + 1)])


def round_step(least: float) -> float:
    """The least of 1, 2, 5, 10, 20 .. (0.01, 0.02 .. below 1) that isn't below a value."""
    if least <= 0:
        return 1
    ten = 10.0 ** math.floor(math.log10(least))
    return next(ten * k for k in (1, 2, 5, 10) if ten * k >= least * (1 - 1e-9))


def short(value: float) -> str:
    """A number in few characters: 20k, 1.5M."""
    for unit, word in ((1e12, "T"), (1e9, "G"), (1e6, "M"), (1e3, "k")):
        if value >= unit:
            return f"{value / unit:.4g}{word}"
    return f"{value:.4g}"


def logarithmic(words: str, least: float, most: float) -> Axis:
    """A logarithmic axis between two powers of ten."""
    tens = range(round(math.log10(least)), round(math.log10(most)) + 1)
    return Axis(words, least, most, [(10.0**ten, short(10.0**ten)) for ten in tens], True)


def of_names(words: str, names: Sequence[str]) -> Axis:
    """An axis of names, at 0, 1, 2 and so on."""
    return Axis(words, -0.5, len(names) - 0.5, list(enumerate(names)))


def plot(picture: Picture, panel: Panel, room: Room) -> None:
    """Draws a panel into its room. The title and the series' names stand above it, up to 72 pixels (48 where no series has a name), and the
    words of the axis across below it, up to 46."""
    _grid(picture, panel, room)
    if panel.kind == "stacked":
        _stacked(picture, panel, room)
    for number, series in enumerate(panel.series):
        if panel.kind == "bars":
            _bars(picture, panel, room, number)
        elif panel.kind == "curves":
            _curve(picture, panel, room, series)
    _frame(picture, panel, room)
    names = [series for series in panel.series if series.name]
    keys(picture, room.left, room.top - 36, names, 8 if panel.kind != "curves" else 3)


def keys(picture: Picture, left: float, y: float, series: Sequence[Series], width: float) -> None:
    """The names of series, in a row, each behind a piece of its colour."""
    for one in series:
        picture.line([(left, y), (left + 16, y)], one.colour, one.dashed, width=8 if one.filled else width)
        picture.text(left + 20, y + 4, one.name, 12, "start")
        left += 29 + width_of(one.name, 12)


def key_rows(series: Sequence[Series], width: float) -> List[List[Series]]:
    """Series by rows of keys, of which none is wider than so many pixels, but where a single one is."""
    rows: List[List[Series]] = [[]]
    taken = 0.0
    for one in series:
        wide = 29 + width_of(one.name, 12)
        if rows[-1] and taken + wide > width:
            rows.append([])
            taken = 0.0
        rows[-1].append(one)
        taken += wide
    return rows


def place(panel: Panel, room: Room, point: Point) -> Point:
    """Where a point of a panel stands in the picture."""
    return room.left + room.width * panel.across.share(point[0]), room.top + room.height * (1 - panel.up.share(point[1]))


def _grid(picture: Picture, panel: Panel, room: Room) -> None:
    for value, words in panel.up.marks:
        y = room.top + room.height * (1 - panel.up.share(value))
        picture.line([(room.left, y), (room.left + room.width, y)], GRID, width=1)
        picture.text(room.left - 7, y + 4, words, 12, "end", SOFT)


def _frame(picture: Picture, panel: Panel, room: Room) -> None:
    low = room.top + room.height
    for value, words in panel.across.marks:
        picture.text(room.left + room.width * panel.across.share(value), low + 18, words, 12, "middle", SOFT)
    picture.line([(room.left, low), (room.left + room.width, low)], SOFT, width=1)
    named = any(series.name for series in panel.series)
    picture.text(room.left, room.top - (56 if named else 34), panel.title, 14, "start", bold=True)
    picture.text(room.left, room.top - 12, panel.up.words, 12, "start", SOFT, italic=True)
    picture.text(room.left + room.width / 2, low + 38, panel.across.words, 12, "middle", SOFT, italic=True)


def _curve(picture: Picture, panel: Panel, room: Room, series: Series) -> None:
    places = [place(panel, room, point) for point in series.points]
    if not places:
        return
    if series.steps:
        corners = [(after[0], before[1]) for before, after in zip(places, places[1:])]
        places = [spot for pair in zip(places, corners) for spot in pair] + places[-1:]
    if series.filled:
        low = room.top + room.height
        around = [(places[0][0], low), *places, (places[-1][0], low)]
        picture.path("M" + " ".join(f"{figure(x)},{figure(y)}" for x, y in around) + "z", series.colour)
        return
    if series.dotted and not series.steps:
        for x, y in places:
            picture.dot(x, y, 3, series.colour)
    picture.line(places, series.colour, series.dashed, width=panel.stroke)


def _bars(picture: Picture, panel: Panel, room: Room, number: int) -> None:
    """The bars of the series with this number, beside those of the others, each with its value above."""
    series = panel.series[number]
    each = 0.8 * room.width / len(panel.across.marks) / len(panel.series)
    for point in series.points:
        middle, y = place(panel, room, point)
        x = middle + each * (number - len(panel.series) / 2)
        picture.rectangle(x + 1, y, each - 2, room.top + room.height - y, series.colour)
        words = f"{point[1]:g}"
        if width_of(words, 12) < each + 8:
            picture.text(x + each / 2, y - 5, words, 12)


def _stacked(picture: Picture, panel: Panel, room: Room) -> None:
    """Columns that stand upon one another."""
    low: "dict[float, float]" = {}
    for series in panel.series:
        for x, value in series.points:
            if value > 0:
                begun = low.get(x, 0.0)
                left, top = place(panel, room, (x, begun + value))
                right, bottom = place(panel, room, (x + panel.column, begun))
                picture.rectangle(left, top, max(right - left - 1, 0.6), bottom - top, series.colour)
                low[x] = begun + value


def upright(picture: Picture, panel: Panel, room: Room, marks: Sequence[Tuple[float, str]]) -> None:
    """Dashed lines upright at values across, each with its words at its head, on a line of its own."""
    for number, (value, words) in enumerate(marks):
        x, top = place(panel, room, (value, panel.up.most))[0], room.top + 12 + 16 * number
        picture.line([(x, top - 10), (x, room.top + room.height)], INK, dashed=True, width=1)
        to_left = x > room.left + 0.6 * room.width
        room_for = width_of(words, 11.5) + 7
        picture.rectangle(x - room_for - 2 if to_left else x + 2, top - 11, room_for, 15, PAPER)
        picture.text(x - 5 if to_left else x + 5, top, words, 11.5, "end" if to_left else "start")


def at_the_ends(picture: Picture, panel: Panel, room: Room, words: Sequence[str]) -> None:
    """Words behind the last point of each series, in its colour, moved up or down so far that none covers another."""
    ends = [(*place(panel, room, one.points[-1]), one.colour, text) for one, text in zip(panel.series, words)]
    ends.sort(key=lambda it: it[1])
    heights = [min(max(y, room.top), room.top + room.height) for _, y, _, _ in ends]
    for at in range(1, len(heights)):
        heights[at] = max(heights[at], heights[at - 1] + 14)
    # (those that would stand below the axis go up again)
    low = room.top + room.height
    for at in reversed(range(len(heights))):
        heights[at] = min(heights[at], low)
        low = heights[at] - 14
    for (x, _, colour, text), y in zip(ends, heights):
        picture.text(x + 6, y + 4, text, 12, "start", colour)


def level(picture: Picture, panel: Panel, room: Room, value: float, words: str) -> None:
    """A dashed line across at a value, with its words above its begin."""
    y = place(panel, room, (panel.across.least, value))[1]
    picture.line([(room.left, y), (room.left + room.width, y)], INK, dashed=True, width=1)
    picture.text(room.left + 5, y - 6, words, 11.5, "start")
