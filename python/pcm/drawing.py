"""The drawing kit of the documents' pictures, of the studies and of reports: one palette, and a canvas that makes SVG.

A colour is a name of the palette. A picture that is a file of its own has the light palette's values in it; one within a page has the
page's variables (`VARIABLES`), so that it follows the page into dark and light."""
import contextlib
from typing import Dict, Iterable, Iterator, List, Mapping, Optional, Tuple

FONT = "'DejaVu Sans', Verdana, Arial, sans-serif"

PAPER, PALE, GRID, RULE, SOFT, INK = "paper", "pale", "grid", "rule", "soft", "ink"
BLUE, GREEN, ORANGE, RED, PURPLE = "blue", "green", "orange", "red", "purple"
PALE_BLUE, PALE_GREEN, PALE_ORANGE, PALE_RED, PALE_PURPLE = "pale-blue", "pale-green", "pale-orange", "pale-red", "pale-purple"
# From little to much; the first stands for none.
HEAT = tuple(f"heat-{step}" for step in range(9))
# The colour of the edge around each fill.
EDGES = {
    PAPER: RULE, PALE: RULE, PALE_BLUE: BLUE, PALE_GREEN: GREEN, PALE_ORANGE: ORANGE, PALE_RED: RED, PALE_PURPLE: PURPLE,
}

LIGHT: Dict[str, str] = {
    PAPER: "#ffffff", PALE: "#f2f5f8", GRID: "#dfe5eb", RULE: "#9aa5b1", SOFT: "#57636f", INK: "#1f2933",
    BLUE: "#1f6cb0", GREEN: "#1d7d5b", ORANGE: "#c2560a", RED: "#bd2c3c", PURPLE: "#7a1f5c",
    PALE_BLUE: "#dbe9f8", PALE_GREEN: "#dcf1df", PALE_ORANGE: "#fdf0cf", PALE_RED: "#f9d9d5", PALE_PURPLE: "#f2dfec",
    **dict(zip(HEAT, ("#f7f8f9", "#fff3b8", "#fee08a", "#fec44f", "#fe9929", "#ec7014", "#cc4c02", "#993404", "#5f2206"))),
}
DARK: Dict[str, str] = {
    PAPER: "#14181d", PALE: "#20262d", GRID: "#2f3842", RULE: "#6b7885", SOFT: "#a9b4bf", INK: "#e8edf2",
    BLUE: "#6db3f2", GREEN: "#5cc39a", ORANGE: "#f0954d", RED: "#f2808b", PURPLE: "#f4c4ea",
    PALE_BLUE: "#1d3a57", PALE_GREEN: "#1c4435", PALE_ORANGE: "#4a3413", PALE_RED: "#54242a", PALE_PURPLE: "#4a2840",
    **dict(zip(HEAT, ("#20262d", "#43280f", "#6a330b", "#933f07", "#c25406", "#e8761c", "#fb9f3a", "#fdc766", "#fff0b3"))),
}
# Each colour as a variable of the page around.
VARIABLES: Dict[str, str] = {name: f"var(--{name})" for name in LIGHT}

Point = Tuple[float, float]


def declared(palette: Mapping[str, str]) -> str:
    """The declarations of a palette as variables of CSS."""
    return ";".join(f"--{name}:{value}" for name, value in palette.items())


def escaped(words: str) -> str:
    """Words as they stand in SVG or HTML, between tags or in an attribute."""
    return words.replace("&", "&amp;").replace("<", "&lt;").replace(">", "&gt;").replace('"', "&quot;")


def figure(length: float) -> str:
    """A length, to a tenth of a pixel."""
    return f"{length:.1f}".replace(".0", "") if length % 1 else f"{length:.0f}"


def width_of(words: str, size: float) -> float:
    """About how wide words are in the kit's font, rather too much than too little."""
    return size * sum(0.36 if letter in " .,:;il|'jtfr" else 0.98 if letter in "%mwMW±@" else 0.64 for letter in words)


class Picture:
    """An SVG that is drawn from its top left corner; lengths are in pixels. `title` says what it shows, and `told`, where given, its
    main numbers, for those who don't see it."""

    def __init__(self, width: float, height: float, title: str, told: str = "", colours: Mapping[str, str] = LIGHT) -> None:
        self.width, self.height, self.title, self.told, self.colours = width, height, title, told, colours
        self.parts: List[str] = []

    def rectangle(self, x: float, y: float, width: float, height: float, fill: str) -> None:
        """A filled rectangle without an edge."""
        at = f'x="{figure(x)}" y="{figure(y)}" width="{figure(width)}" height="{figure(height)}"'
        self.parts.append(f'<rect {at} fill="{self.colours[fill]}"/>')

    def box(self, x: float, y: float, width: float, height: float, fill: str = PAPER, dashed: bool = False, round_: float = 4) -> None:
        """A rectangle with an edge of the fill's strong colour."""
        at = f'x="{figure(x)}" y="{figure(y)}" width="{figure(width)}" height="{figure(height)}" rx="{figure(round_)}"'
        ink = f'fill="{self.colours[fill]}" stroke="{self.colours[EDGES[fill]]}"'
        self.parts.append(f"<rect {at} {ink}{_dashes(dashed)}/>")

    def text(
        self, x: float, y: float, words: str, size: float = 13, anchor: str = "middle", colour: str = INK, bold: bool = False,
        italic: bool = False,
    ) -> None:
        """Words, whose lines stand below one another; `anchor` is `start`, `middle` or `end`."""
        shape = ' font-weight="bold"' * bold + ' font-style="italic"' * italic
        for number, line in enumerate(words.split("\n")):
            at = f'x="{figure(x)}" y="{figure(y + number * (size + 4))}" font-size="{figure(size)}" text-anchor="{anchor}"'
            self.parts.append(f'<text {at} fill="{self.colours[colour]}"{shape}>{escaped(line)}</text>')

    def named(self, x: float, y: float, width: float, height: float, words: str, fill: str = PAPER, size: float = 13, dashed: bool = False) -> None:
        """A box with words in its middle."""
        self.box(x, y, width, height, fill, dashed)
        lines = words.count("\n") + 1
        self.text(x + width / 2, y + height / 2 + size * 0.36 - (lines - 1) * (size + 4) / 2, words, size)

    def line(self, points: Iterable[Point], colour: str = SOFT, dashed: bool = False, head: bool = False, width: float = 1.4) -> None:
        """A line through points, with or without the head of an arrow."""
        way = " ".join(f"{figure(x)},{figure(y)}" for x, y in points)
        tip = ' marker-end="url(#tip)"' if head else ""
        ink = f'fill="none" stroke="{self.colours[colour]}" stroke-width="{width}" stroke-linejoin="round"'
        self.parts.append(f'<polyline points="{way}" {ink}{_dashes(dashed)}{tip}/>')

    def arrow(self, *points: Point, colour: str = SOFT, dashed: bool = False) -> None:
        """An arrow through points."""
        self.line(points, colour, dashed, head=True)

    @contextlib.contextmanager
    def titled(self, words: str) -> Iterator[None]:
        """What is drawn within has these words as its title, which are shown where it is pointed at."""
        self.parts.append(f"<g><title>{escaped(words)}</title>")
        yield
        self.parts.append("</g>")

    def dot(self, x: float, y: float, radius: float, fill: str) -> None:
        """A filled circle."""
        self.parts.append(f'<circle cx="{figure(x)}" cy="{figure(y)}" r="{figure(radius)}" fill="{self.colours[fill]}"/>')

    def path(self, way: str, fill: Optional[str] = None, edge: Optional[str] = None, width: float = 1.2) -> None:
        """A path in SVG's words, filled or drawn or both."""
        ink = f'fill="{self.colours[fill] if fill else "none"}"'
        ink += f' stroke="{self.colours[edge]}" stroke-width="{width}"' if edge else ""
        self.parts.append(f'<path d="{way}" {ink}/>')

    def drawn(self) -> str:
        """The text of a file."""
        return "\n".join([self._opened(f'width="{figure(self.width)}" height="{figure(self.height)}"', PAPER), *self.parts, "</svg>", ""])

    def placed(self) -> str:
        """The text of an element of a page, as wide as its place."""
        return "\n".join([self._opened('role="img"', None), *self.parts, "</svg>"])

    def _opened(self, more: str, ground: Optional[str]) -> str:
        box = f'viewBox="0 0 {figure(self.width)} {figure(self.height)}"'
        lines = [f'<svg xmlns="http://www.w3.org/2000/svg" {box} {more} font-family="{FONT}">', f"<title>{escaped(self.title)}</title>"]
        if self.told:
            lines.append(f"<desc>{escaped(self.told)}</desc>")
        if any("url(#tip)" in part for part in self.parts):
            tip = f'<path d="M0,0 L9,4 L0,8 z" fill="{self.colours[SOFT]}"/>'
            lines.append(f'<defs><marker id="tip" markerWidth="9" markerHeight="8" refX="8" refY="4" orient="auto">{tip}</marker></defs>')
        if ground:
            lines.append(f'<rect width="{figure(self.width)}" height="{figure(self.height)}" fill="{self.colours[ground]}"/>')
        return "\n".join(lines)


def _dashes(dashed: bool) -> str:
    return ' stroke-dasharray="5 4"' if dashed else ""
