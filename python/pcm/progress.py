"""How far long work is, on standard error."""
import sys
import time
from typing import Callable, Optional

# Nothing is told of work that takes less than a second; then a terminal's line is told anew so often, and lines of another file so seldom.
_FIRST, _AGAIN, _LINES = 1.0, 0.2, 10.0


class Progress:
    """A line on standard error that tells how far work is: where that is a terminal, and where it isn't only if asked for (`shown`).

    On a terminal the line is written over and over, and taken away by `clear`; else lines follow each other, ten seconds apart."""

    def __init__(self, shown: Optional[bool] = None, clock: Callable[[], float] = time.monotonic) -> None:
        self._on_terminal = sys.stderr is not None and sys.stderr.isatty()
        self.shown = (self._on_terminal if shown is None else shown) and sys.stderr is not None
        self._clock = clock
        self._begun = clock()
        self._next = self._begun + _FIRST
        self._stands = False

    def restart(self) -> None:
        """Another part of the work begins: what is done a second is that of this part."""
        self._begun = self._clock()

    @property
    def due(self) -> bool:
        """Whether a line would be told now."""
        return self.shown and self._clock() >= self._next

    def tell(self, words: Callable[[], str]) -> None:
        """Tells a line, if one is due."""
        if not self.due:
            return
        self._next = self._clock() + (_AGAIN if self._on_terminal else _LINES)
        sys.stderr.write(f"\r\033[K{words()}" if self._on_terminal else f"{words()}\n")
        sys.stderr.flush()
        self._stands = self._on_terminal

    def rows(self, done: int, share: Optional[float] = None, what: str = "rows") -> None:
        """Tells how many rows are done, how many a second, and where it is known which share of all."""
        self.tell(lambda: self.line(done, share, what))

    def line(self, done: int, share: Optional[float] = None, what: str = "rows") -> str:
        """The words for so many rows."""
        passed = max(self._clock() - self._begun, 1e-9)
        return f"{done:,} {what}, {rate(done / passed)} a second" + _done(share, passed)

    def time(self, share: Optional[float] = None) -> None:
        """Tells how long work has taken of which no row is known, and where it is known which share of all is done."""
        self.tell(lambda: f"{lasting(self._clock() - self._begun)}{_done(share, self._clock() - self._begun)}")

    def clear(self) -> None:
        """Takes a terminal's line away, so that other words may be written there."""
        if self._stands:
            sys.stderr.write("\r\033[K")
            sys.stderr.flush()
            self._stands = False


def _done(share: Optional[float], passed: float) -> str:
    """Which share of work is done, and how long the rest takes if it goes on so; nothing where that isn't known."""
    if share is None:
        return ""
    more = f", about {lasting(passed * (1 - share) / share)} more" if 0.0 < share < 1.0 else ""
    return f", {100 * min(share, 1.0):.0f}%{more}"


def rate(number: float) -> str:
    """A number of things a second in few digits."""
    return f"{number:,.0f}" if number >= 10 else f"{number:.2g}"


def lasting(seconds: float) -> str:
    """A time in words, rounded."""
    if seconds < 100:
        return f"{seconds:.0f} s"
    return f"{seconds / 60:.0f} min" if seconds < 6000 else f"{seconds / 3600:.1f} h"
