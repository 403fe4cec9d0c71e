"""The elements of a report's page."""
import re
from typing import Callable, Iterable, Optional, Sequence, Tuple

from .drawing import Picture, escaped
from .runs import Run

Cell = object
Part = Callable[[Run], str]
# The name of a section of the page, its heading, and what stands in it.
Section = Optional[Tuple[str, str, str]]
_OPTION = re.compile(r"--[a-z-]+( [\w.]{1,12}\b)?")


def looked(words: str) -> str:
    """What to look for, or what is told in words."""
    return f"<p>{escaped(words)}</p>"


def beside(runs: Sequence[Run], part: Part) -> str:
    """What a part says of each run, side by side."""
    named = len(runs) > 1
    # (three don't stand two in a row and one below)
    return f'<div class="runs{" three" * (len(runs) == 3)}">' + "".join(
        f'<div class="run">{f"<h3>{escaped(run.name)}</h3>" * named}{part(run)}</div>' for run in runs
    ) + "</div>"


def placed(pictures: Iterable[Picture], more: str = "") -> str:
    """Pictures side by side, and behind them what stands there like one."""
    figures = "".join(f"<figure>{picture.placed()}</figure>" for picture in pictures)
    return f'<div class="pictures">{figures}{more}</div>'


def tabled(caption: str, head: Sequence[str], rows: Iterable[Sequence[Cell]], kind: str = "") -> str:
    """A table; numbers have commas, and None is a dash."""
    top = "".join(f'<th scope="col">{unbroken(word)}</th>' for word in head)
    body = "".join(
        "<tr>" + "".join(f'<th scope="row">{_cell(cell)}</th>' if at == 0 else f"<td>{_cell(cell)}</td>" for at, cell in enumerate(row)) + "</tr>"
        for row in rows
    )
    name = f' class="{kind}"' if kind else ""
    return f'<div class="wide"><table{name}><caption>{escaped(caption)}</caption><thead><tr>{top}</tr></thead><tbody>{body}</tbody></table></div>'


def _cell(cell: Cell) -> str:
    if cell is None:
        return "–"
    if isinstance(cell, float):
        return f"{cell:,.2f}"
    return f"{cell:,}" if isinstance(cell, int) else escaped(str(cell))


def folded(words: str, *tables: str) -> str:
    """Tables that are seen when they are asked for."""
    return f"<details><summary>{escaped(words)}</summary>{''.join(tables)}</details>"


def unbroken(words: str) -> str:
    """Words of which no option is broken at its hyphens, nor parted from its value."""
    return _OPTION.sub(r'<span class="option">\g<0></span>', escaped(words))
