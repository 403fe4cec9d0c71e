"""Outcomes as a table of pandas."""
import os
from typing import Any, Dict, Iterable, List, Optional, Union

from .outcomes import Outcome
from .rows import PowerCut, Read, Row, numbered, read_trace
from .whole import ResultRow

# Whole numbers, of which some may be missing.
_NUMBERS = ("row", "line", "asked", "tick", "latency", "place")
_TOLD = ("outcome", "tick", "place", "data")


def to_frame(
    outcomes: "Iterable[Union[Outcome, ResultRow]]", trace: "Union[Iterable[Row], str, os.PathLike[str], None]" = None,
    tick_ns: Optional[float] = None,
) -> Any:
    """A `pandas.DataFrame` of outcomes, or of the rows of a `Result`, one row each, with the columns `row`, `outcome`, `tick`, `place` and
    `data` (of a `Result` `op` and `line` too). With the trace, its rows or its path, each outcome is joined with its row: `op` (`R`, `W`,
    `M`, `C`), `line`, `asked`, the tick at which it came, and `latency`, the ticks from then to the outcome. `tick_ns`, how many nanoseconds
    a tick stands for, adds `latency_ns`.

    Numbers are `Int64`, so that a place that isn't there is `<NA>` and no other place becomes a fraction. An outcome whose row the trace
    doesn't have, as the cut of `end="off"`, has neither `asked` nor `latency`. `ImportError` where pandas isn't installed."""
    import pandas  # type: ignore[import]

    rows = None if trace is None else _numbered(trace)
    if tick_ns is not None and rows is None:
        raise ValueError("latencies are known with the trace alone")
    found = [_columns(one, rows) for one in outcomes]
    frame = pandas.DataFrame(found, columns=list(found[0]) if found else list(_columns(None, rows)))
    for name in _NUMBERS:
        if name in frame:
            frame[name] = frame[name].astype("Int64")
    if tick_ns is not None:
        frame["latency_ns"] = frame["latency"].astype("Float64") * tick_ns
    return frame


def _numbered(trace: "Union[Iterable[Row], str, os.PathLike[str]]") -> List[Row]:
    """The rows of a trace that have a number, in their order."""
    if isinstance(trace, (str, os.PathLike)):
        with open(trace, newline="", encoding="utf-8", errors="surrogateescape") as file:
            return _numbered(read_trace(file))
    return list(numbered(trace))


def _columns(one: "Union[Outcome, ResultRow, None]", rows: Optional[List[Row]]) -> "Dict[str, object]":
    """The columns of an outcome; of none their names alone."""
    outcome = one.outcome if isinstance(one, ResultRow) else one
    number = None if outcome is None else outcome.row
    told: Dict[str, object] = {} if outcome is None else {
        "outcome": outcome.word, "tick": outcome.tick, "place": getattr(outcome, "place", None), "data": getattr(outcome, "data", None),
    }
    front = {"op": one.op, "line": one.line} if isinstance(one, ResultRow) else {}
    if rows is None:
        return {"row": number, **front, **{name: told.get(name) for name in _TOLD}}
    row = rows[number - 1] if number is not None and number <= len(rows) else None
    front = front if row is None else {"op": _op(row), "line": getattr(row, "line", None)}
    latency = None if row is None or outcome is None else outcome.tick - row.tick
    return {
        "row": number, "op": front.get("op"), "line": front.get("line"), "asked": None if row is None else row.tick,
        "outcome": told.get("outcome"), "tick": told.get("tick"), "latency": latency, "place": told.get("place"), "data": told.get("data"),
    }


def _op(row: Row) -> str:
    """The letter of a row's operation."""
    return "R" if isinstance(row, Read) else "C" if isinstance(row, PowerCut) else row.text().split(",")[1]
