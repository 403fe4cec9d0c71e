"""The section of a report on how a module ages, by the snapshots of streams."""
import functools
from typing import Callable, List, Optional, Sequence

from . import tallies
from .charts import Curve, of_rows
from .drawing import BLUE, GREEN, ORANGE, PURPLE, RED, Picture
from .elements import Section, folded, looked, tabled
from .plots import Axis, fitting
from .runs import Run

# The most snapshots of a curve, of a curve of steps, and of a table.
_POINTS, _STEPS, _ROWS = 240, 80, 20
# The colours of several runs in one picture; where these are used up they come again, dashed.
_RUNS = (BLUE, ORANGE, GREEN, PURPLE, RED)
_OUTCOMES = (("stored", BLUE), ("full", ORANGE), ("worn", PURPLE), ("lost", RED))
_LOOK = (
    "Snapshots of the stream, over the rows served. Where the most pulses of an array line grow faster than the mean, few lines bear the wear; "
    "with registers in the array these are soon control lines. Cells that stick take pointers, then lines take spares, and where these are "
    "gone writes are refused (worn): look for the rows from which a curve steepens. The last snapshot has what the drain did, too."
)


def aging(runs: Sequence[Run]) -> Section:
    """Curves of all runs with snapshots, in one picture each."""
    told = [run for run in runs if run.snapshots]
    if not told:
        return None
    several = len(told) > 1
    pictures = [*_pulses(told), *_pointers(told), *_spares(told), *(_outcome_pictures(told) if several else [_all_outcomes(told[0])])]
    figures = "".join(f"<figure>{picture.placed()}</figure>" for picture in pictures)
    words = [f"No {what}." for what, name in (("pointer is active", "pointers"), ("spare is in use", "retired")) if not _any(told, name)]
    words += [f"No snapshots of {run.name}." for run in runs if not run.snapshots]
    caption = "Over the rows; stored, full, worn and lost since the row above"
    tables = [_table(run, f"{run.name}: {caption}" if several else caption) for run in told]
    lacking = looked(" ".join(words)) if words else ""
    text = f'{looked(_LOOK)}<div class="pictures shared">{figures}</div>{lacking}'
    return "aging", "As the module ages", text + folded("The numbers", *tables)


def _any(runs: Sequence[Run], name: str) -> bool:
    return any(getattr(run.snapshots[-1], name) for run in runs)


def _table(run: Run, caption: str) -> str:
    """Some snapshots of a run; of stored, full, worn and lost those since the row above."""
    samples = tallies.sampled(run.snapshots, _ROWS)
    head = ("until row", "tick", "most pulses", "mean", "active pointers", "spares in use", *(word for word, _ in _OUTCOMES))
    rows = [
        (now.rows, now.tick, now.most, now.mean, now.pointers, now.retired, *(getattr(now, word) - getattr(before, word) for word, _ in _OUTCOMES))
        for before, now in zip(samples, samples[1:])
    ]
    return tabled(caption, head, rows, "aging")


def _curves(runs: Sequence[Run], name: str) -> List[Curve]:
    """A number of the snapshots, a curve for each run; several have their numbers and names."""
    found = []
    for at, run in enumerate(runs):
        samples = tallies.sampled(run.snapshots, _POINTS)
        last = f"{getattr(samples[-1], name):,}"
        points = [(one.rows, getattr(one, name)) for one in samples]
        found.append(_of_run(runs, at, Curve("", last, BLUE, points)))
    return found


def _of_run(runs: Sequence[Run], at: int, curve: Curve) -> Curve:
    """A run's curve among those of several: its name, number and colour."""
    if len(runs) == 1:
        return curve
    dashed = at // len(_RUNS) % 2 == 1
    return curve._replace(name=f"{at + 1}: {runs[at].name}", end=f"{at + 1}: {curve.end}", colour=_RUNS[at % len(_RUNS)], dashed=dashed)


def _fit(curves: Sequence[Curve], words: str, least: float = 1) -> Axis:
    """An axis up to the greatest value of curves."""
    return fitting(words, max([least] + [value for curve in curves for _, value in curve.points]), 4, True)


def _each(runs: Sequence[Run], told: Callable[[Run], str]) -> str:
    """What is told of each run, behind its name where there are several."""
    return "; ".join(f"{run.name}: {told(run)}" if len(runs) > 1 else told(run) for run in runs)


def _pulses(runs: Sequence[Run]) -> List[Picture]:
    def most_told(run: Run) -> str:
        last = run.snapshots[-1]
        half = tallies.first_with(run.snapshots, "most", -(-last.most // 2))
        return f"{last.most:,} behind {last.rows:,} rows" + (f", half of it by row {half:,}" if last.most else "")

    def mean_told(run: Run) -> str:
        last = run.snapshots[-1]
        return f"{last.mean:,} behind {last.rows:,} rows, of {last.pulses:,} pulses of all array lines"

    most, mean = _curves(runs, "most"), _curves(runs, "mean")
    return [
        of_rows("Most pulses of an array line", _each(runs, most_told), _fit(most, "pulses"), most),
        of_rows("Mean pulses of an array line", _each(runs, mean_told), _fit(mean, "pulses, rounded down"), mean),
    ]


def _pointers(runs: Sequence[Run]) -> List[Picture]:
    def told(run: Run) -> str:
        last, first = run.snapshots[-1], tallies.first_with(run.snapshots, "pointers", 1)
        return "none" if first is None else f"{last.pointers:,} behind {last.rows:,} rows, the first by row {first:,}"

    if not _any(runs, "pointers"):
        return []
    curves = _curves(runs, "pointers")
    return [of_rows("Active pointers of all array lines", _each(runs, told), _fit(curves, "pointers"), curves)]


def _spares(runs: Sequence[Run]) -> List[Picture]:
    """The spares in use; half of them is marked where it is one number."""
    if not _any(runs, "retired"):
        return []
    bounds = {run.spares for run in runs}
    bound: Optional[int] = bounds.pop() if len(bounds) == 1 else None
    curves = _curves(runs, "retired")
    axis = _fit(curves, "spares", 0.625 * (bound or 0))
    mark = (bound / 2, f"half of the {bound:,} spares") if bound else None
    return [of_rows("Spares in use", _each(runs, _spares_told), axis, curves, mark=mark)]


def _spares_told(run: Run) -> str:
    last, bound = run.snapshots[-1], run.spares
    first = tallies.first_with(run.snapshots, "retired", 1)
    if first is None:
        return "none"
    half = tallies.first_with(run.snapshots, "retired", -(-bound // 2)) if bound else None
    words = f"{last.retired:,}{f' of {bound:,}' if bound else ''} behind {last.rows:,} rows, the first by row {first:,}"
    return words + (f", half of all by row {half:,}" if half is not None else "")


def _outcome(run: Run, word: str) -> Curve:
    """An outcome's share of the rows between snapshots."""
    samples = tallies.sampled(run.snapshots, _STEPS)
    found = tallies.shares(samples, word)
    last = f"{found[-1]:.0f}%" if found[-1] in (0, 100) or 10 <= found[-1] else f"{found[-1]:.1f}%"
    return Curve("", last, BLUE, [(one.rows, share) for one, share in zip(samples, [*found, found[-1]])])


def _outcome_told(run: Run, word: str) -> str:
    found = tallies.shares(tallies.sampled(run.snapshots, _STEPS), word)
    return f"{word} {getattr(run.snapshots[-1], word):,} of {run.total:,} rows, {min(found):.1f} to {max(found):.1f}% of those between snapshots"


def _all_outcomes(run: Run) -> Picture:
    """What became of the rows between snapshots; outcomes that none had are left out."""
    shown = [(word, colour) for word, colour in _OUTCOMES if word == "stored" or _any([run], word)]
    curves = [_outcome(run, word)._replace(name=word, end=word, colour=colour) for word, colour in shown]
    told = "; ".join(_outcome_told(run, word) for word, _ in shown)
    return of_rows("Outcomes between snapshots", told, _fit(curves, "% of the rows served there"), curves, True)


def _outcome_pictures(runs: Sequence[Run]) -> List[Picture]:
    """A picture of all runs for each outcome that some row had."""
    pictures = []
    for word, _ in _OUTCOMES:
        if word == "stored" or _any(runs, word):
            curves = [_of_run(runs, at, _outcome(run, word)) for at, run in enumerate(runs)]
            told = _each(runs, functools.partial(_outcome_told, word=word))
            pictures.append(of_rows(f"{word.capitalize()} between snapshots", told, _fit(curves, "% of the rows served there"), curves, True))
    return pictures
