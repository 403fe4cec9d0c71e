"""The page of a report: one file of HTML, without a script and without a link to elsewhere."""
import functools
import heapq
from typing import Callable, Dict, List, Optional, Sequence, Tuple

from . import charts, tallies
from .aging import aging
from .drawing import BLUE, GREEN, ORANGE, PURPLE, RED, VARIABLES, escaped
from .elements import Cell, Section, beside, folded, looked, placed, tabled, unbroken
from .energy import figures, line_bytes_of
from .explaining import picture_of
from .explanation import read_explanation
from .runs import OPERATIONS, OUTCOMES, Run
from .style import LANDSCAPE, STYLE
from .tables import rounded
from .worn import Wear

# The parts of the time in pictures, and how many of them make one row of a table.
PARTS, TOGETHER = 120, 6
# Of so many groups of array lines a map says the numbers, and so many lines are told of all.
_SAID, _WORST = 20, 20
_FALLS_SHORT = ("queued", "full", "worn", "busy", "lost")


def page(runs: Sequence[Run], title: str, version: str) -> str:
    """The whole page."""
    span = 1 + max([row.tick for run in runs for row in run.rows] + [0])
    sections = [part for part in (
        _ran(runs, version), _came(runs), _rules(runs), aging(runs), _wear(runs), _pointers(runs), _reads(runs), _writes(runs), _queues(runs, span),
        _growth(runs, span), _pulses(runs), _energy(runs),
    ) if part is not None]
    links = " ".join(f'<a href="#{name}">{escaped(words)}</a>' for name, words, _ in sections)
    body = "".join(f'<section id="{name}"><h2>{escaped(words)}</h2>{text}</section>\n' for name, words, text in sections)
    return (
        f'<!DOCTYPE html>\n<html lang="en"><head><meta charset="utf-8"><meta name="viewport" content="width=device-width,initial-scale=1">'
        f"<title>{escaped(title)}</title><style>{STYLE}{LANDSCAPE * (len(runs) > 1)}</style></head>\n"
        f'<body class="{"alone" if len(runs) == 1 else "several"}"><header><h1>{escaped(title)}</h1><nav>{links}</nav></header>\n'
        f"<main>\n{body}</main>\n"
        f"<footer>Made by <code>python3 -m pcm report</code> {escaped(version)}. Ticks are the simulation's own unit of time.{_tick(runs)}</footer>"
        "</body></html>\n"
    )


def _tick(runs: Sequence[Run]) -> str:
    """What a tick stands for, where that was told."""
    return "" if runs[0].tick_ns is None else f" Nanoseconds are ticks times {runs[0].tick_ns:g}, as was given. {escaped(runs[0].remark)}".rstrip()


def _ran(runs: Sequence[Run], version: str) -> Section:
    """The options, and the files with their checksums."""
    names = list(dict.fromkeys(name for run in runs for name in run.options))
    told = [name for name in names if any(name in run.origins for run in runs)]
    rows = "".join(f'<tr><th scope="row"><code>--{escaped(name)}</code></th>{_values(runs, name)}</tr>' for name in told)
    head = "".join(f'<th scope="col" class="words">{unbroken(run.name)}</th>' for run in runs)
    assumed = ", ".join(f"--{name} {run.options[name]}" for name in names for run in runs[:1] if name not in told)
    text = f'<div class="wide"><table class="options"><thead><tr><th scope="col">option</th>{head}</tr></thead><tbody>{rows}</tbody></table></div>' if told else ""
    text += f"<p>Assumed, as the program's defaults: {unbroken(assumed)}.</p>" if assumed else ""
    listed = "".join(
        f'<tr><th scope="row">{unbroken(run.name)}</th><td class="words">{escaped(file.kind)}</td><td class="words path">{unbroken(file.name)}</td>'
        f'<td class="words"><code>{file.checksum}</code></td></tr>' for run in runs for file in run.files
    )
    columns = "".join(f'<th scope="col" class="words">{word}</th>' for word in ("run", "what", "file", "SHA-256"))
    text += f'<div class="wide"><table class="files"><thead><tr>{columns}</tr></thead><tbody>{listed}</tbody></table></div>'
    return "ran", "What ran", text + f'{_left_out(runs)}<p class="soft">pcm {escaped(version)}</p>'


def _values(runs: Sequence[Run], name: str) -> str:
    """An option's values, run by run, with where each is known from; bold where they differ."""
    values = [run.options.get(name, "–") for run in runs]
    kind = "words differs" if len(set(values)) > 1 else "words"
    origins = {"given": "", None: "assumed"}
    return "".join(
        f'<td class="{kind}">{escaped(value)} <span class="soft">{origins.get(run.origins.get(name), f"by the {run.origins.get(name)}")}</span></td>'
        for run, value in zip(runs, values)
    )


def _came(runs: Sequence[Run]) -> Section:
    most = max(max(run.counts.values()) for run in runs)

    def part(run: Run) -> str:
        counts = run.counts
        rows = [(word, {"W": "write", "R": "read", "C": "cut"}[OPERATIONS[word]], counts[word]) for word in OUTCOMES]
        table = tabled("Rows by outcome", ("outcome", "of a", "rows"), [*rows, ("all", "", run.total)], "counts")
        picture = charts.of_counts(counts, most, f"Outcomes of {run.total:,} rows")
        missing = run.total - sum(counts.values())
        told = looked(f"The stream hadn't ended: {missing:,} of {run.total:,} rows had no outcome yet.") if missing else ""
        return placed([picture], _glance(runs) * (len(runs) == 1)) + told + folded("The numbers", table)

    look = (
        "Look for orange and red: rows that fell short. Full: the bank's queue had no place; worn: the bank had no spare left; queued: "
        "accepted, and not stored in the end; busy: too many reads waited; lost: the power went before the read was served."
    )
    return "came", "What came of it", looked(look) + _glance(runs) * (len(runs) > 1) + beside(runs, part)


def _rules(runs: Sequence[Run]) -> Section:
    """What the rules say of the results that were checked."""
    if all(run.explained is None for run in runs):
        return None

    def part(run: Run) -> str:
        told = read_explanation(run.explained or "ok\n")
        if told is None:
            return looked("The results keep all rules.")
        picture = picture_of(told, run, VARIABLES)
        return f'<div class="timeline"><figure>{picture.placed()}</figure></div><pre>{escaped(told.text)}</pre>'

    look = (
        "The first row that breaks a rule, among the nearest rows of its bank, from arrival to outcome: orange is what it was told, blue all "
        "answers that would be right. The text below has the same with the numbers, as pcm explain prints it."
    )
    return "rules", "Rules", looked(look) + beside(runs, part)


def _glance(runs: Sequence[Run]) -> str:
    """The main numbers, a column for each run."""
    rows: List[List[Cell]] = []

    def row(words: str, number: Callable[[Run], Cell]) -> None:
        cells = [number(run) for run in runs]
        if any(cell is not None for cell in cells):
            rows.append([words, *cells])

    row("rows", lambda run: run.total)
    row("rows that fell short", lambda run: sum(run.counts[word] for word in _FALLS_SHORT))
    for word, words in (("read", "of a read"), ("stored", "until stored")):
        for percent in (50, 99):
            ticks = {id(run): tallies.quantile(tallies.waits(run, word), percent) for run in runs}
            row(f"ticks {words}, {percent}%", functools.partial(_of, ticks))
            row(f"ns {words}, {percent}%", functools.partial(_ns_of, ticks))
    refused = {id(run): tallies.first_refused(run) for run in runs}
    row("first row refused (full or worn)", lambda run: refused[id(run)][0] if run.has_rows else None)
    row("first snapshot with a refused row, its rows", lambda run: None if run.has_rows else refused[id(run)][0])
    row("tick of that", lambda run: refused[id(run)][1])
    row("spares in use", tallies.retired)
    row("active pointers", lambda run: run.snapshots[-1].pointers if run.snapshots else None)
    row("pulses", tallies.all_pulses)
    row("pulses for each store", lambda run: _ratio(tallies.all_pulses(run), run.counts["stored"]))
    row("most pulses of an array line", lambda run: run.snapshots[-1].most if run.snapshots and run.wear is None else None)
    row("most pulses of a slot or spare", lambda run: _most(run, False))
    row("most pulses of a control line", lambda run: _most(run, True))
    row("mean pulses of an array line", _mean)
    return tabled("Main numbers", ["", *(run.name for run in runs)], rows, "glance")


def tells_energy(run: Run) -> bool:
    """Whether a run's snapshots tell its energy."""
    return bool(run.snapshots) and run.snapshots[-1].senses is not None


def _left_out(runs: Sequence[Run]) -> str:
    """What the page doesn't tell, and what would tell it."""
    wants = []
    if not any(run.wear for run in runs):
        wants.append("maps of wear, for which a wear report is wanted (--wear FILE; with --run it comes of at most 4,194,304 lines)")
    if not any(tells_energy(run) for run in runs):
        wants.append("energy, for which snapshots are wanted (--snapshots FILE, or with --run --every N)")
    return f"<p>Left out: {escaped('; '.join(wants))}.</p>" if wants else ""


def _energy(runs: Sequence[Run]) -> Section:
    """What the runs whose snapshots tell energy cost, figure by figure."""
    told = [run for run in runs if tells_energy(run)]
    if not told:
        return None
    found = [figures(run.snapshots[-1], line_bytes_of(run.options), run.units, run.rate) for run in told]
    rows = [(" / ".join(dict.fromkeys(one.name for one in each)), *(_rounded(one.value) for one in each), each[0].unit, each[0].formula) for each in zip(*found)]
    look = (
        f"Counts of the array, turned into energy and time by {told[0].units.words()}. Look at the energy of a stored write beside the cells that "
        f"it drives: misses, cuts and gap moves drive cells again. The energy of queues, buses and idle time isn't counted. {told[0].remark}"
    )
    table = tabled("Figures", ["", *(run.name for run in told), "unit", "formula"], rows, "energy")
    return "energy", "Energy, power and rates", looked(look.rstrip()) + table


def _rounded(number: "Optional[float | int]") -> Cell:
    """A figure with four digits."""
    return rounded(number) if isinstance(number, float) else number


def _of(values: Dict[int, Cell], run: Run) -> Cell:
    """A run's own value."""
    return values[id(run)]


def _ns_of(values: Dict[int, Cell], run: Run) -> Cell:
    """The same in nanoseconds."""
    return _ns(run, values[id(run)])


def _ns(run: Run, ticks: Cell) -> Cell:
    """Ticks in nanoseconds, where it is told how many a tick stands for."""
    if run.tick_ns is None or not isinstance(ticks, (int, float)):
        return None
    ns = ticks * run.tick_ns
    return int(ns) if isinstance(ticks, int) and ns == int(ns) else float(ns)


def _mean(run: Run) -> Cell:
    """The mean pulses of an array line; by snapshots alone, rounded down."""
    if run.wear:
        return _ratio(tallies.all_pulses(run), len(run.wear))
    return run.snapshots[-1].mean if run.snapshots else None


def _most(run: Run, control: bool) -> Optional[int]:
    """The most pulses of an array line that is a control line, or that is none."""
    return max(run.wear.where(run.wear.pulses, tallies.CONTROL, control), default=None) if run.wear else None


def _ratio(number: Optional[int], count: int) -> Optional[float]:
    return number / count if number is not None and count else None


def _maps(runs: Sequence[Run], values: Callable[[Run], Optional[Sequence[int]]], unit: str, kind: str) -> str:
    """A map of each bank of each run that has values."""
    # (control lines may have many times as many, and would leave all others pale)
    tops = [max(run.wear.where(values(run) or (), tallies.CONTROL, False), default=1) for run in runs if run.wear]
    most = max([*tops, 1])

    def part(run: Run) -> str:
        here = values(run)
        if here is None or run.wear is None:
            return looked("No wear report of this run.")
        banks = [tallies.groups(run, bank) for bank in range(run.shape.banks)]
        grain = charts.grain([group for groups in banks for group in groups])
        rows = [[_row_of(group, run.wear, here) for group in groups] for groups in banks]
        pictures = []
        for bank, groups in enumerate(banks):
            squares = [tallies.squares(group, run.wear, here, grain) for group in groups]
            pictures.append(charts.of_cells(groups, squares, most, f"bank {bank}", _told(rows[bank], unit)))
        several = looked(f"Each square stands for {grain:,} array lines beside one another, and tells the most {unit} of one.") if grain > 1 else ""
        head = ("array lines", "bank", "number", unit, "mean", "most", "at", "retired")
        by_group = tabled(f"{unit.capitalize()} by region", head, (row for of_bank in rows for row in of_bank), kind)
        worst = heapq.nlargest(_WORST, range(len(here)), here.__getitem__)
        lines = [(at, run.wear.banks[at], here[at], run.wear.role(at)) for at in worst]
        by_line = tabled(f"The array lines with the most {unit}", ("array line", "bank", unit, "role"), lines)
        return several + placed(pictures) + folded("The numbers", by_group, by_line)

    key = charts.of_heat(most, unit, any(run.shape.in_array for run in runs if run.wear))
    return beside(runs, part) + f"<figure>{key.placed()}</figure>"


def _row_of(group: tallies.Group, wear: Wear, values: Sequence[int]) -> Sequence[Cell]:
    here = group.of(values)
    most, whole = max(here), sum(here)
    at = group.lines[here.index(most)]
    return group.words, group.bank, len(here), whole, whole / len(here), most, at, wear.count("retired", group.lines)


def _most_of(row: Sequence[Cell]) -> int:
    """The most of a group's row."""
    most = row[5]
    assert isinstance(most, int)
    return most


def _told(rows: Sequence[Sequence[Cell]], unit: str) -> str:
    """The main numbers of groups; of many of those with the most."""
    shown = rows if len(rows) <= _SAID else heapq.nlargest(_SAID, rows, _most_of)
    left = f"; and {len(rows) - _SAID} with less" if len(rows) > _SAID else ""
    return "; ".join(
        f"{row[0]}: {row[3]:,} {unit}, {row[4]:.1f} in the mean, most {row[5]:,} at array line {row[6]}, {row[7]} retired" for row in shown
    ) + left


def _wear(runs: Sequence[Run]) -> Section:
    if not any(run.wear for run in runs):
        return None
    look = (
        "Each bank has a row for each region, with a cell for each place, and rows for spares and control lines. Look for single dark cells: a "
        "hot line that its gap moves too seldom (a smaller psi spreads it). An evenly coloured row says that the gap has carried its lines over "
        "all places. Red, struck through: retired lines; their slots stand in spares."
    )
    return "wear", "Wear", looked(look) + _maps(runs, lambda run: run.wear.pulses if run.wear else None, "pulses", "wear")


def _pointers(runs: Sequence[Run]) -> Section:
    told = {id(run): tallies.pointers(run) for run in runs}
    if not any(told[id(run)] and run.wear for run in runs):
        return None
    look = (
        "How many error-correcting pointers each line has in use, by its own check cells. Look for rows that darken together: their cells stick "
        "at about the same age, and spares will be taken one after the other."
    )
    if not any(any(told[id(run)] or ()) for run in runs if run.wear):
        return "pointers", "Pointers", looked(look) + looked("No pointer is in use.")
    return "pointers", "Pointers", looked(look) + _maps(runs, lambda run: told[id(run)], "pointers", "pointers")


def _waits(runs: Sequence[Run], words: Sequence[Tuple[str, str]], title: str, kind: str) -> str:
    """Histograms of the ticks of some outcomes, which are drawn in these colours, and their quantiles."""
    ordered = {(id(run), word): tallies.waits(run, word) for run in runs for word in OUTCOMES}
    shown = {id(run): sorted(tick for word, _ in words for tick in ordered[id(run), word]) for run in runs}
    limit = max([tallies.quantile(it, 99.9) or 0 for it in shown.values()])
    bins = charts.binned(limit, max([it[-1] for it in shown.values() if it] + [0]))
    tops = [100 * max(bins.counted(it)) / len(it) for it in shown.values() if it]

    def part(run: Run) -> str:
        here = shown[id(run)]
        if not here:
            return looked("None, or no trace of this run.")
        marks = [(float(tallies.quantile(here, at) or 0), f"{at:g}%: {tallies.quantile(here, at):,}") for at in (50, 99)]
        series = [(word, colour, bins.counted(ordered[id(run), word])) for word, colour in words]
        picture = charts.of_waits(title, series, bins, max(tops), marks)
        columns = [(bins.words(at), *(counts[at] for _, _, counts in series)) for at in range(bins.columns + bins.beyond)]
        histogram = tabled("Rows by ticks", ("ticks", *(word for word, _ in words)), columns, "columns")
        return placed([picture], _quantiles(run, kind)) + folded("The numbers", histogram, _by_bank(run, words))

    return beside(runs, part)


_HEAD = ("rows", "mean", "50%", "90%", "99%", "99.9%", "most")


def _quantiles(run: Run, kind: str) -> str:
    words = ("read", "forwarded", "lost") if kind == "reads" else ("stored", "merged")
    rows = [(word, *_spread(tallies.waits(run, word))) for word in words]
    # (those together that the dashed lines of the picture mark, where it shows both)
    name = "answered" if kind == "reads" else "stored or merged"
    rows.insert(2, (name, *_spread(sorted(tallies.waits(run, words[0]) + tallies.waits(run, words[1])))))
    table = tabled("Ticks; at most so many in 50, 90, .. of 100 rows", ("outcome", *_HEAD), rows, kind)
    if run.tick_ns is None:
        return table
    in_ns = [(word, count, *(_ns(run, ticks) for ticks in spread)) for word, count, *spread in rows]
    caption = f"The same in nanoseconds, {run.tick_ns:g} to a tick"
    return f'<div class="tables">{table}{tabled(caption, ("outcome", *_HEAD), in_ns, kind + " ns")}</div>'


def _spread(ordered: List[int]) -> List[Cell]:
    mean = sum(ordered) / len(ordered) if ordered else None
    return [len(ordered), mean, *(tallies.quantile(ordered, at) for at in tallies.QUANTILES), ordered[-1] if ordered else None]


def _by_bank(run: Run, words: Sequence[Tuple[str, str]]) -> str:
    rows = [(f"{word}, bank {bank}", *_spread(tallies.waits(run, word, bank))) for word, _ in words for bank in range(run.shape.banks)]
    return tabled("Ticks by bank", ("outcome", *_HEAD), rows)


def _reads(runs: Sequence[Run]) -> Section:
    if not any(run.arrivals for run in runs):
        return None
    look = (
        "From a read's arrival until the array's answer. The first column is a sense at once; look at how far the tail goes to the right: reads "
        "that waited behind writes (--policy) or behind other reads. Forwarded reads, which the queue answers, take no tick."
    )
    return "reads", "Latency of reads", looked(look) + _waits(runs, [("read", GREEN)], "Ticks until a read is answered by the array", "reads")


def _writes(runs: Sequence[Run]) -> Section:
    if not any(run.arrivals for run in runs):
        return None
    look = (
        "From a write's arrival until it is stored, or until a newer write of its line took its place (merged). Look for a second hill: writes "
        "that stood behind others in a long queue. The dashed lines are those of stored and merged together."
    )
    waits = _waits(runs, [("stored", BLUE), ("merged", PURPLE)], "Ticks in the queue", "writes")
    return "writes", "Time of writes in the queue", looked(look) + waits


def _queues(runs: Sequence[Run], span: int) -> Section:
    if not any(run.arrivals for run in runs):
        return None
    names = (("stored", "merged", "queued"), ("stored", "merged")), (("read", "lost"), ("read", "lost"))
    found = {id(run): [tallies.levels(run, *words, span, PARTS) for words in names] for run in runs}
    top = max(max(level.most) for both in found.values() for banks in both for level in banks)

    def part(run: Run) -> str:
        if run.arrivals is None:
            return looked("No trace of this run.")
        writes, reads = found[id(run)]
        pictures = [charts.of_levels(bank, *both, span, max(1, top)) for bank, both in enumerate(zip(writes, reads))]
        rows = [(bank, max(w.most), w.mean, max(r.most), r.mean) for bank, (w, r) in enumerate(zip(writes, reads))]
        by_bank = tabled("Rows that wait", ("bank", "writes, most", "mean", "reads, most", "mean"), rows, "levels")
        parts = [(_until(at, span), *(max(w.most[at * TOGETHER: (at + 1) * TOGETHER]) for w in writes)) for at in range(PARTS // TOGETHER)]
        over = tabled("Most writes that wait, over time", ("until tick", *(f"bank {bank}" for bank in range(len(writes)))), parts)
        return placed(pictures) + folded("The numbers", by_bank, over)

    bounds = ", ".join(sorted({run.options["write-queue"] for run in runs}, key=int))
    look = (
        f"How many writes stand in each bank's queue, which holds {bounds}, and how many reads wait. Look for a bank that stays near its bound, "
        "since further writes are refused as full there, and for one that stands out: its lines are hot."
    )
    return "queues", "Queues over time", looked(look) + beside(runs, part)


def _until(at: int, span: int) -> int:
    """The last tick of a row of a table over time."""
    return -(-span * (at + 1) * TOGETHER // PARTS) - 1


def _growth(runs: Sequence[Run], span: int) -> Section:
    if not any(run.has_rows for run in runs):
        return None
    found = {}
    for run in runs:
        stored, lost = ([row.tick for row in run.rows if row.word == word] for word in ("stored", "lost"))
        found[id(run)] = [tallies.grown(it, span, PARTS) for it in (stored, tallies.spare_ticks(run), lost)]
    tops = [max(curves[at][-1] for curves in found.values()) for at in range(3)]
    titles = (("Writes stored", BLUE), ("Spares in use, by the places of stores and reads", ORANGE), ("Reads lost at power cuts", RED))

    def part(run: Run) -> str:
        if not run.has_rows:
            return looked("No results of this run.")
        curves = found[id(run)]
        pictures = [charts.of_growth(title, curve, span, top, colour) for (title, colour), curve, top in zip(titles, curves, tops)]
        at = [(at + 1) * TOGETHER - 1 for at in range(PARTS // TOGETHER)]
        rows = [(_until(number, span), *(curve[part] for curve in curves)) for number, part in enumerate(at)]
        over = tabled("So far, over time", ("until tick", "stored", "spares seen", "lost"), rows, "growth")
        cuts = [(tick, lost) for tick, lost in tallies.lost_at_cuts(run).items() if lost]
        worst = sorted(cuts, key=lambda it: -it[1])[:20]
        lost = tabled(f"The cuts that lost most reads, of {len(cuts):,} that lost any", ("tick", "reads lost"), worst)
        final = tallies.retired(run)
        unseen = 0 if final is None else final - curves[1][-1]
        told = looked(f"In the end {final} spares are in use; {unseen} of them were seen in no store and no read.") if unseen else ""
        return placed(pictures) + told + folded("The numbers", over, *[lost] * bool(cuts))

    look = (
        "Stored grows evenly while the load does; look for where it flattens. Spares: a steep stretch says that lines of one age fall together. "
        "Lost: each step is a power cut."
    )
    return "growth", "Over time", looked(look) + beside(runs, part)


def _pulses(runs: Sequence[Run]) -> Section:
    found = {id(run): tallies.pulses(run) for run in runs if run.wear and run.has_rows}
    if not found:
        return None
    tops = [number / bank.stores for banks in found.values() for bank in banks for number in (bank.lines, bank.control) if bank.stores]

    def part(run: Run) -> str:
        banks = found.get(id(run))
        if banks is None:
            return looked("No wear report of this run, or no results.")
        rows: List[Sequence[Cell]] = [(at, bank.stores, bank.lines, bank.control, bank.a_store) for at, bank in enumerate(banks)]
        every = tallies.Pulses(*(sum(bank[at] for bank in banks) for at in range(3)))
        rows.append(("all", *every, every.a_store))
        table = tabled("Pulses by bank", ("bank", "stores", "pulses of slots and spares", "of control lines", "for each store"), rows, "pulses")
        return placed([charts.of_pulses(banks, max(tops + [1]))]) + folded("The numbers", table)

    look = (
        "A store that changes cells takes a pulse or more. Look at what is above that: missed pulses, new pointers, gap moves, pulses that were torn "
        "by cuts or cancelled, and with registers in the array the control lines."
    )
    return "pulses", "Pulses for each store", looked(look) + beside(runs, part)
