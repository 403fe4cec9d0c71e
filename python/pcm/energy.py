"""What a run costs: its counts turned into energy, power, rates and years by the units of a device.

usage: python3 -m pcm energy FILE.. [options]               of what `./pcm stream --print snapshots` or `--print energy` printed
       python3 -m pcm energy --run [TRACE] [options]        the program of streams runs, once for each --options

  --options WORDS   the options of a stream, as one word: --options '--policy cancel'; of a FILE those that it ran with
  --tick-ns NS --set-pj PJ --reset-pj PJ --sense-pj PJ
                    nanoseconds of a tick; picojoules of a cell driven to 1, of one driven to 0, and of a bit that is sensed
  --device NAME     those of a published device, but for what is given: lee2009, the default
  --rate MB         megabytes a second (10^6 bytes) that are to be written: the years that the accepted writes last, which are the life of
                    a stream with --until refused; each write counts as a whole line, masked ones too, as in MB/s
  --csv             commas in the place of columns
  --progress        standard error tells how far it is, also where that isn't a terminal

Each figure stands beside its formula. Counts are told by the array and exact: every cell that a pulse drives, missed and torn ones too,
and every sense, those of a recovery and of gap moves too. A sense is one of all cells of an array line, data and check cells. The
energy of queues, buses and idle time isn't counted. The last snapshot counts what was done behind the last row, and its tick is that
row's."""
import argparse
import sys
from typing import Dict, Iterator, List, NamedTuple, Optional, Sequence, Tuple

from .devices import DEVICES, Units, other_times, positive, units_of
from .errors import UsageError
from .program import Program
from .runs import FileFault, Source, are_snapshots, opened, snapshots_of
from .snapshots import Snapshot, snapshots
from .tables import Parser, answered, names_of, parsed_options, table

ENERGY_HEADER = "bank,senses,set,reset"
# The cells of an array line, its check cells too, by the bytes of a line.
CELLS = {64: 576, 128: 1152}
SECONDS_A_YEAR = 365.25 * 24 * 3600


class Figure(NamedTuple):
    """A number with what it is, its unit, and how it is computed; None where it isn't known."""

    name: str
    unit: str
    value: "Optional[float | int]"
    formula: str


def picojoules(senses: int, set_: int, reset: int, line_bytes: int, units: Units) -> float:
    """The energy of counts."""
    return set_ * units.set_pj + reset * units.reset_pj + senses * CELLS[line_bytes] * units.sense_pj


def years(writes: int, line_bytes: int, rate: float) -> float:
    """How long so many writes last at so many megabytes a second."""
    return writes * line_bytes / (rate * 1e6) / SECONDS_A_YEAR


def with_energy(name: str, last: Snapshot) -> Snapshot:
    """A snapshot that tells energy, as those of a program before 1.4 don't."""
    if last.senses is None:
        raise FileFault(f"{name}: no energy is told")
    return last


def figures(last: Snapshot, line_bytes: int, units: Units, rate: Optional[float] = None) -> List[Figure]:
    """What a run cost, by its last snapshot."""
    cells = CELLS[line_bytes]
    senses, to_set, to_reset = last.senses or 0, last.set or 0, last.reset or 0
    whole = picojoules(senses, to_set, to_reset, line_bytes, units)
    reads = last.read * cells * units.sense_pj
    ns = last.tick * units.tick_ns
    accepted, answered = last.stored + last.merged + last.queued, last.read + last.forwarded

    def of(number: float, by: float) -> Optional[float]:
        return number / by if by else None

    found = [
        Figure("writes stored", "", last.stored, "stored"),
        Figure("cells set", "", to_set, "set"),
        Figure("cells reset", "", to_reset, "reset"),
        Figure("senses", "", senses, f"senses, each of {cells} cells"),
        Figure("energy of sets", "nJ", to_set * units.set_pj / 1000, f"set x {units.set_pj:g} pJ"),
        Figure("energy of resets", "nJ", to_reset * units.reset_pj / 1000, f"reset x {units.reset_pj:g} pJ"),
        Figure("energy of senses", "nJ", senses * cells * units.sense_pj / 1000, f"senses x {cells} x {units.sense_pj:g} pJ"),
        Figure("energy", "nJ", whole / 1000, "the sum of these three"),
        Figure("energy of a read", "nJ", cells * units.sense_pj / 1000, f"{cells} x {units.sense_pj:g} pJ"),
        Figure("energy of a stored write", "nJ", of((whole - reads) / 1000, last.stored), "(energy - read x that of a read) / stored"),
        Figure("energy of an accepted write", "nJ", of((whole - reads) / 1000, accepted), "the same / (stored + merged + queued)"),
        Figure("cells driven a stored write", "", of(to_set + to_reset, last.stored), "(set + reset) / stored"),
        Figure("time", "us", ns / 1000, f"tick of the last row x {units.tick_ns:g} ns"),
        Figure("mean power", "mW", of(whole, ns), "energy / time"),
        Figure("written", "MB/s", of(1000 * accepted * line_bytes, ns), f"(stored + merged + queued) x {line_bytes} bytes / time"),
        Figure("read", "MB/s", of(1000 * answered * line_bytes, ns), f"(read + forwarded) x {line_bytes} bytes / time"),
    ]
    if rate is not None:
        formula = f"(stored + merged + queued) x {line_bytes} bytes / ({rate:g} x 10^6 bytes/s) / {SECONDS_A_YEAR:.0f} s"
        found.append(Figure("accepted writes last", "years", years(accepted, line_bytes, rate), formula))
    return found


# Words.


def banks_of(source: Source) -> List[Tuple[str, int, int, int]]:
    """The rows of `--print energy`: a bank's number, or `all`, and its counts."""
    lines = source.text.splitlines()
    found: List[Tuple[str, int, int, int]] = []
    for at, line in enumerate(lines[1:], 1):
        fields = line.split(",")
        wanted = "all" if at == len(lines) - 1 else str(at - 1)
        if len(fields) != 4 or fields[0] != wanted or not all(it.isascii() and it.isdigit() and len(it) <= 20 for it in fields[1:]):
            raise FileFault(f"{source.name} row {at}: {'fields' if len(fields) != 4 else 'bank' if fields[0] != wanted else 'count'}")
        senses, to_set, to_reset = map(int, fields[1:])
        found.append((fields[0], senses, to_set, to_reset))
    sums = tuple(map(sum, zip(*(row[1:] for row in found[:-1]))))
    if len(found) < 2 or found[-1][1:] != sums:
        raise FileFault(f"{source.name}: the row of all isn't the sum of those before it")
    return found


def by_bank(source: Source, line_bytes: int, units: Units, csv: bool) -> str:
    """The table of `--print energy`, with energy."""
    head = ["bank", "senses", "set", "reset", "nJ of senses", "nJ of sets", "nJ of resets", "nJ"]
    rows = []
    for bank, senses, set_, reset in banks_of(source):
        parts = [picojoules(*counts, line_bytes, units) / 1000 for counts in ((senses, 0, 0), (0, set_, 0), (0, 0, reset))]
        rows.append([bank, senses, set_, reset, *parts, sum(parts)])
    return table(head, rows, csv)


def in_columns(named: Sequence[Tuple[str, List[Figure]]], csv: bool) -> str:
    """The figures of some runs beside each other, with their formulas."""
    first = named[0][1]
    rows = []
    for at, figure in enumerate(first):
        values = [found[at].value for _, found in named]
        rows.append([_name(found[at].name for _, found in named), *values, figure.unit, figure.formula])
    return table(["figure", *(name for name, _ in named), "unit", "formula"], rows, csv)


def _name(names: Iterator[str]) -> str:
    return " / ".join(dict.fromkeys(names))


def line_bytes_of(options: Dict[str, str]) -> int:
    """The bytes of a line, by the options."""
    text = options.get("line", "64")
    if text not in ("64", "128"):
        raise UsageError(2, f"--line {text}: it may be 64 or 128")
    return int(text)


def ran(trace: Optional[str], options: Dict[str, str], program: Program = None, progress: Optional[bool] = None) -> Snapshot:
    """The last snapshot of a stream that the program replays."""
    last = None
    more = {name.replace("-", "_"): value for name, value in options.items()}
    every = int(more.pop("every", 1_000_000))
    for last in snapshots(trace, every=every, program=program, progress=progress, **more):
        pass
    if last is None:
        raise FileFault("the stream told no snapshot")
    return with_energy("the stream", last)


def parser() -> Parser:
    """The words of the command."""
    words = Parser.of_runs("energy")
    for name in ("tick-ns", "set-pj", "reset-pj", "sense-pj", "device", "rate"):
        words.add_argument(f"--{name}")
    return words


def main(words: Sequence[str]) -> int:
    """`python3 -m pcm energy`; answers the status."""
    return answered("energy", __doc__, words, _print)


def _print(words: Sequence[str]) -> int:
    sys.stdout.write(told(parser().parse_args(list(words))))
    return 0


def told(given: argparse.Namespace) -> str:
    """The tables that are asked for."""
    units = units_of(given.device, tick_ns=given.tick_ns, set_pj=given.set_pj, reset_pj=given.reset_pj, sense_pj=given.sense_pj)
    rate = None if given.rate is None else positive("--rate", given.rate)
    made = [parsed_options(one) for one in given.options] or [{}]
    text, named = "", []
    if given.run:
        if len(given.files) > 1:
            raise UsageError(2, "--run takes one trace")
        for name, options in zip(names_of(given.options, made), made):
            if (not given.files) == (options.get("input") != "drawn"):
                raise UsageError(2, "a trace is wanted, or --options '--input drawn ..' without one")
            last = ran(given.files[0] if given.files else None, options, None, given.progress)
            named.append((name, figures(last, line_bytes_of(options), units, rate)))
    else:
        if not given.files or len(made) not in (1, len(given.files)):
            raise UsageError(2, "files are wanted, with --options once for each or once for all, or --run; --help tells more")
        for file, options in zip(given.files, made * (len(given.files) if len(made) == 1 else 1)):
            source = opened("snapshots", file)
            if source.text.split("\n", 1)[0].rstrip("\r") == ENERGY_HEADER:
                text += by_bank(source, line_bytes_of(options), units, given.csv)
            elif are_snapshots(source):
                last = with_energy(source.name, snapshots_of(source)[-1])
                named.append((source.name, figures(last, line_bytes_of(options), units, rate)))
            else:
                raise FileFault(f"{source.name} row 0: header: neither of --print snapshots nor of --print energy")
    text += in_columns(named, given.csv) if named else ""
    origin = DEVICES[given.device or "lee2009"].source
    remark = other_times(given.device, given.tick_ns, made) if given.run else ""
    return text + ("" if given.csv else f"by {units.words()}\n(defaults: {origin})\n{remark}")
