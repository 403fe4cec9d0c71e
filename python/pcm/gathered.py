"""Gathers a run from its files, or by running the program, and holds the files to one another."""
import functools
import math
import subprocess
import tempfile
from typing import Callable, Dict, List, NamedTuple, Optional, Tuple

from . import tallies
from .drawn import draw_of, drawn
from .errors import UsageError, error_of
from .explaining import said_of
from .pipes import cut, exchanged
from .program import Program, command
from .progress import Progress
from .rows import HEADER
from .runs import (
    DEFAULTS, DRAWN, STREAMS, Arrival, FileFault, Run, Source, are_snapshots, arrivals_of, image_of, joined, opened, results_of,
    shape_of_wear, snapshots_of, summary_of, wear_of,
)
from .words import COMMANDS, RESULTS, are_small, wrong_word

# The options that `gen` takes, too.
_GENERATED = ("banks", "regions", "lines", "line", "seed", *DRAWN)
# What is printed of a run, by what it is to a report; and of a stream over a module that `run` doesn't take, of which the last only up to
# so many lines, since it has a row for each.
_PRINTS = (("results", "results"), ("wear report", "wear"), ("image", "image"), ("summary", "summary"))
_STREAMED = (("results", "rows"), ("summary", "summary"), ("wear report", "lines"))
_MOST_MAPPED = 1 << 22
# The values of each option that takes no number.
_WORDS = {
    "policy": ("pause", "plain", "cancel"), "registers": ("guarded", "array"), "input": ("source", "drawn"), "end": ("drain", "off"),
    "until": ("end", "refused"),
}


class Asked(NamedTuple):
    """What a report is to be made of for one run: its options, and the names of its files; with `runs` the program makes all but the
    trace, and snapshots where `every` tells each how many rows; with `explains` the results are checked."""

    name: Optional[str]
    options: Dict[str, str]
    runs: bool
    results: Optional[str]
    trace: Optional[str] = None
    wear: Optional[str] = None
    image: Optional[str] = None
    summary: Optional[str] = None
    snapshots: Optional[str] = None
    every: Optional[str] = None
    explains: bool = False


def gather(asked: Asked, program: Program = None, progress: Optional[Progress] = None) -> Run:
    """The run that is asked for. `FileFault` where a file isn't what it should be, or two aren't of one run."""
    progress = progress or Progress(False)
    for name, value in asked.options.items():
        if not (value in _WORDS[name] if name in _WORDS else value.isascii() and value.isdigit() and len(value) <= 20):
            raise UsageError(2, f"--{name} doesn't take {value!r}")
    sources = _made(asked, program, progress) if asked.runs else _read(asked, progress)
    by_kind = {source.kind: source for source in sources}
    options, origins = {**DEFAULTS, **asked.options}, {name: "given" for name in asked.options}
    if options["input"] == "drawn":
        options = {**options, **{name: value for name, value in DRAWN.items() if name not in options}}
    files = [source for source in sources if not asked.runs or source.kind in ("trace", "results", "snapshots")]
    line_bytes = int(asked.options["line"]) if "line" in asked.options else None
    rows = results_of(by_kind["results"], progress, line_bytes) if "results" in by_kind else []
    run = Run(asked.name or asked.results or asked.trace or "drawn", options, origins, files, rows)
    readers: Tuple[Tuple[str, Callable[[Run, Source], None]], ...] = (
        ("trace", functools.partial(_add_trace, progress=progress)), ("wear report", functools.partial(_add_wear, progress=progress)),
        ("image", _add_image), ("snapshots", _add_snapshots), ("summary", _add_summary),
    )
    for kind, read in readers:
        if kind in by_kind:
            read(run, by_kind[kind])
    if run.has_rows:
        _hold_places(run, by_kind["results"])
    if asked.explains:
        run.explained = _explained(run, by_kind, program)
    return run


def _explained(run: Run, by_kind: Dict[str, Source], program: Program) -> str:
    """What the program says of the results behind their trace."""
    if not {"trace", "results"} <= by_kind.keys():
        raise UsageError(2, f"--explain wants a trace and its results, which {run.name} lacks")
    results = by_kind["results"]
    if not results.data.startswith(RESULTS.encode()):
        raise UsageError(2, f"--explain wants results as run prints them, whose first line is {RESULTS}: {results.name} has those of a stream")
    words = [word for name in COMMANDS["check"].options for word in (f"--{name}", run.options[name])]
    files = [by_kind["trace"], results]
    return said_of(joined(*files), words, program, files)


def _read(asked: Asked, progress: Progress) -> List[Source]:
    named = (
        ("results", asked.results), ("trace", asked.trace), ("wear report", asked.wear), ("image", asked.image),
        ("snapshots", asked.snapshots), ("summary", asked.summary),
    )
    sources = [opened(kind, name, progress) for kind, name in named if name is not None]
    if sources[0].kind == "results" and are_snapshots(sources[0]):
        if asked.snapshots is not None:
            raise UsageError(2, f"{sources[0].name}: snapshots, where --snapshots has some, too")
        sources[0] = sources[0]._replace(kind="snapshots")
    return sources


def _made(asked: Asked, program: Program, progress: Progress) -> List[Source]:
    """What the program makes of a trace, or of one that is drawn: all by `run`, or by streams where the module is larger than it takes."""
    for name in STREAMS:
        if name in asked.options:
            raise UsageError(2, f"--{name} is an option of streams: hand in what the stream printed")
    whole = {**DEFAULTS, **DRAWN, **asked.options}
    lines = [int(whole[name]) for name in ("banks", "regions", "lines")]
    small = are_small(*lines)
    if asked.options.get("input") == "drawn":
        trace = _drawn(asked.options, whole, small, program, progress)
    elif asked.trace is None:
        raise UsageError(2, "a trace is wanted, or --input drawn")
    else:
        trace = opened("trace", asked.trace, progress)
    sources, name = [trace], "run" if small else "stream"
    for kind, what in _PRINTS if small else _STREAMED[:2 + (math.prod(lines) <= _MOST_MAPPED)]:
        printed = _ran(name, program, {**asked.options, "print": what}, trace.data, asked.trace, progress)
        sources.append(Source(kind, f"pcm {name} --print {what}", printed))
    if asked.every is not None:
        more = {**asked.options, "print": "snapshots", "every": asked.every}
        printed = _ran("stream", program, more, trace.data, asked.trace, progress)
        sources.append(Source("snapshots", f"pcm stream --print snapshots --every {asked.every}", printed))
    return sources


def _drawn(given: Dict[str, str], whole: Dict[str, str], small: bool, program: Program, progress: Progress) -> Source:
    """The trace that is drawn by the given options, all of which are told."""
    generated = {name: value for name, value in given.items() if name in _GENERATED}
    told = " ".join(f"--{name} {value}" for name, value in generated.items())
    if small:
        return Source("trace", f"pcm gen {told}".strip(), _ran("gen", program, generated, b"", None, progress))
    words = [word for name, value in given.items() for word in (f"--{name}", value)]
    wrong = wrong_word(["stream", *words])
    if wrong is not None:
        raise UsageError(2, wrong)
    text = "".join([HEADER, *(row.text() for row in drawn(draw_of(whole)))])
    return Source("trace", f"drawn by {told}", text.encode())


def _ran(name: str, program: Program, options: Dict[str, str], given: bytes, trace: Optional[str], progress: Progress) -> bytes:
    """What a command prints of these bytes, which are those of a trace by its name."""
    more = [word for option, value in options.items() for word in (f"--{option}", value)]
    words, rows, pieces = [*command(name, program), *more], max(1, given.count(b"\n") - 1), [b""]

    def tell() -> None:
        # (of a stream's snapshots the last whole line begins with the rows that were served)
        served = pieces[-1].rpartition(b"\n")[0].rpartition(b"\n")[2].partition(b",")[0]
        if name == "stream" and served.isdigit():
            progress.rows(int(served), int(served) / rows)
        else:
            progress.tell(lambda: f"pcm {name}" + f" --print {options['print']}" * ("print" in options))

    progress.restart()
    with tempfile.TemporaryFile() as said:
        with subprocess.Popen(words, stdin=subprocess.PIPE, stdout=subprocess.PIPE, stderr=said) as process:
            pieces += exchanged(process, cut(given), tell, progress.shown)
        if process.returncode not in (0, 1):
            said.seek(0)
            raise error_of(process.returncode, said.read(), [name, *more], None if trace == "-" else trace)
    return b"".join(pieces)


def _add_trace(run: Run, source: Source, progress: Progress) -> None:
    """The trace's rows must be those of the results, up to the first refused one where the stream stopped there; one cut may have been
    added behind them, where the power went."""
    if not run.has_rows:
        raise FileFault(f"{source.name}: a trace, where snapshots don't tell what became of each row")
    arrivals = arrivals_of(source, progress)
    if run.options.get("until") == "refused":
        arrivals = arrivals[:next((at for at, row in enumerate(run.rows, 1) if row.word in ("full", "worn")), len(arrivals))]
    if len(run.rows) == len(arrivals) + 1 and run.rows[-1].word == "cut":
        arrivals.append(Arrival(run.rows[-1].tick, "C", None))
    results = run.files[[file.kind for file in run.files].index("results")].name
    if len(run.rows) != len(arrivals):
        raise FileFault(f"{results}: {len(run.rows)} rows, where {source.name} has {len(arrivals)}")
    for at, (row, arrival) in enumerate(zip(run.rows, arrivals), 1):
        same_line = row.line == arrival.line or row.line is None
        if row.op != arrival.op or not same_line or row.tick < arrival.tick:
            raise FileFault(f"{results} row {at}: not an outcome of that row of {source.name}")
    if run.rows and all(row.line is None for row in run.rows):
        run.rows = [row._replace(line=arrival.line) for row, arrival in zip(run.rows, arrivals)]
    run.arrivals = arrivals


def _add_wear(run: Run, source: Source, progress: Progress) -> None:
    run.wear = wear_of(source, progress)
    _take_options(run, source, shape_of_wear(source, run.wear).options())


def _add_image(run: Run, source: Source) -> None:
    image = run.image = image_of(source)
    home = "array" if image.registers_in_array else "guarded"
    built = {"banks": len(image.banks), "regions": image.regions, "lines": image.lines, "spares": image.spares}
    told = {**{name: str(number) for name, number in built.items()}, "line": str(image.line_bytes), "seed": str(image.seed), "registers": home}
    _take_options(run, source, told)


def _take_options(run: Run, source: Source, told: Dict[str, str]) -> None:
    """Options that a file tells: they may not differ from those that are known."""
    for name, value in told.items():
        if name in run.origins and run.options[name].lstrip("0") != value.lstrip("0"):
            raise FileFault(f"{source.name}: --{name} is {value} there, not {run.options[name]}")
        run.origins.setdefault(name, source.kind)
        run.options[name] = value


def _add_summary(run: Run, source: Source) -> None:
    """The summary's counts must be those of the results, and its pulses those of the wear report."""
    summary = run.summary = summary_of(source)
    _compare(source, summary, _in_the_end(run))


def _add_snapshots(run: Run, source: Source) -> None:
    """The last snapshot's numbers must be those of the results and of the wear report."""
    found, known = snapshots_of(source), _in_the_end(run)
    pointers = tallies.pointers(run)
    if pointers is not None:
        known["pointers"] = sum(pointers)
    _compare(source, found[-1]._asdict(), known)
    run.snapshots = found
    if run.spares is not None and found[-1].retired > run.spares:
        words = "hand in those of the run, as --options 'WORDS'"
        raise FileFault(f"{source.name}: {found[-1].retired} spares in use, where a module of these options has {run.spares}: {words}")


def _in_the_end(run: Run) -> Dict[str, int]:
    """What is known by now of a run in its end, by the words of summaries and snapshots."""
    known: Dict[str, int] = {}
    if run.snapshots:
        known.update(run.snapshots[-1]._asdict())
    if run.wear:
        known.update(retired=tallies.retired(run) or 0, pulses=sum(run.wear.pulses), most=max(run.wear.pulses))
        known.update(mean=known["pulses"] // len(run.wear))
    if run.has_rows:
        known.update(rows=len(run.rows), **run.counts)
    return known


def _compare(source: Source, told: Dict[str, int], known: Dict[str, int]) -> None:
    """What a file tells may not differ from what is known."""
    for word, number in told.items():
        if known.get(word, number) != number:
            raise FileFault(f"{source.name}: {word} {number}, where the run's other files have {known[word]}")


def _hold_places(run: Run, source: Source) -> None:
    """The places of results, and the lines, must be those of a module of these options."""
    shape, lines = run.shape, run.shape.banks * run.shape.regions * run.shape.lines
    for at, row in enumerate(run.rows, 1):
        beyond = row.line is not None and row.line >= lines or row.place is not None and row.place >= shape.banks * shape.array_lines
        if beyond or row.place is not None and row.line is not None and row.place // shape.array_lines != run.bank_of_line(row.line):
            raise FileFault(f"{source.name} row {at}: not of a module of these options: hand in those of the run, as --options 'WORDS'")


def known_options() -> List[str]:
    """The options of a run, of a drawn trace and of a stream that a report may be told."""
    return [*DEFAULTS, *DRAWN, *STREAMS]
