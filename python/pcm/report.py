"""Makes a report of runs: one page of HTML with pictures and numbers, which needs no network and no script.

usage: python3 -m pcm report RESULTS.. [options] > report.html          of what `./pcm run` or `./pcm stream` printed: results, rows,
                                                                         or `--print snapshots`
       python3 -m pcm report --run [TRACE..] [options] > report.html    the program runs: once for each trace, or for each --options

Each of these once for each run, in their order, or once for all:
  --trace FILE      the run's trace: with it come latencies, times in the queue and queues over time
  --wear FILE       its wear report, as `--print wear` (or `--print lines`) prints it without `--skip`: maps, pulses for each store
  --image FILE      its image, as `--print image` prints it: pointers
  --summary FILE    its summary: spares in use and all pulses
  --snapshots FILE  its snapshots, beside results: how its lines age
  --options WORDS   the options that it ran with, as one word: --options 'run --banks 1 --psi 8'
  --name WORDS      its name on the page
For all runs:
  --banks N ..      any option of a run by itself
  --every N         with --run: snapshots each N rows, by the program of streams
  --explain         the results are checked behind their trace: where a row breaks a rule it is told why, and drawn in time
  --tick-ns NS      how many nanoseconds a tick stands for, as 2.5: latencies are told in these, too
  --set-pj PJ --reset-pj PJ --sense-pj PJ
                    picojoules of a cell driven to 1, of one driven to 0, and of a sensed bit: of snapshots energy is told
  --device NAME     those of a published device, but for what is given: lee2009
  --rate MB         megabytes a second that are to be written: of snapshots it is told how many years the accepted writes last
  --title WORDS     the page's title
  --output FILE     where the page is written, instead of standard output
  --progress        standard error tells how far it is, also where that isn't a terminal

With --run streams replay what is too large a module for `run`, of more than 4194304 lines without wear, for it has a row for each of them.
RESULTS may be -, standard input. Options that aren't given are those that a file tells, and else the program's defaults. Files that
aren't of one run are refused. Status 0; 2 for words that ask for nothing that can be done, 3 for a file that isn't what it should be,
4 and 5 where reading or writing failed, 130 where it is broken off, and with --run that of the program."""
import shlex
import sys
from typing import Dict, List, Optional, Sequence

from .devices import Units, other_times, positive, units_of
from .errors import UsageError, WriteFault
from .gathered import Asked, gather, known_options
from .page import page, tells_energy
from .program import Program
from .progress import Progress
from .runs import DEFAULTS, DRAWN, STREAMS
from .tables import answered
from .words import near

_OF_RUNS = ("trace", "wear", "image", "summary", "snapshots", "options", "name")
_OF_ALL = ("every", "tick-ns", "set-pj", "reset-pj", "sense-pj", "device", "rate", "title", "output")
_ALONE = ("run", "explain", "progress")
# Those that tell of energy alone, which snapshots count.
_OF_ENERGY = ("set-pj", "reset-pj", "sense-pj", "rate")


def report(
    asked: Sequence[Asked], title: str = "Report of pcm", program: Program = None, tick_ns: Optional[float] = None,
    progress: Optional[bool] = False, units: Units = Units(), rate: Optional[float] = None, device: Optional[str] = None,
    of_energy: Sequence[str] = (),
) -> str:
    """The page of some runs; `tick_ns` are the nanoseconds of a tick, `units` those of energy, `rate` the megabytes a second for which a life
    is told, `device` the published device that these are of, `progress` as with `snapshots`, and `of_energy` the words that are refused where
    no run's snapshots tell energy."""
    from . import __version__

    watched = Progress(progress)
    try:
        runs = [gather(one, program, watched) for one in asked]
        if of_energy and not any(tells_energy(run) for run in runs):
            raise UsageError(2, f"{of_energy[0]} is told of snapshots that count energy alone, and there are none")
        own = tick_ns if tick_ns is not None or units.tick_ns == Units().tick_ns else units.tick_ns
        remark = other_times(device, own, [run.options for run in runs]).strip()
        for run in runs:
            run.tick_ns, run.units, run.rate, run.remark = tick_ns, units, rate, remark
        watched.tell(lambda: "making the page")
        return page(runs, title, __version__)
    finally:
        watched.clear()


def main(words: Sequence[str]) -> int:
    """`python3 -m pcm report`; answers the status."""
    return answered("report", __doc__, words, _make)


def _last(values: Sequence[str]) -> Optional[str]:
    """The last of some words, where there is one."""
    return values[-1] if values else None


def _make(words: Sequence[str]) -> int:
    given = _parsed(words)
    last = {name: _last(given[name]) for name in _OF_ALL}
    title = last["title"] or "Report of pcm"
    units = units_of(last["device"], **{name.replace("-", "_"): last[name] for name in ("tick-ns", "set-pj", "reset-pj", "sense-pj")})
    tick_ns = None if last["tick-ns"] is None and last["device"] is None else units.tick_ns
    rate = None if last["rate"] is None else positive("--rate", last["rate"])
    watched = True if given["progress"] else None
    of_energy = [f"--{name}" for name in _OF_ENERGY if given[name]]
    asked = _asked(given)
    if of_energy and given["run"] and not given["every"]:
        raise UsageError(2, f"{of_energy[0]} is told of snapshots alone: give --every N, too")
    text = report(asked, title, tick_ns=tick_ns, progress=watched, units=units, rate=rate, device=last["device"], of_energy=of_energy)
    _write(text, last["output"])
    return 0


def _write(text: str, name: Optional[str]) -> None:
    # (a name on the page may have been of any bytes)
    data = text.encode("utf-8", "surrogateescape").decode("utf-8", "replace").encode()
    if name is None:
        sys.stdout.buffer.write(data)
        return
    try:
        with open(name, "wb") as file:
            file.write(data)
    except OSError as wrong:
        raise WriteFault(5, f"{name}: {wrong.strerror}") from None


def _parsed(words: Sequence[str]) -> Dict[str, List[str]]:
    """The values of each word of the command line; those of no option stand under ''."""
    given: Dict[str, List[str]] = {name: [] for name in ("", *_ALONE, *_OF_RUNS, *_OF_ALL, *known_options())}
    rest = list(words)
    while rest:
        word = rest.pop(0)
        name, equals, value = word[2:].partition("=")
        if word[:1] != "-" or word == "-":
            given[""].append(word)
        elif word[:2] != "--":
            more = "; the page's file is named by --output FILE" if word == "-o" else f"; a file by this name is ./{word}"
            raise UsageError(2, f"no option {word}{more}")
        elif name not in given or not name:
            raise UsageError(2, f"no option {word}{near('--' + name, ['--' + it for it in given if it])}; --help tells which there are")
        elif name in _ALONE:
            if equals:
                raise UsageError(2, f"--{name} takes no value")
            given[name].append("")
        elif equals or rest:
            given[name].append(value if equals else rest.pop(0))
        else:
            raise UsageError(2, f"{word} wants a value")
    return given


def _asked(given: Dict[str, List[str]]) -> List[Asked]:
    """What each run is to be made of."""
    runs, explains, files = bool(given["run"]), bool(given["explain"]), given[""]
    if runs and given["trace"]:
        raise UsageError(2, "--run takes traces without --trace")
    if runs and any(given[name] for name in ("wear", "image", "summary", "snapshots")):
        raise UsageError(2, "--run makes wear, image, summary and (with --every) snapshots itself")
    if given["every"] and not runs:
        raise UsageError(2, "--every is for --run; a file of snapshots has its own")
    if not files and not runs:
        raise UsageError(2, "usage: python3 -m pcm report RESULTS.. [--trace FILE] [--wear FILE] .. (--help tells more)")
    lists = {"files": files, **{name: given[name] for name in _OF_RUNS}}
    count = max(1, *(len(values) for values in lists.values())) if runs else len(files)
    for name, values in lists.items():
        if len(values) not in (0, 1, count):
            raise UsageError(2, f"{len(values)} times {'a file' if name == 'files' else '--' + name}, where there are {count} runs")
    column: Dict[str, List[Optional[str]]] = {
        name: [*values] * (count if len(values) == 1 else 1) or [None] * count for name, values in lists.items()}
    shared = {name: given[name][-1] for name in known_options() if given[name]}
    made = [{**shared, **_words_of(words or "")} for words in column["options"]]
    others = _by_options(made) if len(files) < 2 <= count else column["files"]
    names = [name or other for name, other in zip(column["name"], others)]
    if runs:
        every = _last(given["every"])
        each = zip(names, made, column["files"])
        return [Asked(name, options, True, None, trace, every=every, explains=explains) for name, options, trace in each]
    kinds = ("trace", "wear", "image", "summary", "snapshots")
    rests = ({kind: column[kind][at] for kind in kinds} for at in range(len(files)))
    each_file = zip(names, made, column["files"], rests)
    return [Asked(name, options, False, results, explains=explains, **rest) for name, options, results, rest in each_file]


def _by_options(made: Sequence[Dict[str, str]]) -> List[Optional[str]]:
    """Names of runs that have one file, by the options in which they differ, or where they don't by all."""
    whole = [{**DEFAULTS, **DRAWN, **STREAMS, **options} for options in made]
    differ = [name for name in whole[0] if len({one[name] for one in whole}) > 1]
    return [" ".join(f"--{name} {one[name]}" for name in differ or options) or None for one, options in zip(whole, made)]


def _words_of(words: str) -> Dict[str, str]:
    """Options that stand in one word, behind `run` or not."""
    try:
        parts, found = shlex.split(words), {}
    except ValueError as wrong:
        raise UsageError(2, f"--options {words!r}: {wrong}") from None
    if parts and parts[0] in ("run", "stream"):
        parts.pop(0)
    pairs: List[str] = []
    for part in parts:
        pairs += part.split("=", 1) if part.startswith("--") else [part]
    for name, value in zip(pairs[::2], pairs[1::2]):
        if not name.startswith("--") or name[2:] not in (*known_options(), "print", "every"):
            raise UsageError(2, f"--options: no option {name} of a run, or none that says what it was")
        found[name[2:]] = value
    if len(pairs) % 2:
        raise UsageError(2, f"--options: {pairs[-1]} wants a value")
    return {name: value for name, value in found.items() if name not in ("print", "every")}
