"""How long rows took, exactly, of a stream of any length: a histogram of ticks for each outcome.

usage: python3 -m pcm latencies ROWS --trace TRACE [options]       of what `./pcm stream` printed, beside the trace that it read
       python3 -m pcm latencies --run [TRACE] [options]            the program of streams runs, once for each --options

  --trace FILE      the trace of ROWS, a file, since it is read beside them; ROWS may be -, standard input
  --options WORDS   the options of a stream, as one word: --options '--policy cancel'; with --input drawn among them TRACE is left out,
                    and with ROWS --trace is
  --tick-ns NS      how many nanoseconds a tick stands for; or --device NAME, a published device (lee2009)
  --csv             commas in the place of columns
  --python          the pass in Python, also where there is a C compiler
  --progress        standard error tells how far it is, also where that isn't a terminal

A row for each run and kind: reads that were answered (`reads`: by the array or the queue), those that the array answered (`read`), writes
that were `stored`, and `writes`, stored or merged: how many, the mean of their ticks from arrival to outcome, the least number that 50,
90, 99 and 99.9 of 100 don't exceed, and the most. No row is sampled or rounded. The text is passed over once, in memory that grows with
the rows that wait, by a program in C that cc builds, which takes less time than the stream, or, where there is no cc, in Python, which
takes more; the last line says which, and how many rows of the trace have no outcome, where some have none."""
import argparse
import contextlib
import os
import subprocess
import sys
import tempfile
from typing import BinaryIO, ContextManager, Dict, Iterable, Iterator, List, NamedTuple, Optional, Sequence, Tuple

from . import compiling
from .devices import other_times, units_of
from .drawn import Draw, draw_of, drawn
from .errors import PcmError, ReadFault, UsageError, error_of
from .program import Program, command
from .progress import Progress
from .rows import PowerCut, Read, Row, numbered, read_trace
from .runs import DRAWN, OPERATIONS, OUTCOMES, FileFault
from .tables import Parser, answered, names_of, parsed_options, table
from .words import COMMANDS, TOLD, wrong_word

# Numbers of ticks, and how many rows of an outcome took so many.
Histogram = Dict[int, int]
QUANTILES = (50.0, 90.0, 99.0, 99.9)
KINDS: "Dict[str, Tuple[str, ...]]" = {
    "reads": ("read", "forwarded"), "read": ("read",), "writes": ("stored", "merged"), "stored": ("stored",),
}


# What is said of a last line that isn't whole: the rows behind it are missing.
UNENDED = "the line isn't ended, so the rows are cut off"


class RowsFault(FileFault):
    """What should be rows of a stream isn't, or isn't of this trace (status 3)."""


class Spread(NamedTuple):
    """How many rows, the mean of their ticks, the quantiles of `QUANTILES`, and the most ticks; the last three None of no rows."""

    rows: int
    mean: Optional[float]
    quantiles: Tuple[Optional[int], ...]
    most: Optional[int]


def spread(histograms: Iterable[Histogram]) -> Spread:
    """The spread of some histograms together."""
    whole: Histogram = {}
    for histogram in histograms:
        for ticks, count in histogram.items():
            whole[ticks] = whole.get(ticks, 0) + count
    rows = sum(whole.values())
    if not rows:
        return Spread(0, None, (None,) * len(QUANTILES), None)
    ranks = [-(-rows * round(percent * 10) // 1000) for percent in QUANTILES]
    found: List[int] = []
    below = 0
    for ticks in sorted(whole):
        below += whole[ticks]
        while len(found) < len(ranks) and ranks[len(found)] <= below:
            found.append(ticks)
    return Spread(rows, sum(ticks * count for ticks, count in whole.items()) / rows, tuple(found), max(whole))


class Counted(NamedTuple):
    """The histograms of outcomes, and how many rows of the trace have none."""

    found: Dict[str, Histogram]
    without: int


# Arrivals.


def _of_file(path: str) -> Iterator[Row]:
    """A trace's numbered rows."""
    with open(path, encoding="latin-1", newline="") as file:
        try:
            # (a byte order mark, in this encoding)
            mark = file.read(3)
            if mark != "\xef\xbb\xbf":
                file.seek(0)
            yield from numbered(read_trace(file))
        except ValueError as wrong:
            raise RowsFault(f"{path} {wrong}") from None


def in_python(arrivals: Iterator[Row], rows: Iterable[bytes]) -> "Counted":
    """What is counted by the rows of a trace and the lines that a stream prints."""
    found: Dict[str, Histogram] = {word: {} for word in OUTCOMES}
    waiting: Dict[int, Tuple[int, str]] = {}
    arrived = 0
    lines = iter(rows)
    if next(lines, b"") != TOLD.encode() + b"\n":
        raise RowsFault("row 0: not the header of a stream's rows")
    for at, line in enumerate(lines, 1):
        fields = line.split(b",", 4)
        if not line.endswith(b"\n"):
            raise RowsFault(f"row {at}: {UNENDED}")
        if fields[0] == b"":
            continue
        try:
            row, word, tick = int(fields[0]), fields[1].decode(), int(fields[2])
            histogram = found[word]
        except (ValueError, IndexError, KeyError):
            raise RowsFault(f"row {at}: not a row of a stream") from None
        while arrived < row:
            came = next(arrivals, None)
            if came is None:
                break
            arrived += 1
            waiting[arrived] = came.tick, "R" if isinstance(came, Read) else "C" if isinstance(came, PowerCut) else "W"
        if word == "cut" and row == arrived + 1:
            continue  # (the cut that is added where the power stays off)
        since, op = waiting.pop(row, (tick + 1, ""))
        if tick < since or op != OPERATIONS[word]:
            raise RowsFault(f"row {at}: not an outcome of a row of this trace")
        histogram[tick - since] = histogram.get(tick - since, 0) + 1
    return Counted(found, len(waiting) + sum(1 for _ in arrivals))


# The pass.


def compiled(wanted: bool = True) -> "ContextManager[Optional[str]]":
    """The pass in C, built by `cc` into a folder that goes behind it; None where that can't be."""
    return compiling.compiled("latencies", wanted)


class Passed(NamedTuple):
    """The histograms of a run's outcomes, what counted them, `C` or `Python`, and how many rows of the trace have no outcome."""

    found: Dict[str, Histogram]
    by: str
    without: int = 0

    def spreads(self) -> Dict[str, Spread]:
        """The spread of each kind."""
        return {kind: spread(self.found[word] for word in words) for kind, words in KINDS.items()}


def draw_asked(options: Dict[str, str]) -> Optional[Draw]:
    """How a drawn trace is drawn, by the options of a stream; None where the trace isn't drawn."""
    if options.get("input") != "drawn":
        return None
    taken = COMMANDS["stream"].options
    value = {**{name: it.default for name, it in taken.items()}, **options}
    for name in ("seed", *DRAWN, "line", "banks", "regions", "lines"):
        if not taken[name].takes(value[name]):
            words = [word for name, text in options.items() for word in (f"--{name}", text)]
            raise UsageError(2, wrong_word(["stream", *words]) or f"--{name} {value[name]}: it may be {taken[name].range()}")
    return draw_of(value)


def of_files(rows: str, trace: Optional[str], draw: Optional[Draw] = None, built: Optional[str] = None) -> Passed:
    """Those of rows that a stream printed, a file or `-`, and of its trace."""
    try:
        if rows == "-":
            return _of_rows(sys.stdin.buffer, trace, draw) if built is None else _of_pipe(sys.stdin.buffer, trace, draw, built)
        with open(rows, "rb") as file:
            found = None if built is None else _by_program([built, *_source(trace, draw), rows])
            return _of_rows(file, trace, draw) if found is None else Passed(found.found, "C", found.without)
    except OSError as wrong:
        raise ReadFault(4, f"{wrong.filename}: {wrong.strerror}") from None


def _of_rows(file: BinaryIO, trace: Optional[str], draw: Optional[Draw]) -> Passed:
    """Those of an open file's rows, by Python."""
    found = in_python(_arrivals(trace, draw), file)
    return Passed(found.found, "Python", found.without)


def _of_pipe(file: BinaryIO, trace: Optional[str], draw: Optional[Draw], built: str) -> Passed:
    """Those of a pipe, which can't be read twice: a pass in C that gives up ends it."""
    done = subprocess.run([built, *_source(trace, draw), "-"], stdin=file, stdout=subprocess.PIPE, stderr=subprocess.PIPE, check=False)
    if done.returncode == 3:
        plain = "the rows, or the trace, aren't of the plain form that is read fast (or not of each other); --python reads any"
        raise RowsFault("the last row: " + UNENDED if done.stderr else plain)
    found = _counted(done)
    return Passed(found.found, "C", found.without)


def _arrivals(trace: Optional[str], draw: Optional[Draw]) -> Iterator[Row]:
    return _of_file(trace or os.devnull) if draw is None else drawn(draw)


def _source(trace: Optional[str], draw: Optional[Draw]) -> List[str]:
    """The words of the pass in C for a trace."""
    return [trace or os.devnull] if draw is None else ["--drawn", ",".join(map(str, draw))]


def _by_program(words: List[str]) -> Optional[Counted]:
    """What the pass in C counts; None where it leaves that to Python."""
    done = subprocess.run(words, stdin=subprocess.DEVNULL, stdout=subprocess.PIPE, stderr=subprocess.PIPE, check=False)
    return None if done.returncode == 3 else _counted(done)


def _counted(done: "subprocess.CompletedProcess[bytes]") -> Counted:
    if done.returncode != 0:
        raise ReadFault(4, done.stderr.decode(errors="replace").strip() or f"the pass in C ended with status {done.returncode}")
    found: Dict[str, Histogram] = {word: {} for word in OUTCOMES}
    *lines, last = done.stdout.decode().splitlines()
    for line in lines:
        word, ticks, count = line.split(" ")
        found[word][int(ticks)] = int(count)
    return Counted(found, int(last.split(" ")[1]))


def of_run(
    trace: Optional[str], options: Dict[str, str], program: Program = None, built: Optional[str] = None,
    progress: Optional[Progress] = None, running: "Optional[set[subprocess.Popen[bytes]]]" = None,
) -> Passed:
    """Those of a run by the program of streams, over a file or a drawn trace. Its process stands in `running` while it runs."""
    draw = draw_asked(options)
    more = [word for name, value in options.items() for word in (f"--{name}", value)]
    words = [*command("stream", program), *more]
    with contextlib.ExitStack() as held:
        said = held.enter_context(tempfile.TemporaryFile())
        try:
            given = held.enter_context(open(trace or os.devnull, "rb"))
        except OSError as wrong:
            raise ReadFault(4, f"{trace}: {wrong.strerror}") from None
        process = held.enter_context(subprocess.Popen(words, stdin=given, stdout=subprocess.PIPE, stderr=said))
        held.callback(process.kill)
        assert process.stdout is not None  # (a pipe)
        if running is not None:
            running.add(process)
            held.callback(running.discard, process)
        fault, found = None, None
        built = built if _is_plain(trace) else None
        try:
            if built is None:
                found = in_python(_arrivals(trace, draw), process.stdout)
            else:
                found = _found(process, built, [*_source(trace, draw), "-"], given, trace, progress)
        except PcmError as wrong:
            fault, found = wrong, None
        # (a program whose rows nobody reads any more ends with a fault of writing)
        process.stdout.close()
        if process.wait() not in (0, 1) and (found is not None or process.returncode in (2, 3, 4, 6, 7)):
            said.seek(0)
            raise error_of(process.returncode, said.read(), ["stream", *more], trace)
        if fault is not None:
            raise fault
    if found is None:
        # (what the pass in C leaves to Python is run once more)
        return of_run(trace, options, program, None, progress, running)
    return Passed(found.found, "Python" if built is None else "C", found.without)


def _found(
    process: "subprocess.Popen[bytes]", built: str, words: List[str], given: BinaryIO, trace: Optional[str], progress: Optional[Progress],
) -> Optional[Counted]:
    """What the pass in C counts of a process's rows; None where it leaves them to Python."""
    with subprocess.Popen([built, *words], stdin=process.stdout, stdout=subprocess.PIPE, stderr=subprocess.PIPE) as counting:
        try:
            if process.stdout is not None:
                process.stdout.close()
            out, err = _waited(counting, given, trace, progress)
        finally:
            counting.kill()
    done = subprocess.CompletedProcess([], counting.returncode, out, err)
    return None if done.returncode == 3 else _counted(done)


def _waited(counting: "subprocess.Popen[bytes]", given: BinaryIO, trace: Optional[str], progress: Optional[Progress]) -> Tuple[bytes, bytes]:
    """What the pass in C prints; meanwhile it is told which part of the trace has been read."""
    size = os.path.getsize(trace) if trace else 0
    while True:
        try:
            return counting.communicate(timeout=0.5)
        except subprocess.TimeoutExpired:
            if progress is not None and size:
                share = os.lseek(given.fileno(), 0, os.SEEK_CUR) / size
                progress.tell(lambda: f"{100 * min(share, 1.0):.0f}% of {trace}")
            elif progress is not None:
                progress.tell(lambda: "counting")


def _is_plain(trace: Optional[str]) -> bool:
    """Whether a trace begins in the form that is read fast."""
    if trace is None:
        return True
    with open(trace, "rb") as file:
        return os.path.isfile(trace) and file.read(17) == b"tick,op,arg,data\n"


# Words.


def parser() -> Parser:
    """The words of the command."""
    words = Parser.of_runs("latencies")
    for name in ("trace", "tick-ns", "device"):
        words.add_argument(f"--{name}")
    words.add_argument("--python", action="store_true")
    return words


def main(words: Sequence[str]) -> int:
    """`python3 -m pcm latencies`; answers the status."""
    return answered("latencies", __doc__, words, _print)


def _print(words: Sequence[str]) -> int:
    sys.stdout.write(told(parser().parse_args(list(words))))
    return 0


def told(given: argparse.Namespace) -> str:
    """The table that is asked for."""
    made = [parsed_options(one) for one in given.options] or [{}]
    tick_ns = None
    if given.tick_ns is not None or given.device is not None:
        tick_ns = units_of(given.device, tick_ns=given.tick_ns).tick_ns
    watched = Progress(given.progress)
    with compiled(not given.python) as built:
        if given.run:
            passes = list(_ran(given, made, built, watched))
        else:
            if len(given.files) != 1 or len(made) > 1 or (given.trace is None) == (draw_asked(made[0]) is None):
                more = "with --trace TRACE (or --options '--input drawn ..'), or --run; --help tells more"
                raise UsageError(2, f"one file of rows is wanted {more}")
            passes = [(given.files[0], of_files(given.files[0], given.trace, draw_asked(made[0]), built))]
    watched.clear()
    unit = "ticks" if tick_ns is None else "ns"
    head = ["run", "kind", "rows", f"mean {unit}", *(f"{percent:g}%" for percent in QUANTILES), "most"]
    rows: List[List[object]] = []
    for name, passed in passes:
        for kind, one in passed.spreads().items():
            numbers = [one.mean, *one.quantiles, one.most]
            rows.append([name, kind, one.rows, *(_scaled(number, tick_ns) for number in numbers)])
    by = " and ".join(sorted({passed.by for _, passed in passes}))
    by += "" if tick_ns is None else f", a tick being {tick_ns:g} ns"
    without = "".join(_without(name if len(passes) > 1 else "", passed.without) for name, passed in passes)
    if given.csv and without:
        print(f"latencies: {without[2:]}", file=sys.stderr)
    by += without
    remark = "" if tick_ns is None or not given.run else other_times(given.device, given.tick_ns, made)
    return table(head, rows, given.csv) + ("" if given.csv else f"counted in {by}\n{remark}")


def _without(name: str, count: int) -> str:
    """How many rows of a run's trace have no outcome, where some have none."""
    of = f" ({name})" if name else ""
    return f"; {count:,} row{'s' * (count != 1)} of the trace{of} without an outcome" if count else ""


def _scaled(number: "int | float | None", tick_ns: Optional[float]) -> "int | float | None":
    """A number of ticks in nanoseconds, where it is told how many a tick is."""
    if number is None or tick_ns is None:
        return number
    ns = number * tick_ns
    return int(ns) if isinstance(number, int) and ns == int(ns) else float(ns)


def _ran(given: argparse.Namespace, made: List[Dict[str, str]], built: Optional[str], watched: Progress) -> Iterator[Tuple[str, Passed]]:
    """The passes over runs of the program."""
    if given.trace is not None or len(given.files) > 1:
        raise UsageError(2, "--run takes one trace, without --trace")
    for words, options in zip(names_of(given.options, made), made):
        trace = given.files[0] if given.files else None
        if (trace is None) == (draw_asked(options) is None):
            raise UsageError(2, "a trace is wanted, or --options '--input drawn ..' without one")
        yield words, of_run(trace, options, None, built, watched)
