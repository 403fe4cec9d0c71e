"""One run on several processors: a trace is split by banks, a stream plays each part, and what they print is joined to what one prints.

usage: python3 -m pcm parts [TRACE] [--jobs N] [options] [options of ./pcm stream]      (or ./pcm parts ..)

It prints, byte for byte, what `./pcm stream` prints by its options over the same trace (a file, or standard input), or drawn by `--input
drawn`, and ends with its status. A module's banks share nothing but what all are told, so a part has the rows of the lines of some banks that
follow each other, all cuts, and all that settles.

  --jobs N         so many streams at a time (as many as this machine has processors)
  --parts P        in so many parts, at most one for each bank (as many as jobs; with --folder one for each bank)
  --order number   rows by their numbers, which a stream tells as they become known; lines of what settles aren't printed then
  --folder FOLDER  the parts stay there: the same call makes only what is missing there, after a failure, too, and prints all
  --split          with --folder: the trace is split, and no more
  --part K         with --folder: part K is played, unless it was, and no more; --split was called before
  --pieces N       with --folder: a file is split in so many pieces side by side (as many as jobs, of 64 MiB at least)
  --missing        with --folder: prints the parts that aren't played, with commas
  --python         the passes over rows in Python, also where there is a C compiler
  --progress       standard error tells how far it is, also where that isn't a terminal

With a folder whose trace was split `--folder FOLDER` is enough: it knows the rest. Without one the trace is split on its way to all parts
at once, and what they print is kept in a temporary folder (TMPDIR says where) until all is joined. Of a drawn trace nothing is split: each
part is drawn by itself. A trace may have more rows than one stream takes, as long as no part has.

Not in parts: --print snapshots (they are due by numbers of rows of the whole trace; a look, `tick,L,,`, is joined), --until refused (which
row is the first of all no part knows), --first-bank and --last-bank (parts are banks), and a settle until and a peek (`tick,U,ROW,`,
`tick,P,LINE,`), which are told at their row, before anything is printed.

A fault of the trace is told as a stream tells it, and nothing else is printed. Statuses are those of a stream; 5 also where another call is
at work at the folder, and 70 where a process was ended by a signal, or couldn't be started."""
import contextlib
import dataclasses
import functools
import os
import re
import signal
import sys
import tempfile
from dataclasses import dataclass
from typing import Callable, Dict, Iterator, List, Optional, Sequence

from .errors import UsageError, error_of
from .joining import join
from .parted import KEPT, PLACED, Asked, Broken, Folder, Split, trace_of
from .playing import NotPlain, Run, SplitFailed, passes, plain_passes, play_on_the_way, play_parts, split_to_files
from .program import command
from .progress import Progress
from .tables import answered
from .words import COMMANDS, LATEST_TICK, wrong_word

_VALUES = ("jobs", "parts", "order", "folder", "part", "pieces")
_FLAGS = ("split", "missing", "python", "progress")
# A piece of a trace that is split by itself has so many bytes at least.
_LEAST_PIECE = 1 << 26
# What isn't played in parts, and why.
_WHOLE = {
    ("print", "snapshots"): "snapshots are due by the numbers of rows of the whole trace, which no part knows; a look, tick,L,,, is joined",
    ("until", "refused"): "which row is the first that is refused of all no part knows",
}


@dataclass
class Given:
    """The words of a call: those of its own with a value and without one, the options of the stream, and the trace."""

    values: Dict[str, str]
    flags: List[str]
    options: Dict[str, str]
    trace: Optional[str]

    def number(self, name: str, least: int, most: int) -> Optional[int]:
        """The value of a word of its own that is a number."""
        text = self.values.get(name)
        if text is None:
            return None
        if not (text.isascii() and text.isdigit() and len(text) < 10 and least <= int(text) <= most):
            raise UsageError(2, f"--{name} {text}: it may be {least} to {most}")
        return int(text)


def read_words(words: Sequence[str]) -> Given:
    """The words, of which those of the stream are such that a stream takes them, and can be played in parts."""
    given = Given({}, [], {}, None)
    left, streams = list(words), []
    while left:
        word = left.pop(0)
        name, sign, value = word[2:].partition("=")
        if not word.startswith("--"):
            if given.trace is not None:
                raise UsageError(2, f"one trace is wanted, and {given.trace} and {word} are two")
            given.trace = word
        elif name in _FLAGS and not sign:
            given.flags.append(name)
        elif name in _VALUES:
            if name in given.values or not (sign or left):
                raise UsageError(2, f"--{name} {'stands twice' if name in given.values else 'lacks its value'}")
            given.values[name] = value if sign else left.pop(0)
        else:
            streams += [word] if sign or not left or left[0].startswith("--") else [word, left.pop(0)]
    pairs = [part for word in streams for part in (word.split("=", 1) if word.startswith("--") else [word])]
    given.options = {name[2:]: value for name, value in zip(pairs[::2], pairs[1::2])}
    wrong = _wrong_word(streams, given.options)
    if wrong:
        raise UsageError(2, wrong)
    _refuse(given)
    return given


def _wrong_word(words: Sequence[str], options: Dict[str, str]) -> Optional[str]:
    """What is wrong with the words of the stream: of all parts together more rows may be drawn than one stream takes."""
    of_rows, of_steps = (COMMANDS["stream"].options[name] for name in ("rows", "step"))
    rows, steps = options.get("rows", ""), options.get("step", of_steps.default)
    if options.get("input") != "drawn" or not re.fullmatch("[0-9]{10,13}", rows) or int(rows) <= of_rows.most or not of_steps.takes(steps):
        return wrong_word(["stream", *words])
    wrong = wrong_word(["stream", *_with("rows", str(of_rows.most), _with("step", "0", words))])
    if wrong is None and int(rows) * int(steps) > LATEST_TICK:
        return f"--rows times --step is {int(rows) * int(steps)}: it may be at most {LATEST_TICK}"
    return wrong


def _with(name: str, value: str, words: Sequence[str]) -> List[str]:
    """Words with another value of an option."""
    found = list(words)
    for at, word in enumerate(words):
        if word == f"--{name}" and at + 1 < len(words):
            found[at + 1] = value
        elif word.startswith(f"--{name}="):
            found[at] = f"--{name}={value}"
    return found


def _refuse(given: Given) -> None:
    """Says which words can't stand, or not beside each other."""
    for (name, value), why in _WHOLE.items():
        if given.options.get(name) == value:
            raise UsageError(2, f"--{name} {value} isn't played in parts: {why}")
    banks = [name for name in ("first-bank", "last-bank") if name in given.options]
    if banks:
        raise UsageError(2, f"--{banks[0]} isn't played in parts: the parts are of all banks; a stream serves some of them by itself")
    if given.values.get("order", "number") not in ("number", "stream"):
        raise UsageError(2, f"--order {given.values['order']}: it may be number or stream")
    if "order" in given.values and given.options.get("print", "rows") != "rows":
        raise UsageError(2, "--order belongs to --print rows alone")
    of_folder = [f"--{name}" for name in ("split", "part", "missing", "pieces") if name in given.flags or name in given.values]
    if of_folder and "folder" not in given.values:
        raise UsageError(2, f"{of_folder[0]} wants --folder")
    of_folder = [name for name in of_folder if name != "--pieces"]
    if len(of_folder) > 1:
        raise UsageError(2, f"{of_folder[0]} and {of_folder[1]} are two things to do")


def asked_by(given: Given, jobs: int) -> Asked:
    """What is asked for by words alone."""
    banks = int(given.options.get("banks", COMMANDS["stream"].options["banks"].default))
    parts = given.number("parts", 1, banks) or (banks if "folder" in given.values else min(banks, jobs))
    asked = Asked(given.options, parts, given.values.get("order") == "number")
    if asked.is_drawn:
        if given.trace is not None:
            raise UsageError(2, f"{given.trace}: with --input drawn no trace is read")
        return asked
    if given.trace is None or given.trace == "-":
        return asked
    path, size, changed = trace_of(given.trace)
    return dataclasses.replace(asked, trace=path, size=size, changed=changed)


def asked_in(folder: Folder, given: Given, jobs: int) -> Asked:
    """What is asked for of a folder: what it was made for, which words mustn't gainsay."""
    stands = folder.asked()
    asked = asked_by(given if given.options or not stands else dataclasses.replace(given, options=stands.options), jobs)
    if stands is None:
        folder.note_asked(asked)
        return asked
    if asked.options != stands.options or "parts" in given.values and asked.parts != stands.parts:
        raise UsageError(2, f"{folder.path} was made by other words: {_words_of(stands)}")
    if "order" in given.values and asked.by_number != stands.by_number:
        raise UsageError(2, f"{folder.path} was made by other words: {_words_of(stands)}")
    named = asked if asked.trace is not None else None
    if named is None and stands.trace is not None and os.path.exists(stands.trace):
        path, size, changed = trace_of(stands.trace)
        named = dataclasses.replace(stands, trace=path, size=size, changed=changed)
    if named is not None and (named.trace, named.size, named.changed) != (stands.trace, stands.size, stands.changed):
        raise UsageError(2, f"{folder.path} was made of another trace, or {named.trace} has changed since: name another folder")
    return stands


def _words_of(asked: Asked) -> str:
    words = [f"--{name} {value}" for name, value in asked.options.items()]
    return " ".join([*words, f"--parts {asked.parts}", *["--order number"] * asked.by_number])


# What is done.


class _Call:
    """A call: what it was asked, the processes that it may start, and how it tells how far it is."""

    def __init__(self, given: Given, held: contextlib.ExitStack) -> None:
        self.given = given
        self._held = held
        self.jobs = given.number("jobs", 1, 1024) or len(os.sched_getaffinity(0))
        self.progress = Progress(True if "progress" in given.flags else None)

    @functools.cached_property
    def passing(self) -> List[str]:
        """The words that start a pass. (Nobody waits for the compiler where none is made.)"""
        return self._held.enter_context(passes("python" not in self.given.flags))

    def run(self, folder: Folder, asked: Asked, plays: bool, splits: bool) -> Run:
        """A run in parts, whose program is built first where it plays and that isn't built, and its passes where there are some."""
        is_behind = asked.kind in (*PLACED, *KEPT)
        passing = self.passing if splits or is_behind or asked.is_drawn and not asked.draws_itself(True) else plain_passes()
        return Run(folder, asked, command("stream") if plays else [], passing, passing)

    @contextlib.contextmanager
    def source(self, asked: Asked) -> Iterator[int]:
        """What the splitter reads, from where it stands now on."""
        if asked.trace is None:
            yield 0
        else:
            with open(asked.trace, "rb", buffering=0) as file:
                yield file.fileno()

    def split_by(self, run: Run, work: "Callable[[Run, int], Split]") -> Split:
        """Does something with a splitter: in Python where the fast one doesn't take the trace, if that can be read again."""
        asked = run.asked
        with self.source(asked) as source:
            try:
                try:
                    return work(run, source)
                except NotPlain:
                    if not _is_file(source):
                        raise
                    os.lseek(source, 0, os.SEEK_SET)
                    return work(run._replace(splitter=plain_passes()), source)
            except SplitFailed as wrong:
                if wrong.line.startswith("trace row ") and wrong.line.count(" ") == 3:
                    raise error_of(3, wrong.line.encode(), ["stream", *asked.words()], asked.trace or _standard_input()) from None
                raise

    def tell_reading(self, source: int) -> Callable[[], None]:
        """Tells how much of the trace is read."""
        size = os.fstat(source).st_size if _is_file(source) else 0

        def tell() -> None:
            if self.progress.due:
                self.progress.time(os.lseek(source, 0, os.SEEK_CUR) / size if size else None)

        return tell

    def split(self, folder: Folder, asked: Asked) -> Split:
        """Splits the trace into a folder, unless it is there, or drawn."""
        def work(run: Run, source: int) -> Split:
            pieces = 1
            if _is_file(source) and os.lseek(source, 0, os.SEEK_CUR) == 0:
                pieces = self.given.number("pieces", 1, 64) or max(1, min(self.jobs, 64, os.fstat(source).st_size // _LEAST_PIECE))
            return split_to_files(run, source, self.tell_reading(source), pieces)

        split = folder.split()
        if split is None and asked.is_drawn:
            split = Split.drawn(asked)
            folder.note_split(split)
        return split or self.split_by(self.run(folder, asked, False, True), work)

    def play(self, folder: Folder, asked: Asked, split: Split, parts: Sequence[int], goes_on: bool = True) -> None:
        """Plays these parts."""
        for part in parts:
            if folder.sizes(part, len(split.sizes[part])) != split.sizes[part]:
                raise Broken(4, f"{folder.name('trace', part)} isn't as it was split: call without --part, with the trace, to split it again")
        whole = max(1, sum(sum(split.sizes[part]) for part in parts))

        def tell(done: int, read: int) -> None:
            share = "" if asked.is_drawn else f", {100 * read / whole:.0f}%"
            self.progress.tell(lambda: f"{done} of {len(parts)} parts played{share}")

        if parts:
            play_parts(self.run(folder, asked, True, False), split, parts, self.jobs, tell, goes_on)

    def play_at_once(self, folder: Folder, asked: Asked) -> Split:
        """Plays all parts as they are drawn, or while the trace is split."""
        if asked.is_drawn:
            split = Split.drawn(asked)
            self.play(folder, asked, split, range(asked.parts), False)
            return split
        return self.split_by(self.run(folder, asked, True, True), lambda run, source: play_on_the_way(run, source, self.tell_reading(source)))

    def join(self, folder: Folder, asked: Asked, split: Split) -> int:
        """Prints what all parts told; answers the status of one stream."""
        self.progress.clear()
        return join(folder, asked, split.rows, self.passing if asked.kind in (*PLACED, *KEPT) else [], sys.stdout.buffer)


def _is_file(fd: int) -> bool:
    try:
        os.lseek(fd, 0, os.SEEK_CUR)
        return True
    except OSError:
        return False


def _standard_input() -> Optional[str]:
    return "/dev/stdin" if os.path.isfile("/dev/stdin") else None


def _in_folder(call: _Call, path: str) -> int:
    """Works at a folder that is kept."""
    folder, given = Folder(path), call.given
    part = given.number("part", 0, 63)
    if part is not None or "missing" in given.flags:
        asked, split = folder.asked(), folder.was_split()
        if asked is None or split is None:
            raise Broken(4, f"{path}: no trace was split there")
        if "missing" in given.flags:
            print(",".join(map(str, folder.missing(asked.parts))))
            return 0
        if part is None or part >= asked.parts:
            raise UsageError(2, f"--part {part}: {path} has {asked.parts} parts, from 0 on")
        with folder.held(part):
            if folder.status(part) is None:
                call.play(folder, asked, split, [part])
        call.progress.clear()
        return 0
    folder.begin()
    with folder.held():
        asked = asked_in(folder, given, call.jobs)
        split = call.split(folder, asked)
        if "split" in given.flags:
            call.progress.clear()
            return 0
        call.play(folder, asked, split, folder.missing(asked.parts))
        return call.join(folder, asked, split)


def _in_passing(call: _Call) -> int:
    """Works at a folder that goes with the run."""
    asked = asked_by(call.given, call.jobs)
    with tempfile.TemporaryDirectory(prefix="pcm-parts.") as room:
        folder = Folder(room)
        split = call.play_at_once(folder, asked)
        return call.join(folder, asked, split)


def _work(words: Sequence[str]) -> int:
    given = read_words(words)
    with contextlib.ExitStack() as held:
        call = _Call(given, held)
        try:
            if "folder" in given.values:
                status = _in_folder(call, given.values["folder"])
            else:
                status = _in_passing(call)
        finally:
            call.progress.clear()
    return status


def main(words: Sequence[str]) -> int:
    """`python3 -m pcm parts`; answers the status."""
    # (what was started is ended, and what is temporary goes, also where a signal ends this)
    for it in (signal.SIGTERM, signal.SIGHUP):
        signal.signal(it, _interrupt)
    return answered("parts", __doc__, words, _work)


def _interrupt(number: int, frame: object) -> None:
    raise KeyboardInterrupt
