"""Two tables of results of one trace: whether each keeps the rules, and where they part.

usage: python3 -m pcm differ TRACE ONE OTHER [options]

TRACE is a trace, ONE and OTHER are files of results of it, as two simulators printed them; options are those of `./pcm check`. Both are
checked first, and a line says of each whether it keeps the rules, or which row breaks one. Then come how many rows differ in an outcome, its
tick or its data (places are not compared), the lowest of them, and the soonest, by the tick at which the difference shows: the lowest may differ since a later row was told otherwise sooner.
A fault of a file is told with the file's name. Statuses: 0 where no row differs, 1 where one does, and those of `./pcm check` from 2 on."""
import subprocess
import sys
from typing import List, NamedTuple, Sequence, Tuple

from .errors import TraceError, UsageError
from .program import Program, command
from .runs import Source, arrivals_of, fault_of, joined, opened
from .tables import answered
from .words import RESULTS


class Told(NamedTuple):
    """What a table says of a row: its outcome, the tick, and the digits of an answer."""

    word: str
    tick: int
    data: str

    def shows(self) -> float:
        """The tick at which it shows: never, where a write stays in the queue."""
        return float("inf") if self.word == "queued" else self.tick

    def words(self, digits: bool) -> str:
        """The same in words, with the first of an answer's digits or without them."""
        data = self.data if len(self.data) <= 32 else f"{self.data[:28]}.."
        return f"{self.word} {self.tick}" + f", data {data}" * (digits and bool(data))


class Parting(NamedTuple):
    """A row of which two tables say different things; `at` is the first byte in which their answers differ, where the words don't."""

    row: int
    asks: str
    one: Told
    other: Told

    def shows(self) -> float:
        """The tick at which the difference shows first."""
        return min(self.one.shows(), self.other.shows())

    def words(self) -> str:
        """The row, and what each says of it."""
        if self.one[:2] == self.other[:2]:
            at = next(it for it in range(len(self.one.data)) if self.one.data[it] != self.other.data[it]) // 2
            pair = (it.data[2 * at:2 * at + 2] for it in (self.one, self.other))
            return f"row {self.row}: {self.asks}; {self.one.word} {self.one.tick}, from byte {at} on {' beside '.join(pair)}"
        digits = self.one.data != self.other.data
        return f"row {self.row}: {self.asks}; {self.one.words(digits)} beside {self.other.words(digits)}"


def partings(trace: Source, one: Source, other: Source) -> List[Parting]:
    """The rows of which two tables of results of a trace say different things, in their order. Places may differ: they tell nothing of a
    module's answers. `TraceError` where a table isn't one of the trace."""
    arrivals, tables = arrivals_of(trace), [_told(it) for it in (one, other)]
    for source, table in zip((one, other), tables):
        if len(table) != len(arrivals):
            raise TraceError(3, f"{source.name}: {len(table)} rows of results, where the trace has {len(arrivals)}")
    found = []
    for number, (came, first, second) in enumerate(zip(arrivals, *tables), 1):
        if first != second:
            op = {"W": "write", "R": "read", "C": "cut"}[came.op]
            line = "" if came.line is None else f" of line {came.line}"
            found.append(Parting(number, f"{op}{line} at tick {came.tick}", first, second))
    return found


def _told(source: Source) -> List[Told]:
    """What a table says of each row."""
    _hold_header(source)
    found = []
    for number, line in enumerate(source.text.splitlines()[1:], 1):
        fields = line.split(",")
        if len(fields) != 7 or fields[0] != str(number) or not fields[4].isdecimal():
            raise TraceError(3, f"{source.name}: line {number + 1} isn't row {number} of results")
        found.append(Told(fields[3], int(fields[4]), fields[6].lower()))
    return found


def _hold_header(source: Source) -> None:
    """A table begins with the header of results."""
    if source.text.partition("\n")[0].rstrip("\r") != RESULTS:
        raise TraceError(3, f"{source.name}: its first line must be {RESULTS}")


def verdict(trace: Source, table: Source, options: Sequence[str], program: Program = None) -> str:
    """What `pcm check` says of a table: `ok`, or the first row that breaks a rule."""
    words = [*command("check", program), *options]
    done = subprocess.run(words, input=joined(trace, table), stdout=subprocess.PIPE, stderr=subprocess.PIPE, check=False)
    if done.returncode not in (0, 1):
        raise fault_of(done.returncode, done.stderr, ["check", *options], trace, table)
    return done.stdout.decode().strip()


def differ(trace: Source, one: Source, other: Source, options: Sequence[str], program: Program = None) -> Tuple[bool, str]:
    """Whether two tables differ, and the text that says so."""
    for it in (one, other):
        _hold_header(it)
    lines = [f"{it.name}: {_rules(verdict(trace, it, options, program))}" for it in (one, other)]
    found = partings(trace, one, other)
    if not found:
        return False, "\n".join([*lines, "no row differs (places are not compared)", ""])
    soonest = min(found, key=lambda it: (it.shows(), it.row))
    lines.append(f"{len(found)} row{'s' * (len(found) != 1)} differ{'s' * (len(found) == 1)}")
    lines += [f"lowest   {found[0].words()}", f"soonest  {soonest.words()}"]
    return True, "\n".join([*lines, ""])


def _rules(said: str) -> str:
    """A verdict in words."""
    return "keeps the rules" if said == "ok" else "breaks a rule: " + said


def main(words: Sequence[str]) -> int:
    """`python3 -m pcm differ`; answers the status."""
    return answered("differ", __doc__, words, _print)


def _print(words: Sequence[str]) -> int:
    names, options = _parsed(words)
    trace, one, other = (opened(kind, name) for kind, name in zip(("trace", "results", "results"), names))
    parts, text = differ(trace, one, other, options)
    sys.stdout.write(text)
    return int(parts)


def _parsed(words: Sequence[str]) -> Tuple[List[str], List[str]]:
    """The names of the three files, and the words of options."""
    names: List[str] = []
    options: List[str] = []
    rest = list(words)
    while rest:
        word = rest.pop(0)
        if not word.startswith("--"):
            names.append(word)
        else:
            options += [word] if "=" in word or not rest else [word, rest.pop(0)]
    if len(names) != 3:
        raise UsageError(2, "usage: python3 -m pcm differ TRACE ONE OTHER [options]  (--help tells more)")
    return names, options
