"""Why results of a trace break a rule: what the program says of them, and the row in time as a picture.

usage: python3 -m pcm explain FILE [RESULTS] [options] [--strict] [--all | -o PICTURE]

FILE has a trace with its results behind it, as `./pcm check` reads them, or the trace alone where RESULTS has its results; `-` is standard
input. Options are those of `./pcm explain`, whose text is printed. Where a row breaks a rule, -o (--output) names a file of SVG that shows
it among the rows of its bank: what it was told, and all answers that would be right. With --all stand behind check's line the explanations
of the first row of each bank that breaks a rule, and how many banks have one. Statuses are those of `./pcm explain`: 0 where the results
keep the rules, 1 where a row breaks one."""
import io
import os
import subprocess
import sys
from typing import Dict, Iterable, List, NamedTuple, Optional, Sequence, Tuple, Union

from .bankwise import counted, firsts
from .drawing import LIGHT, Picture
from .errors import PcmError, UsageError, WriteFault, error_of
from .explanation import Explanation, read_explanation
from .program import Program, command, words_of
from .rows import Row, write_trace
from .runs import DEFAULTS, Run, Source, arrivals_of, fault_of, joined, opened, parted, results_of
from .tables import answered
from .timeline import table_of, timeline
from .whole import ResultRow
from .words import RESULTS

Path = Union[str, "os.PathLike[str]"]


def explain(
    trace: Union[Iterable[Row], Path], results: Union[Iterable[ResultRow], Path, None] = None, /, *, program: Program = None, **options: object
) -> Optional[Explanation]:
    """Why results of a trace break a rule, by the first row that does; None where they keep all rules. The trace is rows, or the path of
    one; the results are rows, as `run` gives them, or the path of a file. A trace's file may have its results behind it, where none are
    given. Options are those of `pcm explain`, with `_` for `-`."""
    files = _files_of(trace, results)
    return read_explanation(said_of(_whole(files), words_of(options), program, files))


def explain_all(
    trace: Union[Iterable[Row], Path], results: Union[Iterable[ResultRow], Path, None] = None, /, *, program: Program = None, **options: object
) -> List[Explanation]:
    """Why the first row of each bank that breaks a rule does, in the order of banks, and behind them that of the first cut with another tick
    than its own; nothing where all rows keep all rules. These don't follow from one another; most further rows of a bank follow from its
    first. It takes what `explain` takes."""
    return _all_of(_files_of(trace, results), words_of(options), program)[1]


def _all_of(files: Sequence[Source], words: Sequence[str], program: Program) -> Tuple[str, List[Explanation]]:
    """What the program says of a whole table, in one file or in two, and of each bank that breaks a rule."""
    text = said_of(_whole(files), words, program, files)
    if read_explanation(text) is None:
        return text, []
    options = {name[2:]: value for name, value in zip(words[::2], words[1::2])}
    return text, firsts(_whole(files), options, lambda part: said_of(part, words, program), program)


def _whole(files: Sequence[Source]) -> bytes:
    """A trace with its results behind it, in one file or in two."""
    return files[0].data if len(files) == 1 else joined(*files)


def said_of(table: bytes, words: Sequence[str], program: Program = None, files: Sequence[Source] = ()) -> str:
    """What the program says of a trace with its results behind it, which may be those of one file or of two."""
    started = [*command("explain", program), *words]
    done = subprocess.run(started, input=table, stdout=subprocess.PIPE, stderr=subprocess.PIPE, check=False)
    if done.returncode not in (0, 1):
        raise _fault(done.returncode, done.stderr, ["explain", *words], files)
    return done.stdout.decode()


def _fault(status: int, said: bytes, words: Sequence[str], files: Sequence[Source]) -> PcmError:
    """The exception for what the program said: of files it has the line that is faulty, of two the name, too."""
    if any(it.kind == "rows" for it in files):
        return error_of(status, said, words)
    if len(files) == 2:
        return fault_of(status, said, words, *files)
    return error_of(status, said, words, files[0].name if files else None)


def drawn(told: Explanation, table: Source, options: Dict[str, str]) -> Picture:
    """The picture of an explanation of a trace with its results behind it."""
    trace, results = parted(table)
    run = Run(table.name, {**DEFAULTS, **options}, {}, [], results_of(results), arrivals_of(trace))
    return picture_of(told, run)


def picture_of(told: Explanation, run: Run, colours: Dict[str, str] = LIGHT) -> Picture:
    """The picture of an explanation of a run's results."""
    return timeline(told, table_of(run.arrivals or [], run.rows), run.bank_of_line, colours)


def _files_of(trace: Union[Iterable[Row], Path], results: Union[Iterable[ResultRow], Path, None]) -> List[Source]:
    return [_trace_of(trace)] if results is None else [_trace_of(trace), _results_of(results)]


def _trace_of(trace: Union[Iterable[Row], Path]) -> Source:
    if isinstance(trace, (str, os.PathLike)):
        return opened("trace", os.fspath(trace))
    text = io.StringIO()
    write_trace(trace, text)
    return Source("rows", "rows", text.getvalue().encode())


def _results_of(results: Union[Iterable[ResultRow], Path]) -> Source:
    if isinstance(results, (str, os.PathLike)):
        return opened("results", os.fspath(results))
    return Source("rows", "rows", "".join([f"{RESULTS}\n", *(row.text() for row in results)]).encode())


def main(words: Sequence[str]) -> int:
    """`python3 -m pcm explain`; answers the status."""
    return answered("explain", __doc__, words, _explain)


class Asked(NamedTuple):
    """What the command is asked for: the names of the one or two files, the options, the picture's name, whether all banks are told, and
    whether worn rows must be earned."""

    names: List[str]
    options: Dict[str, str]
    output: Optional[str]
    all_banks: bool
    strict: bool


def _explain(words: Sequence[str]) -> int:
    asked = _parsed(words)
    files = [opened(kind, name) for kind, name in zip(("trace", "results"), asked.names)]
    table = files[0]._replace(data=_whole(files))
    more = [*(word for name, value in asked.options.items() for word in (f"--{name}", value)), *(["--strict"] if asked.strict else [])]
    if asked.all_banks:
        text, found = _all_of(files, more, None)
        sys.stdout.write("".join([text.partition("\n")[0], "\n", *(it.text for it in found), counted(found, asked.options) if found else ""]))
        return 1 if found else 0
    text = said_of(table.data, more, files=files)
    sys.stdout.write(text)
    told = read_explanation(text)
    if told is not None and asked.output is not None:
        _write(asked.output, drawn(told, table, asked.options).drawn())
    return 0 if told is None else 1


def _write(name: str, text: str) -> None:
    try:
        with open(name, "w", encoding="utf-8") as file:
            file.write(text)
    except OSError as wrong:
        raise WriteFault(5, f"{name}: {wrong.strerror}") from None


def _parsed(words: Sequence[str]) -> Asked:
    """What words ask for."""
    asked = Asked([], {}, None, "--all" in words, "--strict" in words)
    rest = [word for word in words if word not in ("--all", "--strict")]
    while rest:
        word = rest.pop(0)
        name, equals, value = word.lstrip("-").partition("=")
        if word == "-" or not word.startswith("-"):
            asked.names.append(word)
            continue
        if not equals and not rest:
            raise UsageError(2, f"{word} wants a value")
        value = value if equals else rest.pop(0)
        if word.partition("=")[0] in ("-o", "--output"):
            asked = asked._replace(output=value)
        elif name in asked.options:
            raise UsageError(2, f"--{name} stands twice")
        else:
            asked.options[name] = value
    if len(asked.names) not in (1, 2):
        raise UsageError(2, "usage: python3 -m pcm explain FILE [RESULTS] [options] [--strict] [--all | -o PICTURE]  (--help tells more)")
    if asked.all_banks and asked.output is not None:
        raise UsageError(2, "-o draws one row: --all can't stand beside it")
    if asked.all_banks and asked.strict:
        raise UsageError(2, "--strict asks of whole tables: --all can't stand beside it")
    return asked
