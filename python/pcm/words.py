"""The program's commands and options, in one table, and what is wrong with words or a trace that the program refused.

The program itself says of faulty words only how it is used, and of a faulty trace which row and what kind of fault. `explain` says which
word it is and what it may be, or on which line of the file the row stands and what its field should be. The wrapper `pcm` calls it where
it speaks to a person, `pcm.errors` for its exceptions; the pages of help, the manual and the completions are checked against the table.

    python3 words.py explain LINE WORD ..   what is wrong, by the program's line and its words; the file that it read is standard input
    python3 words.py command WORD           that there is no such command, and which there are
"""
import difflib
import itertools
import os
import re
import sys
from typing import Dict, Iterable, List, NamedTuple, Optional, Sequence, Tuple

LATEST_TICK = 2**40


class Option(NamedTuple):
    """An option of a command: what stands for its value, its default, and what it may be: a number from `least` to `most`, a power of two
    where `power`, rising ones with commas between them where `listed`, or one of some words or numbers."""

    name: str
    value: str
    default: str
    about: str
    least: int = 0
    most: int = 0
    power: bool = False
    choices: Tuple[str, ...] = ()
    listed: bool = False

    @property
    def is_number(self) -> bool:
        """Whether any number in a range is a value."""
        return not self.choices

    def range(self) -> str:
        """What a value may be, in words."""
        if self.choices:
            return either(self.choices)
        return f"{'a power of two, ' * self.power}{'rising numbers with commas between them, ' * self.listed}{self.least} to {self.most}"

    def takes(self, text: str) -> bool:
        """Whether the program takes this value."""
        if self.choices:
            return text in self.choices
        if self.listed:
            rising = [int(it) if re.fullmatch(r"[0-9]{1,20}", it) else -1 for it in text.split(",")]
            return self.least <= rising[0] and rising[-1] <= self.most and all(one < other for one, other in zip(rising, rising[1:]))
        if not re.fullmatch(r"[0-9]{1,20}", text):
            return False
        number = int(text)
        return self.least <= number <= self.most and not (self.power and number & (number - 1))


class Command(NamedTuple):
    """A command: what it does, what stands behind it on a command line, and its options in the order of its page."""

    name: str
    about: str
    usage: str
    options: Dict[str, Option]


class Sizes(NamedTuple):
    """The most banks of a module, regions of a bank, lines of a region, and lines of all."""

    banks: int
    regions: int
    lines: int
    all_lines: int


# Those of a module that every command takes; and those of one that streams take.
SMALL = Sizes(16, 16, 4096, 1 << 16)
LARGE = Sizes(64, 64, 1 << 26, 1 << 26)


def are_small(banks: int, regions: int, lines: int) -> bool:
    """Whether sizes are those of a module that every command takes."""
    return banks <= SMALL.banks and regions <= SMALL.regions and lines <= SMALL.lines and banks * regions * lines <= SMALL.all_lines


def either(words: Sequence[str]) -> str:
    """Words as a list in a sentence: `a, b or c`."""
    return " or ".join([", ".join(words[:-1]), words[-1]]) if len(words) > 1 else "".join(words)


def _number(name: str, value: str, default: int, least: int, most: int, about: str) -> Option:
    return Option(name, value, str(default), about, least, most)


def _power(name: str, value: str, default: int, least: int, most: int, about: str) -> Option:
    return Option(name, value, str(default), about, least, most, power=True)


def _choice(name: str, value: str, about: str, *choices: str) -> Option:
    return Option(name, value, choices[0], about, choices=choices)


def _few(name: str, value: str, default: int, most: int, about: str) -> Option:
    powers = tuple(str(1 << bit) for bit in range(most.bit_length()))
    return Option(name, value, str(default), about, choices=powers)


_RUN = [
    _few("banks", "A", 4, SMALL.banks, "banks of the module"),
    _few("regions", "B", 2, SMALL.regions, "regions of a bank"),
    _power("lines", "N", 64, 4, SMALL.lines, "lines of a region"),
    _choice("line", "BYTES", "bytes of a line", "64", "128"),
    _number("spares", "S", 8, 0, 1024, "spare array lines of a bank"),
    _number("seed", "X", 0, 0, 2**64 - 1, "draws keys, cells and drawn traces"),
    _number("write-queue", "W", 32, 1, 256, "writes that a bank's queue holds"),
    _number("read-queue", "R", 32, 1, 256, "reads that may wait at a bank"),
    _number("psi", "N", 100, 1, 65535, "stores of a region between two gap moves"),
    _choice("policy", "P", "what a waiting read does to a line write", "pause", "plain", "cancel"),
    _choice("registers", "H", "where a bank keeps its registers", "guarded", "array"),
    _number("read-ticks", "T", 5, 1, 255, "ticks of a sense"),
    _number("iter-ticks", "T", 10, 1, 255, "ticks of a pulse and its sense"),
    _number("lo", "N", 100000000, 1, 4000000000, "fewest changes that a cell endures"),
    _number("hi", "N", 100000000, 1, 4000000000, "most changes that a cell endures"),
    _number("misses", "N", 0, 0, 7, "pulses that a cell may miss before a change"),
    _choice("input", "I", "where the trace comes from", "source", "drawn"),
    _choice("print", "P", "what is printed", "results", "summary", "wear", "image"),
]
_DRAWN = [
    _number("rows", "N", 1000, 1, 400000, "rows of the drawn trace"),
    _number("write-percent", "N", 50, 0, 100, "writes among 100 drawn rows"),
    _number("cuts", "N", 0, 0, 400000, "power cuts among the drawn rows"),
    _number("step", "N", 10, 0, 65535, "most ticks between drawn rows"),
    _number("hot", "N", 0, 0, SMALL.all_lines, "lines that nine of ten drawn rows go to"),
]
_STREAM = [
    _few("banks", "A", 4, LARGE.banks, "banks of the module"),
    _few("regions", "B", 2, LARGE.regions, "regions of a bank"),
    _power("lines", "N", 64, 4, LARGE.lines, "lines of a region"),
    _choice("print", "P", "what is printed", "rows", "summary", "wear", "image", "lines", "energy", "snapshots", "map"),
    _number("every", "N", 100000, 1, 4294967295, "rows between snapshots"),
    _choice("end", "E", "what becomes of the module behind the last row", "drain", "off"),
    _choice("until", "U", "up to where the rows are served", "end", "refused"),
    _choice("tell", "T", "what is told of the module before its rows", "nothing", "shape", "module"),
    _choice("skip", "K", "which array lines a report leaves out", "nothing", "unpulsed"),
    _number("rows", "N", 1000, 1, 4000000000, "rows of the drawn trace"),
    _number("cuts", "N", 0, 0, 4000000000, "power cuts among the drawn rows"),
    _number("hot", "N", 0, 0, LARGE.all_lines, "lines that nine of ten drawn rows go to"),
    _number("first-bank", "A", 0, 0, 63, "first bank whose drawn rows are served"),
    _number("last-bank", "B", 63, 0, 63, "last bank whose drawn rows are served"),
]
_DISK = [
    _power("sector", "BYTES", 4096, 64, 16384, "bytes of a sector that no power cut tears"),
    _number("cuts", "N", 0, 0, 1000000, "power cuts at drawn ticks"),
    _number("cut-every", "T", 10000, 1, 2**38, "ticks from a drawn cut to the next, about"),
    _number("cut-seed", "X", 1, 0, 2**64 - 1, "draws the ticks of cuts"),
    Option("cut-ticks", "T,T,..", "", "ticks of power cuts", 1, LATEST_TICK, listed=True),
    _choice("on-cut", "O", "what becomes of a request that a cut ends", "drop", "ride"),
]
_FROM = _number("from", "T", 0, 0, 16781312, "gap moves that were made before")


def _named(options: Sequence[Option]) -> Dict[str, Option]:
    return {it.name: it for it in options}


def _those(*names: str) -> Dict[str, Option]:
    return {name: it for name, it in _named([*_RUN, *_DRAWN]).items() if name in names}


_SIZES = ("banks", "regions", "lines")
_CHECKED = ("write-queue", "read-queue", "read-ticks", "iter-ticks", "policy", "registers")
_MODULE = {it.name: _named(_STREAM).get(it.name, it) for it in _RUN if it.name not in ("input", "print")}
_CHECK = _those(*_SIZES, "line", "spares", "seed", *_CHECKED)
COMMANDS = {
    it.name: it
    for it in (
        Command("run", "replays a trace", "< TRACE", _named([*_RUN, *_DRAWN])),
        Command("gen", "prints a drawn trace", "> TRACE", _those(*_SIZES, "line", "seed", *(it.name for it in _DRAWN))),
        Command("map", "prints where each line stands", "", {**_those(*_SIZES, "spares", "registers", "seed"), "from": _FROM}),
        Command("moves", "prints the gap moves of a region", "", _named([_power("lines", "N", 64, 4, 256, "lines of the region"), _FROM])),
        Command("show", "prints the newest bytes of a saved module", "< IMAGE", {}),
        Command("check", "checks results behind their trace", "< TRACE-AND-RESULTS", _CHECK),
        Command("stream", "replays a trace as it comes", "< TRACE", {**_named([*_RUN, *_DRAWN]), **_named(_STREAM)}),
        Command("explain", "checks results, and explains what breaks a rule", "< TRACE-AND-RESULTS", _CHECK),
        Command("view", "prints the newest bytes of a saved large module", "< IMAGE", {}),
        Command("disk", "serves a module as a disk, to one client", "", {**_MODULE, **_named(_DISK)}),
    )
}
# Those that are programs of their own, beside the one that has the others.
ALONE = ("stream", "explain", "view", "disk")
# What stands behind a command without a value: the wrapper takes all but those that the program itself does.
FLAGS = {
    **dict.fromkeys(("run", "stream"), {"progress": "tells how far it is"}),
    "explain": {"all": "explains the first row of each bank that breaks a rule", "strict": "asks that each worn row is earned"},
}
OWN_FLAGS = {"explain": ("strict",)}
# What the wrapper answers by itself.
WRAPPERS = {
    "help": "prints this help", "version": "prints the version", "path": "prints where the built program is",
    "parts": "replays a trace as a stream does, on several processors",
}


# Words.


def near(word: str, words: Sequence[str]) -> str:
    """`(did you mean X?)` where one of the words is near, else nothing."""
    found = difflib.get_close_matches(word.lower(), list(words), 1, 0.65) if word.strip("-") else []
    return f" (did you mean {found[0]}?)" if found else ""


def no_command(word: str) -> str:
    """What to say of a word that stands where a command should."""
    known = [*COMMANDS, *WRAPPERS]
    if word.startswith("-"):
        if word in ("--version", "-V", "-v"):
            return f"{word} isn't a command: pcm version prints the version"
        if word.partition("=")[0][2:] in COMMANDS["stream"].options:
            return f"{word} stands where the command should: the command comes first, as in pcm run {word} .."
        return f"{word} stands where the command should: {either(list(COMMANDS))}"
    if os.path.exists(word):
        return f"{word} is a file: a trace comes on standard input, as in pcm run < {word}"
    return f"there is no command {word}" + (near(word, known) or f": there are {', '.join(COMMANDS)}")


def _no_option(command: Command, word: str) -> str:
    """What to say of a word that stands where an option should."""
    name = word.partition("=")[0].lstrip("-")
    flags = FLAGS.get(command.name, {})
    marked = [f"--{it}" for it in (*command.options, *flags)]
    if not word.startswith("-"):
        if os.path.exists(word):
            return f"{word} is a file: what {command.name} reads comes on standard input, as in pcm {command.name} < {word}"
        return f"{word} belongs to no option: each word is --OPTION or the value behind one" + near(f"--{word}", marked)
    if not marked:
        return f"{word}: {command.name} has no options"
    if word.startswith("--") and name in flags:
        return f"{word}: --{name} has no value"
    if name in command.options or name in flags:
        return f"{word}: an option is written with two dashes, --{name}"
    others = [it.name for it in COMMANDS.values() if name in it.options or name in FLAGS.get(it.name, {})]
    if word.startswith("--") and others:
        return f"--{name} is no option of {command.name}, but of {either(others)}"
    if not word.startswith("--") and len(name) == 1:
        alike = [it for it in marked if it[2] == name]
        return f"{word}: options are whole words with two dashes" + (f", as {either(alike)}" if alike else "")
    other = near(f"--{name.replace('_', '-')}", marked) or f" (pcm help {command.name} lists them)"
    return f"--{name} is no option of {command.name}{other}"


# What takes a module, or a drawn trace, that is too large for these commands.
_LARGER = {"run": "stream takes it", "gen": "stream --input drawn takes it", "map": "stream --print map takes it"}


def _larger(command: Command, given: Dict[str, str]) -> str:
    """Where a stream takes these values, that it does, else nothing."""
    value = {name: given.get(name, it.default) for name, it in COMMANDS["stream"].options.items()}
    is_taken = all(name in value and COMMANDS["stream"].options[name].takes(value[name]) for name in given)
    if command.name not in _LARGER or not is_taken or _together(COMMANDS["stream"], given):
        return ""
    return f" ({_LARGER[command.name]})"


def _bad_value(command: Command, option: Option, text: str) -> str:
    """What to say of a value that an option doesn't take."""
    said = f"--{option.name} {text}" if text else f"--{option.name} ''"
    larger = _larger(command, {option.name: text}) if re.fullmatch(r"[0-9]{1,20}", text) else ""
    if larger:
        return f"{said}: it may be {option.range()}{larger}"
    if option.choices:
        others = [it.name for it in COMMANDS.values() if option.name in it.options and text in it.options[option.name].choices]
        return f"{said}: it may be {option.range()}" + (f" ({text} is for {either(others)})" if others else near(text, option.choices))
    if option.listed:
        return f"{said}: it may be {option.range()}"
    if not re.fullmatch(r"[0-9]{1,20}", text):
        return f"{said}: it may be a number of decimal digits alone, {option.range()}"
    number = int(text)
    below = 1 << (number.bit_length() - 1) if number else 0
    if option.power and option.least < number < option.most:
        return f"{said}: it may be {option.range()}; nearest are {below} and {2 * below}"
    return f"{said}: it may be {option.range()}"


def _wrong_disk(value: Dict[str, str], given: Dict[str, str]) -> Optional[str]:
    """The same of a disk's own."""
    sector, line = int(value["sector"]), int(value["line"])
    lines = int(value["banks"]) * int(value["regions"]) * int(value["lines"])
    if sector < line:
        return f"--sector {sector} is below --line {line}"
    if lines <= 2 * (sector // line):
        return f"--sector {sector}: a module of {lines} lines has no room for one, another to write it to, and their map"
    if "cuts" in given and "cut-ticks" in given:
        return "--cuts draws the ticks of power cuts, and --cut-ticks names them: give one of the two"
    return None


def _together(command: Command, given: Dict[str, str]) -> Optional[str]:
    """What is wrong with values that are right each by itself."""
    value = {name: given.get(name, it.default) for name, it in command.options.items()}
    streams, large = command.name == "stream", command.name in ("stream", "disk")
    if "hi" in value and int(value["hi"]) < int(value["lo"]):
        default = [f"--{name} {value[name]} (its default)" if name not in given else f"--{name} {value[name]}" for name in ("hi", "lo")]
        return f"{default[0]} is below {default[1]}: give both, --lo not above --hi"
    if "banks" in value:
        banks, regions, lines = (int(value[name]) for name in _SIZES)
        most = (LARGE if large else SMALL).all_lines
        if banks * regions * lines > most:
            told = f"banks x regions x lines are {banks * regions * lines}: a module of {command.name} has at most {most} lines"
            return told + ("" if large else _larger(command, {name: value[name] for name in _SIZES}))
    if "sector" in value:
        return _wrong_disk(value, given)
    if "cuts" in value and int(value["cuts"]) > int(value["rows"]):
        return f"--cuts {value['cuts']} are more than --rows {value['rows']}"
    if streams and int(value["rows"]) * int(value["step"]) > LATEST_TICK:
        return f"--rows times --step is {int(value['rows']) * int(value['step'])}: it may be at most {LATEST_TICK}"
    some = [name for name in ("first-bank", "last-bank") if streams and name in given]
    if some and (value["input"] != "drawn" or value["end"] != "drain"):
        return f"--{some[0]} belongs to --input drawn and --end drain alone"
    if some and int(value["last-bank"]) < int(value["first-bank"]):
        return f"--first-bank {value['first-bank']} is above --last-bank {value['last-bank']}"
    if some and int(value["banks"]) <= int(value["first-bank"]):
        return f"--first-bank {value['first-bank']}: the module has {value['banks']} bank{'s' * (value['banks'] != '1')}, from 0 on"
    if streams and "every" in given and value["print"] != "snapshots":
        return "--every belongs to --print snapshots alone"
    if streams and "tell" in given and value["print"] != "rows":
        return "--tell belongs to --print rows alone"
    if streams and "skip" in given and value["print"] not in ("wear", "lines"):
        return "--skip belongs to --print wear or lines alone"
    return None


def wrong_word(words: Sequence[str]) -> Optional[str]:
    """The first thing that is wrong with words, the command first; None where nothing is found."""
    if not words:
        return f"no command: give one of {', '.join(COMMANDS)}"
    if words[0] not in COMMANDS:
        return no_command(words[0])
    command, given, at = COMMANDS[words[0]], {}, 1
    while at < len(words):
        word = words[at]
        name, sign, text = word[2:].partition("=")
        is_flag = word.startswith("--") and not sign and name in OWN_FLAGS.get(command.name, ())
        if not is_flag and (not word.startswith("--") or name not in command.options):
            return _no_option(command, word)
        if name in given:
            return f"--{name} stands twice"
        at += 1
        if is_flag:
            given[name] = ""
            continue
        if not sign:
            if at == len(words) or words[at].startswith("--"):
                return f"--{name} lacks its value: it may be {command.options[name].range()}"
            text = words[at]
            at += 1
        if not command.options[name].takes(text):
            return _bad_value(command, command.options[name], text)
        given[name] = text
    return _together(command, given)


# Traces.

HEADER = ["tick", "op", "arg", "data"]
# The rows of streams alone, which have no number: the module settles.
SETTLING = {"S": "a settle", "Q": "a query", "U": "a settle until", "L": "a look", "P": "a peek"}
# The first line of results.
RESULTS = "row,op,line,outcome,tick,place,data"
# The same of a stream.
TOLD = "row,outcome,tick,place,data"
# A module of so many lines has numbers of at most five digits, a larger one of at most eight.
FIVE_DIGITS = 100_000
# An explanation looks at no more rows than this: nobody waits for it. Rows before the faulty one are passed over in pieces of so many bytes.
MOST_ROWS, _PASSED = 5_000_000, 1 << 20


def _records(path: str, at: int = 0, line: int = 1):
    """The records of a text as the program reads them, from the byte at which this line begins, each with the number of its first line."""
    import csv

    csv.field_size_limit(2**31 - 1)
    with open(path, encoding="latin-1", newline="") as text:
        text.seek(at)
        if at or text.read(3) != "\xef\xbb\xbf":
            text.seek(at)
        reader, begins = csv.reader(text), line
        for record in reader:
            if record:
                yield begins, record
            begins = reader.line_num + line


def _before(path: str, row: int, streams: bool) -> Tuple[int, int, int]:
    """A byte of a trace at which a line begins, the line's number and that of the next row: at least a row before this one, and not far before
    it where lines are rows up to there, without quotes."""
    at, line, number = 0, 1, 0
    with open(path, "rb") as file:
        while piece := file.read(_PASSED):
            piece = piece[:piece.rfind(b"\n") + 1]
            lines = piece.count(b"\n")
            rows = lines - sum(piece.count(b",%s," % op.encode()) for op in SETTLING if streams)
            if not lines or number + rows >= row or piece[0] == 10 or any(it in piece for it in (b'"', b"\r", b"\n\n")):
                break
            at, line, number = at + len(piece), line + lines, number + rows
            file.seek(at)
    return at, line, number


def _shape_of(words: Sequence[str]) -> Tuple[int, int, bool]:
    """The lines of the module, the bytes of a line, and whether rows come in a stream, by the words."""
    command = COMMANDS.get(words[0] if words else "", COMMANDS["run"])
    value = {name: it.default for name, it in COMMANDS["stream"].options.items()}
    rest = list(words[1:])
    while rest:
        name, sign, text = rest.pop(0)[2:].partition("=")
        value[name] = text if sign or not rest else rest.pop(0)
    return int(value["banks"]) * int(value["regions"]) * int(value["lines"]), int(value["line"]), command.name == "stream"


def _shown(text: str) -> str:
    """Bytes of a field, short enough for a sentence."""
    clean = "".join(it if it.isprintable() else f"\\x{ord(it):02x}" for it in text[:40])
    return f"'{clean}'" + ".." * (len(text) > 40)


def _wrong_payload(op: str, data: str, size: int) -> str:
    if op not in ("W", "M"):
        return f"the fourth field of {op} must be empty, and is {_shown(data)}"
    kind = "hexadecimal digits" if op == "W" else "characters, two hexadecimal digits or .. for a byte"
    if len(data) != 2 * size:
        return f"the fourth field must have {2 * size} {kind}, for lines of {size} bytes, and has {len(data)}"
    if op == "M" and not data.strip("."):
        return "the fourth field of M gives no byte"
    for at in range(0, len(data), 2 if op == "M" else 1):
        piece = data[at : at + 2] if op == "M" else data[at]
        if not re.fullmatch(r"[0-9a-fA-F]+" + r"|\.\." * (op == "M"), piece):
            return f"the fourth field has {_shown(piece)} behind {at} characters, where it must be {kind}"
    return "the fourth field isn't the row's bytes"


def _wrong_row_before(text: str, number: int) -> str:
    """What is wrong with a field that should name one of the rows before the one with this number."""
    known = f"a row that came before, 1 to {number - 1}" if number > 1 else "a row that came before, and none did"
    return f"the third field of U must be the number of {known}, and is {_shown(text)}"


def _wrong_field(
    record: Sequence[str], last: Tuple[int, Optional[int]], shape: Tuple[int, int, bool], number: int
) -> Optional[Tuple[str, str]]:
    """The kind of a row's first fault and what is wrong with its field, None where it has none; `last` is the tick before, and the line of its
    row, where that stands in a file; `number` the row's own, or that of the next one."""
    lines, size, streams = shape
    if ",".join(record[3:]).endswith(RESULTS):
        return "fields", "the header of results stands in it: the trace's last line must be ended before them"
    if len(record) != 4:
        return "fields", f"it has {len(record)} field{'s' * (len(record) != 1)}, and must have four: {','.join(HEADER)}"
    tick, op, arg, data = record
    if not re.fullmatch(r"[0-9]{1,13}", tick) or int(tick) > LATEST_TICK:
        return "tick", f"the first field must be a tick, 0 to {LATEST_TICK} in digits, and is {_shown(tick)}"
    if int(tick) < last[0]:
        told = f"the tick of the row before (line {last[1]})" if last[1] else "at which the module stands" if streams else "the tick of the row before"
        return "order", f"its tick {int(tick)} is below {last[0]}, {told}"
    ops = ["R", "W", "M", "C", *[*SETTLING] * streams]
    if op not in ops:
        why = f" ({op}, {SETTLING[op]}, is a stream's alone)" if op in SETTLING else ""
        return "op", f"the second field must be {either(ops)}, and is {_shown(op)}{why}"
    if op == "U" and arg and not (re.fullmatch(r"[0-9]{1,10}", arg) and 1 <= int(arg) < number):
        return "line", _wrong_row_before(arg, number)
    if op == "C" or (op in SETTLING and op != "P"):
        if arg and op != "U":
            return "line", f"the third field of {op} must be empty, and is {_shown(arg)}"
        return ("payload", _wrong_payload(op, data, size)) if data else None
    digits = 8 if lines > FIVE_DIGITS else 5
    if not re.fullmatch(rf"[0-9]{{1,{digits}}}", arg) or int(arg) >= lines:
        product = "a module has at most" if lines == LARGE.all_lines else "banks x regions x lines are"
        named = f"0 to {lines - 1} ({product} {lines}) in at most {digits} digits"
        return "line", f"the third field must be a line, {named}, and is {_shown(arg)}"
    pattern = {"R": "", "P": "", "W": f"[0-9a-fA-F]{{{2 * size}}}", "M": rf"(?!\.*$)(?:[0-9a-fA-F]{{2}}|\.\.){{{size}}}"}[op]
    return None if re.fullmatch(pattern, data) else ("payload", _wrong_payload(op, data, size))


def fault_kind(record: Sequence[str], before: int, shape: Tuple[int, int, bool], number: int) -> Optional[str]:
    """The kind of the first fault of a record behind a row of this tick, None where it has none, by the lines of the module, the bytes of a
    line, whether rows come in a stream, and the row's number, or that of the next one."""
    found = _wrong_field(record, (before, None), shape, number)
    return found[0] if found else None


def _faulty_row(path: str, row: int, kind: str, words: Sequence[str]) -> Optional[str]:
    """Where a faulty row stands in its file, and what is wrong there."""
    shape, last, until = _shape_of(words), (0, 1), (0, 1)
    below: List[str] = []
    at, line, number = _before(path, row, shape[2])
    for count, (begins, record) in enumerate(_records(path, at, line)):
        if number == 0:
            if row == 0:
                told = "results stand here, without their trace" if ",".join(record) == RESULTS else f"it is {_shown(','.join(record))}"
                return f"line {begins}: a trace begins with {','.join(HEADER)}, and {told}"
            number = 1
            continue
        # (the program took those before it)
        found = _wrong_field(record, last, shape, number) if number >= row or len(record) != 4 else None
        if kind == "order" and number == row and not found and int(record[0]) < until[0]:
            below.append(f"line {begins}: its tick {int(record[0])} is below the one that the settle until of line {until[1]} reached")
        if found or number > row or count > MOST_ROWS:
            if not found or number != row or found[0] != kind or below:
                break
            told = found[1]
            if kind == "fields" and len(record) == 7 and words[:1] in (["check"], ["explain"]):
                told += f"; results begin behind a line that is exactly {RESULTS}, ended by LF, not CRLF"
            return f"line {begins}: {told}"
        number += not (shape[2] and record[1] in SETTLING)
        # (which tick a settle until reached isn't known here: one up to its own)
        if record[1] == "U":
            until = int(record[0]), begins
        else:
            last, until = (int(record[0]), begins), (0, begins)
    if row == 0 and number == 0:
        return "the file is empty: a trace begins with " + ",".join(HEADER)
    return below[0] if len(below) == 1 else None


class Handed(NamedTuple):
    """A row that was handed to a module: its number, of one that settles that of the next one; the tick at which the module stood before;
    and its text."""

    number: int
    before: int
    text: str


def wrong_handed(words: Sequence[str], line: str, rows: Iterable[Handed]) -> Optional[str]:
    """What is wrong with one of these rows, by the words of the program that it was handed to, and that one's line of it."""
    found = re.fullmatch(r"trace row (\d+): (\w+)", line)
    if found is None:
        return None
    number, kind = int(found[1]), found[2]
    for row in rows:
        told = wrong_row(row, _shape_of(words)) if row.number == number else None
        if told and told[0] == kind:
            return told[1]
    return None


def wrong_row(row: Handed, shape: Tuple[int, int, bool]) -> Optional[Tuple[str, str]]:
    """The kind of a row's first fault and what is wrong there, None where it has none, by the lines of the module (the most that there may be, where
    they aren't known), the bytes of a line, and whether rows come in a stream."""
    record = row.text.rstrip("\n").split(",")
    told = _wrong_field(record, (row.before, None), shape, row.number)
    if told is None:
        return None
    settles = SETTLING.get(record[1]) if shape[2] and len(record) == 4 else None
    return told[0], (f"{settles} before row {row.number}" if settles else f"row {row.number}") + f": {told[1]}"


# The outcomes of each operation, and which of them have a place and bytes.
OUTCOMES = {"R": ("read", "forwarded", "busy", "lost"), "W": ("stored", "merged", "queued", "full", "worn"), "C": ("cut",)}
ASKS = {"R": "a read", "W": "a write", "M": "a masked write", "C": "a power cut"}
PLACED, ANSWERED = ("stored", "read"), ("read", "forwarded")
LAST_PLACE = 98831


def _wrong_result(fields: Sequence[str], row: int, asked: Sequence[str], size: int) -> Optional[str]:
    """The first field of a row of results that can't stand there, and what could, where its trace's row is known."""
    number, op, line, word, tick, place, data = fields
    wanted = {"M": "W"}.get(asked[1], asked[1])
    if number != str(row):
        return f"the first field must be {row}, the row's number, and is {_shown(number)}"
    if op != wanted:
        return f"the second field must be {wanted}, as in the trace, and is {_shown(op)}"
    named = str(int(asked[2])) if asked[2] else ""
    if line != named:
        return f"the third field must be {named or 'empty'}, as in the trace, and is {_shown(line)}"
    if word not in OUTCOMES[wanted]:
        others = [f" ({word} is of {it})" for it in OUTCOMES if word in OUTCOMES[it]]
        return f"the fourth field of {wanted} may be {either(OUTCOMES[wanted])}{others[0] if others else near(word, OUTCOMES[wanted])}"
    if not re.fullmatch(r"0|[1-9][0-9]{0,14}", tick):
        return f"the fifth field must be a tick of at most 15 digits, without a zero in front, and is {_shown(tick)}"
    if word not in PLACED and place:
        return f"the sixth field of {word} must be empty, and is {_shown(place)}"
    if word in PLACED and not (re.fullmatch(r"0|[1-9][0-9]{0,4}", place) and int(place) <= LAST_PLACE):
        return f"the sixth field of {word} must be an array line, 0 to {LAST_PLACE}, and is {_shown(place)}"
    if word not in ANSWERED and data:
        return f"the seventh field of {word} must be empty, and is {_shown(data)}"
    if word in ANSWERED and not re.fullmatch(f"[0-9a-f]{{{2 * size}}}", data):
        told = f"{_shown(data)} with {len(data)} characters"
        return f"the seventh field of {word} must be {2 * size} lower-case hexadecimal digits, and is {told}"
    return None


def _asked_at(path: str, row: int) -> Optional[List[str]]:
    """The fields of a row of the trace before results, or the header of these where the trace has no such row."""
    for number, (_, record) in enumerate(_records(path)):
        if number == row:
            known = len(record) == 4 and record[1] in ("R", "W", "M", "C") and re.fullmatch("[0-9]*", record[2])
            return record if known or ",".join(record) == RESULTS else None
    return None


def _unanswered(path: str, row: int) -> str:
    """What the first row of the trace asks for that has no row of results, and how many have none behind it."""
    rows = itertools.takewhile(lambda record: ",".join(record) != RESULTS, (record for _, record in _records(path)))
    lacking = list(itertools.islice(rows, row, None))
    if not lacking or len(lacking[0]) != 4 or lacking[0][1] not in ASKS:
        return "a row of the trace lacks its own"
    tick, op, line, _ = lacking[0]
    more = len(lacking) - 1
    behind = f", nor {'has the row' if more == 1 else f'have the {more:,} rows'} behind it" if more else ""
    return f"row {row} of the trace, {ASKS[op]}{f' of line {line}' if line else ''} at tick {tick}, has no answer{behind}"


def _faulty_result(path: str, row: int, words: Sequence[str]) -> Optional[str]:
    """Where a row stands that isn't one of results, and which of its fields can't stand there."""
    wanted = row
    with open(path, encoding="latin-1", newline="\n") as text:
        begins, line = 0, ""
        for begins, line in enumerate(text, 1):
            if line.rstrip("\n") == RESULTS:
                break
        else:
            return f"no line is exactly {RESULTS}"
        for begins, line in enumerate(text, begins + 1):
            row -= 1
            if row == 0:
                break
    if row > 0:
        return f"the results end with line {begins}: {_unanswered(path, wanted)}"
    line, ended = line.rstrip("\n"), line.endswith("\n")
    if line.endswith("\r"):
        return f"line {begins}: it ends with CRLF, and must end with LF"
    fields = line.split(",")
    if len(fields) != 7:
        return f"line {begins}: it has {len(fields)} field{'s' * (len(fields) != 1)}, and must have seven: {RESULTS}"
    asked = _asked_at(path, wanted)
    if asked is not None and asked[0] == "row":
        return f"line {begins}: it follows the results of the trace's last row"
    found = None if asked is None else _wrong_result(fields, wanted, asked, _shape_of(words)[1])
    if found:
        return f"line {begins}: {found}"
    return f"line {begins}: {_shown(line)} isn't a row that run prints" + ("" if ended else ": its line isn't ended")


# How an image begins, by the command that reads it.
_MAGIC = {
    "show": "show reads images that begin with PCMIMG01, with nothing in front: that of a module that run doesn't take is for view",
    "view": "view reads images that begin with PCMIMG02, with nothing in front: that of a module that run takes is for show",
}
_IMAGE = {
    "size": "the bytes of a line must be 64 or 128", "shape": "a size of the module is out of its range",
    "bank": "what a bank keeps is out of its range", "entry": "a write of a queue isn't one", "short": "the image ends here, in a field",
    "extra": "bytes follow the image's last field",
    "line": "array lines stand in order, each once, with a cell that is 1, and behind them 4294967295",
}


def wrong_text(words: Sequence[str], line: str, path: Optional[str]) -> Optional[str]:
    """What is wrong with a trace, results or an image, by the program's line of them and the file that it read."""
    if found := re.fullmatch(r"image byte \d+: (\w+)", line):
        return _MAGIC.get(words[0] if words else "") if found[1] == "magic" else _IMAGE.get(found[1])
    if line == "trace too long":
        if words[:1] == ["show"]:
            return "show reads images of at most 67,108,864 bytes: that of a module that run doesn't take is for view"
        bound = "run takes a trace of 400,000 rows and 64 MiB (128 MiB for lines of 128 bytes): stream has no such bound"
        return bound if words[:1] == ["run"] else None
    if path is None:
        return None
    try:
        if found := re.fullmatch(r"trace row (\d+): (\w+)", line):
            return _faulty_row(path, int(found[1]), found[2], words)
        if found := re.fullmatch(r"results row (\d+)", line):
            return _faulty_result(path, int(found[1]), words)
    except (OSError, ValueError):
        return None
    return None


def explain(words: Sequence[str], stderr: str, trace_path: Optional[str] = None) -> Optional[str]:
    """What is wrong with words, the command first (`stream` too), or with the file that the program read, by its line on standard error.
    One sentence without an end; None where nothing more can be said."""
    lines = stderr.strip().splitlines()
    line = lines[-1] if lines else ""
    if line.startswith("usage: "):
        return wrong_word(words)
    return wrong_text(words, line, trace_path)


def main(asked: Sequence[str]) -> int:
    """Answers the wrapper."""
    said: Optional[str] = None
    if asked[:1] == ["command"]:
        said = no_command(asked[1])
    elif asked[:1] == ["explain"]:
        regular = os.path.isfile("/dev/stdin")
        said = explain(asked[2:], asked[1], "/dev/stdin" if regular else None)
    if said:
        print(f"pcm: {said}", file=sys.stderr)
    return 0


if __name__ == "__main__":
    sys.exit(main(sys.argv[1:]))
