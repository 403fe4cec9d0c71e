"""The definitions of the crates' specs/, and which others each of them speaks of.

A definition is what an .antt file of specs/ declares at its margin or in a `module _`, or a struct or an enum of src/, which definitions
name as `declared`. It speaks of what its text names: of its own file, or by an import."""
import functools
import re
import sys
import typing

sys.dont_write_bytecode = True
import crates

WORD = re.compile(r"[^\s(){}\[\],;:=]+")
DECLARED = re.compile(r"^( *)(?:abbrev |unfoldable )?(?:pub )?(?:record )?([^\s:(){}]+) (?:[:({].*|: .*)$")
OPENING = re.compile(r"^ *module _\b")
TYPE = re.compile(r"^(?:pub )?(?:struct|enum) (\w+)\b")


class Definition(typing.NamedTuple):
    """A definition, by the file that it stands in, its lines without those of comments, and its text with them."""

    crate: str
    file: str
    name: str
    lines: int
    text: str


class File(typing.NamedTuple):
    """A file of specs/: its definitions by their names, and what its imports bring in."""

    definitions: dict
    names: dict
    modules: dict


def code_lines(lines):
    return sum(not line.lstrip().startswith(("--", "//")) for line in lines)


def pieces(items):
    """The parts of a list in braces, split at its own commas alone."""
    depth, start = 0, 0
    for at, letter in enumerate(items):
        depth += {"{": 1, "}": -1}.get(letter, 0)
        if letter == "," and depth == 0:
            yield items[start:at].strip()
            start = at + 1
    if items[start:].strip():
        yield items[start:].strip()


def imported(path):
    """Each path that an import names, as its words."""
    before, brace, inside = path.partition(".{")
    if not brace:
        yield path.split(".")
        return
    for item in pieces(inside[:-1]):
        for words in imported(item):
            yield [*before.split("."), *words]


def split(text):
    """The definitions of a file's text: their names, and their texts with the comments above them."""
    comment, name, own, found = [], None, [], {}
    for line in text.split("\n"):
        declares = DECLARED.match(line) if re.match(r" {0,4}\S", line) else None
        margin = len(line) - len(line.lstrip())
        begins = declares and not line.lstrip().startswith(("--", "use ", "pub use ")) and (
            line.lstrip().startswith(("abbrev", "unfoldable", "pub record", "record")) or (margin == 0 and " : " in line)
        )
        if begins:
            name, own = declares.group(2), [*comment, line]
            found[name] = own
            comment = []
        elif line.lstrip().startswith("--") and (name is None or margin <= 2):
            comment.append(line)
        elif OPENING.match(line) or line.lstrip().startswith(("use ", "pub use ")):
            comment, name = [], None
        elif name is not None and line.strip():
            own += [*comment, line]
            comment = []
    return {name: "\n".join(own) for name, own in found.items()}


@functools.cache
def read(crate, module):
    """A file of a crate's specs/."""
    path = crates.named(crate).folder / "specs" / f"{module}.antt"
    if not path.is_file():
        return File({}, {}, {})
    text = path.read_text(encoding="utf-8")
    where = str(path.relative_to(crates.TOP))
    definitions = {
        name: Definition(crate, where, name, code_lines(own.split("\n")), own) for name, own in split(text).items()
    }
    names, modules = {}, {}
    for line in re.findall(r"^(?:pub )?use (Rattle\.\S.*)$", text, re.MULTILINE):
        path, _, alias = line.partition(" as ")
        for words in imported(path):
            words = words[1:]
            if alias:
                modules[alias] = words
            elif len(words) > 2:
                last, _, other = words[-1].partition(" as ")
                names[other or last] = [*words[:-1], last]
    return File(definitions, names, modules)


@functools.cache
def types(crate):
    """The structs and enums of a crate's src/, with the comments above them."""
    found = {}
    for file in crates.named(crate).files("src"):
        if file.suffix != ".rt":
            continue
        comment, name, own = [], None, []
        for line in file.read_text(encoding="utf-8").split("\n"):
            if line.startswith("///"):
                comment.append(line)
            elif begins := TYPE.match(line):
                name, own, comment = begins[1], [*comment, line], []
            elif name and line.strip():
                own.append(line)
            elif not line.startswith("#"):
                comment = []
            if name and (line.startswith("}") or line.rstrip().endswith(";") and own[-1] == line and "{" not in line):
                where = str(file.relative_to(crates.TOP))
                found[name] = Definition(crate, where, name, code_lines(own), "\n".join(own))
                name = None
    return found


def named(words):
    """The definition that a path names, if it is one of this repository's."""
    crate, part, *rest = words
    if crate not in crates.listed() or part != "specs" or not rest:
        return None
    if rest[0] == "declared":
        own = types(crate)
        return next((own[word] for word in reversed(rest) if word in own), None)
    file = read(crate, "/".join(rest[:-1]))
    if rest[-1] in file.definitions:
        return file.definitions[rest[-1]]
    # (what a file hands on)
    return named(file.names[rest[-1]]) if rest[-1] in file.names else None


@functools.cache
def spoken_of(one):
    """The definitions that one speaks of."""
    if not one.file.endswith(".antt"):
        return frozenset(it for word in re.findall(r"\w+", one.text) if (it := types(one.crate).get(word)) and it != one)
    file = read(one.crate, one.file.split("/specs/")[1].removesuffix(".antt"))
    found = set()
    for line in one.text.split("\n"):
        if line.lstrip().startswith("--"):
            continue
        for word in WORD.findall(line):
            module, dot, item = word.partition(".")
            if word in file.definitions:
                found.add(file.definitions[word])
            elif word in file.names:
                found.add(named(file.names[word]))
            elif dot and module in file.modules:
                found.add(named([*file.modules[module], item]))
    return frozenset(found - {None, one})


def find(crate, name):
    """The definition of this name in a crate, if it has one."""
    for file in crates.named(crate).files("specs"):
        if file.suffix == ".antt":
            module = str(file.relative_to(crates.named(crate).folder / "specs")).removesuffix(".antt")
            if name in read(crate, module).definitions:
                return read(crate, module).definitions[name]
    return types(crate).get(name)


@functools.cache
def unfolded(one):
    """A definition, and all that it and those speak of, sorted by their places."""
    found, waiting = set(), [one]
    while waiting:
        one = waiting.pop()
        if one not in found:
            found.add(one)
            waiting += spoken_of(one)
    return sorted(found)
