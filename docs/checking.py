"""What docs/check holds the documents to. Each part yields what it found: None where something is so, and else what isn't."""
import functools
import os
import pathlib
import re
import shutil
import subprocess
import sys
import tempfile

TOP = pathlib.Path(__file__).resolve().parent.parent
sys.path.insert(0, str(TOP / "tools"))
import bodies
import crates
import definitions
import pages

COMMANDS = ("README.md", "docs/USING.md", "docs/VERIFYING.md")
HEADER = b"tick,op,arg,data\n"
RESULTS = b"row,op,line,outcome,tick,place,data\n"
EXAMPLE = re.compile(r"Example: `((?:run|gen|map|moves|show|check|stream|explain)\b[^`]*)`")
# The programs of commands that have one alone, as the gate builds them; a program that is given may have the command.
ALONE = {it: TOP / "crates" / f"pcm_{it}" / "out" / f"pcm_{it}" for it in pages.table().ALONE}
WHOLE_LINE = re.compile(r"\b(?:[0-9a-f]{256}|[0-9a-f]{128})\b")
HELP_PAGES = ((), *((it,) for it in pages.table().COMMANDS))
# Words of documents that name nothing of this repository: units, commands and calls of the system, a type of std, and what DECISIONS.md
# says isn't there; and words that stand for names.
FOREIGN = {"MiB", "GiB", "renice", "parallel", "sbatch", "valgrind", "RulePolicy", "wear_report", "AllocError", "posix_spawnp"}
FOREIGN_OPTIONS = {"option", "progress", "sshlogin", "anew"}
PLACEHOLDER = re.compile(r"\b(NAME|TOOL|CRATE|PATH|LOG|PROGRAM|COMMAND|TABLE|FILE|WORD|SECTION|IMAGE|WHY|KIND|RULE|BYTES)\b")


def documents():
    """All pages of the repository, by their paths in it."""
    folders = [it for it in TOP.iterdir() if it.is_dir() and it.name not in (".git", "crates", "out")]
    found = [*TOP.glob("*.md"), TOP / "crates" / "README.md", *(page for folder in folders for page in folder.rglob("*.md"))]
    return {str(it.relative_to(TOP)): it.read_text(encoding="utf-8") for it in sorted(found)}


# The list of crates.


def list_of_crates():
    """The list of crates/README.md, a line for each layer."""
    layers = {}
    for crate in crates.listed().values():
        layers.setdefault(crate.layer, []).append(f"[{crate.name}]({crate.name})")
    names = {layer: re.match(r"(\d+\.) ([^(]*[^( ])", layer).groups() for layer in layers}
    return "\n".join(f"{number} **{name.capitalize()}**: {', '.join(layers[layer])}" for layer, (number, name) in names.items())


def edges_upwards():
    """The crates that stand on one of a higher layer, each with that one."""
    order = list(dict.fromkeys(crate.layer for crate in crates.listed().values()))
    for crate in crates.listed().values():
        for name in crate.libraries:
            below = crates.listed().get(name)
            if below and order.index(below.layer) > order.index(crate.layer):
                yield crate.name, name


def check_layers():
    yield from (f"crates.txt: {crate} stands on {name}, which is of a higher layer" for crate, name in edges_upwards())
    yield None


def misfits(crate):
    """The wrong bodies of a crate whose old text doesn't stand once in the file that they change."""
    for edit in bodies.bodies(crate):
        try:
            bodies.changed(crate, edit)
        except bodies.Misfit:
            yield f"{edit.parent.name}/{edit.name}"


def is_single(crate):
    """Whether each gate tries one wrong body of a crate alone, which it checks from nothing."""
    return len(bodies.bodies(crate, bodies.GATE)) == 1


def check_edits():
    """(`rt ci` passes over a wrong body that can't be made)"""
    for crate in crates.listed().values():
        if is_single(crate.folder):
            yield f"crates/{crate.name}/must-fail: a single wrong body costs a gate a whole check: it belongs into wrong/"
        yield from (f"crates/{crate.name}/{name}: what it changes doesn't stand once in its file" for name in misfits(crate.folder))
    yield None


def check_crates(writes):
    path = TOP / "crates" / "README.md"
    text = path.read_text(encoding="utf-8")
    wanted = re.sub(r"(?s)(<!-- crates -->\n).*(?=<!-- /crates -->)", lambda it: f"{it[1]}{list_of_crates()}\n", text)
    if writes:
        path.write_text(wanted, encoding="utf-8")
    yield None if wanted == text or writes else "crates/README.md isn't what crates.txt and the crates say: docs/check --write writes it"


# Commands that stand with what they print.


def shortened(text):
    """Lines in which the digits of a whole line stand as the first byte, two points and the last byte."""
    return [WHOLE_LINE.sub(lambda it: f"{it[0][:2]}..{it[0][-2:]}", line) for line in text.splitlines()]


def blocks(lines):
    """Yields each command that is run, where its output begins and ends among the lines, and what stands in front of each line of it. A command
    stands in a block of `sh` in front of a block of `text`, which is its output; or behind four blanks and '$ ' (see docs/check)."""
    at = 0
    while at < len(lines):
        if lines[at] == "```sh":
            end = lines.index("```", at)
            if lines[end + 1 : end + 2] == ["```text"]:
                yield "\n".join(lines[at + 1 : end]), end + 2, lines.index("```", end + 2), ""
            at = end + 1
            continue
        if not lines[at].startswith("    $ "):
            at += 1
            continue
        command = [lines[at][6:]]
        at += 1
        while at < len(lines) and lines[at].startswith("    > "):
            command.append(lines[at][6:])
            at += 1
        begin = at
        while at < len(lines) and lines[at].startswith("    ") and not lines[at].startswith("    $ "):
            at += 1
        yield "\n".join(command), begin, at, "    "


def matches(wanted, got):
    """Whether lines are the wanted ones, of which '...' stands for any."""
    if "..." not in wanted:
        return wanted == got
    cut = wanted.index("...")
    rest = wanted[cut + 1 :]
    return wanted[:cut] == got[:cut] and any(matches(rest, got[at:]) for at in range(cut, len(got) + 1))


def installed(tree, program):
    """Puts the wrapper and the programs into a folder as an installed tree has them; answers its folder in which commands run."""
    room = pathlib.Path(tree, "bin")
    for folder in (room, pathlib.Path(tree, "libexec", "pcm"), pathlib.Path(tree, "share", "pcm")):
        folder.mkdir(parents=True)
    shutil.copy(TOP / "pcm", room)
    links = {f"bin/{it}": TOP / it for it in ("examples", "python", "c")}
    links |= {"libexec/pcm/pcm_cli": program, **{f"libexec/pcm/{it.name}": it for it in ALONE.values()}}
    links |= {"share/pcm/python": TOP / "python", "share/pcm/docs": TOP / "docs", "share/pcm/VERSION": TOP / "VERSION"}
    for name, target in links.items():
        pathlib.Path(tree, name).symlink_to(target)
    return str(room)


def check_commands(program, writes):
    for document in COMMANDS:
        lines, changes = (TOP / document).read_text(encoding="utf-8").split("\n"), []
        with tempfile.TemporaryDirectory() as tree:
            room = installed(tree, program)
            around = {**os.environ, "PCM": f"{room}/pcm", "PYTHONDONTWRITEBYTECODE": "1"}
            for command, begin, end, margin in blocks(lines):
                how = {"cwd": room, "env": around, "stdin": subprocess.DEVNULL, "stdout": subprocess.PIPE, "stderr": subprocess.STDOUT}
                ran = subprocess.run(["bash", "-c", command], text=True, **how)
                wanted, got = [it[len(margin) :] for it in lines[begin:end]], shortened(ran.stdout)
                changes += [] if matches(wanted, got) else [(begin, end, [f"{margin}{it}".rstrip() for it in got])]
                well = matches(wanted, got) or writes
                yield None if well else f"{document}:{begin}: {command}\n  wanted {wanted}\n  got    {got[:40]}"
            for words in EXAMPLE.findall("\n".join(lines)):
                source = HEADER + RESULTS if words.startswith(("check", "explain")) else HEADER
                ran = subprocess.run(["bash", "-c", f"./pcm {words}"], cwd=room, input=source, capture_output=True)
                yield None if ran.returncode in (0, 1) else f"{document}: {words}: status {ran.returncode}"
        if writes and changes:
            for begin, end, got in reversed(changes):
                lines[begin:end] = got
            (TOP / document).write_text("\n".join(lines), encoding="utf-8")


def check_words(program):
    """The table of options in python/pcm/words.py: the manual, and what each program takes and refuses at the ends of each range."""
    for fault in pages.faults():
        yield fault
    with tempfile.TemporaryDirectory() as tree:
        pcm = f"{installed(tree, program)}/pcm"
        for name, command in pages.table().COMMANDS.items():
            if name in ALONE and not ALONE[name].exists():
                continue
            for option in command.options.values():
                for text in {*option.choices, *(str(it) for it in ends(option)), "nothing"}:
                    words = [name, f"--{option.name}", text, *beside(name, option.name, text)]
                    ran = subprocess.run([pcm, *words], input=HEADER, capture_output=True)
                    taken = ran.returncode != 2
                    well = taken == option.takes(text) and taken == (pages.table().wrong_word(words) is None)
                    yield None if well else f"{' '.join(words)}: status {ran.returncode}, and python/pcm/words.py says otherwise"


def ends(option):
    """The ends of an option's range and the numbers beyond; not the greatest size of a stream's module, which takes gigabytes."""
    return {option.least - 1, option.least, option.most, option.most + 1} - {pages.table().LARGE.all_lines}


def beside(command, option, text):
    """The words beside an option's value that let no other rule speak: sizes small, and rows at one tick."""
    if option in ("first-bank", "last-bank"):
        return ["--input", "drawn", "--banks", "64"]
    if option == "every":
        return ["--print", "snapshots"]
    if option == "skip":
        return ["--print", "wear"]
    if option == "lo" and text.isdigit():
        return ["--hi", "4000000000"]
    if option == "hi":
        return ["--lo", "1"]
    if command == "disk" and option == "sector":
        return ["--banks", "16"]
    if command == "disk" and option in ("banks", "regions", "lines"):
        return ["--sector", "64", *(["--lines", "4"] if option != "lines" else ["--banks", "1", "--regions", "1"])]
    if option == "cuts" and command != "disk":
        return ["--rows", "400000" if command != "stream" else "4000000000", "--step", "0"]
    if option == "rows":
        return ["--step", "0"]
    if option in ("banks", "regions"):
        return ["--lines", "4"]
    return ["--banks", "1", "--regions", "1"] if option == "lines" and command != "moves" else []


def check_help():
    for words in HELP_PAGES:
        page = subprocess.run([TOP / "pcm", "help", *words], capture_output=True)
        well = page.returncode == 0 and page.stdout.count(b"\n") > 3
        yield None if well else f"./pcm help {' '.join(words)}: no text"
    pages = [subprocess.run([TOP / "pcm", *words], capture_output=True).stdout for words in (("help", "map"), ("map", "--help"))]
    yield None if pages[0] == pages[1] else "./pcm map --help: not the page of ./pcm help map"
    with tempfile.TemporaryDirectory() as room:
        os.symlink(TOP / "pcm", f"{room}/pcm")
        told = subprocess.run([f"{room}/pcm", "version"], capture_output=True, text=True).stdout
        yield None if told == (TOP / "VERSION").read_text(encoding="utf-8") else "pcm through a link: not its version"


# Code that is quoted.


def quoted(text):
    """Yields each quoted block: the file that it is quoted from, and its lines."""
    for file, block in re.findall(r"(?ms)^<!-- quoted from (\S+) -->\n+```\w*\n(.*?)^```$", text):
        yield file, block.splitlines()


def stands_in(block, lines):
    """Whether the parts of a block, between lines that are '..', stand in this order among the lines, whatever their blanks."""
    parts = [part.split("\n") for part in re.split(r"(?m)^\s*\.\.\s*$\n?", "\n".join(block))]
    here, at = [" ".join(line.split()) for line in lines], 0
    for part in parts:
        wanted = [" ".join(line.split()) for line in part if line.strip()]
        places = [it for it in range(at, len(here) - len(wanted) + 1) if here[it : it + len(wanted)] == wanted]
        if not places:
            return False
        at = places[0] + len(wanted)
    return True


def check_quotes():
    for document, text in documents().items():
        for file, block in quoted(text):
            path = TOP / file
            well = path.is_file() and stands_in(block, [it for it in path.read_text(encoding="utf-8").splitlines() if it.strip()])
            yield None if well else f"{document}: what is quoted from {file} doesn't stand there"


# Names.


def words_of(paths):
    return {word for path in paths for word in re.findall(r"\w+", path.read_text(encoding="utf-8", errors="replace"))}


@functools.cache
def vocabulary():
    """All words of code, definitions, proofs, wrong bodies and scripts, and the names of files and libraries."""
    own = [file for crate in crates.listed().values() for file in crate.files(*crates.PARTS, bodies.GATE, bodies.LATER)]
    scripts = [*TOP.glob("tools/*"), *TOP.glob("bench/*"), *TOP.glob("docs/**/*.py"), TOP / "docs" / "check", TOP / "pcm", TOP / ".ci" / "run"]
    examples = [it for folder in ("examples", "python", "c") for it in TOP.glob(f"{folder}/**/*") if it.is_file() and "out" not in it.parts]
    texts = [it for it in (*own, *scripts, *examples) if it.is_file() and it.suffix in ("", ".rt", ".antt", ".edit", ".py", ".sh", ".awk", ".c", ".h", ".cpp", ".hpp")]
    names = {part for file in (*texts, *examples) for part in (file.stem, file.parent.name)}
    texts += [it for it in TOP.glob("crates/*/stdin")]
    return words_of(texts) | names | FOREIGN | {it for crate in crates.listed().values() for it in (crate.name, *crate.libraries)}


@functools.cache
def options():
    """The options of the program and of the scripts."""
    texts = [file.read_text(encoding="utf-8") for file in crates.named("command_line").files("src", "specs")]
    scripts = (*TOP.glob("tools/*"), *TOP.glob("bench/*"), *TOP.glob("docs/check*"), *TOP.glob("docs/pictures/*.py"))
    scripts += (*(it for it in TOP.glob("examples/**/*") if "out" not in it.parts), *TOP.glob("python/pcm/*.py"))
    texts += [it.read_text(encoding="utf-8") for it in scripts if it.is_file() and it.suffix in ("", ".py", ".sh", ".hpp")]
    return {word for text in texts for word in re.findall(r'(?:--|")([a-z][a-z-]+)', text)}


def is_name(word):
    """Whether a word can only be a name of code: it has an underscore, or a capital that doesn't begin a sentence."""
    return bool(re.search(r"[A-Za-z0-9]_[A-Za-z0-9]|[a-z][A-Z]", word))


def unknown_names(text):
    """Names that a page gives, in a span of code or in its sentences, and that stand nowhere."""
    prose = re.sub(r"(?ms)^```.*?^```$|^    .*?$|<!--.*?-->|\]\([^)]*\)", "", text)
    spans = re.findall(r"`([^`\n]+)`", prose)
    found = {word for word in re.findall(r"\w+", prose) if is_name(word)}
    found |= {word for span in spans for word in re.findall(r"\w+", span) if is_name(word) or re.match(r"[A-Z][a-z]\w+", word)}
    found |= {span for span in spans if re.fullmatch(r"[a-z][a-z0-9]{2,}", span)}
    return {word for word in found if word not in vocabulary() and not PLACEHOLDER.search(word)}


def unknown_options(text):
    return {f"--{word}" for word in re.findall(r"`[^`\n]*?--([a-z][a-z-]+)", text) if word not in options() | FOREIGN_OPTIONS}


def is_path(span):
    return re.fullmatch(r"\.?[\w*-][\w./*-]*/[\w./*-]*", span) and not PLACEHOLDER.search(span)


def unknown_paths(document, text):
    """Paths that a page gives in spans of code, and that are no file: from the top, from the page, from crates/ or in some crate. What is
    made as the program is built counts for one."""
    rooms = [(TOP, ""), ((TOP / document).parent, ""), (TOP / "crates", ""), (TOP / "crates", "*/")]
    spans = {span.split()[0] for span in re.findall(r"`([^`\n]+)`", text) if span.strip()}
    paths = [span for span in spans if is_path(span) and not re.search(r"(^|/)out/|/build\.log$", span)]
    return {path for path in paths if not any(any(room.glob(below + path.removeprefix("./"))) for room, below in rooms)}


def misplaced(text):
    """Lines of a tree, a definition and the file of specs/ that has it, of which that isn't so."""
    for name, crate, file in re.findall(r"(?m)^    \W*(\w+)\s+(\w+)/(specs/\w+\.antt)", text):
        path = TOP / "crates" / crate / file
        if not path.is_file() or not re.search(rf"(?m)^\s*(?:abbrev )?(?:pub )?(?:record )?{name}\b", path.read_text(encoding="utf-8")):
            yield f"{name} {crate}/{file}"


def strayed(text):
    """Lines of a tree whose definition isn't among those that the line above it, of which it is a branch, unfolds to."""
    above = []
    for branch, name, crate in re.findall(r"(?m)^(    \W*)(\w+)\s+(\w+)/specs/\w+\.antt", text):
        above = [it for it in above if it[0] < len(branch)]
        own = definitions.find(crate, name) if crate in crates.listed() else None
        if own and above and above[-1][1] and own not in definitions.unfolded(above[-1][1]):
            yield f"{name} under {above[-1][1].name}"
        above.append((len(branch), own))


# What declares a name in code (functions, types, fields, clauses, modules, macros) and in definitions and proofs.
IN_CODE = re.compile(
    r"\b(?:fn|struct|enum|trait|type|const|static|mod|union|extern|requires|ensures|as) (\w+)"
    r"|^\s*(?:pub |ghost )?([a-z]\w*): |^\s*([A-Z]\w*)(?: ?[({,]|$)|\bmacro_rules! (\w+)", re.M)
IN_DEFINITIONS = re.compile(r"^\s*(?:(?:abbrev|unfoldable|pub|mod|record|module|data) )*([^\s:(){}.,;]+)\s*(?:[:({]|where\b|=|$)", re.M)
# What declares a name in Python, C and scripts.
IN_SCRIPTS = re.compile(
    r"\b(?:def|class|struct|enum|import|from) (\w+)|^\s*(?:\w+[ *]+)*(\w+) ?(?:\(|=|:)|\b([A-Z][A-Z0-9_]+)\b|(\w+)=", re.M)


def names_by(pattern, text):
    return {name for found in pattern.findall(text) for name in ([found] if isinstance(found, str) else found) if name}


@functools.cache
def declared(crate):
    """The names that a crate declares, in code, definitions and proofs, those of its files and wrong bodies, and of cases of its tests' tables."""
    found = set()
    for file in crates.named(crate).files(*crates.PARTS):
        text = re.sub(r"(?m)(?://|--).*$", "", file.read_text(encoding="utf-8"))
        found |= set(re.findall(r'\bname: "(\w+)"', text))
        found |= names_by(IN_CODE if file.suffix == ".rt" else IN_DEFINITIONS, text) | {file.stem, file.parent.name}
    found |= {it.stem for it in crates.named(crate).files(bodies.GATE, bodies.LATER)}
    stored = crates.named(crate).folder / "stdin"
    return found | (set(re.findall(r"(?m)^case (\w+)$", stored.read_text(encoding="utf-8", errors="replace"))) if stored.is_file() else set())


@functools.cache
def declared_outside():
    """The names that scripts, drivers and the Python package declare, those of libraries, and those of files."""
    files = [it for folder in ("examples", "python", "c", "tools", "bench", "docs") for it in TOP.glob(f"{folder}/**/*") if it.is_file()]
    found = {part for file in files for part in (file.stem, file.parent.name)} | FOREIGN
    for file in (*files, TOP / "pcm", TOP / ".ci" / "run"):
        if file.suffix in ("", ".py", ".sh", ".c", ".h", ".cpp"):
            found |= names_by(IN_SCRIPTS, file.read_text(encoding="utf-8", errors="replace"))
    return found | {library for crate in crates.listed().values() for library in (crate.name, *crate.libraries)}


@functools.cache
def all_declared():
    return declared_outside().union(*(declared(crate) for crate in crates.listed()))


def undeclared(text):
    """Names of functions, types and definitions in spans of code that nothing declares, though they may stand in a comment or a text."""
    prose = re.sub(r"(?ms)^```.*?^```$|^    .*?$|<!--.*?-->", "", text)
    for span in re.findall(r"`([^`\n]+)`", prose):
        if re.fullmatch(r"(?:\w+(?:::|\.))*\w+", span) and not PLACEHOLDER.search(span):
            yield from (word for word in re.split(r"::|\.", span) if is_name(word) and word not in all_declared())


def astray(text):
    """Names that a page gives as a crate's, right behind it or in front of 'of' and it, and that the crate doesn't declare."""
    text = re.sub(r"(?ms)^```.*?^```$|<!--.*?-->", "", text)
    crate = r"([a-z]+(?:_[a-z]+)+)\b"
    found = re.findall(rf"(?<![\w`/]){crate}(?:'s?)? (?:\*\*)?`([A-Za-z_:]+)`", text)
    found += [(crate, name) for name, crate in re.findall(rf"`([A-Za-z_:]+)`(?:\*\*)? of {crate}", text)]
    for crate, name in found:
        if crate in crates.listed() and any(word not in declared(crate) for word in name.split("::")):
            yield f"{crate} {name}"


def check_names():
    for document, text in documents().items():
        for word in sorted({*unknown_names(text), *unknown_options(text), *unknown_paths(document, text), *misplaced(text)}):
            yield f"{document}: {word} stands nowhere"
        for word in sorted({*undeclared(text), *astray(text)}):
            yield f"{document}: {word}: no function, type or definition has this name there"
        yield from (f"{document}: {it}, which doesn't unfold to it" for it in strayed(text))
        yield None


# Names that stay.


def lost_names(text=None):
    """Those of docs/names that don't stand in their crate: a type, a function, or a call of a type; and crates that aren't there."""
    for line in (text or (TOP / "docs" / "names").read_text(encoding="utf-8")).splitlines():
        crate, colon, names = line.partition(":")
        if not colon or line.startswith("#"):
            continue
        if crate not in crates.listed():
            yield f"docs/names: there is no crate {crate}"
            continue
        code = "\n".join(it.read_text(encoding="utf-8") for it in crates.named(crate).files("src"))
        for name in names.split():
            of, _, call = name.rpartition("::")
            item = rf"(?:impl|trait)\b[^{{;]*\b{of}\b.*?\bfn {call}\b" if of else rf"\bpub (?:fn|struct|enum|trait) {name}\b"
            if not re.search(item, code, re.DOTALL):
                yield f"docs/names: {crate} has no {name}"


def check_lost_names():
    yield from list(lost_names()) or [None]


# The table of requirements.


@functools.cache
def text_of(crate, *parts):
    return "\n".join(it.read_text(encoding="utf-8") for it in crates.named(crate).files(*parts))


def defines(crate, path):
    """Whether a crate has a function or a definition of this name, which may stand behind its module and type."""
    name = path.split("::")[-1]
    pattern = rf"\b(?:fn|struct|enum|trait|record|type) {name}\b|(?m:^ *(?:abbrev )?(?:pub )?{name} :)"
    return re.search(pattern, text_of(crate, "src", "specs"))


@functools.cache
def clauses(crate):
    """The names of the clauses of each function of a crate, and of the fields of each record."""
    found = {}
    for name, head in re.findall(r"(?ms)\bfn (\w+)(.*?)(?=^ *\{|^ *\}|\bfn )", text_of(crate, "src")):
        found.setdefault(name, set()).update(re.findall(r"\bensures (\w+) \{", head))
    for name, body in re.findall(r"(?ms)\brecord (\w+)(.*?)(?=^\S|\Z)", text_of(crate, "specs")):
        found.setdefault(name, set()).update(re.findall(r"(?m)^ *(?:pub )?(\w+) :", body))
    return found


def has_clause(crate, path, clause):
    return clause in clauses(crate).get(path.split("::")[-1], ())


def is_test(crate, name):
    """Whether a crate has a test of this name, a case of its stored input, or one of a test's table."""
    stored = crates.named(crate).folder / "stdin"
    if stored.is_file() and re.search(rf"(?m)^case {name}$", stored.read_text(encoding="utf-8")):
        return True
    return bool(re.search(rf"#\[test\]\s+(?:pub )?fn {name}\b|\bname: \"{name}\"", text_of(crate, "src")))


def folders_of_body(crate, name):
    return [it for it in (bodies.GATE, bodies.LATER) if (TOP / "crates" / crate / it / f"{name}.edit").is_file()]


def wrong_bodies(cells):
    """The wrong bodies of a row, each with its crate."""
    home = re.search(r"`(\w*)", cells[0])
    for crate, _, name in (span.partition(" ") for span in re.findall(r"`([^`]+)`", cells[1])):
        yield (crate, name) if name else (home[1] if home else "", crate)


def faults_of_row(cells):
    """What isn't there of a row of the table: its clauses, `crate NAME: CLAUSE`; wrong bodies, with their crate where it isn't that of the
    first clause; and tests, which stand in a crate of tests."""
    clauses, tests = ([span.partition(" ")[::2] for span in re.findall(r"`([^`]+)`", cell)] for cell in (cells[0], cells[2]))
    for crate, rest in clauses:
        name, _, clause = rest.partition(": ")
        if crate not in crates.listed() or not (has_clause(crate, name, clause) if clause else defines(crate, name)):
            yield f"clause {crate} {rest}"
    for crate, name in wrong_bodies(cells):
        if not folders_of_body(crate, name):
            yield f"wrong body {crate} {name}"
    for name in (name or crate for crate, name in tests):
        if not any(is_test(crate, name) for crate in crates.listed() if crate.endswith("_tests")):
            yield f"test {name}"


def untold(text, rows):
    """Crates of which the page says that tools/wrong alone tries their wrong bodies, and the gate does, or the other way round."""
    said = re.search(r"`tools/wrong` alone tries those of ([\w, ]+?), whose", text)
    told = set(re.split(r", | and ", said[1])) if said else set()
    return sorted(told ^ {crate for cells in rows for crate, name in wrong_bodies(cells) if bodies.LATER in folders_of_body(crate, name)})


def check_requirements():
    text = (TOP / "docs" / "VERIFYING.md").read_text(encoding="utf-8")
    rows = []
    for row in re.findall(r"(?m)^\| (?!Requirement|-)(.*) \|$", text.partition("<!-- requirements -->")[2].partition("<!-- /requirements -->")[0]):
        requirement, *cells = row.split(" | ")
        if len(cells) != 3:
            yield f"docs/VERIFYING.md: {requirement}: {len(cells) + 1} cells"
            continue
        rows.append(cells)
        found = list(faults_of_row(cells))
        yield from (f"docs/VERIFYING.md: {it} stands nowhere" for it in found)
        yield None
    yield from (f"docs/VERIFYING.md: by what are the wrong bodies of {it} tried?" for it in untold(text, rows))


# Promises, each a function and its clauses.


def promised(text):
    """Yields the functions of each promise, or types, and the clauses that it names: `F`: `a`, `b`, a definition in brackets left out."""
    prose = re.sub(r"(?m)^    .*$|\*\*", "", text)
    several = r"(?:`{}`(?: \([^)]*\))?(?:, | and |, and )?)+"
    for functions, clauses in re.findall(rf"({several.format('[A-Za-z_:]+')}): ({several.format('[a-z_]+')})", prose):
        yield tuple(re.findall(r"`([^`]+)`", re.sub(r"\([^)]*\)", "", it)) for it in (functions, clauses))


@functools.cache
def clauses_of_type(name):
    """The clauses of all methods in the files that have an impl of a type."""
    texts = [file.read_text(encoding="utf-8") for crate in crates.listed().values() for file in crate.files("src")]
    return {clause for text in texts if re.search(rf"\bimpl\b[^{{]*\b{name}\b", text) for clause in re.findall(r"ensures (\w+)", text)}


@functools.cache
def promises(name, clause):
    return any(has_clause(crate, name, clause) for crate in crates.listed()) or clause in clauses_of_type(name.split("::")[0])


def root_texts():
    """What each crate's root file says of the crate, as one line."""
    for crate in crates.listed().values():
        lines = (crate.folder / crate.root).read_text(encoding="utf-8").splitlines()
        yield f"crates/{crate.name}/{crate.root}", " ".join(line[3:].strip() for line in lines if line.startswith("//!"))


def check_promises():
    for page, text in [("docs/PROMISES.md", (TOP / "docs" / "PROMISES.md").read_text(encoding="utf-8")), *root_texts()]:
        for functions, clauses in promised(text):
            for clause in clauses:
                well = any(promises(name, clause) for name in functions)
                yield None if well else f"{page}: {', '.join(functions)}: no clause {clause}"
        if page != "docs/PROMISES.md":
            yield from (f"{page}: {word}: no function, type or definition has this name" for word in sorted(undeclared(text)))


# Links and pictures.


def slug(heading):
    """The name by which a host links to a heading."""
    return re.sub(r"[^\w\- ]", "", re.sub(r"\[([^\]]*)\]\([^)]*\)", r"\1", heading).lower()).replace(" ", "-")


def headings(text):
    return {slug(it) for it in re.findall(r"(?m)^#+ (.*)$", re.sub(r"(?ms)^```.*?^```$", "", text))}


def links_of(text):
    """Yields the links of a page to files and sections, each with its file and its section, which may be empty."""
    for target in re.findall(r"\]\(([^)\s]+)\)", re.sub(r"(?ms)^```.*?^```$", "", text)):
        if not re.match(r"\w+:", target):
            file, _, anchor = target.partition("#")
            yield target, file, anchor


def broken_links(document, text):
    for target, file, anchor in links_of(text):
        path = (TOP / document).parent / file if file else TOP / document
        if not path.exists() or (anchor and anchor not in headings(path.read_text(encoding="utf-8"))):
            yield target


# A section that a file of code names: docs/MODEL.md, 'Lifetime'.
SECTION = re.compile(r"\b(?:docs/)?([A-Z]+)\.md(?:,| \(|:)? ?(['\"])([A-Z](?:(?!\2(?!\w)).)+)\2")


def lost_sections(file, text, pages):
    """Sections that a file of code names and that the page hasn't."""
    for page, _, heading in SECTION.findall(text):
        if slug(heading) not in headings(pages.get(f"docs/{page}.md", pages.get(f"{page}.md", ""))):
            yield f"{file}: {page}.md has no section '{heading}'"


def check_sections():
    pages = documents()
    for folder in ("c", "python", "examples", "tools", "bench"):
        for file in sorted(TOP.glob(f"{folder}/**/*")):
            if file.is_file() and file.suffix in ("", ".py", ".sh", ".c", ".h", ".cpp"):
                yield from lost_sections(file.relative_to(TOP), file.read_text(encoding="utf-8", errors="replace"), pages)
    yield None


def check_links():
    pages = documents()
    for document, text in pages.items():
        yield from (f"{document}: the link {it} leads nowhere" for it in broken_links(document, text))
        yield None
    linked = "\n".join(pages.values())
    for picture in sorted(TOP.glob("docs/pictures/*.svg")):
        yield None if f"pictures/{picture.name})" in linked else f"docs/pictures/{picture.name} is on no page"


def check_pictures():
    drawn = subprocess.run([sys.executable, TOP / "docs" / "pictures" / "draw.py", "--check"], capture_output=True, text=True)
    yield None if drawn.returncode == 0 else drawn.stdout.strip() or f"docs/pictures/draw.py: {drawn.stderr.strip()}"


# What stands where.

# A time or an amount of memory, which depends on the machine.
FIGURE = re.compile(r"\b\d[\d,.]* (?:s|seconds?|minutes?|hours?|ms|milliseconds?|microseconds?|MB|GB)\b")
# Pages that may have such figures, and say where they come from.
MEASURED = {"docs/FIGURES.md", "CHANGELOG.md"}
SHORTEST_SENTENCE = 60


def prose(text):
    """A page without its blocks of code and its spans of code: what is left is sentences."""
    text = re.sub(r"(?ms)^```.*?^```$|<!--.*?-->", "", text)
    return "\n".join(re.sub(r"`[^`]*`", "", line) for line in text.split("\n") if not line.startswith("    "))


def sentences(text):
    """The sentences of a page that say something of their own, with their code, by one blank between words."""
    text = re.sub(r"(?ms)^```.*?^```$|<!--.*?-->", "", text)
    lines = (line for line in text.split("\n") if not line.startswith("    "))
    for line in lines:
        for sentence in re.split(r"(?<=[.:;!?])\s+", re.sub(r"^[\s>|*#-]+|[\s|]+$", "", line)):
            if len(sentence) >= SHORTEST_SENTENCE and not sentence.startswith(("![", "[")):
                yield " ".join(sentence.split())


def measured(pages):
    """Each figure of a machine that stands on a page of another kind."""
    for document, text in pages.items():
        if document not in MEASURED:
            yield from (f"{document}: the figure '{it[0]}' belongs into docs/FIGURES.md" for it in FIGURE.finditer(prose(text)))


def said_twice(pages):
    """Each sentence that stands on two pages, but for those of CHANGELOG.md."""
    first = {}
    for document, text in pages.items():
        if document == "CHANGELOG.md":
            continue
        for sentence in set(sentences(text)):
            if first.setdefault(sentence, document) != document:
                yield f"{document} and {first[sentence]} both say: {sentence}"


def check_places():
    pages = documents()
    for found in (list(measured(pages)), list(said_twice(pages))):
        yield from found or [None]


# How long the documents are, and what they may call a promise.

MOST_WORDS = 29_000
MOST_LINES_OF_README = 110


def too_long(pages):
    """Words, as `wc -w` counts them, of all pages but CHANGELOG.md, and lines of README.md, where they are too many."""
    words = sum(len(text.split()) for document, text in pages.items() if document != "CHANGELOG.md")
    if words > MOST_WORDS:
        yield f"all pages but CHANGELOG.md have {words} words, above {MOST_WORDS}"
    lines = pages["README.md"].count("\n")
    if lines > MOST_LINES_OF_README:
        yield f"README.md has {lines} lines, above {MOST_LINES_OF_README}"


# Pages that may head a part 'What is promised': they speak of what is proved. C, Python, SystemVerilog and scripts are only tested.
PROMISING = {"README.md", "docs/PROMISES.md", "CHANGELOG.md"}
TESTED = ("c", "python", "sv", "examples")
HEADS_PROMISE = re.compile(r"(?im)^[\s/*#>\"-]*(what (?:is|it|they|the \w+) promise[sd]?)(?=[.:*]|$)")


def promises_too_much(texts):
    """Files of what is only tested that head a part with the word that means a theorem elsewhere."""
    for file, text in texts.items():
        for found in HEADS_PROMISE.finditer(text) if file not in PROMISING else ():
            yield f"{file}: '{found[1]}' heads what is only tested: say 'What it keeps (tested)'"


def tested_texts():
    """All pages, and the files of code that isn't proved."""
    files = [it for folder in TESTED for it in sorted(TOP.glob(f"{folder}/**/*")) if it.is_file() and "out" not in it.parts]
    kinds = ("", ".py", ".sh", ".c", ".h", ".cpp", ".hpp", ".sv")
    return {**documents(), **{str(it.relative_to(TOP)): it.read_text(encoding="utf-8", errors="replace") for it in files if it.suffix in kinds}}


def check_words_of_pages():
    yield from list(too_long(documents())) or [None]
    yield from list(promises_too_much(tested_texts())) or [None]


# Merge messages.

# The last commit before which merges may name a folder of a machine.
NAMES_FOLDERS_BEFORE = "30b5e8cc72"
FOLDER = re.compile(r"(?<![\w.])(?:~|\.{1,2})?/\w[\w./-]*")


def folders_of(messages):
    """Yields of merges, each a commit and its message, those that name a folder of a machine, with the folder."""
    for commit, message in messages:
        for folder in FOLDER.findall(message)[:1]:
            yield f"the message of merge {commit} names a folder of a machine, {folder}: say what is merged"


def merges():
    """The merges behind NAMES_FOLDERS_BEFORE: nothing where there is no history to look at."""
    asked = ["git", "-C", TOP, "log", "--merges", "--format=%h%x00%B%x01", f"{NAMES_FOLDERS_BEFORE}..HEAD"]
    told = subprocess.run(asked, capture_output=True, text=True)
    return [it.strip().split("\0", 1) for it in told.stdout.split("\x01") if it.strip()] if told.returncode == 0 else []


def check_merges():
    yield from list(folders_of(merges())) or [None]


# The version.


def versions():
    """The version by each file that has it."""
    patterns = {
        "VERSION": r"(\S+)", "CHANGELOG.md": r"(?m)^## \[(\d[^\]]*)\]", "python/pyproject.toml": r'(?m)^version = "(.*)"$',
        "python/pcm/__init__.py": r'(?m)^__version__ = "(.*)"$',
    }
    found = {file: re.search(pattern, (TOP / file).read_text(encoding="utf-8")) for file, pattern in patterns.items()}
    return {file: it and it[1] for file, it in found.items()}


def check_versions():
    found = versions()
    yield None if len(set(found.values())) == 1 else f"the version differs: {found}"
