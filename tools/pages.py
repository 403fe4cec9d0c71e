"""The manual and the completions, made of docs/USING.md, of the table of options in python/pcm/words.py, and of what --help prints of programs
that have no section there.

Used by tools/install, tools/dist and tools/pages."""
import ast
import functools
import importlib.util
import re
import sys

import crates

TOP = crates.TOP
USING = TOP / "docs" / "USING.md"
STATUSES = "The statuses:"


def table():
    """python/pcm/words.py, without the package around it."""
    if "pcm_words" not in sys.modules:
        found = importlib.util.spec_from_file_location("pcm_words", TOP / "python" / "pcm" / "words.py")
        sys.modules["pcm_words"] = importlib.util.module_from_spec(found)
        found.loader.exec_module(sys.modules["pcm_words"])
    return sys.modules["pcm_words"]


def section(heading):
    """The lines of USING.md below a heading, without comments."""
    text = re.search(rf"(?ms)^## {re.escape(heading)}\n(.*?)(?=^## |\Z)", USING.read_text(encoding="utf-8"))[1]
    return re.sub(r"<!--.*?-->\n?", "", text).strip().replace("./pcm", "pcm").split("\n")


# The manual.


def roff(text, bold=True):
    """A text of Markdown as one of roff: spans of code and strong words are bold, links are their text."""
    text = re.sub(r"\[([^]]*)\]\([^)]*\)", r"\1", text).replace("\\", "\\e")
    text = re.sub(r"[^\x00-\x7f]", lambda it: f"\\[u{ord(it[0]):04X}]", text)
    marked = re.sub(r"\*\*(.+?)\*\*", r"`\1`", text).split("`")
    for at in range(1, len(marked), 2):
        marked[at] = f"\\fB{marked[at].replace('-', chr(92) + '-')}\\fR" if bold else marked[at]
    text = "".join(marked).replace("'", "\\(aq")
    return f"\\&{text}" if text.startswith(".") else text


def body(lines):
    """Paragraphs and lists as roff: an item that begins with spans of code, a strong word or a number and a colon has that as its tag."""
    for line in lines:
        if not line.strip():
            continue
        item = re.match(r"- (\*\*\w+\*\*|\d+(?=:)|(?:`[^`]+`(?:, | and )?)+)(:? ?)(.*)", line)
        if item and item[3]:
            yield from (".TP", roff(item[1]) + ":" * (":" in item[2]), roff(item[3]))
        elif line.startswith("- "):
            yield from (".IP \\(bu 2", roff(line[2:]))
        else:
            yield from (".PP", roff(line))


def page(name, about, synopsis, parts):
    """A page whose parts are lines of Markdown."""
    return page_of(name, about, synopsis, [(title, list(body(text))) for title, text in parts])


def page_of(name, about, synopsis, parts):
    """A page whose parts are lines of roff."""
    version = (TOP / "VERSION").read_text(encoding="utf-8").strip()
    lines = [f'.TH {name.upper()} 1 "" "pcm {version}" "User Commands"', ".SH NAME", f"{name} \\- {roff(about)}", ".SH SYNOPSIS"]
    for words in synopsis:
        lines += [".PP", roff(words)]
    for title, text in parts:
        lines += [f'.SH "{title}"' if title.isupper() else f'.SS "{title}"', *text]
    return "\n".join(lines) + "\n"


ABOUT = "simulates a phase-change memory module with its controller, by programs that are proved to meet their contracts"
ENVIRONMENT = [
    "- `PCM_EXPLAIN`: 1 says behind the program's line what is wrong with a word or a trace, 0 never does; else it is said on a terminal.",
    "- `PCM_PROGRESS`: 0 shows no progress of a stream on a terminal; `--progress` shows it elsewhere too.",
]


def manual():
    """pcm(1)."""
    commands, statuses = "\n".join(section("The commands")).split(STATUSES)
    parts = [("DESCRIPTION", commands.split("\n")), ("COMMANDS", [])]
    parts += [(f"pcm {it}", section(f"pcm {it}")) for it in table().COMMANDS if it not in table().ALONE]
    also = ", ".join(f"`pcm-{it}`(1)" for it in (*table().ALONE, "parts"))
    parts += [("EXIT STATUS", statuses.split("\n")), ("ENVIRONMENT", ENVIRONMENT), ("SEE ALSO", [also])]
    return page("pcm", ABOUT, ["**pcm** *COMMAND* [`--option` *value* ..]".replace("*", "")], parts)


def manual_of(name):
    """pcm-stream(1), pcm-explain(1), pcm-view(1) and pcm-disk(1), of the commands that are programs of their own."""
    command = table().COMMANDS[name]
    about = ENVIRONMENT if name == "stream" else ENVIRONMENT[:1]
    parts = [("DESCRIPTION", section(f"pcm {name}")), ("ENVIRONMENT", about), ("SEE ALSO", ["`pcm`(1)"])]
    words = f"pcm {name} {'[`--option` value ..] ' if command.options else ''}{command.usage}"
    return page(f"pcm-{name}", command.about, [words.rstrip()], parts)


def help_of_parts():
    """What `pcm parts --help` prints."""
    return ast.get_docstring(ast.parse((TOP / "python" / "pcm" / "parting.py").read_text(encoding="utf-8")))


def help_of_firmware():
    """What `cut-firmware --help` prints."""
    text = (TOP / "examples" / "firmware" / "words.hpp").read_text(encoding="utf-8")
    told = re.search(r"usage\[\] =\n((?: +\".*\"\n?)+);", text)[1]
    return "".join(ast.literal_eval(it.strip()) for it in told.splitlines()).rstrip()


def told_by_help(text):
    """A text of --help as roff: paragraphs, and options with what stands behind their blanks."""
    for part in text.split("\n\n"):
        if not part.startswith("  --"):
            yield from (".PP", roff(" ".join(part.split())))
            continue
        for option, about in re.findall(r"(?m)^  (--.+?)  +(.*(?:\n    .*)*)", part):
            yield from (".TP", roff(f"`{option}`"), roff(" ".join(about.split())))


def manual_by_help(name, about, text, also):
    """A manual that says what --help prints, without the usage, which is its synopsis."""
    text = text.replace("python3 -m pcm", "pcm").replace("./pcm", "pcm")
    usage = re.search(r"(?m)^usage: (.*?)(?: {3,}.*)?\n\n", text)
    parts = [("DESCRIPTION", list(told_by_help(text.replace(usage[0], "")))), ("SEE ALSO", list(body([also])))]
    return page_of(name, about, [usage[1]], parts)


def manual_of_parts():
    """pcm-parts(1)."""
    return manual_by_help("pcm-parts", table().WRAPPERS["parts"], help_of_parts(), "`pcm`(1), `pcm-stream`(1)")


def manual_of_firmware():
    """cut-firmware(1)."""
    about = "cuts the power under a firmware at every store to its simulated phase-change memory"
    return manual_by_help("cut-firmware", about, help_of_firmware(), "`pcm-stream`(1)")


def read_of(text):
    """The words that a reader of a page sees."""
    lines = [line for line in text.splitlines() if not re.match(r"\.(PP|TP|IP|TH)", line)]
    lines = [re.sub(r'^\.S[HS] "?(.*?)"?$', r"\1", line) for line in lines]
    plain = re.sub(r"\\f[BR]|\\&", "", "\n".join(lines)).replace("\\-", "-").replace("\\(aq", "'").replace("\\e", "\\")
    return re.sub(r"\\\[u([0-9A-F]+)\]", lambda it: chr(int(it[1], 16)), plain).split()


def wrong_range(name, told):
    """What a bullet of USING.md says of an option's default and range, `(4; 1, 2, 4, 8 or 16)`, where that isn't what the table says."""
    options = table().COMMANDS[name].options
    bullet = r"(?m)^- `--([a-z-]+) [A-Z]+`(?: and `[^`]+`)? \(`?([a-z0-9]+)`?(?: both)?(?:; ([^)]*))?\)"
    for option, default, rest in re.findall(bullet, told):
        known = options.get(option)
        numbers = set(re.findall(r"\d+", rest.replace(",", "" if "power" in rest else ",")))
        wanted = set(known.choices if known and known.choices else (str(known.least), str(known.most)) if known else ())
        if known is None or default != known.default:
            yield f"docs/USING.md: pcm {name}: --{option}: its default is {known.default if known else 'none: there is no such option'}"
        elif rest and "the rows" not in rest and "power" not in rest and not numbers <= wanted | {known.default}:
            yield f"docs/USING.md: pcm {name}: --{option}: it may be {known.range()}"
        elif rest and "the rows" not in rest and not {str(known.most)} & numbers and not known.choices:
            yield f"docs/USING.md: pcm {name}: --{option}: it may be at most {known.most}"


def faults():
    """What isn't so of the pages: each section's words stand there in their order, and each option of the table has its bullet."""
    pages = {name: " ".join(read_of(made())) for name, made in MANUAL.items()}
    for name in table().COMMANDS:
        text = re.sub(r"\[([^]]*)\]\([^)]*\)", r"\1", " ".join(section(f"pcm {name}")))
        here = pages[f"pcm-{name}.1" if name in table().ALONE else "pcm.1"]
        for line in section(f"pcm {name}"):
            plain = " ".join(re.sub(r"^- |\*\*|`", "", re.sub(r"\[([^]]*)\]\([^)]*\)", r"\1", line)).split())
            if plain not in here:
                yield f"the manual lacks: {plain[:60]}"
        stated = text if name != "stream" else text + " ".join(section("pcm run"))
        for option in table().COMMANDS[name].options:
            if name in ("run", "stream") and option in ("rows", "write-percent", "cuts", "step", "hot"):
                continue
            if not re.search(rf"`--{option}\b[ `]", stated):
                yield f"docs/USING.md: pcm {name} doesn't name --{option}"
        yield from wrong_range(name, "\n".join(section(f"pcm {name}")))
        flags = table().FLAGS.get(name, {})
        yield from (f"docs/USING.md doesn't name --{it}" for it in flags if f"--{it}" not in USING.read_text(encoding="utf-8"))
        for option in set(re.findall(r"`--([a-z-]+)", text)) - {*table().COMMANDS[name].options, *flags, "option", "print"}:
            yield f"docs/USING.md: pcm {name} names --{option}, which python/pcm/words.py doesn't have"


# Completions.


def values(option):
    return " ".join(option.choices)


def bash():
    """The completion for bash."""
    words = table()
    cases = []
    for command in words.COMMANDS.values():
        options = (*command.options, *words.FLAGS.get(command.name, {}))
        cases.append(f"        {command.name}) options=\"{' '.join(f'--{it}' for it in options)}\" ;;")
    chosen = {}
    for command in words.COMMANDS.values():
        for option in command.options.values():
            if option.choices:
                chosen.setdefault((option.name, values(option)), []).append(command.name)
    flags = " ".join(sorted({f"--{it}" for named in words.FLAGS.values() for it in named}))
    picks = [f'        {pattern} known="{known}" ;;' for (name, known), commands in chosen.items()
             for pattern in ["|".join(f"{it}--{name}" for it in commands) + ")"]]
    return f"""# bash completion for pcm(1), made from its table of options.
_pcm() {{
    local word=${{COMP_WORDS[COMP_CWORD]}} before=${{COMP_WORDS[COMP_CWORD - 1]}} command=${{COMP_WORDS[1]}} options="" known="" it
    COMPREPLY=()
    if [ "$COMP_CWORD" = 1 ]; then
        mapfile -t COMPREPLY < <(compgen -W "{' '.join([*words.COMMANDS, *words.WRAPPERS])}" -- "$word")
        return
    fi
    if [ "$word" = = ]; then
        word=""
    elif [ "$before" = = ]; then
        before=${{COMP_WORDS[COMP_CWORD - 2]}}
    fi
    case $command$before in
{chr(10).join(picks)}
        helphelp) known="{' '.join(words.COMMANDS)}" ;;
        pathpath) known="{' '.join(words.ALONE)}" ;;
        *--*) if [[ $before == --* && " --help {flags} " != *" $before "* ]]; then return; fi ;;
    esac
    if [ -n "$known" ]; then
        mapfile -t COMPREPLY < <(compgen -W "$known" -- "$word")
        return
    fi
    case $command in
{chr(10).join(cases)}
    esac
    options=" $options --help "
    for it in "${{COMP_WORDS[@]:2:COMP_CWORD - 2}}"; do options=${{options/ $it / }}; done
    mapfile -t COMPREPLY < <(compgen -W "$options" -- "$word")
}}
complete -F _pcm pcm
"""


def quoted(text):
    """A text between a shell's single quotes."""
    return text.replace("'", "'\\''")


def zsh():
    """The completion for zsh."""
    words = table()
    commands = [f"        '{it.name}:{quoted(it.about)}'" for it in words.COMMANDS.values()]
    commands += [f"        '{name}:{quoted(about)}'" for name, about in words.WRAPPERS.items()]
    cases = []
    for command in words.COMMANDS.values():
        cases.append(f"        {command.name})\n            _arguments \\")
        for it in command.options.values():
            action = f":{it.value}:({values(it)})" if it.choices else f":{it.value} ({it.range()}; {it.default}): "
            cases.append(f"                '--{it.name}=[{quoted(it.about)}]{action}' \\")
        cases += [f"                '--{name}[{quoted(about)}]' \\" for name, about in words.FLAGS.get(command.name, {}).items()]
        cases.append("                '--help[print the page of this command]' ;;")
    return f"""#compdef pcm
# zsh completion for pcm(1), made from its table of options.
_pcm() {{
    local -a commands
    commands=(
{chr(10).join(commands)}
    )
    if (( CURRENT == 2 )); then
        _describe command commands
        return
    fi
    local command=$words[2]
    shift words
    (( CURRENT-- ))
    case $command in
{chr(10).join(cases)}
        help) _values command {' '.join(words.COMMANDS)} ;;
        path) _values program {' '.join(words.ALONE)} ;;
    esac
}}
_pcm "$@"
"""


# The pages of the manual, that of a program which isn't always installed, and all that is made.
MANUAL = {"pcm.1": manual, **{f"pcm-{it}.1": functools.partial(manual_of, it) for it in table().ALONE}, "pcm-parts.1": manual_of_parts}
FIRMWARE = {"cut-firmware.1": manual_of_firmware}
PAGES = {**MANUAL, **FIRMWARE, "bash": bash, "zsh": zsh}
