"""The wrong bodies of a crate: edits of its text that break a rule, which its check has to refuse.

Each is a file of its own: a line 'file: PATH' of the crate, then pairs of lines 'old: TEXT' and 'new: TEXT'; each old text stands once in
that file, as the pairs before it left it. Those of the crate's must-fail/ are tried by each gate, those of wrong/ by tools/wrong alone,
which notes in tools/tried.txt of which text it tried them."""
import datetime
import functools
import hashlib

import crates

GATE, LATER = "must-fail", "wrong"
TRIED = crates.TOP / "tools" / "tried.txt"
HEAD = """# Of which text the wrong bodies in wrong/ of each crate were tried last, and refused: by tools/wrong, which writes this.
# crate, checksum of them, of the crate's text, and of code and definitions below it; how many; day; kit
"""


class Misfit(Exception):
    """What an edit changes doesn't stand once in the file that it names."""


def bodies(crate, *folders):
    """The edits in these folders of a crate (both, unless one is named), in order."""
    return sorted(it for folder in folders or (GATE, LATER) for it in (crate / folder).glob("*.edit"))


def changed(crate, edit):
    """The texts that an edit makes of a crate's, by the paths of their files."""
    texts, path, old = {}, None, None
    for key, _, text in (line.partition(":") for line in edit.read_text(encoding="utf-8").splitlines()):
        text = text.removeprefix(" ")
        if key == "file":
            path = text.strip()
        elif key == "old":
            old = text
        elif key == "new":
            if path not in texts:
                file = crate / (path or "")
                texts[path] = file.read_text(encoding="utf-8") if file.is_file() else ""
            if not old or texts[path].count(old) != 1:
                raise Misfit(edit.name)
            texts[path], old = texts[path].replace(old, text), None
    if not texts:
        raise Misfit(edit.name)
    return texts


@functools.cache
def stated(crate):
    """A checksum of what a crate does and states, whatever proves it."""
    return _sum(crates.named(crate).files("src", "specs"))


def _sum(files, *more):
    sum_ = hashlib.sha256("".join(more).encode())
    for file in files:
        sum_.update(f"{file.relative_to(crates.TOP)} {file.stat().st_size}\n".encode() + file.read_bytes())
    return sum_.hexdigest()


def tried_sum(crate):
    """A checksum of all on which it rests that a crate's wrong bodies in wrong/ are refused: they, its own text, and what the crates below
    do and state. Not how those are proved: nothing follows from that but what is stated; nor the kit, by which no new rule holds."""
    below = sorted(crates.needed(crate) - {crate})
    return _sum(crates.named(crate).files(*crates.PARTS, LATER), *map(stated, below))[:32]


def noted():
    """Of each crate what is noted: a checksum, how many wrong bodies were tried, when and by which kit."""
    lines = TRIED.read_text(encoding="utf-8").splitlines() if TRIED.is_file() else []
    return {words[0]: words[1:] for words in (line.split(maxsplit=4) for line in lines if not line.startswith("#"))}


def stale():
    """The crates whose wrong bodies in wrong/ weren't tried as they and all below them are now."""
    found = noted()
    return [it for it, crate in crates.listed().items() if bodies(crate.folder, LATER) and found.get(it, [""])[0] != tried_sum(it)]


def note(crate, sum_, many, kit):
    """Notes that a crate's wrong bodies in wrong/ were all refused, of the text with that sum."""
    found = {it: words for it, words in noted().items() if it in crates.listed()}
    found[crate] = sum_, str(many), datetime.date.today().isoformat(), kit
    new = TRIED.with_suffix(".new")
    new.write_text(HEAD + "".join(f"{it} {' '.join(words)}\n" for it, words in sorted(found.items())), encoding="utf-8")
    new.replace(TRIED)
