"""What docs/check holds an installed tree to: the files of tools/staging.py, each by its path, with its bytes or where it is copied from."""
import os
import pathlib
import re

import checking
import staging


def text_in(source):
    """The text of a file of an installed tree."""
    return source.decode() if isinstance(source, bytes) else source.read_text(encoding="utf-8")


def lost_links(tree):
    """Links of the pages of an installed tree, each file by its path, that lead to no file or section there."""
    written = {path: text_in(source) for path, source in tree.items() if path.endswith(".md")}
    there = {*tree, *(str(above) for path in tree for above in pathlib.PurePosixPath(path).parents)}
    for path, text in written.items():
        for target, file, anchor in checking.links_of(text):
            named = os.path.normpath(os.path.join(os.path.dirname(path), file)) if file else path
            if named not in there or (anchor and anchor not in checking.headings(written.get(named, ""))):
                yield f"installed {path}: the link {target} leads nowhere"


# Paths that stand in a checkout alone, and those that an installed tree has in share/pcm.
OF_CHECKOUT = re.compile(r"(?<![\w/.])(?:tools|crates|bench|\.ci)/\w[\w.-]*")
SHARED = re.compile(r"(?<![\w/.])(?:examples|docs|c|python|sv)/[\w./-]*\w")


def absent(tree):
    """What the manual and USING.md of an installed tree name and it hasn't: files; and ./pcm, but in blocks, which are for a copy that has it."""
    for path, source in tree.items():
        if path.endswith("/USING.md") or path.startswith("share/man/"):
            text = text_in(source).replace("\\-", "-")
            shared = {it for it in SHARED.findall(text) if not any(f"{name}/".startswith(f"share/pcm/{it}/") for name in tree)}
            named = re.findall(r"(?<!\w)\./pcm\b", re.sub(r"(?ms)^```.*?^```$|^    .*?$", "", text))
            yield from (f"installed {path}: there is no {it}" for it in sorted({*named, *OF_CHECKOUT.findall(text), *shared}))


def check_installed():
    tree = {path: source for path, source, _ in staging.files()}
    yield from [*lost_links(tree), *absent(tree)] or [None]
