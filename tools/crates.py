"""The crates of crates.txt: the layer of each, what it stands on, and what its first lines say of it.

A layer begins with a comment '# NUMBER. NAME'; behind it each line names a crate, with the word `staticlib` where it is one for C, and the
libraries that it stands on, its own repository's and the kit's. Called by itself it prints of each crate its layer, its name, and the first
sentence of its root file."""
import functools
import itertools
import pathlib
import re
import sys
import typing

TOP = pathlib.Path(__file__).resolve().parent.parent
# What a crate's text is in.
PARTS = ("src", "specs", "proofs")


class Crate(typing.NamedTuple):
    """A line of crates.txt."""

    name: str
    layer: str
    libraries: tuple[str, ...]
    # Whether it is a static library, for programs in C.
    is_static: bool = False

    @property
    def folder(self):
        return TOP / "crates" / self.name

    @property
    def root(self):
        """The file that a check of the crate begins with, in its folder."""
        return "src/main.rt" if (self.folder / "src" / "main.rt").exists() else "src/lib.rt"

    def files(self, *parts):
        """The files of its text, or of these parts of it, in order."""
        return sorted(file for part in parts or PARTS for file in (self.folder / part).rglob("*") if file.is_file())

    def about(self):
        """The first sentence of its root file."""
        lines = (self.folder / self.root).read_text(encoding="utf-8").splitlines()
        head = itertools.takewhile(lambda line: re.match(r"//! ?\S", line), lines)
        words = " ".join(line.removeprefix("//!").strip() for line in head)
        return re.split(r"(?<=\.)\s+(?=[A-Z`])", words)[0].removesuffix(".")


def head_of(line):
    """The words of a line before its libraries: the crate's name, and what kind it is of; none of a comment."""
    return line.partition("#")[0].partition(":")[0].split()


@functools.cache
def listed():
    """All crates by their names, in the order of crates.txt."""
    crates, layer = {}, ""
    for line in (TOP / "crates.txt").read_text(encoding="utf-8").splitlines():
        if heading := re.match(r"# (\d+\. .*)", line):
            layer = heading[1]
        if head_of(line):
            name, *kind = head_of(line)
            crates[name] = Crate(name, layer, tuple(line.partition("#")[0].partition(":")[2].split()), kind == ["staticlib"])
    return crates


def named(name):
    """The crate of this name; the script ends where there is none."""
    return listed().get(name) or sys.exit(f"crates.txt has no crate {name}")


@functools.cache
def below(name):
    """The crates of this repository that a crate is said to stand on."""
    return tuple(it for it in named(name).libraries if it in listed())


@functools.cache
def needed(name):
    """A crate and all crates that it stands on, through others too."""
    return frozenset({name}.union(*map(needed, below(name))))


if __name__ == "__main__":
    for heading, crates in itertools.groupby(listed().values(), key=lambda it: it.layer):
        print(f"\n{heading}\n")
        print("\n".join(f"{it.name}: {it.about()}" for it in crates))
