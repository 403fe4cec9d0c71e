"""What KEY=VALUE ask of a relay: options of `pcm disk`, and its own (relay.py)."""
import os
import re
from typing import Dict, List

OWN = {"pcm": "", "size": "", "log": "", "log-requests": "", "attached": "", "report": "", "on-cut": "drop", "cut-requests": "0", "tear": "prefix", "cache": "0"}
WORDS = {"on-cut": ("drop", "ask", "ride"), "tear": ("prefix", "any")}
SHAPE = {"banks": "16", "regions": "16", "lines": "256", "line": "128"}
CUTS = 1000000


class Wrong(Exception):
    """Words that ask for nothing that can be served."""


def scaled(text: str) -> str:
    """A number without K, M or G behind it; other texts as they are."""
    if re.fullmatch(r"[0-9]{1,15}[KMG]", text):
        return str(int(text[:-1]) << 10 * ("KMG".index(text[-1]) + 1))
    return text


class Words:
    """What KEY=VALUE ask for: the relay's own, and options of the program."""

    def __init__(self, words: List[str]) -> None:
        self.own, self.options = dict(OWN), dict(SHAPE)
        given: Dict[str, str] = {}
        for word in words:
            key, equals, value = word.partition("=")
            if not equals or not re.fullmatch("[a-z][a-z-]*", key):
                raise Wrong(f"{word}: it isn't KEY=VALUE")
            if key in given:
                raise Wrong(f"{key} stands twice")
            given[key] = value if key in ("pcm", "log", "report") else scaled(value)
        for key, value in given.items():
            if value not in WORDS.get(key, (value,)):
                raise Wrong(f"{key}={value}: it is one of {', '.join(WORDS[key])}")
            if key == "attached" and not re.fullmatch("[0-9]+(,[0-9]+){3}", value):
                raise Wrong("attached=IN,OUT,SIZE,REQUESTS: descriptors of a program that was greeted, its disk's bytes, and how many requests it has answered")
            if key in ("size", "log-requests", "cut-requests", "cache") and not re.fullmatch("[0-9]{1,15}", value):
                raise Wrong(f"{key}={value}: it is a number")
            (self.own if key in OWN else self.options)[key] = value
        if self.own["size"]:
            self.pick_lines(given)
        if self.own["log-requests"] and not self.own["log"]:
            raise Wrong("log-requests says how many requests of a log are asked again: give log")
        self.cuts = self.pick_cuts()

    def number(self, key: str, otherwise: int) -> int:
        """An option's number; the program says what is wrong with it."""
        value = self.options.get(key, "")
        return int(value) if re.fullmatch("[0-9]{1,18}", value) else otherwise

    def pick_lines(self, given: Dict[str, str]) -> None:
        """By the size: as few lines as are a power of two, of 16 regions where the module is large."""
        if "regions" in given and "lines" in given:
            raise Wrong("size says how many regions and lines there are: give at most one of these beside it")
        of_each, every, lines = self.number("banks", 16) * self.number("line", 128), self.number("regions", 16), 4
        while lines * of_each < int(self.own["size"]):
            lines *= 2
        if "lines" in given:
            self.options["regions"] = str(max(1, lines // max(1, self.number("lines", 256))))
        else:
            regions = every if "regions" in given or lines >= 4 * every else lines // 4
            self.options.update(regions=str(regions), lines=str(max(4, lines // max(1, regions))))

    def sectors(self) -> int:
        """How many the disk has (atomic_sectors)."""
        line, lines = self.number("line", 128), self.number("banks", 16) * self.number("regions", 16) * self.number("lines", 256)
        return sectors_of(lines, line, self.number("sector", 4096) // max(1, line))

    def pick_cuts(self) -> int:
        """How many cuts the program draws or is told. Where it isn't said how far apart, so far that it recovers in between: it reads the map then."""
        if self.options.get("cut-ticks"):
            return self.options["cut-ticks"].count(",") + 1
        if self.own["on-cut"] != "drop" or "cuts" in self.options or "cut-every" in self.options:
            self.options.setdefault("cuts", str(CUTS))
            self.options.setdefault("cut-every", str(2000 + 20 * self.sectors()))
        if int(self.own["cut-requests"]) and not self.number("cuts", 0):
            self.own["on-cut"] = "ask"
            return self.pick_cuts()
        return self.number("cuts", 0)

    def program(self) -> List[str]:
        """The program's words."""
        pcm = self.own["pcm"] or ("./pcm" if os.access("./pcm", os.X_OK) else "pcm")
        return [pcm, "disk", *self.of_options()]

    def of_options(self) -> List[str]:
        """Those of its options."""
        return [word for key, value in sorted(self.options.items()) for word in (f"--{key}", value)]


def sectors_of(lines: int, line: int, block: int) -> int:
    """How many sectors of `block` lines fit on so many lines, with a free block and a map of four bytes for each."""
    if min(line // 4, block) < 1 or lines <= block:
        return 0
    most = (lines - block) // block + 1
    while most and (most + 1) * block + most // (line // 4) >= lines:
        most -= 1
    return most
