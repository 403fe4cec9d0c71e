"""One table of options (pcm/words.py), and all that states them beside it: the programs' own tables and ranges."""
import pathlib
import re
import unittest
from typing import Dict, Iterator, List, Tuple

from pcm.words import ALONE, COMMANDS, Option

TOP = pathlib.Path(__file__).resolve().parent.parent.parent
LIMITS = {"u64::MAX": 2**64 - 1, "UINT64_MAX": 2**64 - 1}


def text(path: str) -> str:
    return (TOP / path).read_text(encoding="utf-8")


def number(word: str) -> int:
    return LIMITS[word] if word in LIMITS else int(word.replace("_", ""))


def calls() -> Iterator[Tuple[str, List[int]]]:
    """Each number that the programs read: its option, and the default, or that with the range."""
    for crate in ("command_line", "stream_words"):
        for file in sorted((TOP / "crates" / crate / "src").glob("*.rt")):
            found = re.findall(r'(?:number_of|size_of)\(\s*matches,\s*"([a-z-]+)",([^()]*?),?\s*\)', file.read_text(encoding="utf-8"))
            for name, rest in found:
                words = [it.strip() for it in rest.split(",")]
                if all(re.fullmatch(r"[0-9_]+|u64::MAX", it) for it in words):
                    yield name, [number(it) for it in words]


class Options(unittest.TestCase):
    def test_each_program_has_the_options_of_the_table(self) -> None:
        told = {name.lower(): re.findall(r'"([a-z-]+)"', words) for name, words in
                re.findall(r"static ([A-Z]+)_OPTIONS: \[&str; \d+\] = \[(.*?)\];", text("crates/command_line/src/table.rt"), re.DOTALL)}
        self.assertEqual({name: sorted(options) for name, options in told.items()},
                         {it.name: sorted(it.options) for it in COMMANDS.values() if it.name not in ALONE})

    def test_each_default_and_range_is_the_tables(self) -> None:
        known: Dict[str, List[Option]] = {}
        for command in COMMANDS.values():
            for option in command.options.values():
                known.setdefault(option.name, []).append(option)
        found = list(calls())
        self.assertGreater(len(found), 15)
        for name, numbers in found:
            ranges = [[int(it.default), it.least, it.most][:len(numbers)] for it in known[name]]
            self.assertIn(numbers, ranges, name)


if __name__ == "__main__":
    unittest.main()
