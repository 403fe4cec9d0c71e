"""Tests of reports over large modules, and of what they stand on: the randomiser, drawn traces, and wear in columns."""
import array
import pathlib
import random
import re
import sys
import unittest

HERE = pathlib.Path(__file__).resolve().parent
sys.path[:0] = [str(HERE.parent), str(HERE)]
from leaks import setUpModule, tearDownModule  # noqa: E402, F401
from pcm import charts, page, runs, tallies  # noqa: E402
from pcm.drawn import draw_of, drawn  # noqa: E402
from pcm.randomiser import Randomiser  # noqa: E402
from pcm.rows import HEADER  # noqa: E402
from pcm.words import COMMANDS, LARGE  # noqa: E402
from pcm.worn import Wear  # noqa: E402
from test_report import Room, Tables, printed  # noqa: E402

PICTURE = 1_000_000


def columns_of(banks, regions, lines, spares):
    """The banks and the roles of a module's array lines, its lines in the order of their places."""
    of_banks, roles = [], []
    for at in range(banks * regions):
        roles += [*(f"line {line}" for line in range(at * lines, (at + 1) * lines)), "gap"]
        roles += ["free"] * spares * (at % regions == regions - 1)
    for bank in range(banks):
        of_banks += [bank] * (regions * (lines + 1) + spares)
    return of_banks, roles


def wear_text(banks, regions, lines, spares, pulses_of):
    """The wear report of such a module."""
    rows = zip(*columns_of(banks, regions, lines, spares))
    return "\n".join(["array,bank,pulses,role", *(f"{at},{bank},{pulses_of(at)},{role}" for at, (bank, role) in enumerate(rows)), ""])


def worn(banks, regions, lines, spares, pulses):
    """The run of such a module, of which its wear alone is known."""
    of_banks, roles = columns_of(banks, regions, lines, spares)
    wear = Wear(False)
    wear.extend(of_banks, pulses, roles, None)
    return runs.Run("worn", {**runs.DEFAULTS, **runs.Shape(banks, regions, lines, spares, False).options()}, {}, [], [], wear=wear)


def source(text):
    return runs.Source("wear report", "wear", text.encode())


class Parts(unittest.TestCase):
    def test_the_randomiser_is_undone(self):
        for bits in (2, 3, 5, 8, 13, 26):
            one = Randomiser(1 << bits, 7 * bits)
            lines = range(1 << bits) if bits < 10 else random.Random(bits).sample(range(1 << bits), 500)
            self.assertEqual(list(lines), [one.line(one.place(line)) for line in lines])
            self.assertEqual(len(lines), len({one.place(line) for line in lines}))
            self.assertLess(max(one.place(line) for line in lines), 1 << bits)

    def test_a_drawn_trace_is_the_programs(self):
        every = {name: it.default for name, it in COMMANDS["run"].options.items()}
        for words in ("", "--seed 3 --rows 400 --cuts 7 --step 3", "--lines 8 --line 128 --hot 3 --write-percent 80", "--hot 600 --cuts 1000"):
            parts = words.split()
            text = "".join([HEADER, *(row.text() for row in drawn(draw_of({**every, **dict(zip((it[2:] for it in parts[::2]), parts[1::2]))})))])
            self.assertEqual(printed("gen", *parts).decode(), text)

    def test_wear_in_columns_is_that_of_the_rows(self):
        text = wear_text(2, 2, 8, 3, lambda at: at * at)
        rows = [line.split(",") for line in text.splitlines()[1:]]
        for form in (text, text.replace("\n", "\r\n"), text.replace(",free", ',"free"')):
            wear = runs.wear_of(source(form))
            self.assertEqual([[str(it.array), str(it.bank), str(it.pulses), it.role] for it in wear], rows)
        self.assertEqual((6, 4), (wear.count("free", range(len(wear))), len(wear.find("gap", range(len(wear))))))
        self.assertEqual(wear.find("free", range(21, 42)), [39, 40, 41])
        self.assertEqual(list(wear.where(wear.pulses, "gap", True)), [at * at for at in wear.find("gap", range(len(wear)))])

    def test_a_wrong_row_of_wear_is_named(self):
        lines = wear_text(1, 1, 8, 2, lambda at: at).splitlines()
        for at, line, kind in (
            (3, "3,0,5,line 2", "array"), (3, "2,0,18446744073709551616,line 2", "pulses"), (3, "2,0,5,line 4294967296", "role"), (4, "3,256,5,line 3", "bank"),
            (4, "3,0,,line 3", "pulses"), (4, "3,0,5", "fields"), (4, "3,0,5,line", "role"), (4, "3,0,5,lines 3", "role"), (4, "3,0,+5,line 3", "pulses"),
        ):
            with self.assertRaisesRegex(runs.FileFault, f"row {at}: {kind}"):
                runs.wear_of(source("\n".join([*lines[:at], line, *lines[at + 1:], ""])))


class Maps(unittest.TestCase):
    def squares(self, banks, regions, lines, pulses):
        """The grain of a module's maps, and the squares of its banks."""
        run = worn(banks, regions, lines, 2, pulses)
        groups = [group for bank in range(banks) for group in tallies.groups(run, bank)]
        grain = charts.grain(groups)
        return grain, [(group, tallies.squares(group, run.wear, pulses, grain)) for group in groups]

    def test_a_square_has_the_greatest_of_its_lines_and_their_role(self):
        draw = random.Random(5)
        for banks, regions, lines in ((1, 1, 16384), (2, 4, 4096), (1, 2, 64)):
            count = banks * (regions * (lines + 1) + 2)
            pulses = array.array("Q", (draw.choice((0, 0, 0, draw.randrange(9), draw.randrange(1000))) for _ in range(count)))
            grain, found = self.squares(banks, regions, lines, pulses)
            self.assertEqual(count, sum(len(group.lines) for group, _ in found))
            self.assertLessEqual(sum(len(squares) for _, squares in found), 20_000)
            for group, squares in found:
                here = [pulses[at] for at in group.lines]
                self.assertEqual([square.value for square in squares], [max(here[at: at + grain]) for at in range(0, len(here), grain)])
                wanted = [None] * (len(squares) - 1) + ["gap"] if group.words.startswith("region") else ["free"] * len(squares)
                self.assertEqual([square.role for square in squares], wanted)

    def test_a_small_module_has_a_square_for_each_line(self):
        self.assertEqual(1, self.squares(16, 1, 1024, array.array("Q", bytes(8 * 16 * 1027)))[0])

    def test_a_map_of_two_to_the_twentieth_lines_is_a_picture_of_at_most_a_megabyte(self):
        for banks, regions, lines in ((1, 1, 1 << 20), (64, 64, 256)):
            pulses = array.array("Q", (at % 1009 for at in range(banks * (regions * (lines + 1) + 2))))
            text = page.page([worn(banks, regions, lines, 2, pulses)], "Large", "0")
            section = re.search(r'<section id="wear">(.*?)</section>', text, re.S).group(1)
            pictures = re.findall(r"<svg.*?</svg>", section, re.S)
            self.assertEqual(banks + 1, len(pictures))
            self.assertLess(sum(map(len, pictures)), PICTURE)
            groups = Tables(section).found["wear"][0][1:]
            self.assertEqual(banks * (regions * (lines + 1) + 2), sum(row[2] for row in groups))
            self.assertRegex(section, r"Each square stands for \d+ array lines beside one another")


class Runs(Room):
    # A module that is large by its banks alone: so all is quick.
    WIDE = "--banks 32 --regions 1 --lines 4 --psi 3 --lo 5 --hi 60 --misses 2 --seed 3"

    def numbers(self, text, given, *words):
        """The page's numbers are those that streams print."""
        tables = Tables(text).found
        summary = dict(line.split() for line in printed("stream", *words, "--print", "summary", given=given).decode().splitlines())
        counts = {row[0]: row[2] for row in tables["counts"][0][1:]}
        self.assertEqual({word: int(summary[word]) for word in runs.OUTCOMES}, {word: counts[word] for word in runs.OUTCOMES})
        lines = printed("stream", *words, "--print", "lines", given=given).decode().splitlines()[1:]
        fields = [line.split(",") for line in lines]
        self.assertEqual(sum(int(line[2]) for line in fields), sum(row[3] for row in tables["wear"][0][1:]))
        self.assertEqual(sum(int(line[4]) for line in fields), sum(row[3] for row in tables["pointers"][0][1:]))
        answered = [row for row in tables["reads"][0][1:] if row[0] == "read"][0][1]
        self.assertEqual(int(summary["read"]), answered)

    def test_a_drawn_one(self):
        words = [*self.WIDE.split(), "--input", "drawn", "--rows", "600", "--hot", "9", "--cuts", "4"]
        self.numbers(self.page("--run", *words), b"", *words)

    def test_one_of_a_trace(self):
        every = {name: it.default for name, it in COMMANDS["stream"].options.items()}
        trace = "".join([HEADER, *(row.text() for row in drawn(draw_of({**every, "banks": "32", "regions": "1", "lines": "4", "hot": "5"})))])
        self.numbers(self.page("--run", self.file(trace), *self.WIDE.split()), trace.encode(), *self.WIDE.split())

    def test_the_largest_has_no_map(self):
        text = self.page("--run", "--input", "drawn", "--rows", "300", "--lines", str(LARGE.lines), "--banks", "1", "--regions", "1")
        self.assertNotIn('id="wear"', text)
        self.assertEqual(300, {row[0]: row[2] for row in Tables(text).found["counts"][0][1:]}["all"])

    def test_sizes_that_streams_refuse(self):
        told = "--banks 128: it may be 1, 2, 4, 8, 16, 32 or 64"
        self.refused(2, told, "--run", "--input", "drawn", "--banks", "128")
        self.refused(2, "a module of stream has at most 67108864 lines", "--run", "--input", "drawn", "--lines", str(LARGE.lines))


class Columns(unittest.TestCase):
    def test_numbers_beyond_a_column(self):
        with self.assertRaises(OverflowError):
            Wear(False).extend([256], [1], ["gap"], None)


if __name__ == "__main__":
    unittest.main()
