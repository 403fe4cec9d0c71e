"""Tests of snapshots: how they are read and streamed, and what the report makes of them."""
import html
import os
import pathlib
import re
import sys
import unittest
import xml.etree.ElementTree

HERE = pathlib.Path(__file__).resolve().parent
sys.path[:0] = [str(HERE.parent), str(HERE)]
import pcm  # noqa: E402
from leaks import setUpModule, tearDownModule  # noqa: E402, F401
from pcm import charts, plots, runs, tallies  # noqa: E402
from pcm.drawing import VARIABLES, Picture  # noqa: E402
from test_report import AGED, RUNS, Room, Tables, came_of, printed  # noqa: E402

HEADER = "rows,tick,stored,merged,queued,full,worn,read,forwarded,busy,lost,cut,retired,pulses,most,mean,pointers,senses,set,reset\n"


def drawn(count, every=100, **last):
    """Made up snapshots of a module that wears evenly; `last` alters numbers of the one in the end."""
    made = []
    for at in range(1, count + 1):
        rows = every * at
        outcomes = (rows // 2, rows // 8, 0, rows // 40, 0, rows // 4, 0, 0, 0, 0)
        made.append(pcm.Snapshot(rows, 10 * rows, *outcomes, at * 8 // count, 2 * rows, 40 * at, 4 * at, 3 * at, 3 * rows, 120 * rows, 130 * rows))
    left = made[-1].rows - made[-1].known
    made.append(made[-1]._replace(tick=made[-1].tick + 500, stored=made[-1].stored + left, **last))
    return made


def text_of(snapshots):
    return HEADER + "".join(",".join("" if it is None else str(it) for it in one) + "\n" for one in snapshots)


def told_of(text, title):
    """What a page tells of a picture for those who don't see it."""
    found = re.search(rf"<title>{re.escape(title)}</title>\s*<desc>([^<]*)</desc>", text)
    return html.unescape(found.group(1)) if found else None


class Reading(unittest.TestCase):
    def refused(self, line, text):
        with self.assertRaises(pcm.SnapshotError) as wrong:
            list(pcm.read_snapshots(text.splitlines()))
        self.assertEqual(line, str(wrong.exception))

    def test_what_is_written_is_read(self):
        made = drawn(5)
        for text in (text_of(made), text_of(made).replace("\n", "\r\n"), text_of(made)[:-1]):
            self.assertEqual(made, list(pcm.read_snapshots(text.splitlines(keepends=True))))
        self.assertEqual(made[-1].rows, made[-1].known)
        self.assertEqual([], list(pcm.read_snapshots([HEADER])))

    def test_energy_may_be_left_out(self):
        plain = [one._replace(senses=None, set=None, reset=None) for one in drawn(5)]
        self.assertEqual(plain, list(pcm.read_snapshots(text_of(plain).splitlines())))
        before = [",".join(line.split(",")[:17]) for line in text_of(plain).splitlines()]
        self.assertEqual(plain, list(pcm.read_snapshots(before)))
        self.refused("row 1: fields", "\n".join([before[0], text_of(plain).splitlines()[1]]))

    def test_a_line_that_is_none_is_named_with_what_is_wrong(self):
        good = text_of(drawn(5))
        lines = good.splitlines()
        self.refused("row 0: header", "")
        self.refused("row 0: header", good.replace("pointers", "pointer"))
        self.refused("row 0: header", good.partition("\n")[2])
        self.refused("row 3: fields", good.replace(lines[3], lines[3] + ","))
        self.refused("row 3: fields", good.replace(lines[3], ""))
        self.refused("row 6: fields", good[:-30])
        for at, name in enumerate(pcm.Snapshot._fields):
            for wrong in (*[""][: at < 17], "-1", "x", " 1", "1.5", "\u0663", "9" * 21):
                fields = lines[2].split(",")
                fields[at] = wrong
                self.refused(f"row 2: {name}", good.replace(lines[2], ",".join(fields)))

    def test_numbers_that_fall_or_do_not_agree_are_named(self):
        made = drawn(5)
        for name in ("rows", "tick", "stored", "merged", "full", "read", "retired", "pulses", "most", "mean", "senses", "set", "reset"):
            fallen = made[:3] + [made[3]._replace(**{name: getattr(made[2], name) - 1})] + made[4:]
            self.refused(f"row 4: order of {name}", text_of(fallen))
        self.refused("row 7: order of rows", text_of(made + made[-1:]))
        self.refused("row 1: rows", text_of([made[0]._replace(stored=100)]))
        self.refused("row 1: most", text_of([made[0]._replace(mean=50)]))
        self.refused("row 1: most", text_of([made[0]._replace(pulses=30)]))

    def test_pointers_may_fall(self):
        made = drawn(3)
        made[-1] = made[-1]._replace(pointers=0)
        self.assertEqual(made, list(pcm.read_snapshots(text_of(made).splitlines())))


class Pages(Room):
    def test_a_page_of_snapshots_alone_has_the_numbers_of_the_last(self):
        made = drawn(45, lost=0)
        last = made[-1]
        text = self.page(self.file(text_of(made)), "--banks", "2", "--spares", "8", "--name", "x")
        tables = Tables(text).found
        outcomes = {**{word: getattr(last, word) for word in runs.OUTCOMES}, "all": last.rows}
        self.assertEqual(outcomes, {row[0]: row[2] for row in tables["counts"][0][1:]})
        glance = {row[0]: row[1] for row in tables["glance"][0][1:]}
        self.assertEqual([last.rows, last.retired, last.pulses, last.most, last.mean, last.pointers], [glance[name] for name in (
            "rows", "spares in use", "pulses", "most pulses of an array line", "mean pulses of an array line", "active pointers")])
        first = next(one for one in made if one.full + one.worn)
        self.assertEqual([first.rows, first.tick], [glance["first snapshot with a refused row, its rows"], glance["tick of that"]])
        rows = tables["aging"][0][1:]
        self.assertEqual(20, len(rows))
        self.assertEqual([last.rows, last.tick, last.most, last.mean, last.pointers, last.retired], rows[-1][:6])
        self.assertEqual([last.stored, last.full, last.worn, last.lost], [sum(row[at] for row in rows) for at in range(6, 10)])
        for row in rows[:-1]:
            self.assertIn(row[:6], [[one.rows, one.tick, one.most, one.mean, one.pointers, one.retired] for one in made])
        self.assertFalse('id="growth"' in text)

    def test_pictures_tell_their_numbers(self):
        made = drawn(40)
        text = self.page(self.file(text_of(made)), "--banks", "2", "--spares", "8")
        self.assertEqual("1,600 behind 4,000 rows, half of it by row 2,000", told_of(text, "Most pulses of an array line"))
        self.assertEqual("160 behind 4,000 rows, of 8,000 pulses of all array lines", told_of(text, "Mean pulses of an array line"))
        self.assertEqual("120 behind 4,000 rows, the first by row 100", told_of(text, "Active pointers of all array lines"))
        self.assertEqual("8 of 16 behind 4,000 rows, the first by row 500, half of all by row 4,000", told_of(text, "Spares in use"))
        self.assertTrue(">half of the 16 spares<" in text)
        self.assertRegex(told_of(text, "Outcomes between snapshots"), r"^stored 2,400 of 4,000 rows, 50\.0 to .*; full 100 of 4,000 rows, ")
        for picture in re.findall(r"(?s)<svg .*?</svg>", text):
            parts = xml.etree.ElementTree.fromstring(picture)
            self.assertTrue(parts[0].text and parts[1].tag.endswith("desc") and parts[1].text)

    def test_half_of_the_spares_is_marked_where_they_are_known(self):
        file = self.file(text_of(drawn(9)))
        self.assertFalse(">half of the" in self.page(file))
        self.assertTrue(">half of the 32 spares<" in self.page(file, "--options", "stream --print snapshots --every 100 --psi 9"))
        two = [file, file, "--options", "--spares 8", "--options", "--spares 4"]
        self.assertFalse(">half of the" in self.page(*two))
        self.assertTrue(">half of the 32 spares<" in self.page(*two[:-1], "--spares 8"))

    def test_several_runs_are_curves_of_one_picture(self):
        files = [self.file(text_of(drawn(count))) for count in (9, 30, 4)]
        names = [word for name in ("short", "long", "<last>") for word in ("--name", name)]
        text = self.page(*files, *names)
        for title in ("Most pulses of an array line", "Mean pulses of an array line", "Active pointers of all array lines", "Spares in use"):
            picture = re.search(rf"(?s)<title>{title}</title>.*?</svg>", text).group()
            self.assertEqual(1, text.count(f"<title>{title}</title>"))
            for number, name in enumerate(("short", "long", "&lt;last&gt;"), 1):
                self.assertIn(f">{number}: {name}</text>", picture)
                self.assertRegex(picture, rf">{number}: [\d,]+</text>")
                self.assertIn(f"{name}: ", picture.partition("</desc>")[0])
        self.assertEqual([1, 0], [text.count(f"<title>{word} between snapshots</title>") for word in ("Full", "Worn")])
        self.assertEqual(3, len(Tables(text).found["aging"]))

    def test_a_curve_that_lies_on_another_is_dashed(self):
        files = [self.file(text_of(drawn(9))), self.file(text_of(drawn(9))), self.file(text_of(drawn(9, most=900)))]
        text = self.page(*files, "--name", "a", "--name", "b", "--name", "c")
        for title, dashed in (("Mean pulses of an array line", [False, True, True]), ("Most pulses of an array line", [False, True, False])):
            picture = re.search(rf"(?s)<title>{title}</title>.*?</svg>", text).group()
            keys = [re.search(rf"<polyline [^>]*>\s*<text [^>]*>{at}: {name}<", picture).group() for at, name in ((1, "a"), (2, "b"), (3, "c"))]
            self.assertEqual(dashed, ["stroke-dasharray" in key for key in keys])

    def test_a_run_without_snapshots_or_without_wear_is_told(self):
        none = drawn(3)
        none = [one._replace(retired=0, pointers=0) for one in none]
        text = self.page(self.file(text_of(none)), self.file("row,outcome,tick,place,data\n1,full,0,,\n"), "--name", "a", "--name", "b")
        self.assertIn("No pointer is active. No spare is in use. No snapshots of b.", text)
        self.assertIn("No results of this run.", text)

    def test_a_stream_that_has_not_ended(self):
        text = self.page(self.file(text_of(drawn(5)[:3])))
        missing = 300 - drawn(5)[2].known
        self.assertIn(f"{missing} of 300 rows had no outcome yet", text)

    def test_no_row_at_all(self):
        self.page(self.file(text_of([pcm.Snapshot(*[0] * len(pcm.Snapshot._fields))])))

    def test_a_thousand_snapshots_take_a_page_less_than_a_second(self):
        file = self.file(text_of(drawn(1000)))
        begun = sum(os.times()[:4])
        text = self.page(file)
        self.assertLess(sum(os.times()[:4]) - begun, 1)
        self.assertLess(len(text), 100_000)
        self.assertEqual(20, len(Tables(text).found["aging"][0][1:]))

    def test_files_that_are_none(self):
        good = text_of(drawn(5))
        lines = good.splitlines()
        self.refused(3, "file1 row 2: most", self.file(good.replace(lines[2], ",".join([*lines[2].split(",")[:14], "x", *lines[2].split(",")[15:]]))))
        self.refused(3, "row 3: fields", self.file(good.replace(lines[3], "1,2")))
        self.refused(3, "row 3: order of rows", self.file(good.replace(lines[3], lines[1])))
        self.refused(3, "no snapshot", self.file(HEADER))
        self.refused(3, "row 0: header", self.file(HEADER.replace("most", "moist")))
        self.refused(3, "8 spares in use, where a module of these options has 4", self.file(good), "--banks", "1", "--spares", "4")
        self.refused(2, "snapshots, where --snapshots has some", self.file(good), "--snapshots", self.file(good))
        self.refused(3, "a trace, where snapshots", self.file(good), "--trace", self.file("tick,op,arg,data\n"))
        rows = self.file("row,outcome,tick,place,data\n1,full,0,,\n")
        self.refused(3, "rows 500, where the run's other files have 1", rows, "--snapshots", self.file(good))
        self.refused(2, "--every is for --run", self.file(good), "--every", "3")

    def test_words_at_the_ends_of_curves_stand_apart_and_within(self):
        picture, axis = Picture(400, 200, "x", "", VARIABLES), plots.fitting("", 10)
        series = [plots.Series("", "blue", [(0, 0), (10, value)]) for value in (0, 0, 0, 10, 10, 5)]
        panel = plots.Panel("", plots.Axis("", 0, 10, []), axis, series)
        plots.at_the_ends(picture, panel, plots.Room(10, 20, 300, 130), list("abcdef"))
        heights = sorted(float(re.search(r' y="([\d.]+)"', part).group(1)) for part in picture.parts)
        self.assertTrue(all(after - before >= 14 for before, after in zip(heights, heights[1:])), heights)
        self.assertTrue(20 <= heights[0] and heights[-1] <= 154, heights)

    def test_long_names_are_cut_and_keys_wrap(self):
        self.assertEqual("short", charts.shortened("short", 400))
        self.assertTrue(plots.width_of(charts.shortened("wide " * 40, 400), 12) <= 400)
        series = [plots.Series("a name of words", "blue", ())] * 7
        rows = plots.key_rows(series, 300)
        self.assertEqual((7, True), (sum(map(len, rows)), len(rows) > 2))

    def test_samples_end_with_the_last_and_always_serve_more_rows(self):
        for count in (1, 2, 19, 20, 21, 399, 1000):
            made = drawn(count)
            for most in (1, 20, 240):
                samples = tallies.sampled(made, most)
                self.assertEqual(made[-1], samples[-1])
                self.assertEqual(min(most, count) + 1, len(samples))
                self.assertTrue(all(before.rows < after.rows for before, after in zip(samples, samples[1:])))
                for word in ("stored", "full"):
                    total = sum(share * (b.rows - a.rows) / 100 for share, a, b in zip(tallies.shares(samples, word), samples, samples[1:]))
                    self.assertAlmostEqual(getattr(made[-1], word), total)


class Streams(Room):
    """What the program of streams prints, over its other prints."""

    def snapshots_of(self, words, trace, every=100):
        return self.file(printed("stream", *words.split(), "--print", "snapshots", "--every", str(every), given=pathlib.Path(trace).read_bytes()))

    def test_the_last_snapshot_is_what_the_summary_and_the_wear_report_tell(self):
        spares = worn = 0
        for words in RUNS:
            with self.subTest(words):
                files = self.files_of(words)
                file = self.snapshots_of(words, files["trace"])
                made = list(pcm.read_snapshots(pathlib.Path(file).read_text().splitlines()))
                self.assertEqual([*range(100, 1501, 100), 1500], [one.rows for one in made])
                last = made[-1]._asdict()
                summary = dict(line.split() for line in pathlib.Path(files["summary"]).read_text().splitlines())
                self.assertEqual({word: int(number) for word, number in summary.items()}, {word: last[word] for word in summary})
                pulses = [int(line.split(",")[2]) for line in pathlib.Path(files["wear"]).read_text().splitlines()[1:]]
                self.assertEqual((max(pulses), sum(pulses) // len(pulses)), (made[-1].most, made[-1].mean))
                image = pcm.Image.read(pathlib.Path(files["image"]).read_bytes())
                self.assertEqual(sum(len(image.pointers(at)) for at in range(len(image.cells))), made[-1].pointers)
                spares, worn = spares + last["retired"], worn + last["worn"]
        self.assertTrue(spares and worn)

    def test_snapshots_and_rows_of_one_run_share_a_page(self):
        words = f"{AGED} --seed 1"
        files = self.files_of(words, command="stream")
        file = self.snapshots_of(words, files["trace"])
        more = [word for kind in ("trace", "wear", "image", "summary") for word in (f"--{kind}", files[kind])]
        text = self.page(files["results"], *more, "--snapshots", file, "--options", words, "--name", "x")
        made = self.page("--run", files["trace"], "--every", "100", "--options", words, "--name", "x")
        self.assertEqual(came_of(text), came_of(made))
        for section in ("aging", "wear", "pointers", "reads", "growth", "pulses"):
            self.assertEqual(1, text.count(f'<section id="{section}">'), section)
        alone = self.page(file, "--summary", files["summary"], "--wear", files["wear"], "--options", words)
        self.assertEqual(*(Tables(it).found["aging"] for it in (text, alone)))
        other = self.files_of(words.replace("--seed 1", "--seed 2"))
        self.refused(3, "where the run's other files have", other["results"], "--snapshots", file, "--options", words)
        for kind in ("wear", "image", "summary"):
            self.refused(3, "where the run's other files have|--seed is 2", file, f"--{kind}", other[kind], "--options", words)

    def test_a_trace_is_streamed_from_rows_from_a_file_or_drawn(self):
        words = {"banks": 2, "lines": 8, "lo": 5, "hi": 60, "seed": 4}
        drawn_too = {"rows": 3000, "cuts": 5}
        made = list(pcm.snapshots(input="drawn", every=7, **words, **drawn_too))
        self.assertEqual([*range(7, 3001, 7), 3000], [one.rows for one in made])
        gen = [word for name, value in {**words, **drawn_too}.items() if name not in ("lo", "hi") for word in (f"--{name}", str(value))]
        trace = self.file(printed("gen", *gen))
        self.assertEqual(made, list(pcm.snapshots(trace, every=7, **words)))
        with open(trace, encoding="ascii") as file:
            self.assertEqual(made, list(pcm.snapshots(pcm.read_trace(file), every=7, **words)))
        self.assertEqual(made[-1:], list(pcm.snapshots(trace, **words))[-1:])

    def test_the_power_stays_off(self):
        made = list(pcm.snapshots([pcm.Write(0, 7, b"\xff" * 64), pcm.Settle(7)], every=1, end="off"))
        # (the cut that is added is a row: a snapshot stands behind it, and then the last one)
        self.assertEqual([(1, 0, 0), (2, 0, 1), (2, 1, 1)], [(one.rows, one.queued, one.cut) for one in made])

    def test_snapshots_come_while_rows_are_handed_in(self):
        taken = []

        def many():
            for tick in range(300_000):
                taken.append(tick)
                yield pcm.Read(10 * tick, tick % 4)

        made = pcm.snapshots(many(), every=10, banks=1, regions=1, lines=4)
        self.assertEqual([10, 20], [next(made).rows, next(made).rows])
        made.close()
        self.assertLess(len(taken), 200_000)

    def test_faults_carry_what_those_of_a_module_do(self):
        with self.assertRaises(pcm.UsageError):
            list(pcm.snapshots([], every=0))
        seen = []
        with self.assertRaises(pcm.TraceError) as wrong:
            for one in pcm.snapshots([pcm.Read(5, 0), pcm.Read(4, 0)], every=1):
                seen.append(one.rows)
        self.assertEqual((2, "order", [1]), (wrong.exception.row, wrong.exception.kind, seen))
        with self.assertRaises(FileNotFoundError):
            list(pcm.snapshots([], program="/nowhere/pcm"))
        with self.assertRaises(pcm.SnapshotError):
            list(pcm.snapshots([], program=[sys.executable, "-c", "print('x')"]))

        def broken():
            yield pcm.Read(0, 0)
            raise KeyError("mine")

        with self.assertRaisesRegex(KeyError, "mine"):
            list(pcm.snapshots(broken(), every=1))


if __name__ == "__main__":
    unittest.main()
