"""Tests of the report: its numbers against the program's own, its form, and wrong files."""
import contextlib
import html.parser
import io
import os
import pathlib
import re
import subprocess
import sys
import tempfile
import unittest
import xml.etree.ElementTree

HERE = pathlib.Path(__file__).resolve().parent
sys.path[:0] = [str(HERE.parent), str(HERE)]
import pcm  # noqa: E402
from leaks import setUpModule, tearDownModule  # noqa: E402, F401
from pcm import charts, report, runs, tallies  # noqa: E402
from pcm.drawing import DARK, LIGHT  # noqa: E402

# Runs over cells that wear out, with cuts, both homes of the registers, each policy, lines of both lengths, and banks that find no spare.
AGED = "--banks 2 --regions 2 --lines 8 --lo 5 --hi 60 --misses 2 --psi 3"
RUNS = [
    f"{AGED} --registers guarded --seed 1 --policy pause",
    f"{AGED} --registers array --seed 2 --policy pause",
    f"{AGED} --registers guarded --seed 3 --policy plain --write-queue 2",
    f"{AGED} --registers array --seed 4 --policy plain --write-queue 2",
    f"{AGED} --registers guarded --seed 5 --policy cancel --read-queue 1",
    f"{AGED} --registers array --seed 6 --policy cancel --read-queue 1",
    f"{AGED} --registers guarded --seed 7 --line 128",
    f"{AGED} --registers array --seed 8 --line 128 --spares 0",
    "--banks 1 --regions 1 --lines 4 --spares 1 --lo 3 --hi 20 --seed 9 --registers guarded",
    "--banks 4 --regions 1 --lines 16 --spares 3 --lo 20 --hi 90 --psi 1 --seed 10 --registers array --write-queue 4",
]
SHAPE = ("--banks", "--regions", "--lines", "--line", "--seed")


def printed(*words, given=b""):
    return subprocess.run([*pcm.program(), *words], input=given, stdout=subprocess.PIPE, check=False).stdout


def shape_of(words):
    parts = words.split()
    return [part for name, value in zip(parts[::2], parts[1::2]) if name in SHAPE for part in (name, value)]


def came_of(text):
    """What a page says but for the options and files."""
    return text.partition("What came of it</h2>")[2]


class Tables(html.parser.HTMLParser):
    """The tables of a page, by their class, each a list of rows of cells; numbers as numbers."""

    def __init__(self, text):
        super().__init__()
        self.found, self.cell = {}, None
        self.feed(text)

    def handle_starttag(self, tag, attrs):
        if tag == "table":
            self.rows = []
            self.found.setdefault(dict(attrs).get("class", ""), []).append(self.rows)
        elif tag == "tr":
            self.rows.append([])
        elif tag in ("td", "th"):
            self.cell = ""

    def handle_data(self, data):
        if self.cell is not None:
            self.cell += data

    def handle_endtag(self, tag):
        if tag in ("td", "th"):
            plain = self.cell.replace(",", "")
            self.rows[-1].append(float(plain) if re.fullmatch(r"\d+(\.\d+)?", plain) else self.cell)
            self.cell = None


class Room(unittest.TestCase):
    """Tests in a folder of their own."""

    def setUp(self):
        self.room = tempfile.TemporaryDirectory()
        self.addCleanup(self.room.cleanup)
        self.files = 0

    def file(self, data):
        self.files += 1
        path = pathlib.Path(self.room.name) / f"file{self.files}"
        path.write_bytes(data if isinstance(data, bytes) else data.encode())
        return str(path)

    def files_of(self, words, rows=1500, cuts=12, step=12, command="run"):
        """The files of a run: its trace, results, wear report, image and summary."""
        drawn = [*shape_of(words), "--rows", str(rows), "--cuts", str(cuts), "--step", str(step), "--hot", "6"]
        trace = printed("gen", *drawn)
        made = {"trace": trace, "results": printed(command, *words.split(), given=trace)}
        made.update({what: printed("run", *words.split(), "--print", what, given=trace) for what in ("wear", "image", "summary")})
        return {name: self.file(data) for name, data in made.items()}

    def page(self, *words):
        name = self.file("")
        told = io.StringIO()
        with contextlib.redirect_stderr(told):
            status = report.main([*words, "--output", name])
        self.assertEqual((0, ""), (status, told.getvalue()))
        return pathlib.Path(name).read_text(encoding="utf-8")

    def refused(self, status, line, *words):
        told = io.StringIO()
        with contextlib.redirect_stderr(told), contextlib.redirect_stdout(io.StringIO()):
            self.assertEqual(status, report.main(words))
        self.assertRegex(told.getvalue(), line)
        self.assertEqual(1, told.getvalue().count("\n"))


class Numbers(Room):
    def compare(self, words, files, text):
        tables = Tables(text).found
        summary = dict(line.split() for line in pathlib.Path(files["summary"]).read_text().splitlines())
        summary = {word: int(number) for word, number in summary.items()}
        counts = {row[0]: row[2] for row in tables["counts"][0][1:]}
        self.assertEqual({**{word: summary[word] for word in runs.OUTCOMES}, "all": summary["rows"]}, counts)
        wear = [line.split(",") for line in pathlib.Path(files["wear"]).read_text().splitlines()[1:]]
        groups = tables["wear"][0][1:]
        self.assertEqual(len(wear), sum(row[2] for row in groups))
        self.assertEqual(summary["pulses"], sum(row[3] for row in groups))
        self.assertEqual(summary["retired"], sum(row[7] for row in groups))
        self.assertEqual(max(int(line[2]) for line in wear), max(row[5] for row in groups))
        for row in groups:
            self.assertEqual(row[5], int(wear[int(row[6])][2]))
            self.assertEqual(str(int(row[1])), wear[int(row[6])][1])
        pulses = {str(row[0]): row[1:] for row in tables["pulses"][0][1:]}
        self.assertEqual([summary["stored"], summary["pulses"]], [pulses["all"][0], sum(pulses["all"][1:3])])
        for bank in {line[1] for line in wear}:
            here = [int(line[2]) for line in wear if line[1] == bank and line[3] != "control"]
            self.assertEqual(sum(here), pulses[f"{bank}.0"][1])
        self.assertAlmostEqual(summary["pulses"] / summary["stored"], pulses["all"][3], delta=0.0051)
        self.compare_waits(files, tables)

    def compare_waits(self, files, tables):
        came = [int(line.split(",")[0]) for line in pathlib.Path(files["trace"]).read_text().splitlines()[1:]]
        ticks, ends = {word: [] for word in runs.OUTCOMES}, {word: [] for word in runs.OUTCOMES}
        for line in pathlib.Path(files["results"]).read_text().splitlines()[1:]:
            fields = line.split(",")
            ticks[fields[3]].append(int(fields[4]) - came[int(fields[0]) - 1])
            ends[fields[3]].append(int(fields[4]))
        for kind in ("reads", "writes"):
            for row in tables[kind][0][1:]:
                both = {"answered": ("read", "forwarded"), "stored or merged": ("stored", "merged")}
                here = sorted(tick for word in both.get(row[0], row[:1]) for tick in ticks[word])
                self.assertEqual(len(here), row[1])
                for percent, number in zip((50, 90, 99, 99.9), row[3:7]):
                    wanted = next((value for at, value in enumerate(here, 1) if 1000 * at >= round(10 * percent) * len(here)), "–")
                    self.assertEqual(wanted, number)
                self.assertEqual(here[-1] if here else "–", row[7])
        reads, writes = (tables["columns"][at][1:] for at in range(2))
        self.assertEqual(len(ticks["read"]), sum(row[1] for row in reads))
        self.assertEqual([len(ticks["stored"]), len(ticks["merged"])], [sum(row[at] for row in writes) for at in (1, 2)])
        for until, stored, _, lost in tables["growth"][0][1:]:
            self.assertEqual([sum(tick <= until for tick in ends[word]) for word in ("stored", "lost")], [stored, lost])
        self.assertEqual([len(ticks["stored"]), len(ticks["lost"])], [stored, lost])

    def test_those_of_ten_runs_are_the_programs(self):
        worn = lost = spares = 0
        for words in RUNS:
            with self.subTest(words):
                files = self.files_of(words)
                more = [word for kind in ("trace", "wear", "image", "summary") for word in (f"--{kind}", files[kind])]
                text = self.page(files["results"], *more, "--options", f"run {words}", "--name", "x")
                self.compare(words, files, text)
                made = self.page("--run", files["trace"], "--options", words, "--name", "x")
                self.assertEqual(came_of(text), came_of(made))
                counts = {row[0]: row[2] for row in Tables(text).found["counts"][0][1:]}
                worn, lost = worn + counts["worn"] + counts["queued"], lost + counts["lost"]
                spares += sum(row[7] for row in Tables(text).found["wear"][0][1:])
        self.assertTrue(worn and lost and spares)

    def test_a_streams_rows_give_the_same_page(self):
        words = f"{AGED} --seed 1"
        ran, streamed = self.files_of(words), self.files_of(words, command="stream")
        self.assertIn("row,outcome", pathlib.Path(streamed["results"]).read_text()[:20])
        files = (("--trace", it["trace"], "--wear", it["wear"], it["results"]) for it in (ran, streamed))
        one, two = (self.page(*it, "--options", words, "--name", "x") for it in files)
        self.assertEqual(came_of(one), came_of(two))

    def test_a_cut_behind_which_the_power_stays_off_and_settles(self):
        trace = b"tick,op,arg,data\n0,W,0," + b"ff" * 64 + b"\n3,S,,\n3,Q,,\n3,L,,\n7,U,1,\n"
        rows = printed("stream", "--end", "off", given=trace)
        tables = Tables(self.page(self.file(rows), "--trace", self.file(trace), "--end", "off")).found
        counts = {row[0]: row[2] for row in tables["counts"][0][1:]}
        self.assertEqual((1, 1, 2), (counts["queued"], counts["cut"], counts["all"]))

    def test_a_stream_that_stopped_at_a_refusal(self):
        words = "--banks 1 --regions 1 --lines 4 --write-queue 1"
        trace = b"tick,op,arg,data\n" + b"".join(b"%d,W,%d,%s\n" % (at, at, b"ff" * 64) for at in range(4))
        for end, counts in (("drain", (1, 0, 1, 0, 2)), ("off", (0, 1, 1, 1, 3))):
            rows = printed("stream", *words.split(), "--until", "refused", "--end", end, given=trace)
            told = ("--trace", self.file(trace), "--until", "refused", "--end", end, "--options", words)
            found = {row[0]: row[2] for row in Tables(self.page(self.file(rows), *told)).found["counts"][0][1:]}
            self.assertEqual(counts, tuple(found.get(word, 0) for word in ("stored", "queued", "full", "cut", "all")))
        self.refused(3, "3 rows, where .* has 4", self.file(rows), "--trace", self.file(trace), "--options", words)

    def test_no_more_writes_wait_than_the_queue_holds_and_as_many_where_some_are_full(self):
        words = "--banks 1 --regions 1 --lines 64 --write-queue 5"
        files = self.files_of(words, step=4)
        tables = Tables(self.page(files["results"], "--trace", files["trace"], "--options", words)).found
        counts = {row[0]: row[2] for row in tables["counts"][0][1:]}
        self.assertGreater(counts["full"], 0)
        self.assertEqual(5, tables["levels"][0][1][1])

    def test_defaults_are_the_programs(self):
        trace = printed("gen", "--rows", "2000", "--cuts", "3", "--step", "4")
        words = [word for name, value in runs.DEFAULTS.items() for word in (f"--{name}", value)]
        for what in ("results", "image"):
            self.assertEqual(printed("run", "--print", what, given=trace), printed("run", *words, "--print", what, given=trace))
        drawn = [word for name, value in runs.DRAWN.items() for word in (f"--{name}", value)]
        self.assertEqual(printed("gen"), printed("gen", *drawn))

    def test_steps_of_heat_have_their_bounds(self):
        for most in (1, 2, 7, 8, 9, 100, 1363):
            for value in range(1, most + 1):
                least, greatest = charts.bounds(charts.heat(value, most), most)
                self.assertTrue(least <= value <= greatest)
            self.assertEqual(most, charts.bounds(charts.heat(most, most), most)[1])

    def test_columns_hold_the_values_that_they_name(self):
        for limit, most in ((0, 0), (5, 5), (39, 39), (100, 5000)):
            bins = charts.binned(limit, most)
            for value in range(most + 1):
                words = bins.words(bins.counted([value]).index(1))
                named = [int(it.replace(",", "")) for it in re.findall(r"[\d,]+", words)]
                self.assertTrue(named[0] <= value and (words.endswith("more") or value <= named[-1]), (value, words))

    def test_quantiles_of_few_values(self):
        self.assertEqual([None, 7, 1, 2], [tallies.quantile(*it) for it in (([], 50), ([7], 99.9), ([1, 2], 50), ([1, 2], 50.1))])


class Pages(Room):
    def test_it_stands_alone_and_each_picture_has_a_text(self):
        files = self.files_of(RUNS[1])
        text = self.page(files["results"], "--trace", files["trace"], "--wear", files["wear"], "--image", files["image"], "--options", RUNS[1])
        self.assertEqual({"http://www.w3.org/2000/svg"}, set(re.findall(r"\w+://[^\"' <]*", text)))
        self.assertIsNone(re.search(r"<script|<link|<img|src=|@import|javascript:|url\((?!#)", text))
        pictures = re.findall(r"(?s)<svg .*?</svg>", text)
        self.assertEqual(len(pictures), text.count("<figure>"))
        self.assertGreater(len(pictures), 12)
        for picture in pictures:
            parts = xml.etree.ElementTree.fromstring(picture)
            self.assertEqual("img", parts.get("role"))
            self.assertTrue(parts[0].tag.endswith("title") and parts[0].text)
        titles = [picture for picture in pictures if "<desc>" not in picture]
        self.assertEqual(text.count("Colours and outlines"), len(titles))
        self.assertEqual(set(LIGHT), set(DARK))
        self.assertLessEqual(set(re.findall(r"var\(--([\w-]+)\)", text)), set(LIGHT))
        for word in ("prefers-color-scheme:dark", "@media print", "<details>"):
            self.assertIn(word, text)

    def test_names_are_written_as_words(self):
        files = self.files_of(RUNS[8])
        text = self.page(files["results"], "--title", "<b>&\"x\"", "--name", "<i>", "--options", RUNS[8])
        self.assertNotIn("<b>", text)
        self.assertNotIn("<i>", text)
        self.assertIn("&lt;b&gt;&amp;&quot;x&quot;", text)

    def test_several_runs_stand_side_by_side_with_one_scale(self):
        trace = self.file(printed("gen", "--rows", "2000", "--step", "20"))
        policies = [word for it in ("pause", "plain", "cancel") for word in ("--options", f"--policy {it}")]
        text = self.page("--run", trace, "--misses", "3", *policies)
        tables = Tables(text).found
        self.assertEqual(3, len(tables["counts"]))
        for number in range(3):
            name = f"<h3>{policies[2 * number + 1]}</h3>"
            self.assertEqual(1, text.count(name, text.index('id="reads"'), text.index('id="writes"')))
        self.assertEqual(1, len({tuple(row[0] for row in table) for table in tables["columns"][:3]}))
        bold = re.findall(r'<code>--([\w-]+)</code></th><td class="words differs">', text)
        self.assertEqual(["policy"], bold)

    def test_the_options_are_those_that_are_given_or_that_a_file_tells(self):
        files = self.files_of(RUNS[9])
        text = self.page(files["results"], "--wear", files["wear"], "--image", files["image"])
        options = {row[0]: row[1] for row in Tables(text).found["options"][0][1:]}
        self.assertEqual({"--banks": "4 by the wear report", "--seed": "10 by the image"}, {name: options[name] for name in ("--banks", "--seed")})
        self.assertIn("--write-queue 32", text)

    def test_by_pipes(self):
        files = self.files_of(RUNS[8])
        words = [sys.executable, "-m", "pcm"]
        around = {**os.environ, "PYTHONPATH": str(pathlib.Path(pcm.__file__).parent.parent)}
        with open(files["results"], "rb") as results:
            more = ["report", "-", "--trace", files["trace"], "--options", RUNS[8], "--name", "x"]
            done = subprocess.run([*words, *more], stdin=results, capture_output=True, env=around, check=True)
        wanted = self.page(files["results"], "--trace", files["trace"], "--options", RUNS[8], "--name", "x")
        self.assertEqual(came_of(wanted), came_of(done.stdout.decode()))
        self.assertIn("standard input", done.stdout.decode())
        none = subprocess.run(words, capture_output=True, env=around, check=False)
        self.assertEqual((2, b""), (none.returncode, none.stdout))

    def test_little_or_nothing_happened(self):
        for rows in ("", "0,C,,\n", "5,R,0,\n"):
            trace = self.file("tick,op,arg,data\n" + rows)
            self.page("--run", trace, "--banks", "1", "--lines", "4", "--regions", "1", "--spares", "0")

    def test_names_and_traces_in_any_bytes(self):
        files = self.files_of(RUNS[8])
        folder, results = os.fsencode(self.room.name), pathlib.Path(files["results"]).read_bytes()
        name = os.path.join(folder, b"caf\xe9.csv")
        with open(name, "wb") as file:
            file.write(b"\xef\xbb\xbf" + results)
        rows = pathlib.Path(files["trace"]).read_bytes().splitlines()
        quoted = b"\r\n".join(b'"' + row.replace(b",", b'","') + b'"' for row in rows)
        marked = self.file(b"\xef\xbb\xbf" + quoted.replace(b"\r\n", b"\r\n\r\n", 1) + b"\r\n\n")
        more = ["--options", RUNS[8], "--name", "x"]
        plain, text = self.page(files["results"], "--trace", files["trace"], *more), self.page(os.fsdecode(name), "--trace", marked, *more)
        self.assertEqual(came_of(plain), came_of(text))
        self.assertIn("caf\ufffd.csv", text)
        self.refused(4, "caf\ufffd.none: No such file", os.fsdecode(os.path.join(folder, b"caf\xe9.none")))

    def test_nanoseconds_are_ticks_times_what_is_told(self):
        files = self.files_of(RUNS[8])
        words = [files["results"], "--trace", files["trace"], "--options", RUNS[8]]
        plain, text = self.page(*words), self.page(*words, "--tick-ns", "2.5")
        glance = {row[0]: row[1] for row in Tables(text).found["glance"][0][1:]}
        self.assertEqual(2.5 * glance["ticks of a read, 99%"], glance["ns of a read, 99%"])
        for kind in ("reads", "writes"):
            ticks, times = Tables(plain).found[kind][0][1:], Tables(text).found[f"{kind} ns"][0][1:]
            self.assertEqual([row[:2] for row in ticks], [row[:2] for row in times])
            self.assertEqual([2.5 * row[-1] if row[-1] != "–" else "–" for row in ticks], [row[-1] for row in times])
        self.assertIn("Nanoseconds are ticks times 2.5", text)
        self.assertNotIn("anosecond", plain)
        for wrong in ("0", "-1", "1e3", "x"):
            self.refused(2, "--tick-ns takes a number above 0", *words, "--tick-ns", wrong)

    def test_the_first_refused_row(self):
        trace = self.file(printed("gen", "--rows", "2000", "--step", "1", "--hot", "4"))
        text = self.page("--run", trace, "--write-queue", "2", "--misses", "3")
        results = printed("run", "--write-queue", "2", "--misses", "3", given=pathlib.Path(trace).read_bytes()).decode().splitlines()
        first = next(line.split(",") for line in results if ",full," in line or ",worn," in line)
        glance = {row[0]: row[1] for row in Tables(text).found["glance"][0][1:]}
        self.assertEqual([int(first[0]), int(first[4])], [glance["first row refused (full or worn)"], glance["tick of that"]])

    def test_the_dashed_lines_are_in_the_table(self):
        files = self.files_of(RUNS[2], step=4)
        text = self.page(files["results"], "--trace", files["trace"], "--options", RUNS[2])
        for kind, row in (("reads", "read"), ("writes", "stored or merged")):
            there = {row[0]: row for row in Tables(text).found[kind][0][1:]}[row]
            section = text[text.index(f'id="{kind}"'):]
            marks = re.findall(r">(50|99)%: ([\d,]+)</text>", section[:section.index("</svg>")])
            self.assertEqual([("50", there[3]), ("99", there[5])], [(at, float(number.replace(",", ""))) for at, number in marks])

    def test_long_counts_stand_beside_their_bars(self):
        for most in (999_999, 1_234_567, 12_345_678, 4_294_967_294):
            counts = {**dict.fromkeys(runs.OUTCOMES, 0), "stored": most, "read": most // 3}
            parts = xml.etree.ElementTree.fromstring(charts.of_counts(counts, most, "").placed())
            bars = [float(it.get("x")) + float(it.get("width")) for it in parts if it.tag.endswith("rect")]
            count = next(it for it in parts if it.text == f"{most:,}")
            self.assertLess(max(bars), float(count.get("x")) - charts.width_of(count.text, 13) + 1)

    def test_a_wear_report_with_more_columns(self):
        files = self.files_of(RUNS[8])
        lines = pathlib.Path(files["wear"]).read_text().splitlines()
        more = self.file("\n".join([lines[0] + ",pointers,stuck,changes,senses,set,reset", *(line + ",4,,9,7,,8" for line in lines[1:])]) + "\n")
        tables = Tables(self.page(files["results"], "--wear", more, "--options", RUNS[8])).found
        self.assertEqual(4 * len(lines[1:]), sum(row[3] for row in tables["pointers"][0][1:]))

    def test_twenty_thousand_rows_take_less_than_two_seconds_of_a_processor(self):
        trace = self.file(printed("gen", "--rows", "20000", "--cuts", "20"))
        begun = sum(os.times()[:4])
        self.page("--run", trace)
        self.assertLess(sum(os.times()[:4]) - begun, 2)


class WrongFiles(Room):
    def setUp(self):
        super().setUp()
        self.words = RUNS[0]
        self.good = self.files_of(self.words, rows=200)

    def altered(self, kind, old, new):
        text = pathlib.Path(self.good[kind]).read_text()
        self.assertRegex(text, old)
        return self.file(re.sub(old, new, text, count=1))

    def test_words_that_ask_for_nothing(self):
        self.refused(2, "usage")
        self.refused(2, r"no option --lanes \(did you mean --lines\?\)", "x", "--lanes", "3")
        self.refused(2, "no option -o; the page's file is named by --output FILE", "x", "-o", "y")
        self.refused(2, "no option -x.csv; a file by this name is ./-x.csv", "-x.csv")
        self.refused(2, "--progress takes no value", "x", "--progress=1")
        self.refused(2, "--trace wants a value", "x", "--trace")
        self.refused(2, "--options: no option --lanes", "x", "--options", "--lanes 3")
        self.refused(2, "No closing quotation", "x", "--options", "'--psi 3")
        self.refused(2, "--banks doesn't take 'x'", self.good["results"], "--banks", "x")
        self.refused(2, "--policy doesn't take 'pausing'", self.good["results"], "--options", "--policy pausing")
        self.refused(2, "2 times --trace, where there are 3 runs", "a", "b", "c", "--trace", "x", "--trace", "y")
        self.refused(2, "a trace is wanted", "--run")
        self.refused(2, "--run makes wear", "--run", "x", "--wear", "y")
        self.refused(2, r"--lines 5: .*power of two.*\(usage: pcm", "--run", self.good["trace"], "--lines", "5")

    def test_files_that_cannot_be_read_or_written(self):
        self.refused(4, "nowhere.csv: No such file", "nowhere.csv")
        self.refused(4, "Is a directory", self.room.name)
        self.refused(5, "No such file", self.good["results"], "--options", self.words, "--output", f"{self.room.name}/no/where.html")

    def test_results_that_are_none(self):
        for old, new, line in (
            ("row,op", "row,up", "row 0: header"), (r"\n3,\w", "\n3,X", "row 3: op"), (r"\n7,", "\n8,", "row 7: row"),
            (r"(\n9,\w,\d+),\w+,", r"\1,gone,", "row 9: outcome"), (r"(\n9,\w,\d+,\w+),\d+,", r"\1,-1,", "row 9: tick"),
            (r"stored,(\d+),\d+", r"stored,\1,", "place"), (r"\n5,[^\n]*", "\n5,W", "row 5: fields"),
            (r"stored,(\d+),\d+", r"stored,\1,9999999", "not of a module"),
        ):
            self.refused(3, line, self.altered("results", old, new), "--options", self.words)
        self.refused(3, "row 0: (header|fields)", self.file(b"\xff\x00\n"))
        self.refused(3, "row 0: header", self.file(b""))
        self.refused(3, "row 2 is missing", self.file("row,outcome,tick,place,data\n1,full,0,,\n3,full,0,,\n"))
        self.refused(3, "row 1 comes twice", self.file("row,outcome,tick,place,data\n1,full,0,,\n1,full,0,,\n"))

    def test_results_that_are_cut_off(self):
        for kind, command in (("results", "run"), ("rows", "stream")):
            told = printed(command, *shape_of(self.words), given=pathlib.Path(self.good["trace"]).read_bytes())
            lines = told.splitlines()
            lines = lines[: max(at for at, line in enumerate(lines, 1) if len(line.rpartition(b",")[2]) == 128)]
            head, comma, digits = lines[-1].rpartition(b",")
            for left in (126, 2, 0):
                cut = b"\n".join([*lines[:-1], head + comma + digits[:left]])
                self.refused(3, f"row {len(lines) - 1}: data$", self.file(cut), "--options", self.words)
            whole = self.file(b"\n".join(lines))
            self.refused(3, r"row \d+: data$", whole, "--options", self.words, "--line", "128")
        self.refused(3, "row 1: data$", self.file("row,outcome,tick,place,data\n1,full,0,,ff\n"))
        both = f"row,outcome,tick,place,data\n1,forwarded,0,,{'f' * 256}\n2,forwarded,0,,{'f' * 128}\n"
        self.refused(3, "row 2: data$", self.file(both))

    def test_other_files_that_are_none(self):
        base = [self.good["results"], "--options", self.words]
        self.refused(3, "row 2: op", *base, "--trace", self.altered("trace", r"(?<=\n)(.*\n\d+),\w,", r"\1,Z,"))
        self.refused(3, "row 0: header", *base, "--trace", self.good["wear"])
        self.refused(3, "row 3: role", *base, "--wear", self.altered("wear", r"(\n2,\d+,\d+),.*", r"\1,lost"))
        self.refused(3, "row 3: pulses", *base, "--wear", self.altered("wear", r"(\n2,\d+),\d+", r"\1,x"))
        self.refused(3, "not the wear report", *base, "--wear", self.altered("wear", r"(\n\d+,\d+,\d+),gap", r"\1,free"))
        self.refused(3, "not a summary", *base, "--summary", self.good["wear"])
        self.refused(3, "image byte 0: magic", *base, "--image", self.good["wear"])

    def test_files_that_are_not_of_one_run(self):
        other = self.files_of(RUNS[9], rows=200)
        base = [self.good["results"], "--options", self.words]
        self.refused(3, "not an outcome of that row", *base, "--trace", other["trace"])
        self.refused(3, "rows, where", *base, "--trace", self.file(pathlib.Path(self.good["trace"]).read_text().rsplit("\n", 2)[0]))
        self.refused(3, "--banks is 4 there, not 2", *base, "--wear", other["wear"])
        self.refused(3, "--banks is 4 there, not 2", *base, "--image", other["image"])
        self.refused(3, "where the run's other files have", *base, "--summary", self.altered("summary", r"stored \d+", "stored 1"))
        pulses = self.altered("summary", r"pulses \d+", "pulses 1")
        self.refused(3, "where the run's other files have", *base, "--wear", self.good["wear"], "--summary", pulses)
        self.refused(3, "not of a module of these options", self.good["results"], "--options", self.words.replace("--seed 1", "--seed 12"))

    def test_a_fault_of_the_trace_is_the_programs(self):
        self.refused(3, r"line 3: its tick 4 is below 5.*\(trace row 2: order\)", "--run", self.file("tick,op,arg,data\n5,R,0,\n4,R,0,\n"))


if __name__ == "__main__":
    unittest.main()
