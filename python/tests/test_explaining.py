"""Tests of explanations that are read back, of their pictures, and of the command that prints and draws them.

explanations.txt has tables that break a clause, each with its options, its rows behind `##`, and what the program says of it behind `--`;
`11..ff` stands for the bytes of a line, of which the first half are 11 and the second ff, and `__` for bytes that a write doesn't give. A
stand-in answers with these texts; where the program that PCM names explains, its own are compared with them."""
import contextlib
import io
import pathlib
import re
import subprocess
import sys
import tempfile
import unittest
import xml.etree.ElementTree
from typing import NamedTuple

HERE = pathlib.Path(__file__).resolve().parent
sys.path[:0] = [str(HERE.parent), str(HERE)]
import pcm  # noqa: E402
from leaks import setUpModule, tearDownModule  # noqa: E402, F401
from pcm import explaining, outcomes, report, timeline  # noqa: E402
from pcm.drawing import LIGHT, width_of  # noqa: E402
from pcm.explanation import RULES  # noqa: E402
from pcm.runs import Source  # noqa: E402
from stand_in import stand_in  # noqa: E402

HEADER, RESULTS = "tick,op,arg,data\n", "row,op,line,outcome,tick,place,data\n"
# Says of each table what is stored for it in the folder that it is handed, and of others that they are right.
STANDIN = """import pathlib, sys
table = sys.stdin.read()
if sys.argv[2] != "explain": sys.exit("not asked for")
if "--banks 5" in " ".join(sys.argv): sys.stderr.write("usage: pcm explain [options]\\n"); sys.exit(2)
if "row,op" not in table: sys.stderr.write("results row 0\\n"); sys.exit(3)
for file in pathlib.Path(sys.argv[1]).glob("*.csv"):
    if file.read_text() == table: print(file.with_suffix(".txt").read_text(), end=""); sys.exit(1)
print("ok")
"""


class Stored(NamedTuple):
    """A table that breaks a rule, and what is to be said of it."""

    name: str
    options: str
    table: str
    text: str


def whole(text):
    """Text in which the bytes of lines stand in full."""
    return re.sub(r"\b(\w\w)\.\.(\w\w)\b", lambda it: (it[1] * 32 + it[2] * 32).replace("_", "."), text)


def stored():
    """The stored tables, by name."""
    for part in (HERE / "explanations.txt").read_text(encoding="ascii").split("## ")[1:]:
        head, _, rest = part.partition("\n")
        name, _, options = head.partition(" --")
        rows, _, text = rest.partition("--\n")
        pairs = [row.split(" > ") for row in rows.splitlines()]
        told = [f"{at},{_asked(came)},{came.split(',')[2]},{answer}\n" for at, (came, answer) in enumerate(pairs, 1)]
        table = HEADER + "".join(f"{came}\n" for came, _ in pairs) + RESULTS + "".join(told)
        yield Stored(name, f"--{options}", whole(table), whole(text))


def _asked(came):
    return came.split(",")[1].replace("M", "W")


ALL = {it.name: it for it in stored()}


def options_of(one):
    words = one.options.split()
    return {name[2:].replace("-", "_"): value for name, value in zip(words[::2], words[1::2])}


def said(fact="         own    tick 0", right="  right  busy 0", told="  told   busy 3"):
    """The text of an explanation with these lines."""
    lines = ["row 2: serves", "  asks   read of line 1 at tick 0, bank 0", told, "  breaks AtItsTick: words", fact, right]
    return "\n".join(line for line in lines if line) + "\n"


class Forms(unittest.TestCase):
    def fact(self, words):
        key = words.split(" ")[0]
        found = pcm.read_explanation(said(fact=f"         {words}"))
        self.assertEqual((1, found.of(key)), (len(found.facts), found.facts))
        return found.facts[0]

    def rights(self, *words):
        return pcm.read_explanation(said(right="\n".join(f"  right  {it}" for it in words)))

    def test_what_a_row_asks_and_was_told(self):
        told = pcm.read_explanation(ALL["newest bytes"].text)
        self.assertEqual((3, "serves", "NewestBytes"), (told.row, told.rule, told.clause))
        self.assertEqual("a read that is answered has its line's newest bytes, of writes accepted before it", told.sentence)
        self.assertEqual(pcm.Asks("R", 0, 200, 0), told.asks)
        self.assertEqual(pcm.Answer("read", 205, b"\x11" * 64), told.told)
        self.assertEqual(ALL["newest bytes"].text, told.text)
        cut = pcm.read_explanation(ALL["own tick"].text)
        self.assertEqual((pcm.Asks("C", None, 7, None), pcm.Answer("cut", 9, None), None), (cut.asks, cut.told, cut.bank))
        self.assertEqual(pcm.Asks("W", 0, 0, 0), pcm.read_explanation(ALL["merged"].text).asks)
        self.assertIsNone(pcm.read_explanation("ok\n"))

    def test_ticks(self):
        for words, tick in (
            ("own    tick 7", 7), ("least  100 + 5", 105), ("bound  120: 100 + 10 + (1 + 1) * 5", 120),
            ("latest 40140: 1 stored, 2 read and 3 cuts by then", 40140),
        ):
            self.assertEqual(pcm.TickFact(words[:6].strip(), words[7:], tick), self.fact(words))

    def test_rows(self):
        row = "row 3, tick 4: write of line 0, stored 30"
        for key in ("ahead", "next", "first", "other", "newer"):
            self.assertEqual(pcm.RowFact(key, row, 3), self.fact(f"{key:<6} {row}"))
        self.assertEqual(pcm.RowFact("cut", "row 2, tick 3: cut, cut 3", 2), self.fact("cut    row 2, tick 3: cut, cut 3"))
        self.assertEqual(pcm.RowFact("other", "row 9", 9), self.fact("other  row 9"))
        self.assertEqual(pcm.RowFact("from", f"byte 32: {row}", 3, 32), self.fact(f"from   byte 32: {row}"))
        self.assertEqual((1,), self.fact("stale  what is told was newest before row 1").rows)

    def test_that_there_is_no_row(self):
        for words in ("ahead  no write of the line stands", "cut    none comes behind it", "next   no later write of the line is accepted"):
            self.assertEqual(((), None), (self.fact(words).rows, self.fact(words).row))
        self.assertEqual((None, 0), (self.fact("from   byte 0: no write").row, self.fact("from   byte 0: no write").byte))

    def test_rows_that_stand_or_wait(self):
        self.assertEqual(pcm.RowsFact("stand", "2 of 32 writes: rows 1 2", 32, (1, 2)), self.fact("stand  2 of 32 writes: rows 1 2"))
        self.assertEqual(pcm.RowsFact("waits", "0 of 4 reads: rows none", 4, ()), self.fact("waits  0 of 4 reads: rows none"))

    def test_other_facts(self):
        self.assertEqual(pcm.BankFact("bank", "3", 3), self.fact("bank   3"))
        self.assertEqual(pcm.BytesFact("newest", "0aff", b"\x0a\xff"), self.fact("newest 0aff"))
        for words in ("gives every byte of the line", "gives not every byte of the line"):
            self.assertEqual(pcm.Fact("queue", words), self.fact(f"queue  {words}"))
        self.assertEqual(pcm.Fact("why", "beside it"), self.fact("why    beside it"))

    def test_right_answers_of_a_read(self):
        found = self.rights("read 8 to 18, but 15, but 16, data 0aff", "lost 9", "busy 0", "forwarded 0, data 0aff").right
        data = b"\x0a\xff"
        self.assertEqual((pcm.ReadBetween(8, 18, (15, 16), data), pcm.Lost(2, 9), pcm.Busy(2, 0), pcm.Forwarded(2, 0, data)), found)
        self.assertEqual([8, 14, 17, 18], [tick for tick in (7, 8, 14, 15, 16, 17, 18, 19) if found[0].takes(tick)])

    def test_right_answers_of_a_write(self):
        bound = "stored behind 3 by 3 + 640 + 320 for each further store, 10 for each read and 161 for each cut behind it"
        found = self.rights(f"{bound}, below 700, 5 apart from 2 15, not at 30 31", "merged 4", "queued 3", "full 3", "worn 3").right
        self.assertEqual(pcm.StoredBy(3, 640, 320, 10, 161, 700, 5, (2, 15), (30, 31)), found[0])
        self.assertEqual((pcm.Merged(2, 4), pcm.Queued(2, 3), pcm.Full(2, 3), pcm.Worn(2, 3)), found[1:])
        self.assertEqual([7, 10, 20, 29, 32, 643], [it for it in (3, 6, 7, 10, 11, 19, 20, 29, 30, 31, 32, 643, 644) if found[0].takes(it)])
        self.assertEqual([True, False], [found[0].takes(it, stores=1) for it in (699, 700)])
        self.assertEqual(643 + 320 + 20 + 3 * 161, found[0].latest(1, 2, 3))
        self.assertEqual(pcm.StoredBy(3, 640, 320, 10, 161), self.rights(bound).right[0])

    def test_other_right_answers(self):
        self.assertEqual((pcm.Cut(2, 7),), self.rights("cut 7").right)
        self.assertEqual(((), None, 0), (self.rights("none").right, self.rights("none").no_room, self.rights("none").bank))
        full = self.rights("none: bank 3 has no room as it comes")
        self.assertEqual(((), 3, 3), (full.right, full.no_room, full.bank))

    def test_each_stored_text_is_read(self):
        self.assertEqual(set(RULES), {pcm.read_explanation(one.text).rule for one in ALL.values()})


class Refused(unittest.TestCase):
    def refused(self, text, at, words=""):
        with self.assertRaises(pcm.ExplanationError) as caught:
            pcm.read_explanation(text)
        self.assertEqual(at, caught.exception.at)
        self.assertRegex(str(caught.exception), rf"^line {at} of an explanation should be .*{words}.*, and is ")

    def test_the_head(self):
        text = said()
        self.refused("", 1)
        self.refused("ok", 1, "line feed")
        self.refused("ok\n\n", 1, "RULE")
        self.refused(text.replace("serves", "serving"), 1, "RULE")
        self.refused(text.replace("read of", "reads of"), 2, "asks")
        self.refused(text.replace("busy 3", "busier 3"), 3, "told")
        self.refused(text.replace("busy 3", "busy 3, data 00"), 3, "bytes")
        self.refused(text.replace("busy 3", "read 3"), 3, "bytes")
        self.refused(text.replace("AtItsTick: words", "AtItsTick"), 4, "clause")
        self.refused("\n".join(text.split("\n")[:3]) + "\n", 4, "clause")

    def test_facts(self):
        for words in (
            "own    tack 7", "own   tick 7", "unknown 3", "stand  2 of 4 writes: rows 1", "waits  1 of 4 reads: rows none", "cut    row",
            "bank   x", "newest 0", "bound  120: 100 + 10", "from   row 1", "first  row 2, tick 3: cut, cuts 3", "queue  gives", "stale  row 1",
        ):
            with self.subTest(words):
                self.refused(said(fact=f"         {words}"), 5, "fact")

    def test_right_answers(self):
        for words in (
            "read 5, data 00", "read 5 to 9", "read 5 to 9, data 0", "forwarded 0", "lost", "busy 0, data 00", "stored 5", "none at all",
            "stored behind 3 by 4 + 640 + 320 for each further store, 10 for each read and 161 for each cut behind it",
        ):
            with self.subTest(words):
                self.refused(said(right=f"  right  {words}"), 6, "right")
        self.refused(said(right=""), 6, "right")
        self.refused(said(right="  right  busy 0\nmore"), 7, "right")
        self.refused(said(right="  right  none\n  right  busy 0"), 7, "nothing")
        self.refused(said(right="  right  busy 0\n         own    tick 0"), 7, "right")


class Pictures(unittest.TestCase):
    def drawn(self, one):
        told = pcm.read_explanation(one.text)
        options = {name.replace("_", "-"): value for name, value in options_of(one).items()}
        return told, explaining.drawn(told, Source("table", "table", one.table.encode()), options).drawn()

    def test_each_is_well_formed_and_draws_every_row_that_is_named(self):
        for one in ALL.values():
            with self.subTest(one.name):
                told, text = self.drawn(one)
                tree = xml.etree.ElementTree.fromstring(text)
                titles = [it.text for it in tree.iter("{http://www.w3.org/2000/svg}title")]
                for row in {told.row, *(row for fact in told.facts for row in fact.rows)}:
                    self.assertEqual(1, sum(title.startswith(f"row {row}, tick ") for title in titles), (row, titles))
                self.assertIn(f"row {told.row} breaks {told.clause}: {told.sentence}", titles)
                rights = [title for title in titles if title.startswith("right: ")]
                self.assertEqual(max(1, len(told.right)), len(rights))

    def within(self, text):
        """Nothing of a picture stands outside it."""
        tree = xml.etree.ElementTree.fromstring(text)
        wide, high = (float(it) for it in tree.get("viewBox").split()[2:])
        for shape in tree.iter():
            for name, most in (("x", wide), ("y", high), ("cx", wide), ("cy", high)):
                self.assertTrue(0 <= float(shape.get(name, 0)) <= most, shape.attrib)
            if shape.get("text-anchor") == "start":
                self.assertLessEqual(float(shape.get("x")) + width_of(shape.text or "", float(shape.get("font-size"))), wide + 1, shape.text)
        self.assertEqual(900, wide)

    def test_nothing_stands_outside(self):
        for one in ALL.values():
            with self.subTest(one.name):
                self.within(self.drawn(one)[1])

    def test_right_answers_say_their_words_in_full(self):
        text = self.drawn(ALL["apart"])[1]
        for line in ALL["apart"].text.splitlines():
            if line.startswith("  right"):
                self.assertIn(f"<title>right: {line[9:]}</title>", text)

    def test_the_nearest_rows_of_its_bank_are_drawn(self):
        told = pcm.read_explanation(said(fact="         other  row 40, tick 40: read of line 1, read 45"))
        rows = [timeline.TableRow(at, at, "R", at % 2, "read", at + 5) for at in range(1, 61)]
        found, left_out = timeline.around(told, rows, lambda line: 1 - line)
        self.assertEqual([*range(1, 25, 2)], [row.number for row in found if row.number not in (2, 40)])
        self.assertEqual(30 - timeline.OTHERS, left_out)
        picture = timeline.timeline(told, rows, lambda line: 1 - line)
        self.assertIn(f"{left_out} more rows of the bank", picture.drawn())
        self.within(timeline.Drawing(told, rows, 399_988, LIGHT).draw().drawn())

    def test_an_end_before_its_begin_is_drawn(self):
        told = pcm.read_explanation(said(told=f"  told   read 3, data {'00' * 64}", fact="         least  100 + 5", right="  right  none"))
        text = timeline.timeline(told, [timeline.TableRow(at, 100, "R", 0, "read", 3) for at in (1, 2)], lambda line: 0).drawn()
        self.assertNotRegex(text, r"[hv]-?nan|M[\d.]+,[\d.]+h-")
        self.assertIn("right: none", text)

    def test_long_waits_are_drawn_shorter_and_in_order(self):
        times = timeline.Times({0, 1, 11, 1000}, 0, 100)
        places = [times.place(tick) for tick in range(1001)]
        self.assertEqual((sorted(places), 0, 100), (places, places[0], places[-1]))
        self.assertLess(places[1000] - places[11], 30 * (places[1] - places[0]))
        self.assertEqual([50, 50], [timeline.Times({7}, 0, 100).place(tick) for tick in (7, 9)])


class Room(unittest.TestCase):
    """Tests over the stand-in, which is named by a list of words or by PCM."""

    def setUp(self):
        room = tempfile.TemporaryDirectory()
        self.addCleanup(room.cleanup)
        self.room = pathlib.Path(room.name)
        for one in ALL.values():
            for kind, text in (("csv", one.table), ("txt", one.text)):
                (self.room / f"{one.name}.{kind}").write_text(text, encoding="ascii")
        self.words = stand_in(self, self.room, STANDIN, str(self.room))

    def path(self, one):
        return str(self.room / f"{one.name}.csv")

    def parts(self, one):
        """The files of its trace and of its results."""
        trace, found, results = one.table.partition(RESULTS)
        names = [str(self.room / name) for name in ("trace", "results")]
        for name, text in zip(names, (trace, found + results)):
            pathlib.Path(name).write_text(text, encoding="ascii")
        return names


class Explained(Room):
    def test_files(self):
        for one in ALL.values():
            self.assertEqual(pcm.read_explanation(one.text), pcm.explain(self.path(one), program=self.words, **options_of(one)))
        self.assertEqual(one.text, pcm.explain(*self.parts(one), program=self.words).text)

    def test_rows(self):
        one = ALL["forwarded only"]
        trace, _, results = one.table.partition(RESULTS)
        rows = list(pcm.read_trace(io.StringIO(trace, newline="")))
        told = []
        for row in results.splitlines():
            number, op, line, word, tick, place, data = row.split(",")
            outcome = outcomes.outcome_of(word, int(number), int(tick), place, data)
            told.append(pcm.ResultRow(int(number), op, int(line) if line else None, outcome))
        self.assertEqual(3, pcm.explain(rows, told, program=self.words).row)
        self.assertIsNone(pcm.explain(rows, told[:-1], program=self.words))

    def test_faults(self):
        with self.assertRaises(pcm.UsageError):
            pcm.explain(self.path(ALL["apart"]), program=self.words, banks=5)
        with self.assertRaises(pcm.TraceError):
            pcm.explain([pcm.Read(0, 0)], program=self.words)
        with self.assertRaises(pcm.ReadFault):
            pcm.explain("/nowhere/trace", program=self.words)
        with self.assertRaises(pcm.ExplanationError):
            pcm.explain([], program=[sys.executable, "-c", "print('fine')"])


class Command(Room):
    def told(self, *words, given=b""):
        """The status of the command, and what it printed on standard output and standard error."""
        out, err, stdin = io.TextIOWrapper(io.BytesIO(), encoding="utf-8"), io.StringIO(), io.TextIOWrapper(io.BytesIO(given))
        with contextlib.redirect_stdout(out), contextlib.redirect_stderr(err), contextlib.ExitStack() as held:
            held.callback(setattr, sys, "stdin", sys.stdin)
            sys.stdin = stdin
            status = explaining.main(list(words))
        out.flush()
        return status, out.buffer.getvalue().decode(), err.getvalue()

    def test_the_text_is_the_program_s_and_a_picture_is_drawn(self):
        for one in ALL.values():
            picture = self.room / "picture.svg"
            picture.unlink(missing_ok=True)
            self.assertEqual((1, one.text, ""), self.told(self.path(one), *one.options.split(), "-o", str(picture)))
            xml.etree.ElementTree.parse(picture)

    def test_trace_and_results_may_be_two_files_or_standard_input(self):
        one = ALL["room"]
        self.assertEqual((1, one.text, ""), self.told(*self.parts(one), "--lines=8"))
        self.assertEqual((1, one.text, ""), self.told("-", given=one.table.encode()))

    def test_of_two_files_the_faulty_one_is_named(self):
        trace = self.parts(ALL["room"])[0]
        other = self.room / "other"
        other.write_text("row\n", encoding="ascii")
        said = f"explain: {other}: no line is exactly {RESULTS.strip()} (results row 0)\n"
        self.assertEqual((3, "", said), self.told(trace, str(other)))

    def test_no_picture_where_the_results_are_right(self):
        right = self.room / "right"
        right.write_text(HEADER + RESULTS, encoding="ascii")
        self.assertEqual((0, "ok\n", ""), self.told(str(right), "-o", str(self.room / "none.svg")))
        self.assertFalse((self.room / "none.svg").exists())

    def test_what_goes_wrong_is_one_line(self):
        path = self.path(ALL["room"])
        for status, words in (
            (2, []), (2, [path, path, path]), (2, [path, "--banks"]), (2, [path, "--banks", "5"]), (2, [path, "--lines=8", "--lines", "4"]),
            (3, [self.parts(ALL["room"])[0]]), (4, ["/nowhere/table"]), (5, [path, "-o", "/nowhere/picture"]),
        ):
            with self.subTest(words):
                found, _, err = self.told(*words)
                self.assertEqual((status, 1), (found, err.count("\n")), err)
                self.assertRegex(err, "^explain: ")
        self.assertIn("usage: python3 -m pcm explain", self.told("--help")[1])


class Reports(Room):
    def page(self, one, *words):
        trace, results = self.parts(one)
        name = str(self.room / "page.html")
        given = [word for word in one.options.split() if word]
        with contextlib.redirect_stderr(io.StringIO()) as err:
            status = report.main([results, "--trace", trace, *given, "--output", name, *words])
        self.assertEqual((0, ""), (status, err.getvalue()))
        return pathlib.Path(name).read_text(encoding="utf-8")

    def test_a_row_that_breaks_a_rule_is_shown(self):
        text = self.page(ALL["cut before"], "--explain")
        self.assertIn(ALL["cut before"].text, text)
        picture = re.search(r'(?s)<div class="timeline"><figure>(.*?)</figure>', text)[1]
        self.assertIn("row 1 breaks ReadBeforeCut", xml.etree.ElementTree.fromstring(picture)[0].text)
        self.assertNotIn("timeline", self.page(ALL["cut before"]).partition("</style>")[2])

    def test_results_that_are_right(self):
        one = ALL["cut before"]
        right = one._replace(table=one.table.replace(f"read,5,3,{'00' * 64}", "lost,3,,"))
        self.assertIn("The results keep all rules.", self.page(right, "--explain"))

    def refused(self, *words):
        with contextlib.redirect_stderr(io.StringIO()) as err:
            self.assertEqual(2, report.main([*words, "--explain"]))
        return err.getvalue()

    def test_a_trace_and_whole_results_are_wanted(self):
        trace, results = self.parts(ALL["cut before"])
        self.assertIn("--explain wants a trace and its results", self.refused(results))
        rows = self.room / "rows"
        rows.write_text(f"row,outcome,tick,place,data\n1,read,5,3,{'00' * 64}\n2,cut,3,,\n", encoding="ascii")
        self.assertIn("has those of a stream", self.refused(str(rows), "--trace", trace, *ALL["cut before"].options.split()))


def tried(answer):
    """Answers at and beside the ends of one that would be right, each with whether it is: its word, tick and bytes."""
    if isinstance(answer, pcm.ReadBetween):
        ticks = {answer.first - 1, answer.first, answer.last, answer.last + 1, *answer.but}
        return [("read", tick, answer.data, answer.takes(tick)) for tick in sorted(ticks)]
    if isinstance(answer, pcm.StoredBy):
        ends = {tick + away for tick in answer.stores for away in (-answer.apart, 1 - answer.apart, answer.apart - 1, answer.apart)}
        ends |= {answer.behind, answer.behind + 1, answer.latest(), *answer.reads, *([answer.below - 1, answer.below] if answer.below else [])}
        # (later ones are right by what the bank does by then)
        return [("stored", tick, b"", answer.takes(tick)) for tick in sorted(ends) if 0 <= tick <= answer.latest()]
    return [(answer.word, answer.tick, getattr(answer, "data", b""), True)]


class OverTheProgram(unittest.TestCase):
    def is_kept(self, one, row, word, tick, data):
        """Whether a row that is told so isn't the first that breaks a rule; `worn` may break one of a row before it."""
        trace, header, results = one.table.partition(RESULTS)
        lines = results.splitlines()
        _, op, line = lines[row - 1].split(",")[:3]
        lines[row - 1] = f"{row},{op},{line},{word},{tick},{'3' * (word in ('read', 'stored'))},{data.hex()}"
        given = (trace + header + "\n".join(lines) + "\n").encode()
        done = subprocess.run([*pcm.command("check"), *one.options.split()], input=given, stdout=subprocess.PIPE, check=False)
        self.assertIn(done.returncode, (0, 1))
        return not done.stdout.startswith(b"row %d:" % row)

    def test_check_takes_what_is_right_and_nothing_beside_it(self):
        for one in ALL.values():
            told = pcm.read_explanation(one.text)
            for *answer, right in (it for answer in told.right for it in tried(answer)):
                with self.subTest(one.name, answer=answer[:2]):
                    self.assertEqual(right, self.is_kept(one, told.row, *answer))

    def test_the_stored_texts_are_the_program_s(self):
        for one in ALL.values():
            try:
                words = [*pcm.command("explain"), *one.options.split()]
            except pcm.PcmError as wrong:
                self.skipTest(str(wrong))
            done = subprocess.run(words, input=one.table.encode(), stdout=subprocess.PIPE, stderr=subprocess.PIPE, check=False)
            if done.stderr.startswith(b"usage: pcm run|"):
                self.skipTest("the program that PCM names has no command explain")
            self.assertEqual((1, one.text, b""), (done.returncode, done.stdout.decode(), done.stderr))


if __name__ == "__main__":
    unittest.main()
