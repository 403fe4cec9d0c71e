"""Tests of explanations bank by bank: the tables that are made of one, what is told of their rows, and what the command prints.

A stand-in has lines of odd numbers in bank 1 and one rule, that no write is `full`; it says of the first row that breaks it what a program
would. Where the program that PCM names explains, its own explanations are tried, too; examples/explain/bankwise tries more of them."""
import contextlib
import io
import pathlib
import subprocess
import sys
import tempfile
import unittest

HERE = pathlib.Path(__file__).resolve().parent
sys.path[:0] = [str(HERE.parent), str(HERE)]
import pcm  # noqa: E402
from leaks import setUpModule, tearDownModule  # noqa: E402, F401
from pcm import bankwise, explaining  # noqa: E402
from stand_in import stand_in  # noqa: E402
from test_explaining import ALL, HEADER, RESULTS, options_of  # noqa: E402

DATA = "5a" * 64
STANDIN = f"""import sys
command, words = sys.argv[1], sys.argv[2:]
if "5" in words: sys.stderr.write("usage: pcm " + command + " [options]\\n"); sys.exit(2)
if command == "map":
    if set(words[::2]) - {{"--banks", "--lines", "--seed"}}: sys.exit("no options of map")
    print("line,bank,region,offset,place,array")
    for line in range(8): print(f"{{line}},{{line % 2}},0,0,0,0")
    sys.exit(0)
trace, _, results = sys.stdin.read().partition("{RESULTS.strip()}\\n")
if not results: sys.stderr.write("results row 0: header\\n"); sys.exit(3)
for asked, told in zip(trace.splitlines()[1:], results.splitlines()):
    (tick, op, line, _), (row, _, _, word, at, _, _) = asked.split(","), told.split(",")
    if word == "full":
        print(f"row {{row}}: queue\\n  asks   write of line {{line}} at tick {{tick}}, bank {{int(line) % 2}}\\n  told   full {{at}}")
        print("  breaks FullWhereFull: words\\n         stand  0 of 2 writes: rows none")
        print(f"  right  worn {{tick}}")
        sys.exit(1)
print("ok")
"""
# A trace and its results, as pairs of a row and an answer.
ROWS = (("0,W,0,", "stored,15,3,"), ("3,R,1,", f"read,8,70,{DATA}"), ("07,C,,", "cut,9,,"), ("9,M,2,", "full,9,,"), ("12,R,04,", "busy,12,,"))


def table_of(rows=ROWS):
    """A table with the bytes of its writes."""
    whole = [f"{came}{DATA[:64] + '.' * 64 if ',M,' in came else DATA if ',W,' in came else ''}" for came, _ in rows]
    parts = [came.split(",") for came in whole]
    pairs = zip(parts, [answer for _, answer in rows])
    told = [f"{at},{it[1].replace('M', 'W')},{it[2].lstrip('0') or it[2][:1]},{answer}" for at, (it, answer) in enumerate(pairs, 1)]
    return (HEADER + "\n".join(whole) + "\n" + RESULTS + "\n".join(told) + "\n").encode()


def parted(table, size=64):
    return bankwise.Parted(list(bankwise.rows_of(table)), [line % 2 for line in range(8)], size)


NO_ROOM = "none: bank 0 has no room as it comes"


def said(row=2, asks="write of line 1 at tick 3, bank 1", told="worn 3", rule="queue", facts=("bank   0",), right=NO_ROOM):
    """The text of an explanation."""
    lines = [f"row {row}: {rule}", f"  asks   {asks}", f"  told   {told}", "  breaks Room: words", *(f"         {it}" for it in facts)]
    return "\n".join([*lines, f"  right  {right}", ""])


class Tables(unittest.TestCase):
    """The table that is looked at for a bank."""

    def table(self, bank, table=None, size=64):
        """The rows of the table that is handed on, as pairs of a row and its answer without its number."""
        given = []
        self.assertIsNone(parted(table or table_of(), size).first(bank, lambda part: given.append(part) or "ok\n"))
        trace, results = given[0].decode().split(RESULTS)
        self.assertEqual(HEADER, trace.splitlines(keepends=True)[0])
        rows = [row.split(",", 1) for row in results.splitlines()]
        self.assertEqual([str(at) for at in range(1, 1 + len(rows))], [number for number, _ in rows])
        return list(zip(trace.splitlines()[1:], [answer for _, answer in rows]))

    def test_rows_of_other_banks_are_worn_writes_and_cuts_are_right(self):
        zero = "00" * 64
        kept = {
            1: (f"0,W,0,{DATA}", "W,0,stored,15,3,"), 2: ("3,R,1,", f"R,1,read,8,70,{DATA}"),
            4: (f"9,M,2,{DATA[:64]}{'.' * 64}", "W,2,full,9,,"), 5: ("12,R,04,", "R,4,busy,12,,"),
        }
        worn = {
            1: (f"0,W,0,{zero}", "W,0,worn,0,,"), 2: (f"3,W,1,{zero}", "W,1,worn,3,,"),
            4: (f"9,W,2,{zero}", "W,2,worn,9,,"), 5: (f"12,W,4,{zero}", "W,4,worn,12,,"),
        }
        cut = ("7,C,,", "C,,cut,7,,")
        self.assertEqual([kept[1], worn[2], cut, kept[4], kept[5]], self.table(0))
        self.assertEqual([worn[1], kept[2], cut, worn[4], worn[5]], self.table(1))
        self.assertEqual([worn[1], worn[2], ("07,C,,", "C,,cut,9,,"), worn[4], worn[5]], self.table(None))

    def test_a_trace_may_have_all_that_the_program_takes(self):
        trace, found, results = table_of().partition(RESULTS.encode())
        lines = trace.decode().splitlines()
        other = "\ufeff" + "\r\n".join([lines[0], "", *(",".join(f'"{it}"' for it in line.split(",")) for line in lines[1:]), ""])
        for bank in (0, 1, None):
            self.assertEqual(self.table(bank), self.table(bank, other.encode() + found + results))

    def test_lines_have_their_size(self):
        self.assertEqual(256, len(self.table(1, size=128)[0][0].split(",")[3]))

    def test_the_banks_are_those_of_its_rows(self):
        self.assertEqual([0, 1], parted(table_of()).banks)
        self.assertEqual([0], parted(table_of(ROWS[:1] + ROWS[2:])).banks)
        self.assertEqual([], parted(table_of(ROWS[2:3])).banks)


class Told(unittest.TestCase):
    """What is told of a row is what the whole table has there."""

    def first(self, bank, text):
        return parted(table_of()).first(bank, lambda part: text)

    def test_a_row_of_another_bank(self):
        found = self.first(0, said())
        self.assertEqual((pcm.Asks("R", 1, 3, 1), pcm.Answer("read", 8, bytes.fromhex(DATA)), 0), (found.asks, found.told, found.bank))
        self.assertEqual(said(asks="read of line 1 at tick 3, bank 1", told=f"read 8, data {DATA}"), found.text)
        text = said(row=4, asks="write of line 2 at tick 9, bank 0", told="worn 9", right=NO_ROOM.replace("0", "1"))
        found = self.first(1, text)
        self.assertEqual((pcm.Asks("W", 2, 9, 0), pcm.Answer("full", 9, None), 1), (found.asks, found.told, found.bank))

    def test_a_cut(self):
        found = self.first(0, said(row=3, asks="cut at tick 7", told="cut 7"))
        self.assertEqual((pcm.Asks("C", None, 7, None), pcm.Answer("cut", 9, None), 0), (found.asks, found.told, found.bank))

    def test_a_cut_that_is_named(self):
        asks, told = "read of line 1 at tick 3, bank 1", f"read 8, data {DATA}"
        text = said(asks=asks, told=told, facts=["cut    row 3, tick 7: cut, cut 7"], right="lost 7")
        self.assertEqual(text.replace("cut, cut 7", "cut, cut 9"), self.first(1, text).text)

    def test_a_row_of_the_bank(self):
        text = said(row=1, asks="write of line 0 at tick 0, bank 0", told="stored 15", right="worn 0", facts=["own    tick 0"])
        self.assertEqual(text, self.first(0, text).text)
        self.assertIsNone(self.first(0, "ok\n"))


class Counted(unittest.TestCase):
    def test_banks_rules_and_cuts(self):
        read = [pcm.read_explanation(text) for text in (
            said(), said(rule="tick", right="lost 3"), said(rule="tick", asks="cut at tick 7", told="cut 9", right="cut 7"),
        )]
        said_of = [bankwise.counted(read[:many], {}) for many in (1, 2)] + [bankwise.counted(read[2:], {"banks": "2"})]
        self.assertEqual("banks: 1 of 4 break a rule: serves 0, queue 1, worn 0, tick 0\n", said_of[0])
        self.assertEqual("banks: 2 of 4 break a rule: serves 0, queue 1, worn 0, tick 1\n", said_of[1])
        self.assertEqual("banks: 0 of 2 break a rule: serves 0, queue 0, worn 0, tick 0; a cut breaks tick\n", said_of[2])


class OverAStandIn(unittest.TestCase):
    """Two banks, of which bank 1 breaks the rule first; bank 0 breaks it twice."""

    def setUp(self):
        room = tempfile.TemporaryDirectory()
        self.addCleanup(room.cleanup)
        self.room = pathlib.Path(room.name)
        self.program = stand_in(self, self.room, STANDIN)
        full = [("1,W,3,", "full,1,,"), ("2,W,2,", "full,2,,"), ("2,W,2,", "full,2,,")]
        self.table = self.path("table", table_of(full))
        self.right = self.path("right", table_of(ROWS[:3]))

    def path(self, name, data):
        (self.room / name).write_bytes(data)
        return str(self.room / name)

    def told(self, *words):
        """The status of the command, and what it printed on standard output and standard error."""
        with contextlib.redirect_stdout(io.StringIO()) as out, contextlib.redirect_stderr(io.StringIO()) as err:
            status = explaining.main(list(words))
        return status, out.getvalue(), err.getvalue()

    def test_values(self):
        found = pcm.explain_all(self.table, program=self.program, banks=2, write_queue=7)
        self.assertEqual([(0, 2), (1, 1)], [(it.bank, it.row) for it in found])
        self.assertEqual([], pcm.explain_all(self.right, program=self.program))
        with self.assertRaises(pcm.UsageError):
            pcm.explain_all(self.table, program=self.program, banks=5)

    def test_the_command_prints_the_verdict_each_bank_and_how_many(self):
        status, out, err = self.told(self.table, "--all", "--banks", "2", "--read-queue=7")
        heads = [line for line in out.splitlines() if not line.startswith(" ")]
        wanted = ["row 1: queue", "row 2: queue", "row 1: queue", "banks: 2 of 2 break a rule: serves 0, queue 2, worn 0, tick 0"]
        self.assertEqual((1, wanted, ""), (status, heads, err))
        texts = [it.text for it in pcm.explain_all(self.table, program=self.program)]
        self.assertEqual("".join([wanted[0], "\n", *texts, wanted[3], "\n"]), out)

    def test_where_all_is_right_it_says_so_alone(self):
        self.assertEqual((0, "ok\n", ""), self.told("--all", self.right))

    def test_what_goes_wrong_is_one_line(self):
        for status, words in ((2, ["-o", "picture"]), (2, ["--banks", "5"]), (2, [self.table, self.table])):
            found, out, err = self.told(self.table, "--all", *words)
            self.assertEqual((status, "", 1), (found, out, err.count("\n")), (words, err))
        self.assertEqual(3, self.told(self.path("trace", HEADER.encode()), "--all")[0])


class OverTheProgram(unittest.TestCase):
    def test_the_first_of_its_bank_is_told_as_of_the_whole_table(self):
        for one in ALL.values():
            with self.subTest(one.name):
                with tempfile.TemporaryDirectory() as room:
                    given = pathlib.Path(room, "table")
                    given.write_text(one.table, encoding="ascii")
                    try:
                        found = pcm.explain_all(str(given), **options_of(one))
                    except pcm.PcmError as wrong:
                        self.skipTest(str(wrong))
                self.assertIn(one.text, [it.text for it in found])

    def test_the_package_is_run_by_its_path(self):
        done = subprocess.run([sys.executable, "-IB", str(HERE.parent / "pcm"), "explain", "--help"], capture_output=True, check=False)
        self.assertEqual((0, explaining.__doc__ + "\n"), (done.returncode, done.stdout.decode()))


if __name__ == "__main__":
    unittest.main()
