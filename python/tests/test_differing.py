"""Tests of two tables of results beside each other, over the program that PCM names (or ./pcm of the checkout)."""
import contextlib
import io
import pathlib
import sys
import tempfile
import unittest

HERE = pathlib.Path(__file__).resolve().parent
sys.path[:0] = [str(HERE.parent), str(HERE)]
from leaks import setUpModule, tearDownModule  # noqa: E402, F401
from pcm import PcmError, differing, runs, tables  # noqa: E402

SMALL = {"banks": 1, "regions": 1, "lines": 4, "spares": 2}
WORDS = [word for name, value in SMALL.items() for word in (f"--{name}", str(value))]
ONES, ZEROS = "ff" * 64, "00" * 64
TRACE = f"tick,op,arg,data\n0,W,0,{ONES}\n0,R,0,\n100,R,0,\n"
HEADER = "row,op,line,outcome,tick,place,data\n"
RIGHT = f"{HEADER}1,W,0,stored,15,3,\n2,R,0,forwarded,0,,{ONES}\n3,R,0,read,105,3,{ONES}\n"
# What is said of results that end before their trace.
LACKING = "row 2 of the trace, a read of line 0 at tick 0, has no answer, nor has the row behind it"
LACKING_ONE = "row 3 of the trace, a read of line 0 at tick 100, has no answer"
STALE = f"{HEADER}1,W,0,stored,15,3,\n2,R,0,read,5,3,{ZEROS}\n3,R,0,read,106,3,{ONES}\n"


def told(main, *words, given=b""):
    """The status of a command of the package, and what it printed on standard output and standard error."""
    out, err = io.TextIOWrapper(io.BytesIO(), encoding="utf-8"), io.StringIO()
    with contextlib.redirect_stdout(out), contextlib.redirect_stderr(err):
        status = main(list(words))
    out.flush()
    return status, out.buffer.getvalue().decode(), err.getvalue()


class Room(unittest.TestCase):
    def setUp(self):
        self.room = tempfile.TemporaryDirectory()
        self.addCleanup(self.room.cleanup)

    def file(self, name, text):
        path = pathlib.Path(self.room.name, name)
        path.write_text(text, encoding="ascii")
        return str(path)


class Partings(Room):
    def differ(self, one, other, *words):
        files = (self.file("trace.csv", TRACE), self.file("one.csv", one), self.file("other.csv", other))
        return (*told(differing.main, *files, *(words or WORDS)), files)

    def test_tables_that_part(self):
        status, out, err, files = self.differ(RIGHT, STALE)
        self.assertEqual((1, ""), (status, err))
        self.assertEqual([
            f"{files[1]}: keeps the rules", f"{files[2]}: breaks a rule: row 2: serves", "2 rows differ",
            f"lowest   row 2: read of line 0 at tick 0; forwarded 0, data {'f' * 28}.. beside read 5, data {'0' * 28}..",
            f"soonest  row 2: read of line 0 at tick 0; forwarded 0, data {'f' * 28}.. beside read 5, data {'0' * 28}..",
        ], out.splitlines())

    def test_the_soonest_may_stand_behind_the_lowest(self):
        trace = f"tick,op,arg,data\n0,W,0,{ONES}\n10,R,1,\n"
        one, other = (f"{HEADER}1,W,0,stored,{write},0,\n2,R,1,read,{read},0,{ZEROS}\n" for write, read in ((50, 20), (45, 50)))
        kinds = [source_of(kind, text) for kind, text in (("trace", trace), ("results", one), ("results", other))]
        found = differing.partings(*kinds)
        self.assertEqual([1, 2], [it.row for it in found])
        self.assertEqual(2, min(found, key=lambda it: it.shows()).row)

    def test_places_tell_nothing(self):
        self.assertEqual("no row differs (places are not compared)", self.differ(RIGHT, RIGHT.replace(",3,", ",2,"))[1].splitlines()[-1])

    def test_the_first_other_byte_is_told(self):
        other = RIGHT.replace(f"105,3,{ONES}", f"105,3,ff00{ONES[4:]}")
        self.assertIn("read 105, from byte 1 on ff beside 00", self.differ(RIGHT, other)[1])

    def test_what_is_no_table_is_told(self):
        self.assertEqual(3, self.differ(RIGHT, HEADER)[0])
        self.assertEqual(3, self.differ(RIGHT, "row\n")[0])
        self.assertEqual(2, self.differ(RIGHT, RIGHT, "--banks", "5")[0])
        self.assertEqual(2, told(differing.main, "one.csv")[0])
        self.assertEqual(4, told(differing.main, "/nowhere/1", "/nowhere/2", "/nowhere/3")[0])


    def test_each_fault_of_a_file_names_it(self):
        late = f"tick,op,arg,data\n5,W,0,{ONES}\n\n4,R,0,\n100,R,0,\n"
        at = "the fourth field of R may be read, forwarded, busy or lost"
        for trace, one, other, wrong, line, kind in (
            (late, RIGHT, RIGHT, 0, "line 4: its tick 4 is below 5, the tick of the row before (line 2)", "trace row 2: order"),
            (TRACE[:-1], RIGHT, RIGHT.replace("read", "red"), 2, f"line 4: {at} (did you mean read?)", "results row 3"),
            (TRACE, RIGHT.replace("forwarded", "stored"), RIGHT, 1, f"line 3: {at} (stored is of W)", "results row 2"),
            (TRACE, RIGHT, RIGHT[:-RIGHT.count(ONES)], 2, "line 4: ", "results row 3"),
            (TRACE, RIGHT.partition("2,R")[0], RIGHT, 1, f"the results end with line 2: {LACKING}", "results row 2"),
            (TRACE, RIGHT, RIGHT.partition("3,R")[0], 2, f"the results end with line 3: {LACKING_ONE}", "results row 3"),
            (TRACE, RIGHT, RIGHT.replace("\n", "\r\n"), 2, "line 1: it has 7 fields", "trace row 4: fields"),
            (TRACE, RIGHT, "row\n", 2, f"its first line must be {HEADER[:-1]}", None),
        ):
            files = [self.file(name, text) for name, text in (("trace.csv", trace), ("one.csv", one), ("other.csv", other))]
            status, out, err = told(differing.main, *files, *WORDS)
            self.assertEqual((3, ""), (status, out))
            self.assertTrue(err.startswith(f"differ: {files[wrong]}: {line}"), err)
            self.assertTrue(err.endswith(f" ({kind})\n" if kind else f"{line}\n"), err)

    def test_a_fault_of_both_files_names_both(self):
        wrong = runs.fault_of(6, b"trace too long\n", ["check"], source_of("trace", TRACE), source_of("results", RIGHT))
        self.assertEqual("trace with results behind it (trace too long)", str(wrong))
        self.assertIsNone(runs.fault_of(7, b"out of memory\n", ["check"], source_of("trace", TRACE), source_of("results", RIGHT)).why)


class Ends(unittest.TestCase):
    def ended(self, fault):
        """The status of a command whose work ends so, and what it says."""
        def work(_words):
            raise fault

        with contextlib.redirect_stderr(io.StringIO()) as err:
            return tables.answered("differ", None, [], work), err.getvalue()

    def test_what_goes_wrong_is_one_line(self):
        self.assertEqual((4, "differ: /none: No such file or directory\n"), self.ended(FileNotFoundError(2, "No such file or directory", "/none")))
        self.assertEqual((4, "differ: there is no pcm\n"), self.ended(FileNotFoundError("there is no pcm")))
        self.assertEqual((130, "differ: broken off\n"), self.ended(KeyboardInterrupt()))
        self.assertEqual((3, "differ: file\ufffd\n"), self.ended(PcmError(3, "file\udcff")))


def source_of(kind, text):
    return differing.Source(kind, kind, text.encode())


if __name__ == "__main__":
    unittest.main()
