"""Tests of energy and latencies: their numbers by hand and against the program's rows, both passes alike, and what is refused."""
import collections
import contextlib
import io
import os
import pathlib
import subprocess
import sys
import tempfile
import unittest
import zipfile
from unittest import mock

HERE = pathlib.Path(__file__).resolve().parent
sys.path[:0] = [str(HERE.parent), str(HERE)]
import pcm  # noqa: E402
from leaks import setUpModule, tearDownModule  # noqa: E402, F401
from pcm import energy, latencies, report, tallies  # noqa: E402
from pcm.devices import Units, other_times, units_of  # noqa: E402

HEADER = ",".join(pcm.Snapshot._fields)
# 480 stored, 10 merged, 500 read and 5 forwarded of 1,000 rows in 10,000 ticks; 1,500 senses, 61,000 cells set, 62,000 reset
LAST = "1000,10000,480,10,0,0,5,500,5,0,0,0,0,490,20,1,0,1500,61000,62000"
DRAWN = "--input drawn --rows 3000 --step 30 --misses 3 --cuts 4 --banks 2 --regions 1 --lines 8 --seed 7"


class Room(unittest.TestCase):
    def setUp(self):
        folder = tempfile.TemporaryDirectory()
        self.addCleanup(folder.cleanup)
        self.folder = pathlib.Path(folder.name)

    def file(self, name, text):
        (self.folder / name).write_bytes(text if isinstance(text, bytes) else text.encode())
        return str(self.folder / name)

    def told(self, command, *words):
        """The status of a command, and what it prints and says."""
        out, err = io.StringIO(), io.StringIO()
        with contextlib.redirect_stdout(out), contextlib.redirect_stderr(err):
            status = command.main([str(word) for word in words])
        return status, out.getvalue(), err.getvalue()

    def refused(self, status, line, command, *words):
        self.assertEqual((status, "", line + "\n"), self.told(command, *words))


class Energy(Room):
    def figures(self, *words):
        status, out, err = self.told(energy, *words, "--csv")
        self.assertEqual((0, ""), (status, err))
        return {line.split(",")[0]: line.split(",")[1] for line in out.splitlines()[1:]}

    def test_figures_by_hand(self):
        snapshots = self.file("snapshots", f"{HEADER}\n{LAST}\n")
        found = self.figures(snapshots, "--rate", "2")
        wanted = {
            "energy of sets": 61000 * 13.5 / 1000, "energy of resets": 62000 * 19.2 / 1000, "energy of senses": 1500 * 576 * 2.47 / 1000,
            "energy": 4147.98, "energy of a read": 1.42272, "energy of a stored write": (4147.98 - 500 * 1.42272) / 480,
            "energy of an accepted write": (4147.98 - 500 * 1.42272) / 490, "cells driven a stored write": 256.25, "time": 50.0,
            "mean power": 4147.98 / 50, "written": 490 * 64 / 50, "read": 505 * 64 / 50,
            "accepted writes last": 490 * 64 / 2e6 / (365.25 * 24 * 3600),
        }
        for name, number in wanted.items():
            self.assertAlmostEqual(1, float(found[name]) / number, 3, name)

    def test_units_that_are_given(self):
        snapshots = self.file("snapshots", f"{HEADER}\n{LAST}\n")
        units = ("--set-pj", "1", "--reset-pj", "2", "--sense-pj", "0.5", "--tick-ns", "10")
        found = self.figures(snapshots, *units, "--options", "--line 128")
        names = ("energy of sets", "energy of resets", "energy of senses", "time")
        self.assertEqual(["61.00", "124.0", "864.0", "100.0"], [found[name] for name in names])

    def test_nothing_is_divided_by_nothing(self):
        found = self.figures(self.file("snapshots", HEADER + "\n" + ",".join("0" * len(pcm.Snapshot._fields)) + "\n"))
        self.assertEqual("", found["energy of a stored write"])
        self.assertEqual("", found["mean power"])

    def test_banks(self):
        file = self.file("banks", "bank,senses,set,reset\n0,10,20,30\n1,5,6,7\nall,15,26,37\n")
        status, out, _ = self.told(energy, file, "--csv")
        rows = [line.split(",") for line in out.splitlines()]
        self.assertEqual((0, ["bank", "senses", "set", "reset"], ["all", "15", "26", "37"]), (status, rows[0][:4], rows[3][:4]))
        self.assertAlmostEqual(10 * 576 * 2.47e-3 + 20 * 13.5e-3 + 30 * 19.2e-3, float(rows[1][7]), 2)
        for line, wrong in (
            (": the row of all isn't the sum of those before it", "0,1,2,3\nall,1,2,4\n"),
            (" row 2: bank", "0,1,2,3\n2,1,2,3\nall,2,4,6\n"),
            (" row 1: count", "0,x,2,3\nall,2,4,6\n"), (" row 2: fields", "0,1,2,3\nall,1,2\n"),
        ):
            self.refused(3, f"energy: {file}{line}", energy, self.file("banks", f"bank,senses,set,reset\n{wrong}"))

    def test_a_run_has_the_counts_of_its_banks(self):
        found = self.figures("--run", "--options", DRAWN)
        words = [*pcm.program(), "stream", *DRAWN.split(), "--print", "energy"]
        printed = subprocess.run(words, stdout=subprocess.PIPE, check=False).stdout.decode()
        file = self.file("banks", printed)
        self.assertEqual(0, self.told(energy, file)[0])
        self.assertEqual(printed.splitlines()[-1].split(",")[1:], [found[name] for name in ("senses", "cells set", "cells reset")])

    def test_what_is_wrong_is_told(self):
        for words, line in (
            ((), "files are wanted, with --options once for each or once for all, or --run; --help tells more"),
            (("--device", "x", "f"), "--device x: it may be lee2009"),
            (("--set-pj", "-1", "f"), "--set-pj takes a number above 0, as 10 or 2.5, not '-1'"),
            (("--rate", "0", "f"), "--rate takes a number above 0, as 10 or 2.5, not '0'"),
            (("--run",), "a trace is wanted, or --options '--input drawn ..' without one"),
            (("--options", "--line 65", "f"), "--line 65: it may be 64 or 128"),
            (("--options", "--psi", "f"), "--options: --psi wants a value"),
        ):
            with self.subTest(words=words):
                self.file("f", f"{HEADER}\n{LAST}\n")
                self.refused(2, f"energy: {line}", energy, *(str(self.folder / "f") if word == "f" else word for word in words))
        other = self.file("other", "tick,op,arg,data\n")
        self.refused(3, f"energy: {other} row 0: header: neither of --print snapshots nor of --print energy", energy, other)
        self.refused(4, "energy: /none: No such file or directory", energy, "/none")

    def test_the_wheel_has_the_pass_in_c(self):
        package = HERE.parent
        code = f"import sys; sys.path.insert(0, {str(package)!r}); import wheel_of; print(wheel_of.build_wheel({str(self.folder)!r}))"
        name = subprocess.run([sys.executable, "-B", "-c", code], stdout=subprocess.PIPE, text=True, check=True).stdout.strip()
        with zipfile.ZipFile(self.folder / name) as wheel:
            there = {f"pcm/{file.name}" for file in (package / "pcm").iterdir() if file.suffix in (".py", ".c", ".h")}
            self.assertLessEqual(there, set(wheel.namelist()))
            self.assertIn("pcm/latencies.c", there)

    def test_units_of_a_device(self):
        self.assertEqual(Units(5.0, 13.5, 19.2, 2.47), units_of(None))
        self.assertEqual(Units(2.5, 13.5, 19.2, 2.47), units_of("lee2009", tick_ns="2.5"))

    def test_runs_with_other_times_than_a_device_are_told(self):
        of_device = {"read-ticks": "11", "iter-ticks": "41", "psi": "3"}
        others = "(a module with the times of lee2009 has --read-ticks 11 --iter-ticks 41, a tick of 5 ns: not every run here)\n"
        finer = {"read-ticks": "22", "iter-ticks": "82"}
        for wanted, device, tick_ns, runs in (
            ("", "lee2009", None, [of_device]), (others, "lee2009", None, [of_device, {"read-ticks": "11"}]), (others, None, None, [{}]),
            ("", "lee2009", "2.5", [finer]), (others, "lee2009", "2.5", [of_device]), ("", None, "5", [{}]),
            (others, "lee2009", "5", [{"read-ticks": "x"}]), ("", "lee2009", None, []),
        ):
            self.assertEqual(wanted, other_times(device, tick_ns, runs), (device, tick_ns, runs))

    def test_every_command_tells_of_other_times(self):
        same, words = DRAWN + " --read-ticks 11 --iter-ticks 41", "--read-ticks 11 --iter-ticks 41, a tick of 5 ns"
        for command, options, more, is_told in (
            (energy, DRAWN, (), True), (energy, DRAWN, ("--device", "lee2009"), True), (energy, same, (), False),
            (energy, DRAWN, ("--tick-ns", "5"), False), (latencies, DRAWN, (), False), (latencies, DRAWN, ("--device", "lee2009"), True),
            (latencies, same, ("--device", "lee2009"), False), (report, DRAWN, (), False), (report, DRAWN, ("--device", "lee2009"), True),
            (report, same, ("--device", "lee2009"), False), (report, DRAWN, ("--every", "1000"), True),
            (report, DRAWN, ("--every", "1000", "--tick-ns", "5"), False),
        ):
            with self.subTest(command=command.__name__, options=options, more=more):
                page = ("--output", str(self.folder / "page")) if command is report else ()
                status, out, err = self.told(command, "--run", "--options", options, *more, *page)
                told = (self.folder / "page").read_text() if page else out
                self.assertEqual((0, "", is_told), (status, err, words in told))

    def test_a_report_tells_energy(self):
        text = subprocess.run(
            [sys.executable, "-m", "pcm", "report", "-", "--set-pj", "1", "--rate", "2"], input=f"{HEADER}\n{LAST}\n".encode(),
            stdout=subprocess.PIPE, env={**os.environ, "PYTHONPATH": str(HERE.parent)}, check=True,
        ).stdout.decode()
        self.assertIn('<th scope="row">energy of sets</th><td>61.00</td>', text)
        self.assertIn("accepted writes last", text)

    def test_what_tells_of_energy_is_refused_where_none_is_told(self):
        rows = self.file("rows", "row,outcome,tick,place,data\n1,full,0,,\n")
        for words in (("--set-pj", "3"), ("--sense-pj", "3"), ("--rate", "5")):
            self.refused(2, f"report: {words[0]} is told of snapshots that count energy alone, and there are none", report, rows, *words)
            line = f"report: {words[0]} is told of snapshots alone: give --every N, too"
            self.refused(2, line, report, "--run", "--input", "drawn", *words)
        page = str(self.folder / "page")
        self.assertEqual((0, "", ""), self.told(report, rows, "--device", "lee2009", "--output", page))
        text = pathlib.Path(page).read_text()
        self.assertIn("Left out: maps of wear, for which a wear report is wanted", text)
        self.assertIn("; energy, for which snapshots are wanted", text)
        self.assertEqual((0, "", ""), self.told(report, "--run", "--input", "drawn", "--every", "100", "--rate", "5", "--output", page))
        self.assertNotIn("Left out", pathlib.Path(page).read_text())


class Latencies(Room):
    def test_spreads_are_exact(self):
        counts = collections.Counter([5] * 500 + [7] * 401 + [9] * 98 + [400])
        ordered = sorted(counts.elements())
        found = latencies.spread([{5: 500, 9: 98}, {7: 401, 400: 1}])
        self.assertEqual(tuple(tallies.quantile(ordered, at) for at in latencies.QUANTILES), found.quantiles)
        self.assertEqual((1000, sum(ordered) / 1000, 400), (found.rows, found.mean, found.most))
        self.assertEqual((0, None, None), (latencies.spread([{}]).rows, latencies.spread([{}]).mean, latencies.spread([{}]).most))

    def printed(self, *words, given=b""):
        return subprocess.run([*pcm.program(), *words], input=given, stdout=subprocess.PIPE, check=False).stdout

    def both(self, options, end=()):
        """A drawn trace and its rows as files."""
        pairs = list(zip(options.split()[::2], options.split()[1::2]))
        kept = [word for pair in pairs if pair[0] not in ("--input", "--misses") for word in pair]
        trace = self.printed("gen", *kept)
        shape = [word for pair in zip(kept[::2], kept[1::2]) if pair[0] in ("--banks", "--regions", "--lines", "--seed") for word in pair]
        rows = self.printed("stream", *shape, "--misses", "3", *end, given=trace)
        return self.file("trace", trace), self.file("rows", rows), trace, rows

    def test_both_passes_count_what_the_rows_say(self):
        for end in ((), ("--end", "off")):
            trace, rows, given, told = self.both(DRAWN, end)
            came = [int(line.split(b",")[0]) for line in given.splitlines()[1:]]
            wanted = collections.defaultdict(collections.Counter)
            for line in told.splitlines()[1:]:
                number, word, tick = line.split(b",")[:3]
                if int(number) <= len(came):
                    wanted[word.decode()][int(tick) - came[int(number) - 1]] += 1
            with latencies.compiled() as built:
                for program in filter(None, (built, "")):
                    found = latencies.of_files(rows, trace, None, program or None)
                    self.assertEqual({word: dict(counts) for word, counts in wanted.items() if word != "cut"},
                                     {word: counts for word, counts in found.found.items() if counts and word != "cut"}, (end, found.by))
                found = latencies.of_files(rows, trace, None, None)
                self.assertEqual("Python", found.by)

    def test_a_drawn_trace_is_that_of_gen(self):
        trace, rows, _, _ = self.both(DRAWN)
        options = latencies.parsed_options(DRAWN)
        wanted = latencies.of_files(rows, trace).found
        self.assertEqual(wanted, latencies.of_files(rows, None, latencies.draw_asked(options)).found)
        with latencies.compiled() as built:
            self.assertEqual(wanted, latencies.of_run(None, options, None, built).found)
            self.assertEqual(wanted, latencies.of_run(None, options).found)

    def test_a_table_of_policies(self):
        words = ("--run", "--csv", "--options", DRAWN, "--options", DRAWN + " --policy cancel", "--device", "lee2009")
        status, out, err = self.told(latencies, *words)
        rows = [line.split(",") for line in out.splitlines()]
        self.assertEqual((0, ""), (status, err))
        self.assertEqual(["run", "kind", "rows", "mean ns", "50%", "90%", "99%", "99.9%", "most"], rows[0])
        self.assertEqual([("defaults", "reads"), ("policy cancel", "reads")], [tuple(row[:2]) for row in rows[1::4]])
        self.assertLess(float(rows[5][3]), float(rows[1][3]))

    def test_quotes_marks_and_line_ends_are_read_by_python(self):
        trace, rows, given, _ = self.both(DRAWN)
        other = self.file("other", b"\xef\xbb\xbf" + given.replace(b"\n", b"\r\n").replace(b",R,", b',"R",'))
        wanted = latencies.of_files(rows, trace).found
        with latencies.compiled() as built:
            found = latencies.of_files(rows, other, None, built)
            self.assertEqual((wanted, "Python"), (found.found, found.by))
            head, first, *rest = given.split(b"\n")
            settled = self.file("settled", b"\n".join([head, b"0,S,,", b"0,Q,,", b"0,L,,", first, b"1099511627776,U,1,", *rest]))
            found = [latencies.of_files(rows, settled, None, by)[:2] for by in (built, None)]
            self.assertEqual([(wanted, "C" if built else "Python"), (wanted, "Python")], found)

    def test_what_is_wrong_is_told(self):
        trace, rows, given, told = self.both(DRAWN)
        fewer = self.file("fewer", given[: given.rindex(b"\n", 0, 90000)])
        status, out, err = self.told(latencies, rows, "--trace", fewer)
        self.assertEqual((3, ""), (status, out))
        self.assertRegex(err, r"^latencies: row \d+: not an outcome of a row of this trace\n$")
        self.refused(3, "latencies: row 0: not the header of a stream's rows", latencies, trace, "--trace", trace)
        odd = self.file("odd", told.replace(b"\n", b"\n,settled,0,,\nx,y\n", 1))
        self.refused(3, "latencies: row 2: not a row of a stream", latencies, odd, "--trace", trace)
        more = "with --trace TRACE (or --options '--input drawn ..'), or --run; --help tells more"
        self.refused(2, f"latencies: one file of rows is wanted {more}", latencies, rows)
        self.refused(4, "latencies: /none: No such file or directory", latencies, "--run", "/none")
        status, _, err = self.told(latencies, "--run", trace, "--options", "--polcy pause")
        self.assertEqual(2, status)
        self.assertIn("(did you mean --policy?)", err)
        status, _, err = self.told(latencies, "--run", "--options", "--input drawn --rows x")
        self.assertEqual((2, "latencies: --rows x: it may be a number of decimal digits alone, 1 to 4000000000\n"), (status, err))
        faulty = self.file("faulty", given.replace(b",R,", b",X,", 1))
        status, _, err = self.told(latencies, "--run", faulty)
        self.assertEqual(3, status)
        self.assertIn("the second field must be R, W, M, C, S, Q, U, L or P", err)

    def test_rows_that_are_cut_off_and_rows_without_an_outcome(self):
        trace, _, _, told = self.both(DRAWN)
        lines = told.splitlines(keepends=True)
        odd, few = self.file("odd", told[:2000]), self.file("few", b"".join(lines[:11]))
        ended = told[:2000].count(b"\n")
        rest = len(lines) - 1 - sum(it[:1] != b"," for it in lines[1:11])
        for more in ((), ("--python",)):
            said = "the line isn't ended, so the rows are cut off"
            self.refused(3, f"latencies: row {ended}: {said}", latencies, odd, "--trace", trace, *more)
            with open(odd, "rb") as source, mock.patch("sys.stdin", mock.Mock(buffer=source)):
                status, out, err = self.told(latencies, "-", "--trace", trace, *more)
                self.assertEqual((3, ""), (status, out))
                self.assertRegex(err, rf"^latencies: (the last row|row {ended}): {said}\n$")
            status, out, err = self.told(latencies, few, "--trace", trace, *more)
            self.assertEqual((0, ""), (status, err))
            self.assertRegex(out.splitlines()[-1], rf"^counted in (C|Python); {rest:,} rows of the trace without an outcome$")
            status, out, err = self.told(latencies, few, "--trace", trace, "--csv", *more)
            self.assertEqual((0, f"latencies: {rest:,} rows of the trace without an outcome\n"), (status, err))
            self.refused(3, "latencies: row 0: not the header of a stream's rows", latencies, os.devnull, "--trace", trace, *more)

    def test_a_row_has_the_outcome_of_its_operation(self):
        trace, _, _, told = self.both(DRAWN)
        for old, new in ((b",read,", b",stored,"), (b",stored,", b",forwarded,"), (b",read,", b",cut,")):
            at = told[: told.index(old)].count(b"\n")
            other = self.file("other", told.replace(old, new, 1))
            for more in ((), ("--python",)):
                self.refused(3, f"latencies: row {at}: not an outcome of a row of this trace", latencies, other, "--trace", trace, *more)

    def test_no_compiler_is_no_hindrance(self):
        with mock.patch("shutil.which", lambda name: None), latencies.compiled() as built:
            self.assertIsNone(built)


if __name__ == "__main__":
    unittest.main()
