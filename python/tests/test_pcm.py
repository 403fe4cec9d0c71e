"""Tests of the package, over the program that PCM names (or ./pcm of the checkout)."""
import io
import os
import pathlib
import random
import subprocess
import sys
import tempfile
import unittest

PACKAGE = pathlib.Path(__file__).resolve().parent.parent
sys.path[:0] = [str(PACKAGE), str(PACKAGE / "tests")]
import pcm  # noqa: E402
from leaks import setUpModule, tearDownModule  # noqa: E402, F401

SMALL = {"banks": 1, "regions": 1, "lines": 4, "spares": 2, "write_queue": 4, "read_queue": 4}
ONES = b"\xff" * 64
WORN = {"banks": 2, "regions": 2, "lines": 8, "lo": 5, "hi": 40, "misses": 2, "psi": 3}
# Hands 100,000 rows in and settles each hundred; prints the process's peak memory in KB behind 20,000 and behind all.
PEAKS = """
import pcm
with pcm.Module(banks=1, regions=1, lines=4) as module:
    for row in range(1, 100_001):
        module.read(10 * row, row % 4)
        if row % 100 == 0:
            module.settle(10 * row)
        if row in (20_000, 100_000):
            print(next(line.split()[1] for line in open("/proc/self/status") if line.startswith("VmHWM")))
"""


def drawn(**options):
    """The rows of a generated trace."""
    words = [*pcm.program(), "gen", *[word for name, value in options.items() for word in (f"--{name.replace('_', '-')}", str(value))]]
    return list(pcm.read_trace(io.StringIO(subprocess.run(words, stdout=subprocess.PIPE, text=True, check=True).stdout)))


class WholeTraces(unittest.TestCase):
    def test_a_write_and_a_read_of_its_line(self):
        done = pcm.run([pcm.Write(0, 0, ONES), pcm.Read(100, 0)], **SMALL)
        self.assertEqual(0, done.status)
        self.assertEqual([pcm.ResultRow(1, "W", 0, pcm.Stored(1, 15, 3)), pcm.ResultRow(2, "R", 0, pcm.ReadOutcome(2, 105, 3, ONES))], done.rows)

    def test_a_trace_in_a_file_is_the_trace(self):
        rows = [pcm.MaskedWrite(0, 1, [1] + [None] * 63), pcm.PowerCut(7), pcm.Read(7, 1)]
        with tempfile.TemporaryDirectory() as folder:
            path = pathlib.Path(folder) / "trace.csv"
            with open(path, "w", encoding="ascii") as file:
                self.assertEqual(3, pcm.write_trace(rows, file))
            with open(path, encoding="ascii") as file:
                self.assertEqual(rows, list(pcm.read_trace(file)))
            self.assertEqual(pcm.run(rows, **SMALL), pcm.run(path, **SMALL))

    def test_a_summary_and_a_wear_report(self):
        summary = pcm.run(input="drawn", rows=500, cuts=3, print="summary", **WORN).summary
        self.assertEqual(500, summary["rows"])
        self.assertEqual(500, sum(summary[word] for word in list(summary)[1:11]))
        wear = pcm.run(input="drawn", rows=500, cuts=3, print="wear", **WORN).wear
        self.assertEqual(summary["pulses"], sum(line.pulses for line in wear))

    def test_a_wrong_option_carries_status_and_line(self):
        with self.assertRaises(pcm.UsageError) as wrong:
            pcm.run([], lines=5)
        self.assertEqual(2, wrong.exception.status)
        self.assertIn("usage: pcm", wrong.exception.line)

    def test_a_fault_of_the_trace_names_row_and_kind(self):
        with self.assertRaises(pcm.TraceError) as wrong:
            pcm.run([pcm.Read(5, 0), pcm.Read(4, 0)])
        self.assertEqual((3, 2, "order"), (wrong.exception.status, wrong.exception.row, wrong.exception.kind))

    def test_lines_that_are_no_rows_are_named(self):
        wrong = {
            "0,R,0": "fields", "0,X,0,": "op", ",R,0,": "tick", " 1,R,0,": "tick", "0,R,-1,": "line", "0,C,1,": "line", "0,S,,1": "payload",
            "0,R,0,00": "payload", "0,W,0,ab cd": "payload", "0,W,0,..": "payload", "0,M,0,.a": "payload",
        }
        for line, kind in wrong.items():
            with self.assertRaisesRegex(ValueError, f"^row 2: {kind}$"):
                list(pcm.read_trace(["tick,op,arg,data\n", "0,W,0,aB\n", line + "\n"]))

    def test_rows_with_a_number_are_a_trace(self):
        rows = list(pcm.read_trace(["tick,op,arg,data\n", "0,R,0,\n", "1,S,,\n", "2,Q,,\n", "3,C,,\n"]))
        self.assertEqual([pcm.Read(0, 0), pcm.Settle(1), pcm.Query(2), pcm.PowerCut(3)], rows)
        self.assertEqual([pcm.Read(0, 0), pcm.PowerCut(3)], list(pcm.numbered(rows)))

    def test_no_program_is_told(self):
        with self.assertRaises(FileNotFoundError):
            pcm.run([], program="/nowhere/pcm")


class Images(unittest.TestCase):
    def test_an_image_is_read_back_and_shows_what_show_shows(self):
        for number in range(8):
            options = {"registers": ["guarded", "array"][number % 2], "line": [64, 128][number // 2 % 2], "seed": number, **WORN}
            image = pcm.run(input="drawn", rows=2000, cuts=5, print="image", **options).image
            again = pcm.Image.read(image.write())
            self.assertEqual(image, again)
            shown = subprocess.run([*pcm.program(), "show"], input=image.write(), stdout=subprocess.PIPE, check=True).stdout.decode()
            lines = "".join(f"{line},{image.newest(line).hex()}\n" for line in range(32))
            self.assertEqual("line,data\n" + lines, shown)

    def test_faults_are_those_of_show(self):
        whole = pcm.run([pcm.Write(0, 0, ONES)], print="image", **SMALL).image.write()
        broken = [whole[:-1], whole + b"x", b"", b"PCMIMG03" + whole[8:]]
        broken += [whole[:at] + b"\xff\xff" + whole[at + 2:] for at in range(8, 40)]
        for data in broken:
            shown = subprocess.run([*pcm.program(), "show"], input=data, stdout=subprocess.PIPE, stderr=subprocess.PIPE, check=False)
            try:
                pcm.Image.read(data)
                self.assertEqual(0, shown.returncode)
            except pcm.ImageError as wrong:
                self.assertEqual(f"{wrong}\n", shown.stderr.decode())


class Streams(unittest.TestCase):
    def test_answers_come_as_they_are_known(self):
        with pcm.Module(**SMALL) as module:
            self.assertEqual(1, module.write(0, 0, ONES))
            self.assertEqual(2, module.read(3, 0))
            self.assertEqual([pcm.Forwarded(2, 3, ONES)], module.settle(14))
            self.assertEqual([pcm.Stored(1, 15, 3)], module.settle(15))
            self.assertEqual(3, module.read(20, 0))
            self.assertEqual([pcm.ReadOutcome(3, 25, 3, ONES)], module.finish())
            self.assertEqual(0, module.status)

    def test_what_waits_in_each_bank_is_told(self):
        with pcm.Module(**{**SMALL, "banks": 2}) as module:
            module.write(0, 0, ONES)
            module.read(3, 4)
            self.assertEqual([(0, 1, 0), (1, 0, 1)], [(bank.bank, bank.writes, bank.reads) for bank in module.banks(4)])
            self.assertEqual([pcm.Backlog(15, 0, 0, 0, "going"), pcm.Backlog(15, 1, 0, 0, "going")], module.banks(15))
            self.assertEqual([1, 2], [outcome.row for outcome in module.outcomes()])

    def test_a_bank_without_a_spare_is_exhausted(self):
        with pcm.Module(**{**SMALL, "spares": 0, "lo": 1, "hi": 1}) as module:
            for row in range(8):
                module.write(1000 * row, 0, bytes([255 * (row % 2)]) * 64)
            self.assertEqual(["exhausted"], [bank.mark for bank in module.banks(9000)])
            self.assertIn(pcm.Worn, [type(outcome) for outcome in module.finish()])

    def test_a_power_cut_loses_reads_and_no_write(self):
        with pcm.Module(**SMALL) as module:
            module.write_masked(0, 0, [7] + [None] * 63)
            module.read(6, 1)
            module.cut(7)
            self.assertCountEqual([pcm.Lost(2, 7), pcm.Cut(3, 7)], module.settle(7))
            self.assertEqual([1], [outcome.row for outcome in module.finish()])
            self.assertEqual(1, module.status)

    def test_the_power_stays_off(self):
        with pcm.Module(end="off", **SMALL) as module:
            module.write(0, 0, ONES)
            module.settle(7)
            self.assertEqual([pcm.Cut(2, 7), pcm.Queued(1, 0)], module.finish())

    def test_a_stream_tells_what_a_run_tells(self):
        for policy in ("pause", "plain", "cancel"):
            rows = drawn(rows=3000, cuts=5, banks=2, regions=2, lines=8)
            wanted = {row.outcome for row in pcm.run(rows, policy=policy, **WORN).rows}
            told = []
            with pcm.Module(policy=policy, **WORN) as module:
                for row in rows:
                    module._play(row)
                    told += module.outcomes()
                told += module.finish()
            self.assertEqual((3000, wanted), (len(told), set(told)))

    def test_a_fault_carries_row_and_kind_and_known_outcomes_stay(self):
        module = pcm.Module(way="program", **SMALL)
        module.write(0, 0, ONES)
        module.read(100, 9)
        with self.assertRaises(pcm.TraceError) as wrong:
            module.finish()
        self.assertEqual((2, "line"), (wrong.exception.row, wrong.exception.kind))
        module.close()

    def test_a_wrong_option_is_told(self):
        with self.assertRaises(pcm.UsageError):
            with pcm.Module(lines=5) as module:
                module.settle(0)

    def test_behind_its_end_a_module_takes_no_row(self):
        finished, closed, drawing = (pcm.Module(**SMALL, **more) for more in ({}, {}, {"input": "drawn", "rows": 5}))
        finished.finish()
        closed.close()
        for module in (finished, closed, drawing):
            for hand_in in (lambda: module.write(0, 0, ONES), lambda: module.cut(0), lambda: module.settle(0)):
                with self.assertRaises(ValueError):
                    hand_in()
        self.assertEqual(5, len(drawing.finish()))
        finished.close()
        drawing.close()

    def test_a_module_tells_rows_alone(self):
        for what in ("summary", "image", "snapshots"):
            with self.assertRaises(pcm.UsageError):
                pcm.Module(print=what, **SMALL)
        with pcm.Module(print="rows", **SMALL) as module:
            with self.assertRaises(TypeError):
                module.write(0, 0, 64)
            self.assertEqual([], module.finish())

    def test_lines_that_are_none_of_a_stream_are_told(self):
        for line in ("1,gone,5,,", "1,stored,5", "1,read,5,3,0x"):
            with pcm.Module(program=["printf", line + "%.0s\\n"]) as module:
                with self.assertRaisesRegex(pcm.PcmError, "not a line of a stream"):
                    module.finish()

    def test_full_pipes_in_both_directions(self):
        # (no answer is taken until all rows are handed in: both pipes fill, and neither side waits for ever)
        with pcm.Module(**SMALL) as module:
            for tick in range(40_000):
                module.read(10 * tick, tick % 4)
            self.assertEqual(40_000, len(module.finish()))

    @unittest.skipUnless(pathlib.Path("/proc/self/status").exists(), "peak memory is told by /proc")
    def test_memory_does_not_grow_with_the_rows(self):
        # (a process of its own, whose peak no other test has raised)
        done = subprocess.run([sys.executable, "-c", PEAKS], stdout=subprocess.PIPE, check=True, env={**os.environ, "PYTHONPATH": str(PACKAGE)})
        soon, late = map(int, done.stdout.split())
        self.assertLess(late - soon, 1000)

    def test_a_module_that_is_dropped_ends_its_program(self):
        with pcm.Module(way="program", **SMALL) as module:
            module.write(0, 0, ONES)
            module.close()
            self.assertIsNotNone(module._way.process.returncode)

    def closed(self, *, known=0, **options):
        """A module that was closed before its end, when so many outcomes were known that nobody had taken."""
        module = pcm.Module(way="program", **SMALL, **options)
        for tick in range(known):
            module.cut(tick)
        module.banks(known)
        module.cut(known)
        module.close()
        return module

    def test_a_closed_module_tells_what_is_known_or_that_it_is_closed(self):
        for known in (0, 3):
            module = self.closed(known=known)
            for call in (
                module.finish, lambda: module.settle(9), lambda: module.banks(9), module.wear, lambda: module.read(9, 0), lambda: module.play([]),
            ):
                with self.assertRaisesRegex(ValueError, "^the module is closed$"):
                    call()
                module.close()
            self.assertEqual(list(range(1, known + 1)), [it.row for it in module.outcomes()])
            self.assertEqual((None, None), (module.status, module.shape))
        module = self.closed(tell="shape")
        self.assertEqual(4, module.shape.lines)
        module = pcm.Module(way="program", tell="shape", **SMALL)
        module.close()
        with self.assertRaisesRegex(ValueError, "^the module is closed$"):
            self.assertIsNone(module.shape)
        with pcm.Module(**SMALL) as module:
            module.read(0, 0)
            module.close()
            self.assertEqual([], list(module.outcomes()))

    def test_a_line_has_a_bank(self):
        seen = [0] * 4
        with pcm.Module(banks=4, regions=2, lines=8, seed=7, tell="shape") as module:
            for line in range(64):
                module.write(0, line, ONES)
                now = [it.writes for it in module.banks(0)]
                self.assertEqual([0] * 3 + [1], sorted(new - old for new, old in zip(now, seen)))
                self.assertEqual(1, now[module.bank_of(line)] - seen[module.bank_of(line)])
                seen = now
            self.assertEqual([16] * 4, seen)
            for line in (-1, 64):
                with self.assertRaisesRegex(IndexError, f"no line {line}$"):
                    module.bank_of(line)
        with pcm.Module(**SMALL) as module, self.assertRaisesRegex(ValueError, "shape"):
            module.bank_of(0)

    def test_what_has_ended_is_told_behind_a_close(self):
        ended, faulty, killed = (pcm.Module(way="program", **SMALL) for _ in range(3))
        ended.cut(3)
        self.assertEqual([1], [it.row for it in ended.finish()])
        ended.close()
        self.assertEqual(([], 0), (ended.finish(), ended.status))
        faulty.read(100, 9)
        killed._way.process.kill()
        for module, kind in ((faulty, pcm.TraceError), (killed, pcm.PcmError)):
            texts = set()
            for call in (lambda module=module: module.settle(100), module.finish, module.close, module.finish, module.close, module.finish):
                try:
                    call()
                except kind as wrong:
                    texts.add(str(wrong))
            self.assertEqual(1, len(texts))


class Packages(unittest.TestCase):
    def installed(self, folder, *words):
        """Installs the package into a folder, and answers what a program says that has the folder's packages."""
        made = subprocess.run(
            [sys.executable, "-m", "pip", "install", "--quiet", "--no-deps", "--target", folder, *words],
            stdout=subprocess.PIPE, stderr=subprocess.STDOUT, check=False, env={**os.environ, "PIP_NO_INDEX": "1"},
        )
        if b"No module named pip" in made.stdout:
            self.skipTest("this Python has no pip")
        self.assertEqual(0, made.returncode, made.stdout.decode())
        code = f"import site; site.addsitedir({folder!r}); import pcm; print(pcm.__version__, pcm.__file__)"
        around = {name: value for name, value in os.environ.items() if name != "PYTHONPATH"}
        return subprocess.run([sys.executable, "-c", code], cwd="/", stdout=subprocess.PIPE, text=True, env=around, check=True).stdout

    def test_the_wheel_installs_without_a_network(self):
        with tempfile.TemporaryDirectory() as folder:
            self.assertEqual(f"{pcm.__version__} {folder}/pcm/__init__.py\n", self.installed(folder, str(PACKAGE)))

    def test_it_is_installed_in_place_without_a_network(self):
        with tempfile.TemporaryDirectory() as folder:
            self.assertEqual(f"{pcm.__version__} {PACKAGE}/pcm/__init__.py\n", self.installed(folder, "-e", str(PACKAGE)))


random.seed(1)
if __name__ == "__main__":
    unittest.main()
