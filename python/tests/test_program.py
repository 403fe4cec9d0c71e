"""Tests of how the program is found and started, of what faults tell, of progress, of breaking off, and of what is left open."""
import contextlib
import io
import os
import pathlib
import shlex
import signal
import subprocess
import sys
import tempfile
import time
import unittest

PACKAGE = pathlib.Path(__file__).resolve().parent.parent
sys.path[:0] = [str(PACKAGE), str(PACKAGE / "tests")]
import pcm  # noqa: E402
from leaks import setUpModule, tearDownModule  # noqa: E402, F401
from pcm import progress  # noqa: E402

ONES = b"\xff" * 64
# Stands for the `pcm` of a checkout: it tells what it was called for, and names programs that are built.
WRAPPER = """#!/bin/sh
echo "$*" >> {room}/calls
case $1 in
path) echo "building {room}" >&2; case $2 in stream) echo {room}/streams ;; explain) echo {room}/explains ;; *) echo {room}/runs ;; esac ;;
*) echo "not asked for" >&2; exit 70 ;;
esac
"""
# Twenty modules of faulty rows, whose exceptions are kept, and of logs that can't be written; prints how many descriptors are open before and
# behind them, and how many programs still run.
LEAKS = """
import io, os, pcm
class Full(io.StringIO):
    def write(self, text):
        raise OSError(28, "no room")
def faulty():
    try:
        with pcm.Module() as module:
            module.write(5, 0, bytes(64))
            module.settle(3)
    except pcm.TraceError as fault:
        return fault
faulty()
opened, faults = len(os.listdir("/proc/self/fd")), []
for _ in range(20):
    faults.append(faulty())
    try:
        pcm.Module(program="/nowhere/pcm")
    except FileNotFoundError as fault:
        faults.append(fault)
    for log in (Full(), open(os.devnull)):
        try:
            pcm.Module(log=log)
        except OSError as fault:
            faults.append(fault)
        log.close()
try:
    left = os.waitpid(-1, os.WNOHANG)
except ChildProcessError:
    left = None
print(opened, len(os.listdir("/proc/self/fd")), left, len(faults), {str(fault) for fault in faults if isinstance(fault, pcm.TraceError)})
"""
SLOW = """#!/bin/sh
echo rows,tick,stored,merged,queued,full,worn,read,forwarded,busy,lost,cut,retired,pulses,most,mean,pointers,senses,set,reset
echo 100,9,0,0,0,0,0,0,0,0,0,0,0,0,0,0,0,0,0,0
sleep 1.2
echo 200,9,0,0,0,0,0,0,0,0,0,0,0,0,0,0,0,0,0,0
"""


def around(**more):
    """The environment of a process that has the package."""
    return {**os.environ, "PYTHONPATH": str(PACKAGE), "PYTHONDONTWRITEBYTECODE": "1", **more}


class Rooms(unittest.TestCase):
    def setUp(self):
        folder = tempfile.TemporaryDirectory()
        self.addCleanup(folder.cleanup)
        self.room = pathlib.Path(folder.name)

    def script(self, name, text):
        path = self.room / name
        path.write_text(text)
        path.chmod(0o755)
        return str(path)

    def wrapper(self, text=WRAPPER):
        """The `pcm` of a checkout around the program of these tests."""
        (self.room / "crates.txt").touch()
        first, rest = pcm.program()[0], " ".join(pcm.program()[1:])
        self.script("runs", f'#!/bin/sh\nexec "{first}" {rest} "$@"\n')
        for name in ("stream", "explain"):
            self.script(f"{name}s", f'#!/bin/sh\nexec "{first}" {rest} {name} "$@"\n')
        return self.script("pcm", text.format(room=self.room))


class Programs(Rooms):
    def test_the_built_programs_are_asked_for_once(self):
        wrapper = self.wrapper()
        code = (
            "import pcm\n"
            "for _ in range(3): pcm.run([pcm.PowerCut(1)])\n"
            "for _ in range(3):\n"
            "    with pcm.Module() as module: module.cut(1)\n"
            "for _ in range(3): told = pcm.command('explain')\n"
            "print(pcm.command('gen'), pcm.command('stream'), told)\n"
        )
        done = subprocess.run([sys.executable, "-c", code], env=around(PCM=wrapper), capture_output=True, text=True, check=True)
        self.assertEqual(f"['{self.room}/runs', 'gen'] ['{self.room}/streams'] ['{self.room}/explains']\n", done.stdout)
        self.assertEqual(["path", "path stream", "path explain"], (self.room / "calls").read_text().splitlines())
        self.assertEqual(3 * f"building {self.room}\n", done.stderr)

    def test_a_program_that_cannot_be_built_is_told(self):
        wrapper = self.wrapper("#!/bin/sh\nexit 70\n")
        with self.assertRaisesRegex(pcm.PcmError, "isn't built: .* path stream` ended with status 70") as fault:
            pcm.Module(program=wrapper)
        self.assertEqual(70, fault.exception.status)

    def test_another_program_by_that_name_is_started_as_it_is(self):
        wrapper = self.wrapper()
        for path in (self.script("around", f'#!/bin/sh\nexec {wrapper} "$@"\n'), str(self.room / "runs"), "/nowhere/pcm"):
            self.assertEqual([path, "run"], pcm.command("run", path))
        self.assertFalse((self.room / "calls").exists())
        self.assertEqual(["ssh", "there", "pcm", "stream"], pcm.command("stream", ["ssh", "there", "pcm"]))


class Faults(Rooms):
    def test_a_wrong_word_is_told_with_what_it_may_be(self):
        for options, why in (({"psi": 0}, r"--psi 0: .*1 to 65535"), ({"polcy": "pause"}, r"--polcy .*did you mean --policy\?")):
            for start in (lambda options=options: pcm.run([], **options), lambda options=options: self.settled(**options)):
                with self.assertRaises(pcm.UsageError) as wrong:
                    start()
                self.assertRegex(wrong.exception.why, why)
                self.assertRegex(str(wrong.exception), why + r".*\(usage: pcm ")

    def settled(self, **options):
        with pcm.Module(**options) as module:
            module.settle(0)

    def test_a_faulty_row_of_a_file_is_told_with_its_line(self):
        path = self.room / "trace.csv"
        path.write_text("tick,op,arg,data\n\n5,R,0,\n4,R,0,\n")
        with self.assertRaises(pcm.TraceError) as wrong:
            pcm.run(path)
        self.assertEqual((2, "order"), (wrong.exception.row, wrong.exception.kind))
        self.assertRegex(str(wrong.exception), r"^line 4: .*\(trace row 2: order\)$")

    def test_a_faulty_row_of_rows_is_told(self):
        for rows, options, kind, why in (
            ([pcm.Read(5, 0), pcm.Read(4, 0)], {}, "order", "row 2: its tick 4 is below 5, the tick of the row before"),
            ([pcm.Read(0, 0), pcm.Read(0, 8)], {"banks": 1, "regions": 1, "lines": 8}, "line",
             "row 2: the third field must be a line, 0 to 7 (banks x regions x lines are 8) in at most 5 digits, and is '8'"),
            (iter([pcm.Read(0, 0), pcm.Write(0, 0, ONES[1:])]), {}, "payload",
             "row 2: the fourth field must have 128 hexadecimal digits, for lines of 64 bytes, and has 126"),
            ([pcm.Read(0, 0), pcm.Settle(3)], {}, "op", "row 2: the second field must be R, W, M or C, and is 'S' (S, a settle, is a stream's alone)"),
        ):
            with self.assertRaises(pcm.TraceError) as wrong:
                pcm.run(rows, **options)
            self.assertEqual((3, 2, kind, why), (wrong.exception.status, wrong.exception.row, wrong.exception.kind, wrong.exception.why))

    def test_too_many_rows_are_told(self):
        with self.assertRaises(pcm.TooLong) as wrong:
            pcm.run(pcm.PowerCut(0) for _ in range(400_001))
        self.assertIn("stream has no such bound", wrong.exception.why)

    def test_a_pipe_is_not_read_again(self):
        pipe = self.room / "pipe"
        os.mkfifo(pipe)
        code = f"import pcm\ntry: pcm.run({str(pipe)!r})\nexcept pcm.TraceError as wrong: print(wrong.kind, wrong.why)"
        with subprocess.Popen([sys.executable, "-c", code], env=around(), stdout=subprocess.PIPE) as it:
            self.addCleanup(it.kill)
            pipe.write_bytes(b"x\n")
            self.assertEqual(b"header None\n", it.communicate(timeout=20)[0])

    def test_a_faulty_row_of_a_module_is_told(self):
        def far(module):
            module.write(3, 0, ONES)
            module.read(3, 512)

        def late(module):
            module.settle_until(module.write(0, 0, ONES), 1000)
            module.read(module.tick, 0)
            module.cut(module.tick - 3)

        def among_many(module):
            for tick in range(3000):
                module.read(tick, tick % 512)
            list(module.outcomes())
            module.write(3000, 5, ONES[:-1])
            for tick in range(3000, 6000):
                module.read(tick, tick % 512)

        for status, hand_in, row, kind, why in (
            (3, far, 2, "line", "row 2: the third field must be a line, 0 to 511 (banks x regions x lines are 512) in at most 5 digits, and is '512'"),
            (None, late, 3, "order", "row 3: its tick 12 is below 15, at which the module stands"),
            (None, among_many, 3001, "payload", "row 3001: the fourth field must have 128 hexadecimal digits, for lines of 64 bytes, and has 126"),
            (None, lambda module: module.write_masked(0, 0, [None] * 64), 1, "payload", "row 1: the fourth field of M gives no byte"),
            (None, lambda module: module.settle_until(2, 5), 1, "line",
             "a settle until before row 1: the third field of U must be the number of a row that came before, and none did, and is '2'"),
            (None, lambda module: module.banks(2**40 + 1), 1, "tick",
             "a query before row 1: the first field must be a tick, 0 to 1099511627776 in digits, and is '1099511627777'"),
            (None, lambda module: module.settle(1.5), 1, "tick",
             "a settle before row 1: the first field must be a tick, 0 to 1099511627776 in digits, and is '1.5'"),
            (None, lambda module: module.read(0, -1), 1, "line",
             "row 1: the third field must be a line, 0 to 67108863 (a module has at most 67108864) in at most 8 digits, and is '-1'"),
        ):
            with self.assertRaises(pcm.TraceError) as wrong, pcm.Module(way="program") as module:
                hand_in(module)
                module.finish()
            self.assertEqual((status, row, kind, why), (wrong.exception.status, wrong.exception.row, wrong.exception.kind, wrong.exception.why))
            self.assertEqual(f"{why} (trace row {row}: {kind})", str(wrong.exception))

    def test_a_row_of_a_module_that_is_none_is_refused_before_it_is_sent(self):
        log, mask = io.StringIO(), [None, 5] + [None] * 62
        with pcm.Module(log=log) as module:
            module.write(7, 0, ONES)
            for hand_in in (
                lambda: module.write(6, 0, ONES), lambda: module.write(2**40 + 1, 0, ONES), lambda: module.write(7.0, 0, ONES),
                lambda: module.write(True, 0, ONES), lambda: module.write("8,", 0, ONES), lambda: module.write(7, -1, ONES),
                lambda: module.write(7, 1 << 26, ONES), lambda: module.write(7, 0.0, ONES), lambda: module.write(7, 0, ONES[1:]),
                lambda: module.write(7, 0, 2 * ONES), lambda: module.write(7, 0, b""), lambda: module.write_masked(7, 0, [None] * 64),
                lambda: module.write_masked(7, 0, mask[1:]), lambda: module.write_masked(6, 0, mask), lambda: module.read(6, 0),
                lambda: module.read(-1, 0), lambda: module.read(None, 0), lambda: module.cut(6), lambda: module.settle(6), lambda: module.banks(6),
                lambda: module.wear(6), lambda: module.settle_until(1, 6), lambda: module.settle_until(0, 9), lambda: module.settle_until(2, 9),
            ):
                with self.assertRaises(pcm.TraceError) as wrong:
                    hand_in()
                self.assertIsNone(wrong.exception.status)
                self.assertEqual((2, 7), (wrong.exception.row, module.tick))
            for byte in (0x1234, 256, -1):
                with self.assertRaises(ValueError):
                    module.write_masked(7, 0, [byte] + [None] * 62)
                with self.assertRaises(ValueError):
                    pcm.run([pcm.MaskedWrite(7, 0, [byte] + [None] * 62)])
            with self.assertRaises(TypeError):
                module.write_masked(7, 0, ["12"] + [None] * 63)
            self.assertEqual((2, 3), (module.write_masked(7, 0, mask), module.read(2**40, 511)))
            self.assertEqual([1, 2, 3], sorted(it.row for it in module.finish()))
        self.assertEqual(["tick", "7", "7", str(2**40)], [row.split(",")[0] for row in log.getvalue().splitlines()])

    def test_the_size_of_a_line_is_known(self):
        for options, size in (({}, 64), ({"line": None}, 64), ({"line": 64}, 64), ({"line": 128}, 128), ({"line": "128", "tell": "shape"}, 128)):
            with pcm.Module(**options) as module:
                self.assertEqual(size, module.line_size)
                with self.assertRaisesRegex(pcm.TraceError, f"must have {2 * size} hexadecimal digits, for lines of {size} bytes, and has"):
                    module.write(0, 0, bytes(192 - size))
                self.assertEqual(1, module.write(0, 0, bytes(size)))
                self.assertEqual(size, module.shape.line if module.shape else size)
        with self.assertRaisesRegex(pcm.UsageError, "--line 65: .* 64 or 128"), pcm.Module(line=65) as module:
            self.assertEqual(1, module.write(0, 0, bytes(65)))
            module.settle(0)

    def test_the_size_of_a_line_may_be_what_the_caller_says_or_the_module_tells(self):
        script = self.script("wide", f"#!/bin/sh\nexec {shlex.join(pcm.command('stream'))} --line 128 --tell shape\n")
        with pcm.Module(program=script) as module:
            module.line_size = None
            self.assertEqual(1, module.write(0, 0, bytes(128)))
            with self.assertRaises(pcm.TraceError):
                module.write_masked(0, 0, [None] * 128)
            self.assertEqual([], module.settle(0))
            self.assertEqual(128, module.line_size)
            with self.assertRaises(pcm.TraceError):
                module.write(0, 0, bytes(64))

    def test_whole_numbers_of_other_types_are_taken(self):
        class Whole(int):
            pass

        with pcm.Module() as module:
            self.assertEqual(1, module.write(Whole(3), Whole(5), ONES))
            self.assertEqual([pcm.Stored], [type(it) for it in module.settle_until(Whole(1), Whole(1000))])
            self.assertEqual((int, 18), (type(module.tick), module.tick))

    def test_a_log_plays_the_same_again(self):
        log = io.StringIO()
        with pcm.Module(log=log, misses=3) as module:
            module.write(0, 0, ONES)
            told = module.settle(5)
            module.cut(7)
            module.write_masked(9, 0, [None, 5] + [None] * 62)
            module.banks(9)
            module.wear()
            told += module.settle_until(module.read(30, 0), 1000)
            told += module.finish()
        rows = list(pcm.read_trace(io.StringIO(log.getvalue(), newline="")))
        self.assertEqual([pcm.Write, pcm.PowerCut, pcm.MaskedWrite, pcm.Read], [type(it) for it in rows])
        self.assertEqual([it.outcome for it in pcm.run(rows, misses=3).rows], sorted(told, key=lambda it: it.row))

    def test_a_row_that_the_log_does_not_take_is_not_sent(self):
        class Once(io.StringIO):
            """A file on a disk that is full for one write."""

            def write(self, text):
                if text.startswith("50,W,1,"):
                    raise OSError(28, "no room")
                return super().write(text)

        log = Once()
        with pcm.Module(log=log, banks=1, write_queue=1) as module:
            self.assertEqual(1, module.write(0, 0, ONES))
            with self.assertRaisesRegex(OSError, "no room"):
                module.write(50, 1, ONES)
            self.assertEqual(0, module.tick)
            self.assertEqual((2, 3), (module.write(50, 2, ONES), module.write(50, 3, ONES)))
            self.assertEqual([(1, "stored"), (3, "full")], [(it.row, it.word) for it in module.settle(50)])
            self.assertEqual([(2, "stored", 65)], [(it.row, it.word, it.tick) for it in module.settle_until(2, 5000)])
        self.assertEqual(["0,W,0", "50,W,2", "50,W,3"], [line.rpartition(",")[0] for line in log.getvalue().splitlines()[1:]])

    def test_a_log_is_played_into_another_module(self):
        options, log, again = {"misses": 3, "write_queue": 2}, io.StringIO(), io.StringIO()
        with pcm.Module(log=log, **options) as module:
            told = []
            for tick in range(0, 400, 8):
                module.write(tick, tick % 7, bytes([tick % 256]) * 64)
                module.write_masked(tick, tick % 5, [tick % 256] + [None] * 63)
                told += module.settle_until(module.read(tick, 3), tick + 5)
            module.cut(module.tick)
            told += module.settle(module.tick)
            wear = module.wear()
        rows = list(pcm.read_trace(io.StringIO(log.getvalue(), newline="")))
        with pcm.Module(log=again, **options) as module:
            self.assertEqual(sorted(told, key=lambda it: it.row), sorted(module.play(rows[:70]) + module.play(rows[70:]), key=lambda it: it.row))
            self.assertEqual((rows[-1].tick, wear), (module.tick, module.wear()))
            self.assertEqual([], module.play([pcm.Settle(0), pcm.SettleUntil(0, 1)]))
            self.assertEqual(152, module.read(module.tick, 0))
            with self.assertRaisesRegex(TypeError, "no row of a trace: '0,R,0,'"):
                module.play(["0,R,0,"])
        self.assertTrue(again.getvalue().startswith(log.getvalue()))

    def test_a_log_with_the_power_off_ends_as_its_cut(self):
        for is_cut in (False, True):
            log = io.StringIO()
            with pcm.Module(log=log, end="off") as module:
                told = module.settle_until(module.write(0, 0, ONES), 1000)
                if is_cut:
                    module.cut(module.tick)
                told += module.finish()
            with pcm.Module(end="off") as module:
                for row in pcm.read_trace(io.StringIO(log.getvalue(), newline="")):
                    module._play(row)
                again = module.finish()
            self.assertEqual([(1, "stored", 15), (2, "cut", 15)], [(it.row, it.word, it.tick) for it in told])
            self.assertEqual((is_cut, [2, 1] if not is_cut else [1, 2]), (again == told, [it.row for it in again]))

    def test_traces_are_taken_as_the_program_takes_them(self):
        path = self.room / "trace.csv"
        path.write_bytes(b'\xef\xbb\xbf"tick",op,arg,data\r\n\r\n0,"W",0,' + b"ff" * 64 + b'\n"9",R,"0",\n\n')
        with open(path, newline="", encoding="utf-8") as file:
            rows = list(pcm.read_trace(file))
        self.assertEqual([pcm.Write(0, 0, ONES), pcm.Read(9, 0)], rows)
        self.assertEqual(pcm.run(rows), pcm.run(path))


class Breaking(unittest.TestCase):
    @classmethod
    def setUpClass(cls):
        # (what is started in the background has Ctrl-C ignored, and so has all that it starts)
        signal.signal(signal.SIGINT, signal.default_int_handler)

    def broken_off(self, *words):
        """What a process says that is broken off while it reads."""
        with subprocess.Popen([sys.executable, *words], stdin=subprocess.PIPE, stdout=subprocess.PIPE, stderr=subprocess.PIPE, env=around()) as it:
            # (more than a pipe holds: it has begun to read once that is written)
            it.stdin.write(b"r,0,64,0,0\n" * 20_000)
            time.sleep(0.2)
            it.send_signal(signal.SIGINT)
            it.wait(20)
            return it.returncode, it.stdout.read(), it.stderr.read()

    def test_a_report_says_one_line(self):
        self.assertEqual((130, b"", b"report: broken off\n"), self.broken_off("-m", "pcm", "report", "-"))

    def test_an_importer_and_cells_say_one_line(self):
        examples = PACKAGE.parent / "examples"
        self.assertEqual((130, b"", b"broken off\n"), self.broken_off(str(examples / "import" / "gem5.py")))
        self.assertEqual((130, b"", b"cells: broken off\n"), self.broken_off(str(examples / "image" / "cells"), "-"))


class Terminal(io.StringIO):
    def isatty(self):
        return True


class ProgressLines(Rooms):
    def told(self, shown, file):
        """What is written for 10 rows each 0.3 s."""
        now = [0.0]
        with contextlib.redirect_stderr(file):
            it = progress.Progress(shown, lambda: now[0])
            for step in range(1, 41):
                now[0] = 0.3 * step
                it.rows(10 * step, step / 40)
            it.clear()
        return file.getvalue()

    def test_a_terminal_has_one_line_that_goes(self):
        text = self.told(None, Terminal())
        self.assertTrue(text.startswith("\r\033[K40 rows, 33 a second, 10%, about 11 s more\r\033[K50 rows"))
        self.assertTrue(text.endswith("400 rows, 33 a second, 100%\r\033[K"))
        self.assertEqual("", self.told(False, Terminal()))

    def test_another_file_has_lines_where_they_are_asked_for(self):
        self.assertEqual("", self.told(None, io.StringIO()))
        self.assertEqual("40 rows, 33 a second, 10%, about 11 s more\n380 rows, 33 a second, 95%, about 1 s more\n", self.told(True, io.StringIO()))

    def test_snapshots_tell_of_a_long_wait(self):
        slow, told = self.script("slow", SLOW), io.StringIO()
        with contextlib.redirect_stderr(told):
            self.assertEqual([100, 200], [one.rows for one in pcm.snapshots(input="drawn", rows=400, program=slow, progress=True)])
        self.assertRegex(told.getvalue(), r"^100 rows, \d+ a second, 25%, about \d+ s more\n$")


    def test_a_module_tells_of_a_long_wait(self):
        slow, told = self.script("slow", "#!/bin/sh\necho 1,cut,1,,\necho 2,cut,1,,\nsleep 1.2\necho 3,cut,2,,\n"), io.StringIO()
        with contextlib.redirect_stderr(told), pcm.Module(program=slow, progress=True) as module:
            self.assertEqual([1, 2, 3], [module.cut(tick) for tick in (1, 1, 2)])
            self.assertEqual([pcm.Cut(1, 1), pcm.Cut(2, 1), pcm.Cut(3, 2)], module.finish())
        self.assertRegex(told.getvalue(), r"^2 rows, [0-9.]+ a second\n$")


class Open(unittest.TestCase):
    @unittest.skipUnless(pathlib.Path("/proc/self/fd").exists(), "open descriptors are told by /proc")
    def test_a_module_leaves_nothing_open_whatever_ends_it(self):
        done = subprocess.run([sys.executable, "-X", "dev", "-W", "error", "-c", LEAKS], env=around(), capture_output=True, text=True, check=True)
        before, behind, left, count, faults = done.stdout.split(maxsplit=4)
        self.assertEqual(("", before, "None", "80"), (done.stderr, behind, left, count))
        self.assertEqual("{'a settle before row 2: its tick 3 is below 5, at which the module stands (trace row 2: order)'}\n", faults)


if __name__ == "__main__":
    unittest.main()
