"""A module by the library beside one by the program: the same calls have the same answers, and the same refusals."""
import copy
import io
import os
import pathlib
import random
import subprocess
import sys
import tempfile
import unittest
import zipfile
from unittest import mock

PACKAGE = pathlib.Path(__file__).resolve().parent.parent
sys.path[:0] = [str(PACKAGE), str(PACKAGE / "tests")]
import pcm  # noqa: E402
from leaks import setUpModule, tearDownModule  # noqa: E402, F401
from pcm.linked import Linked, library  # noqa: E402
from pcm.streamed import Streamed  # noqa: E402

SMALL = {"banks": 1, "regions": 1, "lines": 4, "spares": 2, "write_queue": 4, "read_queue": 4}
ONES = b"\xff" * 64


def drawn_options(draw):
    """Sizes, queues, pace and wear of a module."""
    sizes = {"banks": (1, 2, 4, 16), "regions": (1, 2), "lines": (4, 8, 64), "line": (64, 64, 128), "spares": (0, 1, 8), "write_queue": (1, 2, 8, 32)}
    more = {"read_queue": (1, 4, 32), "psi": (1, 3, 100), "read_ticks": (1, 5), "iter_ticks": (1, 10), "misses": (0, 0, 3)}
    words = {"policy": ("pause", "plain", "cancel"), "registers": ("guarded", "array")}
    options = {name: draw.choice(values) for name, values in {**sizes, **more, **words}.items()}
    options["seed"] = draw.randrange(2**64)
    if draw.random() < 0.6:
        options["lo"] = draw.choice((3, 20, 200))
        options["hi"] = options["lo"] * draw.choice((1, 3))
    return options


def drawn_call(draw, module, lines, size, step=60):
    """A call of a module by its name and its arguments, less than so many ticks later."""
    tick, line, kind = module.tick + draw.randrange(step), draw.randrange(lines), draw.random()
    if kind < 0.35:
        return "write", tick, line, draw.randbytes(size)
    if kind < 0.5:
        return "write_masked", tick, line, [draw.randrange(256) if draw.random() < 0.5 or at == 0 else None for at in range(size)]
    if kind < 0.75:
        return "read", tick, line
    if kind < 0.78:
        return "cut", tick
    if kind < 0.84 and module._rows:
        return "settle_until", draw.randrange(module._rows) + 1, tick + 200
    if kind < 0.86:
        return "settle_any", tick + 200
    if kind < 0.88:
        return "peek", line, tick
    return ("settle" if kind < 0.92 else "wear" if kind < 0.95 else "banks"), tick


def answer(module, name, *arguments):
    """What a call answers, or the error that it raises, in words."""
    try:
        return getattr(module, name)(*arguments)
    except (pcm.PcmError, ValueError, TypeError, IndexError) as wrong:
        return type(wrong), str(wrong)


@unittest.skipUnless(library(), "the library for C isn't built (tools/build library)")
class Ways(unittest.TestCase):
    def both(self, **options):
        """The same module by the program and by the library."""
        made = [pcm.Module(way=way, **options) for way in ("program", "library")]
        for module, kind in zip(made, (Streamed, Linked)):
            self.addCleanup(module.close)
            self.assertIsInstance(module._way, kind)
        return made

    def same(self, modules, name, *arguments):
        """The call has the same answer, behind which both stand alike; what it is."""
        one, other = (answer(module, name, *arguments) for module in modules)
        self.assertEqual(one, other, (name, arguments))
        self.assertEqual(*((module.tick, module.status, module.line_size) for module in modules))
        return one

    def test_drawn_lives_are_alike(self):
        kinds = set()
        for seed in range(40):
            draw = random.Random(seed)
            options = drawn_options(draw)
            modules = self.both(**options)
            lines, step = options["banks"] * options["regions"] * options["lines"], draw.choice((2, 20, 200))
            for _ in range(draw.choice((5, 50, 400))):
                told = self.same(modules, *drawn_call(draw, modules[1], lines, options["line"], step))
                if isinstance(told, list):
                    kinds.update(it.word for it in told if isinstance(it, pcm.Outcome))
            kinds.update(it.word for it in self.same(modules, "finish"))
            self.same(modules, "finish")
            for module in modules:
                module.close()
            self.same(modules, "finish")
        self.assertEqual({"stored", "merged", "queued", "full", "worn", "read", "forwarded", "busy", "lost", "cut"}, kinds)

    def test_rows_that_are_none_are_refused_alike(self):
        modules = self.both(tell="shape", **SMALL)
        self.assertEqual(*(module.shape for module in modules))
        self.same(modules, "read", 5, 0)
        ones, some = ONES, [1] + [None] * 63
        calls = (
            ("read", 4, 0), ("read", 2**40 + 1, 0), ("read", 5.0, 0), ("read", "five", 0), ("read", True, 0), ("read", 5, 4), ("read", 5, -1), ("read", 5, 1.0),
            ("write", 5, 0, b""), ("write", 5, 0, ones + b"x"), ("write", 5, 0, "ff" * 64), ("write", 5, 4, ones), ("write", 5, 0, list(ones)),
            ("write_masked", 5, 0, [None] * 64), ("write_masked", 5, 0, some[:-1]), ("write_masked", 5, 0, [256] + some[1:]), ("write_masked", 4, 0, some),
            ("cut", 4), ("settle", 4), ("settle", None), ("banks", 4), ("settle_until", 0, 9), ("settle_until", 2, 9), ("settle_until", 1, 4), ("bank_of", 4),
            ("settle_any", 4), ("settle_any", None), ("peek", 4), ("peek", -1), ("peek", 0, 4), ("peek", 0.0),
        )
        for call in calls:
            self.assertIsInstance(self.same(modules, *call), tuple, call)
        self.assertEqual(2, self.same(modules, "write", 5, 3, memoryview(bytearray(ones))))
        self.assertEqual([0] * 4, [self.same(modules, "bank_of", line) for line in range(4)])
        self.assertEqual(4, len(self.same(modules, "finish")) + len(self.same(modules, "finish")) + 2)
        for name, arguments in (("read", (9, 0)), ("settle", (9,)), ("banks", (9,)), ("settle_until", (1, 9)), ("settle_any", (9,)), ("peek", (0,))):
            self.assertEqual((ValueError, "no more rows are taken"), self.same(modules, name, *arguments))

    def test_all_of_a_module_is_told_alike(self):
        modules = self.both(tell="module", seed=7, policy="cancel", registers="array", **SMALL)
        self.assertEqual(*(module.shape for module in modules))
        self.assertEqual((2, 7, "cancel", "array"), tuple(getattr(modules[1].shape, it) for it in ("version", "seed", "policy", "registers")))

    def test_what_is_closed_answers_alike(self):
        for ends in (False, True):
            modules = self.both(**SMALL)
            self.same(modules, "write", 0, 0, ONES)
            self.same(modules, "read", 0, 0)
            self.same(modules, "banks", 100)
            if ends:
                self.same(modules, "finish")
            for module in modules:
                module.close()
                module.close()
            self.assertEqual(*([it.word for it in module.outcomes()] for module in modules))
            for name, arguments in (("read", (9, 0)), ("settle", (100,)), ("finish", ()), ("bank_of", (0,))):
                self.same(modules, name, *arguments)

    def test_a_module_may_be_closed_within_its_block(self):
        for module in self.both(**SMALL):
            with module:
                module.read(0, 0)
                module.close()
            self.assertIsNone(module.status)

    def test_logs_are_alike(self):
        logs = [io.StringIO(newline="") for _ in range(2)]
        modules = [pcm.Module(way=way, log=log, **SMALL) for way, log in zip(("program", "library"), logs)]
        draw = random.Random(7)
        for _ in range(100):
            self.same(modules, *drawn_call(draw, modules[1], 4, 64))
        for module in modules:
            module.close()
        self.assertEqual(*(it.getvalue() for it in logs))
        rows = list(pcm.read_trace(io.StringIO(logs[0].getvalue(), newline="")))
        self.same(self.both(**SMALL), "play", rows)

    def test_a_log_that_fails_leaves_the_module_as_it_was(self):
        class Full(io.StringIO):
            def write(self, text):
                if "R" in text:
                    raise OSError("no space")
                return super().write(text)
        for way in ("program", "library"):
            with pcm.Module(way=way, log=Full(newline=""), **SMALL) as module:
                self.assertEqual(1, module.write(0, 0, ONES))
                self.assertRaises(OSError, module.read, 5, 0)
                self.assertEqual((2, 0), (module.write(0, 1, ONES), module.tick))

    def test_a_line_that_there_is_not_is_refused_at_once(self):
        with pcm.Module(way="library", **SMALL) as module:
            with self.assertRaises(pcm.TraceError) as wrong:
                module.read(0, 4)
            self.assertEqual((None, None), (wrong.exception.status, module.shape))
            self.assertEqual(1, module.read(0, 3))

    def test_wrong_words_are_usage_errors(self):
        for options in ({"banks": 3}, {"polcy": "pause"}, {"lo": 9, "hi": 3}, {"seed": 2**64}, {"policy": 1}, {"lines": 2**27}):
            with self.assertRaises(pcm.UsageError) as here:
                pcm.Module(way="library", **options)
            with pcm.Module(way="program", **options) as module, self.assertRaises(pcm.UsageError) as there:
                module.settle(0)
            self.assertEqual(here.exception.why, there.exception.why)
            self.assertEqual(2, here.exception.status)

    def test_what_the_library_has_not_is_told(self):
        for options in ({"end": "off"}, {"until": "refused"}, {"input": "drawn"}, {"rows": 5}):
            with self.assertRaisesRegex(ValueError, 'the library has no .*: way="program" has'):
                pcm.Module(way="library", **options)
        with self.assertRaisesRegex(ValueError, "the library makes no copies"):
            pcm.Module(way="library", copies=True)
        with pcm.Module(way="library") as module:
            module.read(7, 0)
            self.assertRaisesRegex(ValueError, "without copies=True", module.copy)
            self.assertEqual((2, [1, 2]), (module.read(7, 1), [it.row for it in module.settle(100)]))

    def test_ways_that_are_none(self):
        self.assertRaisesRegex(ValueError, "library or program, not 'pipe'", pcm.Module, way="pipe")
        for path in ("/nowhere/libpcm.so.1", "libc.so.6"):
            with mock.patch.dict(os.environ, PCM_LIBRARY=path):
                self.assertRaises(OSError, pcm.Module, way="library")

    def way(self, environment, **options):
        """The way that a module takes where these variables stand alone."""
        kept = {name: value for name, value in os.environ.items() if name not in ("PCM", "PCM_WAY")}
        with mock.patch.dict(os.environ, {**kept, **environment}, clear=True), pcm.Module(**options) as module:
            return {Linked: "library", Streamed: "program"}[type(module._way)]

    def test_the_library_is_taken_where_it_can_be(self):
        self.assertEqual("library", self.way({}))
        self.assertEqual("library", self.way({}, tell="shape", policy="cancel", end="drain", seed=None))
        self.assertEqual("program", self.way({"PCM_WAY": "program"}))
        for options in ({"end": "off"}, {"until": "refused"}, {"input": "drawn", "rows": 5}):
            self.assertEqual("program", self.way({}, **options))
        with mock.patch("pcm.linked.library", return_value=None):
            self.assertEqual("program", self.way({}))
        with self.assertRaises(pcm.UsageError):
            self.way({}, polcy="pause")

    def test_the_library_is_taken_where_it_is_asked_for(self):
        program = pcm.program()
        self.assertEqual("program", self.way({"PCM": program[0]}))
        self.assertEqual("program", self.way({}, program=program))
        self.assertEqual("library", self.way({"PCM_WAY": "library"}))
        self.assertEqual("library", self.way({"PCM": program[0], "PCM_WAY": "library"}))
        self.assertEqual("program", self.way({"PCM_WAY": "library"}, program=program))
        self.assertEqual("library", self.way({"PCM_WAY": "program"}, way="library"))

    def test_modules_side_by_side_share_nothing(self):
        draws = [random.Random(1), random.Random(2)]
        alone = []
        for draw in copy.deepcopy(draws):
            with pcm.Module(way="library", **SMALL) as module:
                alone.append([answer(module, *drawn_call(draw, module, 4, 64)) for _ in range(200)])
        with pcm.Module(way="library", **SMALL) as one, pcm.Module(way="library", **SMALL) as other:
            told = [[answer(module, *drawn_call(draw, module, 4, 64)) for draw, module in zip(draws, (one, other))] for _ in range(200)]
        self.assertEqual(alone, [list(it) for it in zip(*told)])

    @unittest.skipUnless((PACKAGE.parent / "crates" / "pcm_c" / "out" / "libpcm.so.1").is_file(), "the library isn't built in this checkout")
    def test_a_wheel_carries_it(self):
        with tempfile.TemporaryDirectory() as folder:
            code = f"import sys; sys.path.insert(0, {str(PACKAGE)!r}); import wheel_of; print(wheel_of.build_wheel({folder!r}))"
            name = subprocess.run([sys.executable, "-c", code], stdout=subprocess.PIPE, text=True, check=True).stdout.strip()
            self.assertNotIn("-any.whl", name)
            with zipfile.ZipFile(pathlib.Path(folder) / name) as wheel:
                wheel.extractall(folder)
                self.assertIn("Root-Is-Purelib: false", wheel.read(f"pcm-{pcm.__version__}.dist-info/WHEEL").decode())
            around = {name: value for name, value in os.environ.items() if not name.startswith("PCM")}
            code = "import pcm; print(pcm.Module(way='library')._way.settle(1, 'S', 7, 0), pcm.linked.library())"
            said = subprocess.run([sys.executable, "-c", code], cwd=folder, stdout=subprocess.PIPE, text=True, check=True, env=around).stdout
            self.assertEqual(f"7 {folder}/pcm/libpcm.so.1\n", said)

    def test_what_is_dropped_is_freed(self):
        # (a module of 1,024 lines, with what it reserves for outcomes, has some hundreds of KB)
        program = """
import pcm, resource
for count in range(1, 4001):
    pcm.Module(way="library", lines=128).write(0, 0, bytes(64))
    if count in (400, 4000):
        print(resource.getrusage(resource.RUSAGE_SELF).ru_maxrss)
"""
        done = subprocess.run([sys.executable, "-c", program], stdout=subprocess.PIPE, check=True, env={**os.environ, "PYTHONPATH": str(PACKAGE)})
        soon, late = map(int, done.stdout.split())
        self.assertLess(late - soon, 2000)


if __name__ == "__main__":
    unittest.main()
