"""Tests of rows that settle, over the program and over a script that stands in for it."""
import io
import pathlib
import sys
import tempfile
import unittest

PACKAGE = pathlib.Path(__file__).resolve().parent.parent
sys.path[:0] = [str(PACKAGE), str(PACKAGE / "tests")]
import pcm  # noqa: E402
from leaks import setUpModule, tearDownModule  # noqa: E402, F401
from stand_in import stand_in  # noqa: E402

SMALL = {"banks": 1, "regions": 1, "lines": 4, "spares": 2}
ONES, OTHERS = b"\xff" * 64, b"\x0f" * 64


def told(outcomes):
    """Rows, words and ticks of outcomes."""
    return [(it.row, it.word, it.tick) for it in outcomes]


class Waiting:
    """What a program that settles until a row has its outcome does."""

    def test_a_write_is_waited_for(self):
        with pcm.Module(**SMALL) as module:
            row = module.write(0, 0, ONES)
            self.assertEqual([(1, "stored", 15)], told(module.settle_until(row, 1000)))
            self.assertEqual(15, module.tick)
            row = module.read(30, 0)
            self.assertEqual([(2, "read", 35)], told(module.settle_until(row, 1000)))
            self.assertEqual((35, 2), (module.tick, row))

    def test_what_is_known_is_not_waited_for(self):
        with pcm.Module(**SMALL) as module:
            module.write(0, 0, ONES)
            module.write(0, 1, ONES)
            module.write(3, 1, OTHERS)
            self.assertEqual([(2, "merged", 3)], told(module.settle_until(2, 1000)))
            row = module.read(4, 1)
            self.assertEqual([(4, "forwarded", 4)], told(module.settle_until(row, 1000)))
            self.assertEqual(4, module.tick)
            self.assertEqual([(1, "stored", 15), (3, "stored", 30)], told(module.settle_until(3, 1000)))
            self.assertEqual([], module.settle_until(1, 1000))
            self.assertEqual(30, module.tick)

    def test_no_tick_behind_its_own_is_reached(self):
        with pcm.Module(**SMALL) as module:
            row = module.write(0, 0, ONES)
            self.assertEqual([], module.settle_until(row, 14))
            self.assertEqual(14, module.tick)
            self.assertEqual([(1, "stored", 15)], told(module.settle_until(row, 15)))
            self.assertEqual((15, 15), (module.settle(15) or module.tick, module.tick))

    def test_a_row_may_not_come_before_what_was_reached(self):
        with pcm.Module(**SMALL) as module:
            module.settle_until(module.write(0, 0, ONES), 1000)
            with self.assertRaises(pcm.TraceError) as wrong:
                module.read(14, 0)
            self.assertEqual((2, "order", None), (wrong.exception.row, wrong.exception.kind, wrong.exception.status))
            self.assertEqual((2, 15), (module.read(15, 0), module.tick))


class Looking:
    """What a program that tells how worn a module is does."""

    def test_wear_is_told(self):
        with pcm.Module(**SMALL) as module:
            self.assertEqual(pcm.Wear(0, 0, 0, 0, 0, 0, 0, 0), module.wear())
            row = module.write(0, 0, ONES)
            self.assertEqual(pcm.Wear(14, 0, 0, 0, 0, 1, 0, 0), module.wear(14))
            self.assertEqual([], module.settle(14))
            self.assertEqual(pcm.Wear(15, 1, 1, 0, 0, 2, 512, 0), module.wear(15))
            self.assertEqual([(1, "stored", 15)], told(module.outcomes()))
            row = module.write(20, 0, OTHERS)
            module.settle_until(row, 1000)
            self.assertEqual(pcm.Wear(35, 2, 2, 0, 0, 4, 512, 256), module.wear())
            self.assertEqual((35, 2), (module.tick, row))


class Peeking:
    """What the program does, and no stand-in: it tells newest bytes and all of a module, and waits for any row."""

    def test_the_newest_bytes_of_a_line_are_told(self):
        with pcm.Module(**SMALL) as module:
            self.assertEqual(bytes(64), module.peek(0))
            module.write(0, 0, ONES)
            self.assertEqual(ONES, module.peek(0))
            module.write_masked(3, 0, [7] + 63 * [None])
            self.assertEqual((b"\x07" + ONES[1:], 3), (module.peek(0), module.tick))
            module.cut(8)
            self.assertEqual(b"\x07" + ONES[1:], module.peek(0, 9))
            self.assertEqual(bytes(64), module.peek(1, 1000))
            self.assertEqual(2, len([it for it in module.outcomes() if it.word == "stored" or it.word == "merged"]))
            senses = module.wear().senses
            module.peek(0)
            self.assertEqual(senses, module.wear().senses)
            with self.assertRaises(pcm.TraceError):
                module.peek(-1)

    def test_a_settle_until_any_row_goes_to_the_next_outcome(self):
        with pcm.Module(**SMALL) as module:
            module.write(0, 0, ONES)
            self.assertEqual(([], 14), (told(module.settle_any(14)), module.tick))
            self.assertEqual(([(1, "stored", 15)], 15), (told(module.settle_any(1000)), module.tick))
            module.read(20, 0)
            self.assertEqual(([(2, "read", 25)], 25), (told(module.settle_any(1000)), module.tick))
            self.assertEqual(([], 1000), (told(module.settle_any(1000)), module.tick))

    def test_all_of_a_module_is_told(self):
        with pcm.Module(tell="module", seed=7, psi=9, read_ticks=4, policy="plain", **SMALL) as module:
            shape = module.shape
            self.assertEqual((2, 7, 9, 4, 10, "plain", "guarded"), (shape.version, shape.seed, shape.psi, shape.read_ticks, shape.iter_ticks, shape.policy, shape.registers))
            self.assertIn(module.bank_of(0), range(shape.banks))


class Telling:
    """What a program that tells what a module is does."""

    def test_the_shape_is_told(self):
        with pcm.Module(tell="shape", **SMALL) as module:
            self.assertEqual(pcm.Shape(1, 1, 1, 4, 2, 64, 32, 32), module.shape)
            module.read(0, 3)
            self.assertEqual([(1, "read", 5)], told(module.finish()))
            self.assertEqual(4, module.shape.lines)

    def test_rows_may_come_before_it_is_asked_for(self):
        with pcm.Module(tell="shape", **SMALL) as module:
            module.read(0, 3)
            self.assertEqual([(1, "read", 5)], told(module.settle(5)))
            self.assertEqual(64, module.shape.line)

    def test_a_line_that_there_is_not_is_refused_once_it_is_known(self):
        with pcm.Module(tell="shape", **SMALL) as module:
            self.assertEqual(4, module.shape.lines)
            for hand_in in (lambda: module.read(0, 4), lambda: module.write(0, 4, ONES), lambda: module.write_masked(0, 4, [1] + [None] * 63)):
                with self.assertRaisesRegex(pcm.TraceError, r"row 1: .* a line, 0 to 3 .*'4' \(trace row 1: line\)$"):
                    hand_in()
            module.read(0, 3)
            self.assertEqual([(1, "read", 5)], told(module.finish()))

    def test_who_does_not_ask_is_not_told(self):
        with pcm.Module(**SMALL) as module:
            self.assertIsNone(module.shape)
            self.assertEqual([], module.finish())


class OverTheProgram(Waiting, Looking, Peeking, Telling, unittest.TestCase):
    def test_a_shape_beside_words_that_are_none_is_a_fault(self):
        with pcm.Module(way="program", tell="shape", lines=5) as module, self.assertRaises(pcm.UsageError):
            self.assertIsNone(module.shape)

    def test_a_row_that_was_not_handed_in_is_a_fault(self):
        for row in (0, 2):
            with pcm.Module(**SMALL) as module:
                module.write(0, 0, ONES)
                with self.assertRaises(pcm.TraceError) as wrong:
                    module.settle_until(row, 1000)
                self.assertEqual((2, "line", None), (wrong.exception.row, wrong.exception.kind, wrong.exception.status))
                self.assertEqual([(1, "stored", 15)], told(module.settle_until(1, 1000)))

    def test_a_write_that_stays_queued_is_waited_for_in_vain(self):
        with pcm.Module(**{**SMALL, "spares": 0, "lo": 1, "hi": 1}) as module:
            for row in range(8):
                module.write(1000 * row, 0, bytes([255 * (row % 2)]) * 64)
            found = [it for row in range(1, 9) for it in module.settle_until(row, 9000)]
            self.assertEqual(9000, module.tick)
            self.assertEqual([(it.row, it.word) for it in module.finish()], [(row, "queued") for row in range(1, 9) if row not in {it.row for it in found}])


class OverAScript(Waiting, Looking, Telling, unittest.TestCase):
    def setUp(self):
        room = tempfile.TemporaryDirectory()
        self.addCleanup(room.cleanup)
        stand_in(self, pathlib.Path(room.name), (PACKAGE / "tests/one_bank.py").read_text(encoding="ascii"))


class Rows(unittest.TestCase):
    TRACE = "tick,op,arg,data\n0,R,0,\n1,S,,\n2,Q,,\n2,L,,\n3,C,,\n9,U,02,\n4,R,3,\n"

    def test_rows_that_settle_are_read_and_written(self):
        rows = list(pcm.read_trace(io.StringIO(self.TRACE)))
        self.assertEqual([pcm.Read(0, 0), pcm.Settle(1), pcm.Query(2), pcm.Look(2), pcm.PowerCut(3), pcm.SettleUntil(9, 2), pcm.Read(4, 3)], rows)
        text = io.StringIO()
        self.assertEqual(7, pcm.write_trace(rows, text))
        self.assertEqual(self.TRACE.replace("02", "2"), text.getvalue())

    def test_those_with_a_number_are_a_trace(self):
        self.assertEqual([pcm.Read(0, 0), pcm.PowerCut(3), pcm.Read(4, 3)], list(pcm.numbered(pcm.read_trace(io.StringIO(self.TRACE)))))

    def test_faults_of_a_settle_until_are_named(self):
        for line, kind in {"5,U,,00": "payload", "5,U,0,": "line", "5,U,3,": "line", "5,U,x,": "line", "5,U,2,00": "payload", "x,U,2,": "tick", "5,U,2": "fields"}.items():
            with self.assertRaisesRegex(ValueError, f"^row 4: {kind}$"):
                list(pcm.read_trace(["tick,op,arg,data\n", "0,R,0,\n", "1,S,,\n", "2,C,,\n", line + "\n"]))


if __name__ == "__main__":
    unittest.main()
