"""Tests of outcomes as a frame, over the program that PCM names (or ./pcm of the checkout). They want pandas: where it isn't there, they look
at what is said then, and are skipped."""
import pathlib
import sys
import tempfile
import unittest

PACKAGE = pathlib.Path(__file__).resolve().parent.parent
sys.path[:0] = [str(PACKAGE), str(PACKAGE / "tests")]
import pcm  # noqa: E402
from leaks import setUpModule, tearDownModule  # noqa: E402, F401

SMALL = {"banks": 1, "regions": 1, "lines": 4, "spares": 2, "write_queue": 4, "read_queue": 4}
ONES = b"\xff" * 64


class Frames(unittest.TestCase):
    ROWS = [
        pcm.Write(0, 0, ONES), pcm.PowerCut(7), pcm.MaskedWrite(50, 1, [1] + [None] * 63),
        pcm.Settle(60), pcm.Query(60), pcm.Look(60), pcm.SettleUntil(60, 3), pcm.Read(100, 0),
    ]

    def setUp(self):
        try:
            import pandas  # noqa: F401
        except ImportError:
            with self.assertRaises(ImportError):
                pcm.to_frame([pcm.Cut(1, 0)])
            self.skipTest("this Python has no pandas")

    def table(self, frame):
        """The rows of a frame without data, None where a number is missing."""
        plain = frame.drop(columns="data").astype(object)
        return [list(frame.columns)] + plain.where(plain.notna(), None).values.tolist()

    def test_outcomes_alone(self):
        done = pcm.run(pcm.numbered(self.ROWS), **SMALL)
        frame = pcm.to_frame(done.rows)
        self.assertEqual(["row", "op", "line", "outcome", "tick", "place", "data"], list(frame.columns))
        self.assertEqual(["Int64"] * 4, [str(frame[name].dtype) for name in ("row", "line", "tick", "place")])
        self.assertEqual([3, None], self.table(frame)[1][-1:] + self.table(frame)[2][-1:])
        frame = pcm.to_frame([row.outcome for row in done.rows])
        self.assertEqual([1, "stored", 22, 3], self.table(frame)[1])
        self.assertEqual(["row", "outcome", "tick", "place", "data"], list(pcm.to_frame([]).columns))

    def test_outcomes_with_their_rows(self):
        with pcm.Module(end="off", **SMALL) as module:
            for number, row in enumerate(self.ROWS, 1):
                module._way.gather(number, row.text())
            outcomes = sorted(module.finish(), key=lambda it: it.row)
        with tempfile.TemporaryDirectory() as folder:
            path = pathlib.Path(folder) / "trace.csv"
            path.write_text("\ufefftick,op,arg,data\n" + "".join(row.text() for row in self.ROWS), encoding="utf-8")
            tables = [self.table(pcm.to_frame(outcomes, trace, tick_ns=2.5)) for trace in (self.ROWS, path, str(path))]
        self.assertEqual(tables[:1] * 3, tables)
        self.assertEqual(
            [["row", "op", "line", "asked", "outcome", "tick", "latency", "place", "data", "latency_ns"],
             [1, "W", 0, 0, "stored", 22, 22, 3, 55.0], [2, "C", None, 7, "cut", 7, 0, None, 0.0],
             [3, "M", 1, 50, "stored", 65, 15, 1, 37.5], [4, "R", 0, 100, "lost", 100, 0, None, 0.0],
             [5, None, None, None, "cut", 100, None, None, None]],
            tables[0],
        )
        self.assertEqual(["row", "op", "line", "asked", "outcome", "tick", "latency", "place", "data"], list(pcm.to_frame([], self.ROWS).columns))
        with self.assertRaises(ValueError):
            pcm.to_frame(outcomes, tick_ns=2.5)


if __name__ == "__main__":
    unittest.main()
