"""Copies of a module where it stands."""
import os
import pathlib
import sys
import tempfile
import time
import unittest

PACKAGE = pathlib.Path(__file__).resolve().parent.parent
sys.path[:0] = [str(PACKAGE), str(PACKAGE / "tests")]
import pcm  # noqa: E402
from leaks import setUpModule, tearDownModule  # noqa: E402, F401
from stand_in import stand_in  # noqa: E402

# The system gives no process for a copy.
STAND_IN = """
import os, socket, struct, sys
asked = socket.socket(fileno=int(os.environ["PCM_COPY"]))
asked.send(b"h")
print("row,outcome,tick,place,data", flush=True)
for row in sys.stdin:
    if ",S," in row:
        print(",settled,0,,", flush=True)
        asked.recvmsg(1, 1024)
        asked.send(struct.pack("=ii", -1, 11))
"""
OPTIONS = {"banks": 2, "regions": 1, "lines": 4, "misses": 3, "psi": 5}


def one(module, number):
    """A row of a life that goes by its number."""
    tick, line = module.tick + number % 7, number * 5 % 8
    data = bytes(number * (at + 3) % 256 for at in range(64))
    if number % 11 == 10:
        module.cut(tick)
    elif number % 3 == 0:
        module.read(tick, line)
    elif number % 3 == 1:
        module.write(tick, line, data)
    else:
        module.write_masked(tick, line, [byte if at in (0, number % 64) else None for at, byte in enumerate(data)])


def life(module, numbers):
    """What is told of these rows, and how worn the module is then."""
    for number in numbers:
        one(module, number)
    wear = module.wear(module.tick + 5000)
    return module.finish(), wear, module.status


def processes():
    """How many programs this process or its group has, but for those that have ended."""
    count = 0
    for path in pathlib.Path("/proc").glob("[0-9]*/stat"):
        try:
            state, _, group = path.read_text().rpartition(") ")[2].split()[:3]
        except OSError:
            continue
        count += int(group) == os.getpgrp() and state not in "ZX"
    return count


class Copies(unittest.TestCase):
    def is_left(self, wanted):
        """So many processes are left, now or soon."""
        until = time.monotonic() + 5
        while processes() != wanted and time.monotonic() < until:
            time.sleep(0.02)
        self.assertEqual(processes(), wanted)

    def test_a_copy_stands_as_one_that_plays_the_log(self):
        for at in range(1, 160, 31):
            with tempfile.TemporaryFile("w+") as log, pcm.Module(copies=True, log=log, **OPTIONS) as module, pcm.Module(**OPTIONS) as other:
                for number in range(at):
                    one(module, number)
                module.settle(module.tick)
                copy = module.copy()
                second = copy.copy()
                log.seek(0)
                other.play(pcm.read_trace(log))
                log.seek(0, os.SEEK_END)
                self.assertEqual((copy.tick, second.tick), (other.tick, other.tick))
                wanted = life(other, range(at, 220))
                for it in (second, module, copy):
                    self.assertEqual(life(it, range(at, 220)), wanted)
                copy.close()
                second.close()

    def test_outcomes_that_were_not_taken_stay_the_modules(self):
        with pcm.Module(copies=True, **OPTIONS) as module:
            module.read(0, 3)
            module.wear(50)
            with module.copy() as copy:
                self.assertEqual(list(copy.outcomes()), [])
                self.assertEqual([it.row for it in module.outcomes()], [1])
                self.assertEqual(copy.read(60, 3), 2)
                self.assertEqual([it.row for it in copy.finish()], [2])
            self.assertEqual(copy.status, 0)
            self.assertEqual(module.read(55, 2), 2)

    def test_many_copies_leave_nothing(self):
        before, descriptors = processes(), len(os.listdir("/proc/self/fd"))
        with pcm.Module(copies=True, **OPTIONS) as module:
            for number in range(200):
                copy = module.copy()
                copy.cut(copy.tick)
                if number % 2:
                    copy.settle(copy.tick)
                copy.close()
            self.is_left(before + 1)
        self.is_left(before)
        self.assertEqual(len(os.listdir("/proc/self/fd")), descriptors)

    def test_a_copy_outlives_its_module(self):
        module = pcm.Module(copies=True, **OPTIONS)
        copy = module.copy()
        module.close()
        copy.read(7, 1)
        self.assertEqual([it.word for it in copy.finish()], ["read"])
        self.assertEqual(copy.status, 0)
        copy.close()

    def test_a_copy_has_faults_of_its_own(self):
        with pcm.Module(copies=True, **OPTIONS) as module:
            copy = module.copy()
            copy.read(0, 99)
            with self.assertRaises(pcm.TraceError) as told:
                copy.settle(5)
            self.assertEqual(told.exception.status, 3)
            copy.close()
            module.read(0, 1)
            self.assertEqual([it.word for it in module.settle(50)], ["read"])

    def test_answers_that_nobody_takes_hold_up_no_close(self):
        with pcm.Module(copies=True, **OPTIONS) as module:
            copy = module.copy()
            for number in range(40000):
                copy.read(10 * number, number % 8)
            copy.close()

    def test_what_cannot_be_copied_is_told(self):
        with pcm.Module(**OPTIONS) as module, self.assertRaises(ValueError):
            module.copy()
        module = pcm.Module(copies=True, **OPTIONS)
        module.finish()
        with self.assertRaises(ValueError):
            module.copy()
        module.close()
        with self.assertRaises(ValueError):
            module.copy()
        with self.assertRaises(pcm.PcmError) as told:
            pcm.Module(copies="/nowhere/pcm_copy.so", **OPTIONS)
        self.assertIn("there is no such library", str(told.exception))
        with self.assertRaises(FileNotFoundError):
            pcm.Module(copies=True, program="/nowhere/pcm", **OPTIONS)
        with pcm.Module(copies=True, **OPTIONS, psi_=1) as module, self.assertRaises(pcm.PcmError):
            module.copy()

    def test_a_program_without_the_library_is_told(self):
        # (the loader says on standard error that it is none)
        with pcm.Module(copies="/dev/null", **OPTIONS) as module, self.assertRaises(pcm.PcmError) as told:
            module.copy()
        self.assertIn("pcm_copy.so isn't in it", str(told.exception))

    def test_a_program_that_was_killed_is_told(self):
        module = pcm.Module(copies=True, **OPTIONS)
        module.settle(1)
        module._way.process.kill()
        module._way.process.wait()
        with self.assertRaises(pcm.PcmError):
            module.copy()
        module.close()

    def test_a_system_without_processes_is_told(self):
        # (it stands in for the program and its library: the loader says on standard error that /dev/null is none)
        room = tempfile.TemporaryDirectory()
        self.addCleanup(room.cleanup)
        stand_in(self, pathlib.Path(room.name), STAND_IN)
        with pcm.Module(copies="/dev/null") as module, self.assertRaises(pcm.PcmError) as told:
            module.copy()
        self.assertIn("the program can't be copied: Resource temporarily unavailable", str(told.exception))


if __name__ == "__main__":
    unittest.main()
