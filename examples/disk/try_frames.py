#!/usr/bin/env python3
"""`pcm disk` by frames of our own: the handshake, odd offsets, requests that are none, ends amid a message, power cuts, worn lines, words.

    PCM=./pcm try_frames.py -v"""
import os
import random
import subprocess
import unittest
from typing import Tuple

import frames
from frames import BEGIN, Client, Model, Reply, option, request, served, write

PCM = os.environ.get("PCM", "./pcm")
SMALL = ["--banks", "2", "--regions", "1", "--lines", "64", "--spares", "4", "--sector", "512"]
SIZE = 7168  # of SMALL: 14 sectors, one block more and a map of one line, in 128 lines of 64 bytes


def words(*more: str) -> list[str]:
    """The words of a small disk, and more."""
    return [PCM, "disk", *SMALL, *more]


def is_part(sector: int, at: int, old: bytes, new: bytes, found: bytes) -> bool:
    """Whether the bytes at an offset are the new ones up to the end of some sector, none or all of them, and the old ones behind."""
    ends = [0, *(end - at for end in range(at // sector * sector + sector, at + len(new), sector)), len(new)]
    return any(found == new[:done] + old[done:] for done in ends)


class Handshake(unittest.TestCase):
    """What is said before the first request."""

    def is_as_modelled(self, data: bytes, status: int = 0) -> None:
        """The program says what the model does."""
        wanted = Model(SIZE, data).run()
        self.assertEqual(wanted[1], status)
        self.assertEqual(served(words(), data), wanted)

    def test_the_size(self) -> None:
        for line, sector in ((64, 4096), (64, 64), (128, 16384)):
            lines, block = 512, sector // line
            sectors = max(s for s in range(lines) if (s + 1) * block + s // (line // 4) < lines)
            with Client([PCM, "disk", "--line", str(line), "--sector", str(sector)]) as it:
                self.assertEqual(it.size, sectors * sector)
        with Client([PCM, "disk"]) as it:
            self.assertEqual(it.size, 24576)

    def test_options(self) -> None:
        told = [option(frames.LIST), option(frames.LIST, b"x"), option(5), option(9, bytes(100)), option(frames.INFO, frames.asking(b"some")),
                option(frames.INFO, frames.asking(b"", [0, 3])), option(frames.INFO, b"12345"), option(frames.INFO, frames.asking(b"a" * 9000))]
        self.is_as_modelled(bytes(3) + b"\1" + b"".join(told) + option(frames.GO, frames.asking(b"any", [3])) + request(frames.FLUSH) + request(frames.LEAVE))

    def test_old_clients(self) -> None:
        for flags in (0, 1, 2, 3):
            self.is_as_modelled(bytes(3) + bytes([flags]) + option(frames.EXPORT_NAME, b"name") + request(frames.READ, 0, 16) + request(frames.LEAVE))

    def test_a_client_that_leaves(self) -> None:
        self.is_as_modelled(bytes(3) + b"\3" + option(frames.ABORT))
        self.is_as_modelled(BEGIN)
        self.is_as_modelled(BEGIN + request(frames.LEAVE) + b"behind it nothing is read")

    def test_ends_amid_a_message(self) -> None:
        whole = BEGIN + write(100, b"some bytes")
        for end in (1, 5, 12, 21, len(BEGIN) - 1, len(BEGIN) + 1, len(BEGIN) + 28, len(whole) - 1):
            self.is_as_modelled(whole[:end], frames.CUT_OFF[0])

    def test_no_messages(self) -> None:
        for data in (b"\0\0\0\4", bytes(3) + b"\3" + bytes(16), BEGIN + bytes(28), BEGIN + request(frames.FLUSH) + b"x" * 28):
            self.is_as_modelled(data, frames.NO_MESSAGE[0])


class Requests(unittest.TestCase):
    """What becomes of requests."""

    def test_any_bytes_at_any_offset(self) -> None:
        draw, shadow = random.Random(3), bytearray(SIZE)
        with Client(words("--misses", "2", "--psi", "5")) as it:
            self.assertEqual(it.size, SIZE)
            for _ in range(60):
                at = draw.randrange(SIZE)
                data = draw.randbytes(min(SIZE - at, draw.randrange(1, 1500)))
                self.assertEqual(it.write(at, data), (0, b""))
                shadow[at:at + len(data)] = data
                at = draw.randrange(SIZE)
                count = min(SIZE - at, draw.randrange(1, 1500))
                self.assertEqual(it.read(at, count), (0, bytes(shadow[at:at + count])))
            self.assertEqual(it.read(0, SIZE), (0, bytes(shadow)))
            self.assertEqual(it.end(), (0, ""))

    def test_requests_that_are_refused(self) -> None:
        with Client(words()) as it:
            for asked, error in {
                (frames.READ, SIZE - 1, 2): frames.EINVAL, (frames.READ, SIZE, 1): frames.EINVAL, (frames.READ, 0, 0): frames.EINVAL,
                (frames.READ, 2**64 - 1, 1): frames.EINVAL, (frames.READ, 2**64 - 1, 2**32 - 1): frames.EINVAL, (frames.READ, 0, 2**32 - 1): frames.EINVAL,
                (frames.READ, 0, (32 << 20) + 1): frames.EINVAL, (frames.READ, 0, 32 << 20): frames.EINVAL, (frames.FLUSH, 7, 9): 0,
                (4, 0, 512): frames.EINVAL, (6, 0, 512): frames.EINVAL, (7, 0, 512): frames.EINVAL, (99, 0, 2**32 - 1): frames.EINVAL,
            }.items():
                self.assertEqual(it.asks(*asked), (error, b""), asked)
            for at, data, error in ((SIZE - 1, b"ab", frames.NO_SPACE), (2**64 - 1, b"a", frames.NO_SPACE), (5, b"", frames.EINVAL)):
                self.assertEqual(it.write(at, data), (error, b""), at)
            self.assertEqual(it.asks(frames.WRITE, 0, 1, b"a", flags=1), (0, b""))
            self.assertEqual(it.asks(frames.WRITE, 1, 1, b"b", flags=2), (frames.EINVAL, b""))
            self.assertEqual(it.read(0, 3), (0, b"a\0\0"))

    def test_a_write_that_is_too_large_is_read_away(self) -> None:
        with Client(words()) as it:
            data = bytes((32 << 20) + 1)
            self.assertEqual(it.write(0, data), (frames.EINVAL, b""))
            self.assertEqual(it.write(0, b"still there"), (0, b""))
            self.assertEqual(it.read(0, 11), (0, b"still there"))


class Cuts(unittest.TestCase):
    """Power cuts, and worn lines."""

    def serve(self, it: Client, errors: Tuple[int, ...], rounds: int) -> int:
        """Writes and reads, of which some fail; how many did. A write that failed is there in part, up to the end of a sector, for good."""
        draw, shadow, failed = random.Random(5), bytearray(it.size), 0
        for _ in range(rounds):
            at = draw.randrange(it.size)
            data = draw.randbytes(min(it.size - at, draw.randrange(1, 2000)))
            end = at + len(data)
            became = it.write(at, data)
            if became == (0, b""):
                shadow[at:end] = data
            else:
                self.assertIn(became, [(error, b"") for error in errors])
                failed += 1
                found = self.read(it, at, len(data))
                self.assertTrue(is_part(512, at, bytes(shadow[at:end]), data, found), (at, len(data)))
                shadow[at:end] = found
        self.assertEqual(self.read(it, 0, it.size), bytes(shadow))
        return failed

    def read(self, it: Client, at: int, count: int) -> bytes:
        """Reads until no cut comes."""
        while (found := it.read(at, count)).error:
            self.assertEqual(found, Reply(frames.SHUTDOWN, b""))
        return found.data

    def test_cuts_are_ridden_through(self) -> None:
        for registers in ("guarded", "array"):
            with Client(words("--cuts", "4000", "--cut-every", "60", "--on-cut", "ride", "--misses", "3", "--registers", registers)) as it:
                self.assertEqual(self.serve(it, (), 40), 0)
                self.assertEqual(it.end(), (0, ""))

    def test_cuts_are_told(self) -> None:
        for registers in ("guarded", "array"):
            with Client(words("--cuts", "4000", "--cut-every", "200", "--cut-seed", "7", "--misses", "3", "--registers", registers)) as it:
                self.assertGreater(self.serve(it, (frames.SHUTDOWN,), 60), 20)

    def test_near_cuts(self) -> None:
        for every, way in ((1, "ride"), (4, "ride"), (4, "drop"), (12, "drop")):
            with Client(words("--cuts", "3000", "--cut-every", str(every), "--cut-seed", "3", "--on-cut", way, "--misses", "2")) as it:
                failed = self.serve(it, (frames.SHUTDOWN,), 30)
                self.assertEqual(failed > 0, way == "drop")

    def test_a_cut_at_its_tick(self) -> None:
        seen = set()
        for tick in range(1, 900, 23):
            with Client(words("--cut-ticks", f"{tick},1099511627776")) as it:
                old, new = b"o" * 1500, b"n" * 1500
                wrote = [it.write(100, data).error for data in (old, new)]
                found = self.read(it, 100, 1500)
                before = bytes(1500) if wrote[0] else old
                if wrote[0]:
                    self.assertEqual(wrote, [frames.SHUTDOWN, 0])
                    self.assertEqual(found, new)
                elif wrote[1]:
                    self.assertEqual(wrote[1], frames.SHUTDOWN)
                    self.assertTrue(is_part(512, 100, before, new, found), tick)
                    seen.add(found.count(b"n"))
                else:
                    self.assertEqual(found, new)
        self.assertGreater(len(seen), 2)

    def test_a_module_that_wears_out(self) -> None:
        with Client(words("--lo", "20", "--hi", "60", "--psi", "3")) as it:
            self.assertGreater(self.serve(it, (frames.IO,), 400), 10)
            self.assertEqual(it.end(), (0, ""))


class Words(unittest.TestCase):
    """Words that are refused."""

    def test_each_has_one_answer(self) -> None:
        for more in (["--sector", "100"], ["--sector", "32"], ["--line", "128", "--sector", "64"], ["--sector", "32768"], ["--sector", "16384", "--lines", "4"],
                     ["--cuts", "1000001"], ["--cut-every", "0"], ["--cuts", "3", "--cut-ticks", "5"], ["--cut-ticks", ""], ["--cut-ticks", "5,5"],
                     ["--cut-ticks", "6,5"], ["--cut-ticks", "0"], ["--cut-ticks", "5,"], ["--cut-ticks", "1099511627777"], ["--on-cut", "stop"],
                     ["--print", "rows"], ["--rows", "5"], ["--banks", "3"], ["--lo", "5", "--hi", "4"], ["--sector"], ["disk"], ["--help"]):
            done = subprocess.run([PCM, "disk", *more], input=b"", capture_output=True, timeout=60, env={**os.environ, "PCM_EXPLAIN": "0"})
            if more == ["--help"]:
                continue
            self.assertEqual((done.returncode, done.stdout, done.stderr), (2, b"", b"usage: pcm disk [options]\n"), more)


if __name__ == "__main__":
    unittest.main()
