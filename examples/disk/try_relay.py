#!/usr/bin/env python3
"""The relay of `pcm disk`: its exports, cuts that are told and ridden, commands, logs, the volatile cache, ends, words; and the rows of a log.

    PCM=./pcm try_relay.py -v"""
import math
import os
import pathlib
import random
import shutil
import signal
import socket
import struct
import subprocess
import sys
import tempfile
import time
import unittest
from typing import Dict, List, Tuple

import frames
import recorded
import rows
from frames import IO, READ, Reply, option
from words import Words

PCM = os.environ.get("PCM", "./pcm")
RELAY = pathlib.Path(__file__).resolve().parent / "relay.py"
SMALL = ["banks=2", "regions=1", "lines=64", "line=64", "spares=4", "sector=512"]
SIZE = 7168


class Peer:
    """A client of a relay."""

    def __init__(self, path: pathlib.Path, name: bytes = b"") -> None:
        self.sock, self.cookie = socket.socket(socket.AF_UNIX), 0
        self.sock.connect(os.fspath(path))
        self.sock.sendall(struct.pack(">I", 3) + option(frames.GO, frames.asking(name, [3])))
        self.take(18)
        self.told: List[bytes] = []
        while True:
            _, _, kind, size = struct.unpack(">QIII", self.take(20))
            self.told.append(self.take(size))
            if kind != frames.TOLD:
                break
        self.size, self.flags = struct.unpack(">xxQH", self.told[0])

    def take(self, count: int) -> bytes:
        """The next bytes."""
        found = self.sock.recv(count, socket.MSG_WAITALL) if count else b""
        if len(found) < count:
            raise EOFError
        return found

    def asks(self, command: int, at: int = 0, size: int = 0, data: bytes = b"") -> Reply:
        """A request."""
        self.cookie += 1
        self.sock.sendall(frames.request(command, at, size, data, self.cookie))
        _, error, cookie = struct.unpack(">IIQ", self.take(16))
        assert cookie == self.cookie
        return Reply(error, self.take(size) if command == READ and error == 0 else b"")

    def read(self, at: int, size: int) -> Reply:
        """Reads."""
        return self.asks(READ, at, size)

    def write(self, at: int, data: bytes) -> int:
        """Writes."""
        return self.asks(frames.WRITE, at, len(data), data).error

    def flush(self) -> int:
        """Flushes."""
        return self.asks(frames.FLUSH).error

    def all(self) -> bytes:
        """All of its bytes."""
        found = self.read(0, self.size)
        assert found.error == 0
        return bytes(found.data)

    def close(self) -> None:
        """Goes."""
        self.sock.close()


class Relays(unittest.TestCase):
    """Each test has a folder, and at most one relay at a time."""

    def setUp(self) -> None:
        self.room = pathlib.Path(tempfile.mkdtemp(prefix="pcm-try-"))
        self.addCleanup(shutil.rmtree, self.room)
        self.log, self.sock = self.room / "log", self.room / "sock"
        self.peers: List[Peer] = []
        self.addCleanup(self.end)
        self.process: "subprocess.Popen[str]"

    def start(self, *words: str) -> None:
        """A relay of a small disk, but for what is said."""
        said = [word.partition("=")[0] for word in words]
        small = [it for it in SMALL if it.partition("=")[0] not in said]
        self.process = subprocess.Popen([sys.executable, RELAY, self.sock, f"pcm={PCM}", f"report={self.room / 'report'}", *small, *words],
                                        stderr=subprocess.PIPE, text=True)
        while not self.sock.exists() and self.process.poll() is None:
            time.sleep(0.01)
        if not self.sock.exists():
            self.fail(self.end()[1])

    def end(self) -> Tuple[int, str]:
        """Ends the relay: its status, and what it said."""
        for peer in self.peers:
            peer.close()
        self.peers.clear()
        if not hasattr(self, "process"):
            return 0, ""
        self.process.terminate()
        said = self.process.communicate(timeout=30)[1] if self.process.stderr and not self.process.stderr.closed else ""
        return self.process.returncode, said

    def peer(self, name: bytes = b"") -> Peer:
        """A client."""
        self.peers.append(Peer(self.sock, name))
        return self.peers[-1]

    def told(self, text: str = "") -> Dict[str, int]:
        """Says a command, and answers what is told."""
        switch = Peer(self.sock, b"cut")
        if text:
            self.assertEqual(switch.write(0, text.encode()), 0, text)
        lines = bytes(switch.read(0, 4096).data).decode().split("\n")
        switch.close()
        return {name: int(count) for name, count in (line.split() for line in lines if line)}

    def refused(self, *words: str) -> str:
        """What a relay says that isn't served."""
        done = subprocess.run([sys.executable, RELAY, self.sock, f"pcm={PCM}", *SMALL, *words], capture_output=True, text=True, timeout=60)
        self.assertEqual((done.returncode, done.stderr.count("\n")), (2, 1), done.stderr)
        return done.stderr


class Serving(Relays):
    """Requests without cuts."""

    def test_any_bytes_of_several_clients(self) -> None:
        self.start("misses=2")
        peers, draw, shadow = [self.peer(it) for it in (b"", b"any", b"")], random.Random(1), bytearray(SIZE)
        self.assertEqual([(it.size, it.flags) for it in peers], [(SIZE, 1 | 4 | 8 | 256)] * 3)
        self.assertEqual(peers[0].told[1], struct.pack(">HIII", 3, 1, 4096, 32 << 20))
        for _ in range(100):
            at = draw.randrange(SIZE)
            data = draw.randbytes(min(SIZE - at, draw.randrange(1, 1500)))
            self.assertEqual(draw.choice(peers).write(at, data), 0)
            shadow[at:at + len(data)] = data
            self.assertEqual(draw.choice(peers).all(), shadow)
        self.assertEqual(self.end(), (0, ""))
        told = dict(line.split() for line in (self.room / "report").read_text().splitlines())
        self.assertEqual((told["writes"], told["reads"], told["cut"], told["status"]), ("100", "100", "0", "0"))

    def test_requests_under_way(self) -> None:
        self.start("lines=4096")
        it = self.peer()
        many = 500
        it.sock.sendall(b"".join(frames.write(512 * i, bytes([i % 251]) * 512, i) for i in range(many)))
        it.sock.sendall(b"".join(frames.request(READ, 512 * i, 512, b"", i) for i in range(many)))
        for i in range(many):
            self.assertEqual(it.take(16), frames.reply(0, i))
        for i in range(many):
            self.assertEqual(it.take(16 + 512), frames.reply(0, i, bytes([i % 251]) * 512))

    def test_requests_that_are_refused(self) -> None:
        self.start()
        it = self.peer()
        for command, at, size in ((READ, SIZE, 1), (READ, 0, 0), (READ, 0, 2**32 - 1), (7, 0, 1)):
            self.assertEqual(it.asks(command, at, size), (frames.EINVAL, b""), (command, at, size))
        self.assertEqual(it.write(SIZE - 1, b"ab"), frames.NO_SPACE)
        with self.assertRaises(EOFError):
            it.asks(frames.LEAVE)
        self.assertEqual(self.peer().all(), bytes(SIZE))

    def test_the_exports_are_listed(self) -> None:
        self.start()
        with socket.socket(socket.AF_UNIX) as sock:
            sock.connect(os.fspath(self.sock))
            sock.sendall(struct.pack(">I", 3) + option(frames.LIST) + option(8) + option(frames.ABORT))
            names = frames.answer(3, 2, bytes(4)), frames.answer(3, 2, b"\0\0\0\3cut"), frames.answer(3, 1)
            whole = b"".join((frames.GREETING, *names, frames.answer(8, frames.UNSUPPORTED), frames.answer(2, 1)))
            self.assertEqual(sock.recv(len(whole), socket.MSG_WAITALL), whole)
            self.assertEqual(sock.recv(1), b"")

    def test_a_worn_disk_only_reads(self) -> None:
        self.start("lo=20", "hi=60", "psi=3")
        it, draw, error = self.peer(), random.Random(2), 0
        for _ in range(5000):
            before = it.all()
            error = it.write(512 * draw.randrange(14), draw.randbytes(512))
            if error:
                break
        self.assertEqual(error, IO)
        self.assertLessEqual(sum(a != b for a, b in zip(before, it.all())), 512)
        self.assertEqual(it.write(0, b"a"), frames.REFUSED)
        self.assertEqual(self.peer().flags & 2, 2)


class Cuts(Relays):
    """Power cuts."""

    def test_clients_are_dropped(self) -> None:
        self.start("cuts=100000", "cut-every=700", "misses=1")
        draw, shadow, dropped = random.Random(3), bytearray(SIZE), 0
        while dropped < 20:
            one, other = self.peer(), self.peer()
            while True:
                sector, data = draw.randrange(14), draw.randbytes(512)
                error = one.write(512 * sector, data)
                if error:
                    break
                shadow[512 * sector:512 * sector + 512] = data
            self.assertEqual((error, other.read(0, 1).error, one.flush()), (IO, IO, IO))
            dropped += 1
            found = self.until_it_is_read()
            if found != shadow:
                shadow[512 * sector:512 * sector + 512] = data
            self.assertEqual(found, shadow)
        self.assertGreaterEqual(self.told()["cut"], 20)

    def until_it_is_read(self) -> bytes:
        """All bytes, by new clients."""
        while True:
            found = self.peer().read(0, SIZE)
            if found.error == 0:
                return bytes(found.data)

    def test_cuts_are_ridden_through(self) -> None:
        self.start("on-cut=ride", "cut-every=400", "misses=1")
        it, draw, shadow = self.peer(), random.Random(4), bytearray(SIZE)
        for _ in range(100):
            at = draw.randrange(SIZE)
            data = draw.randbytes(min(SIZE - at, draw.randrange(1, 1500)))
            self.assertEqual(it.write(at, data), 0)
            shadow[at:at + len(data)] = data
            self.assertEqual(it.all(), shadow)
        told = self.told()
        self.assertEqual(told["cut"], 0)
        self.assertGreater(told["ridden"], 20)

    def test_a_cut_that_is_asked_for(self) -> None:
        self.start("on-cut=ask")
        for most in (1, 500, 9000):
            it, before = self.peer(), self.told(f"cut {most}")["cut"]
            while it.write(0, b"x" * 512) == 0:
                self.assertEqual(self.told()["cut"], before)
            self.assertEqual((self.told()["cut"], it.read(0, 1).error), (before + 1, IO))
            self.assertEqual(self.peer().write(0, b"y"), 0)

    def test_a_cut_at_once(self) -> None:
        self.start("on-cut=ask")
        it = self.peer()
        self.assertEqual(it.write(100, b"kept"), 0)
        self.assertEqual(self.told("cut")["cut"], 1)
        self.assertEqual(it.read(100, 4).error, IO)
        self.assertEqual(self.peer().read(100, 4), (0, b"kept"))

    def test_a_cut_between_requests(self) -> None:
        self.start("on-cut=ask")
        it = self.peer()
        self.told("cut 3 requests")
        self.assertEqual([it.write(0, b"1"), it.read(0, 1).error, it.flush(), it.write(0, b"3"), it.flush()], [0, 0, 0, IO, IO])
        self.assertEqual(self.peer().read(0, 1), (0, b"1"))
        self.told("cut 1 requests")
        self.told("cut off")
        self.assertEqual(self.peer().write(0, b"4"), 0)

    def test_cuts_between_requests_that_are_drawn(self) -> None:
        self.start("cut-requests=4")
        count = 0
        while self.told()["cut"] < 5:
            it = self.peer()
            while it.write(0, b"1") == 0:
                count += 1
        self.assertLess(count, 5 * 8)

    def test_commands_that_are_none(self) -> None:
        self.start("on-cut=ask")
        switch = self.peer(b"cut")
        for text in (b"", b"cut x", b"cut 1 2", b"cut -1", b"cut 3 request", b"wait 5", b"cut off now", b"\xff"):
            self.assertEqual(switch.write(0, text), frames.EINVAL, text)
        self.assertEqual(switch.write(1, b"cut"), frames.EINVAL)
        self.end()
        self.start()
        self.assertEqual([self.peer(b"cut").write(0, it) for it in (b"cut 5", b"cut 5 requests", b"cut", b"cut off")], [frames.EINVAL, frames.EINVAL, IO, 0])

    def test_a_cache_loses_what_was_not_flushed(self) -> None:
        self.start("on-cut=ask", "cache=8", "cut-seed=3")
        lost, draw = 0, random.Random(5)
        for number in range(1, 30):
            it, data = self.peer(), bytes([number]) * 512
            flushed = draw.randrange(14)
            self.assertEqual((it.write(512 * flushed, data), it.flush()), (0, 0))
            other = (flushed + 1 + draw.randrange(13)) % 14
            before = bytes(it.read(512 * other, 512).data)
            self.assertEqual(it.write(512 * other, data), 0)
            self.assertEqual(bytes(it.read(512 * other, 512).data), data)
            self.told("cut")
            it = self.peer()
            self.assertEqual(bytes(it.read(512 * flushed, 512).data), data)
            found = bytes(it.read(512 * other, 512).data)
            self.assertIn(found, (before, data))
            lost += found == before
        self.assertTrue(0 < lost < 29, lost)

    def test_any_sectors_are_torn(self) -> None:
        self.start("on-cut=ask", "tear=any", "cut-every=1500")
        kinds = set()
        for number in range(1, 60):
            it, data = self.peer(), bytes([number]) * 2048
            before = it.all()[:2048]
            self.told("cut 1")
            while it.write(0, data) == 0:
                before = data
            found = self.peer().all()[:2048]
            sectors = [found[at:at + 512] for at in range(0, 2048, 512)]
            self.assertTrue(all(it in (before[:512], data[:512], bytes(512)) or before[at:at + 512] == it for at, it in zip(range(0, 2048, 512), sectors)))
            kinds.add(tuple(it == data[:512] for it in sectors))
            while self.peer().write(0, bytes([number + 100]) * 2048):
                pass
        self.assertGreater(len(kinds - {(True,) * k + (False,) * (4 - k) for k in range(5)}), 0, kinds)


class Logs(Relays):
    """A disk is made again of its log."""

    def filled(self, *words: str) -> List[bytes]:
        """What the disk was behind each request of a new log."""
        self.start(f"log={self.log}", *words)
        it, draw, images = self.peer(), random.Random(6), [bytes(SIZE)]
        for _ in range(12):
            at = draw.randrange(SIZE)
            self.assertEqual(it.write(at, draw.randbytes(min(SIZE - at, 700))), 0)
            images.append(it.all())
        return images

    def image(self, *words: str) -> bytes:
        """What a disk on the log has."""
        self.start(f"log={self.log}", *words)
        found = self.peer().all()
        self.assertEqual(self.end(), (0, ""))
        return found

    def test_it_goes_on_from_there(self) -> None:
        last = self.filled("misses=1", "on-cut=ride", "cut-every=500")[-1]
        self.process.kill()
        self.end()
        self.sock.unlink()
        with open(self.log, "ab") as file:
            file.write(frames.write(0, b"never answered")[:30])
        self.assertEqual(self.image("misses=1", "on-cut=ride", "cut-every=500"), last)
        self.assertEqual(self.image("misses=1", "on-cut=ride", "cut-every=500"), last)

    def test_each_of_its_requests(self) -> None:
        images = self.filled()
        self.end()
        kept = self.log.read_bytes()
        for number, image in enumerate(images):
            self.assertEqual(self.image(f"log-requests={2 * number}"), image)
        self.assertEqual(self.log.read_bytes(), kept)
        self.assertIn("has 24 requests", self.refused(f"log={self.log}", "log-requests=25"))

    def test_logs_that_are_none(self) -> None:
        self.filled()
        self.assertIn("another relay", self.refused_besides(f"log={self.log}"))
        self.end()
        self.assertIn("other options", self.refused(f"log={self.log}", "psi=7"))
        (self.room / "log.args").unlink()
        self.assertIn("log.args", self.refused(f"log={self.log}"))
        self.log.write_text("tick,op,arg,data\n")
        self.assertIn("is no log", self.refused(f"log={self.log}"))
        self.assertIn("give log", self.refused("log-requests=5"))

    def refused_besides(self, *words: str) -> str:
        """The same beside another relay."""
        kept, self.sock = self.sock, self.room / "other"
        said = self.refused(*words)
        self.sock = kept
        return said

    def test_rows_make_the_same_disk(self) -> None:
        self.start(f"log={self.log}", "on-cut=ask", "cut-every=900")
        draw = random.Random(7)
        for number in range(60):
            if number % 10 == 9:
                self.told(f"cut {draw.randrange(2000)}")
            it, at = self.peer(), draw.randrange(SIZE)
            it.write(at, draw.randbytes(min(SIZE - at, 1300)))
        self.told("cut off")
        last = self.peer().all()
        self.end()
        options = rows.options_of(os.fspath(self.log))
        layout = rows.Layout(options)
        sectors, lines = rows.Sectors(layout), [bytearray(64) for _ in range(layout.all)]
        kinds = set()
        for row in rows.rows_of(os.fspath(self.log), sectors):
            kinds.add(row.op)
            for i in range(0, len(row.data), 2):
                if row.data[i:i + 2] != "..":
                    lines[row.line][i // 2] = int(row.data[i:i + 2], 16)
        self.assertEqual((kinds, layout.sectors * 512), ({"R", "W", "M", "C"}, SIZE))
        stand = [b"".join(lines[layout.of_module(it)] for it in sectors.lines_of(sectors.block(sector))) for sector in range(layout.sectors)]
        self.assertEqual(b"".join(stand), last)
        self.assertEqual(b"".join(sectors.bytes_of(it) for it in range(layout.sectors)), last)
        for line in range(layout.all):
            self.assertEqual(layout.of_disk(layout.of_module(line)), line)

    def test_it_is_printed(self) -> None:
        self.filled()
        self.end()
        done = subprocess.run([sys.executable, recorded.__file__, self.log], capture_output=True, text=True)
        self.assertEqual((done.returncode, len(done.stdout.splitlines()), done.stderr), (0, 25, ""))
        self.assertEqual(recorded.count(os.fspath(self.log))[0], 24)


class Ends(Relays):
    """How it ends, and words."""

    def test_the_program_is_killed(self) -> None:
        self.start()
        self.peer()
        (child,) = pathlib.Path(f"/proc/{self.process.pid}/task/{self.process.pid}/children").read_text().split()
        os.kill(int(child), signal.SIGKILL)
        self.assertEqual(self.process.wait(30), 1)
        self.assertIn("has ended", self.end()[1])

    def test_a_command(self) -> None:
        for command, status in (('test -S "${uri#*socket=}"', 0), ("exit 7", 7)):
            self.assertEqual(subprocess.run([RELAY, "-", f"pcm={PCM}", "--run", command], timeout=60).returncode, status)

    def test_sizes(self) -> None:
        for words, least in (("size=1M", 1 << 20), ("banks=2 regions=2 lines=256 line=64 sector=16K", 0), ("size=64K line=64 sector=64", 1 << 16)):
            given = words.split()
            asked = Words(given)
            shape = [asked.number(it, 0) for it in ("banks", "regions", "lines", "line")]
            self.assertTrue(least <= math.prod(shape) < 2 * least or not least, shape)
            self.process = subprocess.Popen([sys.executable, RELAY, self.sock, f"pcm={PCM}", *given], stderr=subprocess.PIPE, text=True)
            while not self.sock.exists() and self.process.poll() is None:
                time.sleep(0.01)
            self.assertEqual(self.peer().size, asked.sectors() * asked.number("sector", 4096))
            self.assertEqual(self.end(), (0, ""))

    def test_words_that_are_refused(self) -> None:
        for word, text in (("lines", "KEY=VALUE"), ("on-cut=never", "one of drop, ask, ride"), ("cache=many", "a number"), ("lines=64", "twice"),
                           ("size=1M", "at most one"), ("attached=3,4", "descriptors")):
            self.assertIn(text, self.refused(word))
        for word in ("psi=none", "polcy=pause"):
            self.assertIn("has ended", self.said(word))

    def said(self, word: str) -> str:
        """The program has said something, too."""
        done = subprocess.run([sys.executable, RELAY, self.sock, f"pcm={PCM}", *SMALL, word], capture_output=True, text=True, timeout=60)
        self.assertEqual(done.returncode, 2)
        return done.stderr


if __name__ == "__main__":
    unittest.main()
