#!/usr/bin/env python3
"""One `pcm disk` that outlives its clients: it listens on a socket, hands their requests to the program, and cuts the power under software.

    relay.py SOCKET [KEY=VALUE ..] [--run CMD]

KEY=VALUE are options of pcm disk (misses=3 sector=512 cut-seed=5), and of its own: each number may end in K, M or G.

    pcm=PROGRAM         the program (./pcm, or pcm on the search path)
    size=N              regions and lines so that the module has N bytes at least; 8 MiB of lines of 128 bytes where nothing is said
    log=FILE            all requests (recorded.py); where it has some, the disk is what they leave, and goes on from there
    log-requests=N      the disk as the first N requests of the log left it; FILE stays as it is
    attached=IN,OUT,SIZE,REQUESTS  descriptors of a program that has answered so many requests of the log
    report=FILE         what the export `cut` tells, in the end
    on-cut=drop         clients that there are get EIO from a power cut on, and new ones find the power on
    on-cut=ask          so it is where a cut was asked for; through all others what they ended is asked again, and nobody notices
    on-cut=ride         through all
    cuts=N cut-every=T  of the program; with `ask`, `ride`, or one of the two the other is chosen
    cut-requests=N      a power cut between requests, before each N-th or so that writes or flushes: drawn from 1 to 2N
    tear=any            a write that a cut ends leaves any of its sectors, not the first ones
    cache=N             a volatile cache of N sectors before it (cached.py)

The export `cut` is text. It tells counts; `cut` cuts the power at once, `cut N` in about N ticks, amid a request, `cut N requests` before the N-th from then
on that writes or flushes; `cut off`: no longer. With --run it ends with the command, which has the disk's address as $uri."""
import argparse
import os
import pathlib
import select
import signal
import socket
import subprocess
import sys
import tempfile
from typing import Dict, Optional

import frames
from back import Disk
from frames import Reply
from front import MULTI, READ_ONLY, Asked, Client, Export, Leaves
from recorded import Fault
from words import Words, Wrong

TOLD_BYTES = 4096


class Relay:
    """The disk and its clients; it ends with `command`, where there is one, or by a signal."""

    def __init__(self, disk: Disk, path: pathlib.Path, command: Optional[str]) -> None:
        self.disk, self.poll, self.status = disk, select.poll(), 0
        self.clients: Dict[int, Client] = {}
        self.listener = socket.socket(socket.AF_UNIX)
        new = path.with_name(f"{path.name}.new")
        new.unlink(missing_ok=True)
        self.listener.bind(os.fspath(new))
        self.listener.listen(64)
        self.wakes, woken = socket.socketpair()
        woken.setblocking(False)
        signal.set_wakeup_fd(woken.fileno())
        for number in (signal.SIGTERM, signal.SIGINT, signal.SIGHUP):
            signal.signal(number, lambda *_: None)
        self.woken, self.ends = woken, -1
        for it in (self.listener, self.wakes):
            self.poll.register(it, select.POLLIN)
        self.poll.register(disk.program.back, 0)  # (it is told where the program ends)
        new.rename(path)
        self.process: Optional["subprocess.Popen[bytes]"] = None
        if command is not None:
            uri = f"nbd+unix:///?socket={path.absolute()}"
            self.process = subprocess.Popen(command, shell=True, env={**os.environ, "uri": uri})  # pylint: disable=consider-using-with
            self.ends = os.pidfd_open(self.process.pid)
            self.poll.register(self.ends, select.POLLIN)

    def export(self, client: Client, name: str) -> Optional[Export]:
        """Each name but `cut` is the disk's."""
        flags = frames.FLAGS | MULTI
        client.is_switch, client.power = name == "cut", self.disk.power.told
        if client.is_switch:
            return Export(TOLD_BYTES, 512, flags)
        return Export(self.disk.size, max(4096, self.disk.sector), flags | READ_ONLY * self.disk.counts["read_only"])

    def serve(self, client: Client, it: Asked) -> Reply:
        """A request; of a client that was there as a cut was told it fails."""
        if client.is_switch:
            return self.switch(it)
        reply = self.disk.serve(it) if client.power == self.disk.power.told else Reply(frames.IO)
        return reply if reply.error != frames.SHUTDOWN else Reply(frames.IO)

    def switch(self, it: Asked) -> Reply:
        """A request of the export `cut`."""
        if it.command == frames.READ and it.at + it.size <= TOLD_BYTES:
            return Reply(0, self.disk.told().ljust(TOLD_BYTES, "\n").encode()[it.at:it.at + it.size])
        if it.command == frames.FLUSH:
            return Reply(0)
        text = bytes(it.data).decode(errors="replace").partition("\n")[0].strip("\0")
        if it.command != frames.WRITE or it.at:
            return Reply(frames.EINVAL)
        if text == "cut":
            return Reply(0 if self.disk.cut() else frames.IO)
        return Reply(0 if self.disk.power.asks(text) else frames.EINVAL)

    def come(self) -> None:
        """A client comes."""
        sock, _ = self.listener.accept()
        self.clients[sock.fileno()] = Client(sock, self.export, self.serve)
        self.poll.register(sock, select.POLLIN)

    def act(self, number: int, events: int) -> None:
        """A client says something, or takes what it is told."""
        client = self.clients[number]
        try:
            if events & select.POLLOUT:
                client.send()
                client.go_on()
            else:
                client.receive()
        except (Leaves, ConnectionError):
            self.poll.unregister(number)
            self.clients.pop(number).sock.close()
        else:
            self.poll.modify(number, select.POLLOUT if client.out else select.POLLIN)

    def run(self) -> int:
        """Serves to the end; the status."""
        while True:
            for number, events in self.poll.poll():
                if number in self.clients:
                    self.act(number, events)
                elif number == self.listener.fileno():
                    self.come()
                elif number == self.ends and self.process:
                    return self.process.wait()
                elif number == self.wakes.fileno():
                    return 0
                else:
                    raise EOFError("the program has ended")


def serve(words: Words, path: pathlib.Path, command: Optional[str]) -> int:
    """Serves to the end; the status."""
    disk, status, ended = Disk(words), 1, 1
    try:
        status = Relay(disk, path, command).run()
        ended = disk.program.end()[0]
    except (EOFError, BrokenPipeError):
        print(f"relay.py: the program {words.program()[0]} has ended: so does the relay. One on its log goes on from there", file=sys.stderr)
        ended = disk.program.end(b"")[0]
    finally:
        path.unlink(missing_ok=True)
        if words.own["report"]:
            pathlib.Path(words.own["report"]).write_text(f"{disk.told()}status {ended}\n", encoding="ascii")
    return status


def main() -> int:
    """Words are read, and the disk is served."""
    ask = argparse.ArgumentParser(description=__doc__, formatter_class=argparse.RawDescriptionHelpFormatter)
    ask.add_argument("socket", metavar="SOCKET", help="a file that isn't there yet; - for one of its own, with --run")
    ask.add_argument("words", nargs="*", metavar="KEY=VALUE")
    ask.add_argument("--run", metavar="CMD")
    given = ask.parse_intermixed_args()
    with tempfile.TemporaryDirectory(prefix="pcm-relay-") as room:
        try:
            return serve(Words(given.words), pathlib.Path(room, "sock") if given.socket == "-" else pathlib.Path(given.socket), given.run)
        except (Wrong, Fault, OSError) as error:
            print(f"relay.py: {error}", file=sys.stderr)
            return 2


if __name__ == "__main__":
    sys.exit(main())
