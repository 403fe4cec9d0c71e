"""Software on a disk whose power is cut, again and again: what `cut` and `postgres` of this folder share. What a cut left is verified behind each,
and the disk's log says how to have that very state again."""
import os
import random
import shlex
import subprocess
import time

from disks import Disk
from servers import asking, run, whole
from recorded import count


class Wrong(Exception):
    """What a cut left isn't what may be left."""


class Stops(Exception):
    """It can't go on, and no cut is why."""


def asking_to_cut(about, cuts, most):
    """The words of scripts that cut the power under software."""
    ask = asking(about)
    ask.add_argument("--cuts", type=whole(1), default=cuts)
    ask.add_argument("--seed", type=whole(0), default=1)
    ask.add_argument("--between", action="store_true", help="cut between requests, not at ticks")
    ask.add_argument("--most", type=whole(1), help=f"until a cut, at most: ticks ({most}), or with --between requests that write or flush (200)")
    ask.add_argument("--recovery", type=whole(0), default=0, help="also cut while it recovers, in so many ticks at most")
    ask.add_argument("--mkfs", metavar="CMD", help="what makes the file system on $DISK")
    ask.add_argument("--options", help="of mount")
    ask.add_argument("--check", metavar="CMD", help="what looks at $DISK when it isn't mounted")
    ask.add_argument("--seconds", type=whole(1), default=60, help="until the plug is pulled by hand, where no cut came")
    ask.set_defaults(ticks=most)
    return ask


class Cutter:
    """A disk, and the cuts under software on it: `server` serves it, as a Disk where --mkfs says what is mounted of it."""

    def __init__(self, server, words):
        self.server, self.words = server, words
        self.mount = ["mount", *(["-o", words.options] if words.options else [])] if words.mkfs else None
        self.draw = random.Random(words.seed)
        self.logged = ()
        self.counts = dict(cuts=0, by_hand=0, in_recovery=0)
        self.writes = self.written_bytes = 0  # of the work, up to its cuts

    def make(self):
        """A new file system, mounted."""
        self.attach()
        if self.mount:
            must("mkfs", self.words.mkfs, {"DISK": self.server.loop}, Stops)
        self.mount_it()

    def attach(self):
        if self.mount:
            self.server.attach()

    def mount_it(self):
        if self.mount:
            run(*self.mount, self.server.loop, self.server.mount)

    def detach(self):
        if isinstance(self.server, Disk) and self.server.fuse:
            self.server.detach()

    def row(self):
        """The last request of the log (the first is 1)."""
        self.logged = (count(self.server.log, *self.logged),)
        return self.logged[0][0]

    def ask_for_a_cut(self):
        most = self.words.most or (200 if self.words.between else self.words.ticks)
        return self.server.control(f"cut {self.draw.randrange(1, most + 1)}" + " requests" * self.words.between)

    def pull(self, before):
        """The plug is pulled by hand; and what was asked for doesn't come any more."""
        self.counts["by_hand"] += 1
        self.server.control("cut off")
        if self.server.control()["cut"] == before:
            self.server.control("cut")

    def until_a_cut(self, start):
        """Software works until the power is cut. `start` answers its process, which may end by itself when it has done all that it wanted."""
        since, begun, process = self.ask_for_a_cut(), time.monotonic(), start()
        before = since["cut"]
        while (told := self.server.control())["cut"] == before:
            status = process.poll()
            if told["read_only"]:
                raise Stops("the module is worn out, and the disk only reads")
            if status and self.server.control()["cut"] == before:
                raise Stops(f"the work ended with status {status}, and no power cut came")
            if status == 0 or time.monotonic() > begun + self.words.seconds:
                self.pull(before)
            time.sleep(0.02)
        self.counts["cuts"] += told["cut"] - before
        self.writes += told["writes"] - since["writes"]
        self.written_bytes += told["written_bytes"] - since["written_bytes"]
        return process

    def recover(self):
        """The power is on: the file system is mounted, if there is one; it may be cut again while it recovers."""
        while True:
            self.attach()
            before = self.server.control()["cut"]
            try:
                if self.mount and self.words.recovery and self.draw.random() < 0.5:
                    self.server.control(f"cut {self.draw.randrange(1, self.words.recovery + 1)}")
                    self.mount_it()
                    run("umount", self.server.mount)
                    self.server.control("cut off")
                self.mount_it()
                return
            except RuntimeError as error:
                if self.server.control()["cut"] == before:
                    raise Wrong(f"it can't be mounted: {error}") from error
                self.counts["in_recovery"] += 1
                self.detach()


def again(log, row, pcm, rest):
    """The command that makes a state again."""
    here = os.path.relpath(os.path.dirname(os.path.abspath(__file__)))
    return f"{here}/disk-at {shlex.quote(str(pcm))} {shlex.quote(str(log))} {row} {rest}"


def shell(text, variables, folder, said=None):
    """A command of the user's, in a group of its own."""
    return subprocess.Popen(["sh", "-c", text], env={**os.environ, **{key: str(value) for key, value in variables.items()}}, cwd=folder,
                            stdin=subprocess.DEVNULL, stdout=said, stderr=subprocess.STDOUT, start_new_session=True)


def must(what, text, variables, error):
    """A command of the user's, to its end; the error is raised where it has another status than 0."""
    process = shell(text, variables, None, subprocess.PIPE)
    said = process.communicate()[0].decode(errors="replace").strip()
    if process.returncode != 0:
        raise error(f"{what} ended with status {process.returncode}: {said[-1500:]}")
