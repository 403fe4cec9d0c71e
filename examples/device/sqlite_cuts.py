#!/usr/bin/python3
"""SQLite on ext4 on a module, with power cuts at any tick: cycles of mount, transactions, cut, recovery and check.

    sqlite_cuts.py PCM [--cycles N] [--mode delete|wal] [--sync full|extra] [--log FILE] [KEY=VALUE ..]

KEY=VALUE are parameters of the module and the disk. It needs root, and what disks.py names. One server lives all along. In each cycle the
disk is attached and mounted, and transactions run until the cut, which is due in a drawn number of ticks (with on-cut=drop: anywhere), ends the connection; then
all is taken down and attached again. The kernel replays ext4's journal, `e2fsck -fn` must find nothing behind it, and the data base must be whole, with
all transactions that were committed and at most the one under way besides. (With a rollback journal and --sync full SQLite promises less:
the last transaction may be undone.) The numbers that it reports: cuts, committed transactions, how often the one under way came through
or didn't, and what the disk's counts are. Its status is 1 where something is wrong, and 3 where it can't go on, since transactions end
without a cut (a disk that is too small, say) or since the module is worn out."""
import os
import random
import sqlite3
import sys

from disks import Disk
from servers import asking_of_cuts, run, whole


class Base:
    """The data base, and beside it what it should have: `rows` and `number` as committed, `earlier` as before the last transaction, `begun`
    with the one under way."""

    def __init__(self, disk, words):
        self.disk, self.words, self.draw = disk, words, random.Random(words.seed)
        self.rows, self.earlier, self.begun, self.number = {}, {}, None, 0
        self.before = 0  # cuts that came before the disk was attached
        self.counts = dict(cuts=0, committed=0, forward=0, back=0, undone=0, in_recovery=0)

    def ends_without_a_cut(self, cycle, error):
        """Whatever ended it: where no cut came, nothing is tried. Where one did, how many came."""
        told = self.disk.control()
        if told["read_only"]:
            why = "the module is worn out, and the disk only reads"
        elif told["cut"] == self.before:
            why = "no power cut came, but this"
        else:
            return told["cut"] - self.before
        print(f"cycle {cycle}: {why}: {error} ({self.number} transactions were committed)", file=sys.stderr)
        self.disk.leave()
        sys.exit(3)

    def recover(self, is_first):
        """The disk attached and mounted, and the data base opened: its integrity, rows and number."""
        self.disk.attach()
        if not is_first and self.words.recovery_ticks and self.draw.random() < 0.7:
            self.disk.control(f"cut {self.draw.randrange(1, self.words.recovery_ticks + 1)}")
        # the kernel replays its journal: nothing may be left to mend behind it
        run("mount", "-t", "ext4", self.disk.loop, self.disk.mount)
        run("umount", self.disk.mount)
        run("e2fsck", "-fn", self.disk.loop)
        run("mount", "-t", "ext4", self.disk.loop, self.disk.mount)
        self.base = sqlite3.connect(os.path.join(self.disk.mount, "data.db"), isolation_level=None)
        self.base.execute(f"pragma journal_mode={self.words.mode}")
        self.base.execute(f"pragma synchronous={self.words.sync}")
        self.base.execute("create table if not exists t(k integer primary key, v blob)")
        self.base.execute("create table if not exists s(one integer primary key, seq integer)")
        (whole,) = self.base.execute("pragma integrity_check").fetchone()
        return whole, dict(self.base.execute("select k, v from t")), (self.base.execute("select seq from s").fetchone() or (0,))[0]

    def close(self):
        try:
            self.base.close()
        except sqlite3.Error:
            pass

    def recover_through_cuts(self, cycle):
        """What is found where no cut came meanwhile. (SQLite tells a page that can't be read as one that isn't whole.)"""
        while True:
            self.before, self.base = self.disk.control()["cut"], None
            try:
                found, fault = self.recover(cycle == 0), None
            except (RuntimeError, sqlite3.Error, OSError) as error:
                fault = error
            told = self.disk.control()
            if fault and told["read_only"]:
                self.ends_without_a_cut(cycle, fault)
            if told["cut"] == self.before:
                if not fault:
                    return found
                # the file system, or the data base, isn't what it was
                sys.exit(f"cycle {cycle}: {fault}")
            self.counts["in_recovery"] += 1
            if self.base:
                self.close()
            self.disk.detach()

    def judge(self, cycle, whole, found, number):
        """Whether what is found is what may be."""
        if whole != "ok":
            sys.exit(f"cycle {cycle}: integrity_check: {whole}")
        if number == self.number and found == self.rows:
            self.counts["back"] += self.begun is not None
        elif self.begun is not None and number == self.number + 1 and found == self.begun:
            self.counts["forward"] += 1
            self.rows, self.number = self.begun, number
        elif self.words.mode == "delete" and self.words.sync == "full" and number == self.number - 1 and found == self.earlier:
            self.counts["undone"] += 1
            self.rows, self.number = self.earlier, number
        else:
            sys.exit(f"cycle {cycle}: transaction {self.number} was committed, {number} is found; rows equal: {found == self.rows}")

    def one_transaction(self):
        self.begun = dict(self.rows)
        self.base.execute("begin immediate")
        for _ in range(self.draw.randrange(1, 6)):
            key = self.draw.randrange(200)
            if self.draw.random() < 0.2 and key in self.begun:
                del self.begun[key]
                self.base.execute("delete from t where k=?", (key,))
            else:
                self.begun[key] = self.draw.randbytes(self.draw.randrange(10, 700))
                self.base.execute("insert or replace into t values(?, ?)", (key, self.begun[key]))
        self.base.execute("insert or replace into s values(1, ?)", (self.number + 1,))
        self.base.execute("commit")
        self.earlier, self.rows, self.number = self.rows, self.begun, self.number + 1
        self.counts["committed"] += 1

    def work_until_a_cut(self, cycle):
        self.disk.control(f"cut {self.draw.randrange(1, self.words.most_ticks + 1)}")
        try:
            while True:
                self.one_transaction()
        except (sqlite3.Error, OSError) as error:
            last = error
        self.counts["cuts"] += self.ends_without_a_cut(cycle, last)
        self.close()
        self.disk.detach()
        return last


def main():
    ask = asking_of_cuts(__doc__, cycles=10)
    ask.add_argument("--log", help="keep the disk's log in this file")
    ask.add_argument("--recovery-ticks", type=whole(0), default=0, help="cut the power also while it recovers, in so many ticks at most")
    ask.add_argument("--block", default="1024", help="of ext4")
    words = ask.parse_intermixed_args()
    disk = Disk(words.pcm, words.parameters, words.log, cuts=True)
    try:
        disk.through_cuts(lambda: disk.run_on_it("mkfs.ext4", "-q", "-b", words.block))
    except RuntimeError as error:
        print(error, file=sys.stderr)
        sys.exit(3)
    base = Base(disk, words)
    for cycle in range(words.cycles + 1):
        base.judge(cycle, *base.recover_through_cuts(cycle))
        if cycle < words.cycles:
            last = base.work_until_a_cut(cycle)
            if cycle % 10 == 0:
                print(f"cycle {cycle}: {base.number} committed, ended by {last}", flush=True)
    base.close()
    disk.detach()
    fsck = disk.through_cuts(lambda: disk.run_on_it("e2fsck", "-fn"))
    print("e2fsck -fn:", fsck.stdout.strip().splitlines()[-1])
    print("disk:", disk.end())
    print("all right:", base.counts)


if __name__ == "__main__":
    main()
