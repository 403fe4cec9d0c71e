#!/usr/bin/python3
"""A machine whose only disk is a module: Linux in qemu, SQLite on ext4 on /dev/vda; the power is cut (with on-cut=drop also as it boots), the machine killed,
booted again and checked.

    guest_cuts.py PCM [--cycles N] [--seed X] [--mode delete|wal] [--sync full|extra] [--most-ticks N] [KEY=VALUE ..]

It needs no root; of Debian what servers.py names, libnbd-bin, e2fsprogs, qemu-system-x86, linux-image-amd64 (or -cloud-amd64), busybox-static,
sqlite3, cpio and kmod. In each boot the data base must be whole, with all transactions that were committed before the cut and at most one more.
Reports the rows that each boot found, and the disk's counts."""
import atexit
import collections
import glob
import gzip
import os
import random
import re
import shutil
import subprocess
import sys
import time

from servers import Server, asking_of_cuts, fails, need, run

INIT = """#!/bin/busybox sh
/bin/busybox --install -s /bin
mount -t proc p /proc; mount -t sysfs s /sys; mount -t devtmpfs d /dev
for m in MODULES; do insmod /m/$m; done
while [ ! -b /dev/vda ]; do sleep 0.1; done
mkdir /mnt
mount -t ext4 /dev/vda /mnt && echo MOUNTED || echo UNMOUNTABLE
cat > /s.sql <<END
pragma journal_mode=MODE;
pragma synchronous=SYNC;
create table if not exists t(k integer primary key, v blob, n integer);
select 'CHECK', integrity_check from pragma_integrity_check;
select 'FOUND', count(*), coalesce(max(k), 0), coalesce(sum(n = length(v)), 0) from t;
END
sqlite3 -init /dev/null /mnt/data.db < /s.sql
n=$(sqlite3 -init /dev/null /mnt/data.db 'select coalesce(max(k), 0) from t')
echo READY
{
    echo "pragma synchronous=SYNC;"
    while :; do
        n=$((n + 1))
        s=$((n * 7919 % 900 + 10))
        echo "begin immediate; insert into t values($n, randomblob($s), $s); update t set v = randomblob(n) where k = abs(random()) % $n; commit;"
        echo "select 'COMMITTED', $n;"
    done
} | sqlite3 -init /dev/null /mnt/data.db
echo STOPPED
sleep 1000
"""


def initramfs(folder, words):
    """A root file system of busybox and sqlite3, with the modules of the newest kernel that is installed; answers that kernel."""
    root = folder / "root"
    for name in "bin lib lib64 proc sys dev m usr/bin".split():
        (root / name).mkdir(parents=True)
    shutil.copy("/usr/bin/busybox", root / "bin/busybox")
    shutil.copy("/usr/bin/sqlite3", root / "bin/sqlite3")
    for path in re.findall(r"(/\S+\.so\S*)", run("ldd", "/usr/bin/sqlite3").stdout):
        os.makedirs(f"{root}{os.path.dirname(path)}", exist_ok=True)
        shutil.copy(path, f"{root}{path}")
    version, names = sorted(os.listdir("/lib/modules"))[-1], []
    for module in ("virtio_blk", "virtio_pci", "crc32c_generic", "ext4"):
        shown = run("/sbin/modprobe", "-S", version, "--show-depends", module).stdout
        for path in re.findall(r"insmod (\S+)", shown):
            if os.path.basename(path) not in names:
                names.append(os.path.basename(path))
                shutil.copy(path, root / "m")
    (root / "init").write_text(INIT.replace("MODULES", " ".join(names)).replace("MODE", words.mode).replace("SYNC", words.sync))
    (root / "init").chmod(0o755)
    cpio = subprocess.run("find . | cpio -o -H newc --quiet", shell=True, cwd=root, capture_output=True, check=True).stdout
    with gzip.open(folder / "initramfs", "wb", 1) as file:
        file.write(cpio)
    return f"/boot/vmlinuz-{version}"


def boot(disk, kernel, accelerator):
    """(On a busy host a kernel that checks its timer may take it for a broken one, and panic.)"""
    return subprocess.Popen(
        ["qemu-system-x86_64", "-accel", accelerator, "-m", "256", "-display", "none", "-serial", "stdio", "-monitor", "none", "-no-reboot", "-kernel", kernel,
         "-initrd", disk.dir / "initramfs", "-append", "console=ttyS0 quiet panic=-1 no_timer_check", "-blockdev",
         f"driver=nbd,node-name=pcm,server.type=unix,server.path={disk.sock},export=", "-device", "virtio-blk-pci,drive=pcm"],
        stdin=subprocess.DEVNULL, stdout=subprocess.PIPE, stderr=subprocess.STDOUT, text=True, errors="replace")


def follow(qemu, last, said, was_cut, when_ready):
    """Reads what the machine says until it stops; how many transactions were committed. `last` were before, `said` takes its lines."""
    found, checked = None, None
    for line in qemu.stdout:
        said.append(line)
        word = line.strip().split("|")
        if word[0] == "CHECK":
            checked = word[1]
        elif word[0] == "FOUND":
            found = [int(it) for it in word[1:]]
        elif word[0] == "READY":
            if checked != "ok" or found is None or not found[0] == found[1] == found[2] or not last <= found[1] <= last + 1:
                if was_cut():
                    break
                sys.exit(f"wrong: integrity_check {checked}, rows {found}, {last} were committed")
            last = found[1]
            if when_ready(found[0]):
                break
        elif word[0] == "COMMITTED":
            last = int(word[1])
        elif "I/O error" in line or "Runtime error" in line or word[0] in ("UNMOUNTABLE", "STOPPED"):
            break
    return last


def main():
    ask = asking_of_cuts(__doc__, cycles=5)
    ask.add_argument("--accel", default="tcg")
    words = ask.parse_intermixed_args()
    need({"qemu-system-x86_64": "qemu-system-x86", "busybox": "busybox-static", "sqlite3": "sqlite3", "cpio": "cpio", "modprobe": "kmod"})
    if not glob.glob("/boot/vmlinuz-*"):
        fails("there is no kernel in /boot (Debian: apt-get install linux-image-amd64)", 77)
    disk, draw, begun, last = Server(words.pcm, words.parameters, cuts=True), random.Random(words.seed), time.time(), 0
    kernel = initramfs(disk.dir, words)
    uri = disk.must_run().uri()
    with open(disk.dir / "image", "wb") as file:
        file.truncate(int(run("nbdinfo", "--size", uri).stdout))
    run("mkfs.ext4", "-q", "-b", "1024", disk.dir / "image")
    disk.through_cuts(lambda: run("nbdcopy", disk.dir / "image", uri))
    is_over, cycle = False, 0
    while not is_over:
        before, cuts, said = last, disk.control()["cut"], collections.deque(maxlen=20)

        def was_cut():
            return disk.control()["cut"] > cuts

        def when_ready(found):
            nonlocal is_over
            print(f"boot {cycle} at {time.time() - begun:.0f} s: whole, {found} rows, {before} were committed", flush=True)
            is_over = cycle >= words.cycles
            if not is_over:
                disk.control(f"cut {draw.randrange(1, words.most_ticks + 1)}")
            return is_over

        qemu = boot(disk, kernel, words.accel)
        atexit.register(qemu.kill)
        last = follow(qemu, last, said, was_cut, when_ready)
        qemu.kill()
        qemu.stdout.close()
        qemu.wait()
        atexit.unregister(qemu.kill)
        if not is_over and not was_cut():
            sys.exit(f"boot {cycle} ended, and no power cut came: {''.join(said)}")
        cycle += 1
    told = disk.end()
    print("disk:", told)
    print(f"all right: {told['cut']} cuts, {last} transactions")


if __name__ == "__main__":
    main()
