"""A disk on a module as a mounted file system, for the scripts of this folder: nbdfuse shows it as a file, a loop device makes
a block device of that, and the kernel mounts it. So it needs root, /dev/fuse, loop devices and ext4 in the kernel; and of Debian, beside what
servers.py needs, libnbd-bin, nbdfuse, fuse3 and e2fsprogs."""
import os
import subprocess
import sys
import time

from servers import Server, need, run


def mounted(place):
    """Whether the kernel has something mounted there. (Of an XFS that has shut down stat() fails, so os.path.ismount says no.)"""
    with open("/proc/self/mounts", encoding="utf-8", errors="surrogateescape") as mounts:
        return str(place) in (line.split()[1].encode().decode("unicode_escape") for line in mounts)


class Disk(Server):
    """A server of a disk, and what is mounted of it."""

    def __init__(self, pcm, parameters, log=None, cuts=False, fds=()):
        need({"nbdfuse": "nbdfuse", "fusermount3": "fuse3", "nbdcopy": "libnbd-bin", "mkfs.ext4": "e2fsprogs", "losetup": "mount"})
        if os.geteuid() != 0:
            print(f"{os.path.basename(sys.argv[0])}: it mounts a file system, which needs root", file=sys.stderr)
            sys.exit(77)
        self.fuse = self.loop = None
        super().__init__(pcm, parameters, log, cuts, fds)
        self.file, self.mount = self.dir / "disk", self.dir / "mnt"
        self.file.touch()
        self.mount.mkdir()
        self.must_run()

    def leave(self):
        quiet = dict(stdout=subprocess.DEVNULL, stderr=subprocess.DEVNULL)
        if self.loop:
            subprocess.run(["umount", "-l", self.mount], **quiet)
            subprocess.run(["losetup", "-d", self.loop], **quiet)
        if self.fuse:
            subprocess.run(["umount", "-l", self.file], **quiet)
            self.fuse.kill()
            self.fuse.wait()
        super().leave()

    def attach(self):
        """The power is on: a block device."""
        self.fuse = subprocess.Popen(["nbdfuse", self.file, self.uri()], stderr=subprocess.DEVNULL)
        while self.file.stat().st_size == 0:
            if self.fuse.poll() is not None:
                raise RuntimeError("nbdfuse ended")
            time.sleep(0.01)
        self.loop = run("losetup", "--show", "-f", self.file).stdout.strip()
        return self.loop

    def run_on_it(self, *command):
        """A command runs on the block device, which is there for it alone."""
        self.attach()
        try:
            return run(*command, self.loop)
        finally:
            self.detach()

    def detach(self):
        for _ in range(20):
            if not mounted(self.mount) or run("umount", self.mount, ok=(0, 1, 32)).returncode == 0:
                break
            time.sleep(0.05)
        if mounted(self.mount):
            run("umount", "-l", self.mount)
        if self.loop:
            run("losetup", "-d", self.loop)
        for _ in range(500):
            if run("umount", self.file, ok=(0, 1, 32)).returncode == 0:
                break
            time.sleep(0.02)
        self.fuse.wait()
        self.fuse = self.loop = None
