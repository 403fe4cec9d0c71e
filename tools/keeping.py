"""Where the scripts keep what isn't the kit's to keep: outside every checkout, by a checksum of all that it was made of, so that a second
clone, or a branch that comes back, finds it.

The folder is leqallqu in XDG_CACHE_HOME (~/.cache unless it is given); where that can't be written, or lies in this checkout, where the
gate refuses Rattle's files, leqallqu-UID in TMPDIR (/var/tmp). In it are

    kept/CRATE-CHECKSUM     a program, or the library by which tools/times and tools/wrong check the crates above
    lines/CRATE-CHECKSUM    the line with which the crate's proof ended
    rooms/                  the copies in which the kit proves, and what tools/times keeps
    kit/                    another name of the kit, where what it proves can't be kept beside it

An entry comes to its place whole, by one rename. Of each crate the three that were used last stay, and all that were used within a day;
`tools/build --clean` removes them. The gate reads none of it."""
import contextlib
import fcntl
import functools
import hashlib
import os
import pathlib
import shutil
import stat
import sys
import tempfile
import time

import crates

TOP = crates.TOP
# How many entries of a crate stay, and for how many seconds an entry isn't removed behind its last use.
STAY = 3
FRESH = 24 * 3600


def _usual():
    named = os.environ.get("XDG_CACHE_HOME", "")
    return (pathlib.Path(named) if os.path.isabs(named) else pathlib.Path.home() / ".cache") / "leqallqu"


def is_mine(folder):
    """Whether it is a folder of this user's own in which files can be made."""
    found = folder.lstat()
    return stat.S_ISDIR(found.st_mode) and found.st_uid == os.getuid() and os.access(folder, os.W_OK | os.X_OK)


@functools.cache
def cache():
    """The folder, which is made where it isn't there."""
    with contextlib.suppress(OSError, RuntimeError):
        folder = _usual()
        if TOP not in folder.resolve().parents:
            folder.mkdir(parents=True, exist_ok=True)
            if os.access(folder, os.W_OK | os.X_OK):
                return folder
    folder = pathlib.Path(os.environ.get("TMPDIR") or "/var/tmp") / f"leqallqu-{os.getuid()}"
    with contextlib.suppress(OSError):
        folder.mkdir(mode=0o700, exist_ok=True)
        if is_mine(folder) and TOP not in folder.resolve().parents:
            return folder
    sys.exit(f"pcm: what is built can be kept neither in ~/.cache nor in {folder}: name a folder outside the checkout by XDG_CACHE_HOME")


@contextlib.contextmanager
def in_use():
    """Keeps `--clean` of another build out."""
    held = os.open(cache(), os.O_RDONLY)
    try:
        with contextlib.suppress(OSError):
            fcntl.flock(held, fcntl.LOCK_SH)
        yield
    finally:
        os.close(held)


def clean():
    """Removes all that is kept; the script ends where another build uses it."""
    held = os.open(cache(), os.O_RDONLY)
    try:
        fcntl.flock(held, fcntl.LOCK_EX | fcntl.LOCK_NB)
    except BlockingIOError:
        sys.exit(f"pcm: another build uses {cache()}: it isn't emptied")
    except OSError:
        pass
    for it in cache().iterdir():
        shutil.rmtree(it)
    os.close(held)


def entry(crate, stamp):
    """Where a crate's library or program is, or is to be, by the checksum of what it is made of."""
    return cache() / "kept" / f"{crate}-{stamp[:32]}"


def line_file(crate, stamp):
    return cache() / "lines" / f"{crate}-{stamp[:32]}"


def is_kept(crate, stamp):
    """Whether an entry is there; its use is noted."""
    with contextlib.suppress(FileNotFoundError):
        os.utime(entry(crate, stamp))
        return True
    return False


def keep(crate, stamp, made):
    """Brings a program or a library's folder to its place, unless one stands there."""
    to = entry(crate, stamp)
    to.parent.mkdir(exist_ok=True)
    with tempfile.TemporaryDirectory(dir=to.parent, prefix=".new-", ignore_cleanup_errors=True) as room:
        (pathlib.Path(room) / "entry").mkdir()
        (shutil.move if made.is_dir() else shutil.copy)(made, pathlib.Path(room) / "entry" / made.name)
        with contextlib.suppress(OSError):
            (pathlib.Path(room) / "entry").rename(to)


def link(one, other):
    """A second name of a file, or a copy where the disk has no links."""
    try:
        os.link(one, other)
    except OSError:
        shutil.copy2(one, other)


def note_line(crate, stamp, line):
    """Keeps the line with which a crate's proof ended."""
    file = line_file(crate, stamp)
    file.parent.mkdir(exist_ok=True)
    new = file.with_name(f".{file.name}.{os.getpid()}")
    new.write_text(f"{line}\n", encoding="utf-8")
    new.replace(file)


def line_of(crate, stamp):
    """The same, or None where no run noted it."""
    with contextlib.suppress(FileNotFoundError):
        file = line_file(crate, stamp)
        os.utime(file)
        return file.read_text(encoding="utf-8").rstrip("\n")
    return None


def shrink():
    """Removes entries that were used long ago, where a crate has many."""
    found = {}
    for it in (*(cache() / "kept").glob("[!.]*-*"), *(cache() / "lines").glob("[!.]*-*")):
        with contextlib.suppress(FileNotFoundError):
            found.setdefault((it.parent, it.name.rpartition("-")[0]), []).append((it.stat().st_mtime, it))
    for entries in found.values():
        for used, it in sorted(entries, reverse=True)[STAY:]:
            if used < time.time() - FRESH:
                shutil.rmtree(it, ignore_errors=True) if it.is_dir() else it.unlink(missing_ok=True)


def room(name):
    """A folder of this checkout's own, as a name to be made and removed."""
    return cache() / "rooms" / f"{hashlib.sha256(str(TOP).encode()).hexdigest()[:16]}-{name}"
