"""Has the kit prove crates, tells how far it is, and hands on what was made.

Used by tools/build, tools/libraries, tools/times, tools/wrong and tools/dist. It is the kit's own gate that proves: a plain `rt ci`, over a
copy that has the crates and all below them alone, without their wrong bodies. So the kit keeps what passes by the checksums of all that it
read, and finds it again in a later build, in another clone, and in the gate."""
import contextlib
import fcntl
import functools
import hashlib
import os
import pathlib
import re
import shutil
import signal
import subprocess
import sys
import time

import bodies
import crates
import keeping

TOP = crates.TOP
# What a proof may take of the memory, in bytes.
EACH = 2_500_000_000
# What `rt ci` says of a crate.
TOLD = re.compile(r"rt: (\w+)(?:(?P<kept> is kept: )|(?P<proved> proved$)|(?P<failed> NOT PROVED$)|(?P<waits>: another run .* is proving the same))")
LEFT_OUT = ("out", "build.log", bodies.GATE, bodies.LATER)


@functools.cache
def kit_folder():
    if not shutil.which("rt"):
        sys.exit("pcm: the kit isn't here: there is no command rt (README.md says what the kit is)")
    return pathlib.Path(subprocess.run(["rt", "doc"], stdout=subprocess.PIPE, text=True, check=True).stdout.strip()).parent


def kit_command():
    """The kit's `rt`, which keeps what passes beside the kit's folder; where that can't be written, the same kit by another name, in the
    cache."""
    kit = kit_folder()
    beside = kit.parent / "rattle-kept"
    if keeping.is_mine(beside) if beside.exists() else os.access(kit.parent, os.W_OK):
        return "rt"
    named = keeping.cache() / "kit" / hashlib.sha256(f"{kit} {(kit / 'KIT-ID').read_text()}".encode()).hexdigest()[:16] / "kit"
    if not named.is_dir():
        new = named.parent.with_name(f"new-{os.getpid()}")
        (new / "kit" / "bin").mkdir(parents=True)
        for it in kit.iterdir():
            if it.name != "bin":
                (new / "kit" / it.name).symlink_to(it)
        for it in (kit / "bin").iterdir():
            # (its scripts look for the kit from where they stand; its programs are large)
            shutil.copy2(it, new / "kit" / "bin") if it.stat().st_size < 1_000_000 else (new / "kit" / "bin" / it.name).symlink_to(it)
        with contextlib.suppress(OSError):
            new.rename(named.parent)
    return str(named / "bin" / "rt")


def number_in(file):
    with contextlib.suppress(OSError, ValueError):
        return int(pathlib.Path(file).read_text())
    return None


def jobs():
    """How many proofs run side by side: one for each processor, as many as memory holds; RT_JOBS where that is given."""
    if os.environ.get("RT_JOBS", "").isdigit():
        return int(os.environ["RT_JOBS"])
    free = [1024 * int(re.search(r"MemAvailable:\s*(\d+)", pathlib.Path("/proc/meminfo").read_text())[1])]
    for most, used in (("memory.max", "memory.current"), ("memory/memory.limit_in_bytes", "memory/memory.usage_in_bytes")):
        most, used = number_in(f"/sys/fs/cgroup/{most}"), number_in(f"/sys/fs/cgroup/{used}")
        free += [most - used] if most and used else []
    return max(1, min(len(os.sched_getaffinity(0)), min(free) // EACH))


def command(verb, crate, *more):
    """The words of a `rattle check` or `rattle build` of a crate by one process, over the libraries that are kept."""
    kit, libraries = kit_folder(), crates.named(crate).libraries
    own = [f"{it}={keeping.entry(it, stamp(it))}/{it}.rlib" for it in crates.below(crate)]
    folders = [kit / "rlibs", *(keeping.entry(it, stamp(it)) for it in sorted(crates.needed(crate) - {crate}))]
    kits = [f"{it}={kit}/rlibs/{it}.rlib" for it in ("std", *libraries) if it not in crates.listed()]
    words = [kit / "bin" / "rattle", verb, "--crate-name", crate, crates.named(crate).root, "--links", f"{crate}=", "--jobs", 1]
    words += [word for it in (*kits, *own) for word in ("--extern", it)]
    words += [word for it in folders for word in ("-L", f"dependency={it}")]
    words += ["--crate-type", "staticlib"] * crates.named(crate).is_static
    words += ["--antt-project", kit / "rattle" / "logic" / "antt-project.json", "--logic-built", kit / "logic_built"]
    return list(map(str, (*words, *more)))


def sum_of(crate, below):
    """A checksum of all that a crate is made of: the kit, the crate's text, and what stands below, of which `below` answers the sum."""
    sum_ = hashlib.sha256((kit_folder() / "KIT-ID").read_bytes())
    for file in crates.named(crate).files():
        sum_.update(f"{file.relative_to(TOP)} {file.stat().st_size}\n".encode() + file.read_bytes())
    sum_.update("".join(f"{it} {below(it)}\n" for it in crates.below(crate)).encode())
    return sum_.hexdigest()


@functools.cache
def stamp(crate):
    """The same, as it was when this script first asked for it."""
    return sum_of(crate, stamp)


def stop_on_change(names):
    """Ends the script where a text isn't what it was as it was copied: what was made is of no text."""
    for it in sorted(names):
        if sum_of(it, stamp) != stamp(it):
            sys.exit(f"pcm: the text of {it} changed while it was proved: build again")


class Lines:
    """Reads what `rt ci` says, and notes the line with which each proof ended, which the kit doesn't keep; where nobody noted that of a crate
    that it has kept, the kit's words for this."""

    def __init__(self):
        self.stamps = {it: stamp(it) for it in crates.listed()}
        self.last = None

    def read(self, line):
        """What a line says of a crate, if it does: the crate, and `kept`, `proved`, `failed` or `waits`."""
        if line.startswith(("== ", "logic=")):
            self.last = line.rstrip("\n") if line[0] == "l" else None
        told = TOLD.match(line)
        if told and told[1] in self.stamps:
            crate, stamp_ = told[1], self.stamps[told[1]]
            if told.lastgroup == "proved" and self.last:
                keeping.note_line(crate, stamp_, self.last)
            elif told.lastgroup == "kept" and not keeping.line_of(crate, stamp_):
                keeping.note_line(crate, stamp_, line.rstrip("\n").removeprefix(f"rt: {crate} "))
        return told and (told[1], told.lastgroup)


class Proofs:
    """A run of the kit's gate over a copy of some crates and all below them. It is a context, which ends all that it started."""

    def __init__(self, names):
        self.names, self.needed = names, sorted(frozenset().union(*map(crates.needed, names)))
        self.log = crates.named(names[0]).folder / "build.log"
        self.room, self.process, self.lines = keeping.room("copy"), None, Lines()
        self.done, self.begun = 0, time.monotonic()

    def __enter__(self):
        return self

    def __exit__(self, *_):
        if self.process and self.process.poll() is None:
            # (what rt started ends with it)
            os.killpg(self.process.pid, signal.SIGKILL)
            self.process.wait()
        shutil.rmtree(self.room, ignore_errors=True)

    def copy(self):
        shutil.rmtree(self.room, ignore_errors=True)
        # (it is the top of a repository)
        (self.room / ".git").mkdir(parents=True)
        lines = (TOP / "crates.txt").read_text(encoding="utf-8").splitlines()
        own = [it for it in lines if {*crates.head_of(it)} & {*self.needed}]
        (self.room / "crates.txt").write_text("".join(f"{it}\n" for it in own), encoding="utf-8")
        if (TOP / "HANDLES").is_file():
            shutil.copy(TOP / "HANDLES", self.room)
        for it in self.needed:
            folder = str(crates.named(it).folder)
            shutil.copytree(folder, self.room / "crates" / it, ignore=lambda at, _, folder=folder: LEFT_OUT if at == folder else ())
        stop_on_change(self.needed)

    def made(self, crate):
        """What was made of a crate: a program's file, a static library's, or a library's folder."""
        out = self.room / "crates" / crate / "out"
        if crates.named(crate).is_static:
            return out / f"lib{crate}.a"
        return out / crate if crates.named(crate).root == "src/main.rt" else out / "rlib" / f"{crate}.rlib"

    def prove(self):
        self.copy()
        around = {**os.environ, "RT_JOBS": str(jobs())}
        how = {"cwd": self.room, "env": around, "stdin": subprocess.DEVNULL, "stdout": subprocess.PIPE, "stderr": subprocess.STDOUT}
        self.process = subprocess.Popen([kit_command(), "ci"], **how, text=True, errors="replace", preexec_fn=os.setpgrp)
        with open(self.log, "w", encoding="utf-8") as log:
            for line in self.process.stdout:
                log.write(line)
                log.flush()
                self.tell(*(self.lines.read(line) or (None, None)))
        if self.process.wait() != 0:
            sys.exit(f"pcm: the kit refuses {' '.join(self.names)}; {self.log.relative_to(TOP)} says why")
        stop_on_change(self.needed)

    def archive(self, crate):
        """Compiles a static library that was proved, over the libraries below it as they are kept: the gate compiles none."""
        to = self.made(crate)
        to.parent.mkdir(parents=True, exist_ok=True)
        words = command("build", crate, "--toolchain", kit_folder() / "toolchain", "--backend", "llvm", "-o", to)
        with open(self.log, "a", encoding="utf-8") as log:
            how = {"cwd": self.room / "crates" / crate, "stdin": subprocess.DEVNULL, "stdout": log, "stderr": subprocess.STDOUT}
            self.process = subprocess.Popen(words, **how, preexec_fn=os.setpgrp)
            if self.process.wait() != 0:
                sys.exit(f"pcm: the kit doesn't compile {crate}; {self.log.relative_to(TOP)} says why")

    def tell(self, crate, what):
        if what in ("kept", "proved"):
            self.done += 1
        if what == "proved":
            minutes, seconds = divmod(int(time.monotonic() - self.begun), 60)
            say(f"proved {self.done} of {len(self.needed)} crates in {minutes} min {seconds} s: {crate}")
        elif what == "waits":
            say(f"another build proves {crate} just now: waiting for it")
        elif what == "failed":
            sys.exit(f"pcm: the proof of {crate} failed; {self.log.relative_to(TOP)} says why")


def keep_libraries(names):
    """Proves what lacks of these libraries, and of those below them, and keeps them for checks of crates above."""
    needed = frozenset().union(*map(crates.needed, names)) if names else ()
    if all(keeping.is_kept(it, stamp(it)) for it in needed):
        return
    with alone(), Proofs(names) as proofs:
        proofs.prove()
        for it in proofs.needed:
            if proofs.made(it).exists():
                keeping.keep(it, stamp(it), proofs.made(it))


def say(text):
    print(f"pcm: {text}", file=sys.stderr, flush=True)


@contextlib.contextmanager
def alone():
    """Keeps other builds in this checkout out, and waits for one that works here; says so."""
    for it in (signal.SIGTERM, signal.SIGHUP):
        signal.signal(it, lambda number, _: sys.exit(128 + number))
    held = os.open(TOP / "tools", os.O_RDONLY)
    try:
        fcntl.flock(held, fcntl.LOCK_EX | fcntl.LOCK_NB)
    except BlockingIOError:
        say("another build works in this checkout: waiting until it ends")
        fcntl.flock(held, fcntl.LOCK_EX)
    except OSError:
        # (some file systems have no locks)
        pass
    try:
        with keeping.in_use():
            yield
    finally:
        os.close(held)


def guarded(main):
    """Runs a script's main; where it is interrupted one line says so."""
    try:
        main()
    except KeyboardInterrupt:
        say("broken off; what was proved is kept, and a later call goes on from there")
        sys.exit(130)
