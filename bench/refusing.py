"""A program's calls refused in turn, by refuse.c in front of it, and what it may answer: of requests for memory, of reads of standard input
and of writes to standard output."""
import os
import pathlib
import subprocess
import sys
import typing


class Run(typing.NamedTuple):
    """A program's run: its words, and what it reads."""

    program: str
    name: str
    words: str
    source: bytes


class Refusing:
    """The library that refuses calls, in a folder of its own."""

    def __init__(self, room, compiler):
        self.room, self.made, self.source = room, room / "made", room / "source"
        code = pathlib.Path(__file__).resolve().parent / "refuse.c"
        subprocess.run([compiler, "-O1", "-shared", "-fPIC", "-o", room / "refuse.so", code], check=True)

    def play(self, run, kind, **how):
        """A run's status, and what it prints on both outputs."""
        self.source.write_bytes(run.source)
        # (a path in LD_PRELOAD ends at a blank: so the program is run in the folder)
        env = {**os.environ, "LD_PRELOAD": "./refuse.so", "COUNTED": kind, "COUNT": "made", **{name: str(it) for name, it in how.items()}}
        with open(self.source, "rb") as source:
            try:
                words = [os.path.abspath(run.program), *run.words.split()]
                done = subprocess.run(words, stdin=source, capture_output=True, env=env, cwd=self.room, timeout=120)
            except subprocess.TimeoutExpired:
                return "none, since it doesn't end", b"", b""
        return done.returncode, done.stdout, done.stderr

    def count(self, run, kind, **how):
        """What a run answers, and how many calls of a kind it makes."""
        answer = self.play(run, kind, **how)
        return answer, int(self.made.read_text())


class Trial:
    """A run of which calls of one kind are refused: its own answer, how many calls it makes, how many answers were looked at, and how many
    of them told a fault, or were the run's own. A kind has the name by which tables call it, and the status and the line of its fault."""

    def __init__(self, refusing, run, most):
        self.refusing, self.run, self.most = refusing, run, most
        self.own, self.made = refusing.count(run, self.kind)
        self.tried = self.told = self.same = 0
        self.try_all()

    def wrong(self):
        """How many answers were neither."""
        return self.tried - self.told - self.same

    def look(self, may_print=lambda printed: False, may_be_own=False, **how):
        """Looks at the answer to calls that are refused so: a fault, behind what may be printed by then, or the run's own."""
        answer = self.refusing.play(self.run, self.kind, **how)
        is_told = answer[::2] == (self.status, self.line) and may_print(answer[1])
        is_own = may_be_own and answer == self.own
        self.tried, self.told, self.same = self.tried + 1, self.told + is_told, self.same + is_own
        if not is_told and not is_own:
            way = " ".join(f"{name}={value}" for name, value in how.items())
            said = f"status {answer[0]}, {len(answer[1])} bytes, {answer[2][:80]!r}"
            print(f"{self.run.name}: {self.kind}: {way}: {said}", file=sys.stderr)

    def refuse(self, may_print, may_be_own=False):
        """Refuses each call alone, and from each one on, and one that isn't made."""
        for way in ("REFUSE", "REFUSE_FROM"):
            for number in places(self.made, self.most):
                self.look(may_print, may_be_own, **{way: number})
            self.look(may_be_own=True, **{way: self.made + 1})

    def interrupt(self, may_print):
        """Interrupts the first call and each other one: they have failed, too."""
        if self.made:
            self.look(may_print, INTERRUPT=1)

    def shorten(self, printed):
        """Lets each call move one byte, and lets one of these fail; `printed` says what was printed where so many bytes had been moved."""
        self.look(may_be_own=True, SHORT=1)
        for number in places(self.refusing.count(self.run, self.kind, SHORT=1)[1], -(-self.most // 10)):
            self.look(printed(number - 1).__eq__, SHORT=1, REFUSE=number)

    def must_make(self, call):
        """Ends where a run must make such calls, and none is seen."""
        if call and not self.made and self.own[0] != 2:
            sys.exit(f"{self.run.name}: none of its {self.kind} is seen")


class Memory(Trial):
    """Requests for memory. The program may also do without what it asked for."""

    kind, called, status, line = "memory", "Requests for memory", 7, b"out of memory\n"

    def try_all(self):
        self.refuse(lambda printed: printed in (b"", *heads(self.own[1])), may_be_own=True)


class Reads(Trial):
    """Reads of standard input. A stream has told what the rows decide that came whole."""

    kind, called, status, line = "reads", "Reads", 4, b"read fault\n"

    def try_all(self):
        self.must_make(self.run.source)
        self.refuse(self.may_print)
        self.interrupt(self.may_print)
        self.shorten(self.known if heads(self.own[1]) else lambda count: b"")

    def may_print(self, printed):
        """Whether this may be printed by the time at which a read fails: whole rows of a stream's, else nothing."""
        return not printed or bool(heads(self.own[1])) and self.own[1].startswith(printed) and printed.endswith(b"\n")

    def known(self, count):
        """What a stream has told where so many bytes came: as much as where a row with a fault stands behind the last whole one."""
        whole = self.run.source[: self.run.source.rfind(b"\n", 0, count) + 1]
        return self.refusing.play(self.run._replace(source=whole + b"x\n"), self.kind)[1]


class Writes(Trial):
    """Writes to standard output. What was written before stays, and nothing is written behind one that fails."""

    kind, called, status, line = "writes", "Writes", 5, b"write fault\n"

    def try_all(self):
        self.must_make(self.own[1])
        self.refuse(self.own[1].startswith)
        self.interrupt(lambda printed: not printed)
        self.shorten(lambda count: self.own[1][:count])


KINDS = {it.kind: it for it in (Memory, Reads, Writes)}


def heads(printed):
    """What stands before the rows of a stream that printed this: a header, and a shape."""
    lines = printed.splitlines(keepends=True)[:2]
    if not lines or not lines[0].startswith((b"row,outcome,", b"rows,tick,")):
        return []
    return [lines[0], lines[0] + lines[1]] if lines[1:] and lines[1].startswith(b",shape,") else [lines[0]]


def places(calls, most):
    """Which of so many calls are refused: at most so many and the last, evenly spread."""
    step = -(-calls // most)
    return sorted({*range(1, calls + 1, step), calls}) if calls else []
