"""What the benches share: their words, one run's processor time and memory, the least of several, and tables."""
import argparse
import atexit
import datetime
import functools
import os
import pathlib
import re
import shutil
import subprocess
import sys
import tempfile
import time

TOP = pathlib.Path(__file__).resolve().parent.parent
PAGE = TOP / "docs" / "FIGURES.md"
# The module and the trace in which each write takes some four pulses: cells miss, wear out and get spares.
FOUR_PULSES = "--banks 4 --regions 2 --lines 64 --spares 256 --lo 200 --hi 2000 --misses 3 --seed 7"
FOUR_PULSES_TRACE = "--write-percent 50 --cuts 32 --step 40 --hot 16 --seed 7"
LARGEST_SHAPE = "--banks 16 --regions 16 --lines 256"
LARGEST = f"{LARGEST_SHAPE} --spares 1024"


def parser(description, times=None, rows=None):
    """The words of a bench: the program, and what it measures by."""
    words = argparse.ArgumentParser(description=description, formatter_class=argparse.RawDescriptionHelpFormatter)
    built = TOP / "crates" / "pcm_cli" / "out" / "pcm_cli"
    words.add_argument("program", nargs="?", default=str(built), help="crates/pcm_cli/out/pcm_cli, unless it is given")
    words.add_argument("--peer", help="another program with the same command line, run in turn with it: its figures, and their ratio")
    if times:
        words.add_argument("--times", type=int, default=times, help=f"runs of each, {times} unless it is given")
    if rows:
        words.add_argument("--rows", type=int, default=rows, help=f"rows of each trace, {rows} unless it is given")
    return words


def programs_of(words):
    """The program and its peer; the bench ends where one isn't there."""
    programs = [it for it in (words.program, words.peer) if it]
    for it in programs:
        if not os.access(it, os.X_OK):
            sys.exit(f"{pathlib.Path(sys.argv[0]).name}: no program at {it}")
    return programs


@functools.cache
def starter():
    """used.c, compiled (by CC, cc unless it is given)."""
    room = tempfile.mkdtemp()
    atexit.register(shutil.rmtree, room)
    program = os.path.join(room, "used")
    subprocess.run([os.environ.get("CC", "cc"), "-O1", "-o", program, str(TOP / "bench" / "used.c")], check=True)
    return program


def measured(words, stdin=subprocess.DEVNULL, statuses=(0, 1), **how):
    """One run of a program and those that it waits for: the processor time of all in seconds, user and system, the peak memory of the
    largest in MB, and what it printed, the errors too."""
    reads, writes = os.pipe()
    child = subprocess.Popen(
        [starter(), str(writes), *map(str, words)], stdin=stdin, stdout=subprocess.PIPE, stderr=subprocess.STDOUT, pass_fds=[writes], **how
    )
    os.close(writes)
    said = []
    # (what is printed is read and dropped, but for its beginning)
    while piece := child.stdout.read(1 << 20):
        said.append(piece if sum(map(len, said)) < 1000 else b"")
    with open(reads, encoding="ascii") as told:
        used = told.read().split()
    text = b"".join(said)[:1000].decode(errors="replace").strip()
    if child.wait() not in statuses or len(used) != 2:
        sys.exit(f"{' '.join(map(str, words))}: status {child.returncode}: {text}")
    return int(used[0]) / 1e6, int(used[1]) / 1024, text


def once(program, words, source=os.devnull):
    """One run of the program over a file."""
    with open(source, "rb") as stdin:
        return measured([program, *words.split()], stdin)


def least(programs, times, words, source=os.devnull):
    """The least time and memory of each program, which take turns, and what each printed."""
    best, said = [(float("inf"), float("inf"))] * len(programs), [set() for _ in programs]
    for _ in range(times):
        for place, program in enumerate(programs):
            seconds, memory, text = once(program, words, source)
            best[place] = min(best[place][0], seconds), min(best[place][1], memory)
            said[place].add(text)
    return best, said


def counted(program, words, source, kept):
    """The instructions of a run, whose profile is left in a file."""
    with open(source, "rb") as stdin:
        asked = ["valgrind", "--tool=callgrind", f"--callgrind-out-file={kept}", program, *words.split()]
        ran = subprocess.run(asked, stdin=stdin, stdout=subprocess.DEVNULL, stderr=subprocess.PIPE, text=True)
    if not (total := re.search(r"Collected : (\d+)", ran.stderr)):
        sys.exit(f"callgrind: {program} {words}: {ran.stderr.strip()[-300:]}")
    return int(total[1])


def print_head(*names):
    print_row(*names)
    print("|" + "---|" * len(names))


def print_row(*cells):
    print("| " + " | ".join(map(str, cells)) + " |", flush=True)


def ratio(one, other):
    return f"{one / other:.2f}" if other else ""


def timed(folder, *asked, **how):
    """Runs a command, and answers its minutes, its processor minutes, and what it printed."""
    begun = time.monotonic()
    process = subprocess.Popen(asked, cwd=folder, stdin=subprocess.DEVNULL, stdout=subprocess.PIPE, stderr=subprocess.STDOUT, text=True, errors="replace", **how)
    said = process.stdout.read()
    _, status, spent = os.wait4(process.pid, 0)
    process.returncode = os.waitstatus_to_exitcode(status)
    if process.returncode != 0:
        sys.exit(f"{pathlib.Path(sys.argv[0]).name}: {' '.join(asked)}: status {process.returncode}\n{said[-1000:]}")
    return (time.monotonic() - begun) / 60, (spent.ru_utime + spent.ru_stime) / 60, said


def machine():
    """The processor's name, and how many there are."""
    name = re.search(r"^model name\s*: (.*)$", pathlib.Path("/proc/cpuinfo").read_text(), re.M)
    return f"{name[1] if name else 'Unknown processor'}, {os.cpu_count()} processors"


def write(name, text):
    """Writes a section of docs/FIGURES.md, with the date, and with the machine where the page's head names another."""
    page = PAGE.read_text(encoding="utf-8")
    where = "" if machine() in page.partition("\n## ")[0] else f"{machine()}, "
    found = f"<!-- {name} -->\n{text}\n\n{where}{datetime.date.today()}.\n<!-- /{name} -->"
    written = re.sub(rf"(?s)<!-- {name} -->.*<!-- /{name} -->", lambda _: found, page)
    if written == page:
        sys.exit(f"{pathlib.Path(sys.argv[0]).name}: {PAGE.relative_to(TOP)} has no section {name}, or it is as it was")
    PAGE.write_text(written, encoding="utf-8")
