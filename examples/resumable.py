"""Tables of results that can be broken off: what examples/sweep and examples/every_cut share.

A table of results has some columns that name a run, and behind them what was found. Rows that stand in its file aren't run again, rows
that don't are added as their runs end, and in the end all stand in the asked order. On standard output they stand in that order at once.
What follows from the other cells of a row by words that may change (units, a target) is told anew of the rows that stand there."""

import concurrent.futures
import csv
import functools
import io
import os
import signal
import stat
import subprocess
import sys
import threading
import zlib

# (until `begin` a script is broken off without a word)
if signal.getsignal(signal.SIGINT) is signal.default_int_handler:
    signal.signal(signal.SIGINT, signal.SIG_DFL)
sys.dont_write_bytecode = True
sys.path[1:1] = [os.path.join(os.path.dirname(os.path.dirname(os.path.realpath(__file__))), "python")]
from pcm import PcmError, UsageError, command  # noqa: E402
from pcm.progress import Progress  # noqa: E402
from pcm.words import explain  # noqa: E402

# Texts are bytes: those that are no UTF-8 are handed on as they are.
TEXT = {"encoding": "utf-8", "errors": "surrogateescape"}


class Refusal(Exception):
    """Why nothing is begun."""


class Failure(Exception):
    """Why a run has no results."""


class BrokenOff(KeyboardInterrupt):
    """A run was broken off by the terminal, as this process is."""


def csv_row(cells):
    """A row of CSV."""
    text = io.StringIO()
    csv.writer(text, lineterminator="\n").writerow(cells)
    return text.getvalue()


def named(columns, number, row):
    """A row as it is named in messages."""
    return f"row {number} ({', '.join(name + '=' + cell for name, cell in zip(columns, row) if cell != '')})"


@functools.cache
def checksum(path):
    """The size of a file and the CRC-32 of its bytes, by which it is seen that these are others now; nothing of what can't be read, or not
    twice."""
    if not os.path.isfile(path) or not os.access(path, os.R_OK):
        return ""
    found = 0
    with open(path, "rb") as file:
        while part := file.read(1 << 20):
            found = zlib.crc32(part, found)
        return f"{file.tell()}-{found:08x}"


class Program:
    """The program's commands, each asked for once, and its processes, which can be ended all at once."""

    def __init__(self, pcm):
        self.pcm = pcm
        self.words = {}
        self.running = set()
        self.is_ended = False

    def begin(self, *names):
        """Asks for the words of these commands, so that a program that isn't built yet is built, and tries the first one, so that one that
        isn't there is told of once."""
        try:
            for name in ("moves", *names):
                self.words[name] = command(name, self.pcm)
            subprocess.run([*self.words["moves"], "--lines", "4"], stdin=subprocess.DEVNULL, stdout=subprocess.DEVNULL, check=True)
        except (OSError, subprocess.CalledProcessError) as why:
            raise Refusal(f"the program doesn't run: {why}") from None
        except PcmError as why:
            raise Refusal(str(why)) from None

    def printed(self, name, words, source, trace=None):
        """The status of a command, 0 or 1, and the bytes that it prints; `source` is a file, or the bytes that it reads, of this name."""
        if self.is_ended:
            raise BrokenOff
        given = source if isinstance(source, bytes) else None
        pipe = {"stdin": source if given is None else subprocess.PIPE, "stdout": subprocess.PIPE, "stderr": subprocess.PIPE}
        try:
            with subprocess.Popen([*self.words[name], *words], **pipe) as process:
                self.running.add(process)
                try:
                    out, err = process.communicate(given)
                finally:
                    self.running.discard(process)
        except OSError as why:
            raise Failure(str(why)) from None
        self.examine(process.returncode, err, [name, *words], trace)
        return process.returncode, out

    def examine(self, status, err, words, trace):
        """Says why a run with this status has no results."""
        if status in (-signal.SIGINT, 128 + signal.SIGINT):
            raise BrokenOff
        if status < 0:
            raise Failure(f"ended by signal {-status}, {signal.strsignal(-status)}")
        if status not in (0, 1):
            said = err.decode(errors="replace").strip()
            why = explain(words, said, trace)
            raise Failure(f"status {status}: {said}" + (f": {why}" if why else ""))

    def end(self):
        """Ends what still runs, and begins nothing more."""
        self.is_ended = True
        for process in list(self.running):
            process.kill()


def results_there(path, columns, found):
    """The results that stand in a file, by their rows. A last row that was broken off while it was written doesn't count."""
    if path is None or not os.path.exists(path):
        return {}
    if not stat.S_ISREG(os.stat(path).st_mode):
        raise Refusal(f"{path} is no file that results could be kept in: name one, or - for standard output")
    with open(path, newline="", **TEXT) as file:
        text = file.read()
    rows = list(csv.reader(io.StringIO(text[: text.rfind("\n") + 1].removeprefix("\ufeff"))))
    if rows and rows[0] != columns + found:
        raise Refusal(f"{path} has other columns than these results; give it another name")
    whole = [row for row in rows[1:] if len(row) == len(columns + found)]
    return {tuple(row[: len(columns)]): tuple(row[len(columns) :]) for row in whole}


class Runs:
    """Runs under way: what is found, what failed, and the file to which each result is added as it comes, or, where there is no path,
    standard output, on which results wait for those of the rows before them.

    `rows` are the rows to run, a cell for each of `columns`; `run` gives a row's results, a cell for each of `found`, or a `Failure`; `again`
    gives of a row and the results that stand there those of now, or None where they are no longer its results."""

    def __init__(self, path, columns, found, rows, run, progress=None, again=lambda _, stands: stands):
        self.path = None if path is None else os.path.realpath(path)
        self.columns, self.found, self.run = columns, found, run
        there = {row: again(row, stands) for row, stands in results_there(path, columns, found).items()}
        self.results = {row: stands for row, stands in there.items() if stands is not None}
        self.numbers = {row: number for number, row in reversed(list(enumerate(rows, 1)))}
        self.missing = [row for row in dict.fromkeys(rows) if row not in self.results]
        self.unwritten = list(reversed(self.missing))
        self.failures = set()
        self.done = 0
        self.under_way = {}
        self.is_stopped = False
        self.lock = threading.Lock()
        self.file = None
        self.progress = Progress(progress)

    @property
    def failed(self):
        """How many runs failed."""
        return len(self.failures)

    def tell(self, words):
        """Writes a line on standard error, and the progress behind it where that is told."""
        if words:
            self.progress.clear()
            print(words, file=sys.stderr)
        if self.done < len(self.missing):
            failed = f", {self.failed} failed" if self.failed else ""
            share = (self.done + sum(self.under_way.values())) / len(self.missing)
            self.progress.tell(lambda: self.progress.line(self.done, share, f"of {len(self.missing):,} runs{failed}"))

    def is_at(self, row, share):
        """Of a run which share of it is done, where that is known. Where all was broken off it ends."""
        if self.is_stopped:
            raise Failure("broken off")
        with self.lock:
            self.under_way[row] = share

    def one(self, row):
        """Runs one row, unless all was broken off."""
        if self.is_stopped:
            return
        try:
            found, words = self.run(row), None
        except Failure as why:
            found, words = None, f"{named(self.columns, self.numbers[row], row)}: {why}"
        with self.lock:
            self.under_way.pop(row, None)
            if found is None and self.is_stopped:
                return
            self.done += 1
            if found is None:
                self.failures.add(row)
            else:
                self.results[row] = found
            self.add(row)
            self.tell(words)

    def add(self, row):
        """Writes a row that has ended to the file, or on standard output those whose turn has come."""
        if self.path is not None:
            if row in self.results:
                self.file.write(csv_row(row + self.results[row]))
                self.file.flush()
            return
        while self.unwritten and (self.unwritten[-1] in self.results or self.unwritten[-1] in self.failures):
            first = self.unwritten.pop()
            if first in self.results:
                self.file.write(csv_row(first + self.results[first]))
        self.file.flush()

    def store(self):
        """Writes all results: those of the rows in their order, then others that stood there."""
        rows = sorted(self.results, key=lambda row: self.numbers.get(row, len(self.numbers) + 1))
        with open(self.path + ".new", "w", newline="", **TEXT) as file:
            file.write(csv_row(self.columns + self.found))
            file.writelines(csv_row(row + self.results[row]) for row in rows)
        os.replace(self.path + ".new", self.path)

    def run_missing(self, jobs, program):
        """Runs what is missing, so many rows at a time. Where that is broken off, what runs is ended."""
        pool = concurrent.futures.ThreadPoolExecutor(jobs)
        try:
            for one in [pool.submit(self.one, row) for row in self.missing]:
                self.wait_for(one)
        except BaseException:
            self.is_stopped = True
            pool.shutdown(wait=False, cancel_futures=True)
            program.end()
            raise
        finally:
            self.progress.clear()
            pool.shutdown()

    def wait_for(self, one):
        """Waits for the end of a row's run, and tells of progress meanwhile."""
        while True:
            try:
                return one.result(timeout=0.5)
            except concurrent.futures.TimeoutError:
                with self.lock:
                    self.tell(None)

    def run_all(self, jobs, program):
        """Runs what is missing and stores all results in their order."""
        if self.path is None:
            self.file = sys.stdout
            self.file.write(csv_row(self.columns + self.found))
            self.run_missing(jobs, program)
        else:
            self.store()
            with open(self.path, "a", newline="", **TEXT) as self.file:
                self.run_missing(jobs, program)
            self.store()
        self.tell(f"{len(self.missing)} of {len(self.numbers)} rows run, {self.failed} failed")


def begin(main, words):
    """The status of a script whose `main` takes these words: 1 where it refuses, 2 where words are wrong, 130 where it is broken off."""
    if signal.getsignal(signal.SIGINT) is signal.SIG_DFL:
        signal.signal(signal.SIGINT, signal.default_int_handler)
    for stream in (sys.stdout, sys.stderr):
        stream.reconfigure(errors="surrogateescape")
    try:
        status = main(words)
        sys.stdout.flush()
        return status
    except OSError as why:
        leave_output()
        print(f"{why.filename}: {why.strerror}" if why.filename is not None else f"{why.strerror or why}", file=sys.stderr)
        return 1
    except (Refusal, Failure) as why:
        leave_output()
        print(why, file=sys.stderr)
        return 1
    except PcmError as why:
        leave_output()
        print(why, file=sys.stderr)
        return 2 if isinstance(why, UsageError) else 1
    except KeyboardInterrupt:
        leave_output()
        print("broken off; what was written is kept", file=sys.stderr)
        return 130


def leave_output():
    """Hands on what standard output takes, and what it doesn't take nowhere, so that its end needs no more words."""
    try:
        sys.stdout.flush()
    except OSError:
        os.dup2(os.open(os.devnull, os.O_WRONLY), sys.stdout.fileno())


def add_words(parser, here, jobs=1, told="1"):
    """The words that all such scripts have; so many runs, told so, go on at a time where none says it."""
    parser.add_argument("--jobs", type=int, default=jobs, metavar="N", help=f"how many runs go on at a time ({told})")
    parser.add_argument("--pcm", default=os.path.join(here, "..", "pcm"), metavar="PROGRAM", help="the program (pcm beside examples)")
    parser.add_argument(
        "--progress", action="store_true", default=None, help="tell how far it is, also where standard error isn't a terminal",
    )


def examine(parser, options):
    """Those words are in range, and the program is found from anywhere."""
    if options.jobs < 1:
        parser.error("--jobs is at least 1")
    if os.sep in options.pcm:
        options.pcm = os.path.abspath(options.pcm)
