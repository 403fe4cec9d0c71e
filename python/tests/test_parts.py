"""Tests of runs in parts: they print what one stream prints, both passes do the same, and faults are told and mended."""
import contextlib
import fcntl
import io
import os
import pathlib
import shutil
import struct
import subprocess
import sys
import tempfile
import threading
import unittest
from unittest import mock

HERE = pathlib.Path(__file__).resolve().parent
sys.path[:0] = [str(HERE.parent), str(HERE)]
import leaks  # noqa: E402
import pcm  # noqa: E402
from pcm import joining, parting, playing  # noqa: E402
from pcm.parted import Asked, Folder, Split, part_of  # noqa: E402
from pcm.words import TOLD  # noqa: E402

HEADER = "tick,op,arg,data\n"
SHAPE = ["--banks", "8", "--regions", "1", "--lines", "16"]
DRAWN = [*SHAPE, "--input", "drawn", "--rows", "2000", "--cuts", "3", "--seed", "5", "--lo", "10", "--hi", "90", "--registers", "array"]
# Of the module above, without its registers in the array.
NUMBERS = ["8", "1", "16", "0", "64"]
DATA = "ab" * 64


def called(words, given=b""):
    """The status of a process over bytes or a file, what it prints and what it says."""
    how = {"input": given} if isinstance(given, bytes) else {"stdin": given}
    done = subprocess.run(words, **how, stdout=subprocess.PIPE, stderr=subprocess.PIPE, check=False)
    return done.returncode, done.stdout, done.stderr.decode()


def stream(*words, given=b""):
    return called([*pcm.command("stream"), *words], given)


def handed(pipe, given):
    with contextlib.suppress(BrokenPipeError), open(pipe, "wb") as file:
        file.write(given)


def parts(*words, given=b"", **more):
    """The command's status, what it prints and what it says, where a pipe is its standard input."""
    reads, writes = os.pipe()
    said, handing, kept = io.StringIO(), threading.Thread(target=handed, args=(writes, given)), os.dup(0)
    with tempfile.TemporaryFile() as out, mock.patch.dict(os.environ, more), mock.patch("signal.signal"):
        os.dup2(reads, 0)
        os.close(reads)
        handing.start()
        text = io.TextIOWrapper(out)
        try:
            with contextlib.redirect_stdout(text), contextlib.redirect_stderr(said):
                status = parting.main([str(word) for word in words])
            text.flush()
            out.seek(0)
            return status, out.read(), said.getvalue()
        finally:
            text.detach()
            os.dup2(kept, 0)
            os.close(kept)
            handing.join()


def setUpModule():
    """Every call has its passes built: here a compiler is first that was asked once."""
    leaks.setUpModule()
    compiler = shutil.which("cc")
    if compiler is not None:
        folder = tempfile.TemporaryDirectory()
        unittest.addModuleCleanup(folder.cleanup)
        built, script = f"{folder.name}/parts", pathlib.Path(folder.name, "cc")
        subprocess.run([compiler, "-O2", "-o", built, f"{HERE.parent}/pcm/parts.c"], check=True)
        script.write_text(f'#!/bin/sh\ncp {built} "$3"\n', encoding="ascii")
        script.chmod(0o755)
        unittest.addModuleCleanup(os.environ.__setitem__, "PATH", os.environ["PATH"])
        os.environ["PATH"] = f"{folder.name}:{os.environ['PATH']}"


tearDownModule = leaks.tearDownModule


class Room(unittest.TestCase):
    def setUp(self):
        folder = tempfile.TemporaryDirectory()
        self.addCleanup(folder.cleanup)
        self.room = pathlib.Path(folder.name)

    def file(self, name, text):
        (self.room / name).write_bytes(text if isinstance(text, bytes) else text.encode())
        return self.room / name

    def drawn(self, *words):
        """A trace in a file."""
        words = words or ("--rows", "2000", "--cuts", "3", "--step", "7")
        status, text, said = called([*pcm.command("gen"), *SHAPE, *words])
        self.assertEqual((0, ""), (status, said))
        return self.file("trace.csv", text)

    def refused(self, status, line, *words, **how):
        self.assertEqual((status, b"", f"parts: {line}\n"), parts(*words, **how))


class AsOneStream(Room):
    def test_each_print_and_each_end(self):
        for at, kind in enumerate(("rows", "summary", "wear", "lines", "energy", "map", "image", "rows")):
            for end, more in (("drain", "off")[at % 2], []), (("off", "drain")[at % 2], ["--python"]):
                words = [*DRAWN, "--print", kind, "--end", end]
                with self.subTest(kind=kind, end=end, more=more):
                    self.assertEqual(stream(*words), parts("--jobs", 3, *more, *words))

    def test_what_settles_and_is_asked(self):
        rows = [f"{7 * at},{'RW'[at % 2]},{at * 5 % 128},{DATA * (at % 2)}" for at in range(200)]
        for at, op in enumerate("SQLSQLQC"):
            rows.insert(20 * at + 9, f"{rows[20 * at + 8].split(',')[0]},{op},,")
        given = (HEADER + "\n".join(rows)).encode()
        for more in ([], ["--tell", "shape"], ["--registers", "array"], ["--end", "off"], ["--line", "128"]):
            words = [*SHAPE, *more]
            text = given.replace(DATA.encode(), (2 * DATA).encode()) if "128" in more else given
            with self.subTest(more=more):
                wanted = stream(*words, given=text)
                self.assertEqual("", wanted[2])
                self.assertEqual(wanted, parts("--parts", 8, *words, given=text))
                self.assertEqual(wanted, parts("--python", "--parts", 3, *words, given=text))

    def test_a_large_module(self):
        words = ["--banks", "64", "--regions", "2", "--lines", "1024", "--input", "drawn", "--rows", "3000", "--cuts", "2"]
        for kind in ("image", "map", "lines"):
            more = ["--skip", "unpulsed"] if kind == "lines" else []
            self.assertEqual(stream(*words, "--print", kind, *more), parts("--jobs", 5, *words, "--print", kind, *more))

    def test_one_part_and_few_rows(self):
        for text in ("", "3,R,1,\n", "3,C,,\n", "3,S,,\n", "3,C,,\n4,S,,\n"):
            for end in ("drain", "off"):
                given = (HEADER + text).encode()
                with self.subTest(text=text, end=end):
                    wanted = stream(*SHAPE, "--end", end, given=given)
                    self.assertEqual(wanted, parts("--parts", 1 if end == "off" else 8, *SHAPE, "--end", end, given=given))

    def test_rows_by_their_numbers(self):
        head, *rows = stream(*DRAWN)[1].splitlines(keepends=True)
        wanted = head + b"".join(sorted(rows, key=lambda row: int(row.split(b",")[0])))
        for more in ([], ["--python"]):
            self.assertEqual(wanted, parts("--order", "number", "--parts", 5, *more, *DRAWN)[1])

    def test_a_trace_in_a_file_from_a_file_and_from_a_pipe(self):
        trace = self.drawn()
        wanted = stream(*SHAPE, given=trace.read_bytes())
        self.assertEqual(wanted, parts(trace, *SHAPE))
        self.assertEqual(wanted, parts("-", *SHAPE, given=trace.read_bytes()))
        with open(trace, "rb") as file:
            started = [sys.executable, "-B", "-m", "pcm", "parts", *SHAPE]
            done = subprocess.run(started, stdin=file, stdout=subprocess.PIPE, env={**os.environ, "PYTHONPATH": str(HERE.parent)}, check=False)
        self.assertEqual(wanted[:2], (done.returncode, done.stdout))

    def test_a_trace_that_is_not_plain(self):
        rows = f'\ufeff"tick",op,arg,data\r\n\r\n1,W,"3",{DATA}\r2,R,3,\n\n9,"C",,\n'.encode()
        wanted = stream(*SHAPE, given=rows)
        self.assertEqual((0, ""), (wanted[0], wanted[2]))
        self.assertEqual(wanted, parts(self.file("quoted", rows), *SHAPE))
        self.assertEqual(wanted, parts("--python", *SHAPE, given=rows))

    @unittest.skipUnless(shutil.which("cc"), "there is no cc here")
    def test_a_pipe_that_is_not_plain(self):
        why = "the trace isn't of the plain form that is read fast (quotes, empty lines, a mark); --python reads any"
        self.refused(3, why, *SHAPE, given=f'{HEADER}"1",R,3,\n'.encode())


class Passes(Room):
    """What the passes in C write and in Python."""

    def setUp(self):
        super().setUp()
        built = playing.passes(True)
        words = built.__enter__()
        self.addCleanup(built.__exit__, None, None, None)
        self.both = [words, playing.plain_passes()]

    def test_they_split_alike(self):
        rows = [f"{at},M,{at},{'..' * 63}0A\r\n{at},W,{at},{DATA}\n{at},S,,\n{at},R,00{at},\n" for at in range(100)]
        trace = (HEADER + "".join(rows) + "200,C,,\n200,Q,,").encode()
        pieces = [["--piece", "2", str(begin), str(end)] for begin, end in ((0, 17), (17, trace.index(b"50,M")), (trace.index(b"50,M"), len(trace)))]
        cases = [([], trace), (["--off"], trace), (["--off"], trace[:-8]), ([], HEADER.encode()), *((it, trace) for it in pieces)]
        for words, given in cases:
            found = []
            for at, one in enumerate(self.both):
                (self.room / str(at)).mkdir(exist_ok=True)
                to = f"{self.room}/{at}/"
                source = self.file("given", given)
                with open(source, "rb") as file:
                    told = called([*one, "split", *words, "--index", f"{to}index.", *NUMBERS, "0-1,2-3,4-5,6-6,7-7", f"{to}trace."], file)
                self.assertEqual((0, ""), (told[0], told[2]))
                found.append((told, {it.name: it.read_bytes() for it in (self.room / str(at)).iterdir()}))
            self.assertEqual(*found)

    def test_they_draw_alike_what_is_split(self):
        index = self.room / "index"
        for words in ("7,500,50,9,30,5", "7,400,100,0,3,0", "7,300,0,299,0,200", "7,300,30,5,1,1"):
            rows, percent, cuts, step, hot = words.split(",")[1:]
            options = ["--seed", "7", "--rows", rows, "--write-percent", percent, "--cuts", cuts, "--step", step, "--hot", hot]
            trace = called([*pcm.command("gen"), *SHAPE, *options])[1]
            for off in ([], ["--off"]):
                ranges = ["0-2,3-3,4-7", f"{self.room}/trace."]
                called([*self.both[0], "split", *off, "--index", f"{self.room}/index.", *NUMBERS[:3], "7", "64", *ranges], trace)
                for part, banks in enumerate(("0-2", "3-3", "4-7")):
                    wanted = (self.room / f"trace.{part}.0").read_bytes(), (self.room / f"index.{part}.0").read_bytes()
                    for one in self.both:
                        drawn = called([*one, "draw", *off, "--index", str(index), f"{words},128,64", "8", banks])
                        self.assertEqual((0, *wanted, ""), (drawn[0], drawn[1], index.read_bytes(), drawn[2]))

    def test_they_name_the_fault_that_a_stream_names(self):
        good = f"1,R,3,\n2,W,4,{DATA}\n"
        faults = [
            "5,R,3", "5,R,3,,", "x,R,3,", ",R,3,", "1099511627777,R,3,", "00000000000005,R,3,", "1,R,3,", "5,X,3,", "5,,3,", "5,RR,3,",
            "5,R,128,", "5,R,,", "5,R,x,", "5,R,000003,", "5,R,3,00", "5,W,3,", f"5,W,3,{DATA}0", f"5,W,3,{DATA[1:]}g", f"5,M,3,{'.' * 128}",
            f"5,M,3,{'.0' * 64}", "5,C,1,", "5,C,,1", "5,S,1,", "5,Q,,1", "5,L,1,1", "5", "-5,R,3,", "5,R,-3,", "5 ,R,3,", "5,r,3,",
        ]
        texts = [*(HEADER + good + fault for fault in faults), "", "tick,op,arg\n", "tick,op,arg,data,\n", f"x{HEADER}", good]
        for number, text in enumerate(texts):
            wanted = stream(*SHAPE, given=text.encode())
            self.assertEqual(3, wanted[0], text)
            # (each is slow in Python)
            for one in self.both if number % 3 == 0 else self.both[:1]:
                found = called([*one, "split", *NUMBERS, "0-3,4-7", f"{self.room}/trace."], text.encode())
                self.assertEqual((3, wanted[2]), (found[0], found[2]), (text, one[-1]))
            # (rows before the last ones are looked at in another way)
            tail = "\n" + "9,R,3,\n" * 99 if text.startswith(HEADER) else ""
            found = called([*self.both[0], "split", *NUMBERS, "0-3,4-7", f"{self.room}/trace."], (text + tail).encode())
            self.assertEqual((3, wanted[2]), (found[0], found[2]), text)

    def test_numbers_beyond_those_of_a_stream(self):
        many = 9 * 2**32 + 5
        record = struct.Struct("<QII").pack
        passed = [record(7, 0, 2**32 - 1)] * (many // (2**32 - 1))
        # (a read of line 9 in bank 2 at tick 3, behind so many rows; a settle at tick 4; a cut at 5)
        left = many % (2**32 - 1)
        rows = [record(3 << 9 | 2 << 3, 9, left + 1), record(4 << 9 | 3, 0, 0), record(5 << 9 | 2, 0, 1)]
        index = self.file("index", b"".join([*passed, *rows]))
        told = f"{TOLD}\n1,read,4,7,00\n,settled,4,,\n2,cut,5,,\n".encode()
        wanted = f"{TOLD}\n{many + 1},read,4,7,00\n,settled,4,,\n{many + 2},cut,5,,\n".encode()
        for one in self.both:
            status, placed, said = called([*one, "place", "0-7", str(index)], told)
            self.assertEqual((0, ""), (status, said))
            self.assertEqual((0, wanted, ""), called([*one, "merge", "8", "0", str(self.file("placed", placed))]))

    def splitters_behind(self, rows):
        """The words that start both splitters as though so many rows had come."""
        source = f'#define main plain\n#include "{HERE.parent}/pcm/parts.c"\n#undef main\n'
        source += f"int main(int count, char **words) {{ whole.rows = {rows}u; return plain(count, words); }}\n"
        program = f"import sys; sys.path.insert(0, {str(HERE.parent)!r})\nfrom pcm import partwise\nbegin = partwise._Splitter.__init__\n"
        program += f"def behind(self, *words):\n    begin(self, *words)\n    self.rows = {rows}\npartwise._Splitter.__init__ = behind\n"
        program += "sys.exit(partwise.main(sys.argv[1:]))\n"
        built = self.room / "behind"
        compiler = shutil.which("gcc") or shutil.which("clang")
        if compiler:
            subprocess.run([compiler, "-O1", "-o", built, self.file("behind.c", source)], check=True)
        return [*([[str(built)]] if compiler else []), [sys.executable, "-B", str(self.file("behind.py", program))]]

    def test_a_splitter_numbers_rows_beyond_those_of_a_stream(self):
        many = 9 * 2**32 + 5
        trace = f"{HEADER}3,R,9,\n4,S,,\n4,R,9,\n5,C,,\n".encode()
        told = f"{TOLD}\n1,read,4,7,00\n,settled,4,,\n2,read,5,7,00\n3,cut,5,,\n".encode()
        wanted = f"{TOLD}\n{many + 1},read,4,7,00\n,settled,4,,\n{many + 2},read,5,7,00\n{many + 3},cut,5,,\n".encode()
        for splitter in self.splitters_behind(many):
            words = [*splitter, "split", "--index", f"{self.room}/index.", *NUMBERS, "0-7", f"{self.room}/trace."]
            self.assertEqual((0, f"part 0 3\nrows {many + 3}\n".encode(), ""), called(words, trace))
            self.assertEqual((3, b"", f"trace row {many + 2}: order\n"), called(words, f"{HEADER}3,R,9,\n1,R,9,\n".encode()))
            called(words, trace)
            for one in self.both:
                placed = called([*one, "place", "0-7", f"{self.room}/index.0.0"], told)
                self.assertEqual((0, ""), (placed[0], placed[2]))
                self.assertEqual((0, wanted, ""), called([*one, "merge", "8", "0", str(self.file("placed", placed[1]))]))

    def test_looks_are_joined(self):
        looks = ["10 7 0 1 30 5 6", f"{2**64 - 5} 9 0 2 31 5 6"]
        texts = [f"{at:016x}40{at + 1},cut,5,,\n{9:016x}80,wear,6,,{look}\n" for at, look in enumerate(looks)]
        files = [self.file("0", f"{texts[0]}{9:016x}81,settled,6,,\n"), self.file("1", texts[1])]
        wanted = f"1,cut,5,,\n2,cut,5,,\n,wear,6,,{2**64 - 1} 9 {(2**64 - 1) // 100} 3 53 10 12\n,settled,6,,\n".encode()
        for one in self.both:
            self.assertEqual((0, wanted, ""), called([*one, "merge", "100", "4", *map(str, files)]))

    def test_rows_of_another_part_are_refused(self):
        index = self.file("index", struct.pack("<QII", 3 << 9, 9, 1))
        line = "the rows aren't those of a stream of this part\n"
        for told in ("", "row,outcome\n", f"{TOLD}\n2,read,4,7,00\n", f"{TOLD}\n1\n", f"{TOLD}\nx,read,4,7,\n", f"{TOLD}\n,settled,3,,\n", f"{TOLD}\n1,read,x,7,\n"):
            for one in self.both:
                found = called([*one, "place", "0-7", str(index)], told.encode())
                self.assertEqual((3, line), (found[0], found[2]), (told, one[-1]))

    def test_what_cannot_be_read_or_written(self):
        for one in self.both:
            with self.subTest(one=one[-1]):
                missing = str(self.room / "none")
                self.assertEqual((4, f"{missing}: No such file or directory\n"), called([*one, "merge", "1", "0", missing])[::2])
                found = called([*one, "split", *NUMBERS, "0-3,4-7", f"{self.room}/none/trace."], HEADER.encode())
                self.assertEqual(f"{self.room}/none/trace.0.0: No such file or directory\n", found[2])
                self.assertIn(found[0], (4, 5))
                file = self.file("one", f"{0:018x}{'x' * 200000}\n")
                with open("/dev/full", "wb") as full:
                    done = subprocess.run([*one, "merge", "1", "0", str(file)], stdout=full, stderr=subprocess.PIPE, check=False)
                self.assertEqual((5, b"standard output: No space left on device\n"), (done.returncode, done.stderr))


class Words(Room):
    def test_what_is_not_played_in_parts(self):
        self.refused(
            2, "--print snapshots isn't played in parts: snapshots are due by the numbers of rows of the whole trace, which no part knows; "
            "a look, tick,L,,, is joined", "--print", "snapshots",
        )
        self.refused(
            2, "--until refused isn't played in parts: which row is the first that is refused of all no part knows", "--until=refused",
        )
        line = "trace row 2: a settle until ends at a tick that one bank decides for all: such a trace isn't split"
        for more in ([], ["--python"]):
            self.refused(3, line, *more, given=f"{HEADER}1,R,3,\n5,U,1,\n".encode())

    def test_wrong_words(self):
        for line, *words in (
            ("--bank is no option of stream (did you mean --banks?)", "--bank", "2"),
            ("--psi 0: it may be 1 to 65535", "--psi", "0"),
            ("--jobs 0: it may be 1 to 1024", "--jobs", "0"),
            ("--jobs x: it may be 1 to 1024", "--jobs=x"),
            ("--parts 5: it may be 1 to 4", "--parts", "5"),
            ("--parts stands twice", "--parts", "2", "--parts", "2"),
            ("--parts lacks its value", "--parts"),
            ("one trace is wanted, and a and b are two", "a", "b"),
            ("a: with --input drawn no trace is read", "a", "--input", "drawn"),
            ("--rows 9999999999: it may be 1 to 4000000000", "--rows", "9999999999"),
            ("--rows times --step is 5000000000000: it may be at most 1099511627776", "--input", "drawn", "--rows", "5000000000", "--step", "1000"),
            ("--banks 5: it may be 1, 2, 4, 8, 16, 32 or 64", "--input", "drawn", "--rows", "5000000000", "--banks", "5"),
            ("--step stands twice", "--input", "drawn", "--rows=5000000000", "--step", "1", "--step", "2"),
            ("--order up: it may be number or stream", "--order", "up"),
            ("--order belongs to --print rows alone", "--order", "number", "--print", "wear"),
            ("--split wants --folder", "--split"),
            ("--part wants --folder", "--part", "1"),
            ("--split and --missing are two things to do", "--split", "--missing", "--folder", "f"),
        ):
            with self.subTest(words=words):
                self.refused(2, line, *words)

    def test_a_fault_is_told_with_its_line(self):
        trace = self.file("trace", f"{HEADER}1,R,3,\n5,R,4,\n\n3,R,5,\n")
        self.refused(3, "line 5: its tick 3 is below 5, the tick of the row before (line 3) (trace row 3: order)", trace, *SHAPE)
        for more in ([], ["--folder", self.room / "folder"]):
            self.refused(3, "trace row 2: payload", *more, *SHAPE, given=f"{HEADER}1,R,3,\n1,R,4,00\n".encode())

    def test_files_that_are_not_there(self):
        self.refused(4, f"{self.room}/none: No such file or directory", self.room / "none")
        self.refused(4, f"{self.room}/none: no trace was split there", "--folder", self.room / "none", "--part", "1")
        self.refused(4, f"{self.room}/none: no trace was split there", "--folder", self.room / "none", "--missing")

    def test_standard_files_that_are_closed(self):
        started = f"{sys.executable} -B -m pcm parts {' '.join(SHAPE)}"
        for closed, status, line in ("<&-", 4, "parts: standard input: Bad file descriptor\n"), (">&-", 5, "parts: standard output is closed\n"):
            done = subprocess.run(
                f"{started} {closed}", shell=True, stdin=subprocess.DEVNULL, capture_output=True, text=True, cwd=HERE.parent, check=False,
            )
            self.assertEqual((status, "", line), (done.returncode, done.stdout, done.stderr))

    def test_help(self):
        status, told, _ = parts("--help")
        self.assertEqual((0, b"One run on several processors"), (status, told[:29]))


class Folders(Room):
    """A folder in which parts stay."""

    def setUp(self):
        super().setUp()
        self.trace, self.folder = self.drawn(), self.room / "folder"
        self.words = ["--folder", self.folder, *SHAPE, self.trace]
        self.wanted = stream(*SHAPE, given=self.trace.read_bytes())

    def standing(self, *words):
        """A program of streams that notes each call in a file, behind these lines of a shell."""
        script = self.file("standing", "\n".join([
            "#!/bin/sh", f"echo >> {self.room}/calls", *words, f'exec {" ".join(pcm.command("stream"))} "$@"',
        ]).replace('"$@"', '"$@"'))
        script.chmod(0o755)
        wrapper = self.file("wrapper", f'#!/bin/sh\nshift\nexec {script} "$@"\n')
        wrapper.chmod(0o755)
        return str(wrapper)

    def calls(self):
        """How many streams were started since the last look."""
        file = self.room / "calls"
        count = file.read_text().count("\n") if file.exists() else 0
        file.unlink(missing_ok=True)
        return count

    def test_what_stands_is_not_played_again(self):
        program = self.standing()
        self.assertEqual(self.wanted, parts(*self.words, PCM=program))
        self.assertEqual(8, self.calls())
        self.assertEqual(self.wanted, parts(*self.words, PCM=program))
        self.assertEqual(self.wanted, parts("--folder", self.folder, PCM=program))
        self.assertEqual(0, self.calls())

    def test_pieces_side_by_side(self):
        for pieces, more in ((2, []), (3, ["--python"]), (64, ["--end", "off"])):
            wanted = stream(*SHAPE, *(more if "--end" in more else ()), given=self.trace.read_bytes())
            folder = self.room / str(pieces)
            self.assertEqual(wanted, parts("--folder", folder, "--pieces", pieces, *more, *SHAPE, self.trace))
            self.assertTrue((folder / f"trace.7.{pieces - 1}").exists())
            self.assertEqual(wanted, parts("--folder", folder))
        few = self.file("few", HEADER + "1,R,3,\n")
        self.assertEqual(stream(*SHAPE, given=few.read_bytes()), parts("--folder", self.room / "rows", "--pieces", 64, *SHAPE, few))

    def test_faults_in_pieces(self):
        rows = [f"{at},R,{at},\n" for at in range(100)]
        for at, row, kind in ((7, "x,R,3,\n", "tick"), (50, "3,R,3,\n", "order"), (99, "200,R,3,0\n", "payload")):
            text = HEADER + "".join([*rows[:at], row, *rows[at + 1:]])
            wanted = stream(*SHAPE, given=text.encode())
            self.assertEqual((3, f"trace row {at + 1}: {kind}\n"), wanted[::2])
            for pieces in (1, 2, 5, 64):
                status, out, said = parts("--folder", self.room / f"{at}-{pieces}", "--pieces", pieces, *SHAPE, self.file("faulty", text))
                self.assertEqual((3, b""), (status, out))
                self.assertIn(f"(trace row {at + 1}: {kind})", said)
        quoted = self.file("quoted", (HEADER + "".join(rows)).replace("70,R,70,", '"70",R,70,'))
        wanted = stream(*SHAPE, given=quoted.read_bytes())
        self.assertEqual(wanted, parts("--folder", self.room / "quotes", "--pieces", 4, *SHAPE, quoted))

    def test_parts_one_by_one(self):
        self.assertEqual((0, b"", ""), parts("--split", *self.words))
        self.assertEqual((0, b"0,1,2,3,4,5,6,7\n", ""), parts("--folder", self.folder, "--missing"))
        for part in (3, 0, 3):
            self.assertEqual((0, b"", ""), parts("--folder", self.folder, "--part", part))
        self.assertEqual((0, b"1,2,4,5,6,7\n", ""), parts("--folder", self.folder, "--missing"))
        self.refused(2, f"--part 8: {self.folder} has 8 parts, from 0 on", "--folder", self.folder, "--part", 8)
        self.assertEqual(self.wanted, parts("--folder", self.folder))

    def test_a_part_that_is_killed(self):
        program = self.standing(f"if [ ! -e {self.room}/killed ]; then touch {self.room}/killed; kill -9 $$; fi")
        status, out, said = parts("--jobs", 1, *self.words, PCM=program)
        self.assertEqual((70, b"", "parts: part 0 was ended by signal 9\n"), (status, out, said))
        self.calls()
        self.assertEqual((0, b"0\n", ""), parts("--folder", self.folder, "--missing"))
        self.assertEqual(self.wanted, parts(*self.words, PCM=program))
        self.assertEqual(1, self.calls())

    def test_a_part_that_is_killed_in_the_middle(self):
        begin = f'if mkdir {self.room}/killed 2>/dev/null; then {" ".join(pcm.command("stream"))} "$@" | head -c 3000; kill -9 $$; fi'
        program = self.standing(begin)
        for words, wanted in ((self.words, self.wanted), (["--folder", self.room / "drawn", "--parts", 8, *DRAWN], stream(*DRAWN))):
            shutil.rmtree(self.room / "killed", ignore_errors=True)
            status, out, said = parts("--jobs", 1, *words, PCM=program)
            self.assertEqual((70, b"", "parts: part 0 was ended by signal 9\n"), (status, out, said))
            self.calls()
            self.assertEqual(wanted, parts(*words, PCM=program))
            self.assertEqual(1, self.calls())

    def passing(self, name):
        """A pass that breaks off once in its middle, where it is this one."""
        passes = f'{sys.executable} -IB {HERE.parent}/pcm/partwise.py "$@"'
        first = f'if [ "$1" = {name} ] && mkdir {self.room}/killed 2>/dev/null; then {passes} | head -c 2500; kill -9 $$; fi'
        script = self.file("passing", f"#!/bin/sh\n{first}\nexec {passes}\n")
        script.chmod(0o755)
        return mock.patch.object(playing, "plain_passes", lambda: [str(script)])

    def test_a_pass_that_is_killed_in_the_middle(self):
        folder = self.room / "drawn"
        for name in ("draw", "place"):
            program, words = self.standing(), ["--python", "--jobs", 1, "--folder", folder, *DRAWN, "--parts", 5]
            with self.passing(name):
                status, out, said = parts(*words, PCM=program)
            self.assertEqual((70, b"", "parts: part 0 was ended by signal 9\n"), (status, out, said))
            self.calls()
            self.assertEqual((0, b"0\n", ""), parts("--folder", folder, "--missing"))
            self.assertEqual(stream(*DRAWN), parts(*words, PCM=program))
            self.assertEqual(1, self.calls())
            self.assertEqual([], [it.name for it in folder.iterdir() if it.name.startswith("new")])
            shutil.rmtree(folder)
            (self.room / "killed").rmdir()

    def test_a_splitter_that_is_killed(self):
        for words in ([*SHAPE, self.trace], self.words):
            with self.passing("split"):
                self.refused(70, "the splitter was ended by signal 9", "--python", *words)
            (self.room / "killed").rmdir()
        self.assertEqual(self.wanted, parts(*self.words))

    def test_drawn_parts_one_by_one(self):
        for kind, most in (("rows", 8), ("summary", 3), ("wear", 8), ("energy", 8)):
            folder, words = self.room / kind, [*DRAWN, "--print", kind, "--parts", most]
            self.assertEqual((0, b"", ""), parts("--folder", folder, "--split", *words))
            self.assertEqual((0, b"", ""), parts("--folder", folder, "--part", 1))
            self.assertEqual(["done.1", "lock.1", "told.1"], sorted(it.name for it in folder.glob("*.1")))
            self.assertEqual((0, ",".join(str(it) for it in range(most) if it != 1).encode() + b"\n", ""), parts("--folder", folder, "--missing"))
            self.assertEqual(stream(*DRAWN, "--print", kind), parts("--folder", folder))
            program = self.standing()
            os.truncate(folder / "told.2", 5)
            self.assertEqual(stream(*DRAWN, "--print", kind), parts("--folder", folder, PCM=program))
            self.assertEqual(1, self.calls())

    def test_more_drawn_rows_than_a_stream_takes(self):
        words = ["--folder", self.folder, *SHAPE, "--input", "drawn", "--rows", 2**33, "--step", 0, "--print", "summary"]
        self.assertEqual((0, b"", ""), parts("--split", *words))
        program = self.standing('case "$*" in *--rows*) exit 2 ;; esac', "head -c 100000 > /dev/null", "echo out of memory >&2", "exit 7")
        status, out, said = parts("--folder", self.folder, "--part", 3, PCM=program)
        self.assertEqual((7, b"", "parts: part 3: status 7: out of memory\n"), (status, out, said))
        self.assertEqual(2**33, Split.drawn(Folder(self.folder).asked()).rows)

    def test_a_part_that_is_killed_on_the_way(self):
        program = self.standing(f"if mkdir {self.room}/killed 2>/dev/null; then kill -9 $$; fi")
        status, out, said = parts(*SHAPE, self.trace, PCM=program)
        self.assertEqual((70, b""), (status, out))
        self.assertRegex(said, r"^parts: part \d was ended by signal 9\n$")

    def test_a_stream_that_refuses(self):
        program = self.standing("echo out of memory >&2", "exit 7")
        for words in ([*SHAPE, self.trace], ["--jobs", 1, *self.words]):
            status, out, said = parts(*words, PCM=program)
            self.assertEqual((7, b""), (status, out))
            self.assertRegex(said, r"^parts: part \d: status 7: out of memory\n$")

    def test_files_that_are_cut_off(self):
        self.assertEqual(self.wanted, parts(*self.words))
        os.truncate(self.folder / "told.3", 100)
        self.assertEqual((0, b"3\n", ""), parts("--folder", self.folder, "--missing"))
        self.assertEqual(self.wanted, parts("--folder", self.folder))
        os.truncate(self.folder / "told.5", 100)
        os.truncate(self.folder / "trace.5.0", 100)
        line = f"{self.folder}/trace.5 isn't as it was split: call without --part, with the trace, to split it again"
        self.refused(4, line, "--folder", self.folder, "--part", 5)
        program = self.standing()
        self.assertEqual(self.wanted, parts("--folder", self.folder, PCM=program))
        self.assertEqual(1, self.calls())
        self.file("folder/asked", "{")
        self.refused(4, f"{self.folder}/asked isn't what a call wrote there: remove the folder", "--folder", self.folder)

    def test_two_at_once(self):
        parts("--split", *self.words)
        line = f"{self.folder}: another call is at work there"
        with open(self.folder / "lock", "ab") as lock:
            fcntl.flock(lock, fcntl.LOCK_SH)
            self.refused(5, line, *self.words)
            self.assertEqual((0, b"", ""), parts("--folder", self.folder, "--part", 2))
        with open(self.folder / "lock.3", "ab") as lock:
            fcntl.flock(lock, fcntl.LOCK_EX)
            self.refused(5, line, "--folder", self.folder, "--part", 3)
        self.assertEqual(self.wanted, parts(*self.words))

    def test_other_words_and_another_trace(self):
        parts("--split", *self.words)
        made = f"{self.folder} was made by other words: --banks 8 --regions 1 --lines 16 --parts 8"
        self.refused(2, made, "--folder", self.folder, "--banks", 4)
        self.refused(2, made, "--folder", self.folder, "--parts", 2)
        self.refused(2, made, "--folder", self.folder, "--order", "number")
        self.file("trace.csv", HEADER)
        other = f"{self.folder} was made of another trace, or {self.trace} has changed since: name another folder"
        self.refused(2, other, "--folder", self.folder)
        self.file("other/x" if (self.room / "other").mkdir() else "other/x", "")
        self.refused(2, f"{self.room}/other has other files: name a folder that is empty, or isn't there", "--folder", self.room / "other")

    def test_parts_of_another_trace_from_a_pipe(self):
        words = ["--folder", self.folder, *SHAPE]
        self.assertEqual(self.wanted, parts(*words, given=self.trace.read_bytes()))
        os.truncate(self.folder / "told.0", 1)
        os.truncate(self.folder / "trace.0.0", 1)
        other = f"{HEADER}1,R,3,\n".encode()
        self.refused(3, f"{self.folder} has parts of another trace: name another folder", *words, given=other)
        self.assertEqual(self.wanted, parts(*words, given=self.trace.read_bytes()))

    def test_standard_output_that_is_full_or_closed(self):
        for kind in ("rows", "summary", "image"):
            started = [sys.executable, "-B", "-m", "pcm", "parts", *SHAPE, str(self.trace), "--print", kind]
            environment = {**os.environ, "PYTHONPATH": str(HERE.parent)}
            with open("/dev/full", "wb") as full:
                done = subprocess.run(started, stdout=full, stderr=subprocess.PIPE, env=environment, check=False)
            self.assertEqual((5, b"parts: standard output: No space left on device\n"), (done.returncode, done.stderr))

    def test_what_a_killed_call_left_is_taken_away(self):
        parts("--split", *self.words)
        (self.folder / "new.3.77").write_text("half")
        self.assertEqual(self.wanted, parts(*self.words))
        self.assertEqual([], [it.name for it in self.folder.iterdir() if it.name.startswith("new")])


class Joining(unittest.TestCase):
    def test_reports_that_are_none(self):
        for work in (joining.energy, joining.image):
            with self.assertRaises(joining.NotAReport):
                work([io.BytesIO(b"")], io.BytesIO())
        with self.assertRaises(joining.NotAReport):
            joining.summary([io.BytesIO(b"")], io.BytesIO(), 3)
        with self.assertRaises(joining.NotAReport):
            joining.image([io.BytesIO(b"PCMIMG01" + bytes(9))], io.BytesIO())

    def test_sums_stay_at_the_greatest_number(self):
        text = f"rows 3\ncut 1\nretired 2\npulses {2**64 - 2}\n".encode()
        out = io.BytesIO()
        joining.summary([io.BytesIO(text), io.BytesIO(text)], out, 5)
        self.assertEqual(f"rows 5\ncut 1\nretired 4\npulses {2**64 - 1}\n".encode(), out.getvalue())


class Banks(unittest.TestCase):
    def test_each_bank_is_in_one_part(self):
        for banks in (1, 2, 4, 8, 16, 32, 64):
            for count in range(1, banks + 1):
                asked = Asked({"banks": str(banks)}, count, False)
                ranges = [list(map(int, asked.banks_of(part).split("-"))) for part in range(count)]
                found = [part for part, (first, last) in enumerate(ranges) for _ in range(first, last + 1)]
                self.assertEqual([part_of(bank, banks, count) for bank in range(banks)], found)
                self.assertLessEqual(max(map(found.count, found)) - min(map(found.count, found)), 1)


class PartStatus(Room):
    def test_a_part_is_done_once_all_it_told_is_there(self):
        folder = Folder(self.room)
        new = folder.forget_new(3)
        new.write_text("told")
        self.assertIsNone(folder.status(3))
        folder.note_done(3, 1, new)
        self.assertEqual((1, [0, 1, 2]), (folder.status(3), folder.missing(4)))
        folder.name("told", 3).write_text("tol")
        self.assertEqual([0, 1, 2, 3], folder.missing(4))


if __name__ == "__main__":
    unittest.main()
