#!/usr/bin/env python3
"""Tests of cut-firmware, which the environment's CUT_FIRMWARE names, over the program that PCM names: altered images of the log, words that it
refuses, and what it says of each."""
import csv
import io
import os
import pathlib
import random
import struct
import subprocess
import tempfile
import unittest

HERE = pathlib.Path(__file__).resolve().parent
TOOL = os.path.realpath(os.environ.get("CUT_FIRMWARE", HERE / "out" / "cut-firmware"))
MODULE = "--banks 2 --regions 1 --lines 16 --misses 3 --psi 16 --bytes 1024".split()
PLAIN = (HERE / "images" / "RIGHT.elf").read_bytes()


def said(*words, **more):
    """The status of a call, and what it printed on both."""
    done = subprocess.run([TOOL, *map(str, words)], stdout=subprocess.PIPE, stderr=subprocess.PIPE, timeout=300, check=False, **more)
    return done.returncode, done.stdout.decode("ascii"), done.stderr.decode(errors="replace")


class Altered:
    """The log's image with other bytes; its flash begins at address 0."""

    def __init__(self):
        self.bytes = bytearray(PLAIN)
        head = struct.unpack_from("<I", PLAIN, 28)[0]
        self.flash = struct.unpack_from("<I", PLAIN, head + 4)[0]
        self.reset = struct.unpack_from("<I", PLAIN, self.flash + 4)[0] & ~1

    def put(self, at, form, *numbers):
        """Numbers at a place of the file."""
        struct.pack_into("<" + form, self.bytes, at, *numbers)
        return self

    def runs(self, *halves):
        """This code from reset on, which stands at a multiple of four; a word may stand behind it."""
        nops = (self.reset + 3) // 4 * 4 - self.reset
        self.put(self.flash + self.reset, f"{nops // 2}H", *[0xBF00] * (nops // 2))
        return self.put(self.flash + self.reset + nops, f"{len(halves)}H", *halves)

    def accesses(self, address, *code):
        """Code behind one that puts an address into r0, with four bytes: nothing follows it."""
        code = [*code, 0xE7FE]
        code += [0xBF00] * (len(code) % 2 == 0)
        return self.runs(0x4800 + (len(code) - 1) // 2, *code, address & 0xFFFF, address >> 16)


class Firmware(unittest.TestCase):
    def setUp(self):
        room = tempfile.TemporaryDirectory()
        self.addCleanup(room.cleanup)
        self.room = pathlib.Path(room.name)

    def file(self, data, name="it.elf"):
        path = self.room / name
        path.write_bytes(bytes(data))
        return path

    def tried(self, image, *words):
        return said(self.file(image.bytes), *MODULE, "--powerloss", "none", "--limit", "1000000", *words)

    def is_wrong(self, image, why):
        status, out, err = self.tried(image)
        self.assertIn(f"without a cut: {why}", out)
        self.assertEqual((status, err), (1, ""))

    def is_refused(self, image, why):
        status, out, err = self.tried(image)
        self.assertEqual((status, out, err), (2, "", f"cut-firmware: {self.room}/it.elf: {why}\n"))

    def test_what_a_firmware_does_wrong_without_a_cut(self):
        end, say = 0x40000014, 0x40000010
        self.is_wrong(Altered().runs(0xE7FE), "hangs: no end within 1000000 instructions, at reset start.c:")
        self.is_wrong(Altered().runs(0xBF30, 0xE7FE), "no report: the processor sleeps, at reset start.c:")
        self.is_wrong(Altered().runs(0xDE00), "crashes: ")
        self.is_wrong(Altered().runs(0xDF00), "crashes: ")
        self.is_wrong(Altered().accesses(0x90000000, 0x6801), "crashes: it reads at 90000000, where the board has nothing, at reset")
        self.is_wrong(Altered().accesses(0x00000100, 0x6001), "crashes: it stores at 00000100, where the board has nothing, at reset")
        self.is_wrong(Altered().accesses(0x60000401, 0x4700), "crashes: it runs at 60000400, where the board has nothing")
        self.is_wrong(Altered().accesses(0x60000400, 0x6001), "crashes: it stores at 60000400, behind the non-volatile memory")
        self.is_wrong(Altered().accesses(0x600003FE, 0x6801), "crashes: it reads at 60000400, behind the non-volatile memory")
        self.is_wrong(Altered().accesses(0x4000000C, 0x2105, 0x6001), "out of turn: it acknowledges operation 5, where 0 is next")
        self.is_wrong(Altered().accesses(end, 0x2100, 0x6001), "unfinished: it ends behind 0 of 16 operations")
        self.is_wrong(Altered().accesses(end, 0x2107, 0x6001), "wrong: the firmware ends with 7")
        self.is_wrong(Altered().accesses(say, 0x2141, 0x6001, 0x6041), "A")
        self.is_wrong(Altered().accesses(say, 0x2107, 0x6001, 0x6041), "?")

    def test_words_without_an_end_are_cut_off(self):
        status, out, _ = self.tried(Altered().accesses(0x40000010, 0x2141, 0x6001, 0xE7FD))
        self.assertEqual(status, 1)
        self.assertIn("hangs", out)
        self.assertLess(len(out), 1000)

    def test_an_access_over_the_end_of_a_line_is_two(self):
        # stores a word at 3e, and reads it back: the end is 0 where it is the same; no operation was asked for
        image = Altered().accesses(0x6000003E, 0x21A5, 0x0209, 0x315A, 0x6001, 0x6802, 0x1A51, 0x2340, 0x061B, 0x6159)
        status, out, _ = self.tried(image, "--operations", "0")
        self.assertEqual(status, 0, out)
        self.assertIn(" rows, ", out)
        status, out, _ = said(self.file(image.bytes), *MODULE, "--operations", "0")
        self.assertEqual(status, 0, out)

    def test_what_is_no_image_of_a_cortex_m(self):
        self.is_refused(Altered().put(0, "B", 0), "it is no ELF file: a raw image has neither addresses nor lines")
        self.is_refused(Altered().put(18, "H", 62).put(4, "B", 2), "it is for another processor (x86-64, 64 bits): the board has a Cortex-M")
        self.is_refused(Altered().put(18, "H", 243), "it is for another processor (RISC-V): the board has a Cortex-M")
        self.is_refused(Altered().put(5, "B", 2), "it is for another processor (Arm, big endian): the board has a Cortex-M")
        self.is_refused(Altered().put(18, "H", 999), "it is for another processor (machine 999): the board has a Cortex-M")
        self.is_refused(Altered().put(16, "H", 1), "it isn't linked yet")
        self.is_refused(Altered().put(16, "H", 3), "it isn't linked to fixed addresses")
        self.is_refused(Altered().put(44, "H", 0), "it has no vectors: nothing is loaded")
        image = Altered()
        head = struct.unpack_from("<I", PLAIN, 28)[0]
        self.is_refused(image.put(head + 12, "I", 0x20000000), "its bytes at 20000000 aren't in flash (below 20000000): what stands elsewhere is lost with the power")
        image = Altered()
        self.is_refused(image.put(image.flash + 4, "I", 0x100), "its reset vector, 00000100, is no Thumb code in flash")
        self.is_refused(image.put(image.flash, "I", 0), "its first word, 00000000, is no stack in RAM (20000000 to 20040000): it has no vectors of a Cortex-M at 00000000")
        image = Altered()
        image.bytes = image.bytes[:60]
        self.is_refused(image, "it ends in its head: not a whole ELF file")

    def test_files_that_are_none(self):
        self.assertEqual(said("/nowhere/it.elf"), (2, "", "cut-firmware: /nowhere/it.elf: No such file or directory\n"))
        self.assertEqual(said(self.room), (2, "", f"cut-firmware: {self.room}: Is a directory\n"))
        self.assertEqual(said(self.file(b"")), (2, "", f"cut-firmware: {self.room}/it.elf: it is no ELF file: a raw image has neither addresses nor lines\n"))
        self.assertEqual(said("/dev/zero")[0], 2)

    def test_words_that_are_refused(self):
        image = HERE / "images" / "RIGHT.elf"
        for words, why in (
            (["--bus", "lose"], "--bus lose: it may be stall or drop"), (["--powerloss=log"], "--powerloss log: it may be none, linear, exhaustive or random"),
            (["--every", "0"], "--every 0: it may be 1 to 18446744073709551615"), (["--cuts", "x"], "--cuts x: it may be 1 to 1000000000"),
            (["--cuts", "-1"], "--cuts -1: it may be 1 to 1000000000"), (["--more"], "--more lacks its value"), (["--banks"], "--banks lacks its value"),
            (["--cpu", "avr"], "--cpu avr: it may be cortex-m0, cortex-m3, cortex-m4, cortex-m7 or cortex-m33"),
            (["--print", "rows"], "--print isn't asked for: it is this program's"), (["--end=off"], "--end isn't asked for: it is this program's"),
            (["other.elf"], f"other.elf: one image is tried, and {image} was named before"), (["--bytes", "4096", *MODULE[:6]], "--bytes 4096: the module has 2048"),
            (["--line", "128"], "--line 128: the board has lines of 64 bytes"), (["--pcm", "/nowhere/pcm"], "/nowhere/pcm: No such file or directory"),
            (["--library", "/nowhere/it.so"], "/nowhere/it.so: No such file or directory"), (["--table", "/nowhere/t"], "/nowhere/t: No such file or directory"),
            (["--psi", "0"], "the module's program ended with status 2"), (["--nothing", "0"], "the module's program ended with status 2"),
            (["--pcm", "false"], "the module's program ended with status 1"),
        ):
            status, out, err = said(image, *words)
            self.assertEqual((status, out, err.splitlines()[-1]), (2, "", f"cut-firmware: {why}"))
        self.assertEqual(said("--bus", "drop")[2], "cut-firmware: no image is named; --help tells more\n")
        self.assertEqual(said("--help")[0], 0)
        self.assertIn("--powerloss P", said()[1])

    def test_a_table_that_cannot_be_written(self):
        self.assertEqual(said(HERE / "images" / "RIGHT.elf", *MODULE, "--table", "/dev/full")[::2], (2, "cut-firmware: /dev/full: it can't be written\n"))

    def test_a_module_that_wears_out(self):
        status, _, err = said(HERE / "images" / "RIGHT.elf", *MODULE[:10], "--powerloss", "random", "--cuts", "300", "--lo", "20", "--hi", "30", "--spares", "0")
        self.assertEqual((status, err), (2, "cut-firmware: the module is worn out: a worn line found no spare\n"))

    def test_images_cut_off_anywhere(self):
        for size in range(0, len(PLAIN), 61):
            image = Altered()
            image.bytes = image.bytes[:size]
            self.assertIn(self.tried(image)[0], (0, 2), size)

    def test_images_of_any_bytes(self):
        """Heads, code, and tables of names and lines that are altered end in a verdict or a refusal, and soon."""
        draw = random.Random(7)
        for round_ in range(int(os.environ.get("ROUNDS", "150"))):
            image = Altered()
            at = draw.choice([0, 0, image.flash, 0x7C0, 0x7C0, len(PLAIN) - 600, draw.randrange(len(PLAIN))])
            for _ in range(draw.choice([1, 1, 3, 20])):
                image.bytes[min(at + draw.randrange(600), len(PLAIN) - 1)] = draw.choice([0, 1, 0x7F, 0x80, 0xFF, draw.randrange(256)])
            status, _, err = said(self.file(image.bytes), *MODULE, "--powerloss", draw.choice(["none", "linear"]), "--limit", "20000", "--every", "40")
            self.assertIn(status, (0, 1, 2), (round_, err))
            self.assertNotIn("Sanitizer", err)

    def table(self, image, *words):
        path = self.room / "table.csv"
        said(HERE / "images" / f"{image}.elf", *MODULE, *words, "--table", path)
        return list(csv.DictReader(io.StringIO(path.read_text())))

    def test_copies_tell_what_replays_tell(self):
        for words in (["--every", "7"], ["--cache", "8", "--every", "5"], ["--powerloss", "exhaustive", "--every", "41"]):
            by_copy = self.table("COMMIT_FIRST", *words)
            self.assertEqual(by_copy, self.table("COMMIT_FIRST", *words, "--by", "replay"))
            self.assertGreater(len(by_copy), 6)

    def test_cuts_at_each_access_tell_what_those_at_changes_tell(self):
        """A cut before a load leaves what one before the next change leaves."""
        for image in ("COMMIT_FIRST", "ACK_EARLY"):
            few = {(row["tick"], row["kind"]): row["verdict"] for row in self.table(image)}
            behind = None
            seen = 0
            for row in reversed(self.table(image, "--at", "access")):
                if (row["tick"], row["kind"]) in few:
                    behind = row["verdict"]
                    self.assertEqual(behind, few[row["tick"], row["kind"]])
                    seen += 1
                elif behind is not None:
                    self.assertEqual(row["verdict"], behind, row)
            self.assertEqual(seen, len(few))

    def test_a_program_that_cannot_be_copied_is_replayed(self):
        words = [HERE / "images" / "COMMIT_FIRST.elf", *MODULE, "--every", "9", "--show", "0"]
        status, out, err = said(*words, "--library", "/dev/null")
        self.assertEqual((status, out), said(*words)[:2])
        self.assertIn("cut-firmware: the program can't be copied (Operation not supported): its rows are played again for each cut\n", err)

    def test_a_library_whose_path_no_loader_takes_is_told(self):
        words = [HERE / "images" / "COMMIT_FIRST.elf", *MODULE, "--every", "40", "--show", "0"]
        library = self.room / "a folder" / "pcm_copy.so"
        library.parent.mkdir()
        library.write_bytes(pathlib.Path(TOOL).with_name("pcm_copy.so").read_bytes())
        status, out, err = said(*words, "--library", library)
        self.assertEqual((status, out), said(*words)[:2])
        self.assertEqual(err, f"cut-firmware: {library}: the loader takes a blank or a colon for its end: the rows are played again for each cut\n")

    def test_the_rows_up_to_a_wrong_cut_are_a_trace(self):
        """Played again with the power off behind it, the module holds what was shown."""
        for by in ("copy", "replay"):
            path = self.room / "rows.csv"
            _, out, _ = said(HERE / "images" / "COMMIT_FIRST.elf", *MODULE, "--by", by, "--to", "4", "--rows", path)
            words = [os.environ["PCM"], *([] if "pcm_stream" in os.environ["PCM"] else ["stream"]), *MODULE[:10], "--seed", "1", "--end", "off", "--print", "rows"]
            with path.open() as trace:
                done = subprocess.run(words, stdin=trace, stdout=subprocess.PIPE, check=False)
            rows = path.read_text().splitlines()
            self.assertEqual(rows[-1].split(",")[1:], ["C", "", ""])
            self.assertIn(f"at tick {rows[-1].split(',')[0]}, 0 operations", out)
            self.assertIn(done.returncode, (0, 1))
            self.assertEqual(len(done.stdout.splitlines()), len(rows))
        self.assertEqual(said(HERE / "images" / "COMMIT_FIRST.elf", *MODULE, "--rows", "/dev/full")[::2], (2, "cut-firmware: /dev/full: it can't be written\n"))

    def test_jobs_share_the_cuts_and_tell_the_same(self):
        image = HERE / "images" / "FLIP_FIRST_AT_BOOT.elf"
        words = [*MODULE, "--powerloss", "exhaustive", "--every", "9", "--show", "3"]
        wanted = None
        for jobs in (1, 3, 40):
            paths = self.room / f"{jobs}.csv", self.room / f"{jobs}.rows"
            status, out, err = said(image, *words, "--jobs", jobs, "--table", paths[0], "--rows", paths[1])
            told = status, out, err, paths[0].read_text(), paths[1].read_text()
            self.assertEqual(told[0::2][:2], (1, ""))
            wanted = wanted or told
            self.assertEqual(told, wanted)
        self.assertEqual(said(image, *MODULE[:6], "--jobs", "3", "--lo", "1", "--hi", "1", "--spares", "0", "--operations", "64")[::2],
                         (2, "cut-firmware: the module is worn out: a worn line found no spare\n"))

    def test_the_same_words_give_the_same(self):
        words = [HERE / "images" / "RIGHT.elf", *MODULE[:10], "--powerloss", "random", "--cuts", "60", "--cache", "4"]
        self.assertEqual(said(*words, "--seed", "5"), said(*words, "--seed", "5"))
        self.assertNotEqual(said(*words, "--seed", "5"), said(*words, "--seed", "6"))


if __name__ == "__main__":
    unittest.main()
