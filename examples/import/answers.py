#!/usr/bin/env python3
"""Tests of the importers' answers: bad lines, empty input, huge addresses, line ends, too many rows, and each option.

usage: examples/import/answers.py
"""

import contextlib
import io
import os
import sys
import tempfile

import accesses
import columns
import dramsim3
import gem5
import lackey
import nvmain
import ramulator

HEADER = "tick,op,arg,data\n"
ZEROS = "00" * 64
DIGITS = "".join(f"{number:02x}" for number in range(64))
ADDRESSES = "".join((192 + at).to_bytes(8, "little").hex() for at in range(0, 64, 8))
SECOND_WORD = "f465b9a16a9e786e"  # of SplitMix64 of seed 0, lowest byte first
FORMS = {
    gem5: "[id,]command,address,size[,flags],tick[,pc]",
    nvmain: "cycle operation address data thread",
    dramsim3: "address command cycle",
    ramulator: "address R|W, count address [address], or LD|ST address",
    lackey: "I  address,size or, behind one blank, L|S|M address,size",
}
GOOD = {
    gem5: ("r,192,64,0,70", "70,R,3,\n"),
    nvmain: (f"70 R 0xc0 {ZEROS} 0", "70,R,3,\n"),
    dramsim3: ("0xc0 READ 70", "70,R,3,\n"),
    ramulator: ("0xc0 R", "0,R,3,\n"),
    lackey: (" L 000000c0,8", "0,R,3,\n"),
}
HUGE = {
    gem5: "r,18446744073709551552,64,0,70",
    nvmain: f"70 R 0xffffffffffffffc0 {ZEROS} 0",
    dramsim3: "0xffffffffffffffff READ 70",
    ramulator: "0xffffffffffffffff R",
    lackey: " L ffffffffffffffc0,64",
}
TOO_LARGE = {
    gem5: "r,18446744073709551616,64,0,70",
    nvmain: f"70 R 0x10000000000000000 {ZEROS} 0",
    dramsim3: "0x10000000000000000 READ 70",
    ramulator: "0x10000000000000000 R",
    lackey: " L 10000000000000000,8",
}


def run(tool, text, *words):
    """What an importer prints for a text: its status, standard output and standard error, of wrong words what is said of them."""
    out, told = io.BytesIO(), io.StringIO()
    source = io.BytesIO(text.encode("latin-1"))
    try:
        with contextlib.redirect_stderr(told):
            status = accesses.main(tool.IMPORTER, list(words), source, out, told)
    except SystemExit as stop:
        return stop.code, out.getvalue().decode(), told.getvalue().rpartition(": error: ")[2]
    return status, out.getvalue().decode(), told.getvalue()


def same(name, got, wanted):
    """Compares one answer; a difference is printed."""
    if got != wanted:
        print(f"import: {name}: got {got!r}, wanted {wanted!r}")
    return got == wanted


def answers_of_all():
    """What every importer answers in the same way."""
    for tool, (line, row) in GOOD.items():
        name = tool.__name__
        good = (0, HEADER + row, "")
        refused = (1, "", f"line 2: not of the form {FORMS[tool]}\n")
        beyond = (1, "", "line 1: line 288230376151711743 is beyond the module's 512 lines; see --lines and --fold\n")
        huge_row = row.replace(",3,", ",511,")
        yield same(name + ", a line", run(tool, line + "\n"), good)
        yield same(name + ", no last end", run(tool, line), good)
        yield same(name + ", CRLF", run(tool, line + "\r\n"), good)
        yield same(name + ", no input", run(tool, ""), (0, HEADER, ""))
        for bad in ["", "x", line + " x", line + "\r\r", "\xff" + line]:
            yield same(f"{name}, {bad!r}", run(tool, f"{line}\n{bad}\n{line}\n"), refused)
        yield same(name + ", huge", run(tool, HUGE[tool]), beyond)
        yield same(name + ", huge and folded", run(tool, HUGE[tool], "--fold"), (0, HEADER + huge_row, ""))
        status, printed, told = run(tool, TOO_LARGE[tool], "--fold")
        why = "an address beyond 2^64" if tool is gem5 else "not of the form " + FORMS[tool]
        yield same(name + ", 2^64", (status, printed, told), (1, "", f"line 1: {why}\n"))
        yield same(name + ", bad option", run(tool, line, "--size", "32")[:2], (2, ""))


def answers_of_options():
    """What the options do, by one importer each."""
    write = "w,192,64,0,70\n"
    row = "70,W,3,{}\n".format
    yield same("zero", run(gem5, write, "--data", "zero"), (0, HEADER + row(ZEROS), ""))
    yield same("address", run(gem5, write, "--data", "address"), (0, HEADER + row(ADDRESSES), ""))
    part = "70,M,3," + ".." * 8 + SECOND_WORD + ".." * 48 + "\n"
    yield same("seed", run(gem5, "w,200,8,0,70\n"), (0, HEADER + part, ""))
    two = "7,M,0," + ".." * 63 + "00\n7,M,1,00" + ".." * 63 + "\n"
    yield same("two lines", run(gem5, "w,63,2,0,70\n", "--data", "zero", "--per-tick", "10"), (0, HEADER + two, ""))
    yield same("lines of 128", run(gem5, "r,192,64,0,70\n", "--size", "128"), (0, HEADER + "70,R,1,\n", ""))
    yield same("lines and fold", run(gem5, "r,320,64,0,70\n", "--lines", "4", "--fold"), (0, HEADER + "70,R,1,\n", ""))
    for lines, why in (("1000", "1000 isn't a power of two, as the lines of a module are"), ("2", "2 isn't a number from 4 to 67108864")):
        yield same(f"{lines} lines", run(gem5, "", "--lines", lines), (2, "", f"argument --lines: {why}\n"))
    for tool in GOOD:
        told = " ".join(accesses.parser_of(tool.IMPORTER).format_help().split())
        yield same(f"{tool.__name__}, help of --data", "or those of the trace" in told, tool is nvmain)
    falls = (1, "", "line 2: cycle 69 comes behind cycle 70\n")
    yield same("cycles fall", run(gem5, "r,0,64,0,70\nr,0,64,0,69\n"), falls)
    yield same("tick 2^40", run(gem5, f"r,0,64,0,{2**40}\n"), (0, HEADER + f"{2**40},R,0,\n", ""))
    late = (1, "", f"line 1: cycle {2**40 + 1} is beyond tick 2^40; see --per-tick\n")
    yield same("beyond tick 2^40", run(gem5, f"r,0,64,0,{2**40 + 1}\n"), late)
    last = (0, HEADER + "70,R,67108863,\n", "")
    yield same("the last line of the largest module", run(gem5, f"r,{64 * 67108863},64,0,70\n", "--lines", "67108864"), last)
    yield same("no bytes", run(gem5, "r,0,0,0,70\n"), (1, "", "line 1: a size of 0 bytes; sizes are 1 to 4096\n"))
    yield same("many bytes", run(gem5, "r,0,4097,0,70\n"), (1, "", "line 1: a size of 4097 bytes; sizes are 1 to 4096\n"))


def answers_of_formats():
    """What belongs to one format alone."""
    other = (1, "", "line 1: a command that is neither read nor write; see --others\n")
    yield same("gem5, u", run(gem5, "9,u,192,64,0,70,4194304\n"), other)
    yield same("gem5, u dropped", run(gem5, "9,u,192,64,0,70\n", "--others", "drop"), (0, HEADER, ""))
    yield same("gem5, u read", run(gem5, "u,192,64,0,70\n", "--others", "read"), (0, HEADER + "70,R,3,\n", ""))
    for words, line in [((), "w,192,64,70"), ((), "4,r,192,64,0,70,9"), (("--no-flags",), "r,192,64,70,9"), (("--no-flags",), "r,192,64,70")]:
        wanted = GOOD[gem5][1] if ",r," in "," + line else f"70,W,3,{ZEROS}\n"
        yield same(f"gem5, {line}", run(gem5, line + "\n", "--data", "zero", *words), (0, HEADER + wanted, ""))
    yield same("nvmain, tabs", run(nvmain, f"70\tR\t0xc0\t{ZEROS}\t0\n"), (0, HEADER + GOOD[nvmain][1], ""))
    yield same("nvmain, data", run(nvmain, f"7 W c5 {DIGITS} 0\n"), (0, HEADER + f"7,W,3,{DIGITS}\n", ""))
    half = (0, HEADER + "7,M,1," + ".." * 64 + f"{DIGITS}\n", "")
    yield same("nvmain, half a line", run(nvmain, f"7 W c5 {DIGITS} 0\n", "--size", "128"), half)
    yield same("nvmain, version 1", run(nvmain, f"NVMV1\n7 W c5 {DIGITS} {ZEROS} 0\n"), (0, HEADER + f"7,W,3,{DIGITS}\n", ""))
    yield same("nvmain, version alone", run(nvmain, "NVMV1\r\n"), (0, HEADER, ""))
    lacks = (1, "", "line 2: not of the form cycle operation address data old thread\n")
    yield same("nvmain, no old bytes", run(nvmain, f"NVMV1\n7 W c5 {DIGITS} 0\n"), lacks)
    yield same("dramsim3, P_FETCH", run(dramsim3, "c0 P_FETCH 7\n"), (0, HEADER + "7,R,3,\n", ""))
    written = (0, HEADER + f"0,R,3,\n5,W,3,{ZEROS}\n", "")
    yield same("ramulator, load and store", run(ramulator, "LD 192\nST 0xc0\n", "--every", "5", "--data", "zero"), written)
    cpu = (0, HEADER + f"15,R,3,\n20,R,1,\n20,W,2,{ZEROS}\n", "")
    yield same("ramulator, a CPU trace", run(ramulator, "3 192\n0\t0x40 128\n", "--every", "5", "--data", "zero"), cpu)
    modify = (0, HEADER + "1,R,3,\n1,M,3,0000" + ".." * 62 + "\n", "")
    yield same("lackey, modify", run(lackey, "==1== x\nI  00000000,4\n M 000000c0,2\n", "--data", "zero"), modify)
    fetched = (0, HEADER + "0,R,3,\n", "")
    yield same("lackey, instructions", run(lackey, "I  000000c0,4\n", "--instructions", "read"), fetched)


def answers_of_columns():
    """What becomes of tables of one's own columns."""
    plain = ("--time", "1", "--op", "2", "--address", "3", "--bytes", "4")
    read, write = (0, HEADER + "70,R,3,\n", ""), (0, HEADER + f"70,W,3,{DIGITS}\n", "")
    names = ("--time", "at", "--op", "does", "--address", "where", "--bytes", "long")
    for name, text, words in (
        ("numbers", "70,r,192,64\n", plain), ("CRLF and empty lines", "70,READ,192,64\r\n\r\n\n", plain),
        ("a mark", "\xef\xbb\xbf70,load,0xC0,64\n", plain), ("quotes", '"70","r",192,"64"\n', plain), ("more columns", "70,0,192,64,a,b\n", plain),
        ("names", 'x,where,"does",at,long\nc,192,rd,70,64\n', names), ("a mark and names", "\xef\xbb\xbfat,does,where,long\n70,ld,192,64\n", names),
        ("a name and numbers", "at,b,c,d\n70,r,192,64\n", ("--time", "at", *plain[2:])), ("hex", "70,r,c0,64\n", (*plain, "--hex")),
        ("tabs", "70\tr\t192\t64\n", (*plain, "--separator", "tab")), ("blanks", " 70  r\t192 64\n", (*plain, "--separator", "blanks")),
        ("bars", "70|r|192|64\n", (*plain, "--separator", "|")), ("lines", "70,r,3,1\n", (*plain, "--address-unit", "64", "--bytes-unit", "64")),
        ("no size", "70,r,192\n", plain[:6]), ("comments", "# x\n70,r,192,64\n#\n", (*plain, "--comment", "#")),
        ("microseconds", "0.7099,r,192,64\n", (*plain, "--time-unit", "100")), ("words", "70,GET,192,64\n", (*plain, "--reads", "get", "--writes", "put")),
        ("others", "60,sync,,\n70,r,192,64\n", (*plain, "--others", "drop")), ("all", "70,192\n", ("--time", "1", "--address", "2", "--all", "read")),
        ("no time", "x,0\n" * 7 + "r,192\n", ("--op", "1", "--address", "2", "--others", "drop", "--every", "10")),
    ):
        yield same(f"columns, {name}", run(columns, text, *words), read)
    payload = ("--time", "1", "--op", "2", "--address", "3", "--payload", "4")
    yield same("columns, a payload", run(columns, f"70,w,192,0x{DIGITS}\n70,r,192,\n", *payload), (0, write[1] + "70,R,3,\n", ""))
    part = "70,M,3," + ".." * 62 + "0102\n"
    yield same("columns, a part", run(columns, "70,w,254,0102\n", *payload), (0, HEADER + part, ""))
    many = "".join(f"70,R,{line},\n" for line in range(65))
    yield same("columns, many bytes", run(columns, "70,r,0,4160\n", *plain), (0, HEADER + many, ""))
    for name, text, words, why in (
        ("few fields", "70,r,192\n", plain, "line 1: 3 fields, where column 4 is read"),
        ("a bad time", "1e3,r,192,64\n", plain, "line 1: the time is '1e3', not a decimal number"),
        ("a late time", f"{'9' * 23},r,192,64\n", plain, f"line 1: the time is '{'9' * 23}', which is too large"),
        ("a late fraction", f"{'9' * 23}.5,r,192,64\n", plain, f"line 1: the time is '{'9' * 23}.5', which is too large"),
        ("a far address", f"70,r,{'9' * 23},64\n", plain, f"line 1: the address is '{'9' * 23}', which is too large"),
        ("a bad address", "70,r,c0,64\n", plain, "line 1: the address is 'c0', not a decimal number; see --hex"),
        ("no address", "70,r,,64\n", plain, "line 1: the address is '', not a whole number"),
        ("a bad size", "70,r,192,-1\n", plain, "line 1: the number of bytes is '-1', not a whole number"),
        ("no bytes", "70,r,192,0\n", plain, "line 1: 0 bytes; a line of the table has 1 to 1073741824"),
        ("a bad operation", "70,x,192,64\n", plain, "line 1: the operation is 'x', neither of --reads nor of --writes; see --others"),
        ("open quotes", '70,"r,192,64\n', plain, "line 1: quotes that aren't closed, or with text behind them"),
        ("no such column", "at,does,where\n", names, "line 1: the column 'long' isn't in the first line: at, does, where"),
        ("a column twice", "at,does,where,long,at\n", names, "line 1: the column 'at' stands twice in the first line: at, does, where, long, at"),
        ("a bad payload", "70,w,192,0\n", payload, "line 1: the payload isn't of hexadecimal digits, two a byte"),
        ("another length", "70,w,192,0102,3\n", (*payload, "--bytes", "5"), "line 1: 2 bytes of payload, where the access has 3"),
        ("times fall", "70,r,192,64\n69,r,192,64\n", plain, "line 2: cycle 69 comes behind cycle 70"),
        ("beyond", "70,r,32768,64\n", plain, "line 1: line 512 is beyond the module's 512 lines; see --lines and --fold"),
    ):
        yield same(f"columns, {name}", run(columns, text, *words), (1, "", why + "\n"))
    for name, words, why in (
        ("column 0", ("--op", "0", "--address", "1"), "columns are numbered from 1"),
        ("no operations", ("--address", "1"), "--op names the column of operations, or --all tells what all of them are"),
        ("operations twice", (*plain, "--all", "read"), "--all tells what all accesses are, where no --op names the column of operations"),
        ("a separator", (*plain, "--separator", ",,"), "--separator is one character, tab, comma, semicolon or blanks"),
        ("a unit", (*plain, "--time-unit", "0"), "--time-unit is a number above 0, as 1000 or 0.5, not 0"),
    ):
        yield same(f"columns, {name}", run(columns, "", *words), (2, "", why + "\n"))


def answers_of_caches():
    """What a cache leaves of accesses: misses, and lines that were written to as they leave."""

    def through(*accesses):
        return "".join(f"{'w' if writes else 'r'},{address},{size},0,{at}\n" for at, (writes, address, size) in enumerate(accesses))

    def rows(*told):
        return 0, HEADER + "".join(f"{at},{op},{line},{ZEROS if op == 'W' else ''}\n" for at, op, line in told), ""

    one_set, words = ("--cache", "2", "--ways", "2"), ("--data", "zero")
    lines = [(False, 0, 8), (False, 8, 8), (True, 64, 8), (False, 0, 64), (False, 128, 1), (False, 64, 1), (False, 0, 1)]
    wanted = rows((0, "R", 0), (2, "R", 1), (4, "W", 1), (4, "R", 2), (5, "R", 1), (6, "R", 0))
    yield same("a cache of one set", run(gem5, through(*lines), *one_set, *words), wanted)
    whole = [(True, 0, 64), (True, 64, 128), (False, 0, 64), (False, 256, 64)]
    wanted = rows((1, "W", 0), (2, "W", 1), (2, "R", 0), (3, "W", 2), (3, "R", 4))
    yield same("whole lines", run(gem5, through(*whole), *one_set, *words), wanted)
    sets = [(True, 0, 1), (True, 64, 1), (False, 128, 1), (False, 192, 1), (False, 0, 1)]
    wanted = rows((0, "R", 0), (1, "R", 1), (2, "W", 0), (2, "R", 2), (3, "W", 1), (3, "R", 3), (4, "R", 0))
    yield same("two sets", run(gem5, through(*sets), "--cache", "2", "--ways", "1", *words), wanted)
    falls = (1, "", "line 2: cycle 69 comes behind cycle 70\n")
    yield same("a hit that falls", run(gem5, "r,0,64,0,70\nr,0,64,0,69\n", *one_set), falls)
    uneven = (2, "", "--cache 6 isn't a multiple of --ways 4\n")
    yield same("an uneven cache", run(gem5, "", "--cache", "6"), uneven)
    yield same("bytes of the trace", run(nvmain, "", "--cache", "8"), (2, "", "a cache has no bytes of the trace: --data zero, address or seed\n"))


def pieces_of(folder, rows, most):
    """What stands in a folder once some rows were cut into pieces; a refusal's text else."""
    status, printed, told = run(gem5, rows, "--most-rows", str(most), "--pieces", os.path.join(folder, "part"))
    if status != 0 or printed != "":
        return told, sorted(os.listdir(folder))
    texts = []
    for name in sorted(os.listdir(folder)):
        with open(os.path.join(folder, name), encoding="ascii") as piece:
            texts.append((name, piece.read()))
    return texts


def answers_of_pieces():
    """Many rows: refused, or cut into numbered files, of which none stands where a line is refused."""
    rows = "r,0,64,0,1\nr,64,64,0,2\nr,128,64,0,3\n"
    many = (1, "", "line 3: more than 2 rows; --pieces NAME cuts them into NAME-001.csv and so on\n")
    yield same("too many rows", run(gem5, rows, "--most-rows", "2"), many)
    cut = [("part-001.csv", HEADER + "1,R,0,\n2,R,1,\n"), ("part-002.csv", HEADER + "3,R,2,\n")]
    with tempfile.TemporaryDirectory() as folder:
        yield same("pieces", pieces_of(folder, rows, 2), cut)
    whole = [("part-001.csv", HEADER + "1,R,0,\n2,R,1,\n3,R,2,\n")]
    with tempfile.TemporaryDirectory() as folder:
        yield same("one piece", pieces_of(folder, rows, 3), whole)
    yield same("pieces nowhere", run(gem5, rows, "--pieces", "/nowhere/x"), (1, "", "/nowhere/x: No such file or directory\n"))
    with tempfile.TemporaryDirectory() as folder:
        refused = ("line 4: not of the form " + FORMS[gem5] + "\n", [])
        yield same("pieces of a bad line", pieces_of(folder, rows + "x\n", 2), refused)


def answers_of_streams():
    """Rows as they are made: any number, and what comes before a line that is refused."""
    rows = "r,0,64,0,1\nr,64,64,0,2\nr,128,64,0,3\n"
    told = HEADER + "1,R,0,\n2,R,1,\n3,R,2,\n"
    yield same("a stream", run(gem5, rows, "--stream", "--most-rows", "2"), (0, told, ""))
    refused = "line 4: not of the form " + FORMS[gem5] + "\n"
    yield same("a stream with a bad line", run(gem5, rows + "x\n" + rows, "--stream"), (1, told, refused))
    yield same("a stream and pieces", run(gem5, rows, "--stream", "--pieces", "x")[:2], (2, ""))


def main():
    """Runs all tests; the status is 1 where one failed."""
    results = []
    groups = (answers_of_all, answers_of_options, answers_of_formats, answers_of_columns, answers_of_caches, answers_of_pieces, answers_of_streams)
    for answers in groups:
        results.extend(answers())
    print(f"{sum(results)} passed, {len(results) - sum(results)} failed")
    return 0 if all(results) else 1


if __name__ == "__main__":
    sys.exit(main())
