#!/usr/bin/env python3
"""Turns a memory trace of Valgrind's lackey into a trace of pcm.

usage: valgrind --tool=lackey --trace-mem=yes --log-file=memory.txt PROGRAM
       examples/import/lackey.py [options] < memory.txt > trace.csv

A line has one of the forms

    I  ADDRESS,SIZE         an instruction is fetched
     L ADDRESS,SIZE         a load
     S ADDRESS,SIZE         a store
     M ADDRESS,SIZE         a load and a store of the same bytes
    ==PID==...              what Valgrind itself says; read over

with the letters in the first or second column, two blanks behind I and one behind the others; ADDRESS is hexadecimal without 0x,
SIZE decimal. The trace has no time: line i of the first four forms, from 0, comes at cycle `i * EVERY`, so instructions are the
clock. They are no accesses unless --instructions is read. The trace has no data; see --data. Its addresses are virtual ones, and
no cache stands between: its stores are mostly masked writes of a few bytes, and --fold is needed nearly always.

Written from the documented form, and tried on the output of Valgrind 3.19.
"""

import re

import accesses

FORM = "I  address,size or, behind one blank, L|S|M address,size"
LINE = re.compile(r"(?:(I)  | ([LSM]) )([0-9a-fA-F]{1,16}),([0-9]{1,5})")
SAID = re.compile(r"==[0-9]+==.*", re.DOTALL)
DOES = {"L": [False], "S": [True], "M": [False, True]}


def reader(options):
    """How a line is read; each but those of Valgrind itself takes its time."""
    cycle = -options.every
    does = dict(DOES, I=[False] if options.instructions == "read" else [])

    def read(text):
        nonlocal cycle
        if SAID.fullmatch(text):
            return []
        cycle += options.every
        fetch, other, address, size = accesses.matched(LINE, text, FORM).groups()
        return [accesses.Access(cycle, writes, int(address, 16), int(size)) for writes in does[fetch or other]]

    return read


def add_options(parser):
    """Options of this format alone."""
    parser.add_argument("--every", type=accesses.ranged(0, 10**9), default=1, metavar="CYCLES", help="cycles from line to line (1)")
    parser.add_argument("--instructions", choices=["drop", "read"], default="drop", help="what is done with fetches (drop)")


IMPORTER = accesses.Importer(__doc__, reader, add_options)

if __name__ == "__main__":
    accesses.begin(IMPORTER)
