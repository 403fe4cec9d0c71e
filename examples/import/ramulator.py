#!/usr/bin/env python3
"""Turns a memory trace of Ramulator into a trace of pcm.

usage: examples/import/ramulator.py [options] < trace.txt > trace.csv

A line has one of the forms

    ADDRESS R|W             a memory trace of Ramulator 1
    COUNT ADDRESS [ADDRESS] a CPU trace of Ramulator 1: so many instructions, then a read, and a write-back, if there is one
    LD|ST ADDRESS           a load-store trace of Ramulator 2

with one blank or tab or more between the fields. ADDRESS is hexadecimal with 0x, or else decimal. An access is of the 64 bytes
around its address. The trace has no time: access i, from 0, comes at cycle `i * EVERY`; each instruction of a CPU trace takes as long,
the read too, and its write-back comes with it. It has no data; see --data.

Written from the documented form, not tried on that tool's output.
"""

import re

import accesses

BURST = 64
FORM = "address R|W, count address [address], or LD|ST address"
ADDRESS = r"(0[xX][0-9a-fA-F]{1,16}|[0-9]{1,20})"
FIRST = re.compile(r"[ \t]*" + ADDRESS + r"[ \t]+([RW])[ \t]*")
CPU = re.compile(r"[ \t]*([0-9]{1,9})[ \t]+" + ADDRESS + r"(?:[ \t]+" + ADDRESS + r")?[ \t]*")
SECOND = re.compile(r"[ \t]*(LD|ST)[ \t]+" + ADDRESS + r"[ \t]*")


def number_of(text):
    """The number that an address is."""
    return int(text, 16 if text[:2] in ("0x", "0X") else 10)


def reader(options):
    """How a line is read; each is an access."""
    cycle = -options.every

    def access(writes, address):
        return accesses.Access(cycle, writes, number_of(address) // BURST * BURST, BURST)

    def read(text):
        nonlocal cycle
        cycle += options.every
        cpu = CPU.fullmatch(text)
        if cpu is not None:
            count, address, written = cpu.groups()
            cycle += int(count) * options.every
            return [access(False, address)] + ([] if written is None else [access(True, written)])
        first = FIRST.fullmatch(text)
        if first is not None:
            address, operation = first.groups()
        else:
            operation, address = accesses.matched(SECOND, text, FORM).groups()
        return [access(operation in ("W", "ST"), address)]

    return read


def add_options(parser):
    """Options of this format alone."""
    parser.add_argument("--every", type=accesses.ranged(0, 10**9), default=1, metavar="CYCLES", help="cycles from access to access (1)")


IMPORTER = accesses.Importer(__doc__, reader, add_options)

if __name__ == "__main__":
    accesses.begin(IMPORTER)
