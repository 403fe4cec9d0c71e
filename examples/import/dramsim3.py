#!/usr/bin/env python3
"""Turns a trace of DRAMSim3 into a trace of pcm.

usage: examples/import/dramsim3.py [options] < trace.txt > trace.csv

A line has the form

    ADDRESS COMMAND CYCLE

with one blank or tab or more between the fields: ADDRESS is hexadecimal, with or without 0x; COMMAND is WRITE, write, P_MEM_WR or
BOFF for a write, READ, read, P_MEM_RD or P_FETCH for a read; CYCLE is decimal. An access is of the 64 bytes around its address, a
burst of the usual configurations. The trace has no data; see --data.

Written from the documented form, not tried on that tool's output.
"""

import re

import accesses

BURST = 64
FORM = "address command cycle"
WRITES = {"WRITE", "write", "P_MEM_WR", "BOFF"}
LINE = re.compile(
    r"[ \t]*(?:0[xX])?([0-9a-fA-F]{1,16})[ \t]+(WRITE|write|P_MEM_WR|BOFF|READ|read|P_MEM_RD|P_FETCH)[ \t]+([0-9]{1,20})[ \t]*"
)


def reader(options):
    """How a line is read."""

    def read(text):
        address, command, cycle = accesses.matched(LINE, text, FORM).groups()
        return [accesses.Access(int(cycle), command in WRITES, int(address, 16) // BURST * BURST, BURST)]

    return read


IMPORTER = accesses.Importer(__doc__, reader)

if __name__ == "__main__":
    accesses.begin(IMPORTER)
