#!/usr/bin/env python3
"""Turns a decoded packet trace of gem5 into a trace of pcm.

usage: examples/import/gem5.py [options] < packets.txt > trace.csv

A line has the form

    [ID,]COMMAND,ADDRESS,SIZE[,FLAGS],TICK[,PC]

as gem5's util/decode_packet_trace.py writes it for traces of a MemTraceProbe: COMMAND is r, w or u; all others are decimal
numbers. ID and PC are read over, FLAGS too. Of two numbers behind SIZE the first are FLAGS; where the trace has none, so that they are
TICK and PC, say --no-flags. u stands for every command but ReadReq and WriteReq, so also for writebacks of
caches: it is refused, or by --others dropped, read or written. A cycle is a tick of gem5, a picosecond by default: with
--per-tick 10000 a tick of pcm is 10 ns. The trace has no data; see --data.

Written from the documented form, not tried on that tool's output.
"""

import re

import accesses

FORM = "[id,]command,address,size[,flags],tick[,pc]"
START = r"(?:[0-9]+,)?([rwu]),([0-9]{1,20}),([0-9]{1,5}),"
WITH_FLAGS = re.compile(START + r"(?:[0-9]+,)?([0-9]{1,20})|" + START + r"[0-9]+,([0-9]{1,20}),[0-9]+")
WITHOUT_FLAGS = re.compile(START + r"([0-9]{1,20})(?:,[0-9]+)?")


def reader(options):
    """How a line is read."""
    line = WITHOUT_FLAGS if options.no_flags else WITH_FLAGS

    def read(text):
        command, address, size, tick = (part for part in accesses.matched(line, text, FORM).groups() if part is not None)
        if command == "u":
            if options.others is None:
                raise accesses.Refusal("a command that is neither read nor write; see --others")
            command = options.others[0]
        if command == "d":
            return []
        return [accesses.Access(int(tick), command == "w", int(address), int(size))]

    return read


def add_options(parser):
    """Options of this format alone."""
    parser.add_argument("--no-flags", action="store_true", help="the trace has no flags")
    parser.add_argument("--others", choices=["drop", "read", "write"], help="what is done with commands u (they are refused)")


IMPORTER = accesses.Importer(__doc__, reader, add_options)

if __name__ == "__main__":
    accesses.begin(IMPORTER)
