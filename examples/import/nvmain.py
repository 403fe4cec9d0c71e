#!/usr/bin/env python3
"""Turns a trace of NVMain into a trace of pcm.

usage: examples/import/nvmain.py [options] < trace.nvt > trace.csv

The first line may be NVMV0 or NVMV1. Every other line has the form

    CYCLE OPERATION ADDRESS DATA [OLD] THREAD

with one blank or tab or more between the fields: CYCLE and THREAD are decimal numbers, OPERATION is R or W, ADDRESS is hexadecimal, with
or without 0x, DATA and OLD are 128 hexadecimal digits. OLD, the bytes before, stands exactly in a trace that begins with NVMV1.
An access is of the 64 bytes around its address. A write has the bytes of DATA, the first two digits being the lowest byte, unless
--data says otherwise; OLD, and DATA of a read, are read over.

Written from the documented form, not tried on that tool's output.
"""

import re

import accesses

WORD = 64
START = r"[ \t]*([0-9]{1,20})[ \t]+([RW])[ \t]+(?:0[xX])?([0-9a-fA-F]{1,16})[ \t]+([0-9a-fA-F]{128})"
FORMS = {
    "NVMV0": ("cycle operation address data thread", re.compile(START + r"[ \t]+[0-9]+[ \t]*")),
    "NVMV1": ("cycle operation address data old thread", re.compile(START + r"[ \t]+[0-9a-fA-F]{128}[ \t]+[0-9]+[ \t]*")),
}


def reader(options):
    """How a line is read: by the version that the first line may tell."""
    version = None

    def read(text):
        nonlocal version
        if version is None:
            version = text if text in FORMS else "NVMV0"
            if text in FORMS:
                return []
        form, line = FORMS[version]
        cycle, operation, address, data = accesses.matched(line, text, form).groups()
        start = int(address, 16) // WORD * WORD
        return [accesses.Access(int(cycle), operation == "W", start, WORD, bytes.fromhex(data))]

    return read


IMPORTER = accesses.Importer(__doc__, reader, has_data=True)

if __name__ == "__main__":
    accesses.begin(IMPORTER)
