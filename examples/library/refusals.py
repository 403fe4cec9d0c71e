#!/usr/bin/env python3
"""Refuses each request for memory of a program over libpcm in turn, alone and with all behind it: examples/library/refusals.py REPLAY [MOST]

REPLAY is a program of replay.c; at most MOST requests of a trace, 200 unless it is given. It answers status 7 and the line `out of memory`, with
nothing on its output, or does without what it asked for. The last line tells how many answers were which; status 1 where one was none of these."""
import os
import pathlib
import shutil
import sys
import tempfile

sys.dont_write_bytecode = True
sys.path.append(str(pathlib.Path(__file__).resolve().parents[2] / "bench"))
from refusing import Memory, Refusing, Run

SMALL = "--banks 1 --regions 1 --lines 4 --spares 2 --write-queue 4 --read-queue 4"


def trace(rows, size=64):
    """Writes and reads, settled in the end alone, so that many outcomes wait at once."""
    ops = (f"{20 * i},W,{i % 4},{f'{i % 256:02x}' * size}\n" if i % 3 else f"{20 * i},R,{i % 4},\n" for i in range(rows))
    return f"tick,op,arg,data\n{''.join(ops)}{20 * rows},S,,\n".encode()


def main(replay, most="200"):
    runs = (
        ("a few rows", SMALL, trace(5)),
        ("rows of a usual module", "--seed 3", trace(400)),
        ("cells that wear out", f"{SMALL} --lo 3 --hi 9 --misses 1", trace(300)),
        ("lines of 128 bytes, registers in the array", "--line 128 --registers array", trace(60, 128)),
    )
    with tempfile.TemporaryDirectory() as room:
        refusing = Refusing(pathlib.Path(room), os.environ.get("CC", "cc"))
        trials = [Memory(refusing, Run(replay, *it), int(most)) for it in runs]
    tried, told, same = (sum(getattr(it, name) for it in trials) for name in ("tried", "told", "same"))
    print(f"{tried} tries: {told} told that there was no memory, {same} did without it, {tried - told - same} answered otherwise")
    return int(tried != told + same)


if __name__ == "__main__":
    if not 2 <= len(sys.argv) <= 3:
        sys.exit(__doc__)
    if not shutil.which(os.environ.get("CC", "cc")):
        sys.exit("refusals.py: no C compiler")
    sys.exit(main(*sys.argv[1:]))
