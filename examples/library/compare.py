#!/usr/bin/env python3
"""Compares what a program over libpcm prints with what `pcm stream` prints, byte for byte, over traces that are drawn.

    examples/library/compare.py STREAM REPLAY [COUNT [SEED]]

STREAM is the program of streams, REPLAY one of replay.c; COUNT traces, 50 unless it is given. The last line tells how many rows they have and how
often each outcome was met; where one differs its trace is kept in differs.csv, and status 1."""
import collections
import pathlib
import random
import subprocess
import sys


def module(draw):
    """Sizes, pace and wear of a module, as words have them."""
    sizes = {"banks": (1, 2, 4, 8, 16), "regions": (1, 2, 4), "lines": (4, 8, 16, 64), "line": (64, 64, 64, 128), "spares": (0, 1, 2, 8)}
    queues = {"write-queue": (1, 2, 4, 32), "read-queue": (1, 2, 32), "psi": (1, 2, 5, 100)}
    pace = {"read-ticks": (1, 5, 20), "iter-ticks": (1, 10, 30), "policy": ("pause", "plain", "cancel"), "registers": ("guarded", "array")}
    drawn = {name: draw.choice(values) for name, values in {**sizes, **queues, **pace, "misses": (0, 0, 1, 3)}.items()}
    drawn["seed"] = draw.randrange(2**64)
    if draw.random() < 0.6:
        drawn["lo"] = draw.choice((3, 10, 50, 200))
        drawn["hi"] = drawn["lo"] * draw.choice((1, 3, 10))
    return drawn


def masked(draw, size):
    given = [draw.random() < share for share in [draw.choice((0.1, 0.5, 0.9))] * size]
    given[draw.randrange(size)] = True
    return "".join(f"{draw.randrange(256):02x}" if it else ".." for it in given)


def row(draw, tick, line, size, rows):
    """A row at a tick, where so many rows with a number stand before it."""
    kind = draw.random()
    if kind < 0.45:
        return f"{tick},W,{line},{draw.randbytes(size).hex()}"
    if kind < 0.6:
        return f"{tick},M,{line},{masked(draw, size)}"
    if kind < 0.9:
        return f"{tick},R,{line},"
    if kind < 0.93:
        return f"{tick},C,,"
    if kind < 0.95 and rows:
        return f"{tick},U,{draw.randrange(rows) + 1 if draw.random() < 0.7 else ''},"
    if kind < 0.96:
        return f"{tick},P,{line},"
    return f"{tick},{'Q' if kind < 0.97 else 'L' if kind < 0.98 else 'S'},,"


def trace(draw, drawn):
    """Rows for such a module. (Behind a settle until, a row may have any tick from the one that it reached, so from its own on, too.)"""
    total, size = drawn["banks"] * drawn["regions"] * drawn["lines"], drawn["line"]
    tick, step, is_hot, rows = 0, draw.choice((1, 5, 30, 200)), draw.random() < 0.5, 0
    lines = ["tick,op,arg,data"]
    for _ in range(draw.choice((1, 10, 100, 400, 1200))):
        tick += draw.randrange(step + 1)
        line = draw.randrange(min(total, 3)) if is_hot and draw.random() < 0.7 else draw.randrange(total)
        lines.append(row(draw, tick, line, size, rows))
        rows += lines[-1].split(",")[1] in "WMRC"
    return "".join(f"{it}\n" for it in lines).encode()


def differs(streamed, replayed):
    """Why two runs aren't alike, or None."""
    if streamed.returncode not in (0, 1) or replayed.returncode != 0:
        return f"status {streamed.returncode} and {replayed.returncode}: {streamed.stderr!r} {replayed.stderr!r}"
    pairs = zip(streamed.stdout.split(b"\n"), replayed.stdout.split(b"\n"))
    return next((f"{one!r} and {other!r}" for one, other in pairs if one != other), None if streamed.stdout == replayed.stdout else "one is longer")


def main(stream, replay, count="50", seed="1"):
    seen, rows = collections.Counter(), 0
    for number in range(int(count)):
        draw = random.Random(int(seed) * 1_000_003 + number)
        drawn = module(draw)
        words, text = [word for name, value in drawn.items() for word in (f"--{name}", str(value))], trace(draw, drawn)
        streamed, replayed = (subprocess.run([it, *words], input=text, capture_output=True) for it in (stream, replay))
        if why := differs(streamed, replayed):
            pathlib.Path("differs.csv").write_bytes(text)
            sys.exit(f"trace {number} of seed {seed}, {' '.join(words)}: {why}")
        rows += text.count(b"\n") - 1
        seen.update(line.split(b",")[1].decode() for line in streamed.stdout.splitlines()[1:])
    print(f"{count} traces alike, {rows} rows; {', '.join(f'{seen[it]} {it}' for it in sorted(seen))}")


if __name__ == "__main__":
    if not 3 <= len(sys.argv) <= 5:
        sys.exit(__doc__)
    main(*sys.argv[1:])
