#!/usr/bin/python3
"""What sectors cost that no cut tears: random writes of 512 and of 4096 bytes to a disk with sectors of 128, 512 and 4096 bytes.

    price.py PCM [--writes N] [KEY=VALUE ..]

Prints, for each, the rows, ticks and pulses of a write, of a module that takes the rows of its log (../disk/rows.py); and the most pulses of an array line,
beside the mean of all that were pulsed: how hot the map is. It needs what servers.py names."""
import random
import subprocess
import sys

from servers import Server, asking, whole
import rows


def played(pcm, log, trace):
    """The rows of a disk's log, the last one's tick, and the pulses of each array line."""
    rows.main(pcm, log, trace)
    with open(trace, encoding="ascii") as file:
        lines = file.read().splitlines()
    with open(f"{trace}.args", encoding="ascii") as file:
        words = file.read().split()
    with open(trace, "rb") as file:
        done = subprocess.run([pcm, "stream", *words, "--print", "wear"], stdin=file, capture_output=True, text=True)
    if done.returncode > 1:
        sys.exit(f"{pcm} stream: {done.stderr.strip()}")
    return len(lines) - 1, int(lines[-1].split(",")[0]), [int(row.split(",")[2]) for row in done.stdout.splitlines()[1:]]


def measure(words, sector, size):
    """A row of the table."""
    with Server(words.pcm, [*words.parameters, f"sector={sector}"], log=True) as server:
        disk, draw = server.must_run().connect(), random.Random(1)
        places = disk.get_size() // size
        for _ in range(words.writes):
            disk.pwrite(draw.randbytes(size), size * draw.randrange(places))
        server.stop()
        count, ticks, pulses = played(words.pcm, server.log, server.dir / "trace")
        used = [it for it in pulses if it]
        each = [it / words.writes for it in (count, ticks, sum(pulses))]
        return [sector, size, words.writes, *(f"{it:.1f}" for it in each), max(pulses), f"{sum(used) / len(used):.1f}"]


def main():
    ask = asking(__doc__)
    ask.add_argument("--writes", type=whole(1), default=2000)
    words = ask.parse_intermixed_args()
    print("sector,size,writes,rows_a_write,ticks_a_write,pulses_a_write,most_pulses,mean_pulses")
    for size in (512, 4096):
        for sector in (128, 512, 4096):
            print(*measure(words, sector, size), sep=",", flush=True)


if __name__ == "__main__":
    main()
