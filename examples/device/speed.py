#!/usr/bin/python3
"""What a request costs in processor time, in the relay and in the program: writes and then reads of blocks, one at a time, at drawn places.

    speed.py PCM [--requests N] [--size BYTES] [KEY=VALUE ..]

Prints, for each, microseconds (user and system). It needs what servers.py names."""
import os
import pathlib
import random

from servers import Server, asking, whole

TICK = os.sysconf("SC_CLK_TCK")


def seconds(process):
    """The processor time of a process so far."""
    fields = pathlib.Path(f"/proc/{process}/stat").read_text().rpartition(")")[2].split()
    return (int(fields[11]) + int(fields[12])) / TICK


def program_of(server):
    """The process of the program, which the server's has started."""
    (child,) = pathlib.Path(f"/proc/{server.process.pid}/task/{server.process.pid}/children").read_text().split()
    return int(child)


def measure(server, words, kind, act):
    processes = [server.process.pid, program_of(server)]
    before = [seconds(it) for it in processes]
    for _ in range(words.requests):
        act()
    after = [seconds(it) for it in processes]
    each = [1e6 * (to - since) / words.requests for since, to in zip(before, after)]
    print(kind, words.size, words.requests, *(f"{it:.1f}" for it in (*each, sum(each))), sep=",", flush=True)


def main():
    ask = asking(__doc__)
    ask.add_argument("--requests", type=whole(1), default=10000)
    ask.add_argument("--size", type=whole(1, 2**25), default=4096)
    words = ask.parse_intermixed_args()
    with Server(words.pcm, words.parameters) as server:
        disk, draw = server.must_run().connect(), random.Random(1)
        blocks = disk.get_size() // words.size
        if blocks == 0:
            ask.error(f"--size {words.size}: the disk has {disk.get_size()} bytes")
        data = [draw.randbytes(words.size) for _ in range(64)]
        print("request,bytes,requests,us_relay,us_program,us")
        measure(server, words, "write", lambda: disk.pwrite(draw.choice(data), words.size * draw.randrange(blocks)))
        measure(server, words, "read", lambda: disk.pread(words.size, words.size * draw.randrange(blocks)))


if __name__ == "__main__":
    main()
