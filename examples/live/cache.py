#!/usr/bin/env python3
"""A small cache in front of a phase-change memory: set-associative, write-back, one access at a time, over python/pcm.

    examples/live/cache.py [POLICY] [ACCESSES]      by default: pause 20000

A processor makes one access after the other, each to eight bytes of one of 256 lines; a hit takes a tick. At a miss the oldest line of the
set goes back to the memory if it was written to, and the line is read; the processor waits for it. Near the end the power is cut: what
the cache holds is lost, and then every line is read again. It prints hits, misses, write-backs, the mean latency of a miss in ticks, and
how many of the lines that were read again weren't the newest that the memory had taken. examples/live/cache.cpp does the same in C++."""
import collections
import pathlib
import sys

sys.path.insert(0, str(pathlib.Path(__file__).resolve().parents[2] / "python"))
import pcm  # noqa: E402

LINES, SETS, WAYS, WORDS = 256, 8, 4, 8
READ_TICKS, LAST_TICK = 5, 2**40


def accesses(count):
    """Which word of which line, and whether it is written: runs of neighbours, and one in four of a hot line. (xorshift64)"""
    state, word = 88172645463325252, 0
    for _ in range(count):
        state ^= state << 13 & (1 << 64) - 1
        state ^= state >> 7
        state ^= state << 17 & (1 << 64) - 1
        if state >> 8 & 3 == 0:
            word = (state >> 20) % (8 * WORDS)
        elif state >> 10 & 15 == 0:
            word = (state >> 20) % (LINES * WORDS)
        else:
            word = (word + 1) % (LINES * WORDS)
        yield word // WORDS, word % WORDS, state >> 40 & 3 == 0


class Memory:
    """The memory, as the cache sees it: a line is read or written at a tick, and the call answers when that was done."""

    def __init__(self, module):
        self.module, self.newest = module, [bytes(64)] * LINES

    def read(self, tick, line):
        """The bytes of a line, and when they came."""
        row = self.module.read(tick, line)
        outcome = next(it for it in self.module.settle_until(row, LAST_TICK) if it.row == row)
        return outcome.data, outcome.tick

    def write(self, tick, line, data):
        """Hands a line over, and answers when it was taken: a full queue has to be tried again, where its bank goes on."""
        while True:
            row = self.module.write(tick, line, data)
            answer = next((it for it in self.module.settle(tick) if it.row == row), None)
            if isinstance(answer, pcm.Full) and all(bank.mark == "going" for bank in self.module.banks(tick)):
                tick += READ_TICKS
            elif isinstance(answer, (pcm.Full, pcm.Worn)):
                raise RuntimeError(f"tick {tick}: a bank takes no more writes")
            else:
                self.newest[line] = data
                return tick


class Cache:
    def __init__(self, memory):
        self.memory, self.tick = memory, 0
        self.sets = [collections.OrderedDict() for _ in range(SETS)]
        self.hits = self.misses = self.write_backs = self.waited = 0

    def access(self, line, word, is_write, value):
        lines = self.sets[line % SETS]
        if line in lines:
            self.hits += 1
            self.tick += 1
            lines.move_to_end(line)
        else:
            self.misses += 1
            begun = self.tick
            if len(lines) == WAYS:
                old, (data, is_written) = lines.popitem(last=False)
                if is_written:
                    self.write_backs += 1
                    self.tick = self.memory.write(self.tick, old, bytes(data))
            data, self.tick = self.memory.read(self.tick, line)
            lines[line] = (bytearray(data), False)
            self.waited += self.tick - begun
        if is_write:
            data, _ = lines[line]
            data[8 * word:8 * word + 8] = value.to_bytes(8, "little")
            lines[line] = (data, True)


def main(policy="pause", count=20000):
    count = int(count)
    options = {"banks": 4, "regions": 1, "lines": 64, "write_queue": 8, "policy": policy, "misses": 2, "lo": 2000, "hi": 9000}
    with pcm.Module(**options) as module:
        memory = Memory(module)
        cache = Cache(memory)
        for number, (line, word, is_write) in enumerate(accesses(count)):
            cache.access(line, word, is_write, number)
        module.cut(cache.tick)
        tick, wrong = cache.tick, 0
        for line in range(LINES):
            data, tick = memory.read(tick, line)
            wrong += data != memory.newest[line]
        module.finish()
    print("policy,accesses,hits,misses,write_backs,mean_latency_of_a_miss,read_again,wrong")
    mean = cache.waited / max(cache.misses, 1)
    print(f"{policy},{count},{cache.hits},{cache.misses},{cache.write_backs},{mean:.2f},{LINES},{wrong}")
    return wrong != 0


if __name__ == "__main__":
    sys.exit(main(*sys.argv[1:]))
