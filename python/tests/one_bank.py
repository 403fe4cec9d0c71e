"""Stands in for `pcm stream` while a test runs: one bank of lines whose cells change at once, each in a place of its own."""
import sys

SENSE, ITERATION = 5, 10


class Bank:
    """A bank, and what it told: a read is served between two steps of a write, and writes leave in order."""

    def __init__(self):
        self.now, self.action, self.written = 0, None, False
        self.writes, self.reads, self.lines, self.known = [], [], {}, set()
        self.senses, self.pulses, self.driven = 0, [0] * 7, [0, 0]

    def tell(self, row, word, tick, place="", data=""):
        self.known.add(row)
        print(f"{row},{word},{tick},{place},{data}")

    def end(self):
        """When what it does ends, and what that is, or what it would do next; None where it has nothing to do."""
        if self.action:
            return self.action
        kind = "serve" if self.reads else "iterate" if self.written else "begin" if self.writes else None
        return kind and (self.now + (ITERATION if kind == "iterate" else SENSE), kind)

    def pulse(self, line, data):
        """All cells of a line that differ are driven."""
        old, new = int(self.lines.get(line, "0"), 16), int(data, 16)
        self.pulses[int(line)] += 1
        self.driven[0] += bin(new & ~old).count("1")
        self.driven[1] += bin(old & ~new).count("1")

    def wear(self):
        every = sum(self.pulses)
        return f"{every} {max(self.pulses)} {every // len(self.pulses)} 0 {self.senses} {self.driven[0]} {self.driven[1]}"

    def step(self, kind):
        self.senses += 1
        if kind == "iterate":
            self.pulse(self.writes[0][1], self.writes[0][2])
        if kind == "serve":
            row, line = self.reads.pop(0)
            self.tell(row, "read", self.now, line, self.lines.get(line, "00" * 64))
        elif kind == "begin" and self.lines.get(self.writes[0][1], "00" * 64) != self.writes[0][2]:
            self.written = True
        else:
            row, line, data = self.writes.pop(0)
            self.lines[line], self.written = data, False
            self.tell(row, "stored", self.now, line)

    def go_on(self, tick):
        while (self.action or self.now < tick) and (self.end() or [tick + 1])[0] <= tick:
            self.now, kind = self.end()
            self.action = None
            self.step(kind)
        if self.now < tick:
            self.action = self.end()
        self.now = tick

    def arrive(self, row, op, line, data):
        standing = [it for it in self.writes if it[1] == line]
        if op == "W":
            busy = self.writes[:1] if self.written else []
            for old in (it for it in standing if it not in busy):
                self.tell(old[0], "merged", self.now)
                old[0], old[2] = row, data
                return
            self.writes.append([row, line, data])
        elif standing:
            self.tell(row, "forwarded", self.now, data=standing[-1][2])
        else:
            self.reads.append((row, line))


def main():
    bank, rows = Bank(), 0
    print("row,outcome,tick,place,data")
    if "--tell" in sys.argv:
        print(",shape,0,1,1 1 4 2 64 32 32")
    sys.stdout.flush()
    for text in iter(sys.stdin.readline, ""):
        tick, op, arg, data = text.rstrip("\n").split(",")
        if op == "op":
            continue
        if op == "U":
            bank.go_on(bank.now)
            while int(arg) not in bank.known and bank.now < int(tick):
                bank.go_on(min((bank.end() or [int(tick)])[0], int(tick)))
        else:
            if int(tick) < bank.now:
                print(f"trace row {rows + 1}: order", file=sys.stderr)
                return 3
            bank.go_on(int(tick))
        if op == "L":
            print(f",wear,{bank.now},,{bank.wear()}")
        if op in ("S", "U", "L"):
            print(f",settled,{bank.now},,")
        else:
            rows += 1
            bank.arrive(rows, op, arg, data)
        sys.stdout.flush()
    while bank.end():
        bank.go_on(bank.end()[0])
    return 0


sys.exit(main())
