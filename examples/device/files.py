#!/usr/bin/python3
"""Files of a file system, for `cut`: replaced by renaming, removed, appended to, and blocks of 4 KiB written in place, each with its fsync; with others beside
them that nobody flushed.

    files.py work       goes on with operations, and tells $ACKED the number of each that is durable
    files.py verify     whether all files are as these operations left them; of the one under way, before or behind it

$MOUNT is the file system's folder. Each operation follows from its number, so who verifies knows them all. The one under way is done again then."""
import contextlib
import os
import random
import sys

BLOCKS, SIZE, FOLDERS = 128, 4096, 8


def flush(path):
    file = os.open(path, os.O_RDONLY)
    try:
        os.fsync(file)
    finally:
        os.close(file)


def block(number, version):
    """Each of its pieces of 64 bytes says which block and version it is."""
    return b"".join((b"%08d %08d %04d" % (number, version, i)).ljust(64, b"\xa5") for i in range(SIZE // 64))


class Model:
    """What there should be behind operations 1 to `number`."""

    def __init__(self, number):
        self.files, self.versions, self.number = {}, [0] * BLOCKS, 0
        while self.number < number:
            self.step()

    def step(self):
        """The next operation: its kind, what it is of, what it writes, and where; the model is behind it then."""
        self.number += 1
        draw = random.Random(self.number)
        what, folder = draw.random(), f"d{draw.randrange(FOLDERS)}"
        if what < 0.45:
            name = f"{folder}/f{draw.randrange(60)}"
            self.files[name] = draw.randbytes(draw.choice((10, 500, 3000, 9000, 40000)))
            return "replace", name, self.files[name], 0
        if what < 0.55 and self.files:
            name = draw.choice(sorted(self.files))
            del self.files[name]
            return "remove", name, b"", 0
        if what < 0.7:
            name, new = f"{folder}/log", draw.randbytes(draw.randrange(1, 5000))
            old = self.files.get(name, b"")
            self.files[name] = old + new
            return "append", name, new, len(old)
        if what < 0.9:
            at = draw.randrange(BLOCKS)
            self.versions[at] = self.number
            return "block", at, block(at, self.number), at * SIZE
        return "noise", f"noise{draw.randrange(20)}", draw.randbytes(3000), 0


def put(path, data, at=0, is_flushed=True, of=os.O_CREAT):
    file = os.open(path, os.O_WRONLY | of, 0o644)
    try:
        os.pwrite(file, data, at)
        if is_flushed:
            os.fdatasync(file)
    finally:
        os.close(file)


def do(root, kind, what, data, at):
    path = os.path.join(root, "blocks" if kind == "block" else what)
    if kind == "replace":
        put(path + ".new", data, of=os.O_CREAT | os.O_TRUNC)
        os.rename(path + ".new", path)
    elif kind == "remove":
        with contextlib.suppress(FileNotFoundError): # (it was under way before)
            os.remove(path)
    elif kind == "noise":
        os.makedirs(path, exist_ok=True)
        for i in range(10):
            put(f"{path}/x{i}", data[300 * i:], is_flushed=False)
        return
    else:
        put(path, data, at)
    flush(os.path.dirname(path))


def make(root):
    for number in range(FOLDERS):
        os.makedirs(os.path.join(root, f"d{number}"), exist_ok=True)
    path = os.path.join(root, "blocks")
    if not os.path.exists(path) or os.path.getsize(path) != BLOCKS * SIZE:
        put(path, b"".join(block(number, 0) for number in range(BLOCKS)))
    os.sync()


def work(root, promised, acked):
    model = Model(promised)
    if promised == 0:
        make(root)
    while True:
        do(root, *model.step())
        os.write(acked, b"%d\n" % model.number)


def content(path):
    try:
        with open(path, "rb") as file:
            return file.read()
    except FileNotFoundError:
        return None


def verify(root, promised):
    """What isn't as it may be."""
    if promised == 0:
        return
    before, behind = Model(promised), Model(promised)
    kind, what, new, _ = behind.step()
    for name in {*before.files, *behind.files}:
        found, old = content(os.path.join(root, name)), before.files.get(name)
        if found == old or (name == what and found == behind.files.get(name)):
            continue
        if kind == "append" and name == what and (found or b"")[:len(old or b"")] == (old or b"") and len(found or b"") <= len(old or b"") + len(new):
            continue # (of a tail that wasn't flushed nothing is promised)
        yield f"{name}: {None if found is None else len(found)} bytes aren't those of operation {promised}, which left {None if old is None else len(old)}"
    blocks = content(os.path.join(root, "blocks")) or b""
    for number in range(BLOCKS):
        found, wanted = blocks[SIZE * number:SIZE * (number + 1)], [block(number, it.versions[number]) for it in (before, behind)]
        if any(found[at:at + 64] not in (it[at:at + 64] for it in wanted) for at in range(0, SIZE, 64)):
            yield f"block {number} isn't of version {before.versions[number]}"


def main(do_what):
    root = os.environ["MOUNT"]
    with open(os.environ["ACKED"], "rb") as acked:
        promised = int((acked.read().splitlines() or [b"0"])[-1])
    if do_what == "work":
        work(root, promised, os.open(os.environ["ACKED"], os.O_WRONLY | os.O_APPEND))
    faults = list(verify(root, promised))
    for fault in faults[:5]:
        print(fault)
    return 1 if faults else 0


if __name__ == "__main__":
    if sys.argv[1:] not in (["work"], ["verify"]):
        sys.exit(__doc__)
    sys.exit(main(sys.argv[1]))
