#!/usr/bin/python3
"""`pcm disk` by libnbd, which starts it itself: bytes at odd offsets, zeros, cuts that are told. Prints 'N passed, M failed'.

    try_libnbd.py PCM"""
import errno
import random
import sys

import nbd

PCM = sys.argv[1]
passed = failed = 0


def check(holds: bool, what: str) -> None:
    """Counts what was tried."""
    global passed, failed
    if holds:
        passed += 1
    else:
        failed += 1
        print(f"examples/disk: failed: {what}", flush=True)


def disk(*words: str) -> nbd.NBD:
    """A client of a new disk."""
    it = nbd.NBD()
    it.connect_command([PCM, "disk", *words])
    return it


def main() -> None:
    """All tries."""
    it, draw = disk("--misses", "1"), random.Random(4)
    size = it.get_size()
    check(size == 24576 and it.can_flush() and it.can_fua() and not it.is_read_only(), "what is told of the disk")
    shadow, right = bytearray(size), True
    for _ in range(100):
        at = draw.randrange(size)
        data = draw.randbytes(min(size - at, draw.randrange(1, 9000)))
        it.pwrite(data, at, nbd.CMD_FLAG_FUA if draw.random() < 0.5 else 0)
        shadow[at:at + len(data)] = data
        at = draw.randrange(size)
        count = min(size - at, draw.randrange(1, 9000))
        right &= it.pread(count, at) == shadow[at:at + count]
    it.flush()
    check(right and it.pread(size, 0) == shadow, "any bytes at any offset")
    # (several requests at once: they are answered in order)
    buffers = [nbd.Buffer(512) for _ in range(20)]
    cookies = [it.aio_pread(buffer, 512 * i) for i, buffer in enumerate(buffers)]
    for cookie in cookies:
        while not it.aio_command_completed(cookie):
            it.poll(-1)
    check(all(buffer.to_bytearray() == shadow[512 * i:512 * i + 512] for i, buffer in enumerate(buffers)), "requests under way")
    it.shutdown()
    it = disk("--cut-ticks", "200")
    found = []
    for i in range(3):
        try:
            it.pwrite(bytes([i + 1]) * 4096, 0)
            found.append(0)
        except nbd.Error as error:
            found.append(getattr(errno, error.errno))
    check(sorted(found) == [0, 0, errno.ESHUTDOWN], f"a cut is told once: {found}")
    check(it.pread(4096, 0) in (bytes([2]) * 4096, bytes([3]) * 4096), "its sector is the old one or the new one")
    it.shutdown()
    print(f"{passed} passed, {failed} failed")
    sys.exit(failed > 0)


if __name__ == "__main__":
    main()
