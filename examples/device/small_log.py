#!/usr/bin/python3
"""A small log on a raw disk, right or with an ordering bug, for `cut` to find:

    small_log.py work KIND      appends, and tells $ACKED the number of each record that is durable
    small_log.py verify KIND    whether the log has all of these, each as it was written

KIND is right; early: the superblock, which says how many records there are, is written before its record; or unflushed: nothing is flushed between the
record and the superblock. A disk without a cache hides the last. $URI is the disk's address."""
import os
import struct
import sys
import zlib

import nbd

BLOCK, RECORDS = 512, 4096


def superblock(count, tail):
    body = struct.pack("<8sQQ", b"smalllog", count, tail)
    return (body + struct.pack("<I", zlib.crc32(body))).ljust(BLOCK, b"\0")


def record(number):
    """Whole blocks: their size, the number, and bytes that follow from it."""
    blocks = 1 + number * 2654435761 % 2**32 % 7
    return struct.pack("<IQ", blocks, number) + (b"%08d" % number) * ((blocks * BLOCK - 12) // 8) + bytes((blocks * BLOCK - 12) % 8)


def read_superblock(disk):
    """How many records there are, and where the next one goes; a new disk has none."""
    block = disk.pread(BLOCK, 0)
    magic, count, tail, checksum = struct.unpack_from("<8sQQI", block)
    if block == bytes(BLOCK):
        return 0, RECORDS
    if magic != b"smalllog" or zlib.crc32(block[:24]) != checksum:
        sys.exit("the superblock isn't one")
    return count, tail


def work(disk, kind, acked):
    count, tail = read_superblock(disk)
    disk.flush()
    os.write(acked, b"%d\n" % count) # (of what was under way, too)
    while tail + 8 * BLOCK <= disk.get_size():
        one = record(count + 1)
        writes = [(one, tail), (superblock(count + 1, tail + len(one)), 0)]
        for data, at in reversed(writes) if kind == "early" else writes:
            disk.pwrite(data, at)
            if kind != "unflushed" or at == 0:
                disk.flush()
        count, tail = count + 1, tail + len(one)
        os.write(acked, b"%d\n" % count)


def verify(disk, acked):
    count, tail = read_superblock(disk)
    promised = int((acked.read().splitlines() or [b"0"])[-1])
    if not promised <= count <= promised + 1:
        sys.exit(f"{promised} records were acknowledged, the superblock says {count}")
    at = RECORDS
    for number in range(1, count + 1):
        wanted = record(number)
        if disk.pread(len(wanted), at) != wanted:
            sys.exit(f"record {number} of {count}, at byte {at}, isn't what was written")
        at += len(wanted)
    if at != tail:
        sys.exit(f"the records end at {at}, the superblock says {tail}")


def main(do, kind):
    disk = nbd.NBD()
    disk.connect_uri(os.environ["URI"])
    if do == "work":
        work(disk, kind, os.open(os.environ["ACKED"], os.O_WRONLY | os.O_APPEND))
    else:
        with open(os.environ["ACKED"], "rb") as acked:
            verify(disk, acked)
    disk.shutdown()


if __name__ == "__main__":
    if len(sys.argv) != 3 or sys.argv[1] not in ("work", "verify") or sys.argv[2] not in ("right", "early", "unflushed"):
        sys.exit(__doc__)
    main(*sys.argv[1:])
