#!/usr/bin/python3
"""Transactions of an embedded data base, for `cut`.

    stores.py work ENGINE SETTING       commits, and tells $ACKED the number of each transaction that is durable
    stores.py verify ENGINE SETTING     whether the data base has all of these, and at most the one under way besides, each as a whole

ENGINE is sqlite, lmdb, rocksdb or leveldb (Debian: python3-lmdb, librocksdb7.8, libleveldb1d); SETTING is sync, as it should be, nosync, or of lmdb
nometasync, whose last transaction may go. The data base is in $MOUNT. Each transaction follows from its number."""
import ctypes
import ctypes.util
import hashlib
import os
import random
import sqlite3
import struct
import sys

KEYS = 3000


def transaction(number):
    """Keys with their values, or None."""
    draw, pairs = random.Random(number), {}
    for _ in range(draw.randrange(1, 12)):
        key = b"k%05d" % draw.randrange(KEYS)
        pairs[key] = None if draw.random() < 0.15 else draw.randbytes(draw.choice((8, 100, 100, 400, 3000)))
    pairs[b"number"] = b"%d" % number
    return pairs


def digest(items):
    whole = hashlib.sha1()
    for key in sorted(items):
        whole.update(struct.pack("<II", len(key), len(items[key])) + key + items[key])
    return whole.hexdigest()


def behind(number):
    """What the data base has behind so many transactions."""
    items = {}
    for one in range(1, number + 1):
        for key, value in transaction(one).items():
            if value is None:
                items.pop(key, None)
            else:
                items[key] = value
    return items


class Sqlite:
    def __init__(self, path, setting):
        self.base = sqlite3.connect(path + "/base.db", isolation_level=None)
        self.base.execute("pragma journal_mode=wal")
        self.base.execute(f"pragma synchronous={'off' if setting == 'nosync' else 'full'}")
        self.base.execute("create table if not exists t(k blob primary key, v blob)")

    def commit(self, pairs):
        self.base.execute("begin immediate")
        for key, value in pairs.items():
            self.base.execute("delete from t where k=?", (key,))
            if value is not None:
                self.base.execute("insert into t values(?, ?)", (key, value))
        self.base.execute("commit")

    def items(self):
        return dict(self.base.execute("select k, v from t"))


class Lmdb:
    def __init__(self, path, setting):
        import lmdb
        self.base = lmdb.open(path, map_size=64 << 20, sync=setting != "nosync", metasync=setting != "nometasync")

    def commit(self, pairs):
        with self.base.begin(write=True) as it:
            for key, value in pairs.items():
                if value is None:
                    it.delete(key)
                else:
                    it.put(key, value)

    def items(self):
        with self.base.begin() as it:
            return {bytes(key): bytes(value) for key, value in it.cursor()}


class Calls:
    """The C interface that RocksDB and LevelDB share."""

    def __init__(self, name, path, setting):
        found = ctypes.util.find_library(name)
        if not found:
            sys.exit(f"there is no library of {name}")
        self.name, self.library = name, ctypes.CDLL(found)
        pointer, byte = ctypes.c_void_p, ctypes.c_ubyte
        options = self.of("options_create", pointer)()
        for option in ("create_if_missing", "paranoid_checks"):
            self.of(f"options_set_{option}", None, pointer, byte)(options, 1)
        self.of("options_set_write_buffer_size", None, pointer, ctypes.c_size_t)(options, 256 << 10)
        self.base = self.checked(self.of("open", pointer, pointer, ctypes.c_char_p, pointer), options, path.encode())
        self.writes, self.reads = self.of("writeoptions_create", pointer)(), self.of("readoptions_create", pointer)()
        self.of("writeoptions_set_sync", None, pointer, byte)(self.writes, setting != "nosync")
        self.of("readoptions_set_verify_checksums", None, pointer, byte)(self.reads, 1)

    def of(self, name, result, *arguments):
        it = getattr(self.library, f"{self.name}_{name}")
        it.restype, it.argtypes = result, arguments
        return it

    @staticmethod
    def checked(call, *arguments):
        """A call whose last argument is where an error goes."""
        error = ctypes.c_char_p()
        answer = call(*arguments, ctypes.byref(error))
        if error.value:
            raise OSError(error.value.decode(errors="replace"))
        return answer

    def commit(self, pairs):
        pointer, text, size = ctypes.c_void_p, ctypes.c_char_p, ctypes.c_size_t
        batch = self.of("writebatch_create", pointer)()
        put = self.of("writebatch_put", None, pointer, text, size, text, size)
        remove = self.of("writebatch_delete", None, pointer, text, size)
        for key, value in pairs.items():
            if value is None:
                remove(batch, key, len(key))
            else:
                put(batch, key, len(key), value, len(value))
        self.checked(self.of("write", None, pointer, pointer, pointer, pointer), self.base, self.writes, batch)
        self.of("writebatch_destroy", None, pointer)(batch)

    def items(self):
        pointer, size, items = ctypes.c_void_p, ctypes.c_size_t(), {}
        it = self.of("create_iterator", pointer, pointer, pointer)(self.base, self.reads)
        self.of("iter_seek_to_first", None, pointer)(it)
        parts = [self.of(f"iter_{part}", pointer, pointer, ctypes.POINTER(ctypes.c_size_t)) for part in ("key", "value")]
        while self.of("iter_valid", ctypes.c_ubyte, pointer)(it):
            # (the size is known behind the call)
            key, value = (ctypes.string_at(start, size.value) for start in (part(it, ctypes.byref(size)) for part in parts))
            items[key] = value
            self.of("iter_next", None, pointer)(it)
        self.checked(self.of("iter_get_error", None, pointer, pointer), it)
        return items


def opened(engine, setting):
    path = os.path.join(os.environ["MOUNT"], engine)
    os.makedirs(path, exist_ok=True)
    return Sqlite(path, setting) if engine == "sqlite" else Lmdb(path, setting) if engine == "lmdb" else Calls(engine, path, setting)


def work(base, promised, acked):
    number = int(base.items().get(b"number", b"0"))
    if number > promised:
        os.write(acked, b"%d\n" % number) # (what was under way came through)
    while True:
        number += 1
        base.commit(transaction(number))
        os.write(acked, b"%d\n" % number)


def verify(base, promised, setting):
    items = base.items()
    found = int(items.get(b"number", b"0"))
    if not promised <= found <= promised + 1:
        return f"{promised} transactions were acknowledged, {found} are there"
    return None if digest(items) == digest(behind(found)) else f"what is there isn't that of {found} transactions"


def main(what, engine, setting):
    with open(os.environ["ACKED"], "rb") as acked:
        promised = int((acked.read().splitlines() or [b"0"])[-1])
    base = opened(engine, setting)
    if what == "work":
        work(base, promised, os.open(os.environ["ACKED"], os.O_WRONLY | os.O_APPEND))
    fault = verify(base, promised, setting)
    print(fault or f"{promised} transactions")
    sys.stdout.flush()
    os._exit(1 if fault else 0)


if __name__ == "__main__":
    if len(sys.argv) != 4 or sys.argv[1] not in ("work", "verify") or sys.argv[2] not in ("sqlite", "lmdb", "rocksdb", "leveldb"):
        sys.exit(__doc__)
    main(*sys.argv[1:])
