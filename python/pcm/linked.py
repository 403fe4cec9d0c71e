"""A module in this process, by the shared object of the library for C (c/pcm.h says what its calls are)."""
import collections
import ctypes
import functools
import os
import pathlib
import struct
import weakref
from typing import Callable, Deque, Dict, Iterator, List, Optional, Tuple

from .errors import OutOfMemory, PcmError, TooLong, UsageError
from .outcomes import KINDS, MARKS, Backlog, Outcome, Read, Shape, Stored, Wear
from .program import words_of
from .rows import Given
from .words import COMMANDS, wrong_word

# The loader's name of it; where it is: in a wheel, in a checkout where tools/build library has made it, in an installed tree.
_NAME = "libpcm.so.1"
_HERE = pathlib.Path(__file__).resolve().parent
_TOP = _HERE.parent.parent
_OK, _TOO_MANY, _NO_MEMORY = 0, 9, 11
_NUMBERS = (
    "banks", "regions", "lines", "line", "spares", "write_queue", "read_queue", "psi", "read_ticks", "iter_ticks", "policy", "registers", "misses",
    "lo", "hi",
)
# What the library does anyway.
_ANYWAY = {"input": ("source",), "print": ("rows",), "tell": ("nothing", "shape", "module"), "end": ("drain",), "until": ("end",)}
# The bytes of a struct pcm_module_outcome.
_OUTCOME = 152


class Unlinked(ValueError):
    """The library doesn't do what is asked for."""


class _Handle(ctypes.Structure):
    _fields_ = [("is_open", ctypes.c_bool), ("at", ctypes.c_void_p)]


class _Options(ctypes.Structure):
    _fields_ = [("size", ctypes.c_uint32), *((name, ctypes.c_uint32) for name in _NUMBERS), ("seed", ctypes.c_uint64)]


class _Worn(ctypes.Structure):
    _fields_ = [(name, ctypes.c_uint64) for name in ("pulses", "most", "mean", "pointers", "senses", "set", "reset")]


class _Waits(ctypes.Structure):
    _fields_ = [("writes", ctypes.c_uint32), ("reads", ctypes.c_uint32), ("mark", ctypes.c_uint32)]


def _is_old(library: pathlib.Path) -> bool:
    """Whether some text of the crates is newer than a checkout's library."""
    made = library.stat().st_mtime
    return any(it.stat().st_mtime > made for part in ("src", "specs") for it in (_TOP / "crates").glob(f"*/{part}/**/*") if it.is_file())


@functools.lru_cache(maxsize=None)
def _found() -> Optional[str]:
    built, installed = _TOP / "crates" / "pcm_c" / "out" / _NAME, _TOP.parent.parent / "lib" / _NAME
    if (_HERE / _NAME).is_file():
        return str(_HERE / _NAME)
    if built.is_file() and not _is_old(built):
        return str(built)
    return str(installed) if _TOP.parent.name == "share" and installed.is_file() else None


def library() -> Optional[str]:
    """The path of the shared object: the environment's PCM_LIBRARY, else where the package's own stands; None where there is none. (In a checkout one
    that is older than the crates' text doesn't count.)"""
    return os.environ.get("PCM_LIBRARY") or _found()


@functools.lru_cache(maxsize=None)
def _loaded(path: str) -> ctypes.CDLL:
    """The library. Its calls are given C's values, bytes and numbers below 2**31 as they are: types of their own that ctypes looks at would take longer
    than the module. `OSError` where it can't be loaded."""
    calls = ctypes.CDLL(path)
    if not hasattr(calls, "pcm_module_newest"):
        raise OSError(f"{path} isn't {_NAME}")
    calls.pcm_module_tick.restype = ctypes.c_uint64
    return calls


def has(given: Dict[str, object]) -> bool:
    """Whether there is a library, and it does what these options ask for."""
    values = {name: str(value) for name, value in given.items() if value is not None}
    return library() is not None and all(_knows(name, value) for name, value in values.items())


def _knows(name: str, value: str) -> bool:
    return name in _NUMBERS or name == "seed" or value in _ANYWAY.get(name, ()) or name.replace("_", "-") not in COMMANDS["stream"].options


def _options(given: Dict[str, object]) -> _Options:
    """Options for the library. `UsageError` where a word is wrong, `Unlinked` where the library doesn't do what is asked for."""
    table = COMMANDS["stream"].options
    values = {name: str(value) for name, value in given.items() if value is not None}
    if wrong := wrong_word(["stream", *words_of(given)]):
        raise UsageError(2, "usage: pcm stream [options]", wrong)
    for name, value in values.items():
        if not _knows(name, value):
            raise Unlinked(f"the library has no {name}={value!r}: way=\"program\" has")
    made = _Options(size=ctypes.sizeof(_Options), seed=int(values.get("seed", "0")))
    for name in _NUMBERS:
        option = table[name.replace("_", "-")]
        value = values.get(name, option.default)
        setattr(made, name, option.choices.index(value) if name in ("policy", "registers") else int(value))
    return made


def _rest(asked: _Options) -> Tuple[int, int, int, int, str, str]:
    """What a module is besides its sizes."""
    table = COMMANDS["stream"].options
    policy, registers = (table[name].choices[getattr(asked, name)] for name in ("policy", "registers"))
    return asked.seed, asked.psi, asked.read_ticks, asked.iter_ticks, policy, registers


class Linked:
    """A module of these options in this process, of this shape. `OSError` where the library isn't there or can't be loaded, and as `_options`."""

    can_be_copied = False

    def __init__(self, options: Dict[str, object]) -> None:
        path = library()
        if path is None:
            raise FileNotFoundError(f"no {_NAME}: tools/build library makes it; PCM_LIBRARY names one")
        asked = _options(options)
        self._calls, handle, self._row = _loaded(path), _Handle(), bytearray(_OUTCOME)
        self._at, self._to = ctypes.byref(handle), ctypes.byref((ctypes.c_char * _OUTCOME).from_buffer(self._row))
        # (kind, row, tick, place, how many bytes, and these)
        self._unpack = struct.Struct(f"=IIQII{asked.line}s").unpack_from
        if status := self._calls.pcm_module_open(self._at, ctypes.byref(asked)):
            raise OutOfMemory(7, "out of memory") if status == _NO_MEMORY else PcmError(None, f"pcm_module_open answers {status}")
        self._freed = weakref.finalize(self, self._calls.pcm_module_close, self._at)
        self._write, self._read = self._calls.pcm_module_write, self._calls.pcm_module_read
        self._tick, self._size = ctypes.c_uint64(), ctypes.c_size_t()
        self._known: Deque[Outcome] = collections.deque()
        self._falls_short = self._is_finished = False
        self._line = 0
        self.status: Optional[int] = None
        sizes = (asked.banks, asked.regions, asked.lines, asked.spares, asked.line, asked.write_queue, asked.read_queue)
        self.shape = Shape(1, *sizes) if options.get("tell") != "module" else Shape(2, *sizes, *_rest(asked))

    def hand(self, number: int, op: str, tick: int, line: int, data: Given) -> None:
        """Hands a row in, which has this number."""
        self._tick.value = tick
        if op == "W":
            self._size.value = len(data)
            status = self._write(self._at, self._tick, line, data, self._size)
        elif op == "R":
            status = self._read(self._at, self._tick, line)
        elif isinstance(data, str):
            given, whole = bytes(it != "." for it in data[::2]), bytes.fromhex(data.replace("..", "00"))
            size = ctypes.c_size_t(len(whole))
            status = self._calls.pcm_module_write_masked(self._at, self._tick, line, whole, size, given, size)
        else:
            status = self._calls.pcm_module_cut(self._at, self._tick)
        if status != _OK:
            raise self._fault(status)

    def settle(self, number: int, op: str, tick: int, row: Optional[int]) -> int:
        """The module settles; answers the tick that was reached."""
        self._tick.value = tick
        if op == "P":
            self._line = row or 0
        if op != "U":
            status = self._calls.pcm_module_settle(self._at, self._tick)
        elif row is None:
            status = self._calls.pcm_module_settle_any(self._at, self._tick)
        else:
            status = self._calls.pcm_module_settle_until(self._at, ctypes.c_uint32(row), self._tick)
        if status != _OK:
            raise self._fault(status)
        return tick if op != "U" else int(self._calls.pcm_module_tick(self._at))

    def await_told(self) -> None:
        """(It is known.)"""

    def banks(self) -> List[Backlog]:
        """What waits in each bank."""
        tick, waits, told = int(self._calls.pcm_module_tick(self._at)), _Waits(), []
        for bank in range(self.shape.banks):
            self._calls.pcm_module_bank(self._at, bank, ctypes.byref(waits))
            told.append(Backlog(tick, bank, waits.writes, waits.reads, MARKS[waits.mark]))
        return told

    def wear(self) -> Wear:
        """How worn the module is."""
        told = _Worn()
        self._calls.pcm_module_look(self._at, ctypes.byref(told))
        return Wear(int(self._calls.pcm_module_tick(self._at)), *(getattr(told, name) for name, _ in _Worn._fields_))

    def newest(self) -> bytes:
        """The newest bytes of the line of the last peek."""
        told = ctypes.create_string_buffer(self.shape.line)
        self._calls.pcm_module_newest(self._at, ctypes.c_uint32(self._line), told, ctypes.c_size_t(self.shape.line))
        return told.raw

    def take(self) -> List[Outcome]:
        """The outcomes that are known and weren't taken."""
        self._drain()
        known = list(self._known)
        self._known.clear()
        return known

    def coming(self) -> Iterator[Outcome]:
        """The same, one by one."""
        self._drain()
        while self._known:
            yield self._known.popleft()

    def copied(self, learn: Callable[[Shape], None]) -> "Linked":
        """(None can be made.)"""
        raise NotImplementedError

    def finish(self) -> None:
        """No more rows come: the banks drain."""
        if self._is_finished:
            return
        if not self._freed.alive:
            raise ValueError("the module is closed")
        self._calls.pcm_module_finish(self._at)
        self._drain()
        self._is_finished, self.status = True, int(self._falls_short)

    def close(self) -> None:
        """Frees what it has; outcomes that are known stay."""
        if self._freed.alive:
            self._drain()
        self._freed()

    @property
    def has_ended(self) -> bool:
        """Whether it was finished, or closed."""
        return self._is_finished or not self._freed.alive

    def _drain(self) -> None:
        """Takes all outcomes that wait."""
        following, at, to, row, unpack, put = self._calls.pcm_module_next, self._at, self._to, self._row, self._unpack, self._known.append
        while following(at, to) == _OK:
            kind, number, tick, place, size, data = unpack(row)
            told = _NEW(KINDS[kind])
            fields = told.__dict__
            fields["row"] = number
            fields["tick"] = tick
            if kind in _PLACED:
                fields["place"] = place
            if size:
                fields["data"] = data
            elif kind in _SHORT:
                self._falls_short = True
            put(told)

    def _fault(self, status: int) -> Exception:
        """Why a call was refused."""
        if status == _NO_MEMORY:
            return OutOfMemory(7, "out of memory")
        if status == _TOO_MANY:
            return TooLong(6, "trace too long")
        return PcmError(None, f"the library answers {status}")


# (an outcome is made without its class's checks that nothing is set twice, which take as long as all else)
_NEW = object.__new__
_PLACED = frozenset(kind for kind, it in enumerate(KINDS) if it in (Stored, Read))
_SHORT = frozenset(kind for kind, it in enumerate(KINDS) if it.falls_short)
