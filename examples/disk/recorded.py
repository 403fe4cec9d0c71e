#!/usr/bin/env python3
"""The log of what a relay asked its disk: each request as it was asked, behind a first line, with the error of its answer in the place of its cookie; behind a
write that a power cut stopped, how many of its bytes are there. FILE.args has the options. So a disk can be made again as any request left it.

    recorded.py LOG     prints it: number, request, offset, bytes, error, bytes that a stopped write made, the first 16 bytes of a write"""
import fcntl
import os
import struct
import sys
from typing import IO, Iterator, List, NamedTuple, Optional, Tuple

import frames
from frames import Bytes

HEAD = b"requests of pcm disk\n"
SIZE = 28  # of a record without the bytes of a write
NOTE = 0x8001  # how many bytes the stopped write before has made
WORDS = {frames.READ: "read", frames.WRITE: "write", frames.FLUSH: "flush", NOTE: "made"}
Options = List[str]


class Fault(Exception):
    """A log that is none, or one of another disk."""


class Record(NamedTuple):
    """A request, and its answer's error; of NOTE `at` is how many bytes were made."""

    command: int
    at: int
    size: int
    error: int = 0
    flags: int = 0
    data: Bytes = b""

    def packed(self) -> bytes:
        """Its bytes, without those of a write."""
        return struct.pack(">IHHQQI", frames.REQUEST, self.flags, self.command, self.error, self.at, self.size)


def records(file: IO[bytes], name: str, with_data: bool = True) -> Iterator[Record]:
    """All whole records of an open log, from where it stands; it stands behind them in the end."""
    end = file.tell()
    while len(head := file.read(SIZE)) == SIZE:
        magic, flags, command, error, at, size = struct.unpack(">IHHQQI", head)
        if magic != frames.REQUEST or command not in WORDS:
            raise Fault(f"{name}: at byte {end} there is no request")
        more, data = size if command == frames.WRITE else 0, b""
        if with_data:
            data = file.read(more)
            if len(data) < more:
                break
        elif os.fstat(file.fileno()).st_size < file.seek(more, os.SEEK_CUR):
            break
        end += SIZE + more
        yield Record(command, at, size, error, flags, data)
    file.seek(end)


def opened(name: str) -> IO[bytes]:
    """A log that is read, behind its first line."""
    file = open(name, "rb")  # pylint: disable=consider-using-with
    if file.read(len(HEAD)) != HEAD:
        raise Fault(f"{name} is no log: it doesn't begin with '{HEAD.decode().strip()}'")
    return file


def count(name: str, since: Tuple[int, int] = (0, len(HEAD))) -> Tuple[int, int]:
    """How many requests a log has, and where the last ends; `since` is what this answered earlier."""
    with opened(name) as file:
        file.seek(since[1])
        return since[0] + sum(1 for _ in records(file, name, with_data=False)), file.tell()


def options_of(name: str) -> Options:
    """The words of the disk whose log it is."""
    try:
        with open(f"{name}.args", encoding="ascii") as file:
            return file.read().split()
    except (OSError, ValueError) as error:
        raise Fault(f"{name}.args: {error}: it should have the options of {name}") from error


class Log:
    """One that is written."""

    def __init__(self, name: str, options: Options, only: Optional[int]) -> None:
        """Of a log with `only` its first requests alone are asked again, and it stays as it is."""
        self.name, self.only = name, only
        self.file = open(name, "rb" if only is not None else "a+b", buffering=0)  # pylint: disable=consider-using-with
        try:
            fcntl.flock(self.file, (fcntl.LOCK_SH if only is not None else fcntl.LOCK_EX) | fcntl.LOCK_NB)
        except BlockingIOError:
            raise Fault(f"{name}: another relay has it open") from None
        if os.fstat(self.file.fileno()).st_size > 0 or only is not None:
            opened(name).close()
            differ(name, options_of(name), options)
        else:
            with open(f"{name}.args", "w", encoding="ascii") as file:
                file.write(" ".join(options) + "\n")
            self.file.write(HEAD)

    def again(self) -> Iterator[Record]:
        """What was asked; what stands behind is taken away, being a request that was never answered."""
        with opened(self.name) as file:
            number = 0
            for number, record in enumerate(records(file, self.name), 1):
                if self.only is not None and number > self.only:
                    return
                yield record
            if self.only is not None and number < self.only:
                raise Fault(f"{self.name} has {number} requests")
            if self.only is None:
                os.ftruncate(self.file.fileno(), file.tell())

    def keep(self, record: Record) -> None:
        """One more."""
        if self.only is None:
            whole = SIZE + len(record.data)
            if os.writev(self.file.fileno(), (record.packed(), record.data)) != whole:
                raise OSError(f"{self.name}: it takes no more bytes")

    def flush(self) -> None:
        """They are on the disk that the log is on."""
        if self.only is None:
            os.fdatasync(self.file.fileno())


def differ(name: str, found: Options, wanted: Options) -> None:
    """Refuses a log of another disk, by the first word that differs."""
    for one, other in zip([*found, "nothing"], [*wanted, "nothing"]):
        if one != other:
            raise Fault(f"{name} was written with other options: {name}.args has {one}, this disk {other}")


def main(name: str) -> None:
    """Prints it."""
    print("number,request,offset,bytes,error,made,first")
    with opened(name) as file:
        for number, it in enumerate(records(file, name), 1):
            made = it.at if it.command == NOTE else ""
            at = "" if it.command == NOTE else it.at
            print(number, WORDS[it.command], at, it.size, it.error, made, bytes(it.data[:16]).hex(), sep=",")


if __name__ == "__main__":
    if len(sys.argv) != 2:
        sys.exit(__doc__)
    try:
        main(sys.argv[1])
    except (Fault, OSError) as fault:
        sys.exit(str(fault))
    except BrokenPipeError:
        pass
