"""What may go wrong, by the program's statuses."""
import re
from typing import Iterable, Optional, Sequence

from .words import Handed, explain, wrong_handed


class PcmError(Exception):
    """The program ended otherwise than with a whole run. `status` is its status, `line` what it said on standard error, and `why`, where it
    is known, what was wrong with the words or the trace. Where a `Module` refuses a row, its program goes on: `status` is None, and `line` what
    the program would have said."""

    def __init__(self, status: Optional[int], line: str, why: Optional[str] = None) -> None:
        said = line or f"pcm ended with status {status}"
        super().__init__(f"{why} ({said})" if why else said)
        self.status = status
        self.line = line
        self.why = why


class UsageError(PcmError):
    """An option that there is not, or a value out of its range (status 2): `why` tells which word, and what it may be."""


class TraceError(PcmError):
    """A row of the trace is faulty (status 3; None where a `Module` refuses it): `row` is its number, and `kind` a word of docs/FORMATS.md, as
    `order` or `payload`; `why` tells the line of the file, where the trace is one, or else the row, and what is wrong there."""

    def __init__(self, status: Optional[int], line: str, why: Optional[str] = None) -> None:
        super().__init__(status, line, why)
        found = re.fullmatch(r"trace row (\d+): (\w+)", line)
        self.row: Optional[int] = int(found.group(1)) if found else None
        self.kind: Optional[str] = found.group(2) if found else None


class ReadFault(PcmError):
    """The program couldn't read its input (status 4)."""


class WriteFault(PcmError):
    """The program couldn't write its output (status 5)."""


class TooLong(PcmError):
    """The trace has more bytes or rows than there may be (status 6)."""


class OutOfMemory(PcmError, MemoryError):
    """The program had no memory for the module (status 7)."""


_BY_STATUS = {2: UsageError, 3: TraceError, 4: ReadFault, 5: WriteFault, 6: TooLong, 7: OutOfMemory}


def error_of(
    status: Optional[int], said: bytes, words: Sequence[str] = (), trace: Optional[str] = None, handed: Iterable[Handed] = ()
) -> PcmError:
    """The exception for a status of the program and what it said on standard error, where it was started with these words (the command,
    then its options) over this file, or was handed these rows, one by one or as a trace."""
    line = said.decode(errors="replace").strip()
    why = explain(list(words), line, trace) if words and status in (2, 3, 6) else None
    if why is None and status == 3:
        why = wrong_handed(words, line, handed)
    return _BY_STATUS.get(status if status is not None else -1, PcmError)(status, line, why)
