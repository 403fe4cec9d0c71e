"""Drives `pcm`, a proved simulator of a phase-change memory module.

Whole traces, by the program's command `run`::

    import pcm
    done = pcm.run([pcm.Write(0, 7, bytes(64)), pcm.Read(100, 7)], policy="pause")
    for row in done.rows:
        print(row.number, row.outcome)

Row by row, over a pipe to its second program, `stream`, or in this process, with answers as they become known::

    with pcm.Module(banks=4, policy="cancel") as module:
        module.write(0, 7, b"\\xff" * 64)
        module.read(100, 7)
        for outcome in module.settle(1000):
            print(outcome)

`module.settle_until(row, tick)` goes on until a row has its outcome, and no further: `module.tick` is the tick that it reached. With
`copies=True` a module is copied where it stands, by `module.copy()`.

How a module ages, as a stream goes on::

    for snapshot in pcm.snapshots("trace.csv", every=10_000, lines=256):
        print(snapshot.rows, snapshot.most, snapshot.mean, snapshot.retired)

What a saved module holds, of any size (`./pcm stream --print image < trace.csv > saved.image`)::

    image = pcm.Image.read(open("saved.image", "rb").read())
    print(image.newest(7).hex(), image.place(7))

Why results of a trace break a rule, and what would be right there::

    told = pcm.explain("trace.csv", "results.csv", policy="cancel")
    if told is not None:
        print(told.row, told.clause, told.sentence, told.right)

`pcm.explain_all` tells the same of the first such row of each bank.

`python3 -m pcm report --help` tells how to make a page of pictures and numbers of runs, `energy --help` what their writes cost,
`latencies --help` how long rows took, `explain --help` how to draw a row that breaks a rule, and `parts --help` how to play a stream on
several processors.

Ticks are the simulation's own unit of time, from 0 to 2**40, and never fall. A line is a line of the module, from 0. Options are those of
the command line, with `_` for `-`: `docs/USING.md` of the repository has them all. A wrong option, a fault of the trace and an end of the
program that isn't one of a whole run are exceptions (`PcmError`), which carry the program's status, its line, and why. A program that isn't
built yet is built first, which tells on standard error how far it is.
"""
from .errors import OutOfMemory, PcmError, ReadFault, TooLong, TraceError, UsageError, WriteFault
from .explaining import explain, explain_all
from .explanation import (
    Answer, Asks, BankFact, BytesFact, Explanation, ExplanationError, Fact, ReadBetween, RowFact, RowsFact, StoredBy, TickFact,
    read_explanation,
)
from .frames import to_frame
from .image import Bank, Entry, Image, ImageError, Region
from .module import Module
from .outcomes import (
    Backlog, Busy, Cut, Forwarded, Full, Lost, Merged, Newest, Outcome, Queued, Read as ReadOutcome, Settled, Shape, Stored, Wear, Worn,
)
from .program import command, program
from .rows import Look, MaskedWrite, Peek, PowerCut, Query, Read, Settle, SettleUntil, Write, numbered, read_trace, write_trace
from .snapshots import Snapshot, SnapshotError, read_snapshots, snapshots
from .whole import Result, ResultRow, WearLine, run

__version__ = "2.0.0"
__all__ = [
    "Answer", "Asks", "Backlog", "Bank", "BankFact", "Busy", "BytesFact", "Cut", "Entry", "Explanation", "ExplanationError", "Fact",
    "Forwarded", "Full", "Image", "ImageError", "Look", "Lost", "MaskedWrite", "Merged", "Module", "Newest", "OutOfMemory", "Outcome", "PcmError", "Peek",
    "PowerCut", "Query", "Queued", "Read", "ReadBetween", "ReadFault", "ReadOutcome", "Region", "Result", "ResultRow", "RowFact",
    "RowsFact", "Settle", "SettleUntil", "Settled", "Shape", "Snapshot", "SnapshotError", "Stored", "StoredBy", "TickFact", "TooLong",
    "TraceError", "UsageError", "Wear", "WearLine", "Worn", "Write", "WriteFault", "command", "explain", "explain_all", "numbered",
    "program", "read_explanation", "read_snapshots", "read_trace", "run", "snapshots", "to_frame", "write_trace",
]
