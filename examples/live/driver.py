#!/usr/bin/env python3
"""Writes a line of a module, knows at once that the write is durable, and waits until the array has it. driver.c does the same."""
import pathlib
import sys

sys.path.insert(0, str(pathlib.Path(__file__).resolve().parents[2] / "python"))
import pcm  # noqa: E402

with pcm.Module() as module:
    row = module.write(0, 7, bytes([1, 2, 3]) + bytes(61))
    if not any(isinstance(it, (pcm.Full, pcm.Worn)) for it in module.settle(0)):
        print(f"row {row}: accepted, so durable")
    for it in module.settle_until(row, 1000):
        print(f"row {it.row}: {it.word} at tick {it.tick}")
    print(f"the next row may come at tick {module.tick}")
