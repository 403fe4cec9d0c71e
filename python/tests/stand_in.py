"""A script that stands in for the program while a test runs."""
import os
import pathlib
import shlex
import sys
import unittest
from typing import List


def stand_in(test: unittest.TestCase, room: pathlib.Path, text: str, *words: str) -> List[str]:
    """Lets the environment's PCM name a script that runs this text as Python, these words first, until the test has ended. Answers the words
    that start it."""
    (room / "standin.py").write_text(text, encoding="ascii")
    started = [sys.executable, "-IS", str(room / "standin.py"), *words]
    script = room / "standin"
    script.write_text(f"#!/bin/sh\nexec {shlex.join(started)} \"$@\"\n", encoding="utf-8")
    script.chmod(0o755)
    given = os.environ.get("PCM")
    test.addCleanup(lambda: os.environ.pop("PCM") if given is None else os.environ.update(PCM=given))
    os.environ["PCM"] = str(script)
    return started
