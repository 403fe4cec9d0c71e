"""The package's programs in C, which the compiler of the machine builds as they are wanted."""
import contextlib
import os
import shutil
import subprocess
import tempfile
from typing import Iterator, Optional

_HERE = os.path.dirname(os.path.abspath(__file__))


@contextlib.contextmanager
def compiled(name: str, wanted: bool = True) -> "Iterator[Optional[str]]":
    """A program of this folder, built by `cc` into a folder that goes behind it; None where that can't be."""
    compiler = shutil.which("cc") or shutil.which("gcc") or shutil.which("clang")
    if not wanted or compiler is None:
        yield None
        return
    with tempfile.TemporaryDirectory() as folder:
        built = os.path.join(folder, name)
        words = [compiler, "-O2", "-o", built, os.path.join(_HERE, f"{name}.c")]
        done = subprocess.run(words, stdin=subprocess.DEVNULL, stdout=subprocess.DEVNULL, stderr=subprocess.DEVNULL, check=False)
        yield built if done.returncode == 0 else None
