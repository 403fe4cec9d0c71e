"""Where the program is, and how it is started."""
import functools
import os
import pathlib
import shutil
import subprocess
from typing import List, Optional, Sequence, Union

from .errors import PcmError
from .words import ALONE

Program = Union[str, "os.PathLike[str]", Sequence[str], None]
# The checkout, or share/pcm of an installed tree, where `pcm` is a link to the installed one.
_TOP = pathlib.Path(__file__).resolve().parent.parent.parent


def program(given: Program = None) -> List[str]:
    """The words that start `pcm`: what is given (a path, or a list of words), else those of the environment's PCM, else the `pcm` of the
    checkout or of the installed tree that this package stands in, else `pcm` of the search path. `FileNotFoundError` where there is none."""
    if given is not None:
        return [os.fspath(given)] if isinstance(given, (str, os.PathLike)) else list(given)
    named = os.environ.get("PCM")
    if named:
        return [named]
    here = _TOP / "pcm"
    if here.is_file() and os.access(here, os.X_OK):
        return [str(here)]
    found: Optional[str] = shutil.which("pcm")
    if found is None:
        raise FileNotFoundError("no program pcm: name it by the argument `program` or by PCM in the environment")
    return [found]


def command(name: str, given: Program = None) -> List[str]:
    """The words that start a command of `pcm` (`run`, `gen`, .., `stream`, `explain` or `view`). Where `pcm` is that of a checkout or an installed one, these
    name the built program behind it, which is asked for once in a process: it is built first where it isn't yet, which tells on standard
    error how far it is, and no later call pays for the question. `PcmError` where it can't be built. Another program, as a script around
    `pcm`, is started as it is."""
    words = program(given)
    if len(words) != 1:
        return [*words, name]
    built = _built(shutil.which(words[0]) or words[0], name if name in ALONE else None)
    if built is None:
        return [*words, name]
    return [built] if name in ALONE else [built, name]


@functools.lru_cache(maxsize=None)
def _built(wrapper: str, alone: Optional[str]) -> Optional[str]:
    """The built program behind `pcm`, or that of a command which has one alone; none where this isn't the `pcm` that builds, or that was installed."""
    real = pathlib.Path(os.path.realpath(wrapper))
    if real.name != "pcm" or not ((real.parent / "crates.txt").is_file() or (real.parent.parent / "libexec" / "pcm").is_dir()):
        return None
    words = [wrapper, "path", *([alone] if alone else [])]
    done = subprocess.run(words, stdin=subprocess.DEVNULL, stdout=subprocess.PIPE, check=False)
    if done.returncode != 0:
        raise PcmError(done.returncode, f"the program isn't built: `{' '.join(words)}` ended with status {done.returncode}")
    built = os.fsdecode(done.stdout.rstrip(b"\n"))
    return built if os.path.isabs(built) and os.access(built, os.X_OK) else None


def words_of(options: "dict[str, object]") -> List[str]:
    """Options as words: `write_queue=4` is `--write-queue 4`. The program tells which there are. One with the value None is left out."""
    return [word for name, value in options.items() if value is not None for word in ("--" + name.replace("_", "-"), str(value))]
