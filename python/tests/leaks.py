"""Tests hold what they leave open: a ResourceWarning, of which most come as an object is thrown away, fails the tests of a file."""
import gc
import sys
import warnings

_seen = []
_hooks = []


def setUpModule():
    """From here on such a warning is an error, which is kept where nobody can catch it."""
    warnings.simplefilter("error", ResourceWarning)
    _hooks.append(sys.unraisablehook)
    sys.unraisablehook = lambda it: _seen.append(it.exc_value) if isinstance(it.exc_value, ResourceWarning) else _hooks[-1](it)


def tearDownModule():
    """Says what was left open."""
    gc.collect()
    sys.unraisablehook = _hooks.pop()
    left = [str(it) for it in _seen]
    _seen.clear()
    if left:
        raise AssertionError(f"left open: {'; '.join(left)}")
