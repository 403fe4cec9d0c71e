"""Units of a device: what a tick, a driven cell and a sensed bit stand for."""
import re
from typing import Dict, Iterable, NamedTuple, Optional

from .errors import UsageError
from .words import COMMANDS


class Device(NamedTuple):
    """Numbers that were published of a device: nanoseconds of a tick, picojoules of a cell that is driven to 1 (`set_pj`) and to 0
    (`reset_pj`), and of a bit that is sensed; where they stand; and the options of a module with its times."""

    tick_ns: float
    set_pj: float
    reset_pj: float
    sense_pj: float
    source: str
    options: str


DEVICES: Dict[str, Device] = {
    "lee2009": Device(
        5.0, 13.5, 19.2, 2.47,
        "Lee, Ipek, Mutlu and Burger, Architecting Phase Change Memory as a Scalable DRAM Alternative, ISCA 2009: a sense of 55 ns, "
        "a write of 150 ns, 13.5 pJ a set, 19.2 pJ a reset, 2.47 pJ a bit of an array read, 10^8 writes of a cell",
        "--read-ticks 11 --iter-ticks 41 --lo 100000000 --hi 100000000",
    ),
}
DEFAULT = "lee2009"


class Units(NamedTuple):
    """What counts are turned into energy and time by."""

    tick_ns: float = DEVICES[DEFAULT].tick_ns
    set_pj: float = DEVICES[DEFAULT].set_pj
    reset_pj: float = DEVICES[DEFAULT].reset_pj
    sense_pj: float = DEVICES[DEFAULT].sense_pj

    def words(self) -> str:
        """These units in a sentence."""
        return f"a tick {self.tick_ns:g} ns, a set {self.set_pj:g} pJ, a reset {self.reset_pj:g} pJ, a sensed bit {self.sense_pj:g} pJ"


def units_of(device: Optional[str], **given: Optional[str]) -> Units:
    """The units of a device by its name, but for those that are given as text: `tick_ns`, `set_pj`, `reset_pj`, `sense_pj`."""
    if device is not None and device not in DEVICES:
        raise UsageError(2, f"--device {device}: it may be {', '.join(DEVICES)}")
    known = DEVICES[device or DEFAULT]
    numbers = {name: getattr(known, name) for name in Units._fields}
    for name, text in given.items():
        if text is not None:
            numbers[name] = positive(f"--{name.replace('_', '-')}", text)
    return Units(**numbers)


def other_times(device: Optional[str], tick_ns: "Optional[str | float]", runs: Iterable[Dict[str, str]]) -> str:
    """A line for a table's foot where runs by these options haven't the times of the device whose tick is taken: of the one that was named,
    or else, where no tick is given, of the default."""
    if device is None and tick_ns is not None:
        return ""
    known = DEVICES[device or DEFAULT]
    times = dict(re.findall(r"--(\w+-ticks) (\d+)", known.options))
    own = known.tick_ns if tick_ns is None else float(tick_ns)

    def has(options: Dict[str, str], name: str) -> bool:
        option = COMMANDS["stream"].options[name]
        value = options.get(name, option.default)
        return option.takes(value) and int(value) * own == int(times[name]) * known.tick_ns

    if all(has(options, name) for options in runs for name in times):
        return ""
    words = " ".join(f"--{name} {ticks}" for name, ticks in times.items())
    return f"(a module with the times of {device or DEFAULT} has {words}, a tick of {known.tick_ns:g} ns: not every run here)\n"


def positive(option: str, text: str) -> float:
    """A number above 0."""
    if not re.fullmatch(r"\d{1,12}(\.\d{1,12})?", text, re.ASCII) or float(text) == 0:
        raise UsageError(2, f"{option} takes a number above 0, as 10 or 2.5, not {text!r}")
    return float(text)
