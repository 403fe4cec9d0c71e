"""When the power of a relay's disk is cut, and which cuts its clients are told of."""
import random
from typing import Dict, Optional


class Power:
    """The cuts that came, and those that are to be told."""

    def __init__(self, on_cut: str, cuts: int, every: int, requests: int, seed: int) -> None:
        """The program draws `cuts`, one each `every` ticks or so; `requests`: one is told before each such request or so that writes or flushes."""
        self.on_cut, self.left, self.every, self.requests = on_cut, cuts, every, requests
        self.told = self.ridden = 0
        self.draw = random.Random(seed)
        self.due: Optional[int] = None  # how many cuts come up to the one that is asked for
        self.drawn, self.asked = self.draw_request(), 0  # how many requests come up to a cut between them; 0: none is to come

    def draw_request(self) -> int:
        return self.draw.randint(1, 2 * self.requests) if self.requests else 0

    def comes(self, is_told: Optional[bool] = None) -> bool:
        """The program's power was cut: whether clients are told, by what was asked for where it isn't said."""
        self.left -= 1
        if is_told is None:
            is_told = self.due == 1 or self.on_cut == "drop"
        self.told += is_told
        self.ridden += not is_told
        if is_told:
            self.due = None
        elif self.due is not None:
            self.due = max(1, self.due - 1)
        return is_told

    def before_a_request(self) -> bool:
        """One comes that writes or flushes: whether the power is cut before it."""
        is_due = 1 in (self.drawn, self.asked)
        self.asked -= self.asked > 0
        if self.requests:
            self.drawn = self.drawn - 1 or self.draw_request()
        return is_due

    def asks(self, words: str) -> bool:
        """`cut N`, `cut N requests` or `cut off`; whether it is one of these."""
        word, *rest = words.split() or [""]
        if word != "cut" or not rest or (rest == ["off"]) == (rest[0].isdigit() and self.left > 0):
            return False
        if rest == ["off"]:
            self.due, self.asked = None, 0
        elif rest[1:] == ["requests"]:
            self.asked = int(rest[0])
        elif not rest[1:]:
            self.due = 1 + int(rest[0]) // self.every
        return rest[1:] in ([], ["requests"])

    def counts(self) -> Dict[str, int]:
        """What is told of it."""
        return {"cut": self.told, "ridden": self.ridden}
