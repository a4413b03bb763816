"""Numbers by chance that are the same in every version of Python."""
import hashlib
from typing import Sequence, TypeVar

Thing = TypeVar("Thing")
WORD = 2**64 - 1


class Chance:
    """A generator of its own for each name: a case more or less changes no other one. It is SplitMix64."""

    def __init__(self, name: str) -> None:
        self.state = int.from_bytes(hashlib.sha256(name.encode()).digest()[:8], "big")

    def below(self, count: int) -> int:
        """A number from 0 to below this one."""
        self.state = (self.state + 0x9e3779b97f4a7c15) & WORD
        mixed = (self.state ^ self.state >> 30) * 0xbf58476d1ce4e5b9 & WORD
        mixed = (mixed ^ mixed >> 27) * 0x94d049bb133111eb & WORD
        return ((mixed ^ mixed >> 31) * count) >> 64

    def within(self, least: int, most: int) -> int:
        return least + self.below(most - least + 1)

    def is_so(self, of_hundred: int) -> bool:
        """Whether something is so that is so in so many of 100 cases."""
        return self.below(100) < of_hundred

    def pick(self, things: Sequence[Thing]) -> Thing:
        return things[self.below(len(things))]

    def some(self, things: Sequence[Thing], count: int) -> list[Thing]:
        """So many of these, in an order by chance, none twice."""
        left = list(things)
        return [left.pop(self.below(len(left))) for _ in range(min(count, len(left)))]
