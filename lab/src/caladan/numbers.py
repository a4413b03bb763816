"""Numbers in words: digits alone, or with some after a point."""
from __future__ import annotations

from typing import Optional, Sequence

WORD = 2 ** 64
# What is said below a name of a task where no names are known.
UNNAMED = ("  --names kv,batch says what the tasks are called, in the order of the table; or comments in it: "
           "[[task]] # kv\n")


def number_of(word: str) -> Optional[int]:
    """A number in digits, below 2^64."""
    if not (word.isascii() and word.isdigit()):
        return None
    digits = word.lstrip("0") or "0"
    number = int(digits) if len(digits) <= 20 else WORD
    return number if number < WORD else None


def thousandths_of(word: str) -> Optional[int]:
    """A number in thousandths: digits, and up to three more after a point."""
    whole, point, part = word.partition(".")
    ones = number_of(whole)
    if ones is None or (point and (number_of(part) is None or len(part) > 3)):
        return None
    number = 1000 * ones + int(part.ljust(3, "0") if point else "0")
    return number if number < WORD else None


def task_named(names: Sequence[str], word: str) -> Optional[int]:
    """The task that a word names: by its number, or by the first of these names that it is."""
    number = number_of(word)
    if number is not None:
        return number
    return names.index(word) if word in names else None
