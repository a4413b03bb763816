"""Times as people write them: ticks, or a number with its unit where it is said what a tick is."""
from __future__ import annotations

import re
from fractions import Fraction
from typing import Optional

from .numbers import WORD, number_of
from .refusal import Refusal

NANOSECONDS = {"ns": 1, "us": 10 ** 3, "ms": 10 ** 6, "s": 10 ** 9}
TIME = re.compile(r"([0-9]{1,20}(?:\.[0-9]{1,9})?)(ns|us|ms|s)")


OR_TABLE = "  or a line of the table does: # A tick is 1 us.\n"


def is_with_unit(text: str) -> bool:
    """Whether a text is a number with a unit of time."""
    return TIME.fullmatch(text) is not None


def ticks_of(text: str, tick: str, said: str) -> Optional[int]:
    """The ticks of a time; none of a text that is no time. A time with a unit is refused where it is not said what a
    tick is, or where it is no whole number of ticks; `said` is the option with its word."""
    it = TIME.fullmatch(text)
    if it is None:
        return number_of(text)
    if not tick:
        raise Refusal(f"{said}: {text} needs --tick, which says what a tick is: ns, us, ms or s", below=OR_TABLE)
    ticks = Fraction(it[1]) * NANOSECONDS[it[2]] / NANOSECONDS[tick]
    if ticks.denominator != 1 or ticks >= WORD:
        raise Refusal(f"{said}: {text} is no whole number of ticks of 1 {tick}, below 2^64")
    return int(ticks)
