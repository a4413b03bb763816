"""Units of time, lengths in them, and the ticks of a turn, all exactly."""
from __future__ import annotations

import re
from fractions import Fraction

from ..refusal import Refusal

# Each unit with the power of ten of nanoseconds that it is.
POWERS: dict[str, int] = {"ns": 0, "us": 3, "ms": 6, "s": 9}
MOST_TICKS = 1_000_000_000
LENGTH = re.compile(r"(\d+(?:\.\d{1,9})?)(ns|us|ms|s)")


def nanoseconds(unit: str) -> int:
    """How many nanoseconds a unit has."""
    return int(10 ** POWERS[unit])


def finest(units: list[str]) -> str:
    """The shortest of some units."""
    return min(units, key=lambda it: POWERS[it])


def length_of(flag: str, word: str) -> Fraction:
    """The length of time that a word names, as `5us`, in nanoseconds. Refusal of another word, and of no time."""
    found = LENGTH.fullmatch(word)
    length = Fraction(found[1]) * nanoseconds(found[2]) if found else Fraction(0)
    if not length:
        raise Refusal(f"{flag} {word}: a length is a number above 0, with up to nine digits after the point, and a "
                      "unit, such as 5us")
    return length


def said_length(length: Fraction) -> str:
    """A length in nanoseconds as people write it: in the longest unit of which it is a whole number, else in
    nanoseconds, with a point."""
    for unit in ("s", "ms", "us", "ns"):
        number = length / nanoseconds(unit)
        if number.denominator == 1:
            return f"{number} {unit}"
    whole, part = divmod(round(length * 10 ** 9), 10 ** 9)
    return f"{whole}.{part:09}".rstrip("0") + " ns"


def unit_of(length: Fraction) -> str:
    """The unit that a length is one of; empty where it is none."""
    return next((unit for unit in POWERS if length == nanoseconds(unit)), "")


def ticks_in(turn: Fraction, tick: Fraction) -> int:
    """How many ticks of a length a turn has, both in nanoseconds. Refusal where these are no whole number, or too
    many."""
    ticks = turn / tick
    finer = next((it for it in ("ms", "us", "ns") if (turn / nanoseconds(it)).denominator == 1), "")
    what = f"--tick {finer} makes it one" if finer else "take a turn of whole nanoseconds"
    if ticks.denominator != 1:
        raise Refusal(f"a turn of {said_length(turn)} is no whole number of ticks of {said_length(tick)}: {what}, and "
                      "the table's `delay` and `request` are then in that")
    if ticks > MOST_TICKS:
        raise Refusal(f"a turn of {said_length(turn)} has more than {MOST_TICKS} ticks of {said_length(tick)}: take a "
                      "shorter turn, or a longer tick with --tick")
    return int(ticks)
