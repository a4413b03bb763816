"""What a tick is, where a task table says it, in a comment line such as `# A tick is 1 us.`. `caladan_lab log` writes
it in front of a run, so that the run knows its unit; anyone may write it into a table."""
from __future__ import annotations

import re
from fractions import Fraction
from typing import Optional

from .arrivals import BYTE_ORDER_MARK
from .logs.units import nanoseconds, said_length, unit_of
from .refusal import Refusal
from .tables import table_part

STAMP = re.compile(rb"^[ \t]*#[ \t]*[Aa] tick is (\d+(?:\.\d+)?)[ \t]*(ns|us|ms|s)\b", re.M)


def tick_in(text: bytes) -> Optional[Fraction]:
    """How long a tick is, in nanoseconds, as the table of an input says it."""
    found = STAMP.search(table_part(text))
    return Fraction(found[1].decode()) * nanoseconds(found[2].decode()) if found else None


def unit_in(text: bytes) -> str:
    """The unit of a tick, as the table of an input says it; empty where it says none."""
    own = tick_in(text)
    return unit_of(own) if own is not None else ""


def tick_of(text: bytes, asked: Optional[str]) -> str:
    """The unit of a tick: that of the word --tick, else the one that the table of an input says. Refusal where the word
    is another than the table's."""
    own = tick_in(text)
    if own is None or not asked:
        return asked or unit_in(text)
    if own != nanoseconds(asked):
        raise Refusal(f"--tick {asked}: the table says that a tick is {said_length(own)}",
                      below="  leave --tick out; or make the run again by `caladan_lab log` with another --tick\n")
    return asked


def stamped(table: bytes, tick: Fraction) -> bytes:
    """A table that says what a tick is. Refusal of one that says something else."""
    own = tick_in(table)
    if own is None:
        mark = BYTE_ORDER_MARK if table.startswith(BYTE_ORDER_MARK) else b""
        return mark + f"# A tick is {said_length(tick)}.\n".encode() + table.removeprefix(mark)
    if own != tick:
        raise Refusal(f"the table says that a tick is {said_length(own)}, and here it is {said_length(tick)}",
                      below="  --tick and --ticks say what it is here\n")
    return table
