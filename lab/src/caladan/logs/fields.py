"""What the fields of a log's columns say: numbers in a unit, or times by a calendar; each exactly, in billionths of a
unit."""
from __future__ import annotations

import decimal
import re
from dataclasses import dataclass
from typing import TYPE_CHECKING, Any, Optional, Sequence

from ..refusal import Refusal
from .units import POWERS

if TYPE_CHECKING:
    import pandas

WHOLE = 10 ** 9
NUMBER = re.compile(r"[+-]?(\d+\.?\d*|\.\d+)([eE][+-]?\d+)?")
CALENDAR = re.compile(r"\d{4}-\d\d-\d\d[T ]\d\d:\d\d(:\d\d([.,]\d{1,9})?)? ?(Z|[+-]\d\d:?\d\d)?")
ZONE = re.compile(r".{10}.*(Z|[+-]\d\d:?\d\d)")
WANTED_NUMBER = "a number"
WANTED_TIME = "a number, or a time such as 2026-11-30T20:00:00.125Z"
# No number of a log has more digits before its point.
MOST_DIGITS = 30
EXACT = decimal.Context(prec=200, rounding=decimal.ROUND_HALF_EVEN, Emax=decimal.MAX_EMAX, Emin=decimal.MIN_EMIN)


@dataclass(frozen=True)
class Column:
    """A column: its name in the file, the text of each field, and the unit of its numbers."""

    name: str
    fields: Sequence[str]
    unit: str

    def wrong(self, place: int, wanted: str, others: int = 0) -> Refusal:
        """Refuses a row's field, as others are to be. Rows count from 1, which is the header's."""
        field = self.fields[place].strip()
        shown = f"`{field[:40]}`" if field else "empty"
        more = f" (as in {others} more rows)" if others else ""
        return Refusal(f"row {place + 2}: `{self.name}` is {shown}{more}; wanted: {wanted}")

    def refuse_first(self, bad: Sequence[int], wanted: str) -> None:
        """Refuses the first of some rows, and says how many there are."""
        if bad:
            raise self.wrong(bad[0], wanted, len(bad) - 1)


@dataclass(frozen=True)
class Times:
    """What the fields of a column say: each in billionths of a unit, how many were rounded to these; and the first
    instant, where they are times by a calendar, as people write it."""

    numbers: list[int]
    rounded: int = 0
    since: Optional[str] = None


def billionths(word: str, shift: int) -> Optional[tuple[int, bool]]:
    """A number in billionths of a unit that is so many powers of ten shorter, and whether it is exact; none of what is
    no number, or too great."""
    if not NUMBER.fullmatch(word):
        return None
    number = decimal.Decimal(word)
    if number and number.adjusted() > MOST_DIGITS:
        return None
    scaled = number.scaleb(9 + shift, EXACT)
    whole = scaled.to_integral_value(decimal.ROUND_HALF_EVEN, EXACT) if scaled.adjusted() >= -1 else decimal.Decimal(0)
    return int(whole), whole == scaled


def numbers_of(column: Column, unit: str, wanted: str = WANTED_NUMBER) -> Times:
    """The numbers of a column, in billionths of another unit."""
    shift = POWERS[column.unit] - POWERS[unit]
    read = [billionths(it.strip(), shift) for it in column.fields]
    column.refuse_first([place for place, it in enumerate(read) if it is None], wanted)
    found = [it for it in read if it is not None]
    return Times([number for number, _ in found], sum(not is_exact for _, is_exact in found))


def lengths_of(column: Column, unit: str) -> Times:
    """The same of what cannot be below 0."""
    wanted = "a number that is not below 0"
    lengths = numbers_of(column, unit, wanted)
    column.refuse_first([place for place, it in enumerate(lengths.numbers) if it < 0], wanted)
    return lengths


def counts_of(column: Column, most: int) -> list[int]:
    """The whole numbers of a column."""
    words = [it.strip() for it in column.fields]
    column.refuse_first([place for place, it in enumerate(words) if not (it.isascii() and it.isdigit())
                         or len(it) > 18 or int(it) > most], f"a whole number up to {most}")
    return [int(it) for it in words]


def is_calendar(word: str) -> bool:
    return CALENDAR.fullmatch(word) is not None


def times_of(column: Column, unit: str) -> Times:
    """When requests came: numbers in the unit of the column, or, as the first row has it, times by a calendar."""
    if column.fields and is_calendar(column.fields[0].strip()):
        return by_calendar(column, unit)
    return numbers_of(column, unit, WANTED_TIME)


def by_calendar(column: Column, unit: str) -> Times:
    """Times by a calendar, by their zones, of which all have one or none."""
    words = [it.strip() for it in column.fields]
    column.refuse_first([place for place, it in enumerate(words) if not is_calendar(it)],
                        "a time by a calendar, as in the first row")
    zoned = [ZONE.fullmatch(it) is not None for it in words]
    column.refuse_first([place for place, it in enumerate(zoned) if it != zoned[0]],
                        "a zone in each row, as Z or +01:00, or in none")
    moments = moments_of(words)
    column.refuse_first([place for place, it in enumerate(moments) if it is None], "a date that there is")
    known = [it for it in moments if it is not None]
    numbers = [it * WHOLE // 10 ** POWERS[unit] for it in known]
    return Times(numbers, since=words[known.index(min(known))])


def moments_of(words: Sequence[str]) -> list[Optional[int]]:
    """The instants of times, in nanoseconds since 1970; none where there is no such date."""
    import pandas
    text = pandas.Series(words, dtype=str).str.replace(",", ".", regex=False)
    found: Any = pandas.to_datetime(text, utc=True, errors="coerce")
    return [None if bad else int(it) for bad, it in zip(found.isna(), found.astype("int64"))]


def column_at(frame: pandas.DataFrame, place: int, name: str, unit: str) -> Column:
    """The column of a frame of texts at a place."""
    return Column(name, frame[place].tolist(), unit)
