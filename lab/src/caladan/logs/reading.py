"""A log's file, read by pandas: the fields of the columns that are wanted, as texts."""
from __future__ import annotations

import io
import re
import warnings
from dataclasses import dataclass
from typing import TYPE_CHECKING, Any, Mapping, Optional

from ..refusal import Refusal
from .columns import BLANKS, Header, said_separator
from .opening import text_of

if TYPE_CHECKING:
    import pandas

MOST_REQUESTS = 1_000_000
NO_PANDAS = "pandas is not installed, by which logs are read; on Debian: apt-get install python3-pandas"
TOO_MANY_FIELDS = re.compile(r"Expected (\d+) fields in line (\d+), saw (\d+)")

OPEN_QUOTE = re.compile(r"EOF inside string starting at row (\d+)")


@dataclass(frozen=True)
class Fields:
    """What is read of a log: the texts of its columns, each by its place; the places and the names of the columns by
    their roles; and what was met: by what it is compressed, and what separates its fields."""

    frame: pandas.DataFrame
    places: Mapping[str, int]
    names: Mapping[str, str]
    met: tuple[str, ...] = ()


def read_csv(text: str, header: Header) -> pandas.DataFrame:
    """The rows below a header, all fields as texts. Refusal of what pandas cannot read."""
    try:
        import pandas
    except ImportError:
        raise Refusal(NO_PANDAS) from None
    how: dict[str, Any] = {"sep": r"\s+" if header.separator == BLANKS else header.separator, "header": 0,
                           "names": list(range(len(header.fields))), "dtype": str, "keep_default_na": False,
                           "na_filter": False, "index_col": False, "nrows": MOST_REQUESTS + 1, "engine": "c",
                           "skip_blank_lines": True, "low_memory": False}
    try:
        with warnings.catch_warnings():
            warnings.simplefilter("error")
            return pandas.read_csv(io.StringIO(text), **how)
    except (pandas.errors.ParserError, pandas.errors.ParserWarning) as fault:
        raise parsed_wrong(str(fault), len(header.fields)) from None
    except (ValueError, UnicodeError) as fault:
        raise Refusal(f"it cannot be read as CSV: {fault}") from None


def parsed_wrong(told: str, fields: int) -> Refusal:
    """Why pandas cannot read rows, in words."""
    found = TOO_MANY_FIELDS.search(told)
    if found:
        return Refusal(f"line {found[2]}: {found[3]} fields, and the header has {fields}; a field that has the "
                       "separator in it stands in quotes")
    quote = OPEN_QUOTE.search(told)
    if quote:
        return Refusal(f"row {int(quote[1]) + 1}: a quote opens and does not close")
    if "Length of header or names" in told:
        return Refusal(f"its rows have more fields than its header, which has {fields}")
    return Refusal(f"it cannot be read as CSV: {told.strip().splitlines()[-1]}")


def fields_in(text: str, columns: Mapping[str, str], separator: Optional[str]) -> Fields:
    """What is read of a text."""
    if "\0" in text:
        raise Refusal("it has bytes that are 0, and so is no text")
    if not text.strip():
        raise Refusal("it is empty; wanted: a line that names the columns, such as time,service, and a row for each "
                      "request")
    header = Header.of_text(text, columns, separator)
    frame = read_csv(text, header)
    if not len(frame):
        raise Refusal("no row is below the header; wanted: one for each request")
    if len(frame) > MOST_REQUESTS:
        raise Refusal(f"more than {MOST_REQUESTS:,} rows, the most requests of a run: take a part of the log")
    met = () if header.separator == "," else (f"its fields are separated by {said_separator(header.separator)}",)
    return Fields(frame, header.places, header.names, met)


def read_fields(name: str, columns: Mapping[str, str], separator: Optional[str]) -> Fields:
    """What is read of a file, whose name each refusal says."""
    text, way = text_of(name)
    try:
        found = fields_in(text, columns, separator)
    except Refusal as refusal:
        raise Refusal(f"{name}: {refusal.line}", refusal.status, refusal.below) from None
    met = (*((f"compressed by {way}",) if way else ()), *found.met)
    return Fields(found.frame, found.places, found.names, met)


def fields_of_frame(frame: pandas.DataFrame, columns: Mapping[str, str]) -> Fields:
    """The same of a frame of pandas, whose columns have names: each value as its text."""
    header = Header([str(it) for it in frame.columns], "", columns)
    if not 1 <= len(frame) <= MOST_REQUESTS:
        raise Refusal(f"the frame has {len(frame)} rows; wanted: one for each request, 1 to {MOST_REQUESTS}")
    texts = frame.set_axis(range(len(header.fields)), axis="columns")[sorted(header.places.values())]
    return Fields(texts.apply(lambda it: it.map(text_of_value)), header.places, header.names)


def text_of_value(value: Any) -> str:
    """The text of a value: of a time what a calendar says."""
    return str(value.isoformat()) if hasattr(value, "isoformat") else "" if value is None else str(value)
