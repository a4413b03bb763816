"""CSV with a head: its rows, whose cells are read by the names of their columns, without units."""
from __future__ import annotations

import csv
import functools
import io
from dataclasses import dataclass
from typing import Optional, Sequence

from .refusal import Refusal


@dataclass(frozen=True)
class Row:
    """A row: the name of its file, its line from 1, the names of all columns, and its fields. A cell that is not what
    it must be is refused with its line."""

    name: str
    line: int
    columns: tuple[str, ...]
    fields: Sequence[str]

    @property
    def where(self) -> str:
        return f"{self.name}: line {self.line}"

    @functools.cached_property
    def cells(self) -> dict[str, str]:
        return dict(zip(self.columns, self.fields))

    def wrong(self, column: str, wanted: str) -> Refusal:
        return Refusal(f"{self.where}: `{column}` is `{self.cells[column]}`; wanted: {wanted}")

    def number(self, column: str) -> int:
        """A whole number."""
        cell = self.cells[column]
        if not (cell.isascii() and cell.isdigit()):
            raise self.wrong(column, "a number")
        return int(cell)

    def maybe(self, column: str) -> Optional[int]:
        """A whole number, or none where the cell is empty."""
        return self.number(column) if self.cells[column] else None

    def word(self, column: str, words: Sequence[str]) -> str:
        """One of these words."""
        if self.cells[column] not in words:
            raise self.wrong(column, " or ".join(it or "nothing" for it in words))
        return self.cells[column]


def head_of(text: str) -> list[str]:
    """The fields of the first line."""
    return next(csv.reader([text.partition("\n")[0].rstrip("\r")]), [])


def rows_of(text: str, name: str) -> tuple[list[str], list[Row]]:
    """The head of a CSV, and the rows below it, which have as many fields; empty lines are none."""
    lines = csv.reader(io.StringIO(text))
    head: list[str] = next(lines, [])
    columns = tuple(it.partition(" [")[0] for it in head)
    rows = []
    for fields in lines:
        if fields and len(fields) != len(head):
            raise Refusal(f"{name}: line {lines.line_num} has {len(fields)} fields, and its head has {len(head)}")
        if fields:
            rows.append(Row(name, lines.line_num, columns, fields))
    return head, rows
