"""Numbers as the program tells them, and how they are written: one that is pending is a bound, and a rank of few times
says how many these are."""
from __future__ import annotations

from dataclasses import dataclass
from typing import Optional, Sequence

Cells = list[str]


def thousandths(number: int) -> str:
    """A number of thousandths with its point."""
    return f"{number // 1000}.{number % 1000:03}"


@dataclass(frozen=True)
class Figure:
    """A number, of whole ones or of thousandths; whether there is more than that; and of how many times a rank is,
    where it should be of more."""

    number: int
    is_thousandth: bool = False
    is_bound: bool = False
    few: str = ""

    def written(self) -> str:
        return thousandths(self.number) if self.is_thousandth else str(self.number)


MaybeFigure = Optional[Figure]


def figure_of(cells: Sequence[str]) -> MaybeFigure:
    """A figure of its three cells; nothing where these are a dash."""
    number, bound, few = cells
    if number == "-":
        return None
    return Figure(int(number.replace(".", "")), "." in number, bound == ">", few)


def put_figure(row: Cells, figure: MaybeFigure, is_csv: bool) -> None:
    """Puts a figure at the end of a row; in CSV it has three cells."""
    if figure is None:
        row += ["-", "", ""] if is_csv else ["-"]
        return
    bound = ">" if figure.is_bound else ""
    if is_csv:
        row += [figure.written(), bound, figure.few]
    else:
        row.append(f"{bound}{figure.written()}" + (f" ({figure.few})" if figure.few else ""))


def put_heading(row: Cells, name: str, is_csv: bool, unit: str = "") -> None:
    """Puts what stands over figures: their name, with a unit where there is one; in CSV those of three cells."""
    row.append(f"{name} [{unit}]" if unit else name)
    if is_csv:
        row += [f"{name} bound", f"{name} of"]


def change(first: MaybeFigure, figure: MaybeFigure) -> str:
    """What a figure has more or less than the first; a dash where one of the two is none or a bound."""
    if first is None or figure is None or first.is_bound or figure.is_bound:
        return "-"
    more = figure.number - first.number
    if not more:
        return "0"
    size = Figure(abs(more), first.is_thousandth).written()
    return f"{'+' if more > 0 else '-'}{size}"


def field(cell: str) -> str:
    """A cell as a field of CSV."""
    if not any(it in cell for it in '",\n\r'):
        return cell
    return '"' + cell.replace('"', '""') + '"'


def as_csv(rows: Sequence[Cells]) -> str:
    """Rows as CSV, each of as many fields as the longest."""
    wide = max(map(len, rows), default=0)
    return "".join(",".join([*map(field, row), *[""] * (wide - len(row))]) + "\n" for row in rows)


def in_columns(rows: Sequence[Cells]) -> str:
    """Rows in columns that line up: the first to the left, the others to the right."""
    wide = max(map(len, rows), default=0)
    widths = [max((len(row[n]) for row in rows if n < len(row)), default=0) for n in range(wide)]
    lines = ("  ".join([row[0].ljust(widths[0]), *(it.rjust(n) for it, n in zip(row[1:], widths[1:]))])
             for row in rows)
    return "".join(f"{line}\n" for line in lines)


def written(rows: Sequence[Cells], is_csv: bool) -> str:
    return as_csv(rows) if is_csv else in_columns(rows)
