"""Which part of a machine's core time its best-effort tasks held, exactly: from the means that the program tells, where
these leave one answer, else from the spans of the run."""
from __future__ import annotations

from typing import Callable, Optional

from .figures import Figure
from .measured import Measured
from .tables import Machine

MEAN = "mean cores held"


def rounded(part: int, whole: int) -> int:
    """A part of a whole in thousandths, to the nearest, halves upwards."""
    return (2000 * part + whole) // (2 * whole)


def between(mean: int, lasted: int, unit: int) -> tuple[int, int]:
    """The least and the most time of which a mean in thousandths is told, over so many ticks, in whole units."""
    least = max(-((1 - 2 * mean) * lasted // 2000), 0)
    most = ((2 * mean + 1) * lasted - 1) // 2000
    return -(-least // unit) * unit, most // unit * unit


def share_of(machine: Machine, measured: Measured, unit: int, held: Callable[[], int]) -> Optional[Figure]:
    """The share in thousandths; of no time there is none. Clocks are in steps of so many ticks; `held` tells for how
    long the best-effort tasks held cores, where the means leave that open."""
    lasted = measured.lasted
    whole = lasted * machine.cores
    if not whole:
        return None
    bounds = [between(measured.number(MEAN, task), lasted, unit) for task in machine.best_effort]
    least, most = (rounded(sum(it), whole) for it in zip(*bounds)) if bounds else (0, 0)
    share = least if least == most else rounded(held(), whole)
    return Figure(share, is_thousandth=True)


def held_in_spans(spans: bytes, tasks: list[int], last: int) -> int:
    """For how long these tasks held cores, by the spans of a run and the clock of its last pass."""
    mine = {str(it) for it in tasks}
    rows = (line.split(",") for line in spans.decode().splitlines()[1:])
    return sum(int(row[12] or last) - int(row[11]) for row in rows if row[4] == "held" and row[2] in mine)


def held_in_series(series: bytes, tasks: list[int]) -> int:
    """The same by what each pass leaves the tasks with, which lasts until the next one's clock."""
    mine = {str(it) for it in tasks}
    clocks: dict[int, int] = {}
    held: dict[int, int] = {}
    for row in (line.split(",") for line in series.decode().splitlines()[1:]):
        number = int(row[0])
        clocks[number] = int(row[1])
        held[number] = held.get(number, 0) + (int(row[7]) if row[4] in mine else 0)
    return sum(held[it] * max(clocks[it + 1] - clocks[it], 0) for it in clocks if it + 1 in clocks)
