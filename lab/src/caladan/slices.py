"""A run in slices of time. Responses are those that `caladan_view measure --from --to` tells of the turns of a slice,
by when requests came. `measure` has no counts and no cores of a part of a run: how many requests came and were answered
is counted here from the rows of `requests`, and the cores held, in the mean over the slice, from those of `series`."""
from __future__ import annotations

import bisect
import csv
import io
import re
from dataclasses import dataclass
from fractions import Fraction
from typing import Callable, Optional, Sequence, Union

from .logs.units import nanoseconds
from .measured import Measured, measured_of
from .pool import each
from .programs import Ran, refused
from .refusal import Refusal
from .sweeps.objectives import RANKS
from .sweeps.runs import NONE_CAME

MOST_SLICES = 1000
TIMES = {**{it: RANKS[it] for it in ("p50", "p90", "p99", "p99.9")}, "mean": "response mean"}
Cell = Union[str, int, float]


def ticks_of(by: Union[int, str], tick: str) -> int:
    """How many ticks a slice has: a number of ticks, or a time such as `1ms` where the unit of a tick is known."""
    found = re.fullmatch(r"(\d+(?:\.\d+)?)(ns|us|ms|s)?", str(by), re.ASCII)
    if not found:
        raise Refusal(f"by={by}: a number of ticks is wanted, or a time such as 500us or 1ms")
    if found[2] and not tick:
        raise Refusal(f"by={by}: the table does not say what a tick is; give it tick=\"us\", or a number of ticks")
    ticks = Fraction(found[1]) * (Fraction(nanoseconds(found[2]), nanoseconds(tick)) if found[2] else 1)
    if ticks < 1 or ticks.denominator > 1:
        raise Refusal(f"by={by}: this is {float(ticks):g} ticks; a whole number from 1 on is wanted")
    return int(ticks)


@dataclass(frozen=True)
class Slice:
    """From one clock up to another, and the turns within: from the first up to the second, which is not in it."""

    first: int
    after: int
    turns: tuple[int, int]


def slices_of(clocks: Sequence[int], ticks: int) -> list[Slice]:
    """The slices of a run with turns at these clocks, from the multiple of the ticks before its first turn on."""
    if not clocks:
        raise Refusal("the run has no turns: there are no slices")
    first, last = clocks[0] // ticks, clocks[-1] // ticks
    if last - first >= MOST_SLICES:
        raise Refusal(f"{last - first + 1} slices of {ticks} ticks; wanted: at most {MOST_SLICES}")

    def place(number: int) -> int:
        return bisect.bisect_left(clocks, number * ticks)
    return [Slice(it * ticks, (it + 1) * ticks, (place(it), place(it + 1))) for it in range(first, last + 1)]


def measured_in(measure: Callable[[Sequence[str]], Ran], part: Slice) -> Optional[Measured]:
    """What the program measures of the requests that came within a slice; nothing where none came."""
    if part.turns[0] == part.turns[1]:
        return None
    ran = measure(["--from", str(part.turns[0]), "--to", str(part.turns[1])])
    if ran.status == 2 and NONE_CAME in ran.err:
        return None
    if ran.status:
        raise refused(ran)
    return measured_of(ran.out)


class Counted:
    """What is counted of a run: when the requests of each task came and were answered, and the cores that it held from
    each pass on."""

    def __init__(self, requests: bytes, series: bytes) -> None:
        self.came: dict[int, list[int]] = {}
        self.answered: dict[int, list[int]] = {}
        for row in list(csv.reader(io.StringIO(requests.decode())))[1:]:
            self.came.setdefault(int(row[1]), []).append(int(row[3]))
            if row[7]:
                self.answered.setdefault(int(row[1]), []).append(int(row[7]))
        self.held: dict[int, list[tuple[int, int]]] = {}
        for row in list(csv.reader(io.StringIO(series.decode())))[1:]:
            self.held.setdefault(int(row[4]), []).append((int(row[1]), int(row[7])))

    @staticmethod
    def within(clocks: Sequence[int], part: Slice) -> int:
        return sum(part.first <= it < part.after for it in clocks)

    def cores(self, task: int, part: Slice) -> Optional[float]:
        """The cores held in the mean of a slice, as far as passes last within it; none where none does."""
        steps = self.held.get(task, [])
        lasting = [(min(after, part.after) - max(clock, part.first), held)
                   for (clock, held), (after, _) in zip(steps, steps[1:])]
        whole = sum(it for it, _ in lasting if it > 0)
        return sum(it * held for it, held in lasting if it > 0) / whole if whole else None


def cells_of(measured: Optional[Measured], task: int) -> list[Cell]:
    """The times of a task, each with its bound and of how many it is."""
    cells: list[Cell] = []
    for label in TIMES.values():
        figure = None if measured is None else measured.of(label, task)
        if figure is None:
            cells += ["", "", ""]
        else:
            cells += [figure.written(), ">" if figure.is_bound else "", figure.few]
    return cells


def heading(unit: str) -> list[str]:
    """What each column is."""
    times = [it for name in TIMES for it in (f"{name} [{unit}]", f"{name} bound", f"{name} of")]
    return [f"from [{unit}]", f"to [{unit}]", "task", "came", "answered", *times, "held [cores]"]


def rows_by(clocks: Sequence[int], ticks: int, tasks: Sequence[str], counted: Counted,
            measure: Callable[[Sequence[str]], Ran]) -> list[list[Cell]]:
    """A row for each slice and task."""
    parts = slices_of(clocks, ticks)
    measured = each(lambda it: measured_in(measure, parts[it]), range(len(parts)))
    rows: list[list[Cell]] = []
    for part, told in zip(parts, measured):
        for number, name in enumerate(tasks):
            cores = counted.cores(number, part)
            rows.append([part.first, part.after, name, counted.within(counted.came.get(number, []), part),
                         counted.within(counted.answered.get(number, []), part), *cells_of(told, number),
                         "" if cores is None else round(cores, 6)])
    return rows
