"""Runs with several seeds, as a row for each seed has them: the least, the median and the greatest of each column."""
from __future__ import annotations

from dataclasses import replace
from typing import Optional, Sequence

from .numbers import LEAST, MEDIAN, GREATEST, Cell, Sweep, SweptRun


def place_of(cell: Cell) -> tuple[int, float]:
    """What ranks a cell: nothing stands first, then numbers, then what is pending."""
    return (0, 0.0) if cell.value is None else (2 if cell.pending else 1, cell.value)


def at(which: str, many: int) -> int:
    """The place of one of the three among so many that rise; the median by nearest rank."""
    return {LEAST: 0, MEDIAN: (many - 1) // 2, GREATEST: many - 1}[which]


def count_of(runs: Sequence[SweptRun], column: str, which: str) -> Optional[float]:
    """One of the three of a count; where a run has none that stands first."""
    rising = sorted((it.counts[column] for it in runs), key=lambda it: (it is not None, it or 0.0))
    return rising[at(which, len(rising))]


def one_of(runs: Sequence[SweptRun], which: str) -> SweptRun:
    """One of the three rows of the runs of a table at a load."""
    times = {rank: sorted((it.times[rank] for it in runs), key=place_of)[at(which, len(runs))]
             for rank in runs[0].times}
    return replace(runs[0], which=which, times=times, counts={it: count_of(runs, it, which) for it in runs[0].counts})


def with_three_rows(sweep: Sweep) -> Sweep:
    """A sweep with three rows for each setting, of one that has a row for each seed."""
    found: dict[tuple[float, str], list[SweptRun]] = {}
    for run in sweep.runs:
        found.setdefault((run.load, run.value), []).append(run)
    runs = tuple(one_of(own, which) for own in found.values() for which in (LEAST, MEDIAN, GREATEST))
    many = max(map(len, found.values()))
    return replace(sweep, runs=runs, seeds=f"of {many} seeds" if many > 1 else "")
