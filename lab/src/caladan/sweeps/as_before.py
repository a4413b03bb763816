"""What becomes of an objective in a run as version 4 judged it, by the ranks alone: for --rules 4."""
from __future__ import annotations

from .objectives import KEPT, MISSED, RANKS, UNDECIDED, Judged, Objective
from .runs import SweptRun


def judged_by_rank(objective: Objective, run: SweptRun, ticks: str) -> Judged:
    """What becomes of an objective in a run, and why."""
    left, figure = run.first_left(), run.response(RANKS[objective.rank], objective.task)
    if left is not None:
        return Judged(MISSED, f"requests are left out from turn {left[1]} on")
    if figure is None:
        return Judged(MISSED, "no requests came")
    if not figure.is_bound:
        is_so = KEPT if figure.number <= objective.ticks else MISSED
        return Judged(is_so, f"{objective.rank} is {figure.number} {ticks}")
    is_open = figure.number < objective.ticks
    longer = ", run longer" if is_open else ""
    return Judged(UNDECIDED if is_open else MISSED, f"{objective.rank} is pending for {figure.number} {ticks}{longer}")
