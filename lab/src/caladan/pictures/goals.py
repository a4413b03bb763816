"""The objective that a sweep's picture has as a line."""
from __future__ import annotations

from typing import Optional, Sequence

from ..numbers import task_named
from ..refusal import Refusal
from ..sweeps.objectives import Objective, parts_of


def goal_of(word: str, names: Sequence[str], tick: str = "") -> Objective:
    """The objective of a word as task.0.p99=250."""
    parts = parts_of(word, tick)
    task = task_named(names, parts[0]) if parts else None
    if parts is None or task is None:
        raise Refusal(f"--slo {word}: an objective is task.T.R=N, and R is p50, p90, p95, p99, p99.9 or max")
    return Objective(word, task, parts[1], parts[2])


def goal_in(words: Sequence[str], names: Sequence[str], swept: Optional[int], tick: str = "") -> Optional[Objective]:
    """The first objective that is of the task that is swept; where that is not known, the first."""
    goals = [goal_of(it, names, tick) for it in words]
    return next((it for it in goals if swept in (None, it.task)), None)
