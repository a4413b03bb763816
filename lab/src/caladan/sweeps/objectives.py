"""Objectives: within how many clock ticks so many of a task's requests are to be answered; and what becomes of one."""
from __future__ import annotations

from dataclasses import dataclass
from typing import Optional, Sequence

from ..numbers import UNNAMED, task_named
from ..refusal import Refusal
from ..times import ticks_of
from ..words.likeness import tip

FLAG = "--slo"
# The ranks of an objective, each with the row that has it.
RANKS = {"p50": "response median", "p90": "response 90 of 100", "p95": "response 95 of 100",
         "p99": "response 99 of 100", "p99.9": "response 99.9 of 100", "max": "response greatest"}
KEPT, MISSED, UNDECIDED = "kept", "missed", "undecided"


@dataclass(frozen=True)
class Objective:
    """The word that says it, the task, the rank, and the ticks from when a request comes to its answer."""

    word: str
    task: int
    rank: str
    ticks: int


@dataclass(frozen=True)
class Judged:
    """What becomes of an objective, and why."""

    standing: str
    why: str


def parts_of(word: str, tick: str = "") -> Optional[tuple[str, str, int]]:
    """The task, the rank and the ticks of an objective, whose time may have a unit where it is said what a tick is."""
    place, equals, digits = word.rpartition("=")
    place = place.removeprefix("task.")
    ticks = ticks_of(digits, tick, f"{FLAG} {word}")
    for rank in RANKS:
        if place.endswith(rank):
            front = place.removesuffix(rank)
            if not equals or ticks is None or not front.endswith("."):
                return None
            return front[:-1], rank, ticks
    return None


def rank_tip(word: str) -> str:
    """Which rank was meant by a word that is no objective."""
    return tip(word.rpartition("=")[0].rpartition(".")[2], RANKS)


def objective_of(word: str, names: Sequence[str], tasks: Sequence[int], tick: str = "") -> Objective:
    """The objective of a word, of one of the tasks to which requests come."""
    parts = parts_of(word, tick)
    task = task_named(names, parts[0]) if parts else None
    if parts is None or (task is None and not names):
        raise Refusal(f"{FLAG} {word}: an objective is as task.0.p99=65: a task, p50, p90, p95, p99, p99.9 or max, and "
                      "ticks", below=UNNAMED if parts else rank_tip(word))
    if task is None:
        raise Refusal(f"{FLAG} {word}: the tasks are called {','.join(names)}", below=tip(parts[0], names))
    if task not in tasks:
        raise Refusal(f"{FLAG} {word}: the objective is of a task that has no load")
    return Objective(word, task, parts[1], parts[2])
