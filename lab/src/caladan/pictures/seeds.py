"""Rows of runs with several seeds, as bench/interference keeps them: what is set in each run, its seed, and its
measures by the names that `caladan_view compare` gives them."""
from __future__ import annotations

import math
import re
from dataclasses import dataclass
from typing import Sequence

from ..refusal import Refusal
from ..rows import Row
from ..sweeps.loads import A_SECOND
from ..sweeps.objectives import RANKS
from .numbers import GREATEST, LEAST, MEDIAN, TIMES, Cell, Sweep, SweptRun, number, read_sweep, rows_of_kind

BY_RANK = {row: rank for rank, row in RANKS.items()}
OTHERS = {"requests served": "requests served of {}", "mean cores held": "cores held by {}"}
OF_ALL = {"lost to tasks": "cores revoked for tasks"}
# The columns of a sweep that are drawn.
SWEPT = ("p50", "p99", "p99.9", "best-effort share")
ROWS = (MEDIAN, LEAST, GREATEST)
# What is set in a run: from left to right, from line to line, and from row to row.
Setting = tuple[str, str, str]


@dataclass(frozen=True)
class Spread:
    """A measure of the runs with all seeds: what stands in the middle, the least and the greatest, where a number that
    is pending is above all others."""

    middle: Cell
    least: Cell
    greatest: Cell


def place_of(cell: Cell) -> tuple[bool, float]:
    return cell.pending, cell.value or 0.0


def spread_of(cells: list[Cell]) -> Spread:
    """The median by nearest rank, of those that have a number."""
    rising = sorted((it for it in cells if it.value is not None), key=place_of)
    if not rising:
        return Spread(*[Cell(None)] * 3)
    return Spread(rising[math.ceil(len(rising) / 2) - 1], rising[0], rising[-1])


@dataclass(frozen=True)
class Seeds:
    """Runs with several seeds. What is set: what changes from left to right, from line to line, and from one row of
    plots to the next (empty where there is no such column); the values of each; how many seeds; the measures; and for
    row, line, place and measure how the numbers spread."""

    keys: tuple[str, str, str]
    values: tuple[tuple[str, ...], tuple[str, ...], tuple[str, ...]]
    seeds: int
    measures: tuple[str, ...]
    spreads: dict[tuple[str, str, str, str], Spread]
    unit: str = ""

    def label(self, line: str) -> str:
        return f"{self.keys[1]}={line}" if self.keys[1] else line


def cell_of(text: str, where: str) -> Cell:
    """A number, of what is pending with `>` before it."""
    return Cell(number(text.removeprefix(">"), where), text.startswith(">"))


def settings_of(cells: Sequence[str]) -> Setting:
    """What is set, from left to right, from line to line, and from row to row."""
    *rest, across, line = ["", *cells] if cells[1:] else ["", *cells, ""]
    return across, line, ", ".join(it for it in rest if it)


def runs_by_setting(rows: Sequence[Row], at: int) -> dict[Setting, dict[str, list[Cell]]]:
    """For each setting the measures of its runs, by their seeds, which stand in this column."""
    found: dict[Setting, dict[str, list[Cell]]] = {}
    for row in rows:
        runs = found.setdefault(settings_of(row.fields[:at]), {})
        seed = row.fields[at]
        if seed in runs:
            raise Refusal(f"{row.where}: its seed stands above; wanted: one row for each seed")
        runs[seed] = [cell_of(it, row.where) for it in row.fields[at + 1:]]
    return found


def read_seeds(text: str, name: str) -> Seeds:
    """Such rows; every setting has a row for each seed."""
    head, rows = rows_of_kind(text, name, "seeds")
    at = head.index("seed")
    measures, found = tuple(head[at + 1:]), runs_by_setting(rows, at)
    if not found:
        raise Refusal(f"{name}: it has no runs below its head")
    counts = {len(runs) for runs in found.values()}
    if len(counts) > 1:
        raise Refusal(f"{name}: {min(counts)} to {max(counts)} seeds; wanted: as many for each setting")
    spreads = {(rest, line, across, measure): spread_of([it[n] for it in runs.values()])
               for (across, line, rest), runs in found.items() for n, measure in enumerate(measures)}
    across, lines_set, rests = (tuple(dict.fromkeys(it)) for it in zip(*found))
    return Seeds(settings_of(head[:at]), (across, lines_set, rests), counts.pop(), measures, spreads)


def seeds_of_sweep(text: str, name: str) -> Seeds:
    """Those of what `sweep --csv` writes with several seeds, loads from left to right and settings from line to line. A
    row for each seed, or the three of all, say the same."""
    sweep = read_sweep(text, name)
    if not sweep.seeds:
        raise Refusal(f"{name}: the sweep has one seed; wanted: the CSV of `sweep --seeds N --csv`")
    by_setting: dict[Setting, dict[str, SweptRun]] = {}
    for run in sweep.runs:
        by_setting.setdefault(setting_of_sweep(sweep, run), {})[run.which] = run
    across, lines_set, rests = (tuple(dict.fromkeys(it)) for it in zip(*by_setting))
    if len(by_setting) < len(across) * len(lines_set) or any(len(it) < len(ROWS) for it in by_setting.values()):
        raise Refusal(f"{name}: not each load has the rows of each setting; wanted: all that `sweep --csv` wrote")
    spreads = {(rest, line, load, words): Spread(*(of_run(runs[it], words) for it in ROWS))
               for (load, line, rest), runs in by_setting.items() for words in SWEPT}
    return Seeds(setting_keys(sweep), (across, lines_set, rests), int(sweep.seeds.split()[1]), SWEPT, spreads,
                 sweep.unit)


def setting_keys(sweep: Sweep) -> Setting:
    """The names of what is set in a sweep."""
    load = "cores offered" if sweep.in_cores else "load"
    unit = f" {A_SECOND}" if sweep.is_rate else ""
    return (f"{load} of {sweep.task}" if sweep.task else load) + unit, sweep.key, ""


def setting_of_sweep(sweep: Sweep, run: SweptRun) -> Setting:
    return f"{run.load:g}", run.value, ""


def of_run(run: SweptRun, words: str) -> Cell:
    """A measure of a row of a sweep."""
    return run.times[words] if words in run.times else Cell(run.counts[words])


def words_for(measure: str, names: list[str], unit: str) -> str:
    """What a measure is, in a few words."""
    of_task = re.fullmatch(r"task (\d+) (.*)", measure)
    if measure in TIMES:
        return f"{measure}, {unit}"
    if not of_task:
        return OF_ALL.get(measure, measure)
    task, row = int(of_task[1]), of_task[2]
    if names and task >= len(names):
        raise Refusal(f"--names: no name for task {task}")
    label = names[task] if names else f"task {task}"
    if row in BY_RANK:
        return f"{BY_RANK[row]} of {label}, {unit}"
    return OTHERS[row].format(label) if row in OTHERS else f"{label}: {row}"
