"""Sweeps as a table: a row for each run, by loads, then by tables, by policies, and last by tasks; of several seeds
three rows. Below it the settings that keep every objective."""
from __future__ import annotations

from typing import Optional, Sequence

from ..figures import Cells, Figure, MaybeFigure, put_figure, put_heading, thousandths, written
from ..measured import FAR
from ..varying import setting_at
from .objectives import RANKS
from .runs import SweptRun
from .verdict import Swept, Verdict

TIMES = {**{it: RANKS[it] for it in ("p50", "p90", "p95", "p99", "p99.9")}, "mean": "response mean"}
COUNTS = ("came", "later", "far", "left out", "served", "mean cores", "best-effort share")
SEED = "seed"
LEAST, MEDIAN, LOWER_MEDIAN, GREATEST, BEATS = "least", "median", "lower median", "greatest", "beats the first"
# What is the better the more there is of it; of times it is less. Of other columns it is not said.
BETTER_MORE = ("served", "best-effort share")


def figure_of(run: SweptRun, task: int, column: str) -> MaybeFigure:
    """What a column says of a run."""
    if column in TIMES:
        return run.response(TIMES[column], task)
    if column == "served":
        return run.measured.of("requests served", task)
    if column == "mean cores":
        return run.measured.of("mean cores held", task)
    if column == "best-effort share":
        return run.share
    if column == "far":
        return run.measured.of(FAR, task)
    return Figure(getattr(run.counts[task], column.replace(" ", "_")))


def order_of(figure: MaybeFigure) -> tuple[int, int]:
    """What ranks a figure among others: none stands first, then numbers, then bounds."""
    return (0, 0) if figure is None else (2 if figure.is_bound else 1, figure.number)


def of_seeds(figures: Sequence[MaybeFigure], which: str) -> MaybeFigure:
    """One of the figures of several seeds; the median by nearest rank, of an even number the lower one."""
    last = len(figures) - 1
    return sorted(figures, key=order_of)[{LEAST: 0, MEDIAN: last // 2, LOWER_MEDIAN: last // 2, GREATEST: last}[which]]


def is_better(column: str, figure: MaybeFigure, first: MaybeFigure) -> bool:
    """Whether a figure is better for certain than the one of the first table with the same seed."""
    if figure is None or first is None:
        return False
    if column in BETTER_MORE:
        return figure.number > first.number
    return not figure.is_bound and figure.number < first.number


def beaten(column: str, figures: Sequence[MaybeFigure], firsts: Sequence[MaybeFigure]) -> MaybeFigure:
    """With how many seeds a column is better than that of the first table; nothing where none is better or worse."""
    if column not in (*TIMES, *BETTER_MORE):
        return None
    return Figure(sum(is_better(column, *it) for it in zip(figures, firsts)))


class SweepSheet:
    """What is written of a sweep."""

    def __init__(self, swept: Swept) -> None:
        self.swept, self.asked = swept, swept.asked
        self.has_seeds, self.has_tasks = len(self.asked.seeds) > 1, len(self.asked.shown_tasks) > 1
        self.has_policies = len(self.asked.policies) > 1
        self.times = [it for it in TIMES if it != "p95" or self.asked.asks_p95]
        even = len(self.asked.seeds) % 2 == 0 and not self.asked.is_as_before
        self.seed_rows = (LEAST, LOWER_MEDIAN if even else MEDIAN, GREATEST)

    def load_heading(self) -> str:
        return self.asked.loads.heading(self.asked.labels.name(self.asked.loads.task))

    def cells_of(self, values: Sequence[str], policy: Optional[str]) -> Cells:
        """The cells of the values that make a table and of a policy, or of what stands over them: a cell for each; a
        lone key has one together with the policy."""
        after = [] if policy is None else [policy]
        return [" ".join([*values, *after])] if len(values) == 1 else [*values, *after]

    def names_of(self, table: int, policy: int) -> Cells:
        own = self.asked.policies[policy] if self.has_policies else None
        return self.cells_of(setting_at(self.asked.variations, table), own)

    def front_heading(self) -> Cells:
        keys = [it.shown for it in self.asked.variations]
        return [self.load_heading(), *self.cells_of(keys, "policy" if self.has_policies else None)]

    def heading(self) -> Cells:
        """The first row: what each column is."""
        row = self.front_heading()
        row += ["task"] if self.has_tasks else []
        row += self.seed_heading()
        for name in self.times:
            put_heading(row, name, self.asked.is_csv, self.asked.labels.tick)
        return [*row, *COUNTS]

    def seed_heading(self) -> Cells:
        if self.asked.is_by_seed:
            return [SEED]
        return [f"of {len(self.asked.seeds)} seeds"] if self.has_seeds else []

    def runs_of(self, load: int, table: int, policy: int, which: str) -> list[SweptRun]:
        """The runs that a row is of."""
        runs = self.swept.of_seeds(load, table, policy)
        return [runs[self.asked.seeds.index(int(which))]] if self.asked.is_by_seed else runs

    def row(self, load: int, table: int, policy: int, task: int, which: str) -> Cells:
        """A row of the runs of a table by a policy at a load."""
        runs = self.runs_of(load, table, policy, which)
        row = [thousandths(load), *self.names_of(table, policy)]
        name = self.asked.labels.name(task)
        row += [str(task) if name is None else name] if self.has_tasks else []
        row += [which] if self.seed_heading() else []
        for column in (*self.times, *COUNTS):
            figures = [figure_of(it, task, column) for it in runs]
            if which == BEATS:
                firsts = [figure_of(it, task, column) for it in self.swept.of_seeds(load, 0, 0)]
                figure = beaten(column, figures, firsts)
            else:
                figure = of_seeds(figures, which if runs[1:] else LEAST)
            put_figure(row, figure, self.asked.is_csv and column in TIMES)
        return row

    def rows_of(self, table: int, policy: int) -> tuple[str, ...]:
        """Which rows a table has by a policy."""
        if self.asked.is_by_seed:
            return tuple(map(str, self.asked.seeds))
        if not self.has_seeds:
            return (LEAST,)
        is_first = (table, policy) == (0, 0) or self.asked.is_as_before
        return self.seed_rows if is_first else (*self.seed_rows, BEATS)

    def runs(self) -> list[tuple[int, int, int]]:
        """The load, the table and the policy of each run, in their order."""
        return [(load, table, policy) for load in self.asked.loads.loads for table in range(self.swept.tables)
                for policy in range(len(self.asked.policies))]

    def rows(self) -> list[Cells]:
        return [self.heading(), *(self.row(*run, task, it) for run in self.runs() for task in self.asked.shown_tasks
                                  for it in self.rows_of(*run[1:]))]

    def choices_at(self, load: int, verdict: Verdict) -> list[Cells]:
        """The settings that keep every objective at a load: those first that leave most to best effort, of several
        seeds in the median."""
        kept = []
        for _, table, policy in (it for it in self.runs() if it[0] == load):
            if verdict.keeps_all(load, table, policy):
                share = of_seeds([it.share for it in self.swept.of_seeds(load, table, policy)], MEDIAN)
                kept.append((share, [thousandths(load), *self.names_of(table, policy)]))
        rows = []
        for share, row in sorted(kept, key=lambda it: -1 if it[0] is None else it[0].number, reverse=True):
            put_figure(row, share, False)
            rows.append(row)
        return rows

    def cheapest(self, verdict: Verdict) -> list[Cells]:
        rows = [[*self.front_heading(), "best-effort share"]]
        return [*rows, *(row for load in self.asked.loads.loads for row in self.choices_at(load, verdict))]

    def written(self, verdict: Verdict) -> str:
        """All of it."""
        text = written(self.rows(), self.asked.is_csv)
        if self.asked.is_cheapest:
            text += "\n" + written(self.cheapest(verdict), self.asked.is_csv)
        sure = "" if self.asked.is_csv else verdict.sure()
        return f"{text}\n{sure}" if sure else text
