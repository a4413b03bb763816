"""The numbers of several runs, row by row: beside each column but the first what it has more or less than the first."""
from __future__ import annotations

from dataclasses import dataclass
from typing import Sequence

from ..figures import Cells, Figure, MaybeFigure, change, put_figure, put_heading, written
from ..labels import Labels
from ..measured import CORES, CROWD, LEFT, MACHINE, REQUESTS, shown
from ..varying import Variations, setting_at, setting_text
from .runs import ComparedRun


@dataclass(frozen=True)
class CompareSheet:
    """The runs of each table by each policy, what varies the table, and how they are written."""

    runs: Sequence[ComparedRun]
    policies: Sequence[str]
    variations: Variations
    labels: Labels
    has_came: bool
    is_csv: bool

    def table_name(self, table: int) -> str:
        """What a table is called: by its value, by each key and its value where several are varied, by its name, or
        else by its number."""
        if len(self.variations) == 1:
            return setting_at(self.variations, table)[0]
        if self.variations:
            return setting_text(self.variations, table)
        return self.labels.tables[table] if table < len(self.labels.tables) else f"table {table}"

    def column_name(self, column: int) -> str:
        table, policy = divmod(column, len(self.policies))
        name = self.table_name(table)
        return f"{name} {self.policies[policy]}" if len(self.policies) > 1 else name

    def heading(self) -> Cells:
        row = [self.variations[0].shown if len(self.variations) == 1 else "measure"]
        for column in range(len(self.runs)):
            put_heading(row, self.column_name(column), self.is_csv)
            row += [f"change {self.column_name(column)}"] if column else []
        return row

    def row(self, label: str, figures: Sequence[MaybeFigure]) -> Cells:
        """A row: what it says of each run, and the change from the first."""
        row = [label]
        for column, figure in enumerate(figures):
            put_figure(row, figure, self.is_csv)
            row += [change(figures[0], figure)] if column else []
        return row

    def of_task(self, label: str, task: int) -> Cells:
        name = f"{self.labels.task(task)} {shown(label, self.labels)}"
        return self.row(name, [it.of(label, task) for it in self.runs])

    def of_crowd(self, label: str, task: int) -> Cells:
        figures = [Figure(it.crowd(label, task)) if task < it.tasks else None for it in self.runs]
        return self.row(f"{self.labels.task(task)} {label}", figures)

    def task_rows(self, task: int, is_crowded: bool) -> list[Cells]:
        """The rows of a task."""
        rows = []
        for label in (*REQUESTS, *CORES):
            rows.append(self.of_task(label, task))
            rows += [self.of_crowd(it, task) for it in CROWD] if label == LEFT and is_crowded else []
        return rows

    def written(self) -> str:
        """All rows: task by task, and last those of the machine."""
        is_crowded = self.has_came or any(it.is_crowded for it in self.runs)
        tasks = max(it.tasks for it in self.runs)
        rows = [self.heading(), *(row for task in range(tasks) for row in self.task_rows(task, is_crowded))]
        rows += [self.row(shown(it, self.labels), [run.measured.machine(it) for run in self.runs]) for it in MACHINE]
        return written(rows, self.is_csv)
