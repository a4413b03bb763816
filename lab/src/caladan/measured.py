"""The numbers of a run, as `caladan_view measure --csv` tells them."""
from __future__ import annotations

from dataclasses import dataclass

from .figures import Figure, MaybeFigure, figure_of
from .labels import Labels

RANKS = ("least", "median", "90 of 100", "99 of 100", "99.9 of 100", "greatest")
TICK = "served in a tick"
LEFT = "requests left"
FAR, LEFT_OUT = "requests far", "requests left out"
CROWD = (FAR, LEFT_OUT)


def _ranked(name: str) -> tuple[str, ...]:
    return tuple(f"{name} {rank}" for rank in RANKS)


# The rows of each task, in order, without those of requests that found their turns taken; and those of the machine.
REQUESTS = ("requests given", "requests served", LEFT, TICK, *_ranked("response"), "response mean", *_ranked("wait"),
            *_ranked("service"), *_ranked("slowdown"), "oldest pending", "thefts", "suspensions", "share worked")
CORES = ("grants sibling", "grants recently used", "grants other idle", "lost to bans", "lost to bandwidth",
         "lost to tasks", "taken from others", "cap cuts", "cap raises", "bans", "most cores held", "mean cores held",
         "mean cores being left", "share congested")
CLOCK_OF_PASSES = "machine clock of passes"
MACHINE = ("machine held", "machine leaving", "machine banned", "machine free", "machine over its bandwidth limit",
           CLOCK_OF_PASSES, "machine clock of requests")
TIMES = {*_ranked("response"), "response mean", *_ranked("wait"), *_ranked("service"), "oldest pending",
         CLOCK_OF_PASSES, "machine clock of requests"}


def shown(label: str, labels: Labels) -> str:
    """What stands in front of a row: of times with their unit, where that is said."""
    if label == TICK:
        return f"served in a {labels.tick or 'tick'}"
    return labels.with_unit(label) if label in TIMES else label


@dataclass(frozen=True)
class Measured:
    """The numbers of a run: of each row those of the tasks; of a row of the machine its one number."""

    rows: dict[str, tuple[MaybeFigure, ...]]

    def of(self, label: str, task: int) -> MaybeFigure:
        """What a row says of a task; nothing of one that there is not."""
        row = self.rows.get(label, ())
        return row[task] if task < len(row) else None

    def machine(self, label: str) -> MaybeFigure:
        return self.of(label, 0)

    def number(self, label: str, task: int) -> int:
        """The number of a row that counts; 0 where it says nothing."""
        figure = self.of(label, task)
        return figure.number if figure else 0

    @property
    def lasted(self) -> int:
        """The clock of the passes, in ticks."""
        return self.number(CLOCK_OF_PASSES, 0)


def measured_of(csv: bytes) -> Measured:
    """The numbers of what `measure --csv` printed."""
    rows = {}
    for line in csv.decode().splitlines()[1:]:
        label, *cells = line.split(",")
        rows[label] = tuple(figure_of(cells[n:n + 3]) for n in range(0, len(cells), 3) if cells[n])
    return Measured(rows)


def count(number: int) -> Figure:
    return Figure(number)
