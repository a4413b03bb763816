"""What becomes of an objective in a run: a sample decides only where enough of it lies on each side of the rank."""
from __future__ import annotations

from ..labels import Labels
from ..samples import PER_MILLE, Sample
from ..words.asked import MOST_TURNS
from .asked import SweepAsked
from .objectives import KEPT, MISSED, RANKS, UNDECIDED, Judged, Objective
from .runs import SweptRun

# So many requests beyond a rank, or above the ticks of an objective, decide.
DECIDING = 10


class Judge:
    """What judges the runs of a sweep."""

    def __init__(self, asked: SweepAsked) -> None:
        self.asked = asked

    @property
    def labels(self) -> Labels:
        return self.asked.labels

    def ticks(self, number: int) -> str:
        return f"{number} {self.labels.ticks}"

    def judged(self, objective: Objective, run: SweptRun) -> Judged:
        """What becomes of an objective in a run, and why. Requests that are left out count against the task that lost
        them, and against the others where loads are in cores, since these were not offered then."""
        left = run.first_left(None if self.asked.loads.in_cores else [objective.task])
        if left is not None:
            return Judged(MISSED, f"requests of {self.labels.task(left[0])} are left out from turn {left[1]} on")
        sample = run.samples.get(objective.task, Sample(()))
        if not sample.count:
            return Judged(UNDECIDED, "no requests came, run longer")
        return self.by_sample(objective, run, sample)

    def by_sample(self, objective: Objective, run: SweptRun, sample: Sample) -> Judged:
        """The same of a run to whose window requests came."""
        label, rank = RANKS[objective.rank], objective.rank
        figure = run.response(label, objective.task)
        is_pending = figure is None or figure.is_bound
        least = sample.at_least(label) if figure is None or figure.is_bound else figure.number
        said = f"{rank} is {'more than ' if is_pending else ''}{self.ticks(least)}"
        if least > objective.ticks:
            over = sample.over(objective.ticks)
            if over >= DECIDING or rank == "max":
                return Judged(MISSED, said)
            return Judged(UNDECIDED, f"{said}, but {over} of {sample.count} requests took longer than "
                                     f"{self.ticks(objective.ticks)}, and {DECIDING} "
                                     f"decide{self.more(run, sample, label)}")
        if is_pending:
            return Judged(UNDECIDED, f"{rank} is pending for {self.ticks(least)}, run longer")
        beyond = sample.beyond(label)
        if beyond >= DECIDING or rank == "max":
            return Judged(KEPT, said)
        return Judged(UNDECIDED, f"{said}, but {beyond} of {sample.count} requests lie beyond it, and {DECIDING} "
                                 f"decide{self.more(run, sample, label)}")

    def more(self, run: SweptRun, sample: Sample, label: str) -> str:
        """How many more turns would do."""
        asked = self.asked
        needed = DECIDING * 1000 // (1000 - PER_MILLE[label])
        # The window grows with the run, unless its end is named.
        turns = run.turns if asked.is_middle(run.turns) else asked.after - asked.first
        more = -(-turns * (needed - sample.count) // sample.count)
        if run.turns + more > MOST_TURNS:
            return f": a run of {MOST_TURNS} turns has too few"
        return f": about {more} more turns would do"
