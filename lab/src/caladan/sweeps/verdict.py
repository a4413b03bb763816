"""Whether a sweep keeps its objectives, and what is said of those that it does not."""
from __future__ import annotations

from dataclasses import dataclass
from typing import Optional

from ..refusal import NAME
from ..samples import course_of, growth_of
from ..varying import setting_at
from .as_before import judged_by_rank
from .asked import SweepAsked
from .judging import Judge
from .objectives import KEPT, MISSED, UNDECIDED, Judged, Objective
from .runs import SweptRun

MUST_GROW = ("the response grows with the run, since as much work comes as the threads of the task can do, or more; "
             "offer less, or raise its limit")


@dataclass(frozen=True)
class Swept:
    """The runs of a sweep by their load, their seed, the place of their table and that of their policy."""

    asked: SweepAsked
    runs: dict[tuple[int, int, int, int], SweptRun]
    tables: int

    def of_seeds(self, load: int, table: int, policy: int) -> list[SweptRun]:
        """The runs of a table by a policy at a load, one with each seed."""
        return [self.runs[load, seed, table, policy] for seed in self.asked.seeds]


class Verdict:
    """What becomes of the objectives of a sweep."""

    def __init__(self, swept: Swept) -> None:
        self.swept, self.asked, self.judge = swept, swept.asked, Judge(swept.asked)
        self.known: dict[tuple[str, int, int, int], Judged] = {}

    def load(self, load: int) -> str:
        return self.asked.loads.said(load)

    def front(self, table: int, policy: int) -> str:
        """The values that make a table, and the policy where there are several."""
        asked = self.asked
        values = setting_at(asked.variations, table)
        told = " ".join(f"{it.shown}={value}" for it, value in zip(asked.variations, values))
        of_policy = f"{asked.policies[policy]}: " if len(asked.policies) > 1 else ""
        return (f"{told}: " if told else "") + of_policy

    def judged(self, objective: Objective, run: SweptRun) -> Judged:
        """What becomes of an objective in a run."""
        if self.asked.is_as_before:
            return judged_by_rank(objective, run, self.asked.labels.ticks)
        return self.judge.judged(objective, run)

    def growth(self, task: int, runs: list[SweptRun]) -> str:
        """That the response of a task grows over the windows of the runs with all seeds, or must grow where as much
        work comes as its threads can do; nothing where it does not."""
        asked = self.asked
        if asked.is_as_before:
            return ""
        courses = []
        for it in runs:
            first, after = map(asked.clock_of, asked.window(it.turns))
            if task in it.samples and (course := course_of(it.samples[task], first, after)):
                courses.append(course)
        if grows := growth_of(courses):
            earlier, later = (f"{it:.1f} {asked.labels.ticks}" for it in grows)
            return (f"the response grows, from {earlier} in the mean of the window's first half to {later} in its "
                    "second; run longer, or offer less")
        return MUST_GROW if any(task in it.filled for it in runs) else ""

    def of_all(self, objective: Objective, load: int, table: int, policy: int) -> Judged:
        """The same with all seeds: one is enough to miss it, else to leave it undecided; a response that grows leaves
        it undecided."""
        key = objective.word, load, table, policy
        if key not in self.known:
            self.known[key] = self.found(objective, self.swept.of_seeds(load, table, policy))
        return self.known[key]

    def found(self, objective: Objective, runs: list[SweptRun]) -> Judged:
        each = [self.judged(objective, it) for it in runs]
        first = {it: n for n, it in reversed([*enumerate(it.standing for it in each)])}
        if MISSED not in first and (grows := self.growth(objective.task, runs)):
            return Judged(UNDECIDED, f": {grows}")
        is_so = next((it for it in (MISSED, UNDECIDED) if it in first), KEPT)
        place, seeds = first[is_so], self.asked.seeds
        many = sum(it.standing == is_so for it in each)
        front = f" with {many} of {len(seeds)} seeds: with seed {seeds[place]} " if len(seeds) > 1 else ": "
        return Judged(is_so, f"{front}{each[place].why}")

    def kept_up_to(self, objective: Objective, table: int, policy: int) -> Optional[int]:
        """The last load at which all runs keep an objective, below the first that misses it. At a lower load, to which
        fewer requests come, it may be undecided; by the rules of version 4 it may not."""
        ends = (MISSED, UNDECIDED) if self.asked.is_as_before else (MISSED,)
        kept = None
        for load in self.asked.loads.loads:
            standing = self.of_all(objective, load, table, policy).standing
            if standing in ends:
                return kept
            kept = load if standing == KEPT else kept
        return kept

    def line(self, objective: Objective, table: int, policy: int) -> str:
        """What is said of an objective that the last load of a table by a policy does not keep; nothing else."""
        last = self.asked.loads.loads[-1]
        found = self.of_all(objective, last, table, policy)
        if found.standing == KEPT:
            return ""
        kept = self.kept_up_to(objective, table, policy)
        end = "kept at no load" if kept is None else f"kept up to {self.load(kept)}"
        said = f"{objective.word} is {found.standing} at {self.load(last)}{found.why}; {end}"
        return f"{NAME}: {self.front(table, policy)}{said}\n"

    def each(self) -> list[tuple[Objective, int, int]]:
        """Each objective of each table by each policy: by policies, then by objectives, then by tables."""
        return [(objective, table, policy) for policy in range(len(self.asked.policies))
                for objective in self.asked.objectives for table in range(self.swept.tables)]

    def lines(self) -> str:
        """A line for each miss."""
        return "".join(self.line(*it) for it in self.each())

    def sure(self) -> str:
        """A line for each objective that the last load keeps with several seeds: what that says of others. With a
        chance below the one that is told, so many seeds of so many would keep it in fewer than 5 of 100 sweeps."""
        asked, last, seeds = self.asked, self.asked.loads.loads[-1], len(self.asked.seeds)
        if asked.is_as_before or seeds < 2:
            return ""
        chance = f"{int(1000 * 0.05 ** (1 / seeds)) / 1000:.3f}"
        kept = [it for it in self.each() if self.of_all(it[0], last, *it[1:]).standing == KEPT]
        return "".join(f"{self.front(table, policy)}{objective.word} is kept at {self.load(last)} with {seeds} of "
                       f"{seeds} seeds: another keeps it with a chance of {chance} or more, at 95 in 100\n"
                       for objective, table, policy in kept)

    def keeps_all(self, load: int, table: int, policy: int) -> bool:
        """Whether the runs of a table by a policy at a load keep each objective with all seeds."""
        return all(self.of_all(it, load, table, policy).standing == KEPT for it in self.asked.objectives)
