"""The runs of a comparison, measured: one of each table by each policy."""
from __future__ import annotations

import itertools
from dataclasses import dataclass, field, replace
from typing import Optional, Sequence

from .. import pool
from ..figures import MaybeFigure
from ..measured import CROWD, TIMES, Measured, measured_of
from ..moving import Moved, Mover, NoTask
from ..plans import Plan
from ..players import Players
from ..programs import Ran, Text, Viewer, Word, refused
from ..progress import Progress
from ..refusal import Refusal
from ..samples import PER_MILLE, Sample, raised, samples_of
from ..tables import SEPARATOR, Machine
from ..windows import WHOLE, Window

NONE_CAME = "no request came within the turns"
# The rows of the requests that came within the window.
RANKED = {it for it in TIMES if not it.startswith("machine")} | {
    f"slowdown {it}" for it in ("least", "median", "90 of 100", "99 of 100", "99.9 of 100", "greatest")}


@dataclass(frozen=True)
class ComparedRun:
    """A run: its numbers, whether these say which requests found their turns taken, whether a request came within the
    window, how many tasks there are, and the samples of those with a rank whose request is pending."""

    measured: Measured
    has_crowd: bool
    is_ranked: bool
    tasks: int
    samples: dict[int, Sample] = field(default_factory=dict)

    def of(self, label: str, task: int) -> MaybeFigure:
        """What a row says of a task, which the table may not have."""
        if task >= self.tasks or (label in RANKED and not self.is_ranked):
            return None
        figure = self.measured.of(label, task)
        return raised(figure, self.samples[task], label) if task in self.samples else figure

    def crowd(self, label: str, task: int) -> int:
        """How many requests of a task found their turns taken, by a row."""
        return self.measured.number(label, task) if self.has_crowd else 0

    @property
    def is_crowded(self) -> bool:
        """Whether some request was moved by more than one turn, or is left out."""
        return any(self.crowd(label, task) for label in CROWD for task in range(self.tasks))


@dataclass(frozen=True)
class Terms:
    """By what runs are made and counted: the policies, the plan, and the window."""

    policies: tuple[str, ...]
    plan: Plan
    window: Window


class Runs:
    """What makes the runs."""

    def __init__(self, view: Viewer, terms: Terms, machines: Sequence[Machine], mover: Mover,
                 names: Sequence[str], turns: Sequence[int], players: Players) -> None:
        self.view, self.terms, self.machines, self.mover, self.names = view, terms, machines, mover, names
        # The clocks of the turns, which all tables have in common.
        self.turns, self.players = turns, players

    def of_whole(self) -> "Runs":
        """The same runs, counted whole."""
        return Runs(self.view, replace(self.terms, window=Window(WHOLE)), self.machines, self.mover, self.names,
                    self.turns, self.players)

    def moved(self, table: int) -> Moved:
        """What a table gets."""
        try:
            return self.mover.moved(self.machines[table])
        except NoTask as fault:
            raise Refusal(f"{self.names[table]} {fault.line}") from None

    def plan_for(self, moved: Moved) -> Plan:
        """The plan of a run: memory has nothing to bear where no request has misses."""
        plan = self.terms.plan
        if plan.memory is None or moved.have_misses:
            return plan
        return Plan(plan.pace or "1", plan.beside, None, plan.figure)

    def asked(self, table: int, policy: str) -> tuple[Ran, Moved, bool]:
        """What the program says of a run, on what, and whether a request came within the window."""
        moved, terms = self.moved(table), self.terms
        given = self.machines[table].text() + SEPARATOR + moved.arrivals
        words: list[Word] = ["measure", "--csv", *self.words_of(table, policy, moved)]
        came: list[Word] = [] if moved.came is None else ["--came", Text(moved.came)]
        ran = self.view.ask([*words, *came, *terms.window.words(len(self.turns))], given)
        if ran.status == 2 and NONE_CAME in ran.err:
            return self.view.ask([*words, *came], given), moved, False
        return ran, moved, True

    def words_of(self, table: int, policy: str, moved: Moved) -> list[Word]:
        """The words for how a run goes."""
        return self.players.words(policy, self.machines[table], moved.arrivals, self.plan_for(moved))

    def run(self, unit: tuple[int, str]) -> ComparedRun:
        """The run of a table by a policy."""
        table, policy = unit
        with self.players.naming(policy, f"of {self.names[table]}"):
            ran, moved, is_ranked = self.asked(table, policy)
            if ran.status:
                raise refused(ran)
            measured, tasks = measured_of(ran.out), len(self.machines[table].tasks)
            samples = self.samples(measured, table, policy, moved) if is_ranked else {}
        return ComparedRun(measured, moved.came is not None, is_ranked, tasks, samples)

    def samples(self, measured: Measured, table: int, policy: str, moved: Moved) -> dict[int, Sample]:
        """The samples of the tasks with a rank whose request is pending. The window of all requests shows what the
        program says."""
        tasks = [task for task in range(len(self.machines[table].tasks)) for label in PER_MILLE
                 if (figure := measured.of(label, task)) is not None and figure.is_bound]
        if self.terms.window.which == WHOLE or not tasks:
            return {}
        given = self.machines[table].text() + SEPARATOR + moved.arrivals
        came: list[Word] = [] if moved.came is None else ["--came", Text(moved.came)]
        words: list[Word] = ["requests", *self.words_of(table, policy, moved)]
        return samples_of(self.view.told([*words, *came], given).out, tasks, *self.terms.window.clocks(self.turns))

    def all(self, is_shown: bool = False, jobs: Optional[int] = None) -> list[ComparedRun]:
        """The runs of each table by each policy, so many at a time: of the first table by each, then of the next. The
        refusal is that of the first table by the first policy that has one. On a terminal it may be shown how many are
        made."""
        policies = self.terms.policies
        units = list(itertools.product(range(len(self.machines)), policies))
        places = [place * len(self.machines) + table for table in range(len(self.machines))
                  for place in range(len(policies))]
        progress = Progress(len(units), is_shown)

        def made(unit: tuple[int, str]) -> ComparedRun:
            run = self.run(unit)
            progress.made()
            return run
        try:
            with self.players.at_work(jobs):
                return pool.all_of(made, units, pool.at_a_time(jobs), places)
        finally:
            progress.ended()
