"""The runs of a sweep, measured: of each load with each seed one of each table by each policy."""
from __future__ import annotations

import threading
from dataclasses import dataclass, field
from typing import Iterable, Optional, Sequence

from ..figures import MaybeFigure, thousandths
from ..logs.sweeping import LogLoads, LogMaker
from ..measured import Measured, measured_of
from ..players import Players
from ..programs import Text, Viewer, Word, refused
from ..progress import Progress
from ..samples import P95, PER_MILLE, Sample, raised, samples_of
from ..shares import held_in_series, held_in_spans, share_of
from ..tables import SEPARATOR, Machine
from .asked import SweepAsked
from .making import Count, Made, Maker, Making

NONE_CAME = "no request came within the turns"


@dataclass(frozen=True)
class SweptRun:
    """A run: what came to each task that has a load; of those tasks that lost requests which came before the end of the
    window, the turn to which the first of these came; the numbers, whether a request came within the window, and the
    share of the best-effort tasks; the samples of tasks of which more is asked than the numbers say, how many turns it
    has, and the tasks to which as much work comes as their threads can do."""

    counts: dict[int, Count]
    left_from: dict[int, int]
    measured: Measured
    is_ranked: bool
    share: MaybeFigure
    samples: dict[int, Sample] = field(default_factory=dict)
    turns: int = 0
    filled: tuple[int, ...] = ()

    def response(self, label: str, task: int) -> MaybeFigure:
        """A row of a task's responses in the window; a bound with the least that it can be."""
        if not self.is_ranked:
            return None
        sample = self.samples.get(task)
        if label == P95:
            return sample.figure(P95) if sample else None
        figure = self.measured.of(label, task)
        return raised(figure, sample, label) if sample else figure

    def first_left(self, tasks: Optional[Iterable[int]] = None) -> Optional[tuple[int, int]]:
        """Of these tasks, or of all, the one that lost the first request, and the turn to which that came."""
        left = [(turn, task) for task, turn in self.left_from.items() if tasks is None or task in tasks]
        return min(left)[::-1] if left else None


class Point:
    """A load with a seed: its arrivals, which tables with the same limits have in common, are kept until the last of
    its runs is made."""

    def __init__(self, load: int, seed: int, runs: int, parts: dict[str, int]) -> None:
        self.load, self.seed, self.runs, self.parts = load, seed, runs, parts
        self.lock = threading.Lock()
        self.kept: dict[tuple[int, ...], Made] = {}

    def made(self, maker: Making, machine: Machine) -> Made:
        with self.lock:
            if machine.limits not in self.kept:
                self.kept[machine.limits] = maker.made(machine, self.load, self.seed)
            return self.kept[machine.limits]

    def ended(self, policy: str) -> bool:
        """Notes that a run is made; whether it is the last by its policy."""
        with self.lock:
            self.runs -= 1
            if not self.runs:
                self.kept.clear()
            self.parts[policy] -= 1
            return not self.parts[policy]


@dataclass(frozen=True)
class Unit:
    """One run that is to be made."""

    point: Point
    machine: Machine
    policy: str


class Runs:
    """What makes the runs of a sweep."""

    def __init__(self, view: Viewer, asked: SweepAsked, machines: Sequence[Machine], progress: Progress,
                 players: Players) -> None:
        self.view, self.asked, self.progress, self.players = view, asked, progress, players
        self.maker: Making = Maker(view, asked, machines)
        if isinstance(asked.loads, LogLoads):
            self.maker = LogMaker(view, asked.loads)

    def run(self, unit: Unit) -> SweptRun:
        """Makes a run."""
        made = unit.point.made(self.maker, unit.machine)
        with self.players.naming(unit.policy, f"at load {thousandths(unit.point.load)} with seed {unit.point.seed}"):
            run = self.measured(unit, made)
        if unit.point.ended(unit.policy):
            self.progress.made()
        return run

    def words_of(self, unit: Unit, made: Made) -> list[Word]:
        """The words for how the run goes. Where no request has misses, a plan has none to bear or to show."""
        asked = self.asked
        some = made.have_misses if made.have_misses is not None else any(
            it.has_misses and made.counts[it.task].came > made.counts[it.task].left_out for it in asked.loads.tasks)
        plan = asked.plan if some else asked.plan.without_misses()
        return self.players.words(unit.policy, unit.machine, made.arrivals, plan)

    def measured(self, unit: Unit, made: Made) -> SweptRun:
        asked = self.asked
        words, given = self.words_of(unit, made), unit.machine.text() + SEPARATOR + made.arrivals
        measure: list[Word] = ["measure", "--csv", "--came", Text(made.came), *words]
        turns = asked.turns if made.turns is None else made.turns
        first, after = asked.window(turns)
        ran = self.view.ask([*measure, "--from", str(first), "--to", str(after)], given)
        is_ranked = not (ran.status == 2 and NONE_CAME in ran.err)
        if not is_ranked:
            ran = self.view.ask(measure, given)
        if ran.status:
            raise refused(ran)
        numbers = measured_of(ran.out)
        in_lockstep = not asked.plan.words()

        def held() -> int:
            if in_lockstep:
                spans = self.view.told(["spans", *words], given).out
                return held_in_spans(spans, unit.machine.best_effort, asked.ticks * turns)
            return held_in_series(self.view.told(["series", *words], given).out, unit.machine.best_effort)
        left = {task: turn for task, turn in made.left_from.items() if turn < after}
        share = share_of(unit.machine, numbers, asked.ticks if in_lockstep else 1, held)
        samples = self.samples(numbers, words, made, given, (first, after)) if is_ranked else {}
        filled = asked.loads.filled(unit.point.load, unit.machine)
        return SweptRun(made.counts, left, numbers, is_ranked, share, samples, turns, filled)

    def samples(self, numbers: Measured, words: Sequence[Word], made: Made, given: bytes,
                window: tuple[int, int]) -> dict[int, Sample]:
        """The samples of the tasks of objectives, and of those with a rank whose request is pending."""
        asked = self.asked
        if asked.is_as_before:
            return {}
        tasks = {it.task for it in asked.objectives} | {
            task for task in asked.shown_tasks for label in PER_MILLE
            if (figure := numbers.of(label, task)) is not None and figure.is_bound}
        if not tasks:
            return {}
        requests = self.view.told(["requests", "--came", Text(made.came), *words], given).out
        first, after = map(asked.clock_of, window)
        return samples_of(requests, tasks, first, after)
