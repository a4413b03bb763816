"""The picture of a sweep: a task's response at ranks over its load, what is pending there in a band of its own, and
what it costs: the response over the cores that best-effort tasks held, a line for each table."""
from __future__ import annotations

import math
from dataclasses import dataclass
from functools import cached_property
from typing import Any, Optional, Sequence

from matplotlib.axes import Axes

from ..refusal import Refusal
from ..sweeps.loads import A_SECOND
from ..sweeps.objectives import Objective
from .colours import Palette
from .curves import STYLES, grid, look, sample_rows, samples
from .numbers import GREATEST, LEAST, Cell, Sweep, SweptRun
from .paper import SMALL, Paper, heading, wrapped
from .scales import TimeScale, core_scale

MARGIN, AXIS, PLOT, BAND = 14, 76, 300, 16
# The part of the cost plot's width on each side that is kept for the loads at the ends of a line.
ENDS = 0.3
FEW, SPREAD = 0.45, 0.16


@dataclass(frozen=True)
class SweepScene:
    """A sweep as it is shown: the task that is swept, the objective if it is of that task, the cores of each table
    where they are known, how wide, and on which ground."""

    sweep: Sweep
    palette: Palette
    width: int
    task: str = ""
    objective: Optional[Objective] = None
    cores: Optional[tuple[int, ...]] = None
    tick: str = ""

    @property
    def unit(self) -> str:
        return self.tick or "ticks"

    @property
    def title(self) -> str:
        of = self.task or self.sweep.task
        if self.sweep.has_tasks:
            return f"Responses over the load of {of}" if of else "Responses over load"
        return f"Response of {of} over its load" if of else "Response over load"

    @property
    def values(self) -> list[str]:
        return self.sweep.values

    @property
    def ranks(self) -> list[str]:
        """The ranks that have curves: p50, p99 and p99.9, and p90 if the objective is of it."""
        asked = self.objective.rank if self.objective else ""
        return [it for it in ("p50", "p90", "p99", "p99.9") if it != "p90" or asked == "p90"]

    @property
    def cost_rank(self) -> str:
        """The rank that is drawn over its cost: the objective's, else p99."""
        return self.objective.rank if self.objective and self.objective.rank in self.ranks else "p99"

    def runs(self, value: str) -> list[SweptRun]:
        """The runs of one table, by load; of several seeds the medians."""
        return self.of_seeds(value, self.sweep.shown)

    def of_seeds(self, value: str, runs: Sequence[SweptRun]) -> list[SweptRun]:
        """Those of these runs that are of one table, by load."""
        return sorted((it for it in runs if it.value == value), key=lambda it: it.load)

    def ends(self, value: str) -> list[list[SweptRun]]:
        """The least and the greatest of several seeds, of one table by load."""
        return [self.of_seeds(value, [it for it in self.sweep.runs if it.which == end]) for end in (LEAST, GREATEST)]

    def best_effort(self, run: SweptRun) -> float:
        """What best-effort tasks held in a run: cores, or their share of the machine where its cores are not known."""
        share = run.counts["best-effort share"]
        cores = self.cores[self.values.index(run.value)] if self.cores else 1
        return math.nan if share is None else share * cores

    @property
    def has_cost(self) -> bool:
        return any((it.counts["best-effort share"] or 0) > 0 for it in self.sweep.runs)

    @cached_property
    def times(self) -> TimeScale:
        times = [it.times[rank].answered for it in self.sweep.runs for rank in self.ranks]
        return TimeScale([*times, *([self.objective.ticks] if self.objective else [])])

    @property
    def waiting(self) -> list[str]:
        """The ranks at which a request is pending in any run."""
        return [rank for rank in self.ranks if any(it.times[rank].pending for it in self.sweep.shown)]


def curve(axes: Axes, places: Sequence[float], cells: Sequence[Cell], name: str, how: dict[str, Any]) -> None:
    """A line through the times that were answered, broken at what is pending; markers are pale where too few requests
    came for the rank."""
    times = [it.answered for it in cells]
    axes.plot(places, times, gid=name, clip_on=False, **{**how, "marker": ""})
    for few, alpha in ((False, 1.0), (True, FEW)):
        chosen = [(x, y) for x, y, it in zip(places, times, cells) if (it.of is not None) == few and y == y]
        if chosen:
            xs, ys = zip(*chosen)
            axes.plot(xs, ys, gid=f"{name}-{'few' if few else 'points'}", clip_on=False, alpha=alpha,
                      **{**how, "linestyle": "none"})


def band(axes: Axes, scene: SweepScene, value: str, rank: str, name: str, colour: str) -> None:
    """From the least to the greatest of several seeds: open at the top where the greatest is pending."""
    least, greatest = scene.ends(value)
    lows = [it.times[rank].answered for it in least]
    highs = [scene.times.most if it.times[rank].pending else it.times[rank].answered for it in greatest]
    loads = [it.load for it in least]
    if len(loads) == 1:
        axes.vlines(loads, lows, highs, color=colour, alpha=2 * SPREAD, lw=6, gid=name, zorder=1.5)
    else:
        axes.fill_between(loads, lows, highs, color=colour, alpha=SPREAD, lw=0, gid=name, zorder=1.5)


class LoadPlot:
    """Response over load, and above it a band for each rank at which something is pending."""

    def __init__(self, scene: SweepScene, left: float, across: float) -> None:
        self.scene, self.left, self.across = scene, left, across
        self.loads = sorted({it.load for it in scene.sweep.runs})
        apart = min((b - a for a, b in zip(self.loads, self.loads[1:])), default=1.0)
        self.room = apart / 2
        self.dodge = min(apart / (len(scene.values) + 1), apart * 8 / max(across / (len(self.loads) + 1), 1))

    def limits(self, axes: Axes) -> None:
        axes.set_xlim(self.loads[0] - self.room, self.loads[-1] + self.room)

    def bands(self, paper: Paper, top: float) -> float:
        """What is pending, by rank; answers where the bands end."""
        scene, colours = self.scene, paper.palette
        for place, rank in enumerate(scene.waiting):
            y = top + BAND * place
            axes = paper.axes(self.left, y, self.across, BAND - 2, f"pending {rank}")
            axes.set_facecolor(colours.lane)
            self.limits(axes)
            axes.set_ylim(0, 1)
            for number, value in enumerate(scene.values):
                loads = [it.load for it in scene.runs(value) if it.times[rank].pending]
                shift = (number - (len(scene.values) - 1) / 2) * self.dodge
                how = {**look(number, 1, colours), "linestyle": "none", "markersize": 5.5}
                axes.plot([it + shift for it in loads], [0.5] * len(loads), gid=f"pending-{rank}-{number}", **how)
            paper.text(self.left - 6, y + BAND / 2 - 1, f"{rank} pending", SMALL - 1, color=colours.second, ha="right")
        return top + BAND * len(scene.waiting) + 6

    def draw(self, paper: Paper, top: float) -> None:
        scene, colours = self.scene, paper.palette
        axes = paper.axes(self.left, top, self.across, PLOT, "response over load")
        self.limits(axes)
        scene.times.use(axes, "y")
        few = self.loads[::-(-len(self.loads) * 34 // int(self.across))] if len(self.loads) > 1 else self.loads
        axes.set_xticks(few, [f"{it:g}" for it in few])
        grid(axes, colours)
        for number, value in enumerate(scene.values):
            runs = scene.runs(value)
            for rank in scene.ranks:
                how = {**look(number, len(scene.values), colours), "linestyle": STYLES[rank]}
                if scene.sweep.seeds:
                    band(axes, scene, value, rank, f"band-{rank}-{number}", colours.shade(number).line)
                curve(axes, [it.load for it in runs], [it.times[rank] for it in runs], f"{rank}-{number}", how)
        if scene.objective:
            axes.axhline(scene.objective.ticks, color=colours.ink, lw=1.4, gid="objective", zorder=2)
        paper.text(MARGIN + 6, top + PLOT / 2, f"response, {scene.unit}", SMALL, color=colours.second, ha="center",
                   rotation="vertical")
        what, of = ("cores offered", " to ") if scene.sweep.in_cores else ("load", " of ")
        unit = f" {A_SECOND}" if scene.sweep.is_rate else ""
        paper.text(self.left + self.across / 2, top + PLOT + 32, f"{what}{of * bool(scene.task)}{scene.task}{unit}",
                   SMALL, color=colours.second, ha="center")


class CostPlot:
    """The response at one rank over the cores that best-effort tasks held, a line for each table through its loads."""

    def __init__(self, scene: SweepScene, left: float, across: float) -> None:
        self.scene, self.left, self.across = scene, left, across

    def limits(self, axes: Axes) -> None:
        """The same cores for the curves and for what is pending."""
        held = [it for it in map(self.scene.best_effort, self.scene.sweep.shown) if math.isfinite(it)]
        core_scale(axes, held, ENDS, 5)

    def pending(self, paper: Paper, top: float) -> None:
        """At the height of its band above the loads, what is pending at the rank."""
        scene, rank = self.scene, self.scene.cost_rank
        if rank not in scene.waiting:
            return
        y = top - 6 - BAND * (len(scene.waiting) - scene.waiting.index(rank))
        axes = paper.axes(self.left, y, self.across, BAND - 2, "cost pending")
        axes.set_facecolor(paper.palette.lane)
        self.limits(axes)
        axes.set_xticks([])
        axes.set_ylim(0, 1)
        for number, value in enumerate(scene.values):
            held = [scene.best_effort(it) for it in scene.runs(value) if it.times[rank].pending]
            how = {**look(number, 1, paper.palette), "linestyle": "none", "markersize": 5.5}
            axes.plot(held, [0.5] * len(held), gid=f"cost-pending-{number}", **how)

    def draw(self, paper: Paper, top: float) -> None:
        scene, colours, rank = self.scene, paper.palette, self.scene.cost_rank
        axes = paper.axes(self.left, top, self.across, PLOT, "cost")
        self.limits(axes)
        scene.times.use(axes, "y")
        axes.set_yticklabels([])
        grid(axes, colours)
        for number, value in enumerate(scene.values):
            runs = scene.runs(value)
            how = {**look(number, len(scene.values), colours), "linestyle": STYLES[rank]}
            curve(axes, [scene.best_effort(it) for it in runs], [it.times[rank] for it in runs], f"cost-{number}", how)
        self.ends(axes, colours)
        if scene.objective:
            axes.axhline(scene.objective.ticks, color=colours.ink, lw=1.4, gid="cost-objective", zorder=2)
        words = "best-effort cores" if scene.cores else "best-effort share of the machine"
        paper.text(self.left + self.across / 2, top + PLOT + 32, words, SMALL, color=colours.second, ha="center")
        self.pending(paper, top)

    def ends(self, axes: Axes, colours: Palette) -> None:
        """The loads at both ends of the first table's line, to its left and to its right."""
        scene = self.scene
        runs = [it for it in scene.runs(scene.values[0]) if it.times[scene.cost_rank].answered >= 0]
        ends = sorted({it.load: it for it in (*runs[:1], *runs[-1:])}.values(), key=scene.best_effort)
        for run, side in zip(ends, ((-7, "right"), (7, "left"))):
            place = (scene.best_effort(run), run.times[scene.cost_rank].answered)
            load = f"{run.load:g} cores" if scene.sweep.in_cores else \
                f"{run.load:g}/s" if scene.sweep.is_rate else f"load {run.load:g}"
            axes.annotate(load, place, (side[0], 0), textcoords="offset points", ha=side[1],
                          va="center", fontsize=(SMALL - 1) * 0.75, color=colours.second, zorder=2)


def lines_of(scene: SweepScene) -> list[tuple[str, bool]]:
    """What stands below the title."""
    across = scene.width - 2 * MARGIN
    words = f"From arrival to answer, in {scene.unit}, at ranks of the requests of the window."
    if scene.waiting:
        words += " Above: where the request at the rank was not answered."
    lines = [(it, True) for it in wrapped(words, across)]
    notes = []
    if scene.sweep.seeds:
        notes.append(f"Lines: the median {scene.sweep.seeds}; bands: from the least to the greatest, open at the top "
                     "where that was not answered.")
    if scene.has_cost:
        notes.append(f"At the right what {scene.cost_rank} costs: lower and further right is better.")
    if any(it.times[rank].of is not None for it in scene.sweep.runs for rank in scene.ranks):
        notes.append("Pale: of fewer than 100 requests (p99) or 1,000 (p99.9).")
    return lines + [(it, False) for it in wrapped(" ".join(notes), across) if it]


def draw_sweep(scene: SweepScene) -> Paper:
    """The picture of a sweep."""
    if all(it.times[rank].value is None for it in scene.sweep.runs for rank in scene.ranks):
        raise Refusal("no requests came: there is nothing to draw")
    labels = [scene.sweep.label(it) for it in scene.values] if scene.values != [""] else []
    lines, ranks = lines_of(scene), scene.ranks
    left = MARGIN + AXIS
    rows = (sample_rows(scene.width, left, labels) if labels else 0) + 1
    top = 44.0 + 17 * len(lines) + 20 * rows + 14
    plot = top + BAND * len(scene.waiting) + 6
    paper = Paper(scene.width, plot + PLOT + 50, scene.palette, scene.title)
    below = heading(paper, MARGIN, scene.title, lines)
    if labels:
        looks = [look(number, len(labels), scene.palette) for number in range(len(labels))]
        below = samples(paper, left, below, labels, looks)
    plain = [{"color": scene.palette.second, "linestyle": STYLES[it], "linewidth": 2} for it in ranks]
    samples(paper, left, below, ranks, plain)
    right = 92 if scene.objective else MARGIN
    cost = (scene.width - left - right) * 0.34 if scene.has_cost else 0
    loads = LoadPlot(scene, left, scene.width - left - right - cost - (28 if cost else 0))
    loads.bands(paper, top)
    loads.draw(paper, plot)
    if cost:
        CostPlot(scene, scene.width - right - cost, cost).draw(paper, plot)
    if scene.objective:
        name_objective(paper, scene, plot, scene.width - right + 6)
    return paper


def name_objective(paper: Paper, scene: SweepScene, top: float, left: float) -> None:
    """What the line of the objective is, beside the plots, where no point can be."""
    goal, times = scene.objective, scene.times
    if goal:
        y = top + PLOT * (1 - times.part(goal.ticks))
        paper.text(left, y - 7, f"{goal.rank} at most", SMALL, weight="bold")
        paper.text(left, y + 7, f"{goal.ticks} {scene.unit}", SMALL, weight="bold")
