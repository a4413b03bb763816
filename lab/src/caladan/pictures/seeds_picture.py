"""The picture of runs with several seeds: for each measure a plot over what is set in the runs, with the median of the
seeds, the least and the greatest, and a colour for each value of another setting."""
from __future__ import annotations

from dataclasses import dataclass

from matplotlib.axes import Axes
from matplotlib.ticker import MaxNLocator

from ..refusal import Refusal
from .colours import Palette
from .curves import grid, look, sample_rows, samples
from .paper import SMALL, Paper, cut, heading, wrapped
from .seeds import Seeds, Spread, words_for
from .tables import count

MARGIN, AXIS, PLOT, BAND, GAP, BELOW, ROOM = 14, 52, 150, 24, 10, 52, 0.5
MOST_PLOTS = 4


@dataclass(frozen=True)
class SeedsScene:
    """Such runs as they are shown: the names of the tasks, how wide, and on which ground."""

    runs: Seeds
    palette: Palette
    width: int
    names: tuple[str, ...] = ()
    tick: str = ""

    @property
    def unit(self) -> str:
        return self.tick or self.runs.unit or "ticks"

    def spreads(self, row: str, line: str, measure: str) -> list[Spread]:
        """From left to right."""
        return [self.runs.spreads[row, line, it, measure] for it in self.runs.values[0]]

    def is_pending(self, row: str, measure: str) -> bool:
        """Whether a median of a plot is pending."""
        return any(it.middle.pending for line in self.runs.values[1] for it in self.spreads(row, line, measure))

    def across(self) -> str:
        """What changes from left to right, thresholds with their unit."""
        key = self.runs.keys[0]
        return f"{key}, {self.unit}" if key.endswith((".request", ".delay")) else key


class SeedsPlot:
    """One measure, in one row of plots."""

    def __init__(self, scene: SeedsScene, row: str, measure: str) -> None:
        self.scene, self.measure = scene, measure
        self.name = f"{scene.runs.values[2].index(row)}-{scene.runs.measures.index(measure)}"
        self.lines = [scene.spreads(row, it, measure) for it in scene.runs.values[1]]
        self.places = range(len(scene.runs.values[0]))

    def shift(self, number: int, apart: float = 0.14) -> float:
        """How far a line stands from the middle of its place, so that bars do not cover each other."""
        return (number - (len(self.lines) - 1) / 2) * apart

    def limits(self, axes: Axes) -> None:
        axes.set_xlim(-ROOM, len(self.places) - 1 + ROOM)

    def scale(self, axes: Axes) -> float:
        """From 0 to a round number; answers that one."""
        found = [it.answered for line in self.lines for spread in line
                 for it in (spread.least, spread.middle, spread.greatest)]
        most = max((it for it in found if it > 0), default=1.0)
        ticks = [it for it in MaxNLocator(5, steps=[1, 2, 5, 10]).tick_values(0, most) if it >= 0]
        axes.set_ylim(0, ticks[-1])
        if any(it == it for it in found):
            axes.set_yticks(ticks, [f"{it:,.10g}" for it in ticks])
        return float(ticks[-1])

    def draw(self, paper: Paper, left: float, top: float, across: float) -> None:
        scene, colours = self.scene, paper.palette
        axes = paper.axes(left, top, across, PLOT, f"plot {self.name}")
        self.limits(axes)
        most = self.scale(axes)
        axes.set_xticks(self.places, scene.runs.values[0])
        grid(axes, colours)
        for number, line in enumerate(self.lines):
            how = look(number, len(self.lines), colours)
            places = [it + self.shift(number) for it in self.places]
            for place, spread in zip(places, line):
                low, high = spread.least.answered, spread.greatest.answered
                axes.plot([place] * 2, [low, most if spread.greatest.pending else high], color=how["color"], lw=1.2,
                          gid=f"spread-{self.name}-{number}-{round(place - self.shift(number))}", zorder=2)
            axes.plot(places, [it.middle.answered for it in line], gid=f"median-{self.name}-{number}", clip_on=False,
                      **{**how, "linestyle": "-"})

    def pending(self, paper: Paper, left: float, top: float, across: float) -> None:
        """A band with the medians that are pending."""
        axes = paper.axes(left, top, across, 14, f"pending {self.name}")
        axes.set_facecolor(paper.palette.lane)
        self.limits(axes)
        axes.set_ylim(0, 1)
        for number, line in enumerate(self.lines):
            places = [n + self.shift(number, 0.3) for n, it in enumerate(line) if it.middle.pending]
            how = {**look(number, 1, paper.palette), "linestyle": "none", "markersize": 5.5}
            axes.plot(places, [0.5] * len(places), gid=f"pending-{self.name}-{number}", **how)
        paper.text(left - 4, top + 7, "pending", SMALL - 1, color=paper.palette.second, ha="right")


def lines_of(scene: SeedsScene) -> list[tuple[str, bool]]:
    """What stands below the title."""
    words = (f"Points: the median of {count(scene.runs.seeds, 'seed')}. Bars: from the least to the greatest."
             if scene.runs.seeds > 1 else "Points: the run with one seed.")
    if any(it.greatest.pending for it in scene.runs.spreads.values()):
        words += " Pending, or a bar up to the edge: the request at the rank was not answered."
    return [(it, True) for it in wrapped(words, scene.width - 2 * MARGIN)]


def draw_row(paper: Paper, scene: SeedsScene, row: str, top: float) -> float:
    """A row of plots, side by side; answers where it ends."""
    runs, each = scene.runs, (scene.width - 2 * MARGIN) / len(scene.runs.measures)
    if row:
        paper.text(MARGIN, top, f"{runs.keys[2]}: {row}", weight="bold")
        top += 24
    plots = [SeedsPlot(scene, row, it) for it in runs.measures]
    waits = [scene.is_pending(row, it) for it in runs.measures]
    plot = top + 14 + BAND * any(waits)
    for number, (it, is_waiting) in enumerate(zip(plots, waits)):
        left = MARGIN + each * number + AXIS
        words = cut(words_for(it.measure, list(scene.names), scene.unit), each - GAP, SMALL)
        paper.text(left - AXIS + 8, top, words, SMALL)
        if is_waiting:
            it.pending(paper, left, plot - BAND, each - AXIS - GAP)
        it.draw(paper, left, plot, each - AXIS - GAP)
        paper.text(left + (each - AXIS - GAP) / 2, plot + PLOT + 30, scene.across(), SMALL,
                   color=paper.palette.second, ha="center")
    return plot + PLOT + BELOW


def draw_seeds(scene: SeedsScene) -> Paper:
    """The picture of such runs."""
    runs = scene.runs
    if len(runs.measures) > MOST_PLOTS:
        raise Refusal(f"{len(runs.measures)} measures; wanted: no more than {MOST_PLOTS}")
    title = f"Runs by {runs.keys[0]}" + (f", for each {runs.keys[1]}" if runs.keys[1] else "")
    labels = [runs.label(it) for it in runs.values[1] if it]
    lines = lines_of(scene)
    first = 44.0 + 17 * len(lines) + 20 * (sample_rows(scene.width, MARGIN, labels) if labels else 0) + 22
    high = [24 * bool(row) + 14 + BAND * any(scene.is_pending(row, it) for it in runs.measures) + PLOT + BELOW
            for row in runs.values[2]]
    paper = Paper(scene.width, first + sum(high), scene.palette, title)
    below = heading(paper, MARGIN, title, lines)
    if labels:
        samples(paper, MARGIN, below, labels, [look(it, len(labels), scene.palette) for it in range(len(labels))])
    for row in runs.values[2]:
        first = draw_row(paper, scene, row, first)
    return paper
