"""The picture of runs by several policies: a curve for each, through the medians of its seeds at each load."""
from __future__ import annotations

import math
from dataclasses import dataclass
from typing import Sequence

from matplotlib.axes import Axes
from matplotlib.ticker import MaxNLocator

from .colours import Palette
from .curves import grid, look, sample_rows, samples
from .paper import SMALL, Paper, heading, words_on, wrapped

MARGIN, AXIS, PLOT, BAND, BELOW, ROOM = 14, 60, 320, 24, 52, 1.06
TIMES = ("p50", "p90", "p99", "p99.9", "max", "mean")


@dataclass(frozen=True)
class Curve:
    """What a curve is called; of each load its name and the medians; and the points of all runs."""

    name: str
    loads: tuple[str, ...]
    medians: tuple[tuple[float, float], ...]
    runs: tuple[tuple[float, float], ...]


@dataclass(frozen=True)
class TrialsScene:
    """Such curves as they are shown: what stands below and beside, the unit of a tick, how many seeds, how wide, and on
    which ground."""

    curves: Sequence[Curve]
    across: str
    up: str
    unit: str
    seeds: int
    palette: Palette
    width: int

    def named(self, column: str) -> str:
        """A column, times with their unit."""
        return f"{column}, {self.unit}" if column in TIMES else column

    @property
    def has_pending(self) -> bool:
        return any(math.isinf(up) for curve in self.curves for _, up in curve.medians)


def rounded_up(most: float) -> list[float]:
    """Marks from 0 to a round number above the most."""
    return [it for it in MaxNLocator(6, steps=[1, 2, 5, 10]).tick_values(0, most) if it >= 0]


def scale(axes: Axes, scene: TrialsScene) -> None:
    """Both axes begin at 0."""
    points = [it for curve in scene.curves for it in (*curve.medians, *curve.runs)]
    for place, set_limit, set_ticks in ((0, axes.set_xlim, axes.set_xticks), (1, axes.set_ylim, axes.set_yticks)):
        found = [it[place] for it in points if math.isfinite(it[place])]
        ticks = rounded_up(max(found, default=1.0) or 1.0)
        set_limit(0, ticks[-1] * (ROOM if place == 0 else 1))
        set_ticks(ticks, [f"{it:,.10g}" for it in ticks])


def draw_curve(axes: Axes, curve: Curve, number: int, many: int, palette: Palette, is_load: bool) -> None:
    """A curve with its loads, and a pale point for each run."""
    how = look(number, many, palette)
    shown = [(x, y if math.isfinite(y) else math.nan) for x, y in curve.medians]
    runs = [(x, y if math.isfinite(y) else math.nan) for x, y in curve.runs]
    axes.plot([x for x, _ in runs], [y for _, y in runs], linestyle="none", marker="o", markersize=2.5,
              color=how["color"], alpha=0.35, gid=f"runs-{number}", zorder=2)
    axes.plot([x for x, _ in shown], [y for _, y in shown], gid=f"median-{number}", clip_on=False, **how)
    for load, (x, y) in zip(curve.loads, shown):
        if not is_load and not math.isnan(y):
            words_on(axes, x, y, f"  {load}", SMALL - 2, palette.second, clip_on=False, va="bottom")


def draw_pending(paper: Paper, scene: TrialsScene, left: float, top: float, axes: Axes) -> None:
    """A band with the medians that are pending."""
    band = paper.axes(left, top, scene.width - MARGIN - left, 14, "pending")
    band.set_facecolor(paper.palette.lane)
    band.set_xlim(axes.get_xlim())
    band.set_ylim(0, 1)
    for number, curve in enumerate(scene.curves):
        places = [x for x, y in curve.medians if math.isinf(y)]
        how = {**look(number, len(scene.curves), paper.palette), "linestyle": "none", "markersize": 5.5}
        band.plot(places, [0.5] * len(places), gid=f"pending-{number}", **how)
    paper.text(left - 4, top + 7, "pending", SMALL - 1, color=paper.palette.second, ha="right")


def lines_of(scene: TrialsScene) -> list[tuple[str, bool]]:
    """What stands below the title."""
    words = f"A marked point is the median of {scene.seeds} seeds at a load" if scene.seeds > 1 else \
        "A marked point is the run at a load"
    words += ", a pale one a single run." if scene.seeds > 1 else "."
    if scene.across != "load":
        words += " Beside it stands the load."
    if scene.has_pending:
        words += " Pending: the request at the rank was not answered."
    return [(it, True) for it in wrapped(words, scene.width - 2 * MARGIN)]


def draw_trials(scene: TrialsScene) -> Paper:
    """The picture of such runs."""
    title, labels = f"{scene.up} over {scene.across}, by policy", [it.name for it in scene.curves]
    lines, band = lines_of(scene), BAND * scene.has_pending
    top = 44.0 + 17 * len(lines) + 20 * sample_rows(scene.width, MARGIN, labels) + 30 + band
    paper = Paper(scene.width, top + PLOT + BELOW, scene.palette, title)
    below = heading(paper, MARGIN, title, lines)
    many, left = len(labels), MARGIN + AXIS
    samples(paper, MARGIN, below, labels, [look(it, many, scene.palette) for it in range(many)])
    axes = paper.axes(left, top, scene.width - MARGIN - left, PLOT, "plot")
    scale(axes, scene)
    grid(axes, scene.palette)
    for number, curve in enumerate(scene.curves):
        draw_curve(axes, curve, number, many, scene.palette, scene.across == "load")
    if scene.has_pending:
        draw_pending(paper, scene, left, top - BAND, axes)
    paper.text(MARGIN, top - 12 - band, scene.named(scene.up), SMALL, color=scene.palette.second)
    paper.text(left + (scene.width - MARGIN - left) / 2, top + PLOT + 34, scene.named(scene.across), SMALL,
               color=scene.palette.second, ha="center")
    return paper
