"""The lanes of the cores drawn coarsely, where a column is several passes: who had a core in most of them."""
from __future__ import annotations

from collections import Counter

import numpy
from matplotlib.axes import Axes
from matplotlib.patches import PathPatch
from matplotlib.path import Path

from .bands import MARGIN, Scene
from .cores import CoreLanes
from .paper import Paper, swatch
from .scales import Array

FREE, BANNED = -1, -2
CAUSES = (("preempt", "for a task"), ("bandwidth", "for bandwidth"), ("ban", "for a ban"))
PALE = 0.5


def holders(scene: Scene, cores: list[int]) -> Array:
    """Of each core, in each pass that is shown, the task that held or left it, or that it was banned or free."""
    window, places = scene.window, {core: n for n, core in enumerate(cores)}
    had = numpy.full((len(cores), window.shown), FREE)
    for span in sorted(scene.run.spans, key=lambda it: it.state != "banned"):
        part = scene.part(span)
        if part and span.core in places:
            begin, end = part[0] - window.first, part[1] - window.first
            had[places[span.core], begin:end] = BANNED if span.state == "banned" else span.task
    return had


def most_of(scene: Scene, had: Array) -> tuple[Array, Array]:
    """Of each core and column who had it in the most passes, and in what part of them."""
    starts = [begin - scene.window.first for begin, _ in scene.buckets]
    lasts = numpy.array([end - begin for begin, end in scene.buckets])
    whose = numpy.array([FREE, BANNED, *(it.number for it in scene.run.table.tasks)])
    counts = numpy.array([numpy.add.reduceat(had == it, starts, axis=1) for it in whose])
    return whose[counts.argmax(axis=0)], counts.max(axis=0) / lasts


def runs_in(row: Array) -> list[tuple[int, int]]:
    """Where a row of truths is true: from which place to before which."""
    steps = numpy.flatnonzero(numpy.diff(numpy.concatenate([[0], row.astype(int), [0]])))
    return list(zip(steps[::2].tolist(), steps[1::2].tolist()))


class CoarseLanes(CoreLanes):
    """A lane for each core; a column has the colour of whoever had the core in most of its passes, and is paler where
    these are fewer than three of four."""

    def fill(self, axes: Axes, paper: Paper) -> None:
        scene = self.scene
        had, part = most_of(scene, holders(scene, self.cores))
        for whose in sorted(set(had.ravel().tolist()) - {FREE}):
            for is_sure in (True, False):
                which = (had == whose) & ((part >= 0.75) == is_sure)
                if which.any():
                    self.patch(axes, paper, whose, which, is_sure)

    def patch(self, axes: Axes, paper: Paper, whose: int, which: Array, is_sure: bool) -> None:
        """All columns of one task, or of bans, as one shape; after the eighth task with a line in it."""
        edges, colours = self.scene.edges, paper.palette
        bars = [(self.tops[core], edges[begin], edges[end])
                for core, row in zip(self.cores, which) for begin, end in runs_in(row)]
        corners = [corner for top, left, right in bars for corner in
                   ((left, top), (right, top), (right, top + self.high), (left, top + self.high), (left, top))]
        codes = [Path.MOVETO, Path.LINETO, Path.LINETO, Path.LINETO, Path.CLOSEPOLY] * len(bars)
        shade = colours.shade(max(whose, 0))
        is_full = whose >= 0 and self.scene.run.table.tasks[whose].kind == "lc"
        colour = colours.figure if whose == BANNED else shade.full if is_full else shade.pale
        name = f"{'banned' if whose == BANNED else whose}-{'most' if is_sure else 'part'}"
        axes.add_patch(PathPatch(Path(corners, codes), facecolor=colour, lw=0, alpha=1 if is_sure else PALE,
                                 gid=f"coarse-{name}"))
        if whose >= len(colours.shades):
            tops, lefts, rights = zip(*bars)
            axes.hlines([it + self.high / 2 for it in tops], lefts, rights, lw=0.8, gid=f"line-{name}",
                        color=shade.on if is_full else shade.edge)


class RevokedLane:
    """How many cores were revoked in each column, by cause."""

    height = 64.0

    def __init__(self, scene: Scene) -> None:
        self.scene = scene
        self.counts = {cause: self.count(cause) for cause, _ in CAUSES}
        self.most = numpy.sum(list(self.counts.values()), axis=0).max()

    def count(self, cause: str) -> Array:
        """How many revocations of this cause each column has."""
        scene = self.scene
        passes = Counter(it.from_pass for it in scene.run.spans
                         if it.state == "leaving" and it.cause == cause and scene.only in (None, it.task))
        return numpy.array([sum(passes[it] for it in range(*bucket)) for bucket in scene.buckets], dtype=float)

    def draw(self, paper: Paper, top: float) -> None:
        scene, colours = self.scene, paper.palette
        paper.text(MARGIN, top + 8, "Revoked", weight="bold")
        axes = scene.axes(paper, top, self.height - 18, "revoked")
        axes.set_ylim(0, self.most)
        axes.axhline(0, color=colours.grid, lw=1, zorder=0, clip_on=False)
        below, fills = numpy.zeros(len(scene.buckets)), (colours.second, colours.ink, colours.best)
        for (cause, words), fill in zip(CAUSES, fills):
            above = below + self.counts[cause]
            axes.stairs(above, scene.edges, baseline=below, fill=True, color=fill, lw=0, gid=f"revoked-{cause}")
            below = above
        for place, ((cause, words), fill) in enumerate(zip(CAUSES, fills)):
            swatch(paper, MARGIN, top + 23 + 14 * place, fill, words)
        scene.at_right(paper, top + 6, f"{self.most:.0f} at most")
