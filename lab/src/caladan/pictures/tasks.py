"""The lanes of the tasks, and of the bandwidth figure."""
from __future__ import annotations

from typing import Callable, Optional, Sequence

import numpy
from matplotlib.axes import Axes
from matplotlib.patches import Rectangle

from .bands import LABELS, MARGIN, Scene
from .facts import Standing
from .paper import SMALL, Paper, cut
from .scales import Array
from .tables import Task

HATCH, DASHES, ROOM, LATE = "/////", (0, (5, 3)), 15, 5


def steps_of(scene: Scene, values: Sequence[float], of: Callable[[Sequence[float]], float]) -> Array:
    """A value for each column: that of its pass, or what `of` makes of those of its passes."""
    first = scene.window.first
    return numpy.array([of(values[begin - first:end - first]) for begin, end in scene.buckets], dtype=float)


def mean(values: Sequence[float]) -> float:
    return sum(values) / len(values)


class TaskLane:
    """A task's cores: held and being left, with its limit, its guarantee and its cap, and a bar while its delay is over
    its threshold."""

    def __init__(self, scene: Scene, task: Task, high: float) -> None:
        self.scene, self.task, self.high = scene, task, high
        self.standings: list[Standing] = scene.standings(task.number)
        self.height = high + ROOM

    def values(self, of: Callable[[Standing], Optional[float]]) -> list[float]:
        return [float(of(it) or 0) for it in self.standings]

    def name(self, paper: Paper, top: float) -> None:
        """The task's name, its kind and its threads."""
        task, shade, middle = self.task, paper.palette.shade(self.task.number), top + self.high / 2
        box = paper.pixels(MARGIN, middle - 13, 11, 11)
        full = task.kind == "lc"
        fill = shade.full if full else shade.pale
        box.add_patch(Rectangle((0.5, 0.5), 10, 10, facecolor=fill, edgecolor=shade.edge))
        if task.number >= len(paper.palette.shades):
            box.plot([1, 10], [5.5, 5.5], color=shade.on if full else shade.edge, lw=1.2)
        told = paper.text(MARGIN + 17, middle - 7, cut(task.label, LABELS - 20, weight="bold"), weight="bold")
        paper.tell(told, f"task-{task.number}", self.story())
        words = ", ".join(it for it in (task.kind, task.threads) if it)
        paper.text(MARGIN + 17, middle + 8, words, SMALL, color=paper.palette.second)

    def story(self) -> str:
        task = self.task
        guarantee = "" if task.guaranteed is None else f", guaranteed {task.guaranteed}"
        most = max((it.held for it in self.standings), default=0)
        late = sum(it.congested for it in self.standings)
        return (f"{task.label} {task.kind}: limit {task.limit}{guarantee}; at most {most} cores held; its delay is "
                f"over its threshold in {late} of {len(self.standings)} passes shown")

    def cores(self, axes: Axes, paper: Paper) -> None:
        """What it holds, and on top of it what it leaves."""
        scene, shade, number = self.scene, paper.palette.shade(self.task.number), self.task.number
        held = steps_of(scene, self.values(lambda it: it.held), mean)
        booked = held + steps_of(scene, self.values(lambda it: it.leaving), mean)
        fill = shade.full if self.task.kind == "lc" else shade.pale
        axes.stairs(booked, scene.edges, baseline=held, fill=True, facecolor=paper.palette.ground, lw=0,
                    edgecolor=shade.edge, hatch=HATCH, gid=f"leaving-{number}")
        axes.stairs(held, scene.edges, fill=True, facecolor=fill, lw=0, edgecolor="none", gid=f"held-{number}")
        if not scene.is_coarse:
            axes.stairs(booked, scene.edges, baseline=None, color=shade.edge, lw=1, gid=f"booked-{number}")

    def lines(self, axes: Axes, paper: Paper, top: float) -> None:
        """Its limit, guarantee and cap."""
        task, colours, scene = self.task, paper.palette, self.scene
        axes.axhline(task.limit, color=colours.second, lw=0.8, gid=f"limit-{task.number}", clip_on=False)
        if task.guaranteed:
            axes.axhline(task.guaranteed, color=colours.ink, lw=1.2, ls=DASHES, gid=f"guarantee-{task.number}",
                         clip_on=False)
        if task.kind == "be":
            caps = steps_of(scene, self.values(lambda it: it.cap), min)
            axes.stairs(caps, scene.edges, baseline=None, color=colours.ink, lw=2, gid=f"cap-{task.number}",
                        clip_on=False)
        self.numbers(paper, top)

    def numbers(self, paper: Paper, top: float) -> None:
        """Beside the lines what they are; of the cap where it ends, if that is not at the limit."""
        task, cap = self.task, self.standings[-1].cap
        names = {task.limit: ["limit"]}
        if task.guaranteed:
            names.setdefault(task.guaranteed, []).append("guar.")
        if cap is not None and cap != task.limit:
            names.setdefault(cap, []).append("cap")
        above = -12.0
        for value, kinds in sorted(names.items(), reverse=True):
            above = max(self.high * (1 - value / task.limit), above + 12)
            self.scene.at_right(paper, top + above, f"{', '.join(kinds)} {value}")

    def late(self, paper: Paper, top: float) -> None:
        """The bar while its delay is over its threshold: its height is the part of a column's passes."""
        scene, number = self.scene, self.task.number
        late = steps_of(scene, self.values(lambda it: it.congested), mean)
        axes = scene.axes(paper, top + self.high + 2, LATE, f"late {number}")
        axes.set_ylim(0, 1)
        axes.stairs(late, scene.edges, fill=True, color=paper.palette.second, lw=0, gid=f"late-{number}")

    def draw(self, paper: Paper, top: float) -> None:
        axes = self.scene.axes(paper, top, self.high, f"task {self.task.number}")
        axes.set_ylim(0, self.task.limit)
        axes.axhline(0, color=paper.palette.grid, lw=1, zorder=0, clip_on=False)
        self.cores(axes, paper)
        self.lines(axes, paper, top)
        self.late(paper, top)
        self.name(paper, top)


class BandwidthLane:
    """The bandwidth figure of each pass, the greatest of a column's, and what of it is over the limit."""

    height = 58.0

    def __init__(self, scene: Scene) -> None:
        self.scene = scene
        self.figures = [it.bandwidth for it in scene.standings(0)]
        self.limit = scene.standings(0)[0].bandwidth_limit

    def draw(self, paper: Paper, top: float) -> None:
        scene, colours, most = self.scene, paper.palette, max(self.figures)
        paper.text(MARGIN, top + 14, "Bandwidth", weight="bold")
        paper.text(MARGIN, top + 30, f"highest {short(most)}", SMALL, color=colours.second)
        is_near = self.limit <= 4 * most
        high = max(most, self.limit if is_near else most) * 1.05
        axes = scene.axes(paper, top, self.height - 12, "bandwidth")
        axes.set_ylim(0, high)
        axes.axhline(0, color=colours.grid, lw=1, zorder=0, clip_on=False)
        figures = steps_of(scene, self.figures, max)
        axes.stairs(figures, scene.edges, fill=True, color=colours.figure, lw=0, gid="bandwidth")
        over = numpy.maximum(figures, self.limit)
        axes.stairs(over, scene.edges, baseline=self.limit, fill=True, color=colours.ink, lw=0, gid="bandwidth-over")
        if is_near:
            axes.axhline(self.limit, color=colours.ink, lw=1.2, ls=DASHES, gid="bandwidth-limit")
        y = top + (self.height - 12) * (1 - self.limit / high) if is_near else top + 6
        scene.at_right(paper, y, f"limit {short(self.limit)}" + ("" if is_near else " above"))


def short(number: int) -> str:
    """A number of at most six letters or so."""
    return str(number) if number < 10 ** 7 else f"{number:.1e}".replace("e+0", "e").replace("e+", "e")
