"""The lanes of responses: of each task a point for each request, over when it came."""
from __future__ import annotations

from typing import Any, Sequence

import numpy

from .bands import LABELS, MARGIN, Scene
from .facts import Request
from .paper import SMALL, Paper, cut
from .scales import Array, TimeScale
from .tables import Task

ANSWERED, PENDING, FEW = "o", "^", 400


def point_look(marker: str, colour: str, many: int = 1) -> dict[str, Any]:
    """How the points of some requests look: smaller where there are many, hollow of what is pending."""
    size, is_hollow = 3.4 if many <= FEW else 1.8, marker == PENDING
    return {"linestyle": "none", "marker": marker, "markeredgecolor": colour, "markersize": size + is_hollow,
            "markeredgewidth": 0.9 if is_hollow else 0, "markerfacecolor": "none" if is_hollow else colour}


def time_of(request: Request) -> int:
    """How long a request took, or for how long it is pending."""
    return max((request.answered or 0) - request.arrived, 0) if request.pending is None else request.pending


class ResponseLane:
    """The requests of a task that came within the passes shown: when each came, and how long it took."""

    height = 74.0

    def __init__(self, scene: Scene, task: Task) -> None:
        self.scene, self.task = scene, task
        run, window = scene.run, scene.window
        first = run.clock(window.first) if window.first else 0
        beyond = run.clock(window.beyond) if window.beyond < window.passes else None
        self.shown = [it for it in run.requests if it.task == task.number and first <= it.arrived
                      and (beyond is None or it.arrived < beyond)]

    def places(self, requests: Sequence[Request]) -> Array:
        """The passes, with parts of them, at which requests came."""
        window = self.scene.window
        passes = numpy.arange(window.first, min(window.beyond + 1, window.passes))
        clocks = [self.scene.run.clock(int(it)) for it in passes]
        last = clocks[-1] + max(clocks[-1] - clocks[-2], 1) if len(clocks) > 1 else clocks[-1] + 1
        return numpy.interp([it.arrived for it in requests], [*clocks, last], [*passes, passes[-1] + 1])

    def draw(self, paper: Paper, top: float) -> None:
        scene, task, high = self.scene, self.task, self.height - 14
        scale = TimeScale([float(time_of(it)) for it in self.shown])
        paper.text(MARGIN, top + 14, cut(task.label, LABELS - 4, weight="bold"), weight="bold")
        paper.text(MARGIN, top + 30, f"response, {scene.tick or 'ticks'}", SMALL, color=paper.palette.second)
        axes = scene.axes(paper, top, high, f"responses {task.number}")
        scale.use(axes, "y")
        axes.set_yticks([])
        axes.set_facecolor(paper.palette.lane)
        for marker, own in ((ANSWERED, [it for it in self.shown if it.pending is None]),
                            (PENDING, [it for it in self.shown if it.pending is not None])):
            if own:
                name = f"{'pending' if marker == PENDING else 'answered'}-{task.number}"
                axes.plot(self.places(own), [time_of(it) for it in own], gid=name, clip_on=False, zorder=3,
                          **point_look(marker, paper.palette.shade(task.number).line, len(self.shown)))
        self.names(paper, top, high, scale)

    def names(self, paper: Paper, top: float, high: float, scale: TimeScale) -> None:
        """Beside the lane the least and the greatest time of its scale, and one between."""
        named = ([0.0] if scale.has_zero else []) + scale.named
        for it in dict.fromkeys((named[0], named[len(named) // 2], named[-1])):
            y = top + high * (1 - scale.part(it))
            self.scene.at_right(paper, y, f"{it:,.0f}" if it >= 1 or it == 0 else f"{it:g}")


def response_lanes(scene: Scene) -> list[ResponseLane]:
    """A lane for each task of which requests came within the passes shown; a best-effort one that answers none of them
    has none."""
    lanes = [ResponseLane(scene, it) for it in scene.tasks]
    return [it for it in lanes if it.shown and (it.task.kind == "lc" or any(own.pending is None for own in it.shown))]
