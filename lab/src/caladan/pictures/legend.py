"""The legend of a run's picture: what each sign means, of those that are drawn."""
from __future__ import annotations

from typing import Any, Callable, NamedTuple

from matplotlib.axes import Axes
from matplotlib.patches import Rectangle

from .bands import MARGIN, Scene
from .coarse import PALE
from .colours import Palette
from .cores import joined
from .marks import cause_mark
from .paper import SMALL, Paper, width_of, words_on
from .responses import ANSWERED, PENDING, point_look, response_lanes
from .tasks import DASHES, HATCH

LINE, SIGN, WIDE, HIGH = 19.0, 34.0, 28.0, 14.0
Draw = Callable[[Axes, float, float, Palette], None]


class Sign(NamedTuple):
    """A sign, drawn from a place to the right, and what it means."""

    draw: Draw
    means: str


def box(fill: str = "second", edge: str = "second", hatch: str = "", thread: str = "") -> Draw:
    """A box in two of the palette's colours, with the number of a thread where one is given."""
    def draw(axes: Axes, x: float, y: float, palette: Palette) -> None:
        axes.add_patch(Rectangle((x, y - HIGH / 2), WIDE, HIGH, facecolor=getattr(palette, fill), lw=0.8,
                                 edgecolor=getattr(palette, edge), hatch=hatch))
        words_on(axes, x + 5, y, thread, SMALL, palette.ground if fill == "second" else palette.ink)
    return draw


def faded(alpha: float) -> Draw:
    """A box in the colour of the first task."""
    def draw(axes: Axes, x: float, y: float, palette: Palette) -> None:
        axes.add_patch(Rectangle((x, y - HIGH / 2), WIDE, HIGH, color=palette.shade(0).full, alpha=alpha, lw=0))
    return draw


def line(colour: str = "ink", **how: Any) -> Draw:
    """A line in one of the palette's colours."""
    def draw(axes: Axes, x: float, y: float, palette: Palette) -> None:
        axes.plot([x, x + WIDE], [y, y], color=getattr(palette, colour), **how)
    return draw


def mark(cause: str) -> Draw:
    """The mark of a cause."""
    def draw(axes: Axes, x: float, y: float, palette: Palette) -> None:
        cause_mark(axes, x + WIDE / 2, y, cause, palette.shade(0).full, palette, 13)
    return draw


def upright(lw: float) -> Draw:
    """The line where a core was granted or freed."""
    def draw(axes: Axes, x: float, y: float, palette: Palette) -> None:
        axes.plot([x + WIDE / 2] * 2, [y - HIGH / 2, y + HIGH / 2], color=palette.ink, lw=lw)
    return draw


def point(marker: str) -> Draw:
    """The point of a response."""
    def draw(axes: Axes, x: float, y: float, palette: Palette) -> None:
        axes.plot([x + WIDE / 2], [y], **point_look(marker, palette.shade(0).line))
    return draw


def not_to_scale(axes: Axes, x: float, y: float, palette: Palette) -> None:
    """The sign of a column that is not as wide as its time."""
    words_on(axes, x + WIDE / 2, y, "//", SMALL, palette.second, ha="center")


def fine_signs(scene: Scene) -> list[tuple[bool, Sign]]:
    """The signs of the lanes of cores, each with whether it is drawn, where a column is one pass."""
    spans = [it for it in scene.run.spans if scene.part(it)]
    causes, states, kinds = {it.cause for it in spans}, {it.state for it in spans}, {it.kind for it in scene.tasks}
    wholes = joined(scene.run.spans)
    ends = [it.to_pass for it in spans if it is wholes[id(it)][-1] and it.state != "banned"]
    return [
        ("lc" in kinds, Sign(box(thread="3"), "thread 3, of a latency-critical task")),
        ("be" in kinds, Sign(box("lane", thread="4"), "thread 4, of a best-effort task")),
        ("held" in states, Sign(upright(2), "granted")),
        (any(it is not None and it <= scene.window.beyond for it in ends), Sign(upright(0.9), "freed")),
        ("preempt" in causes, Sign(mark("preempt"), "revoked for the task of its colour")),
        ("bandwidth" in causes, Sign(mark("bandwidth"), "revoked for bandwidth")),
        ("ban" in causes, Sign(mark("ban"), "revoked for a ban")),
        ("banned" in states, Sign(box("lane", hatch=".."), "banned: nobody may have it")),
        ("banned" in states, Sign(line(lw=2.25), "as long as a ban lasts")),
        (bool(scene.columns.not_to_scale), Sign(not_to_scale, "a step of time not to scale")),
    ]


def coarse_signs(scene: Scene) -> list[tuple[bool, Sign]]:
    """The same where a column is several passes."""
    states = {it.state for it in scene.run.spans if scene.part(it)}
    return [
        (True, Sign(faded(1), "had the core in most passes")),
        (True, Sign(faded(PALE), "paler: in fewer than three of four")),
        ("banned" in states, Sign(box("figure", "figure"), "banned in most passes")),
    ]


def signs(scene: Scene) -> list[Sign]:
    """The signs that the picture has."""
    standings = [it for task in scene.tasks for it in scene.standings(task.number)]
    lanes = [
        (any(it.leaving for it in standings), Sign(box("ground", hatch=HATCH), "being left: revoked, not yet freed")),
        (True, Sign(line("second", lw=0.8), "limit")),
        (any(it.guaranteed for it in scene.tasks), Sign(line(lw=1.2, ls=DASHES), "guaranteed")),
        (any(it.kind == "be" for it in scene.tasks), Sign(line(lw=2), "cap of a best-effort task")),
        (any(it.congested for it in standings), Sign(line("second", lw=4), "delay over its threshold")),
        (any(it.bandwidth > it.bandwidth_limit for it in standings), Sign(box("ink", "ink"),
                                                                          "bandwidth over its limit")),
    ]
    shown = [it for lane in response_lanes(scene) for it in lane.shown]
    responses = [
        (any(it.pending is None for it in shown), Sign(point(ANSWERED), "a request: when it came, its response")),
        (any(it.pending is not None for it in shown), Sign(point(PENDING), "not answered by the end")),
    ]
    cores = coarse_signs(scene) if scene.is_coarse else fine_signs(scene)
    return [sign for is_drawn, sign in (*cores, *lanes, *responses) if is_drawn]


class Legend:
    """The signs in as many columns as have room."""

    def __init__(self, scene: Scene) -> None:
        self.signs, self.across = signs(scene), scene.width - 2 * MARGIN
        widest = max(width_of(it.means, SMALL) for it in self.signs) + SIGN + 18
        self.columns = max(int(self.across / widest), 1)
        self.lines = -(-len(self.signs) // self.columns)
        self.height = 16 + LINE * self.lines

    def draw(self, paper: Paper, top: float) -> None:
        axes = paper.pixels(MARGIN, top, self.across, self.height, "legend")
        axes.plot([0, self.across], [4, 4], color=paper.palette.grid, lw=1)
        for number, sign in enumerate(self.signs):
            x = number // self.lines * self.across / self.columns + 1
            y = 20 + LINE * (number % self.lines)
            sign.draw(axes, x, y, paper.palette)
            words_on(axes, x + SIGN + 4, y, sign.means, SMALL, paper.palette.ink)
