"""The marks of causes, which lanes and legend share."""
from __future__ import annotations

from typing import Any

from matplotlib.axes import Axes
from matplotlib.transforms import ScaledTranslation

from .colours import Palette
from .paper import PIXELS_PER_INCH, POINTS


def cause_mark(axes: Axes, x: float, y: float, cause: str, colour: str, palette: Palette, size: float,
               shift: float = 0.0, **how: Any) -> None:
    """The mark of a cause, so many pixels beside its place: a diamond in the colour of the task that gets the core, a
    triangle for bandwidth, a bar in a disc for a ban."""
    beside = axes.transData + ScaledTranslation(shift / PIXELS_PER_INCH, 0, axes.figure.dpi_scale_trans)
    plain = {"linestyle": "none", "transform": beside, "clip_on": True, "zorder": 6}
    points = size * POINTS
    if cause == "preempt":
        axes.plot([x], [y], marker="D", markersize=points * 0.72, color=colour, markeredgecolor=palette.ground,
                  markeredgewidth=0.8, **{**plain, **how})
    elif cause == "bandwidth":
        axes.plot([x], [y], marker="v", markersize=points * 0.9, color=palette.ink, markeredgecolor=palette.ground,
                  markeredgewidth=0.8, **{**plain, **how})
    else:
        axes.plot([x], [y], marker="o", markersize=points * 0.95, color=palette.ink, markeredgecolor=palette.ground,
                  markeredgewidth=0.8, **{**plain, **how})
        axes.plot([x], [y], marker="_", markersize=points * 0.6, color=palette.ground, markeredgewidth=1.6,
                  **{**plain, "zorder": 7})
