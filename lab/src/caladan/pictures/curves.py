"""How curves of several tables are told apart where they meet or cover each other: by colour, by marker, and by a line
that is thinner the later its table."""
from __future__ import annotations

from typing import Any, Sequence

from matplotlib.axes import Axes
from matplotlib.lines import Line2D

from .colours import Palette
from .paper import PLAIN, Paper, width_of

MARKERS = "osD^vPX*h"
STYLES = {"p50": ":", "p90": "-.", "p99": "-", "p99.9": (0, (5, 2.5)), "max": "-"}


def look(number: int, tables: int, palette: Palette) -> dict[str, Any]:
    """How the curves of a table look. Every second marker is hollow."""
    colour = palette.shade(number).line
    rank = number / max(tables - 1, 1)
    return {
        "color": colour,
        "linewidth": 2.8 - 1.5 * rank if tables > 1 else 2.0,
        "marker": MARKERS[number % len(MARKERS)],
        "markersize": 6.5 - 2.0 * rank if tables > 1 else 5.0,
        "markerfacecolor": palette.ground if number % 2 else colour,
        "markeredgecolor": colour,
        "markeredgewidth": 1.2,
        "zorder": 3 + number / 100,
    }


def shorts(labels: Sequence[str]) -> list[str]:
    """The labels without the key that all have: `10` of `task.0.delay=10`."""
    keys = {it.partition("=")[0] for it in labels}
    return [it.partition("=")[2] for it in labels] if len(keys) == 1 and all("=" in it for it in labels) else \
        list(labels)


def grid(axes: Axes, palette: Palette) -> None:
    axes.grid(True, color=palette.grid, lw=0.9, zorder=0)
    axes.set_axisbelow(True)


def samples(paper: Paper, left: float, top: float, labels: Sequence[str], looks: Sequence[dict[str, Any]]) -> float:
    """Samples of lines with their labels, in rows; answers where they end."""
    x, y = left, top
    for words, how in zip(labels, looks):
        across = 44 + width_of(words, PLAIN) + 14
        if x > left and x + across > paper.width - 10:
            x, y = left, y + 20
        axes = paper.pixels(x, y, 36, 16)
        axes.add_line(Line2D([0, 18, 36], [8, 8, 8], markevery=[1], **how))
        paper.text(x + 42, y + 8, words)
        x += across
    return y + 20


def sample_rows(width: float, left: float, labels: Sequence[str]) -> int:
    """In how many rows the samples stand."""
    rows, x = 1, left
    for words in labels:
        across = 44 + width_of(words, PLAIN) + 14
        if x > left and x + across > width - 10:
            rows, x = rows + 1, left
        x += across
    return rows
