"""Which passes of a run are shown, and where each has its column."""
from __future__ import annotations

from dataclasses import dataclass
from statistics import median
from typing import Callable, Optional

import numpy

from ..refusal import Refusal
from .facts import Run
from .scales import Array

WHOLE, PART = 80, 64
NARROWEST, WIDEST = 0.5, 4.0
COARSE_COLUMN = 3.0
# From passes to places, or back.
Scale = Callable[[Array], Array]


@dataclass(frozen=True)
class Window:
    """The passes first .. beyond - 1 of so many."""

    first: int
    beyond: int
    passes: int

    @property
    def shown(self) -> int:
        return self.beyond - self.first

    @property
    def after(self) -> int:
        return self.passes - self.beyond

    @property
    def is_cut(self) -> bool:
        return self.shown < self.passes

    def clipped(self, from_pass: int, to_pass: int) -> Optional[tuple[int, int]]:
        """The part of these passes that is shown, if any."""
        begin, end = max(from_pass, self.first), min(to_pass, self.beyond)
        return (begin, end) if begin < end else None


def window_of(passes: int, first: int = 0, most: Optional[int] = None) -> Window:
    """`most` passes from `first` on; without a number all, if they are no more than 80, else 64."""
    if first >= passes:
        raise Refusal(f"no pass {first}: there are {passes}, from 0")
    left = passes - first
    if most is None:
        most = left if left <= WHOLE else PART
    return Window(first, first + min(most, left), passes)


class Columns:
    """The column of each pass that is shown: from its clock to the next one, in proportion to the clocks, but at least
    half and at most four times the usual width. The last one has the usual width, since nothing says how long it
    lasts."""

    def __init__(self, run: Run, window: Window) -> None:
        clocks = [run.clock(it) for it in range(window.first, min(window.beyond + 1, window.passes))]
        lasts = [later - clock for clock, later in zip(clocks, clocks[1:])]
        usual = median([it for it in lasts if it > 0] or [1])
        asked = [it / usual for it in lasts] + [1.0] * (window.shown - len(lasts))
        widths = [min(max(it, NARROWEST), WIDEST) for it in asked]
        self.numbers = numpy.arange(window.first, window.beyond + 1)
        self.edges = numpy.concatenate([[0.0], numpy.cumsum(widths)])
        self.not_to_scale = [window.first + n for n, (it, had) in enumerate(zip(asked, widths)) if it != had]

    @property
    def functions(self) -> tuple[Scale, Scale]:
        """From a pass to its place and back, as matplotlib takes a scale."""
        return (lambda passes: numpy.interp(passes, self.numbers, self.edges),
                lambda places: numpy.interp(places, self.edges, self.numbers))

    def width(self, begin: float, end: float, pixels: float) -> float:
        """How many pixels lie between two passes."""
        to_place = self.functions[0]
        left, right = to_place(numpy.array([begin, end]))
        return float(right - left) / float(self.edges[-1]) * pixels


def bucket_size(window: Window, pixels: float) -> int:
    """How many passes one column has: one, where columns of three pixels have room, else as many as it takes."""
    return -(-window.shown // max(int(pixels / COARSE_COLUMN), 1))


def buckets(window: Window, size: int) -> list[tuple[int, int]]:
    """The passes of each column."""
    return [(it, min(it + size, window.beyond)) for it in range(window.first, window.beyond, size)]
