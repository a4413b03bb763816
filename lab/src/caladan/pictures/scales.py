"""Scales of times and of shares."""
from __future__ import annotations

import math
from typing import Any, Iterable, Sequence

import numpy
import numpy.typing
from matplotlib.axes import Axes
from matplotlib.ticker import MaxNLocator

Array = numpy.typing.NDArray[Any]
MARKS = (0.5, 0.9, 0.99, 0.999)


def one_two_five(least: float, most: float) -> list[float]:
    """1, 2 and 5 and their powers of ten, from the last that is no more than the least to the first that is no less
    than the most."""
    power = math.floor(math.log10(least)) if least > 0 else 0
    steps = [part * 10.0 ** p for p in range(power, power + 24) for part in (1, 2, 5)]
    low = max(it for it in steps if it <= least * (1 + 1e-9) or it == steps[0])
    high = next(it for it in steps if it >= most * (1 - 1e-9) and it > low)
    return [it for it in steps if low <= it <= high]


class TimeScale:
    """Times by their logarithms, with 0 one step below the least that is named."""

    def __init__(self, times: Iterable[float], is_tight: bool = False) -> None:
        every = [it for it in times if math.isfinite(it)]
        above = [it for it in every if it > 0] or [1.0]
        self.has_zero = min(every, default=1) <= 0
        self.ticks = one_two_five(min(above), max(above))
        self.low, self.high = self.ticks[0], self.ticks[-1]
        self.least = -0.12 * self.low if self.has_zero else self.low / 1.06
        self.most = (max(above) * 1.15 if is_tight else self.high) * 1.06
        self.named = [it for it in self.ticks if it <= self.most]
        if len(self.named) < 3:
            nice = MaxNLocator(4, steps=[1, 2, 5, 10]).tick_values(self.low, self.most)
            self.named = [float(it) for it in nice if self.least <= it <= self.most]

    def to_place(self, times: Array) -> Array:
        times = numpy.asarray(times, dtype=float)
        safe = numpy.maximum(times, self.low)
        return numpy.where(times >= self.low, numpy.log2(safe / self.low) + 1, times / self.low)

    def to_time(self, places: Array) -> Array:
        places = numpy.asarray(places, dtype=float)
        return numpy.where(places >= 1, self.low * 2.0 ** (numpy.maximum(places, 1) - 1), places * self.low)

    def use(self, axes: Axes, which: str) -> None:
        """Makes it the scale of an axis, with a name at 1, 2 and 5, and at 0 where there is such a time."""
        functions = {"functions": (self.to_place, self.to_time)}
        ticks = [0.0] * self.has_zero + self.named
        if len(ticks) > 9:
            ticks = [it for it in ticks if it in (0.0, self.high) or str(it).strip("0.")[:1] in ("1", "")]
        names = [f"{it:,.0f}" if it >= 1 or it == 0 else f"{it:g}" for it in ticks]
        if which == "x":
            axes.set_xscale("function", **functions)
            axes.set_xlim(self.least, self.most)
            axes.set_xticks(ticks, names)
        else:
            axes.set_yscale("function", **functions)
            axes.set_ylim(self.least, self.most)
            axes.set_yticks(ticks, names)
        axes.minorticks_off()

    def part(self, time: float) -> float:
        """How far up an axis a time stands, from 0 to 1."""
        least, here, most = self.to_place(numpy.array([self.least, time, self.most]))
        return float((here - least) / (most - least))


def core_scale(axes: Axes, held: Sequence[float], beside: float, most_ticks: int) -> None:
    """Cores from left to right, with such a part of their range beside them, and names at round numbers."""
    room = (max(held) - min(held)) * beside or 0.1
    least, most = min(held) - room, max(held) + room
    ticks = MaxNLocator(most_ticks, steps=[1, 2, 5, 10]).tick_values(max(least, 0), most)
    named = [it for it in ticks if max(least, 0) <= it <= most]
    axes.set_xticks(named, [f"{it:g}" for it in named])
    axes.set_xlim(least, most)


class ShareScale:
    """Shares by what is missing from the whole: each step up of one height leaves a tenth, as far as so many requests
    can tell it, and at the top nothing is left."""

    def __init__(self, requests: int) -> None:
        self.least = 0.5 / max(requests, 1)
        self.marks = [it for it in MARKS if round((1 - it) * requests, 6) >= 1]

    def to_place(self, shares: Array) -> Array:
        left: Array = 1 - numpy.asarray(shares, dtype=float)
        place: Array = -numpy.log10(numpy.maximum(left, self.least))
        return place

    def to_share(self, places: Array) -> Array:
        places = numpy.asarray(places, dtype=float)
        return numpy.where(places >= -math.log10(self.least), 1.0, 1 - 10.0 ** -places)

    def use(self, axes: Axes) -> None:
        axes.set_yscale("function", functions=(self.to_place, self.to_share))
        axes.set_ylim(0, 1)
        axes.set_yticks([0, *self.marks, 1], ["0%", *(f"{it * 100:g}%" for it in self.marks), "100%"])
        axes.minorticks_off()
