"""What the lanes of a run share: its window, its columns, and where they stand on the paper."""
from __future__ import annotations

from dataclasses import dataclass
from functools import cached_property
from typing import Optional, Protocol

from matplotlib.axes import Axes

from .colours import Palette, Shade
from .facts import Run, Span, Standing
from .paper import SMALL, Paper, cut
from .tables import Task
from .window import Columns, Window, bucket_size, buckets

MARGIN, LABELS, LIMITS = 14, 128, 72


@dataclass(frozen=True)
class Scene:
    """A run as it is shown: which passes, of which task alone if of one, how wide, and on which ground."""

    run: Run
    window: Window
    palette: Palette
    width: int
    tick: str = ""
    only: Optional[int] = None

    @property
    def left(self) -> float:
        return MARGIN + LABELS

    @property
    def across(self) -> float:
        """The pixels of all columns together."""
        return self.width - self.left - LIMITS - MARGIN

    @cached_property
    def columns(self) -> Columns:
        return Columns(self.run, self.window)

    @property
    def bucket(self) -> int:
        """How many passes a column has; more than one is a coarse drawing."""
        return bucket_size(self.window, self.across)

    @property
    def is_coarse(self) -> bool:
        return self.bucket > 1

    @property
    def buckets(self) -> list[tuple[int, int]]:
        return buckets(self.window, self.bucket)

    @property
    def edges(self) -> list[int]:
        """The passes at which columns begin, and the one after the last."""
        return [begin for begin, _ in self.buckets] + [self.window.beyond]

    @property
    def tasks(self) -> list[Task]:
        return [it for it in self.run.table.tasks if self.only in (None, it.number)]

    def standings(self, task: int) -> list[Standing]:
        """How a task stands after each pass that is shown."""
        return [it[task] for it in self.run.passes[self.window.first:self.window.beyond]]

    def part(self, span: Span) -> Optional[tuple[int, int]]:
        """The passes of a span that are shown, if any, and if its task is."""
        of_task = self.only in (None, span.task)
        return self.window.clipped(span.from_pass, self.run.end_of(span)) if of_task else None

    def pixels(self, begin: float, end: float) -> float:
        """How many pixels lie between two passes."""
        return self.columns.width(begin, end, self.across)

    def axes(self, paper: Paper, top: float, height: float, label: str) -> Axes:
        """Axes over the passes, each at its column."""
        axes = paper.axes(self.left, top, self.across, height, label)
        axes.set_xscale("function", functions=self.columns.functions)
        axes.set_xlim(self.window.first, self.window.beyond)
        axes.set_xticks([])
        axes.minorticks_off()
        return axes

    def at_right(self, paper: Paper, y: float, words: str) -> None:
        """Words beside the lanes, as what a line there is."""
        paper.text(self.left + self.across + 5, y, cut(words, LIMITS + 6, SMALL), SMALL, color=self.palette.second)


class Band(Protocol):
    """A part of a picture from its left to its right: how high it is, and how it is drawn from this height down."""

    height: float

    def draw(self, paper: Paper, top: float) -> None: ...


def fill_of(task: Task, shade: Shade) -> tuple[str, str]:
    """The colour of a task's spans and of the words on them: full of a latency-critical one, else pale."""
    return (shade.full, shade.on) if task.kind == "lc" else (shade.pale, "")
