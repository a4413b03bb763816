"""The lanes of the cores, siblings side by side, with their spans and bans."""
from __future__ import annotations

from typing import Sequence

from matplotlib.axes import Axes
from matplotlib.patches import Rectangle

from .bands import MARGIN, Scene, fill_of
from .facts import Span
from .marks import cause_mark
from .paper import PLAIN, SMALL, Paper, width_of
from .tasks import HATCH

CLASSES = {1: "sibling", 2: "recently used", 3: "other idle"}
TITLE, FOLDED, BAN = 22.0, 18.0, 3.0


def row_height(cores: int) -> float:
    """How high a core's lane is, by how many there are."""
    return next(high for most, high in ((8, 22.0), (16, 17.0), (32, 13.0), (64, 9.0), (256, 5.0)) if cores <= most)


def busy_pairs(scene: Scene) -> list[int]:
    """The sibling pairs of which something is shown; of a run with nothing to show, the first."""
    pairs = {it.core // 2 for it in scene.run.spans if scene.part(it)}
    return sorted(pairs) or [0]


def ranges(numbers: list[int]) -> str:
    """`4-7, 12-127` of cores in their order."""
    parts: list[list[int]] = []
    for it in numbers:
        if parts and parts[-1][-1] == it - 1:
            parts[-1].append(it)
        else:
            parts.append([it])
    return ", ".join(f"{it[0]}-{it[-1]}" if len(it) > 1 else str(it[0]) for it in parts)


def story(scene: Scene, span: Span, whole: list[Span]) -> str:
    """What the facts say of a span: its grant, its revocation, its end."""
    run, tasks = scene.run, scene.run.table.tasks
    if span.state == "banned":
        end = f", until pass {span.to_pass}" if span.to_pass is not None else ""
        return (f"core {span.core}: banned for thread {span.thread}, whose request began at {span.started}, from pass "
                f"{span.from_pass} (clock {span.from_clock}){end}")
    first, last = whole[0], whole[-1]
    of_class = CLASSES.get(span.grant_class or 0, span.grant_class)
    words = (f"core {span.core}: thread {span.thread} of {tasks[span.task].label}; granted in pass "
             f"{first.from_pass} (clock {first.from_clock}, class {of_class})")
    if last.state == "leaving":
        words += f"; revoked in pass {last.from_pass} (clock {last.from_clock}) {reason(scene, last)}"
    ended = f"freed in pass {last.to_pass} (clock {last.to_clock})" if last.to_pass is not None else \
        f"goes on after pass {len(run.passes) - 1}"
    return f"{words}; {ended}"


def joined(spans: Sequence[Span]) -> dict[int, list[Span]]:
    """Of each row, by its identity, the rows of its whole span: that which is held, and right below it that which is
    being left."""
    wholes = {id(it): [it] for it in spans}
    for before, it in zip(spans, spans[1:]):
        if it.state == "leaving" and before.state == "held" and before.core == it.core:
            wholes[id(before)] = wholes[id(it)] = [before, it]
    return wholes


def reason(scene: Scene, span: Span) -> str:
    """Why a core is being left."""
    if span.cause == "preempt":
        return f"for {scene.run.table.tasks[span.for_task or 0].label}"
    return "for bandwidth" if span.cause == "bandwidth" else f"for a ban by core {span.by_core}"


class CoreLanes:
    """A lane for each core of a pair of which anything is shown; the other pairs are named in a line."""

    def __init__(self, scene: Scene) -> None:
        self.scene = scene
        pairs = busy_pairs(scene)
        self.cores = [core for pair in pairs for core in (2 * pair, 2 * pair + 1)]
        self.free = [it for it in range(scene.run.table.cores) if it not in set(self.cores)]
        self.high = row_height(len(self.cores))
        apart, between = max(self.high / 3, 2), min(self.high / 5, 2)
        self.tops = {core: n * (self.high + between) + n // 2 * apart for n, core in enumerate(self.cores)}
        self.lanes = self.tops[self.cores[-1]] + self.high + 2
        self.height = TITLE + self.lanes + (FOLDED if self.free else 0) + 4
        self.grants: list[tuple[float, float, float]] = []
        self.frees: list[tuple[float, float, float]] = []
        self.bans: list[tuple[float, float, float]] = []

    def draw(self, paper: Paper, top: float) -> None:
        colours = paper.palette
        paper.text(MARGIN, top + 9, "Cores", weight="bold")
        paper.text(MARGIN + 44, top + 9, "sibling pairs", SMALL, color=colours.second)
        axes = self.scene.axes(paper, top + TITLE, self.lanes, "cores")
        axes.set_ylim(self.lanes, 0)
        for core in self.cores:
            axes.axhspan(self.tops[core], self.tops[core] + self.high, color=colours.lane, lw=0, zorder=0,
                         gid=f"lane-{core}")
        self.names(paper, top + TITLE)
        self.fill(axes, paper)
        self.rule(axes, paper)
        if self.free:
            words = f"cores {ranges(self.free)}: nothing to show"
            paper.text(self.scene.left, top + TITLE + self.lanes + FOLDED / 2, words, SMALL, color=colours.second)

    def names(self, paper: Paper, top: float) -> None:
        """The number of each core, of each pair where lanes are too low for both, and a bracket round the pair."""
        left, colours = self.scene.left, paper.palette
        side = paper.pixels(left - 12, top, 10, self.lanes, "brackets")
        for core in self.cores[::2]:
            low = self.tops[core + 1] + self.high
            side.plot([8, 2, 2, 8], [self.tops[core] + 1, self.tops[core] + 1, low - 1, low - 1], color=colours.second,
                      lw=1)
            if self.high >= PLAIN:
                for it in (core, core + 1):
                    paper.text(left - 16, top + self.tops[it] + self.high / 2, f"core {it}", SMALL, ha="right")
            elif self.high >= 9 or core % 8 == 0:
                paper.text(left - 16, top + (self.tops[core] + low) / 2, f"cores {core}, {core + 1}", SMALL, ha="right")

    def fill(self, axes: Axes, paper: Paper) -> None:
        """Each span and each ban, as far as it is shown."""
        wholes = joined(self.scene.run.spans)
        for span in self.scene.run.spans:
            part = self.scene.part(span)
            if part and span.core in self.tops:
                draw = {"held": self.held, "leaving": self.leaving, "banned": self.banned}[span.state]
                shape = draw(axes, paper, span, *part)
                name = f"{span.state}-core{span.core}-pass{span.from_pass}"
                paper.tell(shape, name, story(self.scene, span, wholes[id(span)]))
                if span.state != "banned" and span is wholes[id(span)][-1] and part[1] == span.to_pass:
                    self.frees.append((span.to_pass, self.tops[span.core], self.tops[span.core] + self.high))

    def rule(self, axes: Axes, paper: Paper) -> None:
        """The thick lines where cores were granted, the thin ones where they were freed, and those below bans."""
        if self.grants:
            axes.vlines(*zip(*self.grants), color=paper.palette.ink, lw=2, zorder=5, gid="grants")
        if self.frees:
            axes.vlines(*zip(*self.frees), color=paper.palette.ink, lw=0.9, zorder=4, gid="frees")
        if self.bans:
            axes.hlines(*zip(*self.bans), color=paper.palette.ink, lw=BAN * 0.75, zorder=5, gid="bans")

    def box(self, span: Span, begin: int, end: int, **how: object) -> Rectangle:
        return Rectangle((begin, self.tops[span.core]), end - begin, self.high, **how)

    def held(self, axes: Axes, paper: Paper, span: Span, begin: int, end: int) -> Rectangle:
        """A thread on a core: in the task's colour, with a thick line where it was granted."""
        task, shade = self.scene.run.table.tasks[span.task], paper.palette.shade(span.task)
        fill, on = fill_of(task, shade)
        shape = axes.add_patch(self.box(span, begin, end, facecolor=fill, edgecolor=shade.edge, lw=0.8, zorder=2))
        top, low = self.tops[span.core], self.tops[span.core] + self.high
        if begin == span.from_pass:
            self.grants.append((begin, top, low))
        if task.number >= len(paper.palette.shades):
            axes.hlines((top + low) / 2, begin, end, color=on or shade.edge, lw=1.2, zorder=3)
        room = self.scene.pixels(begin, end)
        words = next((it for it in (f"thread {span.thread}", str(span.thread)) if width_of(it, SMALL) + 9 < room), "")
        if self.high >= PLAIN and words:
            self.words(axes, begin, span, words, on or paper.palette.ink, 6)
        return shape

    def words(self, axes: Axes, begin: float, span: Span, words: str, colour: str, shift: float, **how: object) -> None:
        """Words in a lane, so many pixels beside where it begins."""
        middle = self.tops[span.core] + self.high / 2
        axes.annotate(words, (begin, middle), (shift * 0.75, 0), textcoords="offset points", va="center", ha="left",
                      fontsize=SMALL * 0.75, color=colour, zorder=8, annotation_clip=True, **how)

    def leaving(self, axes: Axes, paper: Paper, span: Span, begin: int, end: int) -> Rectangle:
        """A core that is being left: hatched, with the mark of its cause where it was revoked."""
        colours, shade = paper.palette, paper.palette.shade(span.task)
        shape = axes.add_patch(self.box(span, begin, end, facecolor=colours.ground, edgecolor=shade.edge, lw=0.8,
                                        hatch=HATCH, zorder=2))
        if begin != span.from_pass:
            return shape
        room, size = self.scene.pixels(begin, end), min(self.high * 0.8, 13)
        middle = self.tops[span.core] + self.high / 2
        colour = colours.shade(span.for_task or 0).full
        shift = min(size / 2 + 3, room / 2)
        cause_mark(axes, begin, middle, span.cause, colour, colours, size, shift)
        words = {"preempt": self.scene.run.table.tasks[span.for_task or 0].label, "bandwidth": "bandwidth",
                 "ban": "ban"}[span.cause]
        if self.high >= PLAIN and width_of(words, SMALL) + size + 12 < room:
            pad = {"facecolor": colours.ground, "edgecolor": "none", "pad": 1.2}
            self.words(axes, begin, span, words, colours.ink, size + 8, bbox=pad)
        return shape

    def banned(self, axes: Axes, paper: Paper, span: Span, begin: int, end: int) -> Rectangle:
        """A core that stays empty: dotted, and a line below it for as long as the ban lasts."""
        colours = paper.palette
        shape = axes.add_patch(self.box(span, begin, end, facecolor=colours.lane, edgecolor=colours.second, lw=0,
                                        hatch="..", zorder=1))
        low = self.tops[span.core] + self.high
        self.bans.append((low - BAN / 2 + 1, begin, end))
        empty = self.empty_from(span, begin, end)
        words = next((it for it in (f"banned for thread {span.thread}", f"for thread {span.thread}")
                      if width_of(it, SMALL) + 10 < self.scene.pixels(empty, end)), "")
        if self.high >= PLAIN and words:
            pad = {"facecolor": colours.lane, "edgecolor": "none", "pad": 1.2}
            self.words(axes, empty, span, words, colours.ink, 7, bbox=pad)
        return shape

    def empty_from(self, ban: Span, begin: int, end: int) -> int:
        """From which pass on nobody has the core that is banned."""
        ends = [self.scene.run.end_of(it) for it in self.scene.run.spans
                if it.core == ban.core and it.state != "banned" and it.from_pass <= begin]
        return min(max([begin, *ends]), end)
