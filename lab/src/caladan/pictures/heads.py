"""The upper part of a run's picture: its heading, the whole run where a part is shown, and the passes."""
from __future__ import annotations

from collections import Counter
from typing import Iterator

import numpy
from matplotlib.patches import Rectangle

from .bands import MARGIN, Scene
from .facts import Run
from .paper import PLAIN, SMALL, Paper, heading, swatch, width_of, wrapped
from .tables import count
from .window import Window, buckets

STRIP = 40


def counted(run: Run) -> list[str]:
    """What a run has and did. A grant has one row that is held, and a span that goes on has one row without an end."""
    kinds = Counter(it.kind for it in run.table.tasks)
    spans = [it for it in run.spans if it.state != "banned"]
    bans = [it for it in run.spans if it.state == "banned"]
    grants = sum(it.state == "held" for it in spans)
    causes = Counter(it.cause for it in spans if it.state == "leaving")
    frees = grants - sum(it.to_pass is None for it in spans)
    unbans = sum(it.to_pass is not None for it in bans)
    return [f"{count(len(run.table.tasks), 'task')}: {kinds['lc']} latency-critical, {kinds['be']} best-effort.",
            f"{count(grants, 'grant')}, {count(sum(causes.values()), 'revocation')} ({causes['preempt']} for a task, "
            f"{causes['bandwidth']} for bandwidth, {causes['ban']} for a ban), {count(frees, 'free')}, "
            f"{count(len(bans), 'ban')}, {count(unbans, 'unban')}."]


def shown(scene: Scene) -> str:
    """Which passes are shown, and how."""
    run, window = scene.run, scene.window
    unit = f" {scene.tick}" if scene.tick else ""
    clocks = f"clock {run.clock(window.first)} to {run.clock(window.beyond - 1)}{unit}"
    words = f"All passes are shown, {clocks}."
    if window.is_cut:
        words = (f"Shown: passes {window.first} to {window.beyond - 1}, {clocks}; not shown: {window.first} before and "
                 f"{window.after} after.")
    if scene.is_coarse:
        words += f" A column is {scene.bucket} passes."
    if scene.only is not None:
        words += f" {run.table.tasks[scene.only].label} alone."
    return words


class Heading:
    """What the picture shows."""

    def __init__(self, scene: Scene) -> None:
        self.scene, run = scene, scene.run
        across = scene.width - 2 * MARGIN
        self.lines = [(it, True) for words in counted(run) for it in wrapped(words, across)]
        self.lines += [(it, False) for it in wrapped(shown(scene), across)]
        if run.illegal_from is not None:
            self.lines.append((f"From pass {run.illegal_from} on the history is not the policy's.", True))
        self.height = 44.0 + 17 * len(self.lines)

    def draw(self, paper: Paper, top: float) -> None:
        heading(paper, MARGIN, paper.title, self.lines)


def means(values: list[int], groups: list[tuple[int, int]]) -> list[float]:
    """The mean of each group."""
    return [sum(values[begin:end]) / (end - begin) for begin, end in groups]


class WholeRun:
    """The whole run in one strip, with a box round what is shown: the cores that tasks of each kind held."""

    height = 82.0

    def __init__(self, scene: Scene) -> None:
        self.scene = scene
        whole = Window(0, scene.window.passes, scene.window.passes)
        self.groups = buckets(whole, -(-whole.shown // int(scene.across)))
        self.edges = [begin for begin, _ in self.groups] + [whole.beyond]

    def held(self, kind: str) -> list[float]:
        """The cores that tasks of this kind held, in the mean of each column."""
        tasks = [it.number for it in self.scene.run.table.tasks if it.kind == kind]
        return means([sum(it[task].held for task in tasks) for it in self.scene.run.passes], self.groups)

    def over(self) -> list[float]:
        """Whether the bandwidth figure was over its limit in any pass of each column."""
        passes = self.scene.run.passes
        return [float(any(it[0].bandwidth > it[0].bandwidth_limit for it in passes[begin:end]))
                for begin, end in self.groups]

    def names(self, paper: Paper, top: float) -> None:
        """What the colours of the strip are."""
        paper.text(MARGIN, top + 10, "Whole run", weight="bold")
        colours = paper.palette
        kinds = [(colours.second, "latency-critical"), (colours.best, "best-effort")]
        kinds += [(colours.ink, "over bandwidth")] if any(self.over()) else []
        for place, (colour, words) in enumerate(kinds):
            swatch(paper, MARGIN, top + 27 + 16 * place, colour, words)

    def draw(self, paper: Paper, top: float) -> None:
        scene, colours = self.scene, paper.palette
        axes = paper.axes(scene.left, top + 4, scene.across, STRIP, "whole run")
        axes.set_xlim(0, scene.window.passes)
        axes.set_ylim(0, scene.run.table.cores)
        axes.set_facecolor(colours.lane)
        critical, best = numpy.array(self.held("lc")), numpy.array(self.held("be"))
        axes.stairs(critical, self.edges, fill=True, color=colours.second, gid="whole-lc", lw=0)
        axes.stairs(critical + best, self.edges, baseline=critical, fill=True, color=colours.best, gid="whole-be", lw=0)
        if any(self.over()):
            marks = paper.axes(scene.left, top + 5 + STRIP, scene.across, 4, "whole run over bandwidth")
            marks.set_xlim(0, scene.window.passes)
            marks.set_ylim(0, 1)
            marks.stairs(self.over(), self.edges, fill=True, color=colours.ink, gid="whole-over", lw=0)
        window = scene.window
        axes.add_patch(Rectangle((window.first, 0), window.shown, scene.run.table.cores, fill=False, lw=1.6,
                                 edgecolor=colours.ink, gid="whole-window", clip_on=False))
        scene.at_right(paper, top + 10, count(scene.run.table.cores, "core"))
        self.names(paper, top)
        low = top + 19 + STRIP
        paper.text(scene.left, low, "pass 0", SMALL, color=colours.second)
        paper.text(scene.left + scene.across, low, str(window.passes - 1), SMALL, color=colours.second, ha="right")


class Words:
    """The name of the lanes below it, and what they show."""

    height = 20.0

    def __init__(self, name: str, shows: str) -> None:
        self.name, self.shows = name, shows

    def draw(self, paper: Paper, top: float) -> None:
        paper.text(MARGIN, top + 8, self.name, weight="bold")
        paper.text(MARGIN + 44, top + 8, self.shows, SMALL, color=paper.palette.second)


class Passes:
    """The number and the clock of passes, as many as have room, and a line at each of these."""

    height = 44.0

    def __init__(self, scene: Scene, below: float) -> None:
        self.scene, self.below = scene, below

    def told_from(self) -> int:
        """The clock that is taken from all others, where they are too long to be told whole."""
        run, window = self.scene.run, self.scene.window
        clock = run.clock(window.beyond - 1)
        return run.clock(window.first) if len(str(clock)) > 6 else 0

    def clock_of(self, number: int) -> str:
        taken = self.told_from()
        clock = self.scene.run.clock(number) - taken
        return f"{clock:+}" if taken else str(clock)

    def numbers(self) -> list[int]:
        """The passes that are named: all, or every second, fifth, tenth and so on."""
        window = self.scene.window
        shown = range(window.first, window.beyond)
        room = max(width_of(self.clock_of(it), SMALL) for it in (shown[0], shown[-1])) + 10
        usual = self.scene.across / window.shown
        step = next(it for it in steps() if it * usual >= max(room, 26))
        return [it for it in shown if it % step == 0]

    def draw(self, paper: Paper, top: float) -> None:
        scene, colours = self.scene, paper.palette
        unit = f", {scene.tick}" if scene.tick else ""
        paper.text(MARGIN, top + 12, "pass", weight="bold")
        from_first = "clock, from first" if self.told_from() else "clock"
        paper.text(MARGIN, top + 28, from_first + unit, SMALL, color=colours.second)
        axes = scene.axes(paper, top, self.height + self.below, "passes")
        high = self.height + self.below
        axes.set_ylim(high, 0)
        last = -1000.0
        for number in self.numbers():
            place = scene.pixels(scene.window.first, number)
            axes.vlines(number, self.height - 4, high, color=colours.grid, lw=1, zorder=0)
            if place - last < 24 or place > scene.across - 8:
                continue
            last = place
            centre = {"ha": "center", "va": "center"}
            axes.text(number, 12, str(number), fontsize=PLAIN * 0.75, weight="bold", color=colours.ink, **centre)
            axes.text(number, 28, self.clock_of(number), fontsize=SMALL * 0.75, color=colours.second, **centre)
        for number in self.scene.columns.not_to_scale if not scene.is_coarse else []:
            axes.text(number + 0.5, 38, "//", fontsize=SMALL * 0.75, color=colours.second, ha="center", va="center")


def steps() -> Iterator[int]:
    """1, 2, 5, 10, 20, 50 and so on."""
    power = 1
    while True:
        yield from (power, 2 * power, 5 * power)
        power *= 10
