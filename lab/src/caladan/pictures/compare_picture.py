"""The picture of a comparison: for each task to which requests came, which share of them was answered within how long
with each table, what that costs best-effort tasks, and the cores that the task held."""
from __future__ import annotations

import math
from dataclasses import dataclass
from functools import cached_property
from typing import Sequence

import numpy
from matplotlib.axes import Axes

from ..refusal import Refusal
from ..sweeps.objectives import RANKS
from .colours import Palette
from .curves import grid, look, sample_rows, samples, shorts
from .facts import Request, Standing
from .numbers import Cell, Comparison
from .paper import SMALL, Paper, cut, heading, wrapped
from .scales import ShareScale, TimeScale, core_scale
from .tables import Task, count

MARGIN, LABELS, SHARES, STRIP, GAP = 14, 112, 170, 18, 34
# The room of a task that answers nothing, above its strips.
UNANSWERED = 22.0
SHARE_OF = (("response least", 0.0), ("response median", 0.5), ("response 90 of 100", 0.9),
            ("response 99 of 100", 0.99), ("response 99.9 of 100", 0.999), ("response greatest", 1.0))
COST_RANK, MOST_COLUMNS, FEW_REQUESTS, MOST_LINES = "p99", 300, 20, 10


@dataclass(frozen=True)
class ComparedRun:
    """The run of one table: its requests, and for each pass how each task stands after it."""

    requests: tuple[Request, ...]
    passes: tuple[tuple[Standing, ...], ...]


@dataclass(frozen=True)
class Curve:
    """Which share of a task's requests was answered within each of these times, in rising order."""

    times: tuple[float, ...]
    shares: tuple[float, ...]
    requests: int

    @property
    def answered(self) -> int:
        return round(self.shares[-1] * self.requests) if self.shares else 0


@dataclass(frozen=True)
class CompareScene:
    """A comparison as it is shown: its numbers, the run of each table where these are known, the tasks, how wide, and
    on which ground; and how many policies there are, by each of which a table stands again."""

    numbers: Comparison
    runs: tuple[ComparedRun, ...]
    tasks: tuple[Task, ...]
    palette: Palette
    width: int
    tick: str = ""
    policies: int = 1

    @property
    def unit(self) -> str:
        return self.tick or "ticks"

    @property
    def title(self) -> str:
        by = f" by {self.policies} policies" if self.policies > 1 else ""
        return f"{count(len(self.numbers.tables) // self.policies, 'table')}{by} on the same arrivals"

    @cached_property
    def shorts(self) -> list[str]:
        return shorts(self.numbers.tables)

    def row(self, task: Task, measure: str) -> tuple[Cell, ...]:
        """The cells of a task's measure, a cell for each table."""
        return self.numbers.cells(self.numbers.tasks[task.number], measure)

    def curve(self, task: Task, table: int) -> Curve:
        """From the requests of the table's run, else from the ranks that the comparison has."""
        if self.runs:
            return curve_of([it for it in self.runs[table].requests if it.task == task.number])
        given = self.row(task, "requests given")[table].value or 0
        return curve_by_ranks([self.row(task, it)[table] for it, _ in SHARE_OF], int(given))

    @property
    def asked(self) -> list[Task]:
        """The tasks to which requests came."""
        return [it for it in self.tasks if any(cell.value for cell in self.row(it, "requests given"))]

    def is_answered(self, task: Task) -> bool:
        """Whether a task has plots of its answers: a best-effort one that answers nothing with any table has none."""
        tables = range(len(self.numbers.tables))
        served = any(it.value for it in self.row(task, "requests served"))
        return served or any(self.kind(task.number, it) != "be" for it in tables)

    def kind(self, task: int, table: int) -> str:
        """The kind of a task with a table, by its caps; by the tasks where no run is known."""
        if self.runs and self.runs[table].passes:
            standings = self.runs[table].passes[0]
            return ("lc" if standings[task].cap is None else "be") if task < len(standings) else ""
        return self.tasks[task].kind

    def best_effort(self, table: int) -> float:
        """The cores that best-effort tasks held in the mean with a table."""
        held = [self.row(it, "mean cores held")[table].value for it in self.tasks
                if self.kind(it.number, table) == "be"]
        return math.fsum(it for it in held if it is not None)

    @property
    def has_cost(self) -> bool:
        return any(self.best_effort(it) > 0 for it in range(len(self.numbers.tables)))


def curve_of(requests: Sequence[Request]) -> Curve:
    """The share of all requests that was answered within each time at which one was."""
    times = sorted(it.answered - it.arrived for it in requests if it.answered is not None)
    rising = sorted(set(times))
    within = numpy.searchsorted(times, rising, side="right")
    return Curve(tuple(map(float, rising)), tuple(float(it) / len(requests) for it in within), len(requests))


def curve_by_ranks(cells: Sequence[Cell], requests: int) -> Curve:
    """The same as far as ranks tell it, from the least to the greatest, up to the first that is pending."""
    found: dict[float, float] = {}
    for (_, share), cell in zip(SHARE_OF, cells):
        if cell.pending or cell.value is None:
            break
        found[cell.value] = max(share, 1 / requests if requests else 0)
    return Curve(tuple(found), tuple(found.values()), requests)


def name_task(paper: Paper, task: Task, top: float) -> None:
    """The name of a task at the left, and its kind."""
    paper.text(MARGIN, top + 6, cut(task.label, LABELS - 30, weight="bold"), weight="bold")
    paper.text(MARGIN, top + 23, {"lc": "latency-critical", "be": "best-effort"}.get(task.kind, ""), SMALL,
               color=paper.palette.second)


class SharePlot:
    """Which share of a task's requests was answered within how long: a line of steps for each table, over the task's
    own times."""

    def __init__(self, scene: CompareScene, task: Task) -> None:
        self.scene, self.task = scene, task
        self.curves = [scene.curve(task, it) for it in range(len(scene.numbers.tables))]
        pending = [it.value for it in scene.row(task, "oldest pending") if it.value is not None]
        self.times = TimeScale([time for it in self.curves for time in it.times] or pending, is_tight=True)
        self.shares = ShareScale(max(it.requests for it in self.curves))

    def same(self) -> list[list[str]]:
        """The tables that have one curve, for each curve that several have."""
        found: dict[tuple[tuple[float, ...], tuple[float, ...]], list[str]] = {}
        for curve, label in zip(self.curves, self.scene.shorts):
            found.setdefault((curve.times, curve.shares), []).append(label)
        return [it for it in found.values() if it[1:]]

    def notes(self) -> list[str]:
        """The same in lines, a curve after the other: of as many tables as have room, and how many more there are."""
        room = LABELS - 8
        if len(self.same()) == 1 and len(self.same()[0]) == len(self.curves):
            return wrapped("all tables: the same curve", room, SMALL)
        lines = [line for labels in self.same()
                 for line in ("the same curve:", *wrapped(", ".join(labels), room, SMALL))]
        return lines if len(lines) <= MOST_LINES else [*lines[:MOST_LINES - 1], "and more"]

    def line(self, axes: Axes, number: int, curve: Curve) -> None:
        """One table's steps, with a marker at each request of a few, else at the shares that are named."""
        how = look(number, len(self.curves), self.scene.palette)
        xs = [self.times.least, *curve.times, self.times.most]
        ys = [0.0, *curve.shares, curve.shares[-1] if curve.shares else 0.0]
        axes.plot(xs, ys, drawstyle="steps-post", gid=f"shares-{self.task.number}-{number}", clip_on=False,
                  **{**how, "marker": ""})
        points = list(zip(curve.times, curve.shares))
        if curve.requests > FEW_REQUESTS:
            points = [next(it for it in points if it[1] >= mark) for mark in self.shares.marks
                      if points and points[-1][1] >= mark]
        if points:
            axes.plot(*zip(*points), gid=f"answered-{self.task.number}-{number}", clip_on=False,
                      **{**how, "linestyle": "none"})

    def draw(self, paper: Paper, left: float, top: float, across: float) -> None:
        colours, task = paper.palette, self.task
        name_task(paper, task, top)
        for place, words in enumerate(self.notes()):
            paper.text(MARGIN, top + 48 + 14 * place, words, SMALL, color=colours.second)
        axes = paper.axes(left, top, across, SHARES, f"shares {task.number}")
        self.times.use(axes, "x")
        self.shares.use(axes)
        grid(axes, colours)
        for number, curve in enumerate(self.curves):
            self.line(axes, number, curve)
        paper.text(left + across / 2, top + SHARES + 28, f"{self.scene.unit} from arrival to answer", SMALL,
                   color=colours.second, ha="center")


class CostPlot:
    """A latency-critical task's response at p99 over the cores that best-effort tasks held, a point for each table."""

    def __init__(self, scene: CompareScene, task: Task) -> None:
        self.scene, self.task = scene, task
        self.cells = scene.row(task, RANKS[COST_RANK])
        self.held = [scene.best_effort(it) for it in range(len(self.cells))]

    def scales(self, axes: Axes, palette: Palette) -> None:
        """Times of what was answered, if anything was, over cores."""
        times = [it.value for it in self.cells if it.value is not None and not it.pending]
        TimeScale(times).use(axes, "y")
        if not times:
            axes.set_yticks([])
        core_scale(axes, self.held, 0.15, 4)
        grid(axes, palette)

    def band(self, paper: Paper, left: float, top: float, across: float) -> Axes:
        """Where the points stand whose request is pending."""
        axes = paper.axes(left, top, across, 16, f"cost pending {self.task.number}")
        axes.set_facecolor(paper.palette.lane)
        axes.set_ylim(0, 1)
        core_scale(axes, self.held, 0.15, 4)
        axes.set_xticks([])
        paper.text(left - 6, top + 8, "pending", SMALL - 1, color=paper.palette.second, ha="right")
        return axes

    def draw(self, paper: Paper, left: float, top: float, across: float) -> None:
        is_waiting = any(it.pending for it in self.cells)
        room = 22 if is_waiting else 0
        axes = paper.axes(left, top + room, across, SHARES - room, f"cost {self.task.number}")
        self.scales(axes, paper.palette)
        band = self.band(paper, left, top, across) if is_waiting else axes
        for number, cell in enumerate(self.cells):
            how = {**look(number, len(self.cells), paper.palette), "linestyle": "none"}
            where, y = (band, 0.5) if cell.pending else (axes, cell.value)
            if cell.value is not None:
                where.plot([self.held[number]], [y], gid=f"cost-{self.task.number}-{number}", clip_on=False, **how)
        self.names(paper, left, top, across)

    def names(self, paper: Paper, left: float, top: float, across: float) -> None:
        """What stands over what, and of how many requests."""
        few = {it.of for it in self.cells if it.of is not None}
        of = f" (of {'-'.join(str(it) for it in sorted({min(few), max(few)}))})" if few else ""
        paper.text(left + across / 2, top - 10, f"{COST_RANK}{of}, {self.scene.unit}", SMALL,
                   color=paper.palette.second, ha="center")
        paper.text(left + across / 2, top + SHARES + 28, "best-effort cores", SMALL, color=paper.palette.second,
                   ha="center")


class Strips:
    """The cores that a task held with each table, over the clock of its run."""

    def __init__(self, scene: CompareScene, task: Task) -> None:
        self.scene, self.task = scene, task
        self.high = STRIP if len(scene.runs) <= 6 else 12
        self.height = 20.0 + (self.high + 4) * len(scene.runs) + 18 if scene.runs else 0.0

    def held(self, table: int) -> tuple[list[float], list[float]]:
        """The cores held from one clock to the next, in the mean of some passes where there are many."""
        passes = [it for it in self.scene.runs[table].passes if self.task.number < len(it)]
        size = max(-(-(len(passes) - 1) // MOST_COLUMNS), 1)
        groups = [passes[it:it + size] for it in range(0, len(passes) - 1, size)]
        groups = [it[:len(passes) - 1 - n * size] for n, it in enumerate(groups)]
        held = [sum(it[self.task.number].held for it in group) / len(group) for group in groups]
        clocks = [float(group[0][0].clock) for group in groups]
        return held, [*clocks, float(passes[-1][0].clock)] if passes else []

    def draw(self, paper: Paper, left: float, top: float, across: float) -> None:
        scene, colours, number = self.scene, paper.palette, self.task.number
        if not scene.runs:
            return
        every = [self.held(it) for it in range(len(scene.runs))]
        most = max((it[self.task.number].limit for run in scene.runs for it in run.passes[:1] if number < len(it)),
                   default=1)
        clocks = [it for _, edges in every for it in edges] or [0.0]
        paper.text(left, top + 8, f"cores held, full height {most}", SMALL, color=colours.second)
        paper.text(left + across + 8, top + 8, "answered", SMALL, color=colours.second)
        for table, (held, edges) in enumerate(every):
            y = top + 18 + (self.high + 4) * table
            axes = paper.axes(left, y, across, self.high, f"strip {number}-{table}")
            axes.set_facecolor(colours.lane)
            axes.set_xlim(min(clocks), max(max(clocks), min(clocks) + 1))
            axes.set_ylim(0, most)
            if held:
                axes.stairs(held, edges, fill=True, color=colours.shade(table).line, lw=0,
                            gid=f"strip-{number}-{table}")
            paper.text(left - 8, y + self.high / 2, cut(scene.shorts[table], LABELS - 10, SMALL), SMALL, ha="right")
            curve = scene.curve(self.task, table)
            paper.text(left + across + 8, y + self.high / 2, f"{curve.answered:,} of {curve.requests:,}", SMALL)
        low = top + 26 + (self.high + 4) * len(every)
        paper.text(left, low, f"clock {min(clocks):.0f}", SMALL, color=colours.second)
        paper.text(left + across, low, f"{max(clocks):.0f}", SMALL, color=colours.second, ha="right")


def lines_of(scene: CompareScene) -> list[tuple[str, bool]]:
    """What stands below the title."""
    across = scene.width - 2 * MARGIN
    words = "Steps: which share of a task's requests was answered within so long. What is missing at the right was "
    words += "left."
    lines = [(it, True) for it in wrapped(words, across)]
    if scene.has_cost:
        note = (f"At the right what it costs: {COST_RANK} over the cores that best-effort tasks held in the mean; "
                "lower and further right is better.")
        lines += [(it, False) for it in wrapped(note, across)]
    return lines


def draw_comparison(scene: CompareScene) -> Paper:
    """The picture of a comparison."""
    if not scene.asked:
        raise Refusal("no requests came: there is nothing to draw")
    tables = list(scene.numbers.tables)
    lines = lines_of(scene)
    top = 44.0 + 17 * len(lines) + 20 * sample_rows(scene.width, MARGIN, tables) + 30
    strips = [Strips(scene, it) for it in scene.asked]
    rooms = [SHARES + 40.0 if scene.is_answered(it) else UNANSWERED for it in scene.asked]
    each = [room + it.height + GAP for room, it in zip(rooms, strips)]
    paper = Paper(scene.width, top + sum(each), scene.palette, scene.title)
    below = heading(paper, MARGIN, scene.title, lines)
    looks = [look(number, len(tables), scene.palette) for number in range(len(tables))]
    samples(paper, MARGIN, below, tables, looks)
    left = MARGIN + LABELS + 20
    cost = 170.0 if scene.has_cost else 0.0
    across = scene.width - left - MARGIN - (cost + 68 if cost else 70)
    for task, strip, room, high in zip(scene.asked, strips, rooms, each):
        if room > UNANSWERED:
            SharePlot(scene, task).draw(paper, left, top, across)
        else:
            name_task(paper, task, top)
            paper.text(left, top + 6, "None of its requests was answered by the end.", SMALL,
                       color=paper.palette.second)
        if cost and any(scene.kind(task.number, it) == "lc" for it in range(len(tables))):
            CostPlot(scene, task).draw(paper, scene.width - MARGIN - cost, top, cost)
        strip.draw(paper, left, top + room, across)
        top += high
    return paper
