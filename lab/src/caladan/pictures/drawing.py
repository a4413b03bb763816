"""What the words draw: the picture that is asked for, and the status that goes with it."""
from __future__ import annotations

from dataclasses import replace
from typing import Callable, NamedTuple, Optional, Sequence

from ..stamps import tick_of
from ..tables import names_in
from ..words.drawn import format_of
from .asked import Look, PictureAsked
from .bands import Scene
from .colours import DARK, LIGHT, Palette
from .compare_picture import ComparedRun, CompareScene, draw_comparison
from .facts import Run
from .goals import goal_in
from .numbers import Sweep
from .paper import Paper
from .run_picture import draw_run
from .saving import save
from .seeds_picture import SeedsScene, draw_seeds
from .sources import Compared, Given, compared_from, read_file, run_from, seeds_from, swept_from
from .sweep_picture import SweepScene, draw_sweep
from .tables import Table, named_tasks, refuse_no_task
from .window import window_of


class Drawn(NamedTuple):
    """A picture, and what is told of objectives that it misses, a line for each."""

    paper: Paper
    told: str = ""


def palette_of(look: Look) -> Palette:
    return DARK if look.is_dark else LIGHT


def read_all(asked: PictureAsked) -> list[Given]:
    return [read_file(it) for it in asked.files or ["-"]]


def maybe(file: Optional[str]) -> Optional[Given]:
    return read_file(file) if file else None


def look_at(asked: PictureAsked, given: Sequence[Given]) -> Look:
    """The look of a picture of some files, the first of which may say what a tick is."""
    tick = tick_of(given[0].text.encode("utf-8", "surrogateescape"), asked.look.tick) if given else asked.look.tick
    return replace(asked.look, tick=tick)


def run_paper(run: Run, look: Look, first: int = 0, passes: Optional[int] = None, task: Optional[int] = None) -> Paper:
    """The picture of a run: from a pass on so many, and of one task alone where one is asked for."""
    tasks = named_tasks(run.table.tasks, look.names)
    refuse_no_task(task, len(tasks))
    window = window_of(len(run.passes), first, passes)
    named = replace(run, table=replace(run.table, tasks=tasks))
    return draw_run(Scene(named, window, palette_of(look), look.width, look.tick, task))


def compare_paper(got: Compared, look: Look) -> Paper:
    """The picture of a comparison."""
    runs = tuple(map(ComparedRun, got.requests, got.passes))
    tasks = named_tasks(got.tasks, look.names)
    return draw_comparison(CompareScene(got.numbers, runs, tasks, palette_of(look), look.width,
                                        look.tick or got.numbers.unit, got.policies))


def sweep_paper(sweep: Sweep, table: Optional[Table], swept: Optional[int], goals: Sequence[str], look: Look,
                known: Sequence[str] = ()) -> Paper:
    """The picture of a sweep: of the task that is swept, where that is known, with the first objective of these words
    that is of it. Where nobody names the tasks, words may do so by the names that are known of the table."""
    goal = goal_in(goals, look.names or known, swept, look.tick or sweep.unit)
    task = goal.task if goal and swept is None else swept
    names = [it.label for it in named_tasks(table.tasks, look.names)] if table else look.names
    name = names[task] if task is not None and task < len(names) else ""
    return draw_sweep(SweepScene(sweep, palette_of(look), look.width, name, goal,
                                 sweep.cores(table.cores) if table else None, look.tick or sweep.unit))


def of_run(asked: PictureAsked) -> Drawn:
    given = read_all(asked)
    run = run_from(given, maybe(asked.table), asked)
    return Drawn(run_paper(run, look_at(asked, given), asked.first, asked.passes, asked.task))


def of_compare(asked: PictureAsked) -> Drawn:
    given = read_all(asked)
    return Drawn(compare_paper(compared_from(given, asked, maybe(asked.table)), look_at(asked, given)))


def of_sweep(asked: PictureAsked) -> Drawn:
    given = read_all(asked)
    got = swept_from(given, asked, maybe(asked.table))
    known = names_in(given[0].text.encode("utf-8", "surrogateescape"))
    return Drawn(sweep_paper(got.sweep, got.table, got.task, asked.goals, asked.look, known), got.told)


def of_seeds(asked: PictureAsked) -> Drawn:
    runs = seeds_from(read_all(asked))
    look = asked.look
    return Drawn(draw_seeds(SeedsScene(runs, palette_of(look), look.width, look.names, look.tick)))


KINDS: dict[str, Callable[[PictureAsked], Drawn]] = {
    "run": of_run, "compare": of_compare, "sweep": of_sweep, "seeds": of_seeds}


def drawn(asked: PictureAsked) -> Drawn:
    """The picture that is asked for."""
    return KINDS[asked.word](asked)


def drawn_to(asked: PictureAsked, tell: Callable[[str], None]) -> int:
    """Writes it, and tells of the objectives that it misses; answers the exit status."""
    format_of(asked.output)
    made = drawn(asked)
    tell(made.told)
    save(made.paper, asked.output)
    return 1 if made.told else 0
