"""Pictures of values in Python: shown in a notebook as they are, or written to a file."""
from __future__ import annotations

import os
from typing import TYPE_CHECKING, Callable, Optional, Sequence, Union

from ..comparisons.runs import Runs
from ..tables import Machine
from .asked import Look
from .drawing import compare_paper, palette_of, run_paper, sweep_paper
from .numbers import read_comparison, read_sweep
from .paper import Paper
from .saving import as_svg, save
from .sources import columns_compared, run_of_told
from .tables import table_of
from .trials_picture import Curve, TrialsScene, draw_trials

if TYPE_CHECKING:
    import pandas

File = Union[str, "os.PathLike[str]", None]


class Picture:
    """A picture. A notebook shows it; `save` writes it."""

    def __init__(self, paper: Paper, file: File = None) -> None:
        self.paper = paper
        if file is not None:
            self.save(file)

    def save(self, file: Union[str, "os.PathLike[str]"]) -> None:
        """Writes it, whole or not at all: SVG, PNG or PDF by the file's ending. Refusal where it has another ending or
        cannot be written."""
        save(self.paper, os.fspath(file))

    def _repr_svg_(self) -> str:
        return as_svg(self.paper).decode()

    def __repr__(self) -> str:
        return f"<Picture, {self.paper.title}>"


def of_run(told: Callable[[str], bytes], machine: Machine, look: Look, file: File, first: int, passes: Optional[int],
           task: Optional[int], requests: str = "") -> Picture:
    """The lanes of a run, of what the program tells of it by these words; with its requests, where they are given."""
    spans, series = (told(it).decode() for it in ("spans", "series"))
    run = run_of_told(spans, series, table_of(machine), requests=requests)
    return Picture(run_paper(run, look, first, passes, task), file)


def of_compare(csv: str, runs: Runs, look: Look, file: File) -> Picture:
    """A comparison, of its CSV and its runs."""
    return Picture(compare_paper(columns_compared(read_comparison(csv, "compare --csv"), runs), look), file)


def of_sweep(csv: str, machine: Machine, swept: int, goals: Sequence[str], look: Look, file: File) -> Picture:
    """A sweep, of its CSV."""
    return Picture(sweep_paper(read_sweep(csv, "sweep --csv"), table_of(machine), swept, goals, look), file)


def of_trials(frame: pandas.DataFrame, keys: Sequence[str], x: str, y: str, look: Look, file: File) -> Picture:
    """The curves of runs by several policies, of a frame with a row for each run."""
    curves = []
    for name, rows in frame.groupby(frame[["policy", *keys]].astype(str).agg(" ".join, axis=1), sort=False):
        medians = rows.groupby("load")[list(dict.fromkeys([x, y]))].median() if x != "load" else \
            rows.groupby("load")[[y]].median().assign(load=lambda it: it.index)
        curves.append(Curve(str(name), tuple(f"{it:g}" for it in medians.index),
                            tuple(zip(medians[x], medians[y])), tuple(zip(rows[x], rows[y]))))
    scene = TrialsScene(curves, x, y, look.tick or "ticks", frame["seed"].nunique(), palette_of(look), look.width)
    return Picture(draw_trials(scene), file)
