"""The word `report`."""
from __future__ import annotations

import os
from typing import Optional, Sequence

from ..explaining import command_of
from ..files import STANDARD, Output, Source, is_terminal, read_named
from ..labels import Labels, names_of
from ..plans import plan_of
from ..programs import Viewer, viewer
from ..progress import Progress
from ..stamps import tick_of
from ..timelines.command import is_of_arrivals, trace_of
from ..words.parsing import Asked
from .explanations import Explainer
from .page import facts_of, page_of
from .told import chosen, told_of

NOT_EXPLAINED = "This pass is not explained here: --explain changes or all explains more. The command below says why."


def report_of(view: Viewer, given: bytes, labels: Labels, policy: str = "caladan", which: str = "",
              file: Optional[str] = None, came: Optional[bytes] = None, jobs: Optional[int] = None,
              is_shown: bool = False, plan: Sequence[str] = ()) -> bytes:
    """The page of an input, whose run may go by the words of a plan: the passes of `which` are explained, all, those
    with changes, or none."""
    told = told_of(view, policy, given, labels, came, plan)
    numbers = chosen(told, which)
    progress = Progress(len(numbers), is_shown)
    try:
        why = Explainer(view, policy, told.history, told.passes).each(numbers, told.passes, progress.made, jobs)
    finally:
        progress.ended()
    command = command_of(file, policy, is_of_arrivals(trace_of(given)), plan)
    title = "A run" if file in (None, STANDARD) else os.path.basename(file or "")
    return page_of(title, facts_of(told, labels, policy, command, NOT_EXPLAINED, plan), why)


def report(asked: Asked) -> int:
    """Does what the words after `report` ask for; answers the exit status."""
    names = names_of(asked.one("names"))
    file, name, came = asked.one("input"), asked.one("output"), asked.one("came")
    source = Source(None if file == STANDARD else file)
    output = Output(None if name == STANDARD else name)
    given = source.read()
    labels = Labels(names, tick_of(given, asked.one("tick")))
    page = report_of(viewer(asked.one("program")), given, labels, asked.one("policy") or "caladan",
                     asked.one("explain") or "", file, None if came is None else read_named(came),
                     asked.number("jobs"), is_terminal() and not asked.has("quiet"), plan_of(asked).words())
    if output.is_later:
        output.keep(page)
    else:
        output.put(page)
    return 0
