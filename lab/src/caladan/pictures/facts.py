"""The facts of a run: the rows of `caladan_view spans`, `series` and `requests`."""
from __future__ import annotations

import re
from dataclasses import dataclass
from typing import Callable, Optional, Sequence, TypeVar

from ..refusal import Refusal
from ..rows import Row, head_of, rows_of
from .tables import Table, Task

HEADS = {
    "spans": "core,thread,task,class,state,cause,by core,for task,started [ticks],from pass,to pass,from clock [ticks],"
             "to clock [ticks]",
    "series": "pass,clock [ticks],bandwidth,bandwidth limit,task,delay [ticks],congested,held [cores],leaving [cores],"
              "booked [cores],cap [cores],limit [cores]",
    "requests": "id,task,thread,arrived [ticks],work [turns],by thread,begun [ticks],answered [ticks],worked [ticks],"
                "pending [ticks]",
}
STATES, CAUSES = ("held", "leaving", "banned"), ("ban", "bandwidth", "preempt")
Made = TypeVar("Made")


@dataclass(frozen=True)
class Span:
    """A stretch of passes in which a core is in one state: from before `to_pass`, or to the end where that is None."""

    core: int
    thread: int
    task: int
    grant_class: Optional[int]
    state: str
    cause: str
    by_core: Optional[int]
    for_task: Optional[int]
    started: Optional[int]
    from_pass: int
    to_pass: Optional[int]
    from_clock: int
    to_clock: Optional[int]


@dataclass(frozen=True)
class Standing:
    """How a task stands after a pass."""

    in_pass: int
    clock: int
    bandwidth: int
    bandwidth_limit: int
    task: int
    congested: bool
    held: int
    leaving: int
    cap: Optional[int]
    limit: int


@dataclass(frozen=True)
class Request:
    """A request: when it came; when it was answered, if it was; else how long it is pending."""

    task: int
    arrived: int
    answered: Optional[int]
    pending: Optional[int] = None


def kind_of(text: str) -> str:
    """Which facts a text is, by its head; nothing where that is not known."""
    head = text.partition("\n")[0].rstrip("\r")
    for kind, known in HEADS.items():
        if head == known:
            return kind
    if head.startswith(("load", "offered")) and re.search(r",p50( \[\w+\])?,p50 bound,", head):
        return "sweep"
    cells = head_of(text)
    if "seed" in cells[1:-1]:
        return "seeds"
    return "compare" if len(cells) > 3 and cells[2:4] == [f"{cells[1]} bound", f"{cells[1]} of"] else ""


def span_of(row: Row) -> Span:
    state = row.word("state", STATES)
    cause = row.word("cause", CAUSES if state == "leaving" else ("",))
    return Span(
        core=row.number("core"),
        thread=row.number("thread"),
        task=row.number("task"),
        grant_class=row.maybe("class"),
        state=state,
        cause=cause,
        by_core=row.number("by core") if cause == "ban" else None,
        for_task=row.number("for task") if cause == "preempt" else None,
        started=row.number("started") if state == "banned" else None,
        from_pass=row.number("from pass"),
        to_pass=row.maybe("to pass"),
        from_clock=row.number("from clock"),
        to_clock=row.maybe("to clock"),
    )


def standing_of(row: Row) -> Standing:
    return Standing(
        in_pass=row.number("pass"),
        clock=row.number("clock"),
        bandwidth=row.number("bandwidth"),
        bandwidth_limit=row.number("bandwidth limit"),
        task=row.number("task"),
        congested=row.word("congested", ("0", "1")) == "1",
        held=row.number("held"),
        leaving=row.number("leaving"),
        cap=row.maybe("cap"),
        limit=row.number("limit"),
    )


def request_of(row: Row) -> Request:
    return Request(task=row.number("task"), arrived=row.number("arrived"), answered=row.maybe("answered"),
                   pending=row.maybe("pending"))


def read_facts(text: str, name: str, kind: str, make: Callable[[Row], Made]) -> list[Made]:
    """The rows of a CSV of this kind; another head is refused with the one that is wanted."""
    if kind_of(text) != kind:
        raise Refusal(f"{name}: not the CSV of `caladan_view {kind}`, whose first line is {HEADS[kind]}")
    return [make(row) for row in rows_of(text, name)[1]]


@dataclass(frozen=True)
class Run:
    """A run: its table, its spans, for each pass how each task stands after it, and its requests, where their responses
    are shown."""

    table: Table
    spans: tuple[Span, ...]
    passes: tuple[tuple[Standing, ...], ...]
    illegal_from: Optional[int] = None
    requests: tuple[Request, ...] = ()

    def clock(self, in_pass: int) -> int:
        return self.passes[in_pass][0].clock

    def end_of(self, span: Span) -> int:
        """The pass before which a span ends; one that goes on ends with the run."""
        return len(self.passes) if span.to_pass is None else span.to_pass


def by_pass(standings: Sequence[Standing], name: str) -> tuple[tuple[Standing, ...], ...]:
    """The rows of a series, pass by pass: passes are counted from 0, and each has a row for each task in order."""
    passes: list[list[Standing]] = []
    for it in standings:
        if it.task == 0:
            passes.append([])
        if not passes or (it.in_pass, it.task) != (len(passes) - 1, len(passes[-1])):
            raise Refusal(f"{name}: pass {it.in_pass} and task {it.task} do not stand in their order")
        passes[-1].append(it)
    if len({len(it) for it in passes}) > 1:
        raise Refusal(f"{name}: not each pass has a row for each task")
    return tuple(map(tuple, passes))


def tasks_in(standings: Sequence[Standing]) -> tuple[Task, ...]:
    """What how tasks stand after one pass says of them: they have no guarantee."""
    return tuple(Task(it.task, "lc" if it.cap is None else "be", it.limit) for it in standings)


def table_in(spans: Sequence[Span], standings: Sequence[Standing]) -> Table:
    """What the facts alone say of the table: its tasks by how they stand after one pass, and cores up to the last pair
    that had a span."""
    last = max((it.core for it in spans), default=0)
    return Table(last // 2 * 2 + 2, tasks_in(standings))


def run_of(spans: Sequence[Span], standings: Sequence[Standing], table: Optional[Table], name: str,
           illegal_from: Optional[int] = None, requests: Sequence[Request] = ()) -> Run:
    """A run of its facts, and of its table where that is known."""
    passes = by_pass(standings, name)
    if not passes:
        raise Refusal(f"{name}: the run has no passes: there is nothing to draw")
    table = table or table_in(spans, passes[0])
    if len(passes[0]) != len(table.tasks):
        raise Refusal(f"{name}: {len(passes[0])} tasks in each pass, and the table has {len(table.tasks)}")
    for it in spans:
        if it.core >= table.cores or max(it.task, it.for_task or 0) >= len(table.tasks):
            raise Refusal(f"{name}: core {it.core} of task {it.task} is not of a table of {table.cores} cores and "
                          f"{len(table.tasks)} tasks")
    return Run(table, tuple(spans), passes, illegal_from, tuple(requests))
