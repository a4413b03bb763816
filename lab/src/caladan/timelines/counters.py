"""The counters of tasks and of the bandwidth figure, pass by pass, where they change."""
from __future__ import annotations

from dataclasses import dataclass
from typing import Iterator, Optional, Sequence

from .endings import Recorded, caps_of
from .page import Page


@dataclass(frozen=True)
class Passes:
    """The rows of `series`, those of a pass for each task."""

    rows: Sequence[str]
    tasks: int

    @property
    def many(self) -> int:
        return len(self.rows) // self.tasks

    def clock(self, number: int) -> int:
        """The clock of a pass; of one before the first the last one's, and of no passes 0."""
        return int(self.rows[number * self.tasks].split(",", 2)[1]) if self.rows else 0


def passes_of(series: bytes, tasks: int) -> Passes:
    """The passes of what `series` tells."""
    return Passes(series.decode().splitlines()[1:], tasks)


class Counters:
    """What was put last: of each task its cores and its cap, and the bandwidth figure."""

    def __init__(self, page: Page) -> None:
        self.page = page
        self.names = [f"{name} ({task.kind})" for name, task in zip(page.tasks, page.machine.tasks)]
        # A cap may be recorded of a latency-critical task too, of which `series` tells none.
        self.caps = [str(it) for it in page.machine.limits]
        self.last: list[tuple[str, str]] = [("", "")] * len(self.names)
        self.bandwidth = ""

    def of_task(self, task: int, clock: int, told: str) -> Iterator[str]:
        """What a task holds and leaves, and the cap of a best-effort one."""
        held, leaving, _, cap, _ = told.split(",")
        yield self.page.counter(self.names[task], clock, f'"held":{held},"leaving":{leaving}')
        if self.page.machine.tasks[task].kind == "be":
            yield self.page.counter(f"cap of {self.page.tasks[task]}", clock, f'"value":{cap}')

    def of_pass(self, rows: Sequence[str], caps: Sequence[tuple[int, str]]) -> Iterator[str]:
        """The figures that are others than before, after a pass that gives these caps."""
        for task, cap in caps:
            self.caps[task] = cap
        _, clock, bandwidth, _ = rows[0].split(",", 3)
        for task, row in enumerate(rows):
            now = row.split(",", 7)[7], self.caps[task]
            if now != self.last[task]:
                self.last[task] = now
                yield from self.of_task(task, int(clock), now[0])
        if bandwidth != self.bandwidth:
            self.bandwidth = bandwidth
            yield self.page.counter("bandwidth", int(clock), f'"value":{bandwidth}')

    def of_all(self, passes: Passes, recorded: Optional[Recorded]) -> Iterator[list[str]]:
        """The same of each pass."""
        rows, tasks = passes.rows, passes.tasks
        for number in range(passes.many):
            yield [*self.of_pass(rows[number * tasks:(number + 1) * tasks], caps_of(recorded, number))]
