"""The rows of `caladan_view requests`: docs/FORMATS.md, "Facts"."""
from __future__ import annotations

from typing import Optional, Sequence

from .records import Job

HEAD = ("id,task,thread,arrived [ticks],work [turns],by thread,begun [ticks],answered [ticks],worked [ticks],"
        "pending [ticks]\n")


def cell(number: Optional[int]) -> str:
    return "" if number is None else str(number)


def row_of(job: Job, task: int, last: int) -> str:
    """The row of a request of a task, in a run with this last clock."""
    front = f"{job.id},{task},{job.thread},{job.came},{job.work},"
    if job.by_thread is None:
        return f"{front},,,,{last - job.came}\n"
    return f"{front}{job.by_thread},{cell(job.begun)},{cell(job.answered)},{job.worked},\n"


def text_of(jobs: Sequence[Job], owner: Sequence[int], last: int) -> str:
    """The rows of requests, in the order of the arrivals, below their head."""
    return HEAD + "".join(row_of(it, owner[it.thread], last) for it in jobs)
