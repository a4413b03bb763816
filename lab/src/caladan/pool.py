"""Questions side by side: so many at a time, with the answers in their order. An interrupt ends them all."""
from __future__ import annotations

import os
import threading
from concurrent.futures import Future, ThreadPoolExecutor
from typing import Callable, Generic, Iterable, Optional, Sequence, TypeVar

from .programs import ASKING
from .refusal import Refusal

Item = TypeVar("Item")
Answer = TypeVar("Answer")


def at_a_time(jobs: Optional[int] = None) -> int:
    """How many run at a time: as many as are asked for, else two for each processor."""
    return min(jobs or 2 * len(os.sched_getaffinity(0)), 1024)


class Jobs(Generic[Item, Answer]):
    """Some jobs, each with its place among faults: once one has a fault, those that come after it are not begun."""

    def __init__(self, job: Callable[[Item], Answer]) -> None:
        self.job, self.lock = job, threading.Lock()
        self.first: Optional[tuple[int, Refusal]] = None

    def do(self, item: Item, place: int) -> Optional[Answer]:
        if self.first is not None and self.first[0] < place:
            return None
        try:
            return self.job(item)
        except Refusal as refusal:
            with self.lock:
                if self.first is None or place < self.first[0]:
                    self.first = place, refusal
            return None


def all_of(job: Callable[[Item], Answer], items: Sequence[Item], jobs: int,
           places: Optional[Sequence[int]] = None) -> list[Answer]:
    """The answer to each item, so many at a time. The refusal is that of the item whose place among faults, which is
    its own without `places`, is the first."""
    many = Jobs(job)
    pool = ThreadPoolExecutor(max(min(jobs, len(items)), 1))
    try:
        futures: list[Future[Optional[Answer]]] = [
            pool.submit(many.do, item, place) for item, place in zip(items, places or range(len(items)))]
        answers = [it.result() for it in futures]
    except BaseException:
        ASKING.end()
        pool.shutdown(cancel_futures=True)
        raise
    pool.shutdown()
    if many.first is not None:
        raise many.first[1]
    return [it for it in answers if it is not None]


def each(job: Callable[[int], Answer], items: Iterable[int]) -> list[Answer]:
    """The answers that are none too, so many at a time as there is room for."""
    return [it for it, in all_of(lambda item: (job(item),), list(items), at_a_time())]
