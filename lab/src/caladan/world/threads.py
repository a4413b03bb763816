"""Kernel threads: docs/MODEL.md, "Kernel threads"."""
from __future__ import annotations

from collections import deque
from dataclasses import dataclass
from typing import Optional, Sequence

from .records import MOST_MISSES, WHOLE, ZERO, Job, Record

PARK = -1


@dataclass(frozen=True)
class Shares:
    """The shares of a turn's work in one round of turns, in thousandths: beside a sibling at work, and of a thread at
    work what memory lets it do; and the cores on which threads were at work before the round."""

    beside: int
    of_memory: int
    at_work: frozenset[int]

    def of(self, was_at_work: bool, core: int) -> int:
        """The share of a thread on a core, by whether it was at work before the round."""
        beside = self.beside if core ^ 1 in self.at_work else WHOLE
        return beside * (self.of_memory if was_at_work else WHOLE) // WHOLE


WHOLE_TURNS = Shares(WHOLE, WHOLE, frozenset())


class KernelThread:
    """A kernel thread with its ring, its page's last record and that record's place, and its queue. A command on the
    ring is a core's number, for Run, or PARK. `others` are the threads of its task from the next one on, wrapping
    round. `saved` is the thousandths of a turn's work that are left over."""

    __slots__ = ("number", "ring", "queue", "others", "front", "current", "taken", "core", "misses", "begun", "record",
                 "place", "saved")

    def __init__(self, number: int) -> None:
        self.number = number
        self.ring: deque[int] = deque()
        self.queue: deque[Job] = deque()
        self.others: Sequence[KernelThread] = ()
        self.front: Optional[Job] = None
        self.current: Optional[Job] = None
        self.record = ZERO
        # `core` is the core's number and one, 0 off a core.
        self.taken = self.core = self.misses = self.begun = self.place = self.saved = 0

    def take(self, now: int) -> None:
        """Takes at most one command. A Run puts it on its core, and a suspended request goes on now; a Park takes it
        off."""
        if not self.ring:
            return
        command = self.ring.popleft()
        self.taken += 1
        self.core = command + 1
        if command != PARK:
            self.begun = now

    def find(self) -> Optional[Job]:
        """The request to begin: its front, the first of its own queue, or the first of another's of its task."""
        if self.front is not None:
            found, self.front = self.front, None
            return found
        if self.queue:
            return self.queue.popleft()
        return next((it.queue.popleft() for it in self.others if it.queue), None)

    def work(self, now: int) -> Optional[Job]:
        """A whole turn's work on a core: the request that is served in it, if one is. Without a request the thread
        gives up its core."""
        job = self.current
        if job is None:
            job, self.begun = self.find(), now
            if job is None:
                self.core = 0
                return None
            self.current, job.begun = job, now
        job.left -= 1
        self.misses = min(self.misses + job.misses, MOST_MISSES)
        if job.left:
            return None
        self.current = None
        return job

    def share_work(self, now: int, share: int) -> Optional[Job]:
        """The same of a share of a turn, in thousandths: the work of a whole turn is done once that is there."""
        total = self.saved + share
        if total < WHOLE:
            self.saved = total
            return None
        served = self.work(now)
        self.saved = total - WHOLE if self.current is not None else 0
        return served

    def turn(self, now: int, lasts: int, came: Optional[Job], shares: Shares) -> None:
        """A turn at a clock, which lasts so many ticks, with the request that comes before it, in a round with these
        shares."""
        if came is not None:
            self.queue.append(came)
        self.take(now)
        served = None
        if self.core:
            share = WHOLE if shares is WHOLE_TURNS else shares.of(self.is_at_work, self.core - 1)
            served = self.share_work(now, share)
            job = served or self.current
            if job is not None and self.core:
                job.worked += lasts
        if served is not None:
            served.by_thread, served.answered = self.number, now + lasts
        if self.front is None and self.queue:
            self.front = self.queue.popleft()
        self.publish(now)

    def publish(self, now: int) -> None:
        """Publishes its record at a clock."""
        front, current, core = self.front, self.current, self.core
        queued, oldest = (1, front.came) if front is not None else (0, 0)
        started = self.begun if core and current is not None else 0
        paused, since = (1, current.came) if current is not None and not core else (0, 0)
        self.record = Record(self.taken, core, queued, oldest, started, self.misses, now, paused, since)
        self.place += 1

    @property
    def is_at_work(self) -> bool:
        """Its last record has a core and a begun request."""
        return bool(self.record.running and self.record.started)

    @property
    def brings(self) -> int:
        """The misses that it would bring in a turn of its work, by its last record."""
        return self.current.misses if self.is_at_work and self.current is not None else 0


def team_of(limits: Sequence[int]) -> list[KernelThread]:
    """The kernel threads of tasks with these limits, in task order."""
    threads: list[KernelThread] = []
    for limit in limits:
        own = [KernelThread(len(threads) + n) for n in range(limit)]
        for n, it in enumerate(own):
            it.others = own[n + 1:] + own[:n]
        threads += own
    return threads
