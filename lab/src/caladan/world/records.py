"""What kernel threads show of themselves, and what comes to them."""
from __future__ import annotations

from dataclasses import dataclass, field
from typing import NamedTuple, Optional

# A ring's places, the misses that a record counts at most, and the thousandths of a whole turn's work.
RING_PLACES, MOST_MISSES, WHOLE = 4, 1 << 56, 1000


class Record(NamedTuple):
    """What a kernel thread publishes: commands taken; the core's number and one, 0 off a core; 0 without a queued
    request, and when the oldest of these came; when the current request was begun or resumed, or 0; cache misses; the
    clock; 0 without a suspended request, and when that came. Times are clock ticks."""

    taken: int
    running: int
    queued: int
    oldest: int
    started: int
    misses: int
    stamp: int
    paused: int
    since: int

    def delay(self, now: int) -> int:
        """The longer of the two waits that it shows at a clock, in ticks: of its queued and of its suspended
        request."""
        queued = now - self.oldest if self.queued and now > self.oldest else 0
        paused = now - self.since if self.paused and now > self.since else 0
        return max(queued, paused)


ZERO = Record(0, 0, 0, 0, 0, 0, 0, 0, 0)


@dataclass
class Job:
    """A request of a run: its id, the thread and the clock at which it came, its turns of work and those that are left,
    the misses of each; by which thread it was served, when it was begun and answered, and for how many ticks it was
    worked at."""

    id: int
    thread: int
    came: int
    work: int
    misses: int
    left: int = field(init=False)
    by_thread: Optional[int] = None
    begun: Optional[int] = None
    answered: Optional[int] = None
    worked: int = 0

    def __post_init__(self) -> None:
        self.left = self.work
