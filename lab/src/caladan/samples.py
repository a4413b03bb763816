"""The responses of a task's requests that came within a window, from the rows of `caladan_view requests`: what the
ranks of `measure` do not say, and a verdict needs. A request that is not answered stands with its time so far, which
its response can only exceed."""
from __future__ import annotations

import math
from dataclasses import dataclass
from typing import Iterable, Sequence

from .figures import Figure, MaybeFigure

# Per mille of the requests at and below each rank, by the row that has it.
PER_MILLE = {"response least": 0, "response median": 500, "response 90 of 100": 900, "response 95 of 100": 950,
             "response 99 of 100": 990, "response 99.9 of 100": 999, "response greatest": 1000}
# The rank that no program tells, and of how many requests it should be.
P95, FEW_OF_P95 = "response 95 of 100", 20


@dataclass(frozen=True)
class Response:
    """A request: the clock at which it came, how long it took, or has waited so far, and whether it is pending."""

    came: int
    time: int
    is_pending: bool


def place_of(count: int, per_mille: int) -> int:
    """The place of a rank among so many times, from 1: the least that so many of 1,000 are not above."""
    return max(math.ceil(count * per_mille / 1000), 1)


@dataclass(frozen=True)
class Sample:
    """The responses of a task, in the order of the arrivals."""

    responses: tuple[Response, ...]

    @property
    def count(self) -> int:
        return len(self.responses)

    def at_least(self, label: str) -> int:
        """The least that the time at a rank can be: each pending request ranks with its time so far."""
        times = sorted(it.time for it in self.responses)
        return times[place_of(len(times), PER_MILLE[label]) - 1] if times else 0

    def over(self, ticks: int) -> int:
        """How many took longer than so many ticks for certain."""
        return sum(it.time > ticks for it in self.responses)

    def beyond(self, label: str) -> int:
        """How many lie beyond a rank."""
        return self.count - place_of(self.count, PER_MILLE[label])

    def figure(self, label: str) -> MaybeFigure:
        """The time at a rank, or the least that it can be where its request is pending; pending ones rank last."""
        if not self.responses:
            return None
        answered = sorted(it.time for it in self.responses if not it.is_pending)
        place, few = place_of(self.count, PER_MILLE[label]), str(self.count) if self.count < FEW_OF_P95 else ""
        is_bound = place > len(answered)
        return Figure(self.at_least(label) if is_bound else answered[place - 1], is_bound=is_bound, few=few)


def raised(figure: MaybeFigure, sample: Sample, label: str) -> MaybeFigure:
    """A figure of a rank; where its request is pending, with the least that the time there can be."""
    if figure is None or not figure.is_bound or label not in PER_MILLE:
        return figure
    return Figure(max(figure.number, sample.at_least(label)), is_bound=True, few=figure.few)


def samples_of(requests: bytes, tasks: Iterable[int], first: int, after: int) -> dict[int, Sample]:
    """The samples of tasks: of the requests that came from one clock on and before another."""
    found: dict[str, list[Response]] = {str(it): [] for it in tasks}
    for line in requests.decode().splitlines()[1:]:
        cells = line.split(",")
        own, came = found.get(cells[1]), int(cells[3])
        if own is not None and first <= came < after:
            is_pending = not cells[7]
            own.append(Response(came, int(cells[9]) if is_pending else int(cells[7]) - came, is_pending))
    return {int(task): Sample(tuple(own)) for task, own in found.items()}


# ---- growth ----

PARTS, LEAST_PARTS = 5, 3
SURE, MUCH = 4.0, 0.1


@dataclass(frozen=True)
class Course:
    """How the response went through a window: the means of its parts of as many turns, in their order, of those to
    which requests came; and how many of these lie in its first half."""

    means: tuple[float, ...]
    early: int

    @property
    def earlier(self) -> float:
        """The mean of the parts of the first half."""
        return sum(self.means[:self.early]) / self.early

    @property
    def later(self) -> float:
        """The mean of the parts of the second half."""
        return sum(self.means[self.early:]) / (len(self.means) - self.early)

    @property
    def noise(self) -> float:
        """The variance of how much more the second half has, where the response wanders: where each part goes on from
        the one before it by a step of its own. The steps differ about their mean, which is that of a steady growth.
        Where parts depend less on one another the variance is less than this."""
        steps = [after - before for before, after in zip(self.means, self.means[1:])]
        mean = sum(steps) / len(steps)
        spread = sum((it - mean) ** 2 for it in steps) / (len(steps) - 1)
        late = len(self.means) - self.early
        # A step counts in all parts that come after it.
        weights = [place / self.early if place <= self.early else (len(self.means) - place) / late
                   for place in range(1, len(self.means))]
        return spread * sum(it ** 2 for it in weights)


def course_of(sample: Sample, first: int, after: int) -> Course | None:
    """The course of a window from one clock to another; none where requests came to too few of its parts."""
    parts: list[list[int]] = [[] for _ in range(2 * PARTS)]
    for it in sample.responses:
        parts[(it.came - first) * 2 * PARTS // (after - first)].append(it.time)
    halves = [[sum(it) / len(it) for it in own if it] for own in (parts[:PARTS], parts[PARTS:])]
    if min(map(len, halves)) < LEAST_PARTS:
        return None
    return Course(tuple(it for own in halves for it in own), len(halves[0]))


def growth_of(courses: Sequence[Course]) -> tuple[float, float] | None:
    """The mean responses in the halves of the windows of some runs where they grow: the second is greater by more than
    a tenth, and by more than four times the error that it has where responses wander."""
    if not courses:
        return None
    earlier, later = (sum(it) / len(courses) for it in zip(*((it.earlier, it.later) for it in courses)))
    error = math.sqrt(sum(it.noise for it in courses)) / len(courses)
    more = later - earlier
    return (earlier, later) if more > MUCH * earlier and more > SURE * error else None
