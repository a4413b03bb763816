"""Requests that come by chance, drawn as the program draws them: for what it does not tell of them yet. These are loads
in cores of several tables, whose requests are drawn once for all of them, and to which turn the first request came that
is left out. The generator is xoshiro256++, seeded by SplitMix64, and one jump further for each task."""
from __future__ import annotations

from dataclasses import dataclass, field
from typing import Iterator, Optional, Sequence

WORD = 2 ** 64 - 1
# What a jump by 2^128 numbers adds up, in bits.
JUMP = 0x39ABDC4529B1661CA9582618E03FC9AAD5A61266F0C9392C180EC6D33CFD0ABA
WHOLE = 100_000
HALF = 2 ** 32


class Generator:
    """The numbers of a task."""

    def __init__(self, seed: int, task: int) -> None:
        state = []
        for _ in range(4):
            seed = (seed + 0x9E3779B97F4A7C15) & WORD
            mixed = (seed ^ seed >> 30) * 0xBF58476D1CE4E5B9 & WORD
            mixed = (mixed ^ mixed >> 27) * 0x94D049BB133111EB & WORD
            state.append(mixed ^ mixed >> 31)
        self.a, self.b, self.c, self.d = state
        for _ in range(task):
            self.jump()

    def next(self) -> int:
        """The next number of 64 bits."""
        a, b, c, d = self.a, self.b, self.c, self.d
        total = (a + d) & WORD
        number = ((total << 23 | total >> 41) + a) & WORD
        c, d = c ^ a, d ^ b
        self.a, self.b, self.c, self.d = a ^ d, b ^ c, c ^ (b << 17) & WORD, (d << 45 | d >> 19) & WORD
        return number

    def jump(self) -> None:
        """Goes on by 2^128 numbers."""
        total = [0, 0, 0, 0]
        for bit in range(256):
            if JUMP >> bit & 1:
                total = [one ^ other for one, other in zip(total, (self.a, self.b, self.c, self.d))]
            self.next()
        self.a, self.b, self.c, self.d = total

    def below(self, count: int) -> int:
        """A number below this: the high word of a product, with a carry from a second word where one may come."""
        high, low = divmod(self.next() * count, 2 ** 64)
        if low > 2 ** 64 - count:
            high += low + (self.next() * count >> 64) >= 2 ** 64
        return high

    def waited(self) -> int:
        """An exponential time of mean 2^32: each run of falls of even length is a whole more."""
        wholes = 0
        while True:
            first = last = self.next() >> 32
            length = 1
            while (number := self.next() >> 32) < last:
                last, length = number, length + 1
            if length % 2:
                return wholes * HALF + first
            wholes += 1


@dataclass(frozen=True)
class Drawn:
    """A request as it is drawn: the turn to which it comes, the turns that it takes, and the thread."""

    turn: int
    work: int
    thread: int


def drawn(seed: int, task: int, threads: int, cores: int, parts: Sequence[tuple[int, int]], burst: int,
          turns: int) -> Iterator[Drawn]:
    """The requests of a task in their order. The load is in thousandths of a core, a burst of 0 comes evenly."""
    chance = Generator(seed, task)
    at_once = max(burst, 1)
    mean, rate, time = sum(share * work for share, work in parts) * at_once, cores * 100, 0
    while True:
        time += (chance.waited() if burst else HALF) * mean // rate
        if time >> 32 >= turns:
            return
        for _ in range(at_once):
            yield Drawn(time >> 32, work_at(parts, chance.below(WHOLE)), chance.below(threads))


def work_at(parts: Sequence[tuple[int, int]], place: int) -> int:
    """The turns of the part in which a place among all requests falls."""
    end, work = 0, 1
    for share, turns in parts:
        if place >= end:
            work = turns
        end += share
    return work


@dataclass
class Dealt:
    """What came to the threads of a task: of each thread the turn before which a request comes, its work, and the turn
    to which it came; how many came, how many of these later; and how many are left out, with the turn to which the
    first of these came."""

    queues: list[list[tuple[int, int, int]]]
    came: int = 0
    later: int = 0
    left_out: int = 0
    left_from: Optional[int] = None
    free: list[int] = field(default_factory=list)

    def give(self, request: Drawn, turns: int) -> None:
        """Gives a request to its thread, modulo the threads that there are: before its turn or the next free one."""
        thread = request.thread % len(self.queues)
        turn = max(request.turn, self.free[thread])
        self.came += 1
        if turn >= turns:
            self.left_out += 1
            self.left_from = request.turn if self.left_from is None else self.left_from
            return
        self.later += turn > request.turn
        self.queues[thread].append((turn, request.work, request.turn))
        self.free[thread] = turn + 1


def dealt(requests: Sequence[Drawn], limit: int, turns: int) -> Dealt:
    """What comes to the threads of a task."""
    task = Dealt([[] for _ in range(limit)], free=[0] * limit)
    for request in requests:
        task.give(request, turns)
    return task


def arrivals_of(tasks: Sequence[tuple[Dealt, int, int]], turns: int, ticks: int) -> tuple[bytes, bytes]:
    """The arrivals of some tasks, in their order, each with its first thread and the misses of its requests; and when
    they came, as the program writes both."""
    rows = [f"pass,{ticks * it},0" for it in range(1, turns + 1)]
    rows += [f"turn,{ticks * it + ticks // 2}" for it in range(1, turns + 1)]
    came = ["id,turn"]
    for task, first, misses in tasks:
        for thread, turn, work, to in ((k, *it) for k, queue in enumerate(task.queues, first) for it in queue):
            rows.append(f"request,{thread},{turn},{len(came)},{work},{misses}")
            came.append(f"{len(came)},{to}")
    text = "\n".join(["caladan-arrivals,1", *rows, f"end,{len(rows)}", ""])
    return text.encode(), "\n".join([*came, ""]).encode()
