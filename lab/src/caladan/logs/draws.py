"""Other logs that could have come: draws from a log, in blocks of its own gaps and services, and logs at another load.

A draw begins with a block of requests that follow one another in the log, from a random one on, then has another, and
so on until it has lasted as long as the log; a block that reaches the log's end goes on at its beginning. Each request
keeps its gap, the time since the one before it, its service, its task and its misses, so that bursts within a block
stay. The first request of the log, before which there is none, has the mean gap. Each request of the log is equally
likely at each place, so the load is the log's in the mean."""
from __future__ import annotations

import math
from dataclasses import replace
from fractions import Fraction
from typing import Iterator, Optional, Sequence

from ..drawing import Generator
from ..refusal import Refusal
from .log import Log
from .reading import MOST_REQUESTS

# Blocks are drawn by a generator that no task has.
NO_TASK = 16


def gaps_of(times: Sequence[int]) -> list[int]:
    """The time from the request before to each; of the first the mean."""
    mean = times[-1] // (len(times) - 1) if len(times) > 1 else 0
    return [mean, *(after - before for before, after in zip(times, times[1:]))]


def block_of(log: Log, block: Optional[int]) -> int:
    """How many requests a block has: the root of how many there are, where nothing is said."""
    if block is None:
        return max(1, math.isqrt(len(log)))
    if not 1 <= block <= len(log):
        raise Refusal(f"--block {block}: a block has 1 to {len(log)} requests, as many as {log.name} has")
    return block


def blocks(seed: int, count: int, block: int) -> Iterator[int]:
    """Places in a log, block after block, without end."""
    chance = Generator(seed, NO_TASK)
    while True:
        first = chance.below(count)
        yield from (it % count for it in range(first, first + block))


def drawn(log: Log, seed: int, block: Optional[int] = None) -> Log:
    """A draw from a log, by a seed. The same log, seed and block give the same."""
    length, gaps = block_of(log, block), gaps_of(log.rows.times)
    places: list[int] = []
    times: list[int] = []
    now = 0
    most = MOST_REQUESTS if log.lasts else len(log)
    for place in blocks(seed, len(log), length):
        now += gaps[place] if places else 0
        if now > log.lasts or len(places) == most:
            break
        places.append(place)
        times.append(now)
    done = f"draw {seed} from it, in blocks of {length} requests"
    return replace(log, rows=log.rows.at(places, times), done=(*log.done, done))


def scaled(log: Log, scale: Fraction) -> Log:
    """A log at so many times its load: each request comes so much sooner after the first, and takes as long."""
    if scale <= 0:
        raise Refusal(f"a log at {scale} times its load: the scale is above 0")
    if scale == 1:
        return log
    times = [round_half(it * scale.denominator, scale.numerator) for it in log.rows.times]
    rows = replace(log.rows, times=times)
    return replace(log, rows=rows, done=(*log.done, f"{float(scale):.6g} times its load"))


def round_half(number: int, by: int) -> int:
    """A part of a number, to the nearest, halves upwards."""
    return (2 * number + by) // (2 * by)
