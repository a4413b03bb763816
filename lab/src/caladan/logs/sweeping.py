"""A log in the place of loads: the log itself and draws from it, at several times its load."""
from __future__ import annotations

import threading
from dataclasses import dataclass, replace
from fractions import Fraction
from typing import Optional

from ..figures import thousandths
from ..numbers import task_named
from ..programs import Viewer
from ..refusal import Refusal
from ..stamps import stamped, tick_in
from ..sweeps.loads import A_SECOND, RATE, Loads, TaskLoad, loads_of, rising
from ..sweeps.making import Count, Made
from ..tables import Machine, names_in, table_part
from ..words.parsing import Asked
from .arriving import Arrived, by_lab, by_program
from .asked import OF_LOADS, known, log_of, terms_of
from .dealing import OWN_SEED, Terms, tasks_of, turn_in, turns_of, work_of
from .draws import block_of, drawn, scaled
from .log import Log
from .units import nanoseconds, unit_of

SCALE, MOST_SCALE = "--scale", 1_000_000
A_SCALE = "a scale is a number above 0 and at most 1000, with up to three digits after the point"
MOST_TASKS = 16
ALL_AT_ONCE = "all requests of {} come at once: it has no rate"


@dataclass(frozen=True)
class LogLoads(Loads):
    """What comes of a log: the log, the words that say how it is read, whether its loads are requests a second, the
    requests of a block, where that is said, and, once the table is known, how it becomes arrivals."""

    log: Optional[Log] = None
    asked: Optional[Asked] = None
    is_rate: bool = False
    block: Optional[int] = None
    terms: Optional[Terms] = None

    @property
    def its_log(self) -> Log:
        assert self.log is not None
        return self.log

    @property
    def its_terms(self) -> Terms:
        assert self.terms is not None
        return self.terms

    @property
    def shown(self) -> list[int]:
        return [it.task for it in self.tasks if it.service != ENDLESS]

    def unit(self, tick: str) -> str:
        assert self.asked is not None
        return unit_of(terms_of(self.asked, self.its_log, Fraction(nanoseconds(tick)) if tick else None).tick)

    def settled(self, given: bytes, ticks: int, tick: str) -> tuple[Loads, int, str]:
        assert self.asked is not None
        terms = terms_of(self.asked, self.its_log, tick_in(given), names_in(table_part(given)))
        stamped(given, terms.tick)
        return replace(self, terms=terms), terms.ticks, unit_of(terms.tick)

    def said(self, load: int) -> str:
        return f"{thousandths(load)} requests a second" if self.is_rate else f"load {thousandths(load)}"

    def heading(self, name: Optional[str]) -> str:
        return f"load of the log {A_SECOND}" if self.is_rate else "load of the log"

    def filled(self, load: int, machine: Machine) -> tuple[int, ...]:
        """The tasks of the log whose work is as much as their threads can do from its first request to its last."""
        log, terms = self.its_log, self.its_terms
        if not log.lasts:
            return ()
        turn, work = turn_in(terms, log.unit), dict[int, int]()
        for task, service in zip(tasks_of(log, terms, len(machine.tasks)), log.rows.services):
            work[task] = work.get(task, 0) + work_of(service, turn)
        turns = log.lasts / turn / self.scale(load)
        return tuple(it for it in sorted(work) if work[it] >= turns * machine.limits[it])

    def scale(self, load: int) -> Fraction:
        """How many times the load of the log a load is."""
        rate = self.its_log.rate
        return Fraction(load, 1000) / (rate if self.is_rate and rate else 1)


# What a task with work without end has in the place of a service.
ENDLESS = "endless"


def points_of(asked: Asked, log: Log) -> tuple[tuple[int, ...], str, bool]:
    """The loads that words ask for, in thousandths, their word, and whether they are requests a second."""
    scale, rate = asked.one("scale"), asked.one("rate")
    if scale is not None and rate is not None:
        raise Refusal(f"{RATE} {rate}: {SCALE} is given too, and one of the two is asked for")
    if rate is None:
        word = "1" if scale is None else scale
        return rising(SCALE, word, MOST_SCALE, A_SCALE), word, False
    if log.rate is None:
        raise Refusal(f"{RATE} {rate}: {ALL_AT_ONCE.format(log.name)}")
    return loads_of(RATE, rate), rate, True


def refuse_loads(asked: Asked) -> None:
    """Refuses words that have no place with a log, and those that are lacking."""
    for it in OF_LOADS:
        if asked.has(it):
            raise Refusal(f"--{it} {asked.all(it)[0]}: --log is given too, and a log has its own requests and turns")
    for it in ("unit", "turn"):
        if not asked.has(it):
            raise Refusal(f"--log {asked.one('log')}: --{it} is asked for too, as `caladan_lab log` has it")
    for it in ("task", "misses", "rate"):
        if len(asked.found.get(it, [])) > 1:
            raise Refusal(f"--{it} {asked.all(it)[-1]}: with --log it is given once")


def log_loads(asked: Asked, names: tuple[str, ...], log: Optional[Log] = None) -> LogLoads:
    """What comes of the log that words name, or of one that is read."""
    refuse_loads(asked)
    log = log or log_of(asked)
    points, word, is_rate = points_of(asked, log)
    block = asked.one("block")
    if block is not None:
        block_of(log, int(block))
    word_of = asked.found["task"][0] if asked.has("task") else None
    tasks = tasks_in(log, Terms("", Fraction(1), 1, task=word_of, names=names), asked)
    with_loads = tuple(replace(it, loads=points) for it in tasks)
    return LogLoads(with_loads, 0, word, False, (), (), log, asked, is_rate, None if block is None else int(block))


def tasks_in(log: Log, terms: Terms, asked: Asked) -> list[TaskLoad]:
    """The tasks of a log, and after them those with work without end. One that the table has not is refused later."""
    own = sorted({*tasks_of(log, terms, MOST_TASKS)})
    misses = "1" if log.rows.misses is not None and any(log.rows.misses) else "0"
    batch = (task_named(terms.names, it) for it in asked.all("batch"))
    endless = dict.fromkeys(it for it in batch if it is not None and it not in own)
    return [*(TaskLoad(it, (), "", "", misses) for it in own),
            *(TaskLoad(it, (), ENDLESS, "", (asked.all("misses") or ["0"])[0]) for it in endless)]


class LogMaker:
    """What makes the arrivals of a log for tables that are swept: of its own seed those that the program makes, of each
    other those of a draw, dealt as the program deals by that seed."""

    def __init__(self, view: Viewer, loads: LogLoads) -> None:
        self.view, self.loads, self.lock = view, loads, threading.Lock()
        self.draws: dict[int, Log] = {}

    def drawn(self, seed: int) -> Log:
        """The log itself, or a draw from it, which is made once."""
        if seed == OWN_SEED:
            return self.loads.its_log
        with self.lock:
            if seed not in self.draws:
                self.draws[seed] = drawn(self.loads.its_log, seed, self.loads.block)
            return self.draws[seed]

    def made(self, machine: Machine, load: int, seed: int) -> Made:
        scale, terms = self.loads.scale(load), self.loads.its_terms
        log = scaled(self.drawn(seed), scale)
        known(log, terms, machine)
        try:
            found = self.arrived(log, terms, machine, scale, seed)
        except Refusal as refusal:
            raise Refusal(f"{self.loads.said(load)}: {refusal.line}", refusal.status, refusal.below) from None
        counts = {it.task: Count(0, 0, 0) for it in self.loads.tasks} | found.counts
        return Made(found.arrivals, found.came, counts, found.left_from, found.turns, found.have_misses)

    def arrived(self, log: Log, terms: Terms, machine: Machine, scale: Fraction, seed: int) -> Arrived:
        """The arrivals of a draw. All draws at a load have as many turns as the log itself."""
        if seed == OWN_SEED:
            return by_program(self.view, log, terms, machine.text(), machine)
        return by_lab(log, terms, machine, seed, turns_of(scaled(self.loads.its_log, scale), terms))
