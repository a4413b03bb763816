"""The arrivals of a log: the program deals its requests. Work without end of batch jobs, and the misses of requests, of
which a log of the program has none, are put in here."""
from __future__ import annotations

import re
from dataclasses import dataclass, field, replace
from typing import Optional, Sequence

from ..programs import Came, Ran, Text, Viewer, Word, refused
from ..refusal import Refusal
from ..sweeps.making import Count
from ..tables import Machine
from .dealing import LATE, LONG, MOST_WORK, OWN_SEED, Deal, Slot, Terms, batch_of, dealt, tasks_of
from .log import Log

SUMMARY = re.compile(r"^task (\d+) came (\d+) later (\d+) left out (\d+) load (\S+)$", re.M)
OF_LOG = re.compile(r"^/dev/fd/\d+: row (\d+): (.*)$", re.S)
MOST_MISSES = 2 ** 32 - 1
# What is said of some refusals of the program.
HINTS = {"`time` is after": LATE, "`service` is more": LONG}


@dataclass(frozen=True)
class Arrived:
    """The arrivals of a log, when their requests came, what came to each task, the turns of the run, what the program
    says of them, and from which turn on requests are left out, where that is known; whether requests have misses, and
    which tasks have work without end."""

    arrivals: bytes
    came: bytes
    counts: dict[int, Count]
    turns: int
    summary: str = ""
    left_from: dict[int, int] = field(default_factory=dict)
    have_misses: bool = False
    endless: tuple[int, ...] = ()

    @property
    def lost(self) -> tuple[int, int]:
        """How many requests are left out, and of how many."""
        return sum(it.left_out for it in self.counts.values()), sum(it.came for it in self.counts.values())


class Requests:
    """The request rows of arrivals: by their ids, with the turns to which they came."""

    def __init__(self, arrivals: bytes, came: bytes) -> None:
        at = arrivals.find(b"\nrequest,")
        end = arrivals.rindex(b"\nend,")
        self.head = arrivals[:at if at >= 0 else end].decode().split("\n")
        lines = arrivals[at + 1:end].decode().split("\n") if at >= 0 else []
        self.rows = [[*map(int, it.split(",")[1:])] for it in lines]
        told = came.decode().splitlines()
        self.left_out = [it for it in told if it.startswith("left out,")]
        self.came = {int(id): int(turn) for id, turn in (it.split(",") for it in told[1:len(self.rows) + 1])}

    def add(self, threads: Sequence[int], misses: int) -> None:
        """Adds a request without end for each of these threads, with ids after all others."""
        last = max(self.came, default=0)
        for number, thread in enumerate(threads, last + 1):
            self.rows.append([thread, 0, number, MOST_WORK, misses])
            self.came[number] = 0

    def written(self) -> tuple[bytes, bytes]:
        """The arrivals, and when their requests came."""
        self.rows.sort()
        rows = [*self.head, *("request," + ",".join(map(str, it)) for it in self.rows)]
        came = ["id,turn", *(f"{row[2]},{self.came[row[2]]}" for row in self.rows), *self.left_out]
        return "\n".join([*rows, f"end,{len(rows) - 1}", ""]).encode(), "\n".join([*came, ""]).encode()


def words_of(log: Log, terms: Terms) -> list[Word]:
    """The words by which the program makes the arrivals of a log."""
    words: list[Word] = ["arrivals", "--log", Text(log.text), "--unit", log.unit, "--turn", terms.turn, "--ticks",
                         str(terms.ticks)]
    words += [] if terms.turns is None else ["--turns", str(terms.turns)]
    words += ["--names", ",".join(terms.names)] if terms.names else []
    return words + (["--task", terms.task] if terms.task is not None else [])


def told(view: Viewer, log: Log, words: Sequence[Word], table: bytes) -> Ran:
    """What the program says of a log; where it refuses a row, that of the file is named."""
    ran = view.ask(words, table)
    if not ran.status:
        return ran
    refusal = refused(ran)
    found = OF_LOG.match(refusal.line)
    if not found:
        raise refusal
    number = int(found[1])
    row = log.rows.numbers[number - 2] if number > 1 else number
    below = next((hint for front, hint in HINTS.items() if found[2].startswith(front)), "")
    raise Refusal(f"{log.name}: row {row}: {found[2]}", refusal.status, below)


def by_program(view: Viewer, log: Log, terms: Terms, table: bytes, machine: Machine) -> Arrived:
    """The arrivals that the program makes of a log, with those of batch jobs and with misses."""
    of_log = tasks_of(log, terms, len(machine.tasks))
    batch = batch_of(terms, machine, of_log, log)
    words = words_of(log, terms)
    ran = told(view, log, [*words, "--came", Came()], table)
    summary = told(view, log, [*words, "--summary"], table).out.decode()
    counts = {int(it[1]): Count(int(it[2]), int(it[3]), int(it[4])) for it in SUMMARY.finditer(summary)}
    turns = int(summary.split()[3])
    found = Arrived(ran.out, ran.came, counts, turns, summary)
    needs_deal = log.rows.misses is not None or any(it.left_out for it in counts.values())
    deal = dealt(log, terms, machine, OWN_SEED, turns) if needs_deal else None
    return with_more(found, log, terms, machine, deal, batch)


def by_lab(log: Log, terms: Terms, machine: Machine, seed: int, turns: int) -> Arrived:
    """The arrivals that the program would make of a log by another seed."""
    deal = dealt(log, terms, machine, seed, turns)
    rows = [f"pass,{terms.ticks * it},0" for it in range(1, turns + 1)]
    rows += [f"turn,{terms.ticks * it + terms.ticks // 2}" for it in range(1, turns + 1)]
    rows += [f"request,{it.thread},{it.turn},{number},{it.work},0" for number, it in enumerate(deal.slots, 1)]
    came = ["id,turn", *(f"{number},{it.came_to}" for number, it in enumerate(deal.slots, 1))]
    came += [f"left out,{task},{len(left)}" for task, left in deal.left.items() if left]
    counts = {task: Count(many, deal.later[task], len(deal.left[task])) for task, many in deal.came.items()}
    found = Arrived("\n".join(["caladan-arrivals,1", *rows, f"end,{len(rows)}", ""]).encode(),
                    "\n".join([*came, ""]).encode(), counts, turns)
    return with_more(found, log, terms, machine, deal, batch_of(terms, machine, list(deal.came), log))


def misses_at(log: Log, slot: Slot) -> int:
    """The misses that each turn of a request adds: its own by its turns, to the nearest."""
    misses = log.rows.misses[slot.place] if log.rows.misses is not None else 0
    return min((2 * misses + slot.work) // (2 * slot.work), MOST_MISSES)


def with_more(found: Arrived, log: Log, terms: Terms, machine: Machine, deal: Optional[Deal],
              batch: Sequence[int]) -> Arrived:
    """Arrivals with the misses of their requests and with those of batch jobs."""
    left_from = {task: min(left) for task, left in deal.left.items() if left} if deal else {}
    found = replace(found, left_from=left_from)
    if log.rows.misses is None and not batch:
        return found
    requests = Requests(found.arrivals, found.came)
    if deal is not None and log.rows.misses is not None:
        put_misses(requests, log, deal)
    for task in batch:
        first = sum(machine.limits[:task])
        requests.add(range(first, first + machine.limits[task]), terms.misses)
    arrivals, came = requests.written()
    counts = {**found.counts, **{task: Count(machine.limits[task], 0, 0) for task in batch}}
    return replace(found, arrivals=arrivals, came=came, counts=dict(sorted(counts.items())),
                   have_misses=any(row[4] for row in requests.rows), endless=tuple(batch))


def put_misses(requests: Requests, log: Log, deal: Deal) -> None:
    """Puts in the misses of each request. That a request stands where the deal has it is seen to."""
    for row, slot in zip(requests.rows, deal.slots, strict=True):
        if (row[0], row[1], row[3]) != (slot.thread, slot.turn, slot.work):
            raise Refusal(f"{log.name}: the program deals request {row[2]} otherwise than this package; no misses can "
                          "be put in", 3)
        row[4] = misses_at(log, slot)
