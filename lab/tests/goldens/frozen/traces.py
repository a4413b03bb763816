"""Arrivals, files of comings and histories by chance."""
import dataclasses

from .chance import Chance
from .tables import Table


@dataclasses.dataclass(frozen=True)
class Request:
    """A request of arrivals."""

    thread: int
    turn: int
    id: int
    work: int
    misses: int


@dataclasses.dataclass(frozen=True)
class Arrivals:
    """Arrivals: the clocks and figures of passes, the clocks of turns, and requests."""

    passes: "list[tuple[int, int]]"
    turns: "list[int]"
    requests: "list[Request]"

    def text(self) -> str:
        rows = [f"pass,{now},{figure}" for now, figure in self.passes] + [f"turn,{now}" for now in self.turns]
        rows += [f"request,{it.thread},{it.turn},{it.id},{it.work},{it.misses}" for it in self.requests]
        return "\n".join(["caladan-arrivals,1", *rows, f"end,{len(rows)}", ""])


def drawn_clocks(chance: Chance, turns: int, passes: int) -> "tuple[list[int], list[int]]":
    """The clocks of passes and of turns: as far apart as can be, or else, and then turns may share one."""
    ticks = chance.pick([1, 2, 10, 10, 10, 16, 1000])
    if chance.is_so(60):
        return [ticks * (p + 1) for p in range(passes)], [ticks * (j + 1) + ticks // 2 for j in range(turns)]
    of_passes, of_turns = [chance.within(0, ticks)], [chance.within(1, 2 * ticks)]
    share = chance.pick([0, 20, 60])
    for _ in range(passes - 1):
        of_passes.append(of_passes[-1] + chance.within(0, 2 * ticks))
    for _ in range(turns - 1):
        of_turns.append(of_turns[-1] + (0 if chance.is_so(share) else chance.within(1, 2 * ticks)))
    return of_passes[:passes], of_turns[:turns]


def drawn_work(chance: Chance) -> int:
    return chance.pick([1, 1, 1, 2, 3, 5, 10]) if chance.is_so(95) else chance.pick([40, 1000000])


def drawn_requests(chance: Chance, threads: int, turns: int, has_misses: bool) -> "list[Request]":
    """Requests to so many threads: few, or more than they can serve."""
    often = chance.pick([2, 5, 10, 20, 40])
    requests: "list[Request]" = []
    first = chance.pick([1, 1, 1, 0, 1000, 2**64 - 1 - threads * turns])
    for thread in range(threads):
        for turn in range(turns):
            if chance.is_so(often):
                misses = chance.pick([0, 1, 20, 90, 4294967295 if chance.is_so(5) else 7]) if has_misses else 0
                requests.append(Request(thread, turn, first + len(requests), drawn_work(chance), misses))
    if chance.is_so(30):
        ids = chance.some([it.id for it in requests], len(requests))
        requests = [dataclasses.replace(it, id=other) for it, other in zip(requests, ids)]
    return requests


def drawn_arrivals(chance: Chance, table: Table, is_planned: bool, most_turns: int) -> Arrivals:
    """Arrivals for a table. Those of a run by a plan have as many passes as turns and, all but a few, misses."""
    turns = chance.within(4, most_turns)
    passes = turns if is_planned or chance.is_so(60) else chance.within(0, most_turns)
    of_passes, of_turns = drawn_clocks(chance, turns, passes)
    figures = chance.pick([[0], [0, 0, 50, 500, 2000], [0, 1000000, 2**64 - 1]])
    requests = drawn_requests(chance, len(table.owners()), turns, is_planned or chance.is_so(20))
    if is_planned and not any(it.misses for it in requests):
        requests = [Request(0, 0, 5, 3, 60), *(it for it in requests if (it.thread, it.turn) != (0, 0) and it.id != 5)]
    return Arrivals([(now, chance.pick(figures)) for now in of_passes], of_turns, requests)


def drawn_comings(chance: Chance, table: Table, arrivals: Arrivals) -> str:
    """When the requests of arrivals came, not after their turns, and how many are left out."""
    rows = []
    for it in arrivals.requests:
        earlier = chance.pick([0, 0, 1, 1, 2, 9])
        rows.append(f"{it.id},{max(0, it.turn - earlier)}")
    for task in range(len(table.tasks)):
        if chance.is_so(30):
            rows.append(f"left out,{task},{chance.pick([1, 3, 1000])}")
    return "\n".join(["id,turn", *rows, ""])


def drawn_actions(chance: Chance, table: Table) -> "list[str]":
    """Actions of a pass, of any kind."""
    cores, threads, tasks = table.cores, len(table.owners()), len(table.tasks)
    rows = []
    for _ in range(chance.pick([0, 0, 1, 2, 3, 6])):
        core, thread, task = chance.below(cores), chance.below(threads), chance.below(tasks)
        rows.append(chance.pick([
            f"free,{core}", f"unban,{core}", f"ban,{core},{thread},{chance.below(900)}",
            f"revoke,{core},ban,{chance.below(cores)}", f"revoke,{core},bandwidth", f"revoke,{core},preempt,{task}",
            f"cap,{task},{chance.below(17)}", *[f"grant,{core},{thread},{chance.within(1, 5)}"] * 4]))
    return rows


def drawn_look(chance: Chance, thread: int, now: int, number: int, version: int) -> str:
    """The look at a thread, which shows its record at this place."""
    if chance.is_so(8):
        first = 2 * chance.below(50)
        return f"busy,{thread},{chance.below(2)},{first},{first + 2}" if chance.is_so(50) \
            else f"busy,{thread},1,{first + 1},{first + 1}"
    word = chance.pick(["whole"] * 9 + ["ahead", "foreign"]) if version == 2 else "whole"
    record = [chance.below(number + 1), chance.below(5), chance.below(4), max(0, now - chance.below(90)),
              max(0, now - chance.below(60)), 10 * number, max(0, now - chance.below(12))]
    record += [chance.below(3), max(0, now - 5)] if version == 2 else []
    return ",".join(map(str, [word, thread, int(chance.is_so(95)), number, *record]))


def drawn_history(chance: Chance, table: Table, most_passes: int = 30) -> str:
    """A history that no policy made."""
    version = chance.pick([2, 2, 2, 1])
    rows, now = [f"caladan-history,{version}"], chance.below(200)
    passes = chance.within(0, most_passes)
    for number in range(passes):
        rows.append(f"pass,{now},{chance.pick([0, 0, 100, 3000])}")
        rows += [drawn_look(chance, thread, now, number, version) for thread in range(len(table.owners()))]
        rows += drawn_actions(chance, table)
        now += chance.within(0, 25)
    return "\n".join([*rows, f"end,{passes}", ""])
