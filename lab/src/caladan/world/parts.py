"""The parts of a pass that both policies have, and the choices that they share: docs/POLICY.md, "A pass"."""
from __future__ import annotations

from typing import Callable, Optional

from .actions import Ban, Cap, ForBan, ForBandwidth, Free, Revoke, Unban
from .board import Board

# The classes of a core that a task holds, by its kind.
BEST_EFFORT, LATENCY_CRITICAL = 4, 5


def frees(board: Board) -> None:
    """Each core that its thread left becomes free."""
    for core in range(board.table.cores):
        if board.was_left(core):
            board.do(Free(core))


def is_still_shown(board: Board, core: int) -> bool:
    """The thread for which a banned core is banned is still on its sibling, at the request begun then."""
    ban = board.bans[core]
    if ban is None:
        return False
    record = board.kept[ban[0]]
    return record.running == (core ^ 1) + 1 and record.started == ban[1]


def unbans(board: Board, is_wanted: Callable[[], bool] = lambda: False) -> None:
    """Each banned core is unbanned whose ban is no longer shown, or while the policy wants it open all the same."""
    for core in range(board.table.cores):
        if board.is_banned(core) and (not is_still_shown(board, core) or is_wanted()):
            board.do(Unban(core))


def runs_too_long(board: Board, core: int) -> bool:
    """A latency-critical task's thread holds the core, and shows a request there begun longer ago than the task's
    `request`."""
    task = board.holding_task(core)
    if task is None or not board.is_critical[task]:
        return False
    record = board.kept[board.holder_at(core)]
    is_shown = record.running == core + 1 and record.started != 0 and board.now > record.started
    return is_shown and board.now - record.started > board.table.tasks[task].request


def may_be_emptied(board: Board, core: int, may_shut: Callable[[], bool]) -> bool:
    """The core is free, and the policy lets it be shut; or it is being left; or its thread may be told to leave: the
    ring has room and the task is over."""
    if board.is_free(core):
        return may_shut()
    task = board.holding_task(core)
    return task is None or (board.rooms[board.holder_at(core)] and board.is_over(task))


def bans(board: Board, may_shut: Callable[[], bool] = lambda: True) -> None:
    """The sibling of each core with a long request is banned, and revoked if it is held."""
    for core in range(board.table.cores):
        beside = core ^ 1
        if board.is_banned(core) or board.is_banned(beside) or not runs_too_long(board, core):
            continue
        if may_be_emptied(board, beside, may_shut):
            thread = board.holder_at(core)
            board.do(Ban(beside, thread, board.kept[thread].started))
            if board.is_held(beside):
                board.do(Revoke(beside, ForBan(core)))


def cores_to_lose(board: Board, task: int) -> list[int]:
    """The cores that a task holds whose threads' rings have room."""
    return [c for c in range(board.table.cores)
            if board.holding_task(c) == task and board.rooms[board.holder_at(c)]]


def misses_since(board: Board, task: int) -> int:
    """The cache misses of a task's threads since the pass before."""
    return sum(board.kept[k].misses - board.kept_before[k].misses for k in board.threads_of[task])


def bandwidth(board: Board) -> None:
    """Above the limit the best-effort task with the most misses loses a core; else one cap rises."""
    best_effort = [t for t in board.tasks if not board.is_critical[t]]
    if board.figure > board.table.bandwidth_limit:
        loses = {t: cores for t in best_effort if (cores := cores_to_lose(board, t))}
        if loses:
            victim = max(loses, key=lambda t: (misses_since(board, t), -t))
            board.do(Cap(victim, board.held[victim] - 1))
            board.do(Revoke(max(loses[victim]), ForBandwidth()))
        return
    capped = next((t for t in best_effort if board.caps[t] < board.table.tasks[t].limit), None)
    if capped is not None:
        board.do(Cap(capped, board.caps[capped] + 1))


def chosen_thread(board: Board, task: int) -> Optional[int]:
    """Of the task's threads on no core with room in their rings the one with the greatest delay, the first among
    equals."""
    grantable = [k for k in board.threads_of[task] if board.is_grantable(k)]
    return max(grantable, key=lambda k: (board.delays[k], -k)) if grantable else None


def open_class(board: Board, task: int, core: int) -> int:
    """The class, 1 to 3, of an open core for a task."""
    last = board.last[core]
    if board.holding_task(core ^ 1) == task:
        return 1
    return 2 if last is not None and board.owner[last] == task else 3


def held_class(board: Board, task: int, core: int) -> Optional[int]:
    """The class, 4 or 5, of a held core for a latency-critical task; none where it may not be taken for it."""
    other = board.holding_task(core)
    if other is None or core in board.granted_now or not board.rooms[board.holder_at(core)]:
        return None
    if not board.is_critical[other]:
        return BEST_EFFORT
    is_owing = board.booked[task] < board.table.tasks[task].guaranteed
    return LATENCY_CRITICAL if is_owing and other != task and board.is_over(other) else None


def core_to_preempt(board: Board, task: int, most: int = LATENCY_CRITICAL) -> Optional[int]:
    """The core that is taken for a latency-critical task from one that holds it: the least by class, up to this one,
    then number."""
    classes = {c: found for c in range(board.table.cores) if (found := held_class(board, task, c)) is not None}
    least = min(classes, key=lambda c: (classes[c], c)) if classes else None
    return least if least is not None and classes[least] <= most else None
