"""The policy `assured`: docs/POLICY.md, "The two policies" and "A pass". Each word of it is a function of its own, as
the page has it."""
from __future__ import annotations

from typing import Optional

from .actions import Action, ForTask, Grant, Revoke
from .board import Board
from .parts import BEST_EFFORT, LATENCY_CRITICAL, bandwidth, bans, chosen_thread, core_to_preempt, frees, open_class, \
    unbans


def is_late(board: Board, thread: int) -> bool:
    """Its delay is strictly above its task's `delay`."""
    return board.delays[thread] > board.table.tasks[board.owner[thread]].delay


def is_in_flight(board: Board, thread: int) -> bool:
    """It holds a core by a Run that its kept record has not taken."""
    core = board.core_of[thread]
    return core is not None and board.is_held(core) and board.kept[thread].taken < board.run[core]


def pressing(board: Board, task: int) -> int:
    """How many threads of the task are late and not in flight."""
    return sum(is_late(board, k) and not is_in_flight(board, k) for k in board.threads_of[task])


def helpers(board: Board, task: int) -> int:
    """How many are in flight and not late."""
    return sum(is_in_flight(board, k) and not is_late(board, k) for k in board.threads_of[task])


def is_short(board: Board, task: int) -> bool:
    """A latency-critical task that books less than it is guaranteed."""
    return board.is_critical[task] and board.booked[task] < board.table.tasks[task].guaranteed


def is_helper_of_this_pass(board: Board, thread: int) -> bool:
    """It is in flight and not late, and was granted its core in this pass."""
    return board.core_of[thread] in board.granted_now and is_in_flight(board, thread) and not is_late(board, thread)


def surplus(board: Board, task: int) -> int:
    """Of a short task those of its helpers that were granted their cores in this pass, of each other all of them."""
    if not is_short(board, task):
        return helpers(board, task)
    return sum(is_helper_of_this_pass(board, k) for k in board.threads_of[task])


def grantable(board: Board, task: int) -> int:
    """How many threads of the task are on no core with room in their rings."""
    return sum(map(board.is_grantable, board.threads_of[task]))


def waits(board: Board, task: int) -> bool:
    """More of its threads press than its surplus, it may book one more core, and some thread may be granted one."""
    return board.may_book(task) and grantable(board, task) > 0 and pressing(board, task) > surplus(board, task)


def short_waiting(board: Board) -> list[int]:
    """The short tasks that wait."""
    return [t for t in board.tasks if is_short(board, t) and waits(board, t)]


def lacks(board: Board, task: int) -> int:
    """How many cores a short task books below its guarantee; 0 of each other."""
    return board.table.tasks[task].guaranteed - board.booked[task] if is_short(board, task) else 0


def needs(board: Board, task: int) -> int:
    """The least of three numbers: what a short task lacks, how many of its threads are pressing, and how many are on no
    core with room in their rings."""
    return min(lacks(board, task), pressing(board, task), grantable(board, task))


def is_too_few_open(board: Board) -> bool:
    """A short task waits, and fewer cores are open than all short tasks lack that wait."""
    waiting = short_waiting(board)
    return bool(waiting) and len(board.open_cores) < sum(lacks(board, t) for t in waiting)


def is_none_to_spare(board: Board) -> bool:
    """A short task waits, and no more cores are open than all short tasks lack that wait."""
    waiting = short_waiting(board)
    return bool(waiting) and len(board.open_cores) <= sum(lacks(board, t) for t in waiting)


def is_kept(board: Board, task: int, core: int) -> bool:
    """The open core is kept from the task: it is owed to another one that waits. From a short task only those are kept
    that are owed to another short one, and of these the lowest, as many as that one needs."""
    other = board.owed[core]
    if other is None or other == task or not waits(board, other):
        return False
    if not is_short(board, task):
        return True
    return is_short(board, other) and sum(board.owed[c] == other for c in range(core)) < needs(board, other)


def open_choice(board: Board, task: int) -> Optional[tuple[int, int]]:
    """The open core that the task takes, with its class: those owed to it come first, then the least by class and
    number."""
    cores = [(board.owed[c] != task, open_class(board, task, c), c) for c in board.open_cores
             if not is_kept(board, task, c)]
    if not cores:
        return None
    _, core_class, core = min(cores)
    return core, core_class


def is_act_for(board: Board, task: int, action: Action) -> bool:
    """The action grants a core to one of the task's threads, or revokes one for it."""
    if isinstance(action, Grant):
        return board.owner[action.thread] == task
    return isinstance(action, Revoke) and isinstance(action.cause, ForTask) and action.cause.task == task


def has_acted(board: Board, task: int) -> bool:
    """In this pass a core was granted to one of the task's threads, or revoked for it."""
    return any(is_act_for(board, task, it) for it in board.actions)


def held_choice(board: Board, task: int) -> Optional[int]:
    """The core that is revoked for the task, if one may be: more of its threads press than cores are coming and its
    surplus, and it has not acted in this pass or fewer are coming than it lacks. From a latency-critical task one is
    taken only if fewer are coming than it lacks."""
    coming = board.coming(task)
    fewer_come = coming < lacks(board, task)
    if not board.is_critical[task] or pressing(board, task) <= coming + surplus(board, task):
        return None
    if not fewer_come and has_acted(board, task):
        return None
    return core_to_preempt(board, task, LATENCY_CRITICAL if fewer_come else BEST_EFFORT)


def act_for(board: Board, task: int) -> bool:
    """An act of a task: a grant, a revocation for it, or nothing. Whether something was done."""
    thread = chosen_thread(board, task) if waits(board, task) else None
    if thread is None:
        return False
    choice = open_choice(board, task)
    if choice is not None:
        board.do(Grant(choice[0], thread, choice[1]))
        return True
    held = held_choice(board, task)
    if held is not None:
        board.do(Revoke(held, ForTask(task)))
    return held is not None


def grants_for(board: Board, task: int) -> None:
    """The turn of a task: one act; a short one acts until it is no longer short, does not wait or finds nothing to
    do."""
    while act_for(board, task) and is_short(board, task):
        pass


def order(board: Board) -> list[int]:
    """The order of the tasks, fixed where the part begins: short ones by number, the other latency-critical ones by how
    late they are, the best-effort ones by what they hold."""
    def place(task: int) -> tuple[int, int, int]:
        if is_short(board, task):
            return 0, 0, task
        if board.is_critical[task]:
            return 1, board.table.tasks[task].delay - board.delay(task), task
        return 2, board.held[task], task
    return sorted(board.tasks, key=place)


def decide(board: Board) -> None:
    """The five parts of a pass that has begun."""
    frees(board)
    unbans(board, lambda: is_too_few_open(board))
    bans(board, lambda: not is_none_to_spare(board))
    bandwidth(board)
    for task in order(board):
        grants_for(board, task)
