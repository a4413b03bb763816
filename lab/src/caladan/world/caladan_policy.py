"""The policy `caladan`: docs/POLICY.md, "A pass"."""
from __future__ import annotations

from .actions import ForTask, Grant, Revoke
from .board import Board
from .parts import bandwidth, bans, chosen_thread, core_to_preempt, frees, open_class, unbans


def grant_for(board: Board, task: int) -> None:
    """The turn of a task: a grant, a revocation for it, or nothing."""
    if not board.may_book(task) or board.delay(task) <= board.table.tasks[task].delay:
        return
    thread = chosen_thread(board, task)
    if thread is None:
        return
    classes = {c: open_class(board, task, c) for c in board.open_cores}
    if classes:
        core = min(classes, key=lambda c: (classes[c], c))
        board.do(Grant(core, thread, classes[core]))
    elif board.is_critical[task] and not board.coming(task):
        held = core_to_preempt(board, task)
        if held is not None:
            board.do(Revoke(held, ForTask(task)))


def decide(board: Board) -> None:
    """The five parts of a pass that has begun."""
    frees(board)
    unbans(board)
    bans(board)
    bandwidth(board)
    for task in sorted(board.tasks, key=lambda t: (not board.is_critical[t], t)):
        grant_for(board, task)
