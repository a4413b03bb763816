"""Which actions a policy may make, and why not: docs/POLICY.md, "Writing a policy of your own". The reasons are told in
the words of the proved guard (crates/cal_guard/src/refusal.rt), in its order."""
from __future__ import annotations

from typing import Optional

from .actions import Action, Ban, Cap, Cause, ForBan, ForTask, Free, Grant, Revoke, Unban
from .board import Board

MOST_ACTIONS = 338
TOO_MANY = f"a pass has at most {MOST_ACTIONS} actions"
DOES_NOT_FIT = "it does not fit the state of cores, threads and tasks"
NOT_LEFT = "its thread was not shown to have left it"
BANNED = "the core is banned"
AT_LIMIT = "the task books as many cores as its limit"
AT_CAP = "the task books as many cores as its cap"
AT_GUARANTEE = "the task holds no more cores than it is guaranteed"
NO_ROOM = "the thread's ring has no room"
SECOND_COMMAND = "the thread was sent a command in this pass"
BANNED_HELD = "core {} is banned and held"
OVER_CAP = "task {} holds more cores than its cap"


def names_table(board: Board, cause: Cause) -> bool:
    """A core or a task that a cause names is the table's."""
    if isinstance(cause, ForBan):
        return 0 <= cause.by < board.table.cores
    return not isinstance(cause, ForTask) or 0 <= cause.task < len(board.tasks)


def is_core(board: Board, core: int) -> bool:
    return 0 <= core < board.table.cores


def fits(board: Board, action: Action) -> bool:
    """The action names the table's cores, threads and tasks, and fits the state."""
    if isinstance(action, Cap):
        return 0 <= action.task < len(board.tasks) and 0 <= action.cap <= board.table.tasks[action.task].limit
    if not is_core(board, action.core):
        return False
    if isinstance(action, Free):
        return not board.is_free(action.core)
    if isinstance(action, Unban):
        return board.is_banned(action.core)
    if isinstance(action, Revoke):
        return board.is_held(action.core) and names_table(board, action.cause)
    if not 0 <= action.thread < len(board.owner):
        return False
    if isinstance(action, Ban):
        return not board.is_banned(action.core) and not board.is_banned(action.core ^ 1)
    return board.is_free(action.core) and board.core_of[action.thread] is None


def wrong_to_send(board: Board, thread: int) -> Optional[str]:
    if not board.rooms[thread]:
        return NO_ROOM
    return SECOND_COMMAND if thread in board.commands else None


def wrong_to_revoke(board: Board, core: int) -> Optional[str]:
    thread = board.holder_at(core)
    return wrong_to_send(board, thread) if board.is_over(board.owner[thread]) else AT_GUARANTEE


def wrong_to_grant(board: Board, action: Grant) -> Optional[str]:
    task = board.owner[action.thread]
    if board.is_banned(action.core):
        return BANNED
    if board.booked[task] >= board.table.tasks[task].limit:
        return AT_LIMIT
    if not board.is_critical[task] and board.booked[task] >= board.caps[task]:
        return AT_CAP
    return wrong_to_send(board, action.thread)


def wrong_to_make(board: Board, action: Action) -> Optional[str]:
    """What is wrong with an action that fits the state, by its kind."""
    if isinstance(action, Free):
        return None if board.was_left(action.core) else NOT_LEFT
    if isinstance(action, Revoke):
        return wrong_to_revoke(board, action.core)
    if isinstance(action, Grant):
        return wrong_to_grant(board, action)
    return None


def left_undone(board: Board, revoked: Optional[int] = None) -> Optional[str]:
    """What a ban or a cap left undone, and is not done where this core is revoked."""
    for core, ban in enumerate(board.bans):
        if ban is not None and board.is_held(core) and core != revoked:
            return BANNED_HELD.format(core)
    lowered = None if revoked is None else board.holding_task(revoked)
    for task in board.tasks:
        if not board.is_critical[task] and board.held[task] > board.caps[task] and task != lowered:
            return OVER_CAP.format(task)
    return None


def wrong_with(board: Board, action: Optional[Action]) -> Optional[str]:
    """What is wrong with the next action of the pass, or with its end where there is none; none where it is
    permitted."""
    if action is None:
        return left_undone(board)
    if len(board.actions) >= MOST_ACTIONS:
        return TOO_MANY
    if not fits(board, action):
        return DOES_NOT_FIT
    wrong = wrong_to_make(board, action)
    if wrong is not None:
        return wrong
    return left_undone(board, action.core if isinstance(action, Revoke) else None)
