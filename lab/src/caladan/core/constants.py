"""The numbers of include/caladan.h, each under its name there without CALADAN_, and their texts."""
from __future__ import annotations

import enum
from typing import Sequence

MOST_CORES, MOST_THREADS, MOST_ACTIONS = 128, 128, 338
# The most cache misses that a record may say.
MOST_MISSES = 1 << 56
# Of a file of docs/FORMATS.md: its passes, and its bytes with the table.
MOST_PASSES, MOST_TEXT = 1 << 20, 1 << 26
# The room of a thread's command ring, in commands (caladan_pages.h).
PLACES = 4
HISTORY_HEADER = "caladan-history,2"
# The rule by which the policy assured decides and audits, as records of the host name it.
ASSURED_RULE = 2
# The words of a record, as a look has them from `taken` on.
WORDS = ("taken", "running", "queued", "oldest", "started", "misses", "stamp", "paused", "since")


class Policy(enum.IntEnum):
    """The policies for passes and audits."""

    CALADAN = 0
    ASSURED = 1


class Answer(enum.IntEnum):
    """A call's answer. From NOT_TOML up to TOO_MANY_THREADS it is the first fault of a table."""

    DONE = 0
    NOT_TOML = 1
    UNKNOWN_KEY = 2
    MISSING_KEY = 3
    WRONG_TYPE = 4
    OUT_OF_RANGE = 5
    BEST_EFFORT_GUARANTEE = 6
    GUARANTEES_EXCEED_CORES = 7
    TOO_MANY_THREADS = 8
    NO_MEMORY = 9
    IS_CLOSED = 10
    IS_OPEN = 11
    WRONG_COUNT = 13
    NO_ROOM = 14
    UNFIT = 15
    NO_SUCH = 16
    NO_ACTION = 17
    NOT_PERMITTED = 18
    NO_JUDGEMENT = 19
    ILLEGAL = 20
    LOST = 21
    NO_POLICY = 22


class Judgement(enum.IntEnum):
    """What is judged of a look. Those above BUSY say why it was refused."""

    KEPT = 1
    BUSY = 2
    AHEAD = 3
    FOREIGN = 4
    NO_PAIR = 5
    MISSHAPEN = 6
    PLACE_FELL = 7
    CHANGED = 8
    WORD_FELL = 9


class Kind(enum.IntEnum):
    """The kinds of actions."""

    FREE = 1
    UNBAN = 2
    BAN = 3
    REVOKE = 4
    CAP = 5
    GRANT = 6


class Cause(enum.IntEnum):
    """The causes of a revocation."""

    FOR_BAN = 1
    FOR_BANDWIDTH = 2
    FOR_TASK = 3


class CoreState(enum.IntEnum):
    """Who has a core."""

    CORE_FREE = 0
    CORE_HELD = 1
    CORE_LEAVING = 2


class TaskKind(enum.IntEnum):
    """The kinds of tasks."""

    LATENCY_CRITICAL = 1
    BEST_EFFORT = 2


class Why(enum.IntEnum):
    """Why an action is not permitted: the first reason, in this order."""

    WHY_TOO_MANY = 1
    WHY_DOES_NOT_FIT = 2
    WHY_NOT_LEFT = 3
    WHY_BANNED = 4
    WHY_AT_LIMIT = 5
    WHY_AT_CAP = 6
    WHY_AT_GUARANTEE = 7
    WHY_RING_FULL = 8
    WHY_SECOND_COMMAND = 9
    WHY_BANNED_HELD = 10
    WHY_OVER_CAP = 11


POLICY_CALADAN, POLICY_ASSURED = CALADAN, ASSURED = list(Policy)
(DONE, NOT_TOML, UNKNOWN_KEY, MISSING_KEY, WRONG_TYPE, OUT_OF_RANGE, BEST_EFFORT_GUARANTEE, GUARANTEES_EXCEED_CORES,
 TOO_MANY_THREADS, NO_MEMORY, IS_CLOSED, IS_OPEN, WRONG_COUNT, NO_ROOM, UNFIT, NO_SUCH, NO_ACTION, NOT_PERMITTED,
 NO_JUDGEMENT, ILLEGAL, LOST, NO_POLICY) = list(Answer)
KEPT, BUSY, AHEAD, FOREIGN, NO_PAIR, MISSHAPEN, PLACE_FELL, CHANGED, WORD_FELL = list(Judgement)
FREE, UNBAN, BAN, REVOKE, CAP, GRANT = list(Kind)
FOR_BAN, FOR_BANDWIDTH, FOR_TASK = list(Cause)
CORE_FREE, CORE_HELD, CORE_LEAVING = list(CoreState)
LATENCY_CRITICAL, BEST_EFFORT = list(TaskKind)
(WHY_TOO_MANY, WHY_DOES_NOT_FIT, WHY_NOT_LEFT, WHY_BANNED, WHY_AT_LIMIT, WHY_AT_CAP, WHY_AT_GUARANTEE, WHY_RING_FULL,
 WHY_SECOND_COMMAND, WHY_BANNED_HELD, WHY_OVER_CAP) = list(Why)

# The texts of the header, by number.
POLICY_TEXTS = ("caladan", "assured")
ANSWER_TEXTS = (
    "done", "the table is not TOML", "the table has an unknown key", "the table lacks a key",
    "a value has the wrong type", "a value is out of range", "a best-effort task has a guarantee",
    "the guarantees exceed the cores", "there are too many threads", "out of memory", "the handle is closed",
    "the handle is open", "no answer", "the count is wrong", "there is too little room", "a look does not fit",
    "the table has no such core, task or thread", "an action is none", "an action is not permitted",
    "a number is no judgement of its look", "a pass is not legal", "no page can show that the thread is gone",
    "no policy has this number")
JUDGEMENT_TEXTS = (
    "no judgement", "kept", "busy", "ahead: it acknowledges more commands than were sent",
    "foreign: it shows a core that the thread was not given", "its versions are no busy pair",
    "misshapen: running or misses is out of range", "its place fell", "another record at the same place",
    "taken, misses or stamp fell")
CAUSE_TEXTS = ("no cause", "for a ban", "for bandwidth", "for a task")
WHY_TEXTS = (
    "no reason", "the pass has the most actions", "it does not fit the state", "the core was not left",
    "the core is banned", "the task is at its limit", "the task is at its cap", "the task is at its guarantee",
    "the ring is full", "a second command to the thread in this pass", "a banned core is held",
    "a task is over its cap")


def text_of(texts: Sequence[str], number: int) -> str:
    """The text of a number, of these."""
    return texts[number] if 0 <= number < len(texts) else f"no text for {number}"
