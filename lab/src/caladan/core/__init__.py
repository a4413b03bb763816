"""The decision core, over the C library (include/caladan.h): a Scheduler makes passes, a Guard takes those of another
policy, an Audit judges recorded ones.

    with Scheduler(table) as scheduler:
        judged, actions = scheduler.run_each(now, bandwidth, looks)

Clocks are in ticks of the caller's. A table is bytes, or a str, which is read as UTF-8; text_of_rows makes one of rows.
The library is the one installed beside this package, else the file that CALADAN_LIBRARY names, else the system's of
this version; each class also takes one as `library`, by its file or as a ctypes.CDLL. Constants have the header's names
without CALADAN_. `python3 -m caladan.core` decides, audits and guards what docs/FORMATS.md describes."""
from __future__ import annotations

from .constants import (AHEAD, ANSWER_TEXTS, ASSURED, ASSURED_RULE, BAN, BEST_EFFORT, BEST_EFFORT_GUARANTEE, BUSY,
                        CALADAN, CAP, CAUSE_TEXTS, CHANGED, CORE_FREE, CORE_HELD, CORE_LEAVING, DONE, FOR_BAN,
                        FOR_BANDWIDTH,
                        FOR_TASK, FOREIGN, FREE, GRANT, GUARANTEES_EXCEED_CORES, HISTORY_HEADER, ILLEGAL, IS_CLOSED,
                        IS_OPEN, JUDGEMENT_TEXTS, KEPT, LATENCY_CRITICAL, LOST, MISSHAPEN, MISSING_KEY, MOST_ACTIONS,
                        MOST_CORES, MOST_THREADS, NO_ACTION, NO_JUDGEMENT, NO_MEMORY, NO_PAIR, NO_POLICY, NO_ROOM,
                        NO_SUCH, NOT_PERMITTED, NOT_TOML, OUT_OF_RANGE, PLACE_FELL, PLACES, POLICY_ASSURED,
                        POLICY_CALADAN, POLICY_TEXTS, REVOKE, TOO_MANY_THREADS, UNBAN, UNFIT, UNKNOWN_KEY, WHY_AT_CAP,
                        WHY_AT_GUARANTEE, WHY_AT_LIMIT, WHY_BANNED, WHY_BANNED_HELD, WHY_DOES_NOT_FIT, WHY_NOT_LEFT,
                        WHY_OVER_CAP, WHY_RING_FULL, WHY_SECOND_COMMAND, WHY_TEXTS, WHY_TOO_MANY, WORD_FELL, WORDS,
                        WRONG_COUNT, WRONG_TYPE, Answer, Cause, CoreState, Judgement, Kind, Policy, TaskKind, Why,
                        text_of)
from .handles import Audit, Guard, Scheduler
from .histories import (InputRefused, Pass, action_row, machine_of, parts, passes_of, recorded, text_of_rows, written)
from .layout import Action, Ban, Counts, Holder, Last, Look, Machine, Refused, TableTask, Thread, taken
from .library import VERSION, NoLibrary, library_of, version
from .refusals import CallRefused, Lost, NotPermitted, Unfit

__all__ = [
    "Action", "Audit", "Ban", "CallRefused", "Counts", "Guard", "Holder", "InputRefused", "Last", "Look", "Lost",
    "Machine", "NoLibrary", "NotPermitted", "Pass", "Refused", "Scheduler", "TableTask", "Thread", "Unfit",
    "action_row", "library_of", "machine_of", "parts", "passes_of", "recorded", "taken", "text_of", "text_of_rows",
    "version", "written",
    "Answer", "Cause", "CoreState", "Judgement", "Kind", "Policy", "TaskKind", "Why",
    "ANSWER_TEXTS", "CAUSE_TEXTS", "HISTORY_HEADER", "JUDGEMENT_TEXTS", "MOST_ACTIONS", "MOST_CORES", "MOST_THREADS",
    "PLACES", "POLICY_TEXTS", "VERSION", "WHY_TEXTS", "WORDS",
    "ASSURED", "ASSURED_RULE", "CALADAN", "POLICY_ASSURED", "POLICY_CALADAN",
    "BEST_EFFORT_GUARANTEE", "DONE", "GUARANTEES_EXCEED_CORES", "ILLEGAL", "IS_CLOSED", "IS_OPEN", "LOST",
    "MISSING_KEY", "NOT_PERMITTED", "NOT_TOML", "NO_ACTION", "NO_JUDGEMENT", "NO_MEMORY", "NO_POLICY", "NO_ROOM",
    "NO_SUCH", "OUT_OF_RANGE", "TOO_MANY_THREADS", "UNFIT", "UNKNOWN_KEY", "WRONG_COUNT", "WRONG_TYPE",
    "AHEAD", "BUSY", "CHANGED", "FOREIGN", "KEPT", "MISSHAPEN", "NO_PAIR", "PLACE_FELL", "WORD_FELL",
    "BAN", "CAP", "FREE", "GRANT", "REVOKE", "UNBAN", "FOR_BAN", "FOR_BANDWIDTH", "FOR_TASK",
    "CORE_FREE", "CORE_HELD", "CORE_LEAVING", "BEST_EFFORT", "LATENCY_CRITICAL",
    "WHY_AT_CAP", "WHY_AT_GUARANTEE", "WHY_AT_LIMIT", "WHY_BANNED", "WHY_BANNED_HELD", "WHY_DOES_NOT_FIT",
    "WHY_NOT_LEFT", "WHY_OVER_CAP", "WHY_RING_FULL", "WHY_SECOND_COMMAND", "WHY_TOO_MANY",
]
