"""The state of the scheduler, carried from action to action and from pass to pass: docs/MODEL.md, "Histories and
actions"."""
from __future__ import annotations

from typing import Optional, Sequence

from ..tables import Machine
from .actions import Action, Ban, Cap, Cause, ForTask, Free, Grant, Revoke, Unban
from .records import ZERO, Record
from .threads import PARK


class Board:
    """What all actions and records so far say. Of a core: the thread that holds or leaves it, with the number of its
    Run and the cause for which it is leaving; the task to which the free core is owed; its ban, a thread and when that
    thread's request was begun; the thread to which it was granted last, how many grants had been made then, and at
    which clock. Of a thread: the core that it holds or leaves, the commands sent to it, its kept record and that of
    the pass before. Of a task: the cores that it books, those of them that it holds, and its cap. Of the pass: its
    clock, its bandwidth figure, the rooms of the rings, the actions so far, the commands that they send, and the
    cores that they grant."""

    def __init__(self, table: Machine) -> None:
        cores, limits = range(table.cores), table.limits
        self.table, self.tasks = table, range(len(limits))
        self.owner = [t for t, limit in enumerate(limits) for _ in range(limit)]
        self.threads_of = [range(sum(limits[:t]), sum(limits[:t + 1])) for t in self.tasks]
        self.is_critical = [it.kind == "lc" for it in table.tasks]
        threads = range(len(self.owner))
        self.holder: list[Optional[int]] = [None for _ in cores]
        self.run = [0 for _ in cores]
        self.cause: list[Optional[Cause]] = [None for _ in cores]
        self.owed: list[Optional[int]] = [None for _ in cores]
        self.bans: list[Optional[tuple[int, int]]] = [None for _ in cores]
        self.last: list[Optional[int]] = [None for _ in cores]
        self.granted = [0 for _ in cores]
        self.granted_at = [0 for _ in cores]
        self.grants = 0
        self.core_of: list[Optional[int]] = [None for _ in threads]
        self.sent = [0 for _ in threads]
        self.kept: list[Record] = [ZERO for _ in threads]
        self.kept_before = self.kept
        self.booked, self.held = [0 for _ in limits], [0 for _ in limits]
        self.caps = list(limits)
        self.number, self.now, self.figure = -1, 0, 0
        self.rooms: Sequence[bool] = [True for _ in threads]
        self.actions: list[Action] = []
        self.commands: dict[int, int] = {}
        self.granted_now: set[int] = set()
        self.delays = [0 for _ in threads]

    def begin(self, now: int, figure: int, records: list[Record], rooms: Sequence[bool]) -> None:
        """The next pass, at a clock with a bandwidth figure: the record that each thread shows, and whether its ring
        has room."""
        self.number += 1
        self.now, self.figure, self.rooms = now, figure, rooms
        self.kept_before, self.kept = self.kept, records
        self.delays = [it.delay(now) for it in records]
        self.actions, self.commands, self.granted_now = [], {}, set()

    def do(self, action: Action) -> None:
        """Notes an action, which fits the state."""
        if isinstance(action, Grant):
            self._grant(action.core, action.thread)
        elif isinstance(action, Free):
            self._free(action.core)
        elif isinstance(action, Revoke):
            self._revoke(action.core, action.cause)
        elif isinstance(action, Ban):
            self.bans[action.core] = action.thread, action.started
        elif isinstance(action, Unban):
            self.bans[action.core] = None
        else:
            self.caps[action.task] = action.cap
        self.actions.append(action)

    def _grant(self, core: int, thread: int) -> None:
        task = self.owner[thread]
        self._send(thread, core)
        self.holder[core], self.run[core], self.cause[core] = thread, self.sent[thread], None
        self.core_of[thread], self.last[core], self.owed[core] = core, thread, None
        self.booked[task] += 1
        self.held[task] += 1
        self.grants += 1
        self.granted[core], self.granted_at[core] = self.grants, self.now
        self.granted_now.add(core)

    def _free(self, core: int) -> None:
        thread, cause = self.holder_at(core), self.cause[core]
        task = self.owner[thread]
        self.holder[core] = self.cause[core] = self.core_of[thread] = None
        self.booked[task] -= 1
        self.held[task] -= cause is None
        self.owed[core] = cause.task if isinstance(cause, ForTask) else None

    def _revoke(self, core: int, cause: Cause) -> None:
        thread = self.holder_at(core)
        self._send(thread, PARK)
        self.cause[core] = cause
        self.held[self.owner[thread]] -= 1

    def _send(self, thread: int, command: int) -> None:
        self.sent[thread] += 1
        self.commands[thread] = command

    # Cores.

    def holder_at(self, core: int) -> int:
        """The thread that holds or leaves a core, which is not free."""
        thread = self.holder[core]
        if thread is None:
            raise ValueError(f"core {core} is free")
        return thread

    def is_free(self, core: int) -> bool:
        return self.holder[core] is None

    def is_held(self, core: int) -> bool:
        return self.holder[core] is not None and self.cause[core] is None

    def is_leaving(self, core: int) -> bool:
        return self.holder[core] is not None and self.cause[core] is not None

    def is_banned(self, core: int) -> bool:
        return self.bans[core] is not None

    def is_open(self, core: int) -> bool:
        """The core is free and not banned."""
        return self.holder[core] is None and self.bans[core] is None

    def holding_task(self, core: int) -> Optional[int]:
        """The task whose thread holds a core, and does not leave it."""
        thread = self.holder[core]
        return None if thread is None or self.cause[core] is not None else self.owner[thread]

    def was_left(self, core: int) -> bool:
        """The kept record of the core's thread has taken the Run that put it there, and shows no core."""
        thread = self.holder[core]
        if thread is None:
            return False
        record = self.kept[thread]
        return record.taken >= self.run[core] and record.running == 0

    @property
    def open_cores(self) -> list[int]:
        return [c for c, holder in enumerate(self.holder) if holder is None and self.bans[c] is None]

    # Tasks and threads.

    def is_over(self, task: int) -> bool:
        """The task holds more cores than it is guaranteed."""
        return self.held[task] > self.table.tasks[task].guaranteed

    def may_book(self, task: int) -> bool:
        """The task books less than its limit and, if it is best-effort, than its cap."""
        booked = self.booked[task]
        return booked < self.table.tasks[task].limit and (self.is_critical[task] or booked < self.caps[task])

    def delay(self, task: int) -> int:
        """The greatest delay of the task's threads, in ticks."""
        return max(self.delays[k] for k in self.threads_of[task])

    def is_grantable(self, thread: int) -> bool:
        """The thread neither holds nor leaves a core, and its ring has room."""
        return self.core_of[thread] is None and self.rooms[thread]

    def coming(self, task: int) -> int:
        """How many cores are being left for a task."""
        return sum(isinstance(it, ForTask) and it.task == task for it in self.cause)
