"""The machine as a policy sees it where it chooses its next action: what the guard knows, to be read only. Clocks and
times are in ticks, as in the task table. Everything is as it is after all actions so far, those of this pass included;
a value that is kept and asked again later says what holds then."""
from __future__ import annotations

from typing import Any, NamedTuple, Optional

from ..world.actions import Action, Ban, Cap, Cause, ForBan, ForBandwidth, ForTask, Free, Grant, Revoke, Unban
from ..world.board import Board
from ..world.guard import MOST_ACTIONS, left_undone, wrong_with
from ..world.parts import held_class, misses_since, open_class

OTHER_IDLE = 3
KINDS = (None, "lc", "be")


def number_of(part: object, wanted: type["ReadOnly"], asked: str) -> int:
    """The number of a part of the machine that a policy hands in; TypeError of anything else."""
    if not isinstance(part, wanted):
        name = wanted.__name__.lower()
        raise TypeError(f"{asked} got {part!r}; wanted: a {name} of machine.{name}s")
    return part.number


class ReadOnly:
    """What cannot be changed."""

    __slots__ = ("_machine", "_board", "number")
    _machine: "Machine"
    _board: Board
    number: int

    def __init__(self, machine: "Machine", number: int) -> None:
        object.__setattr__(self, "_machine", machine)
        object.__setattr__(self, "_board", machine._board)
        object.__setattr__(self, "number", number)

    def __setattr__(self, name: str, value: Any) -> None:
        raise AttributeError(f"{type(self).__name__}.{name} is to be read only: yield an action to change the machine")

    def __eq__(self, other: object) -> bool:
        return type(other) is type(self) and isinstance(other, ReadOnly) and \
            (other._machine is self._machine and other.number == self.number)

    def __hash__(self) -> int:
        return hash((type(self), self.number))

    def __repr__(self) -> str:
        return f"<{type(self).__name__} {self.number}>"


class Task(ReadOnly):
    """A task of the table. `number` is its place there, from 0."""

    __slots__ = ()

    @property
    def kind(self) -> str:
        """`lc`, latency-critical, or `be`, best-effort."""
        return self._board.table.tasks[self.number].kind

    @property
    def guaranteed(self) -> int:
        """How many cores are never taken from it; 0 of a best-effort task."""
        return self._board.table.tasks[self.number].guaranteed

    @property
    def limit(self) -> int:
        """The most cores that it may have, and the number of its threads."""
        return self._board.table.tasks[self.number].limit

    @property
    def threshold(self) -> int:
        """The table's `delay`, in ticks: above it the task is congested."""
        return self._board.table.tasks[self.number].delay

    @property
    def request(self) -> int:
        """The table's `request`, in ticks: above it a request bans the sibling of its core."""
        return self._board.table.tasks[self.number].request

    @property
    def threads(self) -> tuple["Thread", ...]:
        """Its kernel threads."""
        own = self._board.threads_of[self.number]
        return self._machine.threads[own.start:own.stop]

    @property
    def cores(self) -> list["Core"]:
        """The cores that its threads hold, in order, without those that they leave."""
        return [it for it in self._machine.cores if self._board.holding_task(it.number) == self.number]

    @property
    def held(self) -> int:
        """How many cores its threads hold."""
        return self._board.held[self.number]

    @property
    def booked(self) -> int:
        """How many cores its threads hold or leave."""
        return self._board.booked[self.number]

    @property
    def cap(self) -> int:
        """The most cores that a best-effort task may hold now: that of its last Cap, else its limit."""
        return self._board.caps[self.number]

    @property
    def short(self) -> bool:
        """It is latency-critical, and books less than it is guaranteed."""
        return self._board.is_critical[self.number] and self.booked < self.guaranteed

    @property
    def over(self) -> bool:
        """It holds more than it is guaranteed."""
        return self._board.is_over(self.number)

    @property
    def coming(self) -> int:
        """How many cores are being left for it: revoked with the cause `for_task`, and not yet free."""
        return self._board.coming(self.number)

    @property
    def delay(self) -> int:
        """The greatest delay of its threads, in ticks."""
        return self._board.delay(self.number)

    @property
    def misses(self) -> int:
        """The cache misses that its threads' kept records have more than those of the pass before."""
        return misses_since(self._board, self.number)

    def set_cap(self, cap: int) -> Cap:
        """The action that lets it have so many cores, up to its limit. While it holds more, each action has to revoke
        one of them. Nothing comes of the cap of a latency-critical task."""
        return Cap(self.number, cap)


class Thread(ReadOnly):
    """A kernel thread. `number` counts all threads, in the order of the tasks, from 0. What it shows is its kept
    record: the last one that a pass found."""

    __slots__ = ()

    @property
    def task(self) -> Task:
        """The task whose thread it is."""
        return self._machine.tasks[self._board.owner[self.number]]

    @property
    def core(self) -> Optional["Core"]:
        """The core that it holds or leaves."""
        core = self._board.core_of[self.number]
        return None if core is None else self._machine.cores[core]

    @property
    def left(self) -> bool:
        """Its record shows that it left the core that it held: it has taken the Run that put it there, and runs on
        none. The core may be freed."""
        core = self._board.core_of[self.number]
        return core is not None and self._board.was_left(core)

    @property
    def in_flight(self) -> bool:
        """It holds a core by a Run that its record has not taken."""
        core = self._board.core_of[self.number]
        return core is not None and self._board.is_held(core) and self.taken < self._board.run[core]

    @property
    def delay(self) -> int:
        """The longer of the two waits that it shows, in ticks: that of its oldest queued request, and that of its
        suspended one. 0 where it shows neither."""
        return self._board.delays[self.number]

    @property
    def late(self) -> bool:
        """Its delay is above its task's threshold."""
        return self.delay > self.task.threshold

    @property
    def runs_on(self) -> Optional["Core"]:
        """The core on which it shows itself."""
        running = self._board.kept[self.number].running
        return self._machine.cores[running - 1] if 0 < running <= len(self._machine.cores) else None

    @property
    def started(self) -> Optional[int]:
        """The clock, in ticks, at which it began or resumed the request that it is at; none where it is at none."""
        return self._board.kept[self.number].started or None

    @property
    def runs_for(self) -> int:
        """For how many ticks it has been at that request; 0 where it is at none."""
        started = self._board.kept[self.number].started
        return self._board.now - started if 0 < started < self._board.now else 0

    @property
    def queued(self) -> bool:
        """It shows a queued request."""
        return bool(self._board.kept[self.number].queued)

    @property
    def oldest(self) -> Optional[int]:
        """The clock, in ticks, at which its queued request came; none without one."""
        record = self._board.kept[self.number]
        return record.oldest if record.queued else None

    @property
    def suspended(self) -> bool:
        """It shows a suspended request: one that it began, and works at no longer, being off its core."""
        return bool(self._board.kept[self.number].paused)

    @property
    def misses(self) -> int:
        """The cache misses that it shows, since the beginning."""
        return self._board.kept[self.number].misses

    @property
    def taken(self) -> int:
        """How many commands it shows that it has taken."""
        return self._board.kept[self.number].taken

    @property
    def sent(self) -> int:
        """How many commands it was sent."""
        return self._board.sent[self.number]

    @property
    def room(self) -> bool:
        """Its ring had room where the pass began, and it was sent no command in this pass."""
        return self._board.rooms[self.number] and self.number not in self._board.commands


class BanOf(NamedTuple):
    """For which thread a core is banned, and the clock, in ticks, at which that thread's request was begun."""

    thread: Thread
    started: int


class Core(ReadOnly):
    """A core. `number` counts from 0."""

    __slots__ = ()

    @property
    def sibling(self) -> "Core":
        """Its hyperthread sibling."""
        return self._machine.cores[self.number ^ 1]

    @property
    def thread(self) -> Optional[Thread]:
        """The thread that holds or leaves it; none where it is free."""
        thread = self._board.holder[self.number]
        return None if thread is None else self._machine.threads[thread]

    @property
    def task(self) -> Optional[Task]:
        """That thread's task."""
        thread = self._board.holder[self.number]
        return None if thread is None else self._machine.tasks[self._board.owner[thread]]

    @property
    def cause(self) -> Optional[Cause]:
        """Why it was revoked, while it is being left; none of a core that is held or free."""
        return self._board.cause[self.number]

    @property
    def held(self) -> bool:
        """A thread holds it, and was not told to leave."""
        return self._board.is_held(self.number)

    @property
    def leaving(self) -> bool:
        """It was revoked, and is not yet free."""
        return self._board.is_leaving(self.number)

    @property
    def is_free(self) -> bool:
        """No thread holds or leaves it."""
        return self._board.is_free(self.number)

    @property
    def open(self) -> bool:
        """It is free and not banned."""
        return self._board.is_open(self.number)

    @property
    def ban_of(self) -> Optional[BanOf]:
        """For whom it is banned; none where it is not."""
        ban = self._board.bans[self.number]
        return None if ban is None else BanOf(self._machine.threads[ban[0]], ban[1])

    @property
    def last_thread(self) -> Optional[Thread]:
        """The thread to which it was granted last."""
        last = self._board.last[self.number]
        return None if last is None else self._machine.threads[last]

    @property
    def granted_at(self) -> Optional[int]:
        """The clock of the pass that granted it last, in ticks; none where none did."""
        return None if self._board.last[self.number] is None else self._board.granted_at[self.number]

    @property
    def owed(self) -> Optional[Task]:
        """The task for which the free core was revoked, if nobody has had it since."""
        owed = self._board.owed[self.number]
        return None if owed is None else self._machine.tasks[owed]

    def class_for(self, thread: Thread) -> Optional[int]:
        """Its class for the thread's task: 1 beside a core that the task holds, 2 last granted to one of its threads, 3
        any other open core; 4 held by a best-effort task, or 5 by a latency-critical one that is over while this one is
        short, where the thread's task is latency-critical. None of any other core."""
        task = self._board.owner[number_of(thread, Thread, "core.class_for")]
        if self.open:
            return open_class(self._board, task, self.number)
        return held_class(self._board, task, self.number) if self._board.is_critical[task] else None

    # Actions, each to be yielded.

    def free(self) -> Free:
        """The action that notes that its thread has left: then nobody has it."""
        return Free(self.number)

    def grant(self, thread: Thread) -> Grant:
        """The action that sends the thread `Run` of this core. Its class is a label that the report shows."""
        return Grant(self.number, number_of(thread, Thread, "core.grant"), self.class_for(thread) or OTHER_IDLE)

    def revoke(self, for_task: Optional[Task] = None, for_ban: Optional["Core"] = None) -> Revoke:
        """The action that sends its thread `Park`: for a task that is to get it; for a ban, which a request on that
        core, its sibling, asks for; else for bandwidth. The cause is a label that the report shows."""
        if for_task is not None:
            return Revoke(self.number, ForTask(number_of(for_task, Task, "core.revoke")))
        if for_ban is not None:
            return Revoke(self.number, ForBan(number_of(for_ban, Core, "core.revoke")))
        return Revoke(self.number, ForBandwidth())

    def ban(self, for_thread: Thread) -> Ban:
        """The action that bans it for a thread's request on its sibling: nobody is granted it until it is unbanned. If
        it is held, the next action has to revoke it."""
        return Ban(self.number, number_of(for_thread, Thread, "core.ban"), for_thread.started or 0)

    def unban(self) -> Unban:
        """The action that ends its ban."""
        return Unban(self.number)


class Machine:
    """The tuples `cores`, `threads` and `tasks` have each of them at the place of its number. Lists have only what is
    permitted at that moment."""

    __slots__ = ("_board", "cores", "threads", "tasks")
    _board: Board
    cores: tuple[Core, ...]
    threads: tuple[Thread, ...]
    tasks: tuple[Task, ...]

    def __init__(self, board: Board) -> None:
        object.__setattr__(self, "_board", board)
        object.__setattr__(self, "tasks", tuple(Task(self, it) for it in board.tasks))
        object.__setattr__(self, "threads", tuple(Thread(self, it) for it in range(len(board.owner))))
        object.__setattr__(self, "cores", tuple(Core(self, it) for it in range(board.table.cores)))

    def __setattr__(self, name: str, value: Any) -> None:
        raise AttributeError(f"Machine.{name} is to be read only: yield an action to change the machine")

    @property
    def number(self) -> int:
        """The number of this pass, from 0."""
        return self._board.number

    @property
    def clock(self) -> int:
        """The clock of this pass, in ticks."""
        return self._board.now

    @property
    def figure(self) -> int:
        """The bandwidth figure of this pass, in the unit of the table's bandwidth limit."""
        return self._board.figure

    @property
    def bandwidth_limit(self) -> int:
        """The table's bandwidth limit, in the unit of the figures: whatever the machine measures, as bytes a tick."""
        return self._board.table.bandwidth_limit

    def permits(self, action: Action) -> bool:
        """Whether the guard would let the action through now."""
        return wrong_with(self._board, action) is None

    def why_not(self, action: Optional[Action] = None) -> Optional[str]:
        """Why the guard would refuse the action now, in its words; without an action why it would refuse the end of the
        pass. None where it would not."""
        return wrong_with(self._board, action)

    @property
    def left_cores(self) -> list[Core]:
        """The cores that may be freed: their threads have left them."""
        return [it for it in self.cores if self._board.was_left(it.number) and self.permits(it.free())]

    @property
    def open_cores(self) -> list[Core]:
        """The cores that may be granted to a thread that may get one: those that are free and not banned."""
        return [] if self._is_blocked else [it for it in self.cores if it.open]

    @property
    def waiting(self) -> list[Thread]:
        """The threads that show a wait, have no core, and may be granted one: the ring has room, the task may book one
        more core, and the thread was sent no command in this pass. Some core is open for them or not."""
        return [it for it in self.threads if self._board.delays[it.number] > 0 and self._may_get_one(it.number)]

    @property
    def _is_blocked(self) -> bool:
        """No grant is permitted: a ban or a cap is left undone, or the pass has the most actions."""
        return left_undone(self._board) is not None or len(self._board.actions) >= MOST_ACTIONS

    def _may_get_one(self, thread: int) -> bool:
        board = self._board
        may_be_sent = board.is_grantable(thread) and thread not in board.commands
        return may_be_sent and board.may_book(board.owner[thread]) and not self._is_blocked

    def open_core(self, near: Thread) -> Optional[Core]:
        """The open core that suits the thread best, by its class and then its number; none where the thread may be
        granted none."""
        if not self._may_get_one(number_of(near, Thread, "machine.open_core")):
            return None
        found = [(it.class_for(near), it.number) for it in self.cores if it.open]
        best = min(((kind, number) for kind, number in found if kind is not None), default=None)
        core = None if best is None else self.cores[best[1]]
        return core if core is not None and self.permits(core.grant(near)) else None

    def granted(self, kind: Optional[str] = None) -> list[Core]:
        """The cores that may be revoked, the one that was granted first in front: of tasks of a kind, `lc` or `be`, or
        of all. Their tasks hold more than they are guaranteed, and their threads have room for a command."""
        if kind not in KINDS:
            raise ValueError(f"machine.granted got {kind!r}; wanted: lc, be, or no kind")
        board = self._board
        held = [it for it in self.cores if board.is_held(it.number) and kind in (None, self._kind_at(it.number))]
        held.sort(key=lambda it: board.granted[it.number])
        return [it for it in held if self.permits(it.revoke())]

    def _kind_at(self, core: int) -> str:
        return self._board.table.tasks[self._board.owner[self._board.holder_at(core)]].kind

    def oldest_grant(self, kind: Optional[str] = None) -> Optional[Core]:
        """The first of `granted`: of all cores that may be revoked, of tasks of a kind or of all, the one that has been
        held longest."""
        return next(iter(self.granted(kind)), None)

    def __repr__(self) -> str:
        return f"<Machine, pass {self.number} at {self.clock}>"
