"""The structures of include/caladan.h. Each refuses a field that it has not, and a number that does not fit."""
from __future__ import annotations

import ctypes
import enum
import operator
from typing import Any, ClassVar, Iterable, Optional

from .constants import BUSY, MOST_CORES, MOST_MISSES, WORDS, Cause, CoreState, Judgement, Kind, TaskKind

U8, U32, U64, SIZE = ctypes.c_uint8, ctypes.c_uint32, ctypes.c_uint64, ctypes.c_size_t


def fitting(value: object, kind: Any) -> int:
    """The number, where it fits one of this kind without a sign; ValueError where it does not, TypeError where it is
    none."""
    number = operator.index(value)  # type: ignore[arg-type]
    bits = 8 * ctypes.sizeof(kind)
    if not 0 <= number < 1 << bits:
        raise ValueError(f"{number} does not fit {bits} bits")
    return number


class Numbers(ctypes.Structure):
    """A structure of numbers, each without a sign. `enums` says of which constants some are."""

    enums: ClassVar[dict[str, type[enum.IntEnum]]] = {}
    kinds: ClassVar[dict[str, Any]] = {}

    def __init_subclass__(cls, **how: Any) -> None:
        super().__init_subclass__(**how)
        cls.kinds = {it[0]: it[1] for it in cls._fields_}

    def __init__(self, *numbers: int, **fields: int) -> None:
        super().__init__()
        if len(numbers) > len(self.kinds):
            raise TypeError(f"{type(self).__name__} has {len(self.kinds)} fields, not {len(numbers)}")
        given = dict(zip(self.kinds, numbers))
        for name, number in [*given.items(), *fields.items()]:
            if name in given and name in fields:
                raise TypeError(f"{type(self).__name__}: {name} is given twice")
            if name not in self.kinds:
                raise TypeError(self.lacks(name))
            setattr(self, name, number)

    def __setattr__(self, name: str, value: object) -> None:
        if name not in self.kinds:
            raise AttributeError(self.lacks(name))
        super().__setattr__(name, fitting(value, self.kinds[name]))

    def lacks(self, name: str) -> str:
        """That it has no such field."""
        return f"{type(self).__name__} has no field {name}; it has {', '.join(self.kinds)}"

    def fields(self) -> dict[str, int]:
        """The fields with their numbers."""
        return {name: getattr(self, name) for name in self.kinds}

    def told(self) -> Iterable[str]:
        """The fields that its repr shows."""
        return self.kinds

    def shown(self, name: str) -> str:
        """A field as it is written: by the name of its number, where it has one."""
        number = getattr(self, name)
        names = {int(it): it.name for it in self.enums.get(name, ())}
        return f"{name}={names.get(number, number)}"

    def __repr__(self) -> str:
        return f"{type(self).__name__}({', '.join(map(self.shown, self.told()))})"

    def __eq__(self, other: object) -> bool:
        return isinstance(other, Numbers) and type(self) is type(other) and self.fields() == other.fields()

    __hash__ = None  # type: ignore[assignment]


class Handle(ctypes.Structure):
    """What the library keeps, or nothing."""

    _fields_ = [("open", ctypes.c_bool), ("at", ctypes.c_void_p)]


class Look(Numbers):
    """What is found on the page of a kernel thread, and whether its command ring has room. Clocks are in the caller's
    ticks; `running` is 0 off a core, else the core's number plus one."""

    _fields_ = [("busy", U8), ("room", U8), ("number", U64), ("second", U64), *((it, U64) for it in WORDS)]
    busy: int
    room: int
    number: int
    second: int
    taken: int
    running: int
    queued: int
    oldest: int
    started: int
    misses: int
    stamp: int
    paused: int
    since: int

    def told(self) -> Iterable[str]:
        return [name for name, number in self.fields().items() if number or name == "number"]


# The fields that each kind of action has besides, and how it is told.
FIELDS: dict[int, tuple[str, ...]] = {
    Kind.FREE: ("core",), Kind.UNBAN: ("core",), Kind.BAN: ("core", "thread", "started"),
    Kind.REVOKE: ("core", "cause"), Kind.CAP: ("task", "cap"), Kind.GRANT: ("core", "thread", "core_class")}
ACTIONS: dict[int, str] = {
    Kind.FREE: "free core {core}", Kind.UNBAN: "unban core {core}",
    Kind.BAN: "ban core {core} for thread {thread} started {started}", Kind.CAP: "cap task {task} at {cap}",
    Kind.GRANT: "grant core {core} to thread {thread} class {core_class}"}
OF_CAUSE: dict[int, tuple[str, ...]] = {Cause.FOR_BAN: ("by",), Cause.FOR_BANDWIDTH: (), Cause.FOR_TASK: ("task",)}
REVOKED: dict[int, str] = {
    Cause.FOR_BAN: "revoke core {core} for ban by core {by}", Cause.FOR_BANDWIDTH: "revoke core {core} for bandwidth",
    Cause.FOR_TASK: "revoke core {core} for task {task}"}


class Action(Numbers):
    """An action of a pass. Fields that its kind does not use are 0. str() tells it as a report of caladan_sim does."""

    enums = {"kind": Kind, "cause": Cause}
    _fields_ = [("kind", U8), ("core", U8), ("thread", U8), ("core_class", U8), ("cause", U8), ("by", U8), ("task", U8),
                ("cap", U8), ("started", U64)]
    kind: int
    core: int
    thread: int
    core_class: int
    cause: int
    by: int
    task: int
    cap: int
    started: int

    def used(self) -> tuple[str, ...]:
        """The fields that its kind uses."""
        return FIELDS.get(self.kind, ()) + (OF_CAUSE.get(self.cause, ()) if self.kind == Kind.REVOKE else ())

    def told(self) -> Iterable[str]:
        used = ("kind", *self.used())
        return [name for name, number in self.fields().items() if number or name in used]

    def __str__(self) -> str:
        text = REVOKED.get(self.cause) if self.kind == Kind.REVOKE else ACTIONS.get(self.kind)
        return text.format(**self.fields()) if text else repr(self)


class Counts(Numbers):
    """What a task has, in cores: those that its threads hold, those that they hold or leave, and its last cap, else its
    limit."""

    _fields_ = [("held", U8), ("booked", U8), ("cap", U8)]
    held: int
    booked: int
    cap: int


class Refused(Numbers):
    """Where a pass was stopped: the number of the first action that is not permitted, from 0, or of all actions; why,
    and of WHY_BANNED_HELD the core, of WHY_OVER_CAP the task."""

    _fields_ = [("place", SIZE), ("why", U8), ("names", U8)]
    place: int
    why: int
    names: int


class Machine(Numbers):
    """What a table says of the machine."""

    _fields_ = [("cores", U8), ("tasks", U8), ("threads", U8), ("bandwidth_limit", U64)]
    cores: int
    tasks: int
    threads: int
    bandwidth_limit: int


class TableTask(Numbers):
    """What a table says of a task; `delay` and `request` are in ticks. It has `limit` threads, from the first on."""

    enums = {"kind": TaskKind}
    _fields_ = [("kind", U8), ("guaranteed", U8), ("limit", U8), ("first_thread", U8), ("delay", U64),
                ("request", U64)]
    kind: int
    guaranteed: int
    limit: int
    first_thread: int
    delay: int
    request: int


class Thread(Numbers):
    """A thread: its task, the commands sent to it, and those that its kept record acknowledges."""

    _fields_ = [("task", U8), ("sent", U64), ("taken", U64)]
    task: int
    sent: int
    taken: int


class Holder(Numbers):
    """Who has a core: the thread unless it is free; of a core that is being left the cause, and for a ban the core that
    it was banned for, for a task that task."""

    enums = {"state": CoreState, "cause": Cause}
    _fields_ = [("state", U8), ("thread", U8), ("cause", U8), ("cause_of", U8)]
    state: int
    thread: int
    cause: int
    cause_of: int


class Ban(Numbers):
    """Whether a core is banned: the thread on its sibling, and when its request was begun, in ticks."""

    _fields_ = [("banned", U8), ("thread", U8), ("started", U64)]
    banned: int
    thread: int
    started: int


class Last(Numbers):
    """To which thread a core was granted last, if to any, and its task."""

    _fields_ = [("granted", U8), ("thread", U8), ("task", U8)]
    granted: int
    thread: int
    task: int


def is_pair(look: Look) -> bool:
    """Whether the versions of a busy look are one odd version, given twice, or an even one and then a greater."""
    return look.second == look.number if look.number % 2 else look.second > look.number


def fault_of_shape(look: Look) -> Optional[Judgement]:
    """Why a look fits no thread, whatever that showed before; None where it may fit."""
    if look.busy:
        return None if is_pair(look) else Judgement.NO_PAIR
    return Judgement.MISSHAPEN if look.running > MOST_CORES or look.misses > MOST_MISSES else None


def taken(look: Look, judged: int) -> Look:
    """The look that a pass by looks taken one by one took, of the one that it was given and its judgement."""
    return look if judged <= BUSY else Look(busy=1, room=look.room, number=1, second=1)
