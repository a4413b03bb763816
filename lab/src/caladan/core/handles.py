"""A scheduler, a guard and an audit: handles that close themselves. Each may move between threads, and is used by one
at a time. Numbers that do not fit, as a negative clock, are a ValueError before anything is called."""
from __future__ import annotations

import ctypes
import functools
import warnings
from types import TracebackType
from typing import Any, Callable, Iterable, Iterator, Optional, Sequence, TypeVar, Union, cast

from .constants import MOST_ACTIONS, PLACES, Answer, Judgement, Kind, Policy, TaskKind
from .layout import (SIZE, U8, U32, U64, Action, Ban, Counts, Handle, Holder, Last, Look, Machine, Numbers, Refused,
                     TableTask, Thread, fault_of_shape, fitting)
from .library import GivenLibrary, library_of
from .refusals import CallRefused, Lost, NotPermitted, Unfit

Table = Union[str, bytes, bytearray, memoryview]
Told = TypeVar("Told", bound=Numbers)
Own = TypeVar("Own", bound="Kept")
Opening = TypeVar("Opening", bound=Callable[..., Any])
LAST_CLOCK = (1 << 64) - 1
FAULTS_OF_TABLES = range(Answer.NOT_TOML, Answer.NO_MEMORY)


def library_first(call: Opening) -> Opening:
    """For a version more the library may stand first, as in `Scheduler(ctypes.CDLL(..), table)`."""
    @functools.wraps(call)
    def either(self: Any, *given: Any, **named: Any) -> Any:
        if given and isinstance(given[0], ctypes.CDLL):
            warnings.warn(f"{type(self).__name__}(library, table): the library goes last, or is found",
                          DeprecationWarning, stacklevel=2)
            self.is_library_first = True
            return call(self, *given[1:], **{**named, "library": given[0]})
        return call(self, *given, **named)
    return cast(Opening, either)


def array(kind: Any, values: Sequence[Any]) -> Any:
    """An array of these, each of which fits."""
    if not issubclass(kind, Numbers):
        return (kind * len(values))(*[fitting(it, kind) for it in values])
    for it in values:
        if not isinstance(it, kind):
            raise TypeError(f"a {kind.__name__} is wanted, not {it!r}")
    return (kind * len(values))(*values)


def judgements(judged: Iterable[int]) -> list[Judgement]:
    """The judgements that were written, one for each look; none where none was."""
    return [Judgement(it) for it in judged if it]


class Kept:
    """What a handle keeps. It is closed at the end of `with`, by close(), or once nothing refers to it, which a
    ResourceWarning tells."""

    prefix = "caladan_"
    # Whether its library was given before its table.
    is_library_first = False

    def __init__(self, table: Table, policy: Optional[int], library: GivenLibrary) -> None:
        self.handle = Handle()
        self.library = library_of(library)
        text = table.encode() if isinstance(table, str) else bytes(memoryview(table))
        more = [] if policy is None else [U32(fitting(policy, U32))]
        name = "open" if policy is None else "open_policy"
        answer = self.call(name, text, SIZE(len(text)), *more, where=2 + len(more))
        if answer in FAULTS_OF_TABLES:
            raise CallRefused(answer, "`caladan_view check` says where")
        self.answered(answer)

    def __enter__(self: Own) -> Own:
        return self

    def __exit__(self, kind: Optional[type[BaseException]], fault: Optional[BaseException],
                 trace: Optional[TracebackType]) -> None:
        if self.is_open:
            self.close()

    def __del__(self) -> None:
        if getattr(self, "handle", None) is not None and self.is_open:
            warnings.warn(f"{type(self).__name__} was not closed", ResourceWarning, source=self)
            self.close()

    def __repr__(self) -> str:
        return f"<{type(self).__name__}: {self.told_of() if self.is_open else 'closed'}>"

    def told_of(self) -> str:
        """What its repr says of one that is open."""
        return "open"

    @property
    def is_open(self) -> bool:
        """Whether it is open."""
        return bool(self.handle.open)

    def call(self, name: str, *arguments: Any, where: int = 0, answers: Any = U8) -> int:
        """Calls a function, with the handle as the argument at this place."""
        function = getattr(self.library, self.prefix + name)
        function.restype = answers
        return int(function(*arguments[:where], ctypes.byref(self.handle), *arguments[where:]))

    def answered(self, answer: int) -> None:
        """Refuses any answer but DONE."""
        if answer:
            raise CallRefused(answer)

    def close(self) -> None:
        """Lets go of what the handle keeps; CallRefused where it is closed."""
        self.answered(self.call("close"))


class Counted(Kept):
    """One that says what a task, a thread, a core and the table have. CallRefused, NO_SUCH, of one that the table has
    not."""

    def told_of(self) -> str:
        machine = self.machine()
        return f"{machine.cores} cores, {machine.tasks} tasks, {machine.threads} threads"

    def told(self, name: str, kind: type[Told], *arguments: Any) -> Told:
        """What a function writes."""
        out = kind()
        self.answered(self.call(name, *arguments, ctypes.byref(out)))
        return out

    def of_core(self, name: str, kind: type[Told], core: int) -> Told:
        """What a function writes of a core; no table has core 255."""
        return self.told(name, kind, U8(min(fitting(core, SIZE), 255)))

    def task(self, number: int) -> Counts:
        """What a task has, in cores."""
        return self.told("task", Counts, SIZE(fitting(number, SIZE)))

    def first_unfit(self, looks: Sequence[Look]) -> Optional[int]:
        """The first thread whose look a pass of all looks would not take, or None."""
        thread = SIZE()
        answer = self.call("first_unfit", array(Look, looks), SIZE(len(looks)), ctypes.byref(thread))
        if answer == Answer.UNFIT:
            return thread.value
        self.answered(answer)
        return None

    def machine(self) -> Machine:
        """What the table says of the machine."""
        return self.told("table", Machine)

    def table(self) -> list[TableTask]:
        """What the table says of each task, in order."""
        return [self.told("table_task", TableTask, SIZE(task)) for task in range(self.machine().tasks)]

    def thread(self, number: int) -> Thread:
        """A thread's task, the commands sent to it, and those that its kept record acknowledges."""
        return self.told("thread", Thread, SIZE(fitting(number, SIZE)))

    def has_room(self, number: int) -> bool:
        """Whether the ring of a thread has room, by what was sent and the kept record alone."""
        thread = self.thread(number)
        return thread.sent - thread.taken < PLACES

    def kept(self, number: int) -> Look:
        """The kept record of a thread, as a look in which all but the words is 0."""
        return self.told("kept", Look, SIZE(fitting(number, SIZE)))

    def holder(self, core: int) -> Holder:
        """Who has a core."""
        return self.of_core("holder", Holder, core)

    def gone(self, number: int) -> Look:
        """What the page of a thread must show once the thread is gone, as a look; Lost where none can."""
        look = Look()
        answer = self.call("gone", SIZE(fitting(number, SIZE)), ctypes.byref(look))
        if answer == Answer.LOST:
            raise Lost(number)
        self.answered(answer)
        return look

    def commands(self, actions: Iterable[Action]) -> Iterator[tuple[int, Optional[int]]]:
        """What the last pass's actions send: (thread, None) Park, (thread, core) Run of the core."""
        for action in actions:
            if action.kind == Kind.GRANT:
                yield action.thread, action.core
            if action.kind == Kind.REVOKE:
                yield self.holder(action.core).thread, None

    def unfit(self, looks: Sequence[Look]) -> Unfit:
        """That a look does not fit."""
        thread = self.first_unfit(looks) or 0
        return Unfit(thread, looks[thread], fault_of_shape(looks[thread]))


class Scheduler(Counted):
    """A task table and its passes, by a policy. A table is bytes, or a str, which is read as UTF-8. CallRefused of one
    that is none, NoLibrary where there is no library."""

    @library_first
    def __init__(self, table: Table, policy: int = Policy.CALADAN, library: GivenLibrary = None) -> None:
        super().__init__(table, policy, library)
        self.threads = self.call("threads", answers=SIZE)

    def bandwidth_limit(self) -> int:
        """The bandwidth figure above which a best-effort task loses a core; 0 of one that is closed."""
        return self.call("bandwidth_limit", answers=U64)

    def run(self, now: int, bandwidth: int, looks: Sequence[Look]) -> tuple[list[Judgement], list[Action]]:
        """The next pass, at a clock in ticks: what was judged of each look, and the actions. Unfit names the first
        thread whose look does not fit; nothing has changed then."""
        answer, judged, actions = self.passed("pass", now, bandwidth, looks)
        if answer == Answer.UNFIT:
            raise self.unfit(looks)
        self.answered(answer)
        return judged, actions

    def run_each(self, now: int, bandwidth: int, looks: Sequence[Look]) -> tuple[list[Judgement], list[Action]]:
        """The next pass, each look by itself: a look that is unfit, ahead or foreign is taken as a busy one, and its
        judgement, above BUSY, says why (JUDGEMENT_TEXTS)."""
        answer, judged, actions = self.passed("pass_each", now, bandwidth, looks)
        self.answered(answer)
        return judged, actions

    def passed(self, name: str, now: int, bandwidth: int,
               looks: Sequence[Look]) -> tuple[int, list[Judgement], list[Action]]:
        """The answer of a pass, with what it wrote."""
        judged, actions, made = (U8 * self.threads)(), (Action * MOST_ACTIONS)(), SIZE()
        answer = self.call(name, U64(fitting(now, U64)), U64(fitting(bandwidth, U64)), array(Look, looks),
                           SIZE(len(looks)), judged, SIZE(self.threads), actions, SIZE(MOST_ACTIONS),
                           ctypes.byref(made))
        if answer:
            return answer, [], []
        return answer, judgements(judged), [Action.from_buffer_copy(it) for it in actions[:made.value]]

    def next_clock(self, now: int) -> Optional[int]:
        """When to make the next pass after one at `now` that made no action, if no look, no ring's room and no side of
        the bandwidth limit changes until then: no pass before that clock makes an action. None: at no clock. As
        caladan_next_clock, by the table and the kept records."""
        clocks: list[int] = []
        for row in self.table():
            kept = [self.kept(thread) for thread in range(row.first_thread, row.first_thread + row.limit)]
            clocks += [it.oldest + row.delay + 1 for it in kept if it.queued]
            clocks += [it.since + row.delay + 1 for it in kept if it.paused]
            is_critical = row.kind == TaskKind.LATENCY_CRITICAL
            clocks += [it.started + row.request + 1 for it in kept if is_critical and it.running and it.started]
        return min((clock for clock in clocks if now < clock < LAST_CLOCK), default=None)


class Audit(Kept):
    """Recorded passes, one after the other, and whether all of them are legal by a policy."""

    prefix = "caladan_audit_"

    @library_first
    def __init__(self, table: Table, policy: int = Policy.CALADAN, library: GivenLibrary = None) -> None:
        super().__init__(table, policy, library)

    def told_of(self) -> str:
        first = self.verdict()
        return "legal so far" if first is None else f"illegal pass {first}"

    def take(self, now: int, bandwidth: int, looks: Sequence[Look], judged: Sequence[int],
             actions: Sequence[Action]) -> None:
        """Takes the next recorded pass, legal or not."""
        self.answered(self.call("pass", U64(fitting(now, U64)), U64(fitting(bandwidth, U64)), array(Look, looks),
                                SIZE(len(looks)), array(U8, judged), SIZE(len(judged)), array(Action, actions),
                                SIZE(len(actions))))

    def verdict(self) -> Optional[int]:
        """None where all passes so far are legal, else the number of the first that is not, from 0."""
        first = U64()
        answer = self.call("verdict", ctypes.byref(first))
        if answer == Answer.ILLEGAL:
            return first.value
        self.answered(answer)
        return None


class Guard(Counted):
    """Passes whose actions somebody else chose, by whatever policy."""

    prefix = "caladan_guard_"

    @library_first
    def __init__(self, table: Table, library: GivenLibrary = None) -> None:
        super().__init__(table, None, library)

    def run(self, now: int, bandwidth: int, looks: Sequence[Look], actions: Sequence[Action]) -> list[Judgement]:
        """The next pass, where its actions are permitted: what was judged of each look. NotPermitted where one is not,
        Unfit where a look does not fit: nothing has changed then. For a version more, a guard whose library was given
        first answers a pair: that and None, or None and a Refused."""
        if not self.is_library_first:
            return self.handed("pass", now, bandwidth, looks, actions)
        try:
            return self.handed("pass", now, bandwidth, looks, actions), None  # type: ignore[return-value]
        except NotPermitted as why:
            return None, why.refused  # type: ignore[return-value]

    def run_each(self, now: int, bandwidth: int, looks: Sequence[Look], actions: Sequence[Action]) -> list[Judgement]:
        """The same, each look by itself: a look that is unfit, ahead or foreign is taken as a busy one, and its
        judgement, above BUSY, says why (JUDGEMENT_TEXTS). NotPermitted has the judgements too."""
        return self.handed("pass_each", now, bandwidth, looks, actions)

    def judge(self, looks: Sequence[Look]) -> list[Judgement]:
        """What run_each would judge of each look now. Nothing changes."""
        judged = (U8 * len(looks))()
        self.answered(self.call("judge", array(Look, looks), SIZE(len(looks)), judged, SIZE(len(looks))))
        return judgements(judged)

    def ban(self, core: int) -> Ban:
        """Whether a core is banned, and for whom."""
        return self.of_core("ban", Ban, core)

    def last(self, core: int) -> Last:
        """To which thread a core was granted last, and its task."""
        return self.of_core("last", Last, core)

    def unfit(self, looks: Sequence[Look]) -> Unfit:
        """That a look does not fit, and why."""
        thread = self.first_unfit(looks) or 0
        return Unfit(thread, looks[thread], self.judge(looks)[thread])

    def handed(self, name: str, now: int, bandwidth: int, looks: Sequence[Look],
               actions: Sequence[Action]) -> list[Judgement]:
        """Hands in a pass."""
        judged, refused = (U8 * len(looks))(), Refused()
        answer = self.call(name, U64(fitting(now, U64)), U64(fitting(bandwidth, U64)), array(Look, looks),
                           SIZE(len(looks)), judged, SIZE(len(looks)), array(Action, actions), SIZE(len(actions)),
                           ctypes.byref(refused))
        if answer == Answer.NOT_PERMITTED:
            action = actions[refused.place] if refused.place < len(actions) else None
            raise NotPermitted(refused, action, judgements(judged))
        if answer == Answer.UNFIT:
            raise self.unfit(looks)
        self.answered(answer)
        return judgements(judged)
