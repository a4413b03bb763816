"""The actions of a pass, and the rows that a history has of them (docs/FORMATS.md)."""
from __future__ import annotations

from typing import NamedTuple, Optional, Union


class ForBan(NamedTuple):
    """The core is banned for the request on this core, its sibling."""

    by: int


class ForBandwidth(NamedTuple):
    """The bandwidth figure is above its limit."""


class ForTask(NamedTuple):
    """The core is for this task."""

    task: int


Cause = Union[ForBan, ForBandwidth, ForTask]


class Free(NamedTuple):
    """The core's thread has left it: nobody has it."""

    core: int


class Unban(NamedTuple):
    """The core may be granted again."""

    core: int


class Ban(NamedTuple):
    """The core gets no thread: this thread, on its sibling, is at the request that it began at this clock."""

    core: int
    thread: int
    started: int


class Revoke(NamedTuple):
    """The core's thread is told to leave it, for a cause."""

    core: int
    cause: Cause


class Cap(NamedTuple):
    """The best-effort task may have so many cores."""

    task: int
    cap: int


class Grant(NamedTuple):
    """The thread gets the core, by a class from 1 to 5."""

    core: int
    thread: int
    core_class: int


Action = Union[Free, Unban, Ban, Revoke, Cap, Grant]
NAMES: dict[type, str] = {Free: "free", Unban: "unban", Ban: "ban", Revoke: "revoke", Cap: "cap", Grant: "grant"}
CAUSES: dict[type, str] = {ForBan: "ban", ForBandwidth: "bandwidth", ForTask: "preempt"}
# The rows that there are, as they are shown to anyone who wrote another one.
ROWS = ("free,CORE", "unban,CORE", "ban,CORE,THREAD,STARTED", "revoke,CORE,ban,BY", "revoke,CORE,bandwidth",
        "revoke,CORE,preempt,TASK", "cap,TASK,CAP", "grant,CORE,THREAD,CLASS")
PLAIN: dict[tuple[str, int], type] = {("free", 2): Free, ("unban", 2): Unban, ("ban", 4): Ban, ("cap", 3): Cap,
                                      ("grant", 4): Grant}
MOST_CAP, MOST_CLASS, WORD = 16, 5, 1 << 64


def row_of(action: Action) -> str:
    """The row of an action, without its line end."""
    if isinstance(action, Revoke):
        return ",".join(map(str, ("revoke", action.core, CAUSES[type(action.cause)], *action.cause)))
    return ",".join(map(str, (NAMES[type(action)], *action)))


def number_of(text: str) -> Optional[int]:
    """A number of a row: 0, or digits without a zero in front, below 2^64."""
    if not (text.isascii() and text.isdigit()) or (text[0] == "0" and text != "0") or len(text) > 20:
        return None
    number = int(text)
    return number if number < WORD else None


def _cause_of(words: list[str]) -> Optional[Cause]:
    """The cause of a revocation by the words after its core."""
    number = number_of(words[1]) if len(words) == 2 else None
    if words == ["bandwidth"]:
        return ForBandwidth()
    if number is None or words[0] not in ("ban", "preempt"):
        return None
    return ForBan(number) if words[0] == "ban" else ForTask(number)


def action_of(row: str) -> Optional[Action]:
    """The action of a row; none where the row is that of none. That it names the table's cores, threads and tasks is
    for the guard to say."""
    word, *rest = row.split(",")
    if word == "revoke" and len(rest) in (2, 3):
        core, cause = number_of(rest[0]), _cause_of(rest[1:])
        return None if core is None or cause is None else Revoke(core, cause)
    kind, numbers = PLAIN.get((word, len(rest) + 1)), [number_of(it) for it in rest]
    if kind is None or None in numbers:
        return None
    in_range = kind is not Grant or 1 <= (numbers[2] or 0) <= MOST_CLASS
    in_range = in_range and (kind is not Cap or (numbers[1] or 0) <= MOST_CAP)
    action: Action = kind(*numbers)
    return action if in_range else None
