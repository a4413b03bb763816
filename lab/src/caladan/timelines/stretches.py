"""The slices of spans and of bans."""
from __future__ import annotations

from dataclasses import dataclass
from typing import Iterable, Iterator, Optional, Sequence

from .page import BANS, CORES, Page

HELD, LEAVING, BANNED = "held", "leaving", "banned"


@dataclass(frozen=True)
class Ended:
    """A span or a ban: its core, the pass that ends it, if one does, and its slices."""

    core: int
    to_pass: Optional[int]
    text: str


@dataclass(frozen=True)
class Stretches:
    """The spans and the bans of a history: those that end, in the order in which they do, and those that go on."""

    spans: tuple[Ended, ...]
    bans: tuple[Ended, ...]

    def going_on(self, cores: int) -> Iterator[str]:
        """The slices of what goes on at the end, core by core."""
        spans, bans = ({it.core: it.text for it in of if it.to_pass is None} for of in (self.spans, self.bans))
        for core in range(cores):
            yield from (of[core] for of in (spans, bans) if core in of)


def _arguments(cells: Sequence[str], cause: str = "") -> str:
    """What is said of a stretch: of a row of spans, by its cells."""
    _, thread, task, of_class, _, _, _, _, started, from_pass, to_pass, from_clock, to_clock = cells
    said = f'"thread":{thread},"task":{task},'
    said += f'"class":{of_class},' if of_class else ""
    said += cause
    said += f'"started":{started},' if started else ""
    said += f'"from_pass":{from_pass},'
    said += f'"to_pass":{to_pass},' if to_pass else ""
    said += f'"from_clock":{from_clock}'
    return said + (f',"to_clock":{to_clock}' if to_clock else "")


def _slice(page: Page, cells: Sequence[str], last: int, head: str, said: str) -> str:
    """A slice of a core, to this clock where it goes on."""
    front = page.stretch(int(cells[11]), int(cells[12]) if cells[12] else last)
    return f'{front},{head},"tid":{cells[0]},"args":{{{said}{page.explained(cells)}}}}}'


def _cause(page: Page, cells: Sequence[str]) -> tuple[str, str]:
    """Why a core is being left: what the slice is called, and what is said of it."""
    why, by_core, for_task = cells[5:8]
    if why == "ban":
        return f"leaving: ban by core {by_core}", f'"cause":"ban","by_core":{by_core},'
    if why == "preempt":
        return f"leaving: for {page.tasks[int(for_task)]}", f'"cause":"preempt","for_task":{for_task},'
    return f"leaving: {why}", f'"cause":"{why}",'


def _span(page: Page, held: Sequence[str], leaving: Optional[Sequence[str]], last: int) -> Ended:
    """A span, of its row while it is held, and of the one in which its core is being left, if there is one."""
    whole = [*held[:10], *(leaving or held)[10:11], held[11], (leaving or held)[12]]
    owner = page.owners[int(held[1])]
    head = f'"name":"{owner.front}thread {held[1]}","cat":"span","ph":"X","cname":"{owner.colour}","pid":{CORES}'
    text = _slice(page, whole, last, head, _arguments(whole))
    if leaving is not None:
        name, cause = _cause(page, leaving)
        head = f'"name":"{name}","cat":"leaving","ph":"X","pid":{CORES}'
        text += ",\n" + _slice(page, leaving, last, head, _arguments(leaving, cause))
    return Ended(int(held[0]), int(whole[10]) if whole[10] else None, text)


def _ban(page: Page, cells: Sequence[str], last: int) -> Ended:
    head = f'"name":"banned for thread {cells[1]}","cat":"ban","ph":"X","pid":{BANS}'
    return Ended(int(cells[0]), int(cells[10]) if cells[10] else None,
                 _slice(page, cells, last, head, _arguments(cells)))


def _spans(page: Page, rows: Iterable[Sequence[str]], last: int) -> Iterator[Ended]:
    """The spans of rows. One that is revoked has two, the other below the first."""
    held: Optional[Sequence[str]] = None
    for cells in rows:
        if cells[4] == LEAVING and held is not None:
            yield _span(page, held, cells, last)
            held = None
        else:
            if held is not None:
                yield _span(page, held, None, last)
            held = cells
    if held is not None:
        yield _span(page, held, None, last)


def stretches_of(page: Page, spans: bytes, last: int) -> Stretches:
    """The spans and the bans of what `spans` tells of a history with this last clock."""
    rows = [line.split(",") for line in spans.decode().splitlines()[1:]]
    of_spans = (it for it in rows if it[4] != BANNED)
    return Stretches(tuple(_spans(page, of_spans, last)),
                     tuple(_ban(page, it, last) for it in rows if it[4] == BANNED))
