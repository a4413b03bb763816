"""How far many runs are, on a terminal: drawn by rich where that is installed and the terminal can do it, else a line
that is written anew. Both are removed at the end."""
from __future__ import annotations

import os
import threading
import time
from typing import Optional, Protocol

from .files import say

PATIENCE, STEADY = 2000, 200


class Shown(Protocol):
    """What shows how many of some parts are done, and about how many seconds the others take."""

    def show(self, done: int, left: int) -> None:
        """Shows it in place of what is shown."""

    def end(self) -> None:
        """Removes what is shown."""


class Line:
    """A line."""

    def __init__(self, parts: int) -> None:
        self.parts = parts

    def show(self, done: int, left: int) -> None:
        say(f"\r{done} of {self.parts} done, about {left} s left\x1b[K")

    def end(self) -> None:
        say("\r\x1b[K")


class Bar:
    """A bar with the same words, by rich. ImportError where that is not installed."""

    def __init__(self, parts: int) -> None:
        from rich.console import Console
        from rich.progress import BarColumn, Progress, TextColumn
        words = TextColumn("{task.completed} of {task.total} done, about {task.fields[left]} s left")
        self.drawn = Progress(BarColumn(), words, console=Console(stderr=True), transient=True, auto_refresh=False)
        self.parts = parts

    def show(self, done: int, left: int) -> None:
        if not self.drawn.task_ids:
            self.drawn.add_task("", total=self.parts, completed=done, left=left)
            self.drawn.start()
        self.drawn.update(self.drawn.task_ids[0], completed=done, left=left, refresh=True)

    def end(self) -> None:
        self.drawn.stop()


def shown(parts: int) -> Shown:
    """A bar where there can be one, else a line."""
    if os.environ.get("TERM", "dumb") in ("dumb", "unknown"):
        return Line(parts)
    try:
        return Bar(parts)
    except ImportError:
        return Line(parts)


class Progress:
    """How many of some parts are done. That is shown after two seconds, where it is asked for."""

    def __init__(self, parts: int, is_shown: bool) -> None:
        self.parts, self.is_shown, self.began = parts, is_shown, time.monotonic()
        self.done, self.written, self.lock = 0, 0, threading.Lock()
        self.shown: Optional[Shown] = None

    def made(self, many: int = 1) -> None:
        """One more is done, or so many."""
        with self.lock:
            self.done += many
            after = int((time.monotonic() - self.began) * 1000)
            if self.is_shown and after >= PATIENCE and after >= self.written + STEADY:
                self.written = after
                self.shown = self.shown or shown(self.parts)
                self.shown.show(self.done, after * (self.parts - self.done) // max(self.done, 1) // 1000)

    def ended(self) -> None:
        """No more is made."""
        with self.lock:
            self.is_shown = False
            if self.shown:
                self.shown.end()
                self.shown = None
