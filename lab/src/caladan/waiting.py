"""That something goes on, where it takes more than two seconds: a line on a terminal, which is removed at the end."""
from __future__ import annotations

import threading
import time
from types import TracebackType
from typing import Optional

from .files import say

PATIENCE, STEADY = 2.0, 1.0


class Waiting:
    """Shows what goes on and for how many seconds, from the third on, where that is asked for."""

    def __init__(self, what: str, is_shown: bool) -> None:
        self.what, self.is_shown, self.began = what, is_shown, time.monotonic()
        self.is_over, self.was_shown = threading.Event(), False

    def show(self) -> None:
        """Shows it, anew each second, until it is over."""
        pause = PATIENCE
        while not self.is_over.wait(pause):
            say(f"\r{self.what}, {time.monotonic() - self.began:.0f} s\x1b[K")
            self.was_shown, pause = True, STEADY

    def __enter__(self) -> "Waiting":
        self.thread = threading.Thread(target=self.show, daemon=True)
        if self.is_shown:
            self.thread.start()
        return self

    def __exit__(self, kind: Optional[type[BaseException]], fault: Optional[BaseException],
                 trace: Optional[TracebackType]) -> None:
        self.is_over.set()
        if self.is_shown:
            self.thread.join()
        if self.was_shown:
            say("\r\x1b[K")
