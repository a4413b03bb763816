"""What cannot be done, as it is told."""
from __future__ import annotations

NAME = "caladan_lab"


class Refusal(Exception):
    """What cannot be done: the line that says so, without the program's name; the lines below it, each ended; and the
    exit status. Without a line nothing is said."""

    def __init__(self, line: str, status: int = 2, below: str = "") -> None:
        super().__init__(line)
        self.line, self.status, self.below = line, status, below

    def __str__(self) -> str:
        """The line, and those below it."""
        return f"{self.line}\n{self.below}".strip("\n")

    @property
    def said(self) -> str:
        return self.told_by(NAME)

    def told_by(self, name: str) -> str:
        """All that a program of this name says."""
        return f"{name}: {self.line}\n{self.below}" if self.line else self.below
