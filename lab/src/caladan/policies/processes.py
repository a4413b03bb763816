"""A policy that is a program of its own, in any language. It reads a task table, the line ---, and a history: of each
pass the row `pass` and the looks, and then an empty line. It answers with the rows of the pass's actions, and an empty
line. After the last pass it reads the row `end`, and ends."""
from __future__ import annotations

import ctypes
import os
import select
import shlex
import signal
import subprocess
import time
from dataclasses import dataclass
from typing import Optional, Sequence

from ..refusal import Refusal
from ..tables import SEPARATOR
from ..words.arg import EXEC as PREFIX
from ..world.actions import ROWS, Action, action_of
from ..world.board import Board
from ..world.runs import HEADER, World
from .policy import refusal_of

PATIENCE = 10
# The longest row of an answer, in bytes; no action's is as long.
LONGEST, CHUNK, SHOWN = 200, 1 << 16, 60
DIE_WITH_PARENT = 1


def die_with_parent() -> None:
    """What a process does before its program begins: it ends when the one that began it does."""
    ctypes.CDLL(None).prctl(DIE_WITH_PARENT, signal.SIGKILL)


def shown(row: bytes) -> str:
    """A row as a fault shows it."""
    text = row[:SHOWN].decode("utf-8", "replace")
    text = "".join(it if it.isprintable() else "?" for it in text)
    return f"`{text}`" + (" .." if len(row) > SHOWN else "")


@dataclass(frozen=True)
class ProcessPolicy:
    """A policy that is a program: its command, and for how many seconds an answer is waited for."""

    command: str
    patience: float = PATIENCE

    @property
    def called(self) -> str:
        return f"{PREFIX}{self.command}"


class Talk:
    """A process that is talked with, row by row: each read and each write waits for it no longer than so many
    seconds."""

    def __init__(self, command: str, patience: float) -> None:
        self.name, self.patience = f"{PREFIX}{command}", patience
        self.rows, self.buffer = 0, b""
        try:
            words = shlex.split(command)
            if not words:
                raise ValueError("no program is named")
            self.process = subprocess.Popen(words, stdin=subprocess.PIPE, stdout=subprocess.PIPE,
                                            preexec_fn=die_with_parent)
        except (OSError, ValueError) as fault:
            raise Refusal(f"{self.name}: {getattr(fault, 'strerror', None) or fault}") from None
        assert self.process.stdin is not None and self.process.stdout is not None
        self.into, self.out = self.process.stdin, self.process.stdout
        os.set_blocking(self.into.fileno(), False)
        os.set_blocking(self.out.fileno(), False)

    def fault(self, said: str) -> Refusal:
        return Refusal(f"{self.name}: {said}")

    def wait(self, file: int, event: int, until: float) -> bool:
        """Whether a file is ready before a moment."""
        poll = select.poll()
        poll.register(file, event)
        return bool(poll.poll(max(until - time.monotonic(), 0) * 1000))

    def write(self, text: bytes, what: str) -> None:
        """Writes a text, which is said to be this."""
        until, rest = time.monotonic() + self.patience, memoryview(text)
        while rest:
            if not self.wait(self.into.fileno(), select.POLLOUT, until):
                raise self.fault(f"it does not read {what} within {self.patience:g} s")
            try:
                rest = rest[os.write(self.into.fileno(), rest):]
            except BlockingIOError:
                continue
            except BrokenPipeError:
                raise self.ended(f"before it has read {what}") from None

    def ended(self, when: str) -> Refusal:
        """That it has ended too early."""
        status = self.status()
        if status is None:
            return self.fault(f"it closes its output {when}, after {self.rows} rows")
        how = f"with status {status}" if status >= 0 else f"by signal {-status}"
        return self.fault(f"it ends {how} {when}, after {self.rows} rows")

    def status(self) -> Optional[int]:
        """The status with which it ends; none where it does not end in time."""
        try:
            return self.process.wait(self.patience)
        except subprocess.TimeoutExpired:
            return None

    def more(self, until: float) -> Optional[bytes]:
        """More of what it writes, empty at the end; none where nothing comes before a moment."""
        while self.wait(self.out.fileno(), select.POLLIN, until):
            try:
                return os.read(self.out.fileno(), CHUNK)
            except BlockingIOError:
                continue
        return None

    def row(self, when: str) -> bytes:
        """The next row that it writes, without its line end."""
        until = time.monotonic() + self.patience
        while b"\n" not in self.buffer and len(self.buffer) <= LONGEST:
            part = self.more(until)
            if part is None:
                raise self.fault(f"silent for {self.patience:g} s {when}: row {self.rows + 1} does not come; is the "
                                 "empty line written that ends a pass, and flushed? --patience SECONDS waits longer")
            if not part:
                raise self.ended(f"{when}, before the empty line that ends the pass")
            self.buffer += part
        row, _, self.buffer = self.buffer.partition(b"\n")
        self.rows += 1
        if len(row) > LONGEST:
            raise self.fault(f"row {self.rows}, {when}, is {shown(row)}: a row of more than {LONGEST} bytes")
        return row.removesuffix(b"\r")

    def refuse_early(self, when: str) -> None:
        """Refuses rows that it wrote without being asked."""
        if not self.buffer:
            self.buffer = self.more(time.monotonic()) or b""
        if self.buffer:
            row = self.buffer.partition(b"\n")[0]
            raise self.fault(f"row {self.rows + 1}, {shown(row)}, comes {when}")

    def close(self) -> None:
        """Ends it, if it has not ended."""
        if self.process.poll() is None:
            self.process.kill()
        self.process.wait()
        for file in (self.into, self.out):
            try:
                file.close()
            except BrokenPipeError:
                pass


class ProcessGuarded:
    """The same behind the guard: what makes the passes of one run, which is a world's."""

    def __init__(self, policy: ProcessPolicy, world: World) -> None:
        self.talk, self.world = Talk(policy.command, policy.patience), world
        # An empty line ends the looks of a pass, and stands nowhere else.
        table = world.board.table.text().replace(b"\n\n", b"\n")
        self.head = table + SEPARATOR + f"{HEADER}\n".encode()

    def show(self, rows: Sequence[str], what: str) -> None:
        """Writes rows, at first below the head of all."""
        text, self.head = self.head + "".join(f"{it}\n" for it in rows).encode(), b""
        self.talk.write(text, what)

    def __call__(self, board: Board) -> None:
        """Makes a pass that has begun."""
        when = f"in pass {board.number}"
        self.talk.refuse_early(f"before the looks of pass {board.number} are shown")
        self.show([*self.world.begun, ""], f"the looks of pass {board.number}")
        while row := self.talk.row(when):
            self.take(board, row, when)
        refusal = refusal_of(self.talk.name, board, None)
        if refusal is not None:
            raise refusal

    def take(self, board: Board, row: bytes, when: str) -> None:
        """Makes the action of a row."""
        action: Optional[Action] = action_of(row.decode("ascii", "replace"))
        if action is None:
            raise self.talk.fault(f"row {self.talk.rows}, {when}, is {shown(row)}; wanted: an empty line, or one of "
                                  f"{' '.join(ROWS)}")
        refusal = refusal_of(self.talk.name, board, action)
        if refusal is not None:
            raise refusal
        board.do(action)

    def end(self) -> None:
        """Tells it that there is no further pass, and waits for its end."""
        talk, after = self.talk, "after the last pass"
        talk.refuse_early(after)
        self.show([f"end,{self.world.board.number + 1}"], "the row end")
        talk.into.close()
        part = talk.more(time.monotonic() + talk.patience)
        if part:
            talk.buffer = part
            talk.refuse_early(after)
        status = talk.status() if part is not None else None
        if status is None:
            raise talk.fault(f"it does not end within {talk.patience:g} s after the row end")
        if status:
            raise talk.fault(f"it ends with status {status} after the row end")

    def close(self) -> None:
        """Ends the process, if it has not ended."""
        self.talk.close()
