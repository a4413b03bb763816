"""Files that are read and written, with the system's reasons where they cannot be."""
from __future__ import annotations

import contextlib
import errno
import os
import stat
import sys
from typing import Iterable, Optional, Sequence, Union

from .refusal import Refusal

# A text, or the parts of one in their order.
Written = Union[bytes, Iterable[bytes]]
STANDARD = "-"
INPUT_LIMIT = 67_108_864
CHUNK, TRIES = 1 << 20, 100
# What stands between the name of a place and the number of a new file beside it.
PART = ".part"
READ, WROTE = 2, 3


def reason(fault: OSError) -> str:
    """What the system says, or what is said in its place."""
    return f"{os.strerror(fault.errno)} (os error {fault.errno})" if fault.errno else str(fault)


def of_file(name: str, fault: OSError, status: int) -> Refusal:
    """That this file cannot be read, or written. Of a reader that has gone nothing is said."""
    if status == WROTE and fault.errno == errno.EPIPE:
        return Refusal("", status)
    return Refusal(f"{name}: {reason(fault)}", status)


class Source:
    """A file that is read by its name, or the standard input; it is opened at once and read later."""

    def __init__(self, name: Optional[str]) -> None:
        self.name = name
        if name is None:
            self.file = 0
            return
        try:
            self.file = os.open("/dev/stdin" if name == STANDARD else name, os.O_RDONLY | os.O_CLOEXEC)
        except OSError as fault:
            raise of_file(name, fault, READ) from None

    def read(self, front: bytes = b"", limit: int = INPUT_LIMIT) -> bytes:
        """All of it, with what stands in front; both together have the limit of an input, or another."""
        parts, size = [front], len(front)
        try:
            while size <= limit:
                part = os.read(self.file, CHUNK)
                if not part:
                    return b"".join(parts)
                parts.append(part)
                size += len(part)
        except OSError as fault:
            raise Refusal(f"{'input read' if self.name is None else self.name}: {reason(fault)}") from None
        finally:
            if self.name is not None:
                os.close(self.file)
        raise Refusal("input length")


def read_named(name: str) -> bytes:
    """All bytes of the file of this name."""
    try:
        return Source(name).read()
    except Refusal as refusal:
        raise Refusal(f"{name}: input length") if refusal.line == "input length" else refusal from None


def separator(text: bytes) -> Optional[tuple[int, int]]:
    """Where the first line that is exactly --- begins, and where the next line does."""
    at = 0
    while at < len(text):
        found = text.find(b"---", at)
        if found < 0:
            return None
        is_first = found == 0 or text[found - 1:found] == b"\n"
        for end in (b"---\n", b"---\r\n"):
            if is_first and text.startswith(end, found):
                return found, found + len(end)
        at = found + 1
    return None


def tables_joined(tables: Iterable[tuple[str, bytes]]) -> bytes:
    """Task tables, each with the name of its file, as they stand in an input: in order, each with the line --- below
    it."""
    text = b""
    for name, table in tables:
        front = table + (b"" if table.endswith(b"\n") else b"\n") + b"---\n"
        cut = separator(front)
        if cut is None or cut[1] != len(front):
            raise Refusal(f"{name}: a line --- in a task table")
        text += front
    return text


def joined(names: Sequence[str]) -> bytes:
    """The task tables of these files as they stand in an input."""
    return tables_joined((it, read_named(it)) for it in names)


class Output:
    """Where an answer goes: the standard output, or a file, which takes its name once the answer is whole. That it can
    be written is tried at once."""

    def __init__(self, name: Optional[str]) -> None:
        self.name, self.device = name, -1
        if name is None:
            return
        try:
            self.device, beside = open_beside(name)
        except OSError as fault:
            raise of_file(name, fault, WROTE) from None
        if beside:
            os.close(self.device)
            self.device = -1
            os.remove(beside)

    @property
    def is_later(self) -> bool:
        """Whether the answer is kept until the end."""
        return self.name is not None and self.device < 0

    def put(self, text: Written) -> None:
        """Writes the answer to the standard output or to a device."""
        file = 1 if self.name is None else self.device
        try:
            write_all(file, text)
        except OSError as fault:
            raise of_file(self.name or "write", fault, WROTE) from None

    def keep(self, text: Written) -> None:
        """Writes the answer to its file, whole or not at all."""
        name = self.name or ""
        try:
            write_beside(name, text)
        except OSError as fault:
            raise of_file(name, fault, WROTE) from None


def write_part(file: int, part: bytes) -> None:
    """Writes all of a part of a text."""
    rest = memoryview(part)
    while rest:
        rest = rest[os.write(file, rest):]


def write_all(file: int, text: Written) -> None:
    """Writes all of a text."""
    for part in [text] if isinstance(text, bytes) else text:
        write_part(file, part)


def open_beside(name: str) -> tuple[int, str]:
    """A new file beside this place, opened, with its name; or the place itself, with none, where something is there
    that is no file."""
    try:
        there = os.stat(name)
    except OSError:
        return create_beside(name)
    file = os.open(name, os.O_WRONLY | os.O_CLOEXEC)
    if not stat.S_ISREG(there.st_mode):
        return file, ""
    os.close(file)
    beside, its_name = create_beside(os.path.realpath(name))
    try:
        os.fchmod(beside, stat.S_IMODE(there.st_mode))
    except OSError:
        os.close(beside)
        os.remove(its_name)
        raise
    return beside, its_name


def create_beside(place: str) -> tuple[int, str]:
    """A new file beside this place, with its name."""
    for number in range(TRIES):
        beside = f"{place}{PART}{number}"
        with contextlib.suppress(FileExistsError):
            return os.open(beside, os.O_WRONLY | os.O_CREAT | os.O_EXCL | os.O_CLOEXEC, 0o666), beside
    raise OSError("entity already exists")


def write_beside(name: str, text: Written) -> None:
    """Writes this text to this place, whole or not at all, also where it is interrupted."""
    file, beside = open_beside(name)
    try:
        write_all(file, text)
        if beside:
            os.replace(beside, beside.rpartition(PART)[0])
    except BaseException:
        if beside:
            with contextlib.suppress(OSError):
                os.remove(beside)
        raise
    finally:
        os.close(file)


def say(text: str) -> None:
    """Writes on the standard error, as far as that takes it."""
    with contextlib.suppress(OSError):
        write_all(2, text.encode("utf-8", "surrogateescape"))


def is_terminal() -> bool:
    """Whether the standard error is a terminal."""
    return sys.stderr is not None and os.isatty(2)
