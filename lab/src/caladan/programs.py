"""The program that the lab asks: which it is, and what it answers. Each question is a process of its own; what goes in
and out is in memory, so that an interrupt leaves no file."""
from __future__ import annotations

import functools
import os
import re
import shutil
import signal
import subprocess
import sys
import threading
from dataclasses import dataclass
from typing import Optional, Protocol, Sequence, Union

from . import __version__
from .refusal import Refusal

VIEW, SIM = "caladan_view", "caladan_sim"
TABLE = b"""cores = 2
bandwidth_limit = 0
[[task]]
kind = "lc"
guaranteed = 0
limit = 1
delay = 0
request = 0
"""


@dataclass(frozen=True)
class Text:
    """A text that the program reads as a file by name."""

    bytes: bytes


class Came:
    """The word for a file that the program writes: when requests came."""


Word = Union[str, Text, Came]


@dataclass(frozen=True)
class Ran:
    """What came of a question: the status, both outputs, and when requests came, where that was asked for."""

    status: int
    out: bytes
    err: str
    came: bytes = b""


class Interrupted(Exception):
    """No more is asked."""


class Running(Protocol):
    """A process that can be ended."""

    def kill(self) -> None:
        """Ends it."""


class Asking:
    """The processes that run now. Once it is ended none is begun."""

    def __init__(self) -> None:
        self.lock, self.running, self.is_ended = threading.Lock(), set[Running](), False

    def begin(self, words: Sequence[str], files: Sequence[int], **how: int) -> subprocess.Popen[bytes]:
        with self.lock:
            if self.is_ended:
                raise Interrupted
            process = subprocess.Popen(words, pass_fds=files, **how)  # type: ignore[call-overload]
            self.running.add(process)
        return process  # type: ignore[no-any-return]

    def note(self, process: Running) -> None:
        """Notes a process that was begun elsewhere."""
        with self.lock:
            self.running.add(process)

    def ended(self, process: Running) -> None:
        with self.lock:
            self.running.discard(process)

    def end(self) -> None:
        """Ends all that run, and begins no more."""
        with self.lock:
            self.is_ended = True
            for process in self.running:
                process.kill()


ASKING = Asking()


def in_memory(text: bytes = b"") -> int:
    """A file that is nowhere but in memory, at its beginning."""
    file = os.memfd_create(NAME_IN_MEMORY, os.MFD_CLOEXEC)
    rest = memoryview(text)
    while rest:
        rest = rest[os.write(file, rest):]
    os.lseek(file, 0, os.SEEK_SET)
    return file


NAME_IN_MEMORY = "caladan_lab"


def all_of(file: int) -> bytes:
    """All bytes of a file, or of a pipe to its end."""
    parts = []
    while part := os.read(file, 1 << 20):
        parts.append(part)
    return b"".join(parts)


def from_start(file: int) -> bytes:
    os.lseek(file, 0, os.SEEK_SET)
    return all_of(file)


class Question:
    """One question to a program: its words with the files that they name, and what it reads."""

    def __init__(self, file: str, words: Sequence[Word], given: bytes) -> None:
        self.open: list[int] = []
        self.passed: list[int] = []
        self.came: tuple[int, int] = (-1, -1)
        self.words = [file, *map(self.name_of, words)]
        self.given, self.out, self.err = (self.keep(in_memory(it)) for it in (given, b"", b""))

    def keep(self, file: int) -> int:
        self.open.append(file)
        return file

    def name_of(self, word: Word) -> str:
        """The name of a file that a word stands for."""
        if isinstance(word, str):
            return word
        if isinstance(word, Text):
            file = self.keep(in_memory(word.bytes))
        else:
            self.came = os.pipe2(os.O_CLOEXEC)
            self.keep(self.came[0])
            file = self.keep(self.came[1])
        self.passed.append(file)
        return f"/dev/fd/{file}"

    def close(self, file: int) -> None:
        self.open.remove(file)
        os.close(file)

    def ask(self) -> Ran:
        """Asks it."""
        try:
            process = ASKING.begin(self.words, self.passed, stdin=self.given, stdout=self.out, stderr=self.err)
            try:
                came = b""
                if self.came[0] >= 0:
                    self.close(self.came[1])
                    came = all_of(self.came[0])
                status = process.wait()
            finally:
                ASKING.ended(process)
            return Ran(status, from_start(self.out), from_start(self.err).decode("utf-8", "surrogateescape"), came)
        finally:
            for file in self.open:
                os.close(file)


def ask_file(file: str, words: Sequence[Word], given: bytes = b"") -> Ran:
    """What a program answers."""
    try:
        ran = Question(file, words, given).ask()
    except OSError as fault:
        raise Refusal(f"{file}: {fault.strerror}; --program FILE names another") from None
    if ran.status < 0:
        if ASKING.is_ended:
            raise Interrupted
        told = signal.strsignal(-ran.status) or "unknown"
        raise Refusal(f"{file} {words[0]} was ended by signal {-ran.status} ({told}): is there memory for "
                      "so many at once? -j 1 makes one run at a time", 3)
    return ran


@dataclass(frozen=True)
class Viewer:
    """A caladan_view, by its file."""

    file: str

    def ask(self, words: Sequence[Word], given: bytes = b"") -> Ran:
        return ask_file(self.file, words, given)

    def told(self, words: Sequence[Word], given: bytes = b"") -> Ran:
        """The same; where it refuses, so does this."""
        ran = self.ask(words, given)
        if ran.status:
            raise refused(ran)
        return ran


def refused(ran: Ran) -> Refusal:
    """The program's refusal, as one of this program."""
    first, _, below = ran.err.partition("\n")
    return Refusal(first.removeprefix(f"{VIEW}: "), ran.status, below)


def places() -> list[str]:
    """Where the program may be: beside this program, at the top of the checkout that this package is in, or in the
    prefix that it is installed in."""
    here = os.path.dirname(os.path.realpath(sys.argv[0] or "."))
    checkout = os.path.dirname(os.path.dirname(os.path.dirname(os.path.dirname(os.path.realpath(__file__)))))
    return [f"{here}/{VIEW}", f"{checkout}/{VIEW}", f"{os.path.dirname(checkout)}/bin/{VIEW}"]


def file_asked(asked: str) -> str:
    """The file of the program: the one that is asked for, or that CALADAN_VIEW names, one that is beside, or the one
    in the PATH."""
    if asked or (asked := os.environ.get("CALADAN_VIEW", "")):
        return asked
    beside = next((it for it in places() if os.access(it, os.X_OK) and os.path.isfile(it)), None)
    found = beside or shutil.which(VIEW)
    if not found:
        raise Refusal(f"there is no program {VIEW}: install it, or name it with --program FILE")
    return found


def built(file: str) -> str:
    """The file of the program itself, where another runs it: ./caladan_view of a checkout says which it runs, and
    builds it first where nothing is built."""
    for _ in range(2):
        ran = ask_file(file, ["--version"])
        version = re.match(rb"caladan_view (\S+)", ran.out)
        if ran.status or not version:
            raise Refusal(f"{file} is no {VIEW}: --program FILE names one")
        if version[1].decode() != __version__:
            raise Refusal(f"{file} is {VIEW} {version[1].decode()}, and this is caladan_lab {__version__}: install "
                          "both of one version, or name another with --program FILE")
        its_own = re.search(r"^caladan_view: (?:the proved program, (.*)|unproved, (.*); make )", ran.err, re.M)
        if its_own:
            return its_own[1] or its_own[2]
        if "docs/HELP.txt" not in ran.err:
            return file
        subprocess.run([file, "check"], input=TABLE, stdout=subprocess.DEVNULL, check=False)
    return file


@functools.lru_cache(maxsize=None)
def viewer(asked: Optional[str] = None) -> Viewer:
    """The program, found once."""
    return Viewer(built(file_asked(asked or "")))


def simulator(view: Viewer) -> Viewer:
    """The caladan_sim that goes with a caladan_view: CALADAN_SIM names it, else it stands beside it."""
    asked = os.environ.get("CALADAN_SIM", "")
    return Viewer(asked or view.file.replace(VIEW, SIM))
