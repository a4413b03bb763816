"""A case: words, files and a standard input, and where its outputs go."""
import dataclasses
import hashlib
import json
from typing import Mapping


@dataclasses.dataclass(frozen=True)
class Case:
    """A run of the program in a folder of its own."""

    name: str
    words: tuple[str, ...]
    # The standard input. (A folder in its place is refused by Python itself, before a program of its begins.)
    given: str = ""
    # What is in the folder at the beginning: files with their texts, one of so many bytes of 0, links, and folders.
    files: Mapping[str, str] = dataclasses.field(default_factory=dict)
    sparse: Mapping[str, int] = dataclasses.field(default_factory=dict)
    links: Mapping[str, str] = dataclasses.field(default_factory=dict)
    folders: tuple[str, ...] = ()
    # Where the standard output goes: it is `read`, the disk is `full`, or the reader has `gone`.
    output: str = "read"
    # The same of the standard error, which is `read`, or its disk is `full`.
    errors: str = "read"

    @property
    def kind(self) -> str:
        """The file that its answer is kept in."""
        return self.name.split("-")[0]

    def digest(self) -> str:
        """A sum over all that the case is but its name."""
        parts = dataclasses.asdict(self)
        parts.pop("name")
        text = json.dumps(parts, sort_keys=True, default=dict)
        return hashlib.sha256(text.encode()).hexdigest()[:16]


@dataclasses.dataclass(frozen=True)
class Answer:
    """What came of a case: the exit status, or below 0 a signal; both outputs; and of the folder each file that is
    new or changed with its text, or None where it went."""

    status: int
    wrote: str
    said: str
    files: Mapping[str, "str | None"]


def text_of(given: bytes) -> str:
    """Bytes as a text that no byte is lost in."""
    return given.decode("utf-8", "surrogateescape")


def bytes_of(given: str) -> bytes:
    return given.encode("utf-8", "surrogateescape")
