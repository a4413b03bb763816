"""What a picture is asked for with: by words, or by who calls from Python."""
from __future__ import annotations

import logging
from dataclasses import dataclass, replace
from typing import Callable, Optional

from ..files import say
from ..labels import names_of
from ..refusal import Refusal
from ..windows import WHOLE
from ..words.asked import LAB
from ..words.drawn import PICTURE, TEXT_ALONE, WIDTH, format_of, refuse_text
from ..words.parsing import Asked, check, read_words
from .tables import checked


@dataclass(frozen=True)
class Look:
    """How wide a picture is, in pixels; whether it is on a dark ground; what the tasks are called; and the unit of a
    tick."""

    width: int = WIDTH
    is_dark: bool = False
    names: tuple[str, ...] = ()
    tick: str = ""


@dataclass(frozen=True)
class PictureAsked:
    """A picture: the word for its kind, its file, its look, and the files that are read, where - is the standard input;
    the program and the file of a task table. Of a run the first pass shown, how many are, which task alone, the policy
    where one is named, for how many seconds its answers are waited for, and whether responses have lanes; of what makes
    runs their words, and the file of the arrivals."""

    word: str
    output: str
    look: Look
    files: tuple[str, ...]
    program: str = ""
    table: Optional[str] = None
    first: int = 0
    passes: Optional[int] = None
    task: Optional[int] = None
    policy: Optional[str] = None
    patience: int = 0
    runs: Optional[Asked] = None
    has_responses: bool = False

    @property
    def arrivals(self) -> Optional[str]:
        """The file of the arrivals of all tables."""
        return self.runs.one("arrivals") if self.runs else None

    @property
    def goals(self) -> list[str]:
        """The words of objectives."""
        return self.runs.all("slo") if self.runs else []

    @property
    def given_words(self) -> list[str]:
        """The words for runs that are to be made, in their order."""
        others = ("output", "tables", "input", "names", "tick", "slo", "quiet", *(it.name for it in PICTURE))
        return [f"--{it}" for it in (self.runs.found if self.runs else ()) if it not in others]


class RunsRefused(Refusal):
    """What is refused of the runs of which a picture is drawn, by the program or by the words that make them."""


def runs_for(asked: PictureAsked) -> Asked:
    """The words for runs that are made of an input: that none is lacking is checked, and the answer is CSV, of a
    comparison that of all requests."""
    words = asked.runs or read_words(LAB, [asked.word])
    kept = {name: it for name, it in words.found.items() if name != "output"}
    check(replace(words, found=kept))
    whole = {"window": [WHOLE]} if asked.word == "compare" else {}
    return replace(words, found={**kept, "csv": [], **whole})


def look_of(asked: Asked) -> Look:
    """The look that words ask for."""
    return Look(asked.number("width") or WIDTH, asked.has("dark"), names_of(asked.one("names")),
                asked.one("tick") or "")


def picture_of(asked: Asked) -> PictureAsked:
    """The picture that words ask for."""
    refuse_text(asked)
    word, output = asked.command.name, asked.one("output") or ""
    format_of(output)
    files = tuple(next((asked.all(it) for it in ("files", "tables", "input") if asked.command.find(it)), []))
    program, table = asked.one("program") or "", asked.one("table")
    if word == "run":
        return PictureAsked(word, output, look_of(asked), files, program, table, asked.number("from") or 0,
                            asked.number("passes"), asked.number("task"), asked.one("policy"),
                            asked.number("patience") or 0, has_responses=asked.has("responses"))
    return PictureAsked(word, output, look_of(asked), files, program, table, runs=asked if word != "seeds" else None)


def draw(asked: PictureAsked, tell: Callable[[str], None] = say) -> int:
    """Draws a picture, and tells of objectives that it misses; answers the exit status."""
    checked(asked.look.names, asked.look.tick)
    logging.getLogger("matplotlib").setLevel(logging.ERROR)
    try:
        from .drawing import drawn_to
    except ImportError as missing:
        name = missing.name or "matplotlib"
        raise Refusal(f"{name} is not installed; on Debian: apt-get install python3-matplotlib") from None
    return drawn_to(asked, tell)
