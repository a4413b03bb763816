"""The command line: `caladan_lab` with its words, and that of `caladan_draw`."""
from __future__ import annotations

import os
import signal
import sys
from types import FrameType
from typing import Callable, Optional, Sequence

from .files import of_file, say, write_all
from .programs import ASKING, Interrupted
from .refusal import Refusal
from .words.asked import LAB
from .words.drawn import refuse_picture
from .words.help import help_of
from .words.parsing import Asked, read_words
from .words.refusals import Mistake, Shown

NOT_TEXT = "\ufffd"


def answer(asked: Asked) -> int:
    """Does what the words ask for."""
    word = asked.command.name
    if asked.is_picture or word in ("run", "seeds"):
        from .pictures.asked import draw, picture_of
        return draw(picture_of(asked))
    if not asked.command.is_text:
        refuse_picture(asked)
    if word == "sweep":
        from .sweeps.command import sweep
        return sweep(asked)
    if word == "compare":
        from .comparisons.command import compare
        return compare(asked)
    if word == "log":
        from .logs.command import log
        return log(asked)
    if word == "timeline":
        from .timelines.command import timeline
        return timeline(asked)
    if word == "report":
        from .reports.command import report
        return report(asked)
    say(help_of(LAB, False))
    return 2


def is_text(word: str) -> bool:
    """Whether a word is text. Where one is not, the words are refused, whichever stands before it."""
    try:
        word.encode()
    except UnicodeEncodeError:
        return False
    return True


def shown(text: str) -> int:
    """Writes help or the version."""
    try:
        write_all(1, text.encode())
    except OSError as fault:
        raise of_file("write", fault, 3) from None
    return 0


def run(words: Sequence[str]) -> int:
    """Does what the command line says; what is refused is told on the standard error."""
    try:
        try:
            return answer(read_words(LAB, words if all(map(is_text, words)) else [NOT_TEXT]))
        except Shown as it:
            return shown(str(it))
    except Mistake as mistake:
        say(str(mistake))
        return 2
    except Refusal as refusal:
        say(refusal.said)
        return refusal.status
    except MemoryError:
        say(Refusal("memory").said)
        return 3


def stop(number: int, _: Optional[FrameType]) -> None:
    """What a signal does: all that runs is ended, and then this program by that signal."""
    raise Stopped(number)


class Stopped(BaseException):
    """A signal that ends the program."""

    def __init__(self, number: int) -> None:
        super().__init__(number)
        self.number = number


def main(does: Callable[[Sequence[str]], int] = run) -> int:
    """Does what the command line says. A signal leaves no process and no file."""
    try:
        for each in (signal.SIGINT, signal.SIGTERM, signal.SIGHUP):
            if signal.getsignal(each) is not signal.SIG_IGN:
                signal.signal(each, stop)
        return does(sys.argv[1:])
    except (Stopped, Interrupted) as fault:
        ASKING.end()
        number = fault.number if isinstance(fault, Stopped) else signal.SIGINT
        signal.signal(number, signal.SIG_DFL)
        os.kill(os.getpid(), number)
        return 3


def draw_main() -> int:
    """The same of caladan_draw."""
    from .pictures.old_words import run as drawn
    return main(drawn)
