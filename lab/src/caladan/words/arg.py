"""What a command takes: options, flags and files."""
from __future__ import annotations

from dataclasses import dataclass
from typing import Optional

WORD = 2 ** 64 - 1
# The policies that the program has, and what stands before the command of one that is a program of its own.
POLICIES, EXEC = ("caladan", "assured"), "exec:"


@dataclass(frozen=True)
class Number:
    """A whole number of 64 bits, from the least to the most."""

    least: int = 0
    most: int = WORD

    def fault(self, text: str) -> str:
        """Why a text is none of these; empty where it is one."""
        digits = text[1:] if text.startswith("+") and text != "+" else text
        if not text:
            return "cannot parse integer from empty string"
        number = 0
        for letter in digits:
            if not (letter.isascii() and letter.isdigit()):
                return "invalid digit found in string"
            number = 10 * number + int(letter)
            if number > WORD:
                return "number too large to fit in target type"
        if self.least <= number <= self.most:
            return ""
        dots = ".." if self.most == WORD else "..="
        return f"{number} is not in {self.least}{dots}{self.most}"


@dataclass(frozen=True)
class Arg:
    """An option, a flag or a file. Without `value` it is a flag; without `long` it is a file. `many` may be given more
    than once. `unless` names what may stand in its place. `hidden` is left out of the short help. Where values have
    names, others may begin with `prefix`."""

    name: str
    help: str
    long: str = ""
    short: str = ""
    value: str = ""
    many: bool = False
    default: str = ""
    names: tuple[str, ...] = ()
    prefix: str = ""
    number: Optional[Number] = None
    delimiter: str = ""
    conflicts: str = ""
    needs: str = ""
    unless: str = ""
    hidden: bool = False

    @property
    def is_file(self) -> bool:
        return not self.long

    @property
    def is_flag(self) -> bool:
        return not self.value

    def shown(self, required: bool = False) -> str:
        """How a message and help show it."""
        if self.is_file:
            return (f"<{self.value}>" if required else f"[{self.value}]") + ("..." if self.many else "")
        return f"--{self.long}" + (f" <{self.value}>" if self.value else "")


def option(name: str, value: str, says: str, **how: object) -> Arg:
    """An option that takes a value."""
    return Arg(name, says, long=name, value=value, **how)  # type: ignore[arg-type]


def number(name: str, value: str, says: str, **how: object) -> Arg:
    """An option that takes a number of 64 bits."""
    return option(name, value, says, number=Number(), **how)


def flag(name: str, says: str, **how: object) -> Arg:
    """An option that takes nothing."""
    return Arg(name, says, long=name, **how)  # type: ignore[arg-type]


HELP = flag("help", "Print help", short="h")
VERSION = flag("version", "Print version", short="V")


@dataclass(frozen=True)
class Section:
    """Options that the long help has apart, under a title, and what it says of them."""

    title: str
    args: tuple[Arg, ...]
    says: str


@dataclass(frozen=True)
class Command:
    """A command: its name, the words before its own, what it is for, what the long help says at its end, what it takes
    in the order of its help, and the commands below it. `extra` is of pictures, `own` of policies of one's own, and
    `sections` are of others; the long help has all by themselves. Of `is_text` no file's ending makes a picture."""

    name: str
    called: str
    about: str
    after: str
    args: tuple[Arg, ...] = ()
    commands: tuple["Command", ...] = ()
    version: str = ""
    extra: tuple[Arg, ...] = ()
    own: tuple[Arg, ...] = ()
    has_help: bool = True
    sections: tuple[Section, ...] = ()
    is_text: bool = False

    @property
    def apart(self) -> tuple[Arg, ...]:
        """The options that stand in parts of the help of their own."""
        return (*self.extra, *self.own, *(it for section in self.sections for it in section.args))

    @property
    def all_args(self) -> tuple[Arg, ...]:
        asks = (*((HELP,) if self.has_help else ()), *((VERSION,) if self.version else ()))
        return (*self.args, *self.apart, *asks)

    @property
    def files(self) -> tuple[Arg, ...]:
        return tuple(it for it in self.args if it.is_file)

    def find(self, name: str) -> Optional[Arg]:
        return next((it for it in self.all_args if it.name == name), None)

    def long(self, name: str) -> Optional[Arg]:
        return next((it for it in self.all_args if it.long and it.long == name), None)

    def short(self, letter: str) -> Optional[Arg]:
        return next((it for it in self.all_args if it.short == letter), None)

    def command(self, name: str) -> Optional["Command"]:
        return next((it for it in self.commands if it.name == name), None)
