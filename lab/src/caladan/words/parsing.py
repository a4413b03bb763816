"""Words against what a command takes. The rules are those of the programs: an option has its value in the next word or
after `=`, one letter may stand for an option, `--` ends them, and each mistake is told in the same words."""
from __future__ import annotations

import contextlib
from dataclasses import dataclass, field
from typing import Optional, Sequence

from . import refusals
from .arg import Arg, Command
from .drawn import is_picture
from .help import ABOUT_HELP, help_of
from .likeness import alike
from .refusals import Mistake, Shown


@dataclass
class Asked:
    """What words ask for: a command, and of what it takes the words that are there, by their names in the order in
    which they were met. A flag that is there has no words."""

    command: Command
    found: dict[str, list[str]] = field(default_factory=dict)

    def has(self, name: str) -> bool:
        return name in self.found

    def all(self, name: str) -> list[str]:
        """The words of an option; where it is not there its default, if it has one."""
        arg = self.command.find(name)
        default = [arg.default] if arg and arg.default else []
        return self.found.get(name, default)

    def one(self, name: str) -> Optional[str]:
        """The word of an option that is given once at most."""
        return next(iter(self.all(name)), None)

    def number(self, name: str) -> Optional[int]:
        word = self.one(name)
        return None if word is None else int(word)

    @property
    def is_picture(self) -> bool:
        """Whether the answer is drawn, by the ending of its file."""
        return not self.command.is_text and is_picture(self.one("output") or "")


class Reader:
    """The words of one command, while they are read. The values of an option, and files, are judged when the next
    argument is met: until then they are pending."""

    def __init__(self, command: Command, words: Sequence[str]) -> None:
        self.command, self.words, self.at = command, words, 0
        self.asked = Asked(command)
        self.pending: Optional[tuple[Arg, list[str]]] = None
        self.is_waiting = False
        self.is_trailing = False

    def read(self) -> Asked:
        """Reads them to the end, or to the name of a command below this one."""
        while self.at < len(self.words):
            word = self.words[self.at]
            self.at += 1
            below = self.take(word)
            if below is not None:
                return read_words(below, self.words[self.at:])
        self.settle()
        check(self.asked)
        return self.asked

    def take(self, word: str) -> Optional[Command]:
        """Takes a word; the command that it names, if it does."""
        if self.is_trailing:
            self.take_file(word)
            return None
        if self.pending is None and self.command.commands:
            if word == "help":
                raise Shown(help_after(self.command, self.words[self.at:]))
            if below := self.command.command(word):
                return below
        if word == "--":
            self.is_trailing = True
        elif word.startswith("--"):
            self.take_long(word)
        elif word.startswith("-") and word != "-":
            self.take_short(word[1:])
        elif self.is_waiting and self.pending is not None:
            self.pending[1].append(word)
            self.is_waiting = False
        else:
            self.take_file(word)
        return None

    def settle(self) -> None:
        """Judges what is pending."""
        pending, self.pending, self.is_waiting = self.pending, None, False
        if pending is not None:
            self.note(*pending)

    def let_go(self) -> None:
        """Settles what is pending where another mistake is told of."""
        with contextlib.suppress(Mistake):
            self.settle()

    def note(self, arg: Arg, values: list[str]) -> None:
        """Notes that an argument is there, with its values."""
        if arg.name == "version":
            raise Shown(f"{self.command.name} {self.command.version}\n")
        if not arg.is_flag and not values:
            raise refusals.no_value(arg)
        if not arg.many and self.asked.found.pop(arg.name, None) is not None:
            raise refusals.twice(self.command, arg)
        found = self.asked.found.setdefault(arg.name, [])
        parts = [it for value in values for it in (value.split(arg.delimiter) if arg.delimiter else [value])]
        for value in parts:
            judge(arg, value)
        found.extend(parts)

    def used(self) -> list[str]:
        return list(self.asked.found)

    def take_long(self, word: str) -> None:
        name, equals, value = word[2:].partition("=")
        arg = self.command.long(name)
        if arg is None:
            self.let_go()
            raise self.unknown_long(name)
        if arg.is_flag and equals:
            used = [*self.used(), arg.name]
            self.let_go()
            raise refusals.with_usage(self.command, f"unexpected value '{value}' for '{arg.shown()}' found; "
                                                    "no more were expected", used)
        self.meet(arg, value if equals else None, True)

    def meet(self, arg: Arg, value: Optional[str], is_long: bool) -> None:
        """Meets an option or a flag, with the value that stands in its word."""
        self.settle()
        if arg.name == "help":
            raise Shown(help_of(self.command, is_long))
        if arg.is_flag or value is not None:
            self.note(arg, [] if value is None else [value])
        else:
            self.pending, self.is_waiting = (arg, []), True

    def unknown_long(self, name: str) -> Mistake:
        """That there is no such option, and which is like it: of this command, or of one that is named after it."""
        own = alike(name, [it.long for it in self.command.all_args if it.long])
        if own:
            close = self.command.long(own[-1])
            used = list(dict.fromkeys([*self.used(), close.name if close else ""]))
            return refusals.unknown(self.command, f"--{name}", f"--{own[-1]}", used=used)
        for word in self.words[self.at:]:
            below = self.command.command(word)
            found = alike(name, [it.long for it in below.all_args if it.long]) if below else []
            if found:
                return refusals.unknown(self.command, f"--{name}", f"--{found[-1]}", word, used=self.used())
        return refusals.unknown(self.command, f"--{name}", tip=bool(self.command.files), used=self.used())

    def take_short(self, letters: str) -> None:
        """Takes letters: flags, and at the end an option with what follows as its value."""
        for place, letter in enumerate(letters):
            arg, rest = self.command.short(letter), letters[place + 1:]
            if arg is None:
                self.let_go()
                raise refusals.unknown(self.command, f"-{letter}", tip=bool(self.command.files))
            if not arg.is_flag:
                self.meet(arg, rest.removeprefix("=") if rest else None, False)
                return
            self.meet(arg, None, False)

    def take_file(self, word: str) -> None:
        """Takes a word that is no option: a file, where there is room for one more."""
        files = self.command.files
        is_next = self.pending is not None and self.pending[0].is_file
        is_full = not files or (not files[0].many and (is_next or files[0].name in self.asked.found))
        if is_full:
            self.let_go()
            if self.command.commands:
                raise refusals.unknown_command(self.command, word, self.is_trailing)
            raise refusals.unknown(self.command, word)
        if is_next and self.pending is not None:
            self.pending[1].append(word)
            return
        self.settle()
        self.pending = (files[0], [word])


def judge(arg: Arg, value: str) -> None:
    """Refuses a value that an option may not have."""
    is_other = bool(arg.prefix) and value.startswith(arg.prefix) and value != arg.prefix
    if arg.names and value not in arg.names and not is_other:
        raise refusals.bad_value(arg, value)
    if arg.number and (why := arg.number.fault(value)):
        raise refusals.bad_value(arg, value, why)


def help_after(command: Command, words: Sequence[str]) -> str:
    """The help that `help WORD..` asks for."""
    for word in words:
        below = help_command(command) if word == "help" and command.commands else command.command(word)
        if below is None:
            raise refusals.with_usage(command, f"unrecognized subcommand '{word}'")
        command = below
    return help_of(command, True)


def help_command(command: Command) -> Command:
    """The command that prints help."""
    words = Arg("command", "Print help for the subcommand(s)", value="COMMAND", many=True)
    return Command("help", f"{command.called} help", ABOUT_HELP, "", (words,), has_help=False)


def read_words(command: Command, words: Sequence[str]) -> Asked:
    """What the words after a command's name ask for. A Mistake says why they are refused, and Shown is the help or the
    version where they ask for that."""
    return Reader(command, words).read()


def check(asked: Asked) -> None:
    """What may not stand together, and what has to be there: of a picture nothing, since it may be drawn of CSV."""
    command, found = asked.command, [it for name in asked.found if (it := asked.command.find(name)) is not None]
    for arg in found:
        others = [it for it in found if it.name != arg.name and arg.name in (it.conflicts,)
                  or it.name == arg.conflicts]
        if others:
            used = [it.name for it in found if it not in others]
            raise refusals.conflict(command, arg, others, used)
    needed = [it.needs for it in found if it.needs]
    lacking = [it for it in command.all_args if it.name in needed and it.name not in asked.found]
    if not asked.is_picture:
        lacking += [it for it in command.all_args
                    if it.unless and it.name not in asked.found and not {*it.unless.split()} & {*asked.found}]
    if lacking:
        used = [*asked.found, *(it.name for it in lacking)]
        raise refusals.missing(command, list(dict.fromkeys(lacking)), used, needed)
