"""Why words are refused, in the words of the programs."""
from __future__ import annotations

from typing import Iterable, Sequence

from .arg import Arg, Command
from .likeness import alike

TRY = "\n\nFor more information, try '--help'.\n"


class Mistake(Exception):
    """Words that are refused: the whole text for the standard error; the status is 2."""


class Shown(Exception):
    """Help or the version, which the words ask for: the text for the standard output."""


def usage(command: Command, used: Iterable[str] = (), required: Iterable[str] = ()) -> str:
    """The line of usage; with the arguments of these names, or with all."""
    used = [*used]
    parts = [command.called]
    if not used:
        parts += ["[OPTIONS]"] if any(not it.is_file for it in (*command.args, *command.extra)) else []
    wanted = list(dict.fromkeys([*required, *used]))
    found = [it for name in wanted if (it := command.find(name)) is not None]
    parts += [it.shown() for it in found if not it.is_file]
    parts += [it.shown(it in found) for it in command.files]
    if not used and command.commands:
        parts.append("[COMMAND]")
    return "Usage: " + " ".join(parts)


def with_usage(command: Command, said: str, used: Iterable[str] = (), required: Iterable[str] = ()) -> Mistake:
    """A mistake with the line of usage below it."""
    return Mistake(f"error: {said}\n\n{usage(command, used, required)}{TRY}")


def no_value(arg: Arg) -> Mistake:
    """An option without its value."""
    return Mistake(f"error: a value is required for '{arg.shown()}' but none was supplied{possible(arg)}{TRY}")


def possible(arg: Arg) -> str:
    """The values that an option may have, where they have names."""
    return f"\n  [possible values: {', '.join(arg.names)}]" if arg.names else ""


def bad_value(arg: Arg, value: str, why: str = "") -> Mistake:
    """A value that an option may not have."""
    if why:
        return Mistake(f"error: invalid value '{value}' for '{arg.shown()}': {why}{TRY}")
    if not value:
        return no_value(arg)
    close = alike(value, arg.names)
    tip = f"\n\n  tip: a similar value exists: '{close[-1]}'" if close else ""
    return Mistake(f"error: invalid value '{value}' for '{arg.shown()}'{possible(arg)}{tip}{TRY}")


def twice(command: Command, arg: Arg) -> Mistake:
    """What may be given once, and is given again."""
    return with_usage(command, f"the argument '{arg.shown()}' cannot be used multiple times")


def conflict(command: Command, arg: Arg, others: Sequence[Arg], used: Iterable[str]) -> Mistake:
    """What may not stand with others."""
    if len(others) == 1:
        told = f" '{others[0].shown()}'"
    else:
        told = ":" + "".join(f"\n  {it.shown()}" for it in others)
    return with_usage(command, f"the argument '{arg.shown()}' cannot be used with{told}", used)


def missing(command: Command, wanted: Sequence[Arg], used: Iterable[str], required: Iterable[str]) -> Mistake:
    """What has to be there and is not."""
    told = "".join(f"\n  {it.shown(True)}" for it in wanted)
    return with_usage(command, f"the following required arguments were not provided:{told}", used, required)


def unknown(command: Command, word: str, close: str = "", below: str = "", tip: bool = False,
            used: Iterable[str] = ()) -> Mistake:
    """An option that there is not; what is like it, of this command or of one below it."""
    said = f"unexpected argument '{word}' found"
    if close and not below:
        said += f"\n\n  tip: a similar argument exists: '{close}'"
    if tip or below:
        said += "" if close and not below else "\n"
        said += f"\n  tip: to pass '{word}' as a value, use '-- {word}'" if tip else ""
        said += f"\n  tip: '{below} {close}' exists" if below else ""
    return with_usage(command, said, used)


def unknown_command(command: Command, word: str, trailing: bool) -> Mistake:
    """A command that there is not."""
    if trailing and command.command(word):
        return with_usage(command, f"unexpected argument '{word}' found\n\n  tip: subcommand '{word}' exists; "
                                   "to use it, remove the '--' before it")
    close = alike(word, [*(it.name for it in command.commands), "help"])
    said = f"unrecognized subcommand '{word}'"
    if len(close) == 1:
        said += f"\n\n  tip: a similar subcommand exists: '{close[0]}'"
    elif close:
        said += "\n\n  tip: some similar subcommands exist: " + ", ".join(f"'{it}'" for it in close)
    return with_usage(command, said)
