"""Help, laid out as the programs lay theirs out."""
from __future__ import annotations

from .arg import Arg, Command
from .refusals import usage

ABOUT_HELP = "Print this message or the help of the given subcommand(s)"


def _default(arg: Arg) -> str:
    return f"[default: {arg.default}]" if arg.default else ""


def _spec(arg: Arg) -> str:
    """What stands before what an argument is for."""
    if arg.is_file:
        return f"  {arg.shown()}"
    return f"  -{arg.short}, {arg.shown()}" if arg.short else f"      {arg.shown()}"


def _says(command: Command, arg: Arg, is_long: bool) -> str:
    """What an argument is for."""
    if arg.name != "help":
        return arg.help
    if not command.after:
        return arg.help
    return f"{arg.help} (see a summary with '-h')" if is_long else f"{arg.help} (see more with '--help')"


def _short(command: Command, args: list[Arg]) -> str:
    """A line for each argument."""
    wide = max(len(_spec(it)) for it in args)
    lines = [f"{_spec(it):{wide}}  {' '.join(filter(None, (_says(command, it, False), _default(it))))}" for it in args]
    return "\n".join(lines)


def _long(command: Command, args: list[Arg]) -> str:
    """Some lines for each argument, apart from those of the others."""
    def told(arg: Arg) -> str:
        default = f"\n          \n          {_default(arg)}" if arg.default else ""
        return f"{_spec(arg)}\n          {_says(command, arg, True)}{default}"
    return "\n\n".join(map(told, args))


def help_of(command: Command, is_long: bool) -> str:
    """The short or the long help of a command."""
    told = _long if is_long and command.after else _short
    parts = [command.about, usage(command)]
    if command.commands:
        rows = [*((it.name, it.about) for it in command.commands),
                ("help", ABOUT_HELP)]
        wide = max(len(name) for name, _ in rows)
        parts.append("Commands:\n" + "\n".join(f"  {name:{wide}}  {about}" for name, about in rows))
    if command.files:
        parts.append("Arguments:\n" + told(command, list(command.files)))
    shown = [it for it in command.all_args if not it.is_file and it not in command.apart]
    if shown:
        parts.append("Options:\n" + told(command, [it for it in shown if is_long or not it.hidden]))
    if is_long:
        parts += [f"{it.title}:\n{told(command, list(it.args))}\n\n{it.says.strip()}" for it in command.sections]
    if command.extra and is_long:
        parts.append("Pictures:\n" + told(command, list(command.extra)))
    if command.own and is_long:
        parts.append("Policies of your own:\n" + told(command, list(command.own)))
    if is_long and command.after:
        parts.append(command.after)
    return "\n\n".join(parts) + "\n"
