"""Timelines by chance, of runs and of histories."""
from .case import Case
from .chance import Chance
from .sweeps import drawn_plan
from .tables import drawn_names, drawn_table, spelled
from .traces import drawn_arrivals, drawn_history


def made_timeline(number: int) -> Case:
    """A timeline of a run on arrivals, or of a history, in one case of three."""
    name = f"timeline-{number:03}"
    chance = Chance(name)
    table = drawn_table(chance, 3, 3)
    words: "list[str]" = []
    is_history, is_planned = number % 3 == 2, chance.is_so(40)
    if is_history:
        trace = drawn_history(chance, table, 20)
    else:
        arrivals = drawn_arrivals(chance, table, is_planned, 40)
        trace = arrivals.text()
        if is_planned:
            words += drawn_plan(chance, any(it.misses for it in arrivals.requests))
    if chance.is_so(30):
        words += ["--policy", chance.pick(["caladan", "assured"])]
    if chance.is_so(40):
        words += ["--names", ",".join(drawn_names(chance, len(table.tasks)))]
    if chance.is_so(40):
        words += ["--tick", chance.pick(["ns", "us", "ms", "s"])]
    text = spelled(chance, table)
    given = text + ("---\r\n" if "\r\n" in text else "---\n") + trace
    files: "dict[str, str]" = {}
    if chance.is_so(30):
        files["run"], given = given, ""
        words.append("run")
    if chance.is_so(20):
        words += chance.pick([["-o", "timeline.json"], ["-o", "-"], ["--output", "timeline.json"]])
    return Case(name, ("timeline", *words), given, files=files)


def cases(count: int) -> "list[Case]":
    return [made_timeline(number) for number in range(count)]
