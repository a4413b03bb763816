"""Where caladan_lab answers otherwise on purpose: the options by which it counts and judges as version 4 did, and the
texts that are others. README.md has the reasons."""
import dataclasses

from .case import Answer, Case

# The options that count and judge as version 4 did, by the kind of a case.
AS_BEFORE = {"sweep": ("--rules", "4"), "compare": ("--window", "whole")}
# Texts that are others now, each with the one that was.
TEXTS = {"a task, p50, p90, p95, p99, p99.9 or max, and ticks": "a task, p50, p90, p99, p99.9 or max, and ticks",
         "--load <LOAD> --scale <TIMES> [FILE]": "--load <LOAD> --names <NAME,..> [FILE]",
         "  tip: a similar argument exists: '--scale'\n": "  tip: a similar argument exists: '--names'\n"}
# How lines begin that stand below more refusals than before.
MORE = ("  did you mean ", "  --names kv,batch says what the tasks are called, ")


def asked_as_before(case: Case, kept: Answer) -> Case:
    """The case with these options, unless its words themselves are refused, before anything is counted."""
    more = AS_BEFORE.get(case.kind, ())
    if not more or case.words[:1] != (case.kind,) or kept.said.startswith("error: "):
        return case
    return dataclasses.replace(case, words=(case.kind, *more, *case.words[1:]))


def said_as_before(answer: Answer, kept: Answer) -> Answer:
    """The answer without what is said more now than in the kept one, and with the texts that were."""
    said = answer.said
    for more in MORE:
        if more not in kept.said:
            said = "\n".join(line for line in said.split("\n") if not line.startswith(more))
    for now, then in TEXTS.items():
        said = said.replace(now, then)
    return dataclasses.replace(answer, said=said)
