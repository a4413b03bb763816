"""All cases."""
from . import compares, disks, refused_inputs, refused_words, special, sweeps, timelines
from .case import Case

# So many of each kind are drawn by chance; the others are written down.
SWEEPS, COMPARES, TIMELINES = 300, 300, 100
# So many of each kind are a sample, for programs that are not proved and take ten times as long.
SAMPLE = {"sweep": 12, "compare": 24, "timeline": 24}


def cases() -> "list[Case]":
    """All cases, each with a name of its own."""
    made = [*sweeps.cases(SWEEPS), *compares.cases(COMPARES), *timelines.cases(TIMELINES), *refused_words.cases(),
            *refused_inputs.cases(), *disks.cases(), *special.cases()]
    assert len({it.name for it in made}) == len(made)
    return made


def chosen(word: "str | None", is_sample: bool = False) -> "list[Case]":
    """The cases that have this word in their name or among their words; or of these a sample."""
    found = [it for it in cases() if word is None or word in f"{it.name} {' '.join(it.words)}"]
    return sample(found) if is_sample else found


def sample(of: "list[Case]") -> "list[Case]":
    """Some of each kind, as far apart as can be."""
    some = []
    for kind, many in SAMPLE.items():
        of_kind = [it for it in of if it.kind == kind]
        step = max(len(of_kind) // many, 1)
        some += of_kind[step // 2::step][:many]
    return some
