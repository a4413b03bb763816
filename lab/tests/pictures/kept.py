"""The pictures of docs/pictures, but for host.svg, of a record of a machine, and policies.svg, which a script draws.

    PYTHONPATH=lab/src:lab/tests /usr/bin/python3 -m pictures.kept

draws them anew; `tools/lab_tests --write` runs it."""
from __future__ import annotations

from caladan.pictures.paper import Paper

from .burst import burst
from .given import DELAYS, KEPT_RUNS, TOP, as_csv, drawn, example, file, text_of

FOLDER = f"{TOP}/docs/pictures"
NAMES = {"memory": "the service,the batch job", "siblings": "the service,the batch job",
         "pace": "task 0,task 1,the batch job"}


def pictures() -> dict[str, list[str]]:
    """The words that draw each picture. The sweep takes a minute, so it is drawn of what its example prints."""
    swept = file("sweep_rising.csv", as_csv(text_of(example("sweep/rising", "output"))))
    return {
        "tour": ["run", example("decide/tour")],
        "lockstep_tour": ["run", example("lockstep/tour")],
        "compare_tour": ["compare", "--vary", DELAYS, example("lockstep/tour")],
        "sweep_rising": ["sweep", swept, "--table", example("sweep/rising"), "--slo", "task.0.p99=250"],
        **{name: ["seeds", given, "--names", NAMES[name]] for name, given in KEPT_RUNS.items()},
    }


def papers() -> dict[str, Paper]:
    """The pictures, drawn: those of words, and the one that has a module of its own."""
    return {**{name: drawn(*words) for name, words in pictures().items()}, "burst": burst()}


if __name__ == "__main__":
    from caladan.pictures.saving import save
    for name, paper in papers().items():
        save(paper, f"{FOLDER}/{name}.svg")
