"""Many runs of the core scheduler of Caladan: comparisons, sweeps, frames and pictures over the proved programs.

One input has one exact answer, which caladan_view and caladan_sim give. Questions about many runs, such as loads,
seeds, tables and policies side by side, are asked here.

    table = caladan.Table.read("service.toml", names=["kv", "batch"], tick="us")
    run = table.run(task="kv", load=0.7, service="90%:1,10%:20", turns=2000, seed=7)
    run.requests                            a row for each request: when it came, was begun and answered
    run.numbers.loc["response 99 of 100 [us]"]
    run.spans, run.series                   which thread had which core; how each task stands in each pass
    print(run.explain(12))                  why pass 12 does what it does
    caladan.compare(run, vary={"kv.delay": [10, 40]}).frame
    answer = caladan.sweep(table, [0.3, 0.6, 0.9], task="kv", seeds=10, slo="kv.p99=400")
    answer.frame, answer.is_kept, answer.misses
    run.picture("run.svg"), answer.picture("sweep.svg")
    log = caladan.Log.read("requests.csv", unit="us", columns={"time": "arrived_us", "service": "took_us"})
    run = table.run_log(log, turn="5us", batch="batch")
    caladan.sweep(table, log=log, turn="5us", batch="batch", scale=[0.8, 1, 1.3], seeds=10, slo="kv.p99=250")

A Table knows what its tasks are called and what a tick is, a Run also its seed and the words that made it; frames say
the unit with each time, and are made once each. What the program refuses is a caladan.Refusal with its line. The
program is that of CALADAN_VIEW, else the one of the checkout or the release that the package is in, else the one in the
PATH; it must be of the same version. caladan.core has the decision core itself, over the C library.

The program does not tell the requests of a load in cores that several tables share, so they are drawn here
(drawing.py). Where thousandths leave the share of best effort open, it is counted from the run's spans (shares.py)."""
from __future__ import annotations

from typing import TYPE_CHECKING, Any

__version__ = "6"
__all__ = ["ActionRefused", "Answer", "LeftOut", "Log", "Policy", "Refusal", "Run", "Table", "Trials", "compare",
           "core", "policies", "sweep", "world"]
# Functions of caladan.core which, as its classes and constants, go by `caladan.` too for a version more.
OF_CORE = ("action_row", "machine_of", "recorded", "taken", "text_of", "text_of_rows", "written")

if TYPE_CHECKING:
    from . import core, policies, world
    from .lab import Answer, Run, Table, compare, sweep
    from .logs.log import Log
    from .logs.running import LeftOut
    from .policies.policy import ActionRefused, Policy
    from .refusal import Refusal
    from .trials import Trials

# The modules of names that are not lab.py's.
PLACES = {"Refusal": ".refusal", "Policy": ".policies.policy", "ActionRefused": ".policies.policy",
          "Trials": ".trials", "Log": ".logs.log", "LeftOut": ".logs.running"}


def __getattr__(name: str) -> Any:
    """What is imported once it is used: the command line needs none of it."""
    import importlib
    if name in ("core", "policies", "world"):
        return importlib.import_module(f".{name}", __name__)
    if name in __all__:
        return getattr(importlib.import_module(PLACES.get(name, ".lab"), __name__), name)
    if name[:1].isupper() or name in OF_CORE:
        found = importlib.import_module(".core", __name__)
        if name in found.__all__:
            import warnings
            warnings.warn(f"caladan.{name} is caladan.core.{name} now", DeprecationWarning, stacklevel=2)
            return getattr(found, name)
    raise AttributeError(f"module {__name__!r} has no attribute {name!r}")
