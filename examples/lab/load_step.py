"""A step in the load: the service gets ten times as many requests for a millisecond, and the batch job gives cores.

    load_step.py PICTURE [TABLE]

It prints the run in slices of half a millisecond: how many requests of the service came, the responses of those, and
the cores that the service and the batch job held. The picture has the lanes of the whole run, with a point for each
request. Requests come at random times, by a seed; each takes 4 us, and so one turn."""
import random
import sys
import tempfile
from pathlib import Path

import caladan

TABLE = sys.argv[2] if sys.argv[2:] else Path(__file__).resolve().parents[1] / "sweep/which_delay/input"
# From when on, in us, how many requests come in a us; the run goes on a little, to answer the last of them.
LOADS = [(0, 0.05), (1000, 0.5), (2000, 0.05), (3000, 0)]


def times():
    """When requests come, in us."""
    draw = random.Random(1)
    for (begin, rate), (end, _) in zip(LOADS, LOADS[1:]):
        time = begin + draw.expovariate(rate)
        while time < end:
            yield time
            time += draw.expovariate(rate)


table = caladan.Table.read(TABLE, names=["kv", "search", "batch"], tick="us")
with tempfile.NamedTemporaryFile("w", suffix=".csv") as log:
    print("time,service,task", *["0,1000000,batch"] * 16, *(f"{it:.3f},4,kv" for it in times()), sep="\n", file=log,
          flush=True)
    run = table.run(log=log.name, unit="us", turn="5us", ticks=5, turns=640)
slices = run.numbers_by("500us")
service, batch = (slices[slices["task"] == it].reset_index() for it in ("kv", "batch"))
shown = service[["from [us]", "came", "p50 [us]", "p99 [us]", "held [cores]"]]
print(shown.assign(batch=batch["held [cores]"]).query("came > 0").round(2).to_string(index=False))
run.picture(sys.argv[1], passes=640, responses=True)
