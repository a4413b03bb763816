"""A run as frames: the three requests of a service that waited longest, the p99 of its responses, and how the service
stood in the grants of the last pass before the slowest was begun.

    first_frame.py [TABLE]"""
import sys
from pathlib import Path

import caladan

FILE = sys.argv[1] if sys.argv[1:] else Path(__file__).resolve().parents[1] / "sweep/which_delay/input"

# begin
table = caladan.Table.read(FILE, names=["kv", "search", "batch"], tick="us")
run = table.run(task=["kv", "batch"], load=[0.6, 0.9], service=["90%:1,10%:10", "300"], turns=300, seed=7)
kv = run.requests[run.requests["task"] == 0]
kv = kv.assign(wait=kv["begun [us]"] - kv["arrived [us]"])
slowest = kv.nlargest(3, "wait")
print(slowest[["id", "thread", "arrived [us]", "begun [us]", "wait"]])
print("p99", run.numbers.loc["response 99 of 100 [us]", "kv lc"], "us")
before = run.series[run.series["clock [us]"] < slowest["begun [us]"].iloc[0]]
print(run.explain(before["pass"].max(), task=0).partition("\n5 Grants\n")[2], end="")
# end
