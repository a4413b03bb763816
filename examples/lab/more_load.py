"""A log at more than its load: the same requests, each so much sooner after the one before, under two delays.

    more_load.py [TABLE LOG]

For the log as it is, and at 1.3 times its load, it prints the p99 of the service and the cores that it held: under each
delay, and how much more it is under the second. A column `40 bound` would say that a rank was not answered.
The log is that of docs/TUTORIAL.md."""
import sys
from pathlib import Path

import caladan

EXAMPLES = Path(__file__).resolve().parents[1]
GIVEN = sys.argv[1:3] if sys.argv[2:] else (EXAMPLES / "sweep/which_delay/input", EXAMPLES / "tutorial/requests.csv")
ROWS = ["kv response 99 of 100 [us]", "kv mean cores held"]

table = caladan.Table.read(GIVEN[0], names=["kv", "search", "batch"], tick="us")
log = caladan.Log.read(GIVEN[1], unit="us", columns={"time": "arrived_us", "service": "service_us"})
for times in (1, 1.3):
    run = table.run_log(log.scaled(times), turn="5us")
    print(f"{times} times the load")
    frame = caladan.compare(run, vary={"kv.delay": [10, 40]}).frame
    print(frame.set_index(frame.columns[0]).loc[ROWS].dropna(axis="columns", how="all"))
