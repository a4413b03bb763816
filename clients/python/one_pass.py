"""One pass: of two cores and one kernel thread, which has a request queued. Prints 'core 0 to thread 0'.

    one_pass.py      with the package `caladan` in the path, as pip install ./lab or PYTHONPATH=lab/src puts it there"""
from caladan.core import Kind, Look, Scheduler

TABLE = """
cores = 2
bandwidth_limit = 1000

[[task]]
kind = "lc"
guaranteed = 1
limit = 1
delay = 10
request = 50
"""

# begin
with Scheduler(TABLE) as scheduler:
    # one look for each thread: here a record at place 1, with a request that came at 100
    looks = [Look(room=1, number=1, queued=1, oldest=100, stamp=105)]
    judged, actions = scheduler.run_each(111, 0, looks)
    for action in actions:
        if action.kind == Kind.GRANT:
            print(f"core {action.core} to thread {action.thread}")
# end
