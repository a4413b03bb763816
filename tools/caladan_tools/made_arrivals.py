"""Arrivals for runs of a whole team: a table and what comes to its threads, by a seed."""
import random
import re

# kind, guaranteed, limit, delay, request
MIXED = [("lc", 2, 4, 10, 20), ("lc", 1, 3, 10, 20), ("be", 0, 3, 0, 0)]


def table(cores, tasks, bandwidth_limit=1000):
    text = f"cores = {cores}\nbandwidth_limit = {bandwidth_limit}\n"
    for kind, guaranteed, limit, delay, request in tasks:
        text += f'\n[[task]]\nkind = "{kind}"\nguaranteed = {guaranteed}\nlimit = {limit}\n'
        text += f"delay = {delay}\nrequest = {request}\n"
    return text


def arrivals(seed, threads, passes, turns, chance=0.2, most_work=8):
    """Rows of an arrivals file and the number of requests: passes and turns in turn, ten ticks apart; bursts of a
    figure of bandwidth over the limit; to each thread a request before one turn in some, most of them to the first
    threads of a task."""
    made = random.Random(seed)
    rows = [f"pass,{100 + 10 * p},{made.choice([0, 0, 0, 900, 1500])}" for p in range(passes)]
    rows += [f"turn,{105 + 10 * j}" for j in range(turns)]
    requests = 0
    for thread in range(threads):
        for turn in range(turns):
            if made.random() < chance * (1.5 if thread % 2 == 0 else 0.3):
                requests += 1
                rows.append(f"request,{thread},{turn},{requests},{made.randint(1, most_work)},{made.randint(0, 100)}")
    return "\n".join(["caladan-arrivals,1", *rows, f"end,{len(rows)}"]) + "\n", requests


def runs():
    """Ten tables, each with its arrivals: 60 to 330 passes and turns, of 2 to 16 cores and 2 to 4 tasks."""
    tables = [table(8, MIXED), table(4, MIXED), table(2, [("lc", 1, 2, 5, 10), ("be", 0, 2, 0, 0)]),
              table(16, [*MIXED, ("be", 0, 4, 0, 0)]), table(4, [("lc", 0, 4, 0, 15), ("lc", 2, 3, 20, 30)])]
    threads = [10, 10, 4, 14, 7]
    for seed in range(10):
        k = seed % len(tables)
        yield tables[k], arrivals(seed, threads[k], 60 + 30 * seed, 60 + 30 * seed, 0.1 + 0.03 * seed)[0]


def numbers(table, key):
    """What each task's line with this key says."""
    return [int(it) for it in re.findall(rf"(?<!\w){key}\s*=\s*(\d+)", table)]


def owners(table):
    """The task of each kernel thread, and the cores of the machine."""
    limits = numbers(table, "limit")
    owners = [t for t, limit in enumerate(limits) for _ in range(limit)]
    return owners, int(re.search(r"^cores\s*=\s*(\d+)", table, re.M)[1]), len(limits)
