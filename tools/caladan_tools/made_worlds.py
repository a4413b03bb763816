"""Small runs by a seed, for worlds that are compared: a table, arrivals with uneven clocks, a policy, and maybe a
plan."""
import random

POLICIES = "caladan", "assured"


def table(made):
    """A machine of 2 to 8 cores with 1 to 5 tasks."""
    cores = left = made.choice([2, 4, 4, 6, 8])
    text = f"cores = {cores}\nbandwidth_limit = {made.choice([0, 100, 1000])}\n"
    for _ in range(made.randint(1, 5)):
        lc, limit = made.random() < 0.6, made.randint(1, 4)
        guaranteed = min(left, made.randint(0, limit)) if lc else 0
        left -= guaranteed
        text += f'\n[[task]]\nkind = "{"lc" if lc else "be"}"\nguaranteed = {guaranteed}\nlimit = {limit}\n'
        text += f"delay = {made.choice([0, 5, 10, 20, 40])}\nrequest = {made.choice([10, 20, 30, 50, 200, 1000000])}\n"
    return text


def clocks(made, many, first):
    """Rising clocks, mostly some ten ticks apart."""
    found = [first]
    while len(found) < many:
        found.append(found[-1] + made.choice([0, 1, 10, 10, 10, 10, 10, 25]))
    return found[:many]


def requests(made, threads, turns):
    """Rows of requests, by threads and then by turns: some threads get many, with a burst now and then."""
    rows = []
    for thread in range(threads):
        chance, misses, burst = made.choice([0, 0.05, 0.15, 0.4]), made.choice([0, 10, 100, 400]), made.randint(0, 40)
        for turn in range(turns):
            if made.random() < (0.9 if turn % 50 in range(burst, burst + 4) and chance else chance):
                work = made.choice([1, 1, 2, 3, 5, 12])
                rows.append((thread, turn, len(rows) + 1, work, made.randint(0, misses)))
    return rows


def arrivals(made, threads, passes, turns):
    """The rows of arrivals, below no table."""
    found = requests(made, threads, turns)
    rows = [f"pass,{clock},{made.choice([0, 0, 90, 900, 1500])}" for clock in clocks(made, passes, 100)]
    rows += [f"turn,{clock}" for clock in clocks(made, turns, 105)]
    rows += [",".join(map(str, ("request", *it))) for it in found]
    return "\n".join(["caladan-arrivals,1", *rows, f"end,{len(rows)}"]) + "\n", any(it[-1] for it in found)


def plan(made, has_misses):
    """The words of a plan; none in every third run."""
    if made.random() < 0.33:
        return []
    words = ["--pace", str(made.choice([1, 2, 3, 5]))]
    if made.random() < 0.6:
        words += ["--beside", str(made.choice([0, 300, 500, 700, 999]))]
    if made.random() < 0.6 and has_misses:
        words += ["--memory", str(made.choice([0, 60, 150, 400]))]
    return words + (["--figure", "shown"] if made.random() < 0.5 and has_misses else [])


def run(seed, most=60):
    """The table, the arrivals, the policy and the words of the plan of this seed: of so many turns at most."""
    made = random.Random(seed)
    head = table(made)
    threads = sum(int(line.split(" = ")[1]) for line in head.splitlines() if line.startswith("limit"))
    turns = made.randint(1, most)
    passes = turns if made.random() < 0.8 else made.randint(0, most)
    text, has_misses = arrivals(made, threads, passes, turns)
    return head, text, made.choice(POLICIES), plan(made, has_misses) if passes == turns else []
