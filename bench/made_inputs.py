"""Inputs made for the benchmark, each with the report that it must lead to.

A made world has one latency-critical task for each thread, and a core for each. In the first pass every thread has
waited too long, so thread k is granted core k; from then on core k was last granted to it, so each later grant gives
it core k again. What the scheduler does is thus known without it, and the report below is written from the world
alone. """

import hashlib
import random

TABLE_TOP = "cores = {cores}\nbandwidth_limit = 1000\n"
TASK = '\n[[task]]\nkind = "lc"\nguaranteed = 1\nlimit = 1\ndelay = 3\nrequest = 1000000\n'
WAITED = 4  # ticks, one more than the tasks' threshold
FIRST_CLOCK = 10


class Thread:
    """A kernel thread: what it does, and the record that it published last."""

    def __init__(self, number):
        self.number = number
        self.doing = "idle"
        self.left = 0
        self.place = 0
        self.taken = 0
        self.running = 0
        self.queued = 0
        self.oldest = 0
        self.started = 0

    def row(self):
        words = (self.taken, self.running, self.queued, self.oldest, self.started, 0, 0)
        return "whole,%d,1,%d,%s\n" % (self.number, self.place, ",".join(map(str, words)))

    def wait(self, clock):
        self.doing = "waits"
        self.queued = 1
        self.oldest = clock - WAITED

    def step(self, clock, chance):
        """What it does before the pass at this clock. Answers whether it left its core."""
        if self.doing == "granted":
            self.doing = "runs"
            self.taken += 1
            self.running = self.number + 1
            self.queued = 0
            self.oldest = 0
            self.started = clock
            self.left = chance.randrange(4)
        elif self.doing == "runs" and self.left > 0:
            self.left -= 1
            return False
        elif self.doing == "runs":
            self.doing = "idle"
            self.running = 0
            self.started = 0
            if chance.random() < 0.5:
                self.wait(clock)
            self.place += 1
            return True
        elif self.doing == "idle" and (self.place == 0 or chance.random() < 0.3):
            self.wait(clock)
        else:
            return False
        self.place += 1
        return False


def make(path, threads, passes, seed):
    """Writes an input of so many threads and passes, and answers the digest of its report."""
    chance = random.Random(seed)
    world = [Thread(k) for k in range(threads)]
    report = hashlib.sha256()
    with open(path, "w", encoding="ascii") as out:
        out.write(TABLE_TOP.format(cores=max(2, threads + threads % 2)))
        out.write(TASK * threads + "---\ncaladan-signals,1\n")
        for p in range(passes):
            clock = FIRST_CLOCK + p
            freed = [it.number for it in world if it.step(clock, chance)]
            granted = [it for it in world if it.doing == "waits"]
            out.write("pass,%d,0\n" % clock + "".join(it.row() for it in world))
            lines = ["pass %d now %d bandwidth 0\n" % (p, clock)]
            lines += ["  free core %d\n" % core for core in freed]
            for it in granted:
                lines.append("  grant core %d to thread %d class %d\n" % (it.number, it.number, 2 if p else 3))
                it.doing = "granted"
            report.update("".join(lines).encode())
        out.write("end,%d\n" % passes)
    report.update(b"end %d passes\n" % passes)
    for it in world:
        held = it.doing in ("granted", "runs")
        report.update(b"task %d lc held %d leaving 0\n" % (it.number, held))
    return report.hexdigest()
