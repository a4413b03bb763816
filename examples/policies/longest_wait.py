#!/usr/bin/python3
"""The longest wait first, latency-critical tasks before best-effort ones.

    caladan_lab sweep --policy exec:./longest_wait.py

A core that its thread has left is freed. Each waiting thread gets the lowest free core; where there is none, a
latency-critical one has the best-effort core revoked that was granted longest ago. longest_wait.c and longest_wait.awk
do the same."""
import sys

ROOM, TAKEN, RUNNING, QUEUED, OLDEST, PAUSED, SINCE = 2, 4, 5, 6, 7, 11, 12


def read_table():
    """The cores, and of each thread its task's kind and number. Each key has a line, `kind` one before `limit`."""
    cores, kinds, kind, task = 0, [], "", -1
    for line in sys.stdin:
        key, _, value = line.strip().partition(" = ")
        if key == "cores":
            cores = int(value)
        elif key == "kind":
            kind, task = value.strip('"'), task + 1
        elif key == "limit":
            kinds += [(kind, task)] * int(value)
        elif key == "---":
            break
    return cores, kinds


class Scheduler:
    def __init__(self, cores, kinds):
        self.kinds = kinds
        # Of a core the thread that has it, whether that was told to leave, and when it was granted; of a thread its
        # core, the commands sent to it, and the number of its last Run.
        self.holder, self.leaving, self.granted = [None] * cores, [False] * cores, [0] * cores
        self.core, self.sent, self.run = [None] * len(kinds), [0] * len(kinds), [0] * len(kinds)
        self.grants = 0

    def wait(self, now, look):
        """The longer of the two waits that a look shows."""
        queued = now - look[OLDEST] if look[QUEUED] else 0
        paused = now - look[SINCE] if look[PAUSED] else 0
        return max(queued, paused, 0)

    def free_left(self, looks):
        for core, thread in enumerate(self.holder):
            if thread is not None and looks[thread][TAKEN] >= self.run[thread] and not looks[thread][RUNNING]:
                print(f"free,{core}")
                self.holder[core], self.leaving[core], self.core[thread] = None, False, None

    def grant(self, core, thread):
        print(f"grant,{core},{thread},3")
        self.sent[thread] += 1
        self.grants += 1
        self.holder[core], self.core[thread], self.granted[core] = thread, core, self.grants
        self.run[thread] = self.sent[thread]

    def revoke_oldest(self, looks, told, task):
        """Revokes the best-effort core that was granted longest ago, for a task."""
        found = [core for core, thread in enumerate(self.holder) if thread is not None and not self.leaving[core]
                 and self.kinds[thread][0] == "be" and looks[thread][ROOM] and thread not in told]
        if found:
            core = min(found, key=lambda it: self.granted[it])
            print(f"revoke,{core},preempt,{task}")
            self.leaving[core] = True
            self.sent[self.holder[core]] += 1
            told.add(self.holder[core])

    def decide(self, now, looks):
        """Prints the actions of a pass, and the empty line that ends them."""
        self.free_left(looks)
        told, waits = set(), [self.wait(now, look) for look in looks]
        waiting = [k for k, look in enumerate(looks) if self.core[k] is None and look[ROOM] and waits[k]]
        for thread in sorted(waiting, key=lambda k: (self.kinds[k][0] != "lc", -waits[k], k)):
            free = next((core for core, holder in enumerate(self.holder) if holder is None), None)
            if free is not None:
                self.grant(free, thread)
                told.add(thread)
            elif self.kinds[thread][0] == "lc":
                self.revoke_oldest(looks, told, self.kinds[thread][1])
        print(flush=True)


def main():
    cores, kinds = read_table()
    scheduler, now, looks = Scheduler(cores, kinds), 0, []
    for line in sys.stdin:
        row = line.rstrip("\n").split(",")
        if row[0] == "pass":
            now, looks = int(row[1]), []
        elif row[0] == "whole":
            looks.append([0, *map(int, row[1:])])
        elif row == [""]:
            scheduler.decide(now, looks)


if __name__ == "__main__":
    main()
