"""Three policies of one's own beside the two that there are: a table of the service's p99 and of the cores that the
batch job held, over the load, and a picture of one over the other.

    five.py PICTURE

PICTURE is a file that ends in .svg, .png or .pdf."""
import os
import sys

import caladan as cal

PICTURE = os.path.abspath(sys.argv[1])
os.chdir(os.path.dirname(os.path.abspath(__file__)))


# begin come
class FirstCome(cal.Policy):
    """First come, first served, whoever it is, for a slice of time: then a core goes to the next one that waits."""

    slice = 100  # ticks

    def decide(self, machine):
        for core in machine.left_cores:
            yield core.free()
        for thread in sorted(machine.waiting, key=lambda it: -it.delay):
            core = machine.open_core(near=thread)
            oldest = machine.oldest_grant()
            if core:
                yield core.grant(thread)
            elif oldest and machine.clock - oldest.granted_at >= self.slice:
                yield oldest.revoke(for_task=thread.task)
# end


# begin delay
class ShortestDelay(cal.Policy):
    """No latency-critical request waits while the batch job has a core: the table's `delay` is nothing to it."""

    def decide(self, machine):
        for core in machine.left_cores:
            yield core.free()
        for thread in sorted(machine.waiting, key=lambda it: (it.task.kind == "be", -it.delay)):
            core = machine.open_core(near=thread)
            if core:
                yield core.grant(thread)
            elif thread.task.kind == "lc" and thread.task.coming == 0 and (core := machine.oldest_grant("be")):
                yield core.revoke(for_task=thread.task)
# end


# begin static
class StaticPartition(cal.Policy):
    """Each task has cores of its own: a latency-critical one as many as it is guaranteed, the batch job the rest."""

    def begin(self, machine):
        kinds = [task for task in machine.tasks for _ in range(task.guaranteed)]
        batch = [task for task in machine.tasks if task.kind == "be"][0]
        self.owner = dict(zip(machine.cores, kinds + [batch] * len(machine.cores)))

    def decide(self, machine):
        for core in machine.left_cores:
            yield core.free()
        for thread in machine.waiting:
            own = [core for core in machine.open_cores if self.owner[core] == thread.task]
            if own and machine.permits(own[0].grant(thread)):
                yield own[0].grant(thread)
# end


# begin sweep
policies = ["caladan", "assured", FirstCome(), ShortestDelay(), StaticPartition()]
runs = cal.sweep("service.toml", loads=[0.3, 0.6, 0.9], seeds=3, turns=300, service="90%:1,10%:10", policies=policies)
medians = runs.frame.groupby(["load", "policy"], sort=False)[["p99", "batch cores"]].median()
print(medians["p99"].unstack(), medians["batch cores"].unstack(), sep="\n\n")
runs.plot(PICTURE, y="p99", x="batch cores")
# end
