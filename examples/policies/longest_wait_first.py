"""A policy of one's own beside the two that there are: the longest wait first.

    longest_wait_first.py PICTURE

PICTURE is a file that ends in .svg, .png or .pdf."""
import os
import sys

PICTURE = os.path.abspath(sys.argv[1])
os.chdir(os.path.dirname(os.path.abspath(__file__)))

# begin
import caladan as cal


class LongestWait(cal.Policy):
    def decide(self, machine):
        for core in machine.cores:
            if core.thread and core.thread.left:
                yield core.free()
        for thread in sorted(machine.waiting, key=lambda t: (t.task.kind != "lc", -t.delay)):
            if (core := machine.open_core(near=thread)):
                yield core.grant(thread)
            elif thread.task.kind == "lc" and (core := machine.oldest_grant("be")):
                yield core.revoke(for_task=thread.task)


runs = cal.sweep("service.toml", loads=[0.3, 0.6, 0.9], seeds=3, turns=200,
                 policies=["caladan", "assured", LongestWait()])
print(runs.frame.groupby(["policy", "load"], sort=False)["p99"].median().unstack())
runs.plot(PICTURE, y="p99", x="batch cores")
# end
