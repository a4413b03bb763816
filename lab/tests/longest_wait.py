"""A policy of one's own for the tests: the longest wait first, as docs/POLICIES.md has it."""
from __future__ import annotations

from typing import Iterator

from caladan.policies import Machine, Policy
from caladan.world.actions import Action


class LongestWait(Policy):
    """Short tasks' threads before long ones', each by its queueing delay."""

    def decide(self, machine: Machine) -> Iterator[Action]:
        for core in machine.cores:
            if core.thread and core.thread.left:
                yield core.free()
        for thread in sorted(machine.waiting, key=lambda t: (t.task.kind != "lc", -t.delay)):
            if (core_for := machine.open_core(near=thread)):
                yield core_for.grant(thread)
            elif thread.task.kind == "lc" and (oldest := machine.oldest_grant("be")):
                yield oldest.revoke(for_task=thread.task)
