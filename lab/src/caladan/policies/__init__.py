"""A policy of your own, tried on the runs of caladan_lab: docs/POLICIES.md. `Policy` is what you write, and Machine,
Core, Thread and Task are what it sees. ActionRefused says which action is not permitted, and why."""
from __future__ import annotations

from .machine import BanOf, Core, Machine, Task, Thread
from .policy import ActionRefused, Policy
from .processes import ProcessPolicy

__all__ = ["ActionRefused", "BanOf", "Core", "Machine", "Policy", "ProcessPolicy", "Task", "Thread"]
