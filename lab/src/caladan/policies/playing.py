"""Runs by policies of one's own, side by side in processes of their own. These begin before any thread does: each is
told the name of a policy, a table, arrivals and a plan, and answers with a history."""
from __future__ import annotations

import multiprocessing
import os
import pickle
import queue
import signal
import traceback
from multiprocessing.connection import Connection
from typing import Iterable, Mapping, Optional, Union

from ..arrivals import arrivals_of
from ..plans import Plan
from ..programs import ASKING, Interrupted
from ..refusal import Refusal
from ..tables import Machine
from ..world import World
from ..world.plans import plan_of
from .policy import Guarded, Policy
from .processes import ProcessGuarded, ProcessPolicy, die_with_parent

Own = Union[Policy, ProcessPolicy]


def history_by(policy: Own, table: Machine, arrivals: bytes, plan: Plan) -> bytes:
    """The history of a table's run on arrivals by a policy of one's own. ActionRefused, or what else the policy
    raises."""
    world = World(table, arrivals_of(arrivals), plan_of(plan))
    if isinstance(policy, Policy):
        world.run(Guarded(policy))
        return world.history
    process = ProcessGuarded(policy, world)
    try:
        world.run(process)
        process.end()
    finally:
        process.close()
    return world.history


def as_told(fault: BaseException) -> BaseException:
    """A fault as another process can be told of it: with the lines that say where it was raised."""
    fault.add_note("".join(traceback.format_exception(fault)).rstrip("\n"))
    try:
        pickle.loads(pickle.dumps(fault))
    except Exception:
        return RuntimeError(fault.__notes__[-1])
    return fault


def serve(asked: Connection, policies: Mapping[str, Own]) -> None:
    """What a process of a pool does until nothing more is asked: an interrupt is the business of the one that began
    it."""
    die_with_parent()
    signal.signal(signal.SIGINT, signal.SIG_IGN)
    for each in (signal.SIGTERM, signal.SIGHUP):
        signal.signal(each, signal.SIG_DFL)
    while True:
        try:
            name, table, arrivals, plan = asked.recv()
        except EOFError:
            return
        try:
            asked.send((history_by(policies[name], table, arrivals, plan), None))
        except Exception as fault:
            asked.send((b"", as_told(fault)))


class Worker:
    """A process of a pool."""

    def __init__(self, policies: Mapping[str, Own]) -> None:
        context = multiprocessing.get_context("fork")
        self.asking, asked = context.Pipe()
        self.process = context.Process(target=serve, args=(asked, policies), daemon=True)
        self.process.start()
        asked.close()
        ASKING.note(self.process)

    def history(self, name: str, table: Machine, arrivals: bytes, plan: Plan) -> bytes:
        """The history of one run."""
        try:
            self.asking.send((name, table, arrivals, plan))
            history, fault = self.asking.recv()
        except (EOFError, OSError):
            if ASKING.is_ended:
                raise Interrupted from None
            self.process.join()
            status = self.process.exitcode
            raise Refusal(f"{name}: the process that makes its runs ended with status {status}: is there memory for so "
                          "many at once?", 3) from None
        if fault is not None:
            raise fault
        return bytes(history)

    def end(self) -> None:
        self.asking.close()
        self.process.join(1)
        self.process.kill()
        self.process.join()
        ASKING.ended(self.process)


class Workers:
    """So many processes that make runs by these policies. To be made before there are threads."""

    def __init__(self, policies: Mapping[str, Own], many: Optional[int] = None) -> None:
        self.policies = policies
        count = min(many or len(os.sched_getaffinity(0)), len(os.sched_getaffinity(0)))
        self.all = [Worker(policies) for _ in range(count if policies else 0)]
        self.free: queue.SimpleQueue[Worker] = queue.SimpleQueue()
        for each in self.all:
            self.free.put(each)

    def history(self, name: str, table: Machine, arrivals: bytes, plan: Plan) -> bytes:
        """The history of one run, by the first process that has nothing else to do."""
        worker = self.free.get()
        try:
            return worker.history(name, table, arrivals, plan)
        finally:
            self.free.put(worker)

    def __enter__(self) -> "Workers":
        return self

    def __exit__(self, *_: object) -> None:
        for each in self.all:
            each.end()


def named(policies: Iterable[Own]) -> dict[str, Own]:
    """Policies by what they are called; two of one name are refused."""
    found: dict[str, Own] = {}
    for each in policies:
        if each.called in found:
            raise Refusal(f"two policies are called {each.called}: give one another `name`")
        found[each.called] = each
    return found
