"""Runs in Python: kernel threads that steal, plans, a guard, and the policies `caladan` and `assured`, read as
docs/MODEL.md and docs/POLICY.md tell them. Nothing of it is proved: a run that is played here is shown only once the
program has played it again. The modules, each upon those before it:

    records, actions    what threads show, and what a pass does
    threads, plans      kernel threads, and how a plan paces and slows them
    board, guard        the state of the scheduler, and which actions are permitted in it
    parts, caladan_policy, assured_policy
                        the two policies
    requests, runs      a whole run: its history and its requests"""
from __future__ import annotations

from . import assured_policy, caladan_policy
from .board import Board
from .runs import Played, World, played

__all__ = ["Board", "POLICIES", "Played", "World", "played"]
POLICIES = {"caladan": caladan_policy.decide, "assured": assured_policy.decide}
