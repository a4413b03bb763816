"""Handles: that none stays open, and that a library may still stand first."""
from __future__ import annotations

import ctypes
import gc
import threading
import warnings
from typing import Callable

import pytest

import caladan
from caladan import core
from caladan.core import Action, Audit, CallRefused, Guard, Look, Scheduler

from .conftest import TABLE

KINDS = [Scheduler, Audit, Guard]
Kind = Callable[..., Scheduler]


@pytest.mark.parametrize("kind", KINDS)
def test_one_that_is_dropped_is_closed_and_says_so(library: str, kind: Kind) -> None:
    with warnings.catch_warnings(record=True) as said:
        warnings.simplefilter("always")
        kept = [kind(TABLE, library=library) for _ in range(3)]
        handles = [it.handle for it in kept]
        assert all(it.open for it in handles)
        kept.clear()
        gc.collect()
        assert [it.open for it in handles] == [False] * 3
    assert [it.category for it in said] == [ResourceWarning] * 3
    assert f"{kind.__name__} was not closed" in str(said[0].message)


def test_one_that_is_dropped_on_another_thread_is_closed(library: str) -> None:
    with warnings.catch_warnings(record=True) as said:
        warnings.simplefilter("always")
        dropped = [Scheduler(TABLE, library=library)]
        handle = dropped[0].handle
        other = threading.Thread(target=dropped.clear)
        other.start()
        other.join()
        assert (handle.open, len(said)) == (False, 1)


@pytest.mark.parametrize("kind", KINDS)
def test_one_that_was_closed_is_dropped_in_silence(library: str, kind: Kind) -> None:
    with warnings.catch_warnings(record=True) as said:
        warnings.simplefilter("always")
        with kind(TABLE, library=library) as it:
            it.close()
        del it
        gc.collect()
    assert not said


def test_with_closes_after_an_error(library: str) -> None:
    with pytest.raises(CallRefused) as why, Guard(TABLE, library) as it:
        it.run(111, 0, [], [])
    assert (why.value.answer, it.is_open) == (core.WRONG_COUNT, False)


def test_of_a_table_that_is_refused_nothing_is_open(library: str) -> None:
    with warnings.catch_warnings(record=True) as said:
        warnings.simplefilter("always")
        with pytest.raises(CallRefused):
            Scheduler("cores = 3\n", library=library)
        gc.collect()
    assert not said


@pytest.mark.parametrize("policy", [{}, {"policy": core.ASSURED}])
def test_a_library_may_stand_first_for_a_version_more(library: str, policy: dict[str, int], waits: Look) -> None:
    it = ctypes.CDLL(library)
    with pytest.warns(DeprecationWarning, match="the library goes last"):
        scheduler = Scheduler(it, TABLE, **policy)  # type: ignore[arg-type]
    with scheduler:
        assert scheduler.run_each(112, 0, [waits])[1][0].kind == core.GRANT
    with pytest.warns(DeprecationWarning):
        Audit(it, TABLE, *policy.values()).close()  # type: ignore[arg-type]


def test_a_guard_whose_library_stood_first_answers_a_pair(library: str, waits: Look, grant: Action,
                                                          free: Action) -> None:
    with pytest.warns(DeprecationWarning):
        guard = Guard(ctypes.CDLL(library), TABLE)  # type: ignore[arg-type]
    with guard:
        judged, refused = guard.run(111, 0, [waits], [free])
        assert judged is None and (refused.place, refused.why) == (0, core.WHY_DOES_NOT_FIT)  # type: ignore
        assert guard.run(111, 0, [waits], [grant]) == ([core.KEPT], None)


def test_what_the_module_had_is_found_in_the_package(library: str) -> None:
    for name in ("Scheduler", "Audit", "Guard", "Look", "Action", "TableTask", "CallRefused", "Unfit", "NotPermitted",
                 "Lost", "GRANT", "REVOKE", "CALADAN", "ASSURED", "NO_SUCH", "MOST_ACTIONS", "WORDS", "POLICY_TEXTS",
                 "text_of_rows", "written", "recorded", "machine_of", "action_row", "text_of", "taken"):
        with pytest.warns(DeprecationWarning, match=f"caladan.core.{name}"):
            assert getattr(caladan, name) is getattr(core, name)
    with pytest.raises(AttributeError):
        caladan.NOTHING  # noqa: B018


def test_handles_are_used_by_turns_on_two_threads(library: str, waits: Look) -> None:
    it, said = Scheduler(TABLE, library=library), []
    other = threading.Thread(target=lambda: said.append(it.run_each(112, 0, [waits])))
    other.start()
    other.join()
    with it:
        assert said[0][0] == [core.KEPT] and it.thread(0).sent == 1
