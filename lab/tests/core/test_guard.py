"""Passes that another policy chose: what a guard lets through, and how it refuses."""
from __future__ import annotations

import pytest

from caladan import core
from caladan.core import Action, CallRefused, Guard, Look, Lost, NotPermitted, Unfit

from .conftest import PAIR, TABLE
from .test_scheduler import facts


def test_a_look_that_does_not_fit_is_told_with_the_reason(library: str, lie: Look) -> None:
    with Guard(TABLE, library) as it, pytest.raises(Unfit) as why:
        it.run(111, 0, [lie], [])
    assert (why.value.thread, why.value.judged) == (0, core.MISSHAPEN)
    assert str(why.value) == ("a look does not fit: thread 0, Look(room=1, number=1, running=129): misshapen: running "
                              "or misses is out of range")


def test_a_refusal_names_the_thread_the_action_and_the_reason(library: str, lie: Look, waits: Look, grant: Action,
                                                              free: Action) -> None:
    with Guard(TABLE, library) as it:
        with pytest.raises(NotPermitted) as why:
            it.run_each(111, 0, [lie], [free])
        refused = why.value
        assert (refused.place, refused.action, refused.why, refused.names) == (0, free, core.WHY_DOES_NOT_FIT, 0)
        assert (refused.judged, refused.answer) == ([core.MISSHAPEN], core.NOT_PERMITTED)
        assert (refused.refused.place, refused.refused.why) == (0, 2)
        assert str(refused) == "an action is not permitted: action 0, free core 0: it does not fit the state"
        assert it.run_each(111, 0, [lie], [grant]) == [core.MISSHAPEN]
        assert list(it.commands([grant])) == [(0, 0)]
        facts(it, 1, 0)
        again = Action(kind=core.GRANT, core=1, thread=0, core_class=3)
        with pytest.raises(NotPermitted) as why:
            it.run(112, 0, [waits], [free, again])
        assert (why.value.place, why.value.action, why.value.why) == (0, free, core.WHY_NOT_LEFT)
        assert why.value.judged == []


def test_the_second_action_is_named(library: str, waits: Look, grant: Action) -> None:
    with Guard(PAIR, library) as it, pytest.raises(NotPermitted) as why:
        it.run(111, 0, [waits, waits], [grant, Action(kind=core.GRANT, core=0, thread=1, core_class=3)])
    assert str(why.value) == ("an action is not permitted: action 1, grant core 0 to thread 1 class 3: it does not fit "
                              "the state")


def test_a_pass_that_may_not_end_names_the_core(library: str, waits: Look, grant: Action) -> None:
    """A core that is banned while it is held must be revoked in that pass."""
    with Guard(PAIR, library) as it:
        it.run(111, 0, [waits, Look(room=1)], [grant])
        ban = Action(kind=core.BAN, core=0, thread=1, started=7)
        with pytest.raises(NotPermitted) as why:
            it.run(112, 0, [waits, Look(room=1)], [ban])
        assert (why.value.place, why.value.action, why.value.why, why.value.names) == (1, None, core.WHY_BANNED_HELD, 0)
        assert str(why.value) == ("an action is not permitted: the pass may not end after its 1 actions: a banned core "
                                  "is held, core 0")


def test_a_thread_that_is_gone_is_freed(library: str, waits: Look, lie: Look, grant: Action, free: Action) -> None:
    with Guard(TABLE, library) as it:
        it.run_each(111, 0, [lie], [grant])
        gone = it.gone(0)
        assert (gone.number, gone.taken, gone.running, gone.stamp) == (1, 1, 0, 0)
        assert it.run_each(112, 0, [gone], [free]) == [core.KEPT]
        assert it.task(0).booked == 0
        assert it.run(113, 0, [Look(room=1, number=9, taken=9)], []) == [core.AHEAD]
        with pytest.raises(Lost):
            it.gone(0)


def test_what_a_policy_chooses_by(library: str, lie: Look, waits: Look, grant: Action) -> None:
    with Guard(TABLE, library) as it:
        assert (it.judge([lie]), it.judge([waits])) == ([core.MISSHAPEN], [core.KEPT])
        assert (it.last(0).granted, it.ban(0).banned, it.kept(0).stamp) == (0, 0, 0)
        assert it.run_each(111, 0, [waits], [grant]) == [core.KEPT]
        assert it.last(0) == core.Last(granted=1, thread=0, task=0)
        assert it.kept(0) == Look(queued=1, oldest=100, stamp=105)
        assert it.run_each(112, 0, [waits], [Action(kind=core.BAN, core=1, started=7)]) == [core.KEPT]
        assert it.ban(1) == core.Ban(banned=1, thread=0, started=7) and not it.ban(0).banned


def test_a_core_or_a_thread_that_there_is_not(library: str) -> None:
    with Guard(TABLE, library) as it:
        for call in (it.ban, it.last, it.holder):
            for number in (2, 256, 1 << 40):
                with pytest.raises(CallRefused) as why:
                    call(number)
                assert why.value.answer == core.NO_SUCH
            with pytest.raises(ValueError):
                call(-1)
        with pytest.raises(CallRefused) as why:
            it.kept(1)
        assert why.value.answer == core.NO_SUCH
        with pytest.raises(CallRefused) as why:
            it.judge([])
        assert why.value.answer == core.WRONG_COUNT


def test_a_clock_that_does_not_fit_changes_nothing(library: str, waits: Look, grant: Action) -> None:
    with Guard(TABLE, library) as it:
        with pytest.raises(ValueError):
            it.run(-1, 0, [waits], [grant])
        assert it.run(111, 0, [waits], [grant]) == [core.KEPT]


def test_an_action_that_is_none_is_refused(library: str, waits: Look) -> None:
    with Guard(TABLE, library) as it:
        with pytest.raises(CallRefused, match="^an action is none$") as why:
            it.run(111, 0, [waits], [Action(kind=9)])
        assert why.value.answer == core.NO_ACTION
        with pytest.raises(TypeError, match="an Action is wanted|a Action is wanted"):
            it.run(111, 0, [waits], ["grant"])  # type: ignore[list-item]
