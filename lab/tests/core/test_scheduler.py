"""Passes by a policy, and audits of them."""
from __future__ import annotations

import pytest

from caladan import core
from caladan.core import Answer, Audit, CallRefused, Guard, Look, Lost, Policy, Scheduler, TableTask, Unfit

from .conftest import TABLE

WORDS_BEHIND_STAMP = ",0" * (len(core.WORDS) - 7)


def facts(it: Scheduler | Guard, sent: int, taken: int) -> None:
    """What the table and its only thread have."""
    assert it.machine() == core.Machine(cores=2, tasks=1, threads=1, bandwidth_limit=1000)
    assert it.table() == [TableTask(kind=core.LATENCY_CRITICAL, guaranteed=1, limit=1, delay=10, request=50)]
    assert it.thread(0) == core.Thread(task=0, sent=sent, taken=taken)
    assert it.has_room(0)
    with pytest.raises(CallRefused, match="^the table has no such core, task or thread$") as missing:
        it.thread(1)
    assert missing.value.answer == core.NO_SUCH


def test_a_look_that_does_not_fit_is_named(library: str, lie: Look, waits: Look) -> None:
    with Scheduler(TABLE, library=library) as it:
        with pytest.raises(Unfit) as why:
            it.run(111, 0, [lie])
        assert str(why.value) == ("a look does not fit: thread 0, Look(room=1, number=1, running=129): misshapen: "
                                  "running or misses is out of range")
        assert (why.value.thread, why.value.look, why.value.answer) == (0, lie, core.UNFIT)
        assert (it.first_unfit([lie]), it.first_unfit([waits])) == (0, None)
        assert it.run_each(111, 0, [lie]) == ([core.MISSHAPEN], [])


@pytest.mark.parametrize("look, judged, why", [
    (Look(number=1, misses=(1 << 56) + 1), core.MISSHAPEN, "misshapen: running or misses is out of range"),
    (Look(busy=1, number=2, second=2), core.NO_PAIR, "its versions are no busy pair"),
    (Look(busy=1, number=3, second=4), core.NO_PAIR, "its versions are no busy pair"),
    (Look(number=0, stamp=105), None, "it does not follow what the thread showed before")])
def test_why_a_look_does_not_fit(library: str, waits: Look, look: Look, judged: core.Judgement, why: str) -> None:
    """What a thread shows, after `waits`; a guard says more of the last, which fell back."""
    with Scheduler(TABLE, library=library) as it, Guard(TABLE, library=library) as guard:
        it.run(105, 0, [waits])
        guard.run(105, 0, [waits], [])
        with pytest.raises(Unfit) as unfit:
            it.run(106, 0, [look])
        assert (unfit.value.judged, str(unfit.value).rpartition("): ")[2]) == (judged, why)
        with pytest.raises(Unfit) as unfit:
            guard.run(106, 0, [look], [])
        assert unfit.value.judged == (judged or core.PLACE_FELL)


def test_passes_from_a_grant_to_a_thread_that_is_gone(library: str, waits: Look) -> None:
    with Scheduler(TABLE, library=library) as it:
        judged, actions = it.run_each(112, 0, [waits])
        assert (judged, list(it.commands(actions))) == ([core.KEPT], [(0, 0)])
        assert actions == [core.Action(kind=core.GRANT, core=0, thread=0, core_class=3)]
        facts(it, 1, 0)
        assert it.holder(0) == core.Holder(state=core.CORE_HELD)
        gone = it.gone(0)
        assert (gone.number, gone.taken, gone.running, gone.stamp) == (2, 1, 0, 105)
        assert [each.kind for each in it.run_each(113, 0, [gone])[1]] == [core.FREE]
        assert it.run(114, 0, [Look(room=1, number=9, taken=9, stamp=200)])[0] == [core.AHEAD]
        with pytest.raises(Lost, match="^no page can show that the thread is gone: thread 0$") as lost:
            it.gone(0)
        assert lost.value.thread == 0


def test_a_policy_is_named_by_number(library: str) -> None:
    """A ban that only Caladan's policy makes: the free core beside a long request is the one that a short task waits
    for."""
    row = TableTask(kind=core.LATENCY_CRITICAL, guaranteed=1, limit=1, delay=10, request=100)
    table = core.text_of_rows(2, 1000, [row] * 2)
    runs = Look(room=1, number=2, taken=1, running=1, started=250, stamp=380)
    passes = [(200, [Look(room=1, number=1, queued=1, oldest=100, stamp=190), Look(room=1)]),
              (400, [runs, Look(room=1, number=1, queued=1, oldest=300, stamp=310)])]
    history = {}
    for policy, kind in ((Policy.CALADAN, core.BAN), (Policy.ASSURED, core.GRANT)):
        with Scheduler(table, policy, library) as it:
            history[policy] = [(now, looks, *it.run_each(now, 0, looks)) for now, looks in passes]
        assert [action.kind for action in history[policy][1][3]] == [kind]
    for policy, made in history.items():
        for other in history:
            with Audit(table, other, library) as audit:
                for now, looks, judged, actions in made:
                    audit.take(now, 0, looks, judged, actions)
                assert audit.verdict() == (None if other == policy else 1)
                assert repr(audit) == ("<Audit: legal so far>" if other == policy else "<Audit: illegal pass 1>")


@pytest.mark.parametrize("kind", [Scheduler, Audit])
def test_a_policy_that_there_is_not_is_refused(library: str, kind: type) -> None:
    with pytest.raises(CallRefused, match="^no policy has this number$") as why:
        kind(TABLE, 77, library)
    assert why.value.answer == core.NO_POLICY
    for number in (1 << 32, -1):
        with pytest.raises(ValueError, match="does not fit 32 bits"):
            kind(TABLE, number, library)


def test_the_clock_of_the_next_pass(library: str, waits: Look) -> None:
    row = TableTask(kind=core.LATENCY_CRITICAL, guaranteed=1, limit=1, delay=10, request=50)
    with Scheduler(core.text_of_rows(2, 1000, [row]), library=library) as it:
        facts(it, 0, 0)
        assert it.next_clock(0) is None
        assert it.run(105, 0, [waits])[1] == []
        assert (it.next_clock(105), it.kept(0).oldest) == (111, 100)
        assert it.run(110, 0, [waits])[1] == []
        assert [action.kind for action in it.run(111, 0, [waits])[1]] == [core.GRANT]


@pytest.mark.parametrize("fault, cores, limit, kinds", [
    (5, 3, 0, [1]), (5, 1 << 70, 0, [1]), (5, 2, 1 << 63, [1]), (5, 2, 0, []), (5, 2, 0, [0]), (6, 2, 0, [2]),
    (7, 2, 0, [1] * 3), (5, 2, 0, [1] * 17)])
def test_a_table_of_rows_is_refused_as_its_text_is(library: str, fault: int, cores: int, limit: int,
                                                   kinds: list[int]) -> None:
    rows = [TableTask(kind=kind, guaranteed=1, limit=1) for kind in kinds]
    with pytest.raises(CallRefused) as why:
        Guard(core.text_of_rows(cores, limit, rows), library)
    assert why.value.answer == fault


@pytest.mark.parametrize("table", [TABLE, TABLE.encode(), bytearray(TABLE.encode()), memoryview(TABLE.encode())])
def test_a_table_is_bytes_or_a_text(library: str, table: str | bytes) -> None:
    with Scheduler(table, library=library) as it:
        assert (it.threads, it.bandwidth_limit()) == (1, 1000)
        assert repr(it) == "<Scheduler: 2 cores, 1 tasks, 1 threads>"
    assert (it.is_open, it.bandwidth_limit(), repr(it)) == (False, 0, "<Scheduler: closed>")
    with pytest.raises(CallRefused, match="^the handle is closed$") as why:
        it.close()
    assert why.value.answer == core.IS_CLOSED


@pytest.mark.parametrize("table, fault, told", [
    ("cores = 3\n", Answer.MISSING_KEY, "the table lacks a key"),
    ("# \u2713\n", Answer.MISSING_KEY, "the table lacks a key"),
    (TABLE + "colour = 1\n", Answer.UNKNOWN_KEY, "the table has an unknown key"),
    ("=", Answer.NOT_TOML, "the table is not TOML")])
def test_a_table_that_is_none_is_refused(library: str, table: str, fault: Answer, told: str) -> None:
    with pytest.raises(CallRefused) as why:
        Scheduler(table, library=library)
    assert (why.value.answer, str(why.value)) == (fault, f"{told}: `caladan_view check` says where")


def test_what_is_no_table_is_refused(library: str) -> None:
    with pytest.raises(TypeError):
        Scheduler(7, library=library)  # type: ignore[arg-type]


def test_a_number_that_does_not_fit_is_refused_before_anything_changes(library: str, waits: Look) -> None:
    with Scheduler(TABLE, library=library) as it:
        for run in (it.run, it.run_each):
            with pytest.raises(ValueError, match="does not fit 64 bits"):
                run(-1, 0, [waits])
            with pytest.raises(ValueError, match="does not fit 64 bits"):
                run(111, 1 << 64, [waits])
            with pytest.raises(TypeError, match="a Look is wanted, not 3"):
                run(111, 0, [3])  # type: ignore[list-item]
        for call in (it.thread, it.task, it.gone, it.holder):
            for number in (-1, 1 << 64):
                with pytest.raises(ValueError):
                    call(number)
            with pytest.raises(CallRefused) as why:
                call((1 << 64) - 1)
            assert why.value.answer == core.NO_SUCH
        assert it.thread(0).sent == 0
        assert it.run(111, (1 << 64) - 1, [waits])[1][0].kind == core.GRANT


def test_an_audit_takes_only_what_fits(library: str, waits: Look, grant: core.Action) -> None:
    with Audit(TABLE, library=library) as it:
        with pytest.raises(ValueError):
            it.take(111, 0, [waits], [257], [grant])
        with pytest.raises(ValueError):
            it.take(1 << 64, 0, [waits], [core.KEPT], [grant])
        it.take(111, 0, [waits], [core.KEPT], [grant])
        assert it.verdict() is None


def test_passes_are_written_as_a_history(library: str, lie: Look, waits: Look) -> None:
    rows: list[str] = []
    with Scheduler(TABLE, library=library) as it:
        for now, look in ((111, lie), (112, waits), (113, Look(room=1, number=2, taken=2, stamp=105))):
            judged, actions = it.run_each(now, 0, [look])
            rows += core.written(True, now, 0, [look], judged, actions)
    assert rows == ["pass,111,0", "busy,0,1,1,1", "pass,112,0",
                    "whole,0,1,1,0,0,1,100,0,0,105" + WORDS_BEHIND_STAMP, "grant,0,0,3", "pass,113,0", "busy,0,1,1,1"]
    for more, first in (([], None), (["free,0"], 2)):
        history = "\n".join([core.HISTORY_HEADER, *rows, *more, "end,3"]).encode()
        with Audit(TABLE, library=library) as audit:
            for each in core.recorded(history, core.machine_of(TABLE, library)):
                audit.take(*each)
            assert audit.verdict() == first
