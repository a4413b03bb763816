"""The structures, the constants and the texts are those of include/caladan.h. No library is needed."""
from __future__ import annotations

import copy
import ctypes
import pickle
import re
from pathlib import Path

import pytest

from caladan import core
from caladan.core import Action, Look, TableTask
from caladan.core.layout import Handle

HEADER = (Path(__file__).resolve().parents[3] / "include" / "caladan.h").read_text()
KINDS = {
    "caladan": Handle, "caladan_audit": Handle, "caladan_guard": Handle, "caladan_look": Look,
    "caladan_action": Action, "caladan_holder_of_core": core.Holder, "caladan_counts": core.Counts,
    "caladan_machine": core.Machine, "caladan_table_row": TableTask, "caladan_thread_state": core.Thread,
    "caladan_refused": core.Refused, "caladan_core_ban": core.Ban, "caladan_core_last": core.Last}
# What only a caller in C needs: buffers of texts, and the count of a look's words.
OF_C_ALONE = {"CALADAN_ROWS_ROOM", "CALADAN_TOO_MANY_ROWS", "CALADAN_WORDS"}


def of_header(pattern: str) -> dict[str, int]:
    return {name: int(number) for name, number in re.findall(pattern, HEADER, re.M)}


def test_the_header_names_every_structure() -> None:
    assert sorted(of_header(r"^CALADAN_SIZE\((\w+), (\d+)\);")) == sorted(KINDS)


@pytest.mark.parametrize("name", KINDS)
def test_a_structure_lies_as_the_header_says(name: str) -> None:
    kind = KINDS[name]
    assert ctypes.sizeof(kind) == of_header(r"^CALADAN_SIZE\((\w+), (\d+)\);")[name]
    places = of_header(rf"^CALADAN_PLACE\({name}, (\w+), (\d+)\);")
    assert {field[0]: getattr(kind, field[0]).offset for field in kind._fields_} == places
    assert [field[0] for field in kind._fields_] == list(places)


def constants_of_header() -> dict[str, int]:
    numbers = of_header(r"(?<!\w)(CALADAN_[A-Z_]+) = (\d+)") | of_header(r"^#define (CALADAN_[A-Z_]+) (\d+)$")
    return {name: number for name, number in numbers.items() if name not in OF_C_ALONE}


def test_each_constant_of_the_header_is_there() -> None:
    numbers = constants_of_header()
    assert len(numbers) >= 60 and numbers["CALADAN_GRANT"] == 6 and numbers["CALADAN_WHY_OVER_CAP"] == 11
    for name, number in numbers.items():
        short = name.removeprefix("CALADAN_")
        assert getattr(core, short) == number, name
        assert short in core.__all__, name


def test_no_constant_is_there_that_the_header_has_not() -> None:
    kinds = (core.Answer, core.Judgement, core.Kind, core.Cause, core.CoreState, core.TaskKind, core.Why)
    made = {f"CALADAN_{it.name}": it.value for kind in kinds for it in kind}
    made |= {f"CALADAN_POLICY_{it.name}": it.value for it in core.Policy}
    assert made.items() <= constants_of_header().items()


def texts_of_header(name: str) -> tuple[str, ...]:
    found = rf"^static inline const char \*caladan_{name}_text\(.*?texts\[\] = {{(.*?)}};"
    body = re.search(found, HEADER, re.S | re.M)
    assert body
    return tuple(re.findall(r'"([^"]*)"', body[1]))


@pytest.mark.parametrize("name", ["policy", "answer", "judgement", "cause", "why"])
def test_the_texts_are_those_of_the_header(name: str) -> None:
    assert getattr(core, f"{name.upper()}_TEXTS") == texts_of_header(name)


def test_the_first_line_of_a_history_is_that_of_the_header() -> None:
    assert f'#define CALADAN_HISTORY_HEADER "{core.HISTORY_HEADER}"' in HEADER


def test_a_text_of_no_number_says_so() -> None:
    assert core.text_of(core.CAUSE_TEXTS, 3) == "for a task"
    assert core.text_of(core.CAUSE_TEXTS, 4) == "no text for 4"
    assert core.text_of(core.CAUSE_TEXTS, -1) == "no text for -1"


def test_a_field_that_there_is_not_is_refused() -> None:
    with pytest.raises(TypeError, match="Look has no field foo; it has busy, room, number"):
        Look(foo=1)
    with pytest.raises(AttributeError, match="Action has no field colour"):
        Action().colour = 1
    with pytest.raises(TypeError, match="room is given twice"):
        Look(1, 1, room=0)
    with pytest.raises(TypeError, match="Counts has 3 fields, not 4"):
        core.Counts(1, 2, 3, 4)


@pytest.mark.parametrize("fields", [{"running": -1}, {"stamp": 1 << 64}, {"busy": 256}, {"room": -1},
                                    {"number": (1 << 64) + 7}])
def test_a_number_that_does_not_fit_is_refused(fields: dict[str, int]) -> None:
    with pytest.raises(ValueError, match="does not fit (8|64) bits"):
        Look(**fields)


def test_a_number_that_does_not_fit_changes_nothing() -> None:
    look = Look(taken=7)
    with pytest.raises(ValueError):
        look.taken = -1
    with pytest.raises(TypeError):
        look.taken = 1.5  # type: ignore[assignment]
    assert look.taken == 7
    with pytest.raises(ValueError):
        Look(0, 300)
    with pytest.raises(ValueError):
        Action(kind=6, core=256)


def test_numbers_are_shown_by_their_names() -> None:
    assert repr(Action(kind=core.GRANT, core_class=3)) == "Action(kind=GRANT, core=0, thread=0, core_class=3)"
    revoked = Action(kind=core.REVOKE, core=3, cause=core.FOR_TASK, task=1)
    assert repr(revoked) == "Action(kind=REVOKE, core=3, cause=FOR_TASK, task=1)"
    assert repr(Look(room=1, number=1, queued=1, oldest=100)) == "Look(room=1, number=1, queued=1, oldest=100)"
    assert repr(Look()) == "Look(number=0)"
    assert repr(core.Holder(core.CORE_HELD)) == "Holder(state=CORE_HELD, thread=0, cause=0, cause_of=0)"
    assert repr(Action(kind=9)) == "Action(kind=9)"


@pytest.mark.parametrize("action, told", [
    (Action(kind=1, core=2), "free core 2"), (Action(kind=2), "unban core 0"),
    (Action(kind=3, core=1, thread=4, started=7), "ban core 1 for thread 4 started 7"),
    (Action(kind=4, core=1, cause=1, by=3), "revoke core 1 for ban by core 3"),
    (Action(kind=4, core=1, cause=2), "revoke core 1 for bandwidth"),
    (Action(kind=4, core=3, cause=3, task=1), "revoke core 3 for task 1"),
    (Action(kind=5, task=1, cap=2), "cap task 1 at 2"),
    (Action(kind=6, core=1, thread=2, core_class=3), "grant core 1 to thread 2 class 3")])
def test_an_action_is_told_as_a_report_tells_it(action: Action, told: str) -> None:
    assert str(action) == told


def test_structures_are_equal_by_their_fields() -> None:
    assert Look(taken=1) == Look(taken=1) and Look(taken=1) != Look(taken=2)
    assert core.Counts() != core.Last() and Look() != 0
    for again in (copy.copy, copy.deepcopy, lambda it: pickle.loads(pickle.dumps(it))):
        assert again(Look(taken=1, stamp=9)) == Look(taken=1, stamp=9)


def test_the_look_that_was_taken() -> None:
    look = Look(room=1, number=3, running=129)
    assert core.taken(look, core.KEPT) is look and core.taken(look, core.BUSY) is look
    assert core.taken(look, core.MISSHAPEN) == Look(busy=1, room=1, number=1, second=1)
