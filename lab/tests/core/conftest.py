"""What the tests of caladan.core share: the C library, a table, and looks."""
from __future__ import annotations

import os
import shutil
from pathlib import Path

import pytest

from caladan.core import Action, Kind, Look
from caladan.core import library as of_library

TOP = Path(__file__).resolve().parents[3]
TABLE = """cores = 2
bandwidth_limit = 1000

[[task]]
kind = "lc"
guaranteed = 1
limit = 1
delay = 10
request = 50
"""
# Two threads and tasks, on two cores.
PAIR = TABLE + TABLE[TABLE.index("[[task]]"):]


PACKAGE = TOP / "lab" / "src" / "caladan"


@pytest.fixture(scope="session")
def library() -> str:
    """The file of the C library, which CALADAN_LIBRARY names."""
    file = os.environ.get("CALADAN_LIBRARY", "")
    if not file:
        pytest.skip("CALADAN_LIBRARY names no C library; tools/c_library runs these tests with one")
    return os.path.abspath(file)


@pytest.fixture(autouse=True)
def nothing_beside(monkeypatch: pytest.MonkeyPatch) -> None:
    """The library of these tests is the one that they name, also in a checkout that has one in out/lib."""
    monkeypatch.setattr(of_library, "places", list)


def package_in(folder: Path) -> str:
    """The folder for PYTHONPATH of a copy of the package in this one."""
    shutil.copytree(PACKAGE, folder / "caladan", ignore=shutil.ignore_patterns("__pycache__"))
    return str(folder)


@pytest.fixture(scope="session")
def alone(tmp_path_factory: pytest.TempPathFactory) -> str:
    """The folder of a package beside which there is no library."""
    return package_in(tmp_path_factory.mktemp("alone") / "share" / "caladan" / "python")


@pytest.fixture
def lie() -> Look:
    """A look that no page can show: on a core that no machine has."""
    return Look(room=1, number=1, running=129)


@pytest.fixture
def waits() -> Look:
    """A request that came at 100 is queued."""
    return Look(room=1, number=1, queued=1, oldest=100, stamp=105)


@pytest.fixture
def grant() -> Action:
    return Action(kind=Kind.GRANT, core=0, thread=0, core_class=3)


@pytest.fixture
def free() -> Action:
    return Action(kind=Kind.FREE, core=0)
