"""Which C library is opened, and what is said where there is none."""
from __future__ import annotations

import ctypes
import os
import shutil
import subprocess
import sys
import sysconfig
from pathlib import Path

import pytest

from caladan import core
from caladan.core import NoLibrary, Scheduler
from caladan.core import library as of_library

from .conftest import TABLE, package_in

ASKS = "from caladan.core import Scheduler; print(Scheduler(open(0).read()).library._name)"


@pytest.fixture
def none(monkeypatch: pytest.MonkeyPatch) -> None:
    """No library is found."""
    monkeypatch.delenv("CALADAN_LIBRARY", raising=False)
    monkeypatch.setattr(of_library, "NAME", "libcaladan_of_nowhere.so")


def test_where_there_is_none_it_is_said_what_to_do(none: None) -> None:
    with pytest.raises(NoLibrary) as why:
        Scheduler(TABLE)
    name = f"libcaladan_of_nowhere.so.{core.VERSION}"
    assert str(why.value) == (f"there is no {name}: install it (the package libcaladan-dev, or make install_library), "
                              "or name its file in CALADAN_LIBRARY")


def test_a_file_that_is_not_there_is_named(monkeypatch: pytest.MonkeyPatch) -> None:
    monkeypatch.setenv("CALADAN_LIBRARY", "/nowhere/libcaladan_c.so")
    with pytest.raises(NoLibrary, match="^/nowhere/libcaladan_c.so: .*; CALADAN_LIBRARY names another$"):
        Scheduler(TABLE)


def test_a_file_beside_that_is_no_library_is_named(monkeypatch: pytest.MonkeyPatch, tmp_path: Path) -> None:
    (tmp_path / "libcaladan_c.so").write_text("no library")
    monkeypatch.setattr(of_library, "places", lambda: [str(tmp_path / "libcaladan_c.so")])
    monkeypatch.setenv("CALADAN_LIBRARY", "/nowhere/libcaladan_c.so")
    with pytest.raises(NoLibrary, match=f"^{tmp_path}/libcaladan_c.so: .*; `library` names another$"):
        Scheduler(TABLE)


def test_another_library_is_refused() -> None:
    with pytest.raises(NoLibrary, match="^libc.so.6 is no libcaladan_c.so$"):
        Scheduler(TABLE, library="libc.so.6")


def test_a_library_of_another_version_is_refused(library: str, monkeypatch: pytest.MonkeyPatch) -> None:
    monkeypatch.setattr(of_library, "VERSION", 77)
    for given in (library, ctypes.CDLL(library)):
        of_library.opened.cache_clear()
        with pytest.raises(NoLibrary, match=f"is of version {core.VERSION}, and this package of 77: install both"):
            Scheduler(TABLE, library=given)


def test_it_is_given_by_its_file_or_open(library: str, tmp_path: Path, monkeypatch: pytest.MonkeyPatch) -> None:
    shutil.copy(library, tmp_path / "some.so")
    monkeypatch.chdir(tmp_path)
    for given in (library, Path(library), "some.so", Path("some.so"), ctypes.CDLL(library)):
        with Scheduler(TABLE, library=given) as it:
            assert it.threads == 1
        assert core.version(given) == core.VERSION


def test_the_variable_names_it(library: str, monkeypatch: pytest.MonkeyPatch, none: None) -> None:
    monkeypatch.setenv("CALADAN_LIBRARY", library)
    with Scheduler(TABLE) as it:
        assert os.path.samefile(it.library._name, library)
    assert core.version() == core.VERSION


@pytest.mark.parametrize("at, lib", [
    ("share/caladan/python", "lib"), ("lib/python3.11/site-packages", "lib"),
    ("lib/python3/dist-packages", f"lib/{sysconfig.get_config_var('MULTIARCH')}"), ("lab/src", "out/lib")])
@pytest.mark.parametrize("named", ["", "/nowhere/libcaladan_c.so"])
def test_it_is_found_beside_what_is_installed(library: str, tmp_path: Path, at: str, lib: str, named: str) -> None:
    """In a prefix, in a venv, in Debian's places and in a checkout; and before the one that CALADAN_LIBRARY names."""
    path = package_in(tmp_path / at)
    (tmp_path / lib).mkdir(parents=True, exist_ok=True)
    shutil.copy(library, tmp_path / lib / "libcaladan_c.so")
    assert opened_with(path, named) == str(tmp_path / lib / "libcaladan_c.so")


def test_where_none_is_beside_the_variable_names_it(library: str, alone: str) -> None:
    assert opened_with(alone, library) == library


def opened_with(path: str, named: str) -> str:
    """The library that the package in a folder opens, where CALADAN_LIBRARY names this one, if it names any."""
    environment = {name: it for name, it in os.environ.items() if name != "CALADAN_LIBRARY"}
    environment |= {"PYTHONPATH": path, **({"CALADAN_LIBRARY": named} if named else {})}
    ran = subprocess.run([sys.executable, "-B", "-W", "ignore", "-c", ASKS], input=TABLE, text=True,
                         capture_output=True, env=environment, check=False)
    assert ran.stderr == ""
    return ran.stdout.strip()
