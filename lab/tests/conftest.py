"""What the tests share: the command line in this process, and programs that stand in for caladan_view."""
from __future__ import annotations

import os
import signal
import subprocess
import sys
import tempfile
from pathlib import Path
from typing import Callable, NamedTuple

import pytest

# What hypothesis keeps is of no use to the next run.
os.environ["HYPOTHESIS_STORAGE_DIRECTORY"] = tempfile.mkdtemp(prefix="hypothesis.")
from hypothesis import HealthCheck, settings  # noqa: E402

# What a shell begins in the background ignores interrupts, and so would all that the tests begin.
signal.signal(signal.SIGINT, signal.default_int_handler)
# The same examples each time, however slow the machine is.
settings.register_profile("lab", deadline=None, derandomize=True, database=None, max_examples=50,
                          suppress_health_check=[HealthCheck.too_slow])
settings.load_profile("lab")
TOP = Path(__file__).resolve().parents[2]
sys.path.insert(0, str(TOP / "lab" / "src"))
LAB = [sys.executable, str(TOP / "caladan_lab")]
TABLE = """\
cores = 4
bandwidth_limit = 1000
[[task]]
kind = "lc"
guaranteed = 1
limit = 2
delay = 10
request = 50
[[task]]
kind = "be"
guaranteed = 0
limit = 4
delay = 0
request = 0
"""


class Ran(NamedTuple):
    """The status, and what was written on both outputs."""

    status: int
    out: str
    err: str


Run = Callable[..., Ran]


def ran(*words: str, given: str = "", view: str = "", **how: object) -> Ran:
    """What the command line does as a process of its own."""
    environment = {**os.environ, "CALADAN_VIEW": view} if view else dict(os.environ)
    it = subprocess.run([*LAB, *words], input=given, capture_output=True, text=True, check=False, env=environment,
                        **how)  # type: ignore[call-overload]
    return Ran(it.returncode, it.stdout, it.stderr)


@pytest.fixture
def lab() -> Run:
    return ran


@pytest.fixture
def view() -> str:
    """The program, where the tests are given one."""
    file = os.environ.get("CALADAN_VIEW", "")
    if not file:
        pytest.skip("CALADAN_VIEW names no program")
    return file


# Numbers that a stub tells, by label; all others are 0.
STUB = """\
#!{python}
import sys
VERSION, MEASURE, LABELS = {version!r}, {measure!r}, {labels!r}
words = sys.argv[1:]
given = sys.stdin.read() if words and words != ["--version"] else ""
if words == ["--version"]:
    print(f"caladan_view {{VERSION}} (a stub)")
elif words[0] == "arrivals":
    if "--came" in words:
        with open(words[words.index("--came") + 1], "w") as it:
            it.write("id,turn\\n1,0\\n")
    if "--summary" in words:
        print("passes 9 turns 9\\ntask 0 came 41 later 3 left out 0 load 0.500")
    else:
        print("caladan-arrivals,1\\npass,10,0\\nturn,15\\nrequest,0,0,1,1,0\\nend,3")
elif words[0] == "check":
    print("a task table (cores 4, tasks 2, threads 6) and arrivals (passes 1, turns 1, requests 1)")
elif words[0] == "measure":
    print("measure,task 0 lc,task 0 lc bound,task 0 lc of,task 1 be,task 1 be bound,task 1 be of")
    for label in LABELS:
        number = MEASURE.get(label, "0")
        machine = label.startswith("machine")
        print(",".join([label, number, "", "", *(["", "", ""] if machine else ["0", "", ""])]))
{more}
"""


@pytest.fixture
def stub(tmp_path: Path) -> Callable[..., str]:
    """A program in the place of caladan_view that tells these numbers."""
    from caladan import __version__
    from caladan.measured import CORES, CROWD, MACHINE, REQUESTS

    def made(measure: dict[str, str], more: str = "", version: str = __version__) -> str:
        file = tmp_path / "caladan_view"
        file.write_text(STUB.format(python=sys.executable, version=version, measure=measure, more=more,
                                    labels=[*REQUESTS[:3], *CROWD, *REQUESTS[3:], *CORES, *MACHINE]))
        file.chmod(0o755)
        return str(file)
    return made
