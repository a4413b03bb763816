"""The script of examples/lab that calls the C library: it prints what was worked out by hand."""
from __future__ import annotations

import os
import subprocess
import sys

from .conftest import TOP

SCRIPT = TOP / "examples" / "lab" / "own_policy.py"


def test_own_policy(library: str, alone: str) -> None:
    environment = {**os.environ, "PYTHONPATH": alone, "CALADAN_LIBRARY": library}
    ran = subprocess.run([sys.executable, "-B", SCRIPT], capture_output=True, text=True, env=environment, check=False)
    assert (ran.returncode, ran.stderr) == (0, "")
    assert ran.stdout == SCRIPT.with_suffix(".txt").read_text()
