"""The page: one file with its script, its style and the facts of a run, which asks nothing of anyone."""
from __future__ import annotations

import base64
import html
import json
import zlib
from dataclasses import asdict
from importlib.resources import files
from string import Template
from typing import Mapping, Optional, Sequence

from ..labels import Labels
from ..pictures.colours import DARK, LIGHT, Palette
from .told import Told

# The parts of the script, in their order.
SCRIPTS = ("read.js", "scale.js", "lanes.js", "told.js", "pointing.js", "start.js")


def packed(value: object) -> str:
    """A value as JSON, deflated, in letters that mean nothing in HTML."""
    text = json.dumps(value, separators=(",", ":")).encode()
    return base64.b64encode(zlib.compress(text, 9)).decode()


def palette(of: Palette) -> dict[str, object]:
    return asdict(of)


def tasks_of(told: Told, labels: Labels) -> list[dict[str, object]]:
    return [{"label": labels.task(n), **asdict(it)} for n, it in enumerate(told.machine.tasks)]


def facts_of(told: Told, labels: Labels, policy: str, command: Sequence[str], unexplained: str,
             plan: Sequence[str] = ()) -> dict[str, object]:
    """What the page knows of a run, but for its explanations."""
    return {"cores": told.machine.cores, "bandwidthLimit": told.machine.bandwidth_limit,
            "tasks": tasks_of(told, labels), "tick": labels.tick, "policy": policy, "plan": " ".join(plan),
            "verdict": told.verdict,
            "spans": told.spans, "series": told.series, "requests": told.requests, "numbers": told.numbers,
            "reports": told.reports, "command": command, "unexplained": unexplained,
            "palettes": {"light": palette(LIGHT), "dark": palette(DARK)}}


def part(name: str) -> str:
    """A part of the page, a file beside this module."""
    return (files(__package__) / "page" / name).read_text(encoding="utf-8")


def page_of(title: str, facts: Mapping[str, object], why: Sequence[Optional[str]]) -> bytes:
    """The page of these facts and explanations."""
    script = "".join(map(part, SCRIPTS))
    return Template(part("page.html")).substitute(
        title=html.escape(title), style=part("page.css"), script=script, facts=packed(facts), why=packed(why)).encode()
