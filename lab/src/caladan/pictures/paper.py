"""A figure measured in pixels from its upper left corner, as a README shows it: 96 to the inch, text of 12."""
from __future__ import annotations

from functools import lru_cache
from typing import Any

import matplotlib
from matplotlib.artist import Artist
from matplotlib.axes import Axes
from matplotlib.backends.backend_agg import FigureCanvasAgg
from matplotlib.figure import Figure
from matplotlib.font_manager import FontProperties
from matplotlib.patches import Rectangle
from matplotlib.text import Text
from matplotlib.textpath import text_to_path

from .colours import Palette

PIXELS_PER_INCH = 96
POINTS = 72 / PIXELS_PER_INCH
TITLE, PLAIN, SMALL = 19, 12, 11
# DejaVu Sans comes with matplotlib, so words are as wide on every machine; who reads an SVG may have another font.
SETTINGS = {
    "font.family": "sans-serif",
    "font.sans-serif": ["DejaVu Sans"],
    "svg.fonttype": "none",
    "svg.hashsalt": "caladan_draw",
    "pdf.fonttype": 42,
    "hatch.linewidth": 1.6,
    "path.simplify": False,
    "axes.unicode_minus": False,
}
matplotlib.rcdefaults()
matplotlib.rcParams.update(SETTINGS)


@lru_cache(maxsize=4096)
def width_of(words: str, size: float = PLAIN, weight: str = "normal") -> float:
    """How many pixels words take."""
    font = FontProperties(size=size * POINTS, weight=weight)
    return float(text_to_path.get_text_width_height_descent(words, font, False)[0]) / POINTS


class Paper:
    """A figure, and what its parts tell whoever points at them in an SVG."""

    def __init__(self, width: float, height: float, palette: Palette, title: str = "") -> None:
        self.width, self.height, self.palette, self.title = width, height, palette, title
        size = (width / PIXELS_PER_INCH, height / PIXELS_PER_INCH)
        self.figure = Figure(figsize=size, dpi=PIXELS_PER_INCH, facecolor=palette.ground)
        FigureCanvasAgg(self.figure)
        self.told: dict[str, str] = {}

    def axes(self, left: float, top: float, width: float, height: float, label: str = "") -> Axes:
        """Axes without a frame, by pixels."""
        box = (left / self.width, 1 - (top + height) / self.height, width / self.width, height / self.height)
        axes = self.figure.add_axes(box, label=label or f"axes {len(self.figure.axes)}")
        axes.set_facecolor("none")
        for spine in axes.spines.values():
            spine.set_visible(False)
        axes.tick_params(length=0, labelsize=SMALL * POINTS, labelcolor=self.palette.second, pad=4)
        axes.set_xticks([])
        axes.set_yticks([])
        return axes

    def pixels(self, left: float, top: float, width: float, height: float, label: str = "") -> Axes:
        """Axes whose units are pixels from their upper left corner."""
        axes = self.axes(left, top, width, height, label)
        axes.set_xlim(0, width)
        axes.set_ylim(height, 0)
        return axes

    def text(self, x: float, y: float, words: str, size: float = PLAIN, **how: Any) -> Text:
        """Words on the paper, whose middle line is at y."""
        how = {"color": self.palette.ink, "va": "center", "ha": "left", **how}
        return self.figure.text(x / self.width, 1 - y / self.height, words, fontsize=size * POINTS, **how)

    def tell(self, artist: Artist, name: str, words: str) -> None:
        """Gives a part its name, and what it tells."""
        artist.set_gid(name)
        self.told[name] = words


def words_on(axes: Axes, x: float, y: float, words: str, size: float, colour: str, **how: Any) -> Text:
    """Words within axes, cut off at their edges."""
    how = {"va": "center", "ha": "left", "clip_on": True, **how}
    return axes.text(x, y, words, fontsize=size * POINTS, color=colour, **how)


def wrapped(words: str, pixels: float, size: float = PLAIN) -> list[str]:
    """Words in lines of so many pixels."""
    lines = [""]
    for word in words.split():
        if lines[-1] and width_of(f"{lines[-1]} {word}", size) > pixels:
            lines.append("")
        lines[-1] = f"{lines[-1]} {word}".strip()
    return lines


def cut(words: str, pixels: float, size: float = PLAIN, weight: str = "normal") -> str:
    """Words as far as they have room, and `...` where they are cut."""
    if width_of(words, size, weight) <= pixels:
        return words
    kept = next((n for n in range(len(words) - 1, 1, -1) if width_of(words[:n] + "...", size, weight) <= pixels), 1)
    return words[:kept] + "..."


def heading(paper: Paper, left: float, title: str, lines: list[tuple[str, bool]]) -> float:
    """A title, and lines below it that matter (True) or matter less; answers where they end."""
    paper.text(left, 20, title, TITLE, weight="bold")
    top = 44.0
    for words, matters in lines:
        colour = paper.palette.ink if matters else paper.palette.second
        paper.text(left, top, words, color=colour)
        top += 17
    return top


def swatch(paper: Paper, left: float, middle: float, colour: str, words: str) -> None:
    """A small box of a colour, and what it means."""
    box = paper.pixels(left, middle - 5, 10, 10)
    box.add_patch(Rectangle((0, 0), 10, 10, color=colour))
    paper.text(left + 15, middle, words, SMALL, color=paper.palette.second)
