"""Colours, for a light and a dark ground: Okabe and Ito's, whose nearest pairs people tell apart who see colours
differently, and an indigo. Every colour of one ground has its own value, so that an SVG can be told by value what each
colour becomes on the other ground."""
from __future__ import annotations

from dataclasses import dataclass, fields


@dataclass(frozen=True)
class Shade:
    """The colours of one task or table: of what is filled, of words on it, of its edge, of a paler filling, and of
    lines."""

    full: str
    on: str
    edge: str
    pale: str
    line: str


@dataclass(frozen=True)
class Palette:
    """The colours of one ground."""

    ground: str
    ink: str
    second: str
    grid: str
    lane: str
    figure: str
    best: str
    shades: tuple[Shade, ...]

    def shade(self, number: int) -> Shade:
        """The colours of a task or a table; after eight they begin again."""
        return self.shades[number % len(self.shades)]


LIGHT = Palette(
    ground="#ffffff", ink="#16191d", second="#5a626c", grid="#dfe3e8", lane="#f2f4f6", figure="#b8bec6",
    best="#b9c0c8",
    shades=(
        Shade("#0072b2", "#fffffe", "#00507e", "#c5dff0", "#076cd5"),
        Shade("#e69f00", "#000001", "#8a5f00", "#fae6bd", "#6f4801"),
        Shade("#009e73", "#000002", "#006549", "#c2e8dc", "#21a27b"),
        Shade("#cc79a7", "#000003", "#8f3d6b", "#f3dfea", "#673158"),
        Shade("#56b4e9", "#000004", "#1a6a96", "#d8eefa", "#1b94bb"),
        Shade("#d55e00", "#000005", "#8c3d00", "#f6d9c3", "#391204"),
        Shade("#f0e442", "#000006", "#776e00", "#fbf7c4", "#b78a00"),
        Shade("#4a3aa7", "#fffffd", "#2a1c70", "#d6d1ee", "#2c1bdd"),
    ),
)

DARK = Palette(
    ground="#101418", ink="#eceff2", second="#9aa5b1", grid="#2b333c", lane="#1a2027", figure="#56606b",
    best="#4d5762",
    shades=(
        Shade("#0072b3", "#fffffc", "#5fb2e6", "#0b334b", "#55bafe"),
        Shade("#e69f01", "#000007", "#ffcb5c", "#47360c", "#f1d5af"),
        Shade("#009e74", "#000008", "#4fd3ac", "#0b3f33", "#0d8156"),
        Shade("#cc79a8", "#000009", "#f0b1d3", "#43303f", "#d32fa2"),
        Shade("#56b4ea", "#00000a", "#a5daf8", "#223f52", "#b9e8f9"),
        Shade("#d55e01", "#00000b", "#ff9a52", "#43260f", "#d05f14"),
        Shade("#f0e443", "#00000c", "#fff79a", "#48471c", "#ebfa15"),
        Shade("#4f3cb8", "#fffffb", "#a99df5", "#26224d", "#7c55fc"),
    ),
)


def colours_of(palette: Palette) -> list[str]:
    """Every colour of a palette, in one order for all palettes."""
    plain = [getattr(palette, it.name) for it in fields(palette) if it.name != "shades"]
    return plain + [getattr(shade, it.name) for shade in palette.shades for it in fields(shade)]


def other_ground(palette: Palette) -> dict[str, str]:
    """What each colour of the light ground becomes on the dark one; of a dark picture nothing changes."""
    return dict(zip(colours_of(LIGHT), colours_of(DARK))) if palette is LIGHT else {}
