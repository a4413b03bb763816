"""A figure as a file: SVG, PNG or PDF, by the file's ending."""
from __future__ import annotations

import io
import xml.etree.ElementTree as tree

from ..files import write_beside
from ..refusal import Refusal
from ..words.drawn import format_of
from .colours import other_ground
from .paper import Paper

SVG = "http://www.w3.org/2000/svg"
DOTS_PER_INCH = 192
NO_DATE: dict[str, dict[str, None]] = {"svg": {"Date": None}, "pdf": {"CreationDate": None, "ModDate": None}, "png": {}}


def dark_rules(changes: dict[str, str]) -> str:
    """Style by which an SVG drawn for a light ground has the other colours where its reader has a dark one."""
    rules = []
    for light, dark in changes.items():
        for what in ("fill", "stroke"):
            rules.append(f"[style*='{what}: {light}']{{{what}:{dark}!important}}")
            rules.append(f"[{what}='{light}']{{{what}:{dark}!important}}")
    return f"@media(prefers-color-scheme:dark){{{''.join(rules)}}}" if rules else ""


def tell_all(picture: tree.Element, told: dict[str, str]) -> None:
    """Puts what each part tells into the part."""
    parts = {it.get("id"): it for it in picture.iter(f"{{{SVG}}}g") if it.get("id")}
    for name, words in told.items():
        if name in parts:
            title = tree.Element(f"{{{SVG}}}title")
            title.text = words
            parts[name].insert(0, title)


def as_svg(paper: Paper) -> bytes:
    """The figure as SVG, in the colours of the reader's ground, with its title and what its parts tell."""
    tree.register_namespace("", SVG)
    tree.register_namespace("xlink", "http://www.w3.org/1999/xlink")
    written = io.BytesIO()
    paper.figure.savefig(written, format="svg", metadata=NO_DATE["svg"], facecolor=paper.palette.ground)
    picture = tree.fromstring(written.getvalue())
    for part in picture.findall(f"{{{SVG}}}metadata"):
        picture.remove(part)
    tell_all(picture, paper.told)
    drawn = written.getvalue().decode()
    rules = dark_rules({light: dark for light, dark in other_ground(paper.palette).items() if light in drawn})
    for name, words in (("style", rules), ("title", paper.title)):
        if words:
            part = tree.Element(f"{{{SVG}}}{name}")
            part.text = words
            picture.insert(0, part)
    picture.set("role", "img")
    return bytes(tree.tostring(picture, encoding="utf-8", xml_declaration=True))


def as_bytes(paper: Paper, kind: str) -> bytes:
    """The figure in this format."""
    if kind == "svg":
        return as_svg(paper)
    written = io.BytesIO()
    paper.figure.savefig(written, format=kind, dpi=DOTS_PER_INCH, metadata=NO_DATE[kind],
                         facecolor=paper.palette.ground)
    return written.getvalue()


def save(paper: Paper, file: str) -> None:
    """Writes the figure, which is made whole before: whole or not at all. Of a reader that has gone nothing is said."""
    written = as_bytes(paper, format_of(file))
    try:
        write_beside(file, written)
    except BrokenPipeError:
        raise Refusal("", 3) from None
    except OSError as fault:
        raise Refusal(f"{file}: {fault.strerror}", 3) from None
