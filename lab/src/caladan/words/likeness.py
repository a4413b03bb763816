"""How alike two words are: by Jaro, from 0 to 1."""
from __future__ import annotations

from typing import Iterable

ENOUGH = 0.7


def _matches(one: str, other: str) -> list[tuple[str, int]]:
    """The letters of one that match one of the other, each with its place there: the first that is free and near."""
    near = max(max(len(one), len(other)) // 2 - 1, 0)
    found: dict[int, str] = {}
    for place, letter in enumerate(one):
        around = range(max(place - near, 0), min(place + near + 1, len(other)))
        free = next((it for it in around if other[it] == letter and it not in found), None)
        if free is not None:
            found[free] = letter
    return [(letter, place) for place, letter in found.items()]


def jaro(one: str, other: str) -> float:
    """How alike two words are."""
    if one == other:
        return 1.0
    if not one or not other:
        return 0.0
    matches = _matches(one, other)
    if not matches:
        return 0.0
    swaps = sum(letter != other[place] for (letter, _), place in zip(matches, sorted(it for _, it in matches))) // 2
    count = float(len(matches))
    return (count / len(one) + count / len(other) + (count - swaps) / count) / 3.0


def tip(word: str, names: Iterable[str]) -> str:
    """The line that says which of some names was meant; nothing where none is like the word."""
    close = alike(word, names)
    return f"  did you mean `{close[-1]}`?\n" if close else ""


def alike(word: str, names: Iterable[str]) -> list[str]:
    """The names that are like a word, the most like last; of two that are as alike the later one is after."""
    found: list[tuple[float, str]] = []
    for name in names:
        how = jaro(word, name)
        if how > ENOUGH:
            found.insert(sum(it[0] <= how for it in found), (how, name))
    return [name for _, name in found]
