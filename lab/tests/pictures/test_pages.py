"""Whether the pictures of docs/pictures are those that are drawn now."""
from __future__ import annotations

import os
import unittest
import xml.etree.ElementTree as tree

from .given import parts_of, words_of
from .kept import FOLDER, papers

SVG = "{http://www.w3.org/2000/svg}"


def all_words(picture: tree.ElementTree, name: str) -> list[str]:
    """What all parts of this name say, sorted."""
    return sorted("".join(it.itertext()) for it in picture.iter(f"{SVG}{name}"))


class Pages(unittest.TestCase):
    """Each picture has the words, the stories and the parts of the one that is drawn."""

    def test_each_tells_the_same(self):
        for name, paper in papers().items():
            with self.subTest(name):
                picture = tree.parse(f"{FOLDER}/{name}.svg")
                self.assertEqual(all_words(picture, "text"), sorted(words_of(paper)))
                self.assertEqual(all_words(picture, "title"), sorted([paper.title, *paper.told.values()]))
                named = {it.get("id") for it in picture.iter(f"{SVG}g")}
                self.assertEqual(set(parts_of(paper)) - named, set())

    def test_no_other_is_there(self):
        """The picture of policies is compared by the commands of its page."""
        self.assertEqual(set(os.listdir(FOLDER)), {f"{it}.svg" for it in (*papers(), "host", "policies")})
