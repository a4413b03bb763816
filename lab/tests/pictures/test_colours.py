"""Whether colours are told apart by people who see colours differently."""
from __future__ import annotations

import itertools
import unittest

import numpy

from caladan.pictures.colours import DARK, LIGHT, colours_of

# Machado, Oliveira and Fernandes, 2009, full strength: linear RGB as it is seen without one kind of cones.
SEEN = {
    "all": numpy.eye(3),
    "protanopia": numpy.array([[0.152286, 1.052583, -0.204868], [0.114503, 0.786281, 0.099216],
                               [-0.003882, -0.048116, 1.051998]]),
    "deuteranopia": numpy.array([[0.367322, 0.860646, -0.227968], [0.280085, 0.672501, 0.047413],
                                 [-0.011820, 0.042940, 0.968881]]),
}
TO_XYZ = numpy.array([[0.4124, 0.3576, 0.1805], [0.2126, 0.7152, 0.0722], [0.0193, 0.1192, 0.9505]])


def linear(colour):
    """A colour as linear RGB."""
    part = numpy.array([int(colour[n:n + 2], 16) / 255 for n in (1, 3, 5)])
    return numpy.where(part <= 0.04045, part / 12.92, ((part + 0.055) / 1.055) ** 2.4)


def light_of(colour):
    """How much light a colour has, from 0 to 1, as contrast is reckoned."""
    return float(TO_XYZ[1] @ linear(colour))


def lab(colour, seen):
    """A colour as it is seen, by its lightness and two opponent colours."""
    xyz = TO_XYZ @ numpy.clip(seen @ linear(colour), 0, 1) / [0.9505, 1.0, 1.089]
    f = numpy.where(xyz > 0.008856, numpy.cbrt(xyz), 7.787 * xyz + 16 / 116)
    return numpy.array([116 * f[1] - 16, 500 * (f[0] - f[1]), 200 * (f[1] - f[2])])


class Colours(unittest.TestCase):
    """Of tasks and tables."""

    def test_tasks_are_told_apart(self):
        for palette in (LIGHT, DARK):
            for name, seen in SEEN.items():
                for one, other in itertools.combinations(palette.shades, 2):
                    apart = numpy.linalg.norm(lab(one.full, seen) - lab(other.full, seen))
                    self.assertGreater(apart, 10, (name, one.full, other.full))

    def test_lines_are_told_apart_and_seen(self):
        for palette in (LIGHT, DARK):
            for name, seen in SEEN.items():
                for one, other in itertools.combinations(palette.shades, 2):
                    apart = numpy.linalg.norm(lab(one.line, seen) - lab(other.line, seen))
                    self.assertGreater(apart, 25, (name, one.line, other.line))
            ground = light_of(palette.ground)
            for it in palette.shades:
                lighter, darker = sorted((light_of(it.line), ground), reverse=True)
                self.assertGreater((lighter + 0.05) / (darker + 0.05), 3, it.line)

    def test_each_colour_of_a_ground_has_its_own_value(self):
        self.assertEqual(len(set(colours_of(LIGHT))), len(colours_of(LIGHT)))
        self.assertFalse(set(colours_of(LIGHT)) & set(colours_of(DARK)))
