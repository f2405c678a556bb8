"""Integer heights of any sign: the recurrent pile, the firing vector and the superstable heights of their class, against
SageMath 9.5 and, for small grids, all sets of sites."""

import itertools
import json
import unittest
from pathlib import Path

import numpy as np
import sandpile
from sandpile._library import call
from test_firing import is_superstable
from test_large import toppled
from tools import toppling_matrix

MOST = (1 << 40) - 1


def classed(heights, cylinder, places=None):
    """What `sandpile_class` writes: the heights and the firing vector."""
    written = np.array(heights, np.int64)
    firing = np.zeros(written.shape if places is None else places, np.int64)
    call("class", written.shape, cylinder, written, firing)
    return written, firing


def made_superstable(heights, cylinder):
    written = np.array(heights, np.int64)
    call("superstable", written.shape, cylinder, written)
    return written


class OfSmallGrids(unittest.TestCase):
    def test_exactly_the_superstable_heights_stay(self):
        for shape, cylinder in [((2, 2), False), ((1, 4), False), ((1, 4), True)]:
            matrix, stay = toppling_matrix(*shape, cylinder), 0
            for heights in itertools.product(range(-1, 5), repeat=4):
                pile = np.reshape(heights, shape)
                same = np.array_equal(made_superstable(pile, cylinder), pile)
                self.assertEqual(same, is_superstable(pile, matrix))
                stay += same
            # One in each class, and there are det L classes.
            self.assertEqual(stay, round(np.linalg.det(matrix)))


class Sage(unittest.TestCase):
    def test_equivalent_recurrent_and_equivalent_superstable(self):
        lines = Path(__file__).with_name("sage_classes.jsonl").read_text().splitlines()
        self.assertEqual(len(lines), 120)
        for case in map(json.loads, lines):
            with self.subTest(case=case):
                heights = np.reshape(case["heights"], (case["height"], case["width"]))
                pile, firing = classed(heights, case["cylinder"])
                self.assertEqual((pile.ravel().tolist(), firing.ravel().tolist()), (case["recurrent"], case["firing"]))
                found = made_superstable(heights, case["cylinder"])
                self.assertEqual(found.ravel().tolist(), case["superstable"])


class OnPiles(unittest.TestCase):
    def test_it_is_recurrent_of_the_module(self):
        chance = np.random.default_rng(5)
        for shape, cylinder in [((40, 30), False), ((7, 64), True), ((256, 256), False)]:
            heights = chance.integers(0, 9, shape)
            pile = sandpile.recurrent(heights, cylinder=cylinder).pile
            self.assertEqual(classed(heights, cylinder, 0)[0].tolist(), pile.tolist())
            again, firing = classed(pile, cylinder)
            self.assertEqual((again.tolist(), firing.any()), (pile.tolist(), False))

    def test_topplings_and_topplings_taken_back(self):
        # Of any heights and any z, p - Lz has the recurrent pile of p, and its firing vector is that of p less z.
        chance = np.random.default_rng(6)
        for shape, cylinder in [((30, 50), False), ((33, 3), True)]:
            heights, z = chance.integers(-9, 9, shape), chance.integers(-1000, 1000, shape)
            other = toppled(heights, z, cylinder)
            pile, firing = classed(heights, cylinder)
            same, less = classed(other, cylinder)
            self.assertEqual(same.tolist(), pile.tolist())
            self.assertEqual(less.tolist(), (firing - z).tolist())
            self.assertEqual(made_superstable(other, cylinder).tolist(), made_superstable(heights, cylinder).tolist())


class Faults(unittest.TestCase):
    def refused(self, number, shape, heights, places, cylinder=False):
        written, firing = np.array(heights, np.int64), np.full(places, 7, np.int64)
        for name, arrays in [("class", (written, firing)), ("superstable", (written,))]:
            if name == "superstable" and places not in (0, written.size):
                continue
            with self.assertRaises(sandpile.Fault) as caught:
                call(name, shape, cylinder, *arrays)
            self.assertEqual(caught.exception.number, number)
            self.assertEqual((written.tolist(), firing.tolist()), ([*heights], [7] * places))

    def test_they_come_in_order_and_change_nothing(self):
        least = -(1 << 63)
        self.refused(1, (1, 8193), [MOST, 1], 3)
        self.refused(24, (1, 2), [MOST, 1], 3, cylinder=True)
        self.refused(2, (1, 3), [MOST, 1], 2)
        self.refused(2, (1, 2), [MOST, 1], 3)
        for heights in ([MOST, 1], [-MOST, 1], [-MOST, -1], [least, 0], [least, least], [(1 << 63) - 1, least]):
            for places in (0, 2):
                self.refused(3, (1, 2), heights, places)

    def test_the_limit_itself_is_taken(self):
        for heights in ([MOST, 0], [-MOST, 0], [1 - MOST, -1], [MOST - 1, -1]):
            pile, firing = classed([heights], False)
            self.assertEqual(pile.tolist()[0], [h - 4 * z + y for h, z, y in zip(heights, firing[0], firing[0][::-1])])
