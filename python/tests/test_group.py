"""Elements of the group: Dhar's operators, sums, and what happens with arrays."""

import itertools
import operator
import random
import unittest

import numpy as np
import sandpile

SHAPES = [(1, 3), (3, 4), (5, 3)]


def elements():
    chance = np.random.default_rng(3)
    for shape, cylinder in itertools.product(SHAPES, (False, True)):
        yield sandpile.recurrent(chance.integers(0, 50, shape), cylinder=cylinder)


class Operators(unittest.TestCase):
    def test_by_hand(self):
        # 3 2 3 with a grain more on the left: 4 2 3 topples to 0 3 3.
        self.assertEqual(sandpile.Recurrent([[3, 2, 3]]).act(0).pile.tolist(), [[0, 3, 3]])

    def test_one_needs_a_site(self):
        self.assertRaisesRegex(TypeError, "site must be an integer, not None", sandpile.identity((2, 2)).act)

    def test_they_add_a_grain(self):
        for a in elements():
            for site in range(a.pile.size):
                heights = a.pile.copy()
                heights.flat[site] += 1
                b = a.act(site)
                self.assertEqual(b, sandpile.Recurrent(sandpile.settle(heights, a.cylinder).pile, a.cylinder))
                self.assertEqual((b.shape, b.cylinder), (a.shape, a.cylinder))
                self.assertFalse(b.pile.flags.writeable)

    def test_they_commute(self):
        for a in elements():
            for one, other in itertools.combinations(range(a.pile.size), 2):
                self.assertEqual(a.act(one).act(other), a.act(other).act(one))

    def test_one_on_each_site(self):
        for a in elements():
            sites, b = list(range(a.pile.size)), a
            random.Random(1).shuffle(sites)
            for site in sites:
                b = b.act(site)
            self.assertEqual(b, sandpile.recurrent(a.pile + 1, a.cylinder))

    def test_four_grains_are_one_on_each_neighbour(self):
        for a in elements():
            height, width = a.shape
            if not a.cylinder:
                once = a.act(1).act(width) if height > 1 else a.act(1)
                self.assertEqual(a.act(0).act(0).act(0).act(0), once)


class Sums(unittest.TestCase):
    def test_sum(self):
        for a in elements():
            self.assertEqual(sum([a, a, -a]), a)
            self.assertEqual(sum([a, a], a), 3 * a)
            self.assertEqual(0 + a, a)

    def test_numpy_takes_a_list_of_elements_for_their_heights(self):
        a, b = sandpile.recurrent([[7, 1]]), sandpile.recurrent([[2, 9]])
        heights = np.stack([a.pile, b.pile])
        self.assertEqual(np.sum([a, b]), heights.sum())
        self.assertEqual(np.mean([a, b], axis=0).tolist(), heights.mean(axis=0).tolist())
        self.assertRaises(TypeError, np.add, a, b)

    def test_nothing_else_is_added(self):
        a = sandpile.identity((3, 4))
        for other in (1, 0.0, False, np.int64(0), np.uint8(0), "", None):
            self.assertRaises(TypeError, operator.add, other, a)
        self.assertRaises(TypeError, operator.add, a, 0)


class Edges(unittest.TestCase):
    def test_elements_of_different_edges_differ(self):
        for pile in (np.full((3, 3), 3), np.full((2, 3, 3), 3)):
            self.assertNotEqual(sandpile.Recurrent(pile), sandpile.Recurrent(pile, cylinder=True))


class Arrays(unittest.TestCase):
    A = sandpile.recurrent(np.arange(12).reshape(3, 4))
    ARRAYS = (np.ones((3, 4), int), np.ma.array(np.ones((3, 4), int)), np.array(0))

    def refuses(self, name, one, other, said):
        with self.subTest(name=name, one=type(one).__name__, other=type(other).__name__):
            self.assertRaisesRegex(TypeError, said, getattr(operator, name), one, other)

    def test_no_operator_takes_them(self):
        for array in self.ARRAYS:
            for name in ("add", "sub", "truediv", "floordiv", "mod", "pow", "matmul"):
                self.refuses(name, array, self.A, "the group adds elements")
                self.refuses(name, self.A, array, "the group adds elements")
            for name in ("iadd", "isub", "itruediv"):
                self.refuses(name, self.A, array, "the group adds elements")
        array = self.ARRAYS[0]
        self.refuses("iadd", array.copy(), self.A, "Recurrent")

    def test_there_is_no_order(self):
        for array in self.ARRAYS:
            for name in ("lt", "le", "gt", "ge"):
                self.refuses(name, self.A, array, "elements of the group have no order")
                if not isinstance(array, np.ma.MaskedArray):  # which does not ask
                    self.refuses(name, array, self.A, "elements of the group have no order")
        self.assertRaises(TypeError, operator.lt, self.A, self.A)

    def test_equality_is_site_by_site(self):
        array = self.A.pile.copy()
        array[0, 1] += 1
        for one, other in ((self.A, array), (array, self.A), (self.A, np.ma.array(array))):
            self.assertEqual((one == other).tolist(), (self.A.pile == array).tolist())
            self.assertEqual((one != other).tolist(), (self.A.pile != array).tolist())
        for other, is_equal in ((self.A + sandpile.identity((3, 4)), True), (self.A.act(0), False), (3, False), (None, False)):
            self.assertIs(self.A == other, is_equal)
            self.assertIs(self.A != other, not is_equal)
