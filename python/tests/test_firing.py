"""Heights of any sign: the recurrent and the superstable pile of their class, and firing vectors."""

import itertools
import unittest

import numpy as np
import sandpile
from tools import same, toppling_matrix

LIMIT = 1_099_511_627_775
GRIDS = ((1, 1, False), (1, 4, False), (2, 2, False), (2, 3, False), (2, 4, False), (1, 3, True), (2, 3, True), (2, 4, True))


def piles(count, shape, most):
    return np.random.default_rng(9).integers(-most, most + 1, (count, *shape))


def is_superstable(pile, matrix):
    """Whether no nonempty set of sites can topple together without a negative height."""
    heights = pile.ravel()
    sets = (np.array(sites) for sites in itertools.product((0, 1), repeat=heights.size) if any(sites))
    return (heights >= 0).all() and all((heights - matrix @ sites < 0).any() for sites in sets)


class Firing(unittest.TestCase):
    def check(self, pile, cylinder):
        before = pile.copy()
        element, vector = sandpile.recurrent(pile, cylinder, firing=True)
        matrix = toppling_matrix(*pile.shape, cylinder)
        self.assertTrue(same(element.pile, pile - (matrix @ vector.ravel()).reshape(pile.shape)))
        self.assertTrue(sandpile.burn(element).is_recurrent)
        self.assertEqual((sandpile.recurrent(pile, cylinder), element.cylinder), (element, cylinder))
        self.assertTrue(same(pile, before))
        return element, vector

    def test_the_recurrent_pile_is_the_given_one_minus_the_matrix_times_the_vector(self):
        for height, width, cylinder in (*GRIDS, (9, 8, False), (8, 9, True)):
            for most in (1, 3, 100, LIMIT // (height * width)):
                for pile in piles(6, (height, width), most):
                    self.check(pile, cylinder)

    def test_by_hand(self):
        # -1 grains in the middle of three sites: all topple backward once, and take 3, 2 and 3 grains.
        element, vector = sandpile.recurrent([[0, -1, 0]], firing=True)
        self.assertEqual((element.pile.tolist(), vector.tolist()), ([[3, 1, 3]], [[-1, -1, -1]]))

    def test_a_recurrent_pile_topples_nowhere(self):
        a = sandpile.random_recurrent((9, 8), 1)
        element, vector = sandpile.recurrent(a, firing=True)
        self.assertEqual(element, a)
        self.assertFalse(vector.any())

    def test_without_negative_heights_it_is_the_same(self):
        for pile in abs(piles(20, (5, 6), 50)):
            element, _ = sandpile.recurrent(pile, firing=True)
            self.assertEqual(element, sandpile.recurrent(pile))

    def test_negation_is_the_inverse(self):
        for pile in piles(20, (5, 6), 50):
            self.assertEqual(sandpile.recurrent(-pile), -sandpile.recurrent(pile))

    def test_of_a_stack(self):
        for cylinder in (False, True):
            stack = piles(5, (3, 4), 50)
            element, vectors = sandpile.recurrent(stack, cylinder, firing=True)
            self.assertEqual(sandpile.recurrent(stack, cylinder), element)
            for pile, heights, vector in zip(stack, element.pile, vectors):
                one, expected = sandpile.recurrent(pile, cylinder, firing=True)
                self.assertTrue(same(heights, one.pile) and same(vector, expected))
        element, vectors = sandpile.recurrent(stack[:0], firing=True)
        self.assertEqual((element.pile.shape, vectors.shape), ((0, 3, 4), (0, 3, 4)))


class Superstables(unittest.TestCase):
    def test_by_the_definition(self):
        for height, width, cylinder in GRIDS:
            matrix = toppling_matrix(height, width, cylinder)
            kinds = set()
            for pile in (*piles(12, (height, width), 40), *abs(piles(12, (height, width), 2))):
                found = sandpile.superstable(pile, cylinder)
                self.assertTrue(is_superstable(found, matrix))
                self.assertEqual(sandpile.recurrent(found, cylinder), sandpile.recurrent(pile, cylinder))
                self.assertTrue(sandpile.is_superstable(found, cylinder))
                kinds.add(sandpile.is_superstable(pile, cylinder))
                self.assertEqual(sandpile.is_superstable(pile, cylinder), is_superstable(pile, matrix))
            self.assertIn(False, kinds)

    def test_duality(self):
        for pile in piles(20, (7, 5), 9):
            self.assertTrue(same(sandpile.superstable(pile), 3 - sandpile.recurrent(3 - pile).pile))

    def test_of_a_stack(self):
        stack = piles(5, (3, 4), 50)
        stack[2] = sandpile.superstable(stack[0])
        found = sandpile.superstable(stack, cylinder=True)
        self.assertTrue(same(found, np.array([sandpile.superstable(pile, cylinder=True) for pile in stack])))
        self.assertEqual(sandpile.is_superstable(stack).tolist(), [False, False, True, False, False])
        self.assertIs(sandpile.is_superstable(stack[2]), True)


class Wrong(unittest.TestCase):
    CALLS = (sandpile.recurrent, sandpile.superstable, sandpile.is_superstable)

    def test_too_many_grains(self):
        for pile, said in (
            ([[LIMIT, -1]], "the absolute values of the heights sum to more than"),
            ([[-LIMIT - 1, 0]], "the absolute values of the heights sum to more than"),
            ([[-(2**63), -(2**63)]], "the absolute values of the heights sum to more than"),
            ([[-1, 2**63]], r"the height in row 0, column 1 is 9223372036854775808, over 1,099"),
            ([[0], [-(2**63) - 1]], r"the height in row 1, column 0 is -9223372036854775809, below -1,099"),
            (np.array([[0, 2**64 - 1]], np.uint64), "the height in row 0, column 1 is 18446744073709551615, over"),
        ):
            for call in self.CALLS:
                self.assertRaisesRegex(sandpile.Fault, f"^fault 3 TooManyGrains: {said}", call, pile)
        self.assertEqual(sandpile.recurrent([[-LIMIT + 1, -1]]), -sandpile.recurrent([[LIMIT - 1, 1]]))
        stack = [[[0, 0]], [[LIMIT, -1]]]
        said = "fault 3 TooManyGrains: pile 1 of the stack: the absolute values of the heights sum to more than"
        for call in self.CALLS:
            self.assertRaisesRegex(sandpile.Fault, said, call, stack)

    def test_other_faults(self):
        for call in self.CALLS:
            other = sandpile.identity((3, 3))
            for pile, cylinder, number in (([[-1] * 8193], False, 1), ([[-1, 0]], True, 24), (other, True, 9)):
                with self.assertRaises(sandpile.Fault) as caught:
                    call(pile, cylinder)
                self.assertEqual(caught.exception.number, number)
            for pile in (np.array([[-0.5]]), [-1, 0], np.ma.masked_array([[-1]])):
                self.assertRaises(TypeError, call, pile)

    def test_calls_that_refuse_negative_heights_name_those_that_do_not(self):
        for call in (sandpile.settle, sandpile.burn, sandpile.Drive, sandpile.Recurrent, sandpile.SharedPile):
            said = "the one in row 0, column 1 is -1; recurrent and superstable take negative heights$"
            words = (0,) if call is sandpile.SharedPile else ()
            self.assertRaisesRegex(ValueError, said, call, [[0, -1]], *words)
