"""The times of burning, by hand and against a plain count of unburnt neighbours."""

import copy
import pickle
import unittest

import numpy as np
import sandpile
from test_large import plain_times
from tools import same

FULL = np.full((3, 3), 3)


def random_piles(count):
    """Piles, half of them recurrent, on grids and cylinders."""
    random = np.random.default_rng(4)
    for k in range(count):
        shape = random.integers(1, 13, 2)
        cylinder = bool(k & 1) and shape[1] > 2
        pile = random.integers(0, 8, shape)
        yield (sandpile.recurrent(pile, cylinder).pile if k & 2 else pile // 2), cylinder


class Times(unittest.TestCase):
    def test_by_hand(self):
        # A corner has two neighbours, a site between corners three, and the middle four.
        for pile, times in (
            (FULL, [[1, 1, 1], [1, 2, 1], [1, 1, 1]]),
            ([[2, 1, 2], [1, 0, 1], [2, 1, 2]], [[1, 2, 1], [2, 3, 2], [1, 2, 1]]),
            ([[3, 0, 0], [3, 0, 0], [3, 3, 3]], [[1, -1, -1], [1, -1, -1], [1, 1, 1]]),
            ([[0, 0, 3]], [[-1, -1, 1]]),
            ([[0]], [[1]]),
        ):
            self.assertTrue(same(sandpile.burn(pile).time, np.array(times)))
        self.assertEqual(sandpile.burn([[3, 2, 1], [1, 1, 2]], cylinder=True).time.tolist(), [[1, 2, 3], [5, 5, 4]])

    def test_random_piles(self):
        kinds = set()
        for pile, cylinder in random_piles(400):
            burned = sandpile.burn(pile, cylinder=cylinder)
            self.assertTrue(same(burned.time, plain_times(pile, cylinder)))
            self.assertTrue(np.array_equal(burned.time < 0, burned.forbidden))
            kinds.add((burned.is_recurrent, cylinder, burned.forbidden.all()))
        self.assertGreaterEqual(len(kinds), 5)

    def test_the_order_is_step_by_step(self):
        for shape in ((256, 256), (1, 256), (40, 7)):
            burned = sandpile.burn(sandpile.recurrent(np.random.default_rng(2).integers(0, 8, shape)))
            times = burned.time.ravel()[burned.order]
            self.assertTrue((np.diff(times) >= 0).all())
            self.assertEqual(np.unique(times).tolist(), list(range(1, times[-1] + 1)))

    def test_a_long_way(self):
        # The fire comes in at one site, and goes to and fro on every other row.
        pile = np.zeros((65, 64), int)
        pile[1, 0] = pile[1:-1:2, 1:-1] = pile[2:-1:4, -2] = pile[4:-1:4, 1] = 3
        burned = sandpile.burn(pile)
        self.assertTrue(same(burned.time, plain_times(pile, False)))
        self.assertEqual(burned.time.max(), 1 + 32 * 62 + 31)

    def test_copies(self):
        burned = sandpile.burn(FULL)
        for again in (copy.deepcopy(burned), pickle.loads(pickle.dumps(burned))):
            self.assertTrue(same(again.time, burned.time))
            self.assertEqual(again, burned)
        self.assertIs(burned.time, burned.time)
        self.assertNotIn("_heights", repr(burned))
