"""Random recurrent piles: each is as likely as any other, and what is known of stationary piles and trees is true of them."""

import unittest
from concurrent.futures import ThreadPoolExecutor
from unittest import mock

import numpy as np
import sandpile
from sandpile import stationary
from tools import same, toppling_matrix, words_of

PI = np.pi
# The probability of each height far from the edge (Priezzhev 1994; Kenyon and Wilson 2015).
HEIGHTS = [
    2 / PI**2 - 4 / PI**3,
    1 / 4 - 1 / (2 * PI) - 3 / PI**2 + 12 / PI**3,
    3 / 8 + 1 / PI - 12 / PI**3,
    3 / 8 - 1 / (2 * PI) + 1 / PI**2 + 4 / PI**3,
]


def mean_size(side):
    """The mean size of an avalanche at a random site of a square: the sum over the inverse of the toppling matrix, by its
    eigenvectors, divided by the number of sites."""
    angles = PI * np.arange(1, side + 1, 2) / (side + 1)  # of the eigenvectors whose sum is not 0
    sums = 2 / (side + 1) / np.tan(angles / 2) ** 2  # squared
    return (np.outer(sums, sums) / (4 - 2 * np.add.outer(np.cos(angles), np.cos(angles)))).sum() / side**2


def wilsons_tree(shape, seed, cylinder):
    """The directions of a random tree as Wilson states his algorithm, with loops erased as they close."""
    (height, width), tree = shape, {}
    words = words_of(*np.random.SeedSequence(seed).generate_state(2, np.uint64).tolist())
    steps = (word >> at & 3 for word in words for at in range(0, 32, 2))
    for start in np.ndindex(shape):
        walk, (row, column) = {}, start
        while 0 <= row < height and 0 <= column < width and (row, column) not in tree:
            while (row, column) in walk:
                walk.popitem()
            direction = walk[row, column] = next(steps)
            row += (direction == 3) - (direction == 0)
            column += (direction == 2) - (direction == 1)
            column = column % width if cylinder else column
        tree.update(walk)
    return [tree[site] for site in np.ndindex(shape)]


def in_threads(call, count):
    with ThreadPoolExecutor() as pool:
        return np.array(list(pool.map(call, range(count))))


class Known(unittest.TestCase):
    def assertMean(self, values, mean):
        """The mean of independent values is the known one, within 4 standard errors."""
        error = values.std(axis=0, ddof=1) / len(values) ** 0.5
        self.assertTrue((abs(values.mean(axis=0) - mean) < 4 * error).all(), (values.mean(axis=0), mean, error))

    def test_heights_in_the_middle(self):
        def shares(seed):
            middle = sandpile.random_recurrent((256, 256), seed)[64:192, 64:192]
            return np.bincount(middle.ravel(), minlength=4) / middle.size

        self.assertMean(in_threads(shares, 12), HEIGHTS)

    def test_sizes_of_avalanches(self):
        self.assertAlmostEqual(mean_size(32), np.linalg.inv(toppling_matrix(32, 32)).sum() / 32**2)
        for side in (32, 64, 128):
            with self.subTest(side=side):

                def mean(seed):
                    run = sandpile.Drive(sandpile.random_recurrent((side, side), seed), seed=seed)
                    return run.drop(1000)["size"].mean()

                self.assertMean(in_threads(mean, 32), mean_size(side))

    def test_leaves_of_trees(self):
        # Far from the edge; Manna, Dhar and Majumdar 1992.
        def share(seed):
            parents = sandpile.random_recurrent((256, 256), seed).tree().parents
            is_leaf = np.bincount(parents.ravel(), minlength=256**2 + 1)[:-1].reshape(256, 256) == 0
            return is_leaf[64:192, 64:192].mean()

        self.assertMean(in_threads(share, 12), 8 / PI**2 * (1 - 2 / PI))

    def test_sizes_on_a_cylinder(self):
        def mean(seed):
            run = sandpile.Drive(sandpile.random_recurrent((5, 16), seed, cylinder=True), seed=seed, cylinder=True)
            return run.drop(100)["size"].mean()

        self.assertMean(in_threads(mean, 256), np.linalg.inv(toppling_matrix(5, 16, cylinder=True)).sum() / 80)


class Uniform(unittest.TestCase):
    def test_each_tree_is_equally_likely(self):
        grids = ((2, 2, False, 2000), (2, 3, False, 4000), (3, 3, True, 4000), (1, 4, True, 4000))
        for height, width, cylinder, count in grids:
            with self.subTest(height=height, width=width, cylinder=cylinder):
                elements = round(np.linalg.det(toppling_matrix(height, width, cylinder)))
                piles = [sandpile.random_recurrent((height, width), (1, at), cylinder) for at in range(count)]
                _, found = np.unique([pile.tree().directions.ravel() for pile in piles], axis=0, return_counts=True)
                # The sum over all elements of (found - expected)^2 / expected; its variance is twice its mean.
                chi_square = (found**2).sum() * elements / count - count
                self.assertLess(abs(chi_square - (elements - 1)), 4 * (2 * (elements - 1)) ** 0.5)
                self.assertLessEqual(len(found), elements)

    def test_it_is_recurrent(self):
        for shape, cylinder in (((1, 1), False), ((1, 256), False), ((7, 5), True), ((255, 256), True)):
            pile = sandpile.random_recurrent(shape, 1, cylinder)
            self.assertEqual((pile.shape, pile.cylinder), (shape, cylinder))
            self.assertTrue(sandpile.burn(pile.pile, cylinder).is_recurrent)

    def test_it_is_wilsons_tree(self):
        shapes = ((3, 4), False), ((3, 4), True), ((8192, 1), False), ((1, 8192), True), ((600, 3), True), ((9, 8192), True)
        for shape, cylinder in (*shapes, ((300, 257), False)):
            with self.subTest(shape=shape, cylinder=cylinder):
                tree = sandpile.random_recurrent(shape, 7, cylinder).tree()
                self.assertEqual(tree.directions.ravel().tolist(), wilsons_tree(shape, 7, cylinder))

    def test_no_pile_has_too_many_grains(self):
        self.assertEqual({sandpile.random_recurrent((1, 1), seed)[0, 0] for seed in range(50)}, {0, 1, 2, 3})


class Index:
    def __index__(self):
        return 7


class Seeds(unittest.TestCase):
    def test_the_pile_of_a_seed(self):
        self.assertEqual(sandpile.random_recurrent((2, 3), 7).pile.tolist(), [[2, 2, 2], [3, 3, 2]])

    def test_the_words_of_a_seed_are_those_of_no_run(self):
        # `sandpile_random` and `sandpile_sites` read one stream if they are given one seed and stream.
        for seed in (7, np.random.SeedSequence(7)):
            words, of_run = [], sandpile.Drive([[0]], seed)

            def call_at(name, width, height, edge, *numbers):
                words.append(numbers[:2])

            with mock.patch.object(stationary, "call_at", call_at):
                sandpile.random_recurrent((2, 3), seed)
            self.assertNotEqual(words, [(of_run.seed, of_run.stream)])
            self.assertEqual(words, [tuple(np.random.SeedSequence(7).generate_state(2, np.uint64).tolist())])

    def test_what_is_a_seed(self):
        ones = [7, np.int64(7), np.array(7), Index(), np.random.SeedSequence(7)]
        kinds = [*ones, [7], (7,), range(7, 8), [Index()], np.array([7])]
        self.assertEqual(len({sandpile.random_recurrent((9, 8), seed) for seed in kinds}), 1)
        others = [None, None, 8, [7, 1], 2**200, *np.random.SeedSequence(7).spawn(2)]
        self.assertEqual(len({sandpile.random_recurrent((9, 8), seed) for seed in [7, *others]}), 8)

    def test_a_stack_is_made_of_streams(self):
        for shape, cylinder in (((9, 8), False), ((1, 1), False), ((5, 7), True)):
            stack = sandpile.random_recurrent(shape, 7, cylinder, count=5)
            self.assertEqual((stack.pile.shape, stack.cylinder), ((5, *shape), cylinder))
            for stream, pile in enumerate(stack.pile):
                seed = np.random.SeedSequence(7, spawn_key=(stream,))
                self.assertTrue(same(pile, sandpile.random_recurrent(shape, seed, cylinder).pile))
        starts = list(sandpile.replicas((9, 8), 7, range(5), 0, each=lambda run: run.pile))
        self.assertTrue(same(np.array(starts), sandpile.random_recurrent((9, 8), 7, count=np.int8(5)).pile))

    def test_a_stack_of_each_seed(self):
        for seed in ([7, 1], np.random.SeedSequence(7), np.random.SeedSequence(7).spawn(2)[1], np.random.SeedSequence(7, pool_size=8)):
            stack = sandpile.random_recurrent((9, 8), seed, count=3)
            self.assertEqual(stack, sandpile.random_recurrent((9, 8), seed, count=3))
            self.assertTrue(same(stack.pile[:2], sandpile.random_recurrent((9, 8), seed, count=2).pile))
            children = (seed if isinstance(seed, np.random.SeedSequence) else np.random.SeedSequence(seed)).spawn(3)
            self.assertEqual([sandpile.random_recurrent((9, 8), child) for child in children], [*map(sandpile.Recurrent, stack.pile)])
        self.assertNotEqual(*(sandpile.random_recurrent((9, 8), count=3) for _ in range(2)))

    def test_how_many(self):
        self.assertEqual(sandpile.random_recurrent((9, 8), 7, count=0).pile.shape, (0, 9, 8))
        self.assertTrue(sandpile.burn(sandpile.random_recurrent((200, 300), 7, count=3)).is_recurrent.all())
        self.assertRaisesRegex(sandpile.Fault, "Plan: count is -1, but must be from 0", sandpile.random_recurrent, (9, 8), 7, count=-1)
        self.assertRaisesRegex(TypeError, "count must be an integer", sandpile.random_recurrent, (9, 8), 7, count=1.5)
        with self.assertRaisesRegex(sandpile.Fault, "Memory: .* a stack of 10,000,000,000,000 piles: 5,760,000.0 GB needed"):
            sandpile.random_recurrent((9, 8), 7, count=10**13)
        for count in (0, 2):
            self.assertRaisesRegex(sandpile.Fault, "24 Narrow", sandpile.random_recurrent, (9, 2), 7, True, count)
            self.assertRaisesRegex(sandpile.Fault, "1 Side", sandpile.random_recurrent, (9, 0), 7, count=count)

    def test_what_is_none(self):
        for seed in (-1, [7, -1]):
            self.assertRaises(ValueError, sandpile.random_recurrent, (2, 2), seed)
        matrix, drawn = np.array([[7]]).view(np.matrix), np.random.default_rng(7)
        others = (np.True_, "7", ["7"], [None], [[7], [8, 9]], np.array(7.0), np.ma.masked, matrix, drawn, range)
        for seed in (0.5, [0.5], {}, *others):
            with self.subTest(seed=repr(seed)):
                self.assertRaisesRegex(TypeError, "^seed must be an integer, a", sandpile.random_recurrent, (2, 2), seed)
        self.assertRaisesRegex(ValueError, "seed must be 0 or more, but one is -3", sandpile.random_recurrent, (2, 2), [1, -3])
        for cylinder in (None, 1, "yes"):
            self.assertRaisesRegex(TypeError, "cylinder must be", sandpile.random_recurrent, (3, 3), 7, cylinder)

    def test_shapes_that_are_none(self):
        for shape, cylinder, number in (((0, 3), False, 1), ((3, 8193), False, 1), ((3, 2), True, 24)):
            with self.assertRaises(sandpile.Fault) as caught:
                sandpile.random_recurrent(shape, 1, cylinder)
            self.assertEqual(caught.exception.number, number)
        for shape in ((3,), 3, (2.5, 3), [[3, 3], [3, 3]]):
            self.assertRaises(TypeError, sandpile.random_recurrent, shape, 1)
