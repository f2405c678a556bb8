"""The waves of avalanches, against the definition, site by site."""

import copy
import unittest
from unittest import mock

import numpy as np
import sandpile
from test_large import Plain
from test_live import equal
from tools import in_blocks, same

GRIDS = ((1, 1, False), (1, 5, False), (2, 2, False), (7, 9, False), (16, 16, False), (1, 3, True), (5, 4, True), (9, 12, True))


def plain_waves(pile, site, cylinder):
    """The heights after a drop, and the sites of its waves."""
    plain, waves = Plain(pile, cylinder), []
    plain.heights[site] += 1
    while plain.heights[site] > 3:
        waves.append(np.isin(np.arange(pile.size), [*plain.wave(site)]).reshape(pile.shape))
    return np.reshape(plain.heights, pile.shape), waves


def most_waves(height, width, cylinder):
    """The greatest distance to an open edge."""
    rows = np.arange(height)
    distances = np.minimum(rows, rows[::-1])[:, None] + np.zeros((1, width), int)
    if not cylinder:
        columns = np.arange(width)
        distances = np.minimum(distances, np.minimum(columns, columns[::-1]))
    return distances.max() + 1


def runs(height, width, cylinder, count=2):
    start = np.random.default_rng(height).integers(2, 5, (height, width))
    return [sandpile.Drive(start, seed=5, stream=2, cylinder=cylinder) for _ in range(count)]


class Waves(unittest.TestCase):
    def test_by_hand(self):
        # The drop brings the middle to 4. In the first wave all topple: the corners lose 4 and get 2, the sides lose 4 and get
        # 3, and the middle has 0 and gets 4. In the second one only the middle topples: the sides have 2, and then 3.
        run = sandpile.Drive(np.full((3, 3), 3))
        row, sizes, waves = run.waves(row=1, column=1)
        self.assertEqual((int(row["size"]), sizes.tolist()), (10, [9, 1]))
        self.assertEqual(waves.sum(axis=0).tolist(), [[1, 1, 1], [1, 2, 1], [1, 1, 1]])
        self.assertEqual(run.pile.tolist(), [[1, 3, 1], [3, 0, 3], [1, 3, 1]])
        self.assertEqual((waves.shape, waves.dtype), ((2, 3, 3), bool))

    def test_they_are_those_of_the_definition(self):
        counts = set()
        for grid in GRIDS:
            with self.subTest(grid=grid):
                run, other = runs(*grid)
                for _ in range(150):
                    before = run.pile
                    row, sizes, waves = run.waves()
                    after, plain = plain_waves(before, int(row["site"]), grid[2])
                    self.assertTrue(same(waves, np.array(plain, bool).reshape(-1, *grid[:2])))
                    self.assertEqual(sizes.tolist(), [int(wave.sum()) for wave in plain])
                    self.assertTrue(same(run.pile, after))
                    expected, topplings = other.avalanche()
                    self.assertEqual(row.tolist(), expected.tolist())
                    self.assertTrue(same(waves.sum(axis=0), topplings))
                    counts.add(len(sizes))
                self.assertTrue(equal(run, other))
        self.assertGreater(max(counts), 2)

    def test_the_most(self):
        # The middle of a full pile topples as often as a site can.
        for grid in (*GRIDS, (256, 256, False), (255, 256, False), (256, 5, True)):
            height, width, cylinder = grid
            sizes = sandpile.Drive(np.full((height, width), 3), cylinder=cylinder).waves(row=height // 2, column=width // 2)[1]
            self.assertEqual(len(sizes), most_waves(*grid))

    def test_without_a_site_it_is_the_next_random_one(self):
        one, other = runs(9, 9, False)
        for words in ((), (None,), ()):
            row = one.waves(*words)[0]
            self.assertEqual(row.tolist(), other.drop(1)[0].tolist())
            self.assertTrue(same(one.table, other.table))
        one.waves(7), other.drop_at(7)
        self.assertTrue(same(one.drop(10), other.drop(10)))

    def test_what_is_refused(self):
        run = sandpile.Drive(np.full((3, 3), 3))
        table = run.drop(3)
        for words in ((9,), (-1,), (None, 3, 0)):
            with self.assertRaises(sandpile.Fault) as caught:
                run.waves(words[0], **dict(zip(("row", "column"), words[1:])))
            self.assertEqual(caught.exception.number, 25)
        for words in (("0",), (1.5,), ((1, 2),)):
            self.assertRaises(TypeError, run.waves, *words)
        for call in (run.drop, run.drop_at, lambda n, **both: next(run.blocks(n, 2, **both))):
            self.assertRaisesRegex(TypeError, "returns odometers or waves", call, 5, odometers=True, waves=True)
        for n, number in ((-1, 15), (2**40, 6)):
            with self.assertRaises(sandpile.Fault) as caught:
                run.drop(n, waves=True)
            self.assertEqual(caught.exception.number, number)
        self.assertIs(run.table, table)


def one_by_one(run, drops):
    """The waves of drops, made with `waves` alone."""
    for _ in range(drops):
        row, sizes, _ = run.waves()
        yield from ((int(row["number"]), wave, size) for wave, size in enumerate(sizes.tolist()))


class Tables(unittest.TestCase):
    def test_they_are_those_of_single_drops(self):
        for grid in GRIDS:
            one, other, third = runs(*grid, 3)
            one.drop(7), other.drop(7), third.drop(7)
            in_blocks(one, 30)  # so that there are several blocks
            table, waves = one.drop(100, waves=True)
            self.assertTrue(same(table, third.drop(100)))
            self.assertTrue(same(waves, np.array(list(one_by_one(other, 100)), sandpile.WAVE)))
            sums = np.bincount(waves["number"] - 7, waves["size"], 100)
            self.assertEqual(sums.tolist(), table["size"].tolist())
            self.assertTrue(equal(one, third))
            self.assertTrue(same(one.drop(10), third.drop(10)))

    def test_in_blocks_and_at_sites(self):
        one, other = runs(9, 9, False)
        for found, expected in zip(map(np.concatenate, zip(*one.blocks(70, 30, waves=True))), other.drop(70, waves=True)):
            self.assertTrue(same(found, expected))
        table, waves = one.drop_at(rows=[4, 4, 0], columns=[4, 5, 0], waves=True)
        self.assertTrue(same(table, other.drop_at([40, 41, 0])))
        self.assertEqual({*waves["number"]} - {70, 71, 72}, set())
        self.assertEqual(waves["size"].sum(), table["size"].sum())

    def test_a_copy_goes_on_with_the_numbers(self):
        one, other = runs(9, 9, False)
        one.drop(30), other.drop(30)
        for found, expected in zip(copy.copy(one).drop(20, waves=True), other.drop(20, waves=True)):
            self.assertTrue(same(found, expected))

    def test_none(self):
        run = sandpile.Drive(np.zeros((9, 9), int), seed=1)
        for drops in (0, 5):
            table, waves = run.drop(drops, waves=True)
            self.assertEqual((len(table), waves.shape, waves.dtype), (drops, (0,), sandpile.WAVE))

    def test_ctrl_c_keeps_what_was_done(self):
        one, other = runs(9, 9, False)
        in_blocks(one, 10)._go_on = mock.Mock(side_effect=[None] * 3 + [KeyboardInterrupt])
        self.assertRaises(KeyboardInterrupt, one.drop, 100, waves=True)
        one._go_on = None
        self.assertTrue(same(one.table, other.drop(30)))
        for found, expected in zip(one.drop(10, waves=True), other.drop(10, waves=True)):
            self.assertTrue(same(found, expected))
