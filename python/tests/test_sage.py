"""Results that SageMath 9.5 computed with its own stabilisation and group."""

import json
import unittest
from pathlib import Path

import numpy as np
import sandpile

CASES = [json.loads(line) for line in Path(__file__).with_name("sage.jsonl").read_text().splitlines()]


class Sage(unittest.TestCase):
    def each(self):
        """Each case with its edge, and a function that takes its arrays."""
        for at, case in enumerate(CASES):
            shape = case["height"], case["width"]
            with self.subTest(case=at):
                yield case, case["cylinder"], lambda name, shape=shape, case=case: np.array(case[name]).reshape(shape)

    def equal(self, one, other):
        np.testing.assert_array_equal(np.asarray(one), other)

    def test_there_are_120_cases(self):
        self.assertEqual(len(CASES), 120)

    def test_settled_piles_and_odometers(self):
        for case, cylinder, array in self.each():
            settled = sandpile.settle(array("heights"), cylinder=cylinder)
            self.equal(settled.pile, array("settled"))
            self.equal(settled.odometer, array("odometer"))
            self.assertEqual(settled.topplings, sum(case["odometer"]))
            self.assertEqual(settled.lost, sum(case["heights"]) - sum(case["settled"]))

    def test_recurrent_piles_of_classes(self):
        for _, cylinder, array in self.each():
            self.equal(sandpile.recurrent(array("heights"), cylinder=cylinder), array("recurrent_of_class"))

    def test_whether_piles_are_recurrent(self):
        for case, cylinder, array in self.each():
            self.assertEqual(sandpile.burn(array("stable"), cylinder=cylinder).is_recurrent, case["stable_is_recurrent"])

    def test_sums_and_identities(self):
        for _, cylinder, array in self.each():
            a, b = (sandpile.Recurrent(array(name), cylinder=cylinder) for name in "ab")
            neutral = sandpile.identity(a.shape, cylinder=cylinder)
            self.equal(a + b, array("sum"))
            self.equal(neutral, array("identity"))
            self.assertEqual([a + neutral, a - a, (a + b) - b], [a, neutral, a])


class Grid:
    """Stands in for SageMath's `sandpiles.Grid(m, n)`. Its vertices are (1, 1) to (m, n), and all others are the sink."""

    def __init__(self, m, n):
        self.vertices = [(i, j) for i in range(1, m + 1) for j in range(1, n + 1)]

    def max_stable(self):
        return SandpileConfig(self, [3] * len(self.vertices))


class SandpileConfig(dict):
    """Stands in for that of SageMath: a dictionary by vertices, whose `values` are a list in their order."""

    def __init__(self, grid, values):
        assert type(values) is list and len(values) == len(grid.vertices)
        super().__init__(zip(grid.vertices, values))
        self.grid = grid

    def values(self):
        return [self[vertex] for vertex in self.grid.vertices]

    def __invert__(self):
        """The settled configuration: each vertex with four grains or more topples, one after another."""
        settled = SandpileConfig(self.grid, self.values())
        while unstable := [vertex for vertex in settled if settled[vertex] > 3]:
            for i, j in unstable:
                settled[i, j] -= 4
                for vertex in {(i - 1, j), (i + 1, j), (i, j - 1), (i, j + 1)} & settled.keys():
                    settled[vertex] += 1
        return settled


class Configurations(unittest.TestCase):
    def test_an_array_of_a_configuration_and_back(self):
        m, n = 3, 5
        S, chance = Grid(m, n), np.random.default_rng(5)
        for c in (S.max_stable(), *(SandpileConfig(S, chance.integers(0, 30, m * n).tolist()) for _ in range(9))):
            pile = np.reshape(c.values(), (m, n))
            self.assertEqual({(i, j): pile[i - 1, j - 1] for i, j in S.vertices}, c)
            self.assertEqual(SandpileConfig(S, sandpile.settle(pile).pile.ravel().tolist()), ~c)

    def test_a_configuration_is_no_pile(self):
        for call in (sandpile.settle, sandpile.burn, sandpile.recurrent, sandpile.Recurrent, sandpile.Drive, sandpile.lab):
            with self.assertRaisesRegex(TypeError, r"not a dictionary; .* numpy.reshape\(c.values\(\), \(m, n\)\)"):
                call(Grid(3, 5).max_stable())
