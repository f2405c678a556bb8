"""What calls return: compared by its values, and printed in a few lines."""

import copy
import dataclasses
import io
import os
import pickle
import unittest
from unittest import mock

import numpy as np
import sandpile
from tools import PROGRAM

PILE = np.random.default_rng(4).integers(0, 9, (5, 6))


def record(start, sites, cylinder=False):
    with sandpile.SharedPile(start, quota=len(sites), cylinder=cylinder) as pile:
        with pile.split(len(sites)) as part:
            part.drop(sites)
        return pile.settle()


def results():
    """A result of each kind, each made anew."""
    with mock.patch.dict(os.environ, SANDPILE=str(PROGRAM)):
        run = sandpile.lab(PILE, seed=1)
    return [sandpile.settle(PILE), sandpile.burn(PILE % 4), sandpile.burn(PILE * 0 + 3), record(PILE, [3, 3, 29]), run]


def changed(value):
    """Another value, of the same kind."""
    if not isinstance(value, np.ndarray):
        return value + 1
    other = value.copy() if value.size else np.zeros(1, value.dtype)
    other.view(np.uint8).flat[0] ^= 1
    return other


class Compared(unittest.TestCase):
    def test_equal_values(self):
        for one, other in zip(results(), results()):
            for same in (other, copy.deepcopy(one), pickle.loads(pickle.dumps(one))):
                self.assertIs(one == same, True)
                self.assertIs(one != same, False)
            self.assertIn(one, [None, other])

    def test_each_value_counts(self):
        for result in results():
            for field in dataclasses.fields(result):
                with self.subTest(kind=type(result).__name__, field=field.name):
                    other = dataclasses.replace(result, **{field.name: changed(getattr(result, field.name))})
                    self.assertIs(result == other, False)

    def test_other_kinds(self):
        settled = sandpile.settle(PILE)
        for other in (None, settled.pile.tolist(), record(PILE, []), sandpile.settle(PILE, cylinder=True)):
            self.assertIs(settled == other, False)

    def test_no_hash(self):
        for result in results():
            self.assertRaisesRegex(TypeError, "unhashable", hash, result)


class Arrays(unittest.TestCase):
    def test_what_has_several_is_none(self):
        file = io.BytesIO()
        for result, name in ((sandpile.identity((2, 3)).tree(), "directions"), (sandpile.burn([[3, 3]]), "time")):
            for call in (np.asarray, lambda it: np.save(file, it), sandpile.settle, lambda it: np.zeros(2) + it):
                said = f"a {type(result).__name__} is no array: pass one that it has, such as `.{name}`"
                self.assertRaisesRegex(TypeError, said, call, result)
            self.assertIsInstance(getattr(result, name), np.ndarray)
        self.assertEqual(file.getvalue(), b"")

    def test_one_that_is_saved_can_be_loaded(self):
        for result in (sandpile.settle(PILE), sandpile.recurrent(PILE), sandpile.Drive(PILE)):
            file = io.BytesIO()
            np.save(file, result)
            self.assertEqual(np.load(io.BytesIO(file.getvalue())).tolist(), result.pile.tolist())


class Printed(unittest.TestCase):
    def test_a_small_one(self):
        lines = str(sandpile.settle([[0, 4, 0], [0, 0, 0]])).splitlines()
        self.assertEqual(lines[:5], [
            "Settled(pile=array([[1, 0, 1],",
            "                    [0, 1, 0]]),",
            "        odometer=array([[0, 1, 0],",
            "                        [0, 0, 0]]),",
            "        lost=1,",
        ])

    def test_long_ones_are_shortened(self):
        large = np.full((256, 256), 3)
        for result in (sandpile.settle(large), sandpile.burn(large), record(large, range(5000)), sandpile.recurrent(large)):
            text = repr(result)
            self.assertIn("...", text)
            self.assertLess(len(text), 2000)
            self.assertLessEqual(max(map(len, text.splitlines())), np.get_printoptions()["linewidth"])

    def test_what_has_no_values(self):
        with sandpile.SharedPile([[0, 3]], quota=5) as pile:
            with pile.split(2) as part:
                self.assertEqual(repr(part), "<Part of a SharedPile: 1 by 2>")
            self.assertEqual(repr(part), "<Part of a SharedPile: 1 by 2, joined>")
        self.assertEqual(repr(sandpile.replicas((3, 4), 7, [1], drops=9)), "<Replicas: seed 7>")

    def test_an_element_can_be_evaluated(self):
        for cylinder in (False, True):
            a = sandpile.recurrent(PILE, cylinder=cylinder)
            self.assertEqual(eval(repr(a), vars(sandpile)), a)
