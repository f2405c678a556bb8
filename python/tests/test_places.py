"""Sites by their rows and columns, where a call also takes their numbers."""

import inspect
import unittest
import warnings

import numpy as np
import sandpile
from tools import same

SHAPE = (3, 5)
START = np.full(SHAPE, 3)
ROWS, COLUMNS = np.divmod(np.random.default_rng(6).integers(0, 15, 200), 5)


def runs():
    return sandpile.Drive(START), sandpile.Drive(START)


class Lists(unittest.TestCase):
    def test_they_are_the_sites(self):
        sites = np.ravel_multi_index((ROWS, COLUMNS), SHAPE)
        for kind in (np.int8, np.uint64, np.intp, list):
            one, other = runs()
            rows, columns = map(kind, (ROWS, COLUMNS)) if kind is list else (ROWS.astype(kind), COLUMNS.astype(kind))
            with self.subTest(kind=kind.__name__):
                self.assertTrue(same(one.drop_at(rows=rows, columns=columns), other.drop_at(sites)))

    def test_they_are_broadcast(self):
        for rows, columns, sites in [
            (1, 2, [7]), ([0, 2], 4, [4, 14]), (2, [0, 1], [10, 11]), ([[0], [2]], [1, 3], [1, 3, 11, 13]), ([], 3, []),
        ]:
            one, other = runs()
            self.assertTrue(same(one.drop_at(rows=rows, columns=columns), other.drop_at(sites)))
        self.assertRaises(ValueError, one.drop_at, rows=[0, 1, 2], columns=[0, 1])

    def test_outside(self):
        run = sandpile.Drive(START)
        for rows, columns, said in [
            ([0, 3, -1], 4, "drop 1 is at row 3, column 4"),
            (2, [0, 1, 5], "drop 2 is at row 2, column 5"),
            (np.array(-1, np.int8), 0, "drop 0 is at row -1, column 0"),
            (0, np.array([2**64 - 1], np.uint64), "drop 0 is at row 0, column 18446744073709551615"),
        ]:
            with self.assertRaisesRegex(sandpile.Fault, f"{said}, but the grid has only rows 0 to 2 and columns 0 to 4"):
                run.drop_at(rows=rows, columns=columns)
        self.assertEqual(run.drops, 0)

    def test_in_a_part_of_a_shared_pile(self):
        with sandpile.SharedPile(START, quota=6) as pile:
            with pile.split(6) as part:
                part.drop(rows=[2, 0, 1], columns=[4, 0, 1])
                part.drop(rows=1, columns=[1, 2, 3])
            self.assertEqual(pile.settle().history.tolist(), [14, 0, 6, 6, 7, 8])

    def test_a_pair_is_two_sites(self):
        one, other = runs()
        said = r"^\(1, 2\) drops a grain at site 1 and one at site 2; a row and a column are passed by name: rows=1, columns=2"
        with self.assertWarnsRegex(UserWarning, said) as caught:
            table = one.drop_at((1, 2))
        self.assertEqual(caught.filename, __file__)
        self.assertTrue(same(table, other.drop_at([1, 2])))
        with sandpile.SharedPile(START, quota=2) as pile, pile.split(2) as part, self.assertWarnsRegex(UserWarning, said) as caught:
            part.drop((np.int8(1), 2))
        self.assertEqual(caught.filename, __file__)

    def test_other_lists_are_no_pair(self):
        run = sandpile.Drive(START)
        with warnings.catch_warnings():
            warnings.simplefilter("error")
            for sites in ((1, 5), (3, 1), (1, 2, 3), (1,), [1, 2], np.array([1, 2]), range(1, 3)):
                run.drop_at(sites)
            before = run.drops
            self.assertRaises(UserWarning, run.drop_at, (1, 2))
            self.assertEqual(run.drops, before)

    def test_two_positions(self):
        run = sandpile.Drive(START)
        for words in ((1, 2), ([1, 2], [3, 4]), (1, 2, 3)):
            with self.assertRaisesRegex(TypeError, r"a row and a column are passed by name: drop_at\(rows=.., columns=..\)"):
                run.drop_at(*words)
        with sandpile.SharedPile(START, quota=2) as pile, pile.split(2) as part:
            self.assertRaisesRegex(TypeError, r"by name: drop\(rows=.., columns=..\)", part.drop, 1, 2)
        self.assertEqual(run.drops, 0)

    def test_one_way_only(self):
        run = sandpile.Drive(START)
        for given in ({}, {"rows": 1}, {"columns": 1}, {"sites": 1, "columns": 1}, {"sites": 1, "rows": 1, "columns": 1}):
            with self.assertRaisesRegex(TypeError, "sites are either numbers, or rows and columns"):
                run.drop_at(**given)
        for wrong in (1.0, "1", [True], np.ma.array([1])):
            self.assertRaises(TypeError, run.drop_at, rows=wrong, columns=1)
            self.assertRaises(TypeError, run.drop_at, rows=1, columns=wrong)
        self.assertEqual(run.drops, 0)


class One(unittest.TestCase):
    def calls(self):
        run, a = sandpile.Drive(START), sandpile.identity(SHAPE)
        return run.avalanche, a.act, run.waves, run.height, a.tree().path

    def test_it_is_the_site(self):
        for row, column in np.ndindex(SHAPE):
            for by_number, by_place in zip(self.calls(), self.calls()):
                one, other = by_number(5 * row + column), by_place(row=np.int16(row), column=column)
                self.assertEqual(str(one), str(other))

    def test_outside(self):
        for call in self.calls():
            for row, column in [(3, 0), (0, 5), (-1, 0), (0, -1)]:
                with self.assertRaisesRegex(sandpile.Fault, f"NoSite: .* row {row}, column {column}, but .* 0 to 2 .* 0 to 4"):
                    call(row=row, column=column)
            for site in (-1, 15):
                with self.assertRaisesRegex(sandpile.Fault, f"NoSite: .* site {site}, but .* 0 to 14"):
                    call(site)

    def test_one_way_only(self):
        for call in self.calls():
            self.assertRaisesRegex(TypeError, "site must be .*; a row and a column are passed by name", call, (1, 2))
            self.assertRaisesRegex(TypeError, "a site is either a number, or a row and a column", call, 1, row=1)
            self.assertRaisesRegex(TypeError, "column must be an integer, not None", call, row=1)
            self.assertRaisesRegex(TypeError, "row must be an integer, not 1.5", call, row=1.5, column=1)
            name = call.__name__
            self.assertRaisesRegex(TypeError, rf"by name: {name}\(row=.., column=..\)", call, 1, 2)

    def test_help_shows_the_names(self):
        for call in (*self.calls(), sandpile.Drive(START).drop_at, sandpile.Part.drop):
            names = set(inspect.signature(call).parameters)
            self.assertTrue({"site", "row", "column"} <= names or {"sites", "rows", "columns"} <= names, names)
