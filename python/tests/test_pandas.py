"""Tables of pandas: what has a pile is not used transposed, but refused, and a table of heights can be made of it."""

import operator
import unittest

import numpy as np
import sandpile
from tools import needs_module

PILE = np.random.default_rng(1).integers(0, 9, (4, 4))
OPERATORS = [getattr(operator, name) for name in ("add", "sub", "mul", "floordiv", "eq", "ne", "lt", "ge", "iadd")]
METHODS = ("add", "rsub", "eq", "gt")


def results():
    """What has a pile, in a square."""
    with sandpile.SharedPile(PILE, quota=0) as shared:
        record = shared.settle()
    element = sandpile.recurrent(PILE)
    return [sandpile.settle(PILE), sandpile.Drive(PILE), record, element, sandpile.recurrent([PILE])]


@needs_module("pandas")
class Tables(unittest.TestCase):
    def refused(self, call):
        self.assertRaises((TypeError, ValueError), call)

    def test_an_operator_refuses_what_has_a_pile(self):
        import pandas

        for result in results():
            table = pandas.DataFrame(np.asarray(result).reshape(4, 4))
            for act in OPERATORS:
                with self.subTest(kind=type(result).__name__, operator=act.__name__):
                    self.refused(lambda: act(table.copy(), result))
                    self.refused(lambda: act(result, table))
            for name in METHODS:
                with self.subTest(kind=type(result).__name__, method=name):
                    self.refused(lambda: getattr(table, name)(result))
            self.refused(lambda: np.add(table, result))

    def test_the_error_names_the_heights(self):
        import pandas

        with self.assertRaisesRegex(TypeError, "a Settled is not iterable, but its heights, `.pile`, are"):
            pandas.DataFrame(PILE) - sandpile.settle(PILE)

    def test_a_table_of_heights(self):
        import pandas

        for result in results():
            if result.pile.ndim == 2:
                self.assertTrue((pandas.DataFrame(result) == result.pile).all(axis=None))


class Loops(unittest.TestCase):
    def test_an_element_yields_what_its_heights_do(self):
        for element in (sandpile.recurrent(PILE), sandpile.recurrent([PILE, PILE])):
            self.assertEqual([part.tolist() for part in element], element.pile.tolist())

    def test_other_results_yield_nothing(self):
        for result in results():
            if not isinstance(result, sandpile.Recurrent):
                self.assertFalse(np.iterable(result))
