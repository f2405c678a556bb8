"""The edge of a grid travels with its pile: a result or a run that is passed as a pile keeps its own."""

import unittest

import numpy as np
import sandpile
from tools import fault_or, same

PILE = np.array([[3, 2, 1, 2, 0], [3, 1, 3, 2, 3], [1, 3, 2, 1, 3]])


def shared(pile, **options):
    """What a shared pile becomes after a drop."""
    with sandpile.SharedPile(pile, quota=1, **options) as made:
        with made.split(1) as part:
            part.drop(7)
        return made.settle()


def ran(pile, **options):
    """A run after some drops."""
    run = sandpile.Drive(pile, **options)
    run.drop_at([7] * 20)
    return run


# What a call makes of a pile.
CALLS = {
    "settle": sandpile.settle,
    "burn": sandpile.burn,
    "recurrent": sandpile.recurrent,
    "Recurrent": sandpile.Recurrent,
    "Drive": ran,
    "SharedPile": shared,
    "lab": lambda pile, **options: sandpile.lab(pile, seed=0, drops=9, **options),
}
CARRIERS = {name: call for name, call in CALLS.items() if name not in ("burn", "Recurrent")}
NO_EDGES = {"a word": "False", "a number": 1, "a float": 0.0, "an array": np.array(True), "a list": [True], "a pile": PILE}


def outcome(call, pile, **options):
    """What a call makes of a pile, or the number of its fault."""
    result = fault_or(lambda: CALLS[call](pile, **options))
    return [getattr(result, name).tolist() for name in ("pile", "odometer", "order") if hasattr(result, name)] or result


class Edges(unittest.TestCase):
    def carriers(self):
        """Each object that has an edge, on both edges, as a recurrent pile."""
        for cylinder in (False, True):
            start = sandpile.recurrent(PILE, cylinder=cylinder).pile
            for name, make in CARRIERS.items():
                yield name, cylinder, make(start, cylinder=cylinder)

    def test_what_has_an_edge_is_an_array_too(self):
        for name, cylinder, carrier in self.carriers():
            with self.subTest(carrier=name):
                self.assertIs(carrier.cylinder, cylinder)
                self.assertTrue(same(np.asarray(carrier), carrier.pile))
                self.assertEqual(np.asarray(carrier, float).dtype, float)

    def test_no_copy_where_none_is_allowed(self):
        for name, _, carrier in self.carriers():
            with self.subTest(carrier=name):
                for copy in (None, True):
                    self.assertFalse(np.shares_memory(carrier.__array__(copy=copy), carrier.pile))
                if name == "Drive":  # whose heights are the library's
                    self.assertRaisesRegex(ValueError, "are copied .* but copy=False forbids it", carrier.__array__, copy=False)
                    continue
                for dtype in (None, np.int64):
                    self.assertIs(carrier.__array__(dtype, copy=False), carrier.pile)
                self.assertRaisesRegex(ValueError, "only in a copy, but copy=False", carrier.__array__, float, copy=False)
                if np.lib.NumpyVersion(np.__version__) >= "2.0.0":  # before, copy=False allows a copy
                    self.assertTrue(np.shares_memory(np.array(carrier, copy=False), carrier.pile))
                np.array(carrier)[...] = 9
                self.assertLess(carrier.pile.max(), 4)

    def test_the_edge_is_that_of_the_pile(self):
        for call in CALLS:
            others = []
            for name, cylinder, carrier in self.carriers():
                with self.subTest(call=call, carrier=name, cylinder=cylinder):
                    expected, other = (outcome(call, carrier.pile, cylinder=edge) for edge in (cylinder, not cylinder))
                    self.assertEqual(outcome(call, carrier), expected)
                    self.assertEqual(outcome(call, carrier, cylinder=np.bool_(cylinder)), expected)
                    others.append(other != expected)
            self.assertEqual(any(others), call != "settle", call)  # which makes nothing of a settled pile

    def test_results_have_an_edge(self):
        for name, cylinder, carrier in self.carriers():
            for call in CALLS.keys() - {"burn"}:
                with self.subTest(call=call, carrier=name):
                    self.assertIs(CALLS[call](carrier).cylinder, cylinder)

    def test_contradictions(self):
        for name, cylinder, carrier in self.carriers():
            for call in CALLS:
                with self.subTest(call=call, carrier=name), self.assertRaises(sandpile.Fault) as caught:
                    CALLS[call](carrier, cylinder=not cylinder)
                self.assertEqual(caught.exception.number, 9)
                self.assertIn(f"cylinder={not cylinder}", str(caught.exception))

    def test_what_is_no_edge(self):
        calls = {**CALLS, "identity": lambda pile, cylinder: sandpile.identity(pile.shape, cylinder=cylinder)}
        for call in calls:
            for name, cylinder in NO_EDGES.items():
                with self.subTest(call=call, edge=name):
                    self.assertRaisesRegex(TypeError, "cylinder must be True or False", calls[call], PILE, cylinder=cylinder)
        self.assertRaisesRegex(TypeError, "True or False, not None", sandpile.identity, (3, 4), cylinder=None)

    def test_edges_of_numpy(self):
        for cylinder in (np.True_, np.False_):
            for call in CALLS.keys() - {"burn", "Recurrent"}:
                self.assertIs(CALLS[call](PILE, cylinder=cylinder).cylinder, bool(cylinder))
            self.assertIs(sandpile.identity((3, 4), cylinder=cylinder).cylinder, bool(cylinder))

    def test_arrays_have_no_edge(self):
        a = sandpile.identity((3, 5), cylinder=True)
        self.assertIs(sandpile.recurrent(a.pile).cylinder, False)
        self.assertIs(sandpile.recurrent(a.pile, cylinder=None).cylinder, False)
