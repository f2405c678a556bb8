"""What the module accepts as a pile, and what it rejects. No argument is modified."""

import copy
import operator
import os
import pickle
import random
import sys
import unittest
import warnings
from unittest import mock

import numpy as np
import sandpile
from sandpile import _arrays
from sandpile.faults import ShapeError
from tools import TOP, ran

TAKES_PILE = {
    "settle": sandpile.settle,
    "burn": sandpile.burn,
    "recurrent": sandpile.recurrent,
    "Recurrent": sandpile.Recurrent,
    "Drive": sandpile.Drive,
    "lab": sandpile.lab,
}
LIMIT = 1_099_511_627_775
MASKED = np.ma.masked_array([[3, 3]], [[False, True]])
NEGATIVE = {
    "negative": np.array([[3, -1]]),
    "least": np.array([[np.iinfo(np.int64).min]]),
    "in a list": [[3, 2], [-1, 2]],
    "over 64 bits": [[3, -(2**70)]],
    "mixed": [[2**63, -1]],
}
WRONG_SHAPES = {
    "no dimension": np.array(3),
    "one dimension": np.array([3, 2]),
    "three dimensions": np.zeros((2, 2, 2), int),
    "four dimensions": np.zeros((2, 2, 2, 2), int),
    "an empty list": [],
}
TAKE_STACKS = {"settle", "burn", "recurrent", "Recurrent"}
RAGGED = {
    "rows": [[3, 2], [3]],
    "a site": [[3, 2], [3, [2]]],
    "arrays": [np.array([3, 2]), np.array([3])],
    "planes": [np.zeros((2, 2), int), np.zeros((2, 3), int)],
    "a tuple": ([3, 2], 3),
}
NO_PILES = {
    "float": np.array([[3.0, 2.0]]),
    "not a number": np.array([[np.nan]]),
    "bool": np.array([[True, False]]),
    "complex": np.array([[1j]]),
    "text": np.array([["3", "2"]]),
    "date": np.array([["2026-01-01"]], "datetime64[D]"),
    "object": np.array([[3, 2]], object),
    "over 64 bits": np.array([[2**64]]),
    "mixed": [[2**64, 0.5]],
    "mixed with a bool": [[2**64, True]],
    "masked": MASKED,
    "a list of masked rows": [MASKED[0], MASKED[0]],
    "a tuple with a masked row": ([3, 3], MASKED[0]),
    "a list of lists of masked rows": [[MASKED[0], [3, 3]], ([3, 3], [3, 3])],
    "a list of lists of masked arrays": [[MASKED[0]], [MASKED[0]]],
    "bools and integers": [[True, 5]],
    "a bool of NumPy": [[5, 3], (np.True_, 5)],
    "an array of bools": [np.array([True, False]), [3, 3]],
    "a record": np.zeros((2, 2), [("x", int)]),
    "None": None,
}
FAULTS = {
    "8,193 wide": (np.zeros((1, 8193), int), 1),
    "8,193 high": (np.zeros((8193, 1), np.uint8), 1),
    "empty": (np.zeros((0, 0), int), 1),
    "no row": (np.zeros((0, 5), int), 1),
    "no column": (np.zeros((5, 0)), 1),
    "an empty list": ([[]], 1),
    "too many": (np.array([[LIMIT, 1]]), 3),
    "the greatest": (np.full((2, 2), np.iinfo(np.uint64).max, np.uint64), 3),
    "over 64 bits": ([[0, 3], [2**64, 1]], 3),
    "over 63 bits": ([[0, 3], [2**63, 1]], 3),
    "8,193 wide, over 64 bits": ([[2**64] * 8193], 1),
}


# A mebibyte is 2**20 bytes. No call changes anything, so the tally is 0.
LIMITED = """
import resource
import numpy as np
import sandpile
from sandpile.waves import WaveList

LIMITS = resource.getrlimit(resource.RLIMIT_AS)

def fault(mebibytes, call, **arguments):
    with open("/proc/self/statm") as file:
        used = int(file.read().split()[0]) * resource.getpagesize()
    resource.setrlimit(resource.RLIMIT_AS, (used + (mebibytes << 20), LIMITS[1]))
    try:
        call(**arguments)
    except MemoryError as error:
        print(getattr(error, "number", error))
    finally:
        resource.setrlimit(resource.RLIMIT_AS, LIMITS)

run, zero, three = sandpile.Drive([[0, 0]]), np.uint8(0), np.uint8(3)
fault(256, sandpile.settle, pile=np.broadcast_to(zero, (10**4, 64, 64)))
fault(256, sandpile.settle, pile=np.broadcast_to(zero, (6 * 10**3, 64, 64)))
for call in (sandpile.recurrent, sandpile.superstable):
    fault(256, call, pile=np.broadcast_to(three, (10**4, 64, 64)))
for call in (sandpile.burn, sandpile.is_superstable, sandpile.Recurrent):  # which make other arrays, too
    for piles in (10**4, 6 * 10**3):
        fault(256, call, pile=np.broadcast_to(three, (piles, 64, 64)))
for mebibytes in (40, 80):  # 50 for a block of waves, and as much to keep them
    fault(mebibytes, WaveList(1 << 16).room, drops=32)
fault(256, run.drop_at, sites=np.broadcast_to(zero, 2**26))
fault(256, run.drop_at, rows=np.zeros((2**15, 1), int), columns=np.zeros(2**15, int))
pile = sandpile.SharedPile([[0]], quota=2**23)
with pile.split(2**23) as part:
    for mebibytes in (40, 100):
        fault(mebibytes, part.drop, sites=np.broadcast_to(zero, 2**23))
print(pile.tally())
"""


class Refused(unittest.TestCase):
    def refuses(self, call, kind, *words, **options):
        """A call raises this fault or error, with a sentence, and leaves its arrays unchanged."""
        before = [np.array(word, copy=True) for word in words]
        with self.assertRaises(kind if isinstance(kind, type) else sandpile.Fault) as caught:
            call(*words, **options)
        if isinstance(kind, int):
            self.assertEqual(caught.exception.number, kind)
            self.assertTrue(caught.exception.name.isalpha())
        is_value, is_type = (isinstance(caught.exception, kind) for kind in (ValueError, TypeError))
        self.assertEqual(is_value and is_type, isinstance(caught.exception, ShapeError))
        self.assertGreater(len(str(caught.exception).split()), 4)
        for word, copy in zip(words, before):
            self.assertEqual(np.array(word).tobytes(), copy.tobytes())

    def test_what_is_no_pile(self):
        for call in TAKES_PILE:
            for name, pile in NO_PILES.items():
                with self.subTest(call=call, pile=name):
                    self.refuses(TAKES_PILE[call], TypeError, pile)

    def test_heights_below_0(self):
        for call in TAKES_PILE:
            if call == "recurrent":  # which takes them
                continue
            for name, pile in NEGATIVE.items():
                with self.subTest(call=call, pile=name):
                    self.refuses(TAKES_PILE[call], ValueError, pile)
                    self.assertRaisesRegex(ValueError, "must be 0 or more, but the one in row", TAKES_PILE[call], pile)

    def test_piles_of_another_number_of_dimensions(self):
        for call in TAKES_PILE:
            for name, pile in WRONG_SHAPES.items():
                if call in TAKE_STACKS and name == "three dimensions":
                    continue
                for kind in (ValueError, TypeError):
                    with self.subTest(call=call, pile=name, kind=kind):
                        self.refuses(TAKES_PILE[call], kind, pile)

    def test_lists_of_different_lengths(self):
        calls = {**TAKES_PILE, "drop_at": sandpile.Drive([[3]]).drop_at}
        for call in calls:
            for name, pile in RAGGED.items():
                for kind in (ValueError, TypeError):
                    with self.subTest(call=call, pile=name), warnings.catch_warnings(record=True) as warned:
                        said = "the lists of (heights|sites) must all have the same length"
                        self.assertRaisesRegex(kind, said, calls[call], pile)
                        self.assertEqual(warned, [])

    def test_lists_of_different_lengths_by_an_older_numpy(self):
        with mock.patch.object(_arrays, "_ALLOWS_RAGGED", True):
            self.test_lists_of_different_lengths()
            for pile in ([[3, 2], [1, 0]], ((3, 2), [1, 0]), [np.array([3, 2]), (1, 0)], np.array([[3, 2], [1, 0]])):
                self.assertEqual(sandpile.settle(pile).pile.tolist(), [[3, 2], [1, 0]])
            self.refuses(sandpile.settle, TypeError, [["3", "2"]])

    def test_a_float_says_how_to_make_integers(self):
        for call in (*TAKES_PILE.values(), sandpile.Drive([[3]]).drop_at):
            self.assertRaisesRegex(TypeError, "has type float64; add dtype=int where it is made", call, np.zeros((3, 3)))

    def test_a_shape_in_place_of_a_pile(self):
        for name, call in TAKES_PILE.items():
            for pile, shape in (((64, 32), "(64, 32)"), ([64, 32], "(64, 32)"), (np.array([64, 32]), "(64, 32)"), (64, "(64, 64)")):
                with self.subTest(call=name, pile=pile), self.assertRaises(ShapeError) as caught:
                    call(pile)
                self.assertIn(f"of the shape {shape}, numpy.zeros({shape}, int) is an empty pile, and random_", str(caught.exception))
            with self.assertRaises(ShapeError) as caught:
                call([64, 32, 3])
            self.assertNotIn("random_recurrent", str(caught.exception))

    def test_piles_with_a_fault(self):
        for call in TAKES_PILE:
            for name, (pile, number) in FAULTS.items():
                with self.subTest(call=call, pile=name):
                    by_text = call == "lab" and name == "the greatest"
                    self.refuses(TAKES_PILE[call], 19 if by_text else number, pile)

    def test_narrow_cylinders(self):
        for call in TAKES_PILE:
            with self.subTest(call=call):
                self.refuses(TAKES_PILE[call], 24, np.full((3, 2), 3), cylinder=True)

    def test_piles_outside_the_group(self):
        self.refuses(sandpile.Recurrent, 8, np.zeros((2, 2), int))
        for call in (sandpile.Recurrent, sandpile.burn):
            self.refuses(call, 7, np.full((2, 2), 4))

    def test_shapes(self):
        for shape in [(0, 1), (1, 8193), (-1, 1), (2**64, 1), (2**64 + 1, 1)]:
            self.refuses(sandpile.identity, 1, shape)
        for shape in [(2.0, 2), (2,), (2, 2, 2), "ab", None, 4]:
            self.refuses(sandpile.identity, TypeError, shape)
        for shape in [(2,), (2, 2, 2)]:
            self.refuses(sandpile.identity, ValueError, shape)
        self.refuses(sandpile.identity, 24, (2, 2), cylinder=True)

    def test_sites(self):
        run = sandpile.Drive(np.full((2, 3), 3), seed=1)
        run.drop(5)
        before = pickle.dumps(run)
        for sites in [[6], [-1], np.array([0, 2**64 - 1], np.uint64), np.array([-1], np.int8)]:
            self.refuses(run.drop_at, 25, sites)
        for sites in [[2**64], [3, 2**63, -1], (-(2**64),), 2**64, -(2**63) - 1]:
            self.refuses(run.drop_at, 25, sites)
        for sites in [[0.0], ["0"], [[0, 1]], np.array([True]), [None], [2**64, 0.5], [True, 5], [np.True_, 5], True]:
            self.refuses(run.drop_at, TypeError, sites)
        self.assertEqual(pickle.dumps(run), before)
        self.assertEqual(len(run.drop_at([])), 0)
        self.assertEqual(len(run.drop_at(5)), 1)

    def test_counts_and_seeds(self):
        run = sandpile.Drive(np.full((2, 3), 3))
        for call, number in [(run.drop, 15), (lambda s: sandpile.Drive([[3]], seed=s), 15)]:
            self.refuses(call, number, -1)
            self.refuses(call, TypeError, 1.5)
            self.refuses(call, TypeError, "7")
        self.refuses(lambda s: sandpile.Drive([[3]], stream=s), 15, 2**64)
        self.refuses(run.drop, 6, LIMIT)
        self.refuses(lambda s: sandpile.lab([[3]], seed=s), 23, 2**32)
        self.assertEqual(sandpile.Drive([[3]], seed=np.uint64(2**64 - 1), stream=np.int8(3)).seed, 2**64 - 1)

    def test_a_bool_of_numpy_is_no_integer(self):
        run, a, pile = sandpile.Drive([[3, 3]]), sandpile.identity((3, 3)), sandpile.SharedPile([[3]], 5)
        calls = (
            run.drop, run.avalanche, run.height, a.act, pile.split, lambda n: n * a, lambda n: a * n,
            lambda n: run.blocks(9, n), lambda n: sandpile.Drive([[3]], n), lambda n: sandpile.identity((3, n)),
        )
        for call in calls:
            with warnings.catch_warnings(record=True) as warned:
                self.assertRaises(TypeError, call, np.True_)
            self.assertEqual(warned, [])

    def test_grids_of_a_sum(self):
        a, b = sandpile.identity((3, 4)), sandpile.identity((4, 3))
        self.refuses(lambda one, other: one + other, 9, a, b)
        self.refuses(lambda one, other: one - other, 9, a, sandpile.identity((3, 4), cylinder=True))
        for other in (1, "a", None, np.ones((3, 4), int), np.ones(4)):
            for call in (lambda x, y: x + y, lambda x, y: y + x, lambda x, y: x - y):
                self.assertRaises(TypeError, call, a, other)
        self.assertRaises(TypeError, lambda: a * 1.5)
        self.assertRaises(TypeError, lambda: a * b)

    def test_arrays_have_no_sum_with_an_element(self):
        class Own(np.ndarray):
            def __radd__(self, _):
                return "a sum outside the group"

            __rsub__ = __rmul__ = __rtruediv__ = __radd__

        a, ones = sandpile.identity((3, 4)), np.ones((3, 4), int)
        arrays = [ones, np.ma.array(ones), np.ma.masked, np.ma.array(3, mask=True), ones.T.view(np.matrix), ones.view(Own)]
        for array in [*arrays, np.array([2])]:
            for name in ("add", "sub", "mul", "truediv", "floordiv", "mod", "pow", "matmul"):
                with self.subTest(type=type(array).__name__, name=name):
                    self.assertRaisesRegex(TypeError, "the group adds elements", getattr(operator, name), a, array)
            for name in ("add", "sub", "mul"):
                with self.subTest(type=type(array).__name__, name=name):
                    self.assertRaises(TypeError, getattr(operator, name), array, a)
        self.assertEqual(a + a, np.array(2) * a)

    def test_a_fault_can_be_passed_to_another_process(self):
        for number, name in ((25, "NoSite"), (4, "Memory")):
            for again in (copy.copy, copy.deepcopy, lambda it: pickle.loads(pickle.dumps(it))):
                fault = again(sandpile.Fault(number, "drop 3 is outside"))
                self.assertEqual((fault.number, fault.name, fault.sentence), (number, name, "drop 3 is outside"))
                self.assertIsInstance(fault, ValueError)
                self.assertEqual(isinstance(fault, MemoryError), number == 4)

    def test_running_out_of_memory(self):
        run = sandpile.Drive([[3]])
        with mock.patch("numpy.empty", side_effect=MemoryError):
            for kind in (MemoryError, ValueError, sandpile.Fault):
                self.assertRaisesRegex(kind, "fault 4 Memory: not enough memory for a table of 9 drops", run.drop, 9)

    def test_running_out_of_memory_for_a_copy_of_an_argument(self):
        said = ran(sys.executable, "-B", "-c", LIMITED, env={**os.environ, "PYTHONPATH": str(TOP / "python")})
        self.assertEqual(said.split(), [*["4"] * 16, "0"])


class Taken(unittest.TestCase):
    PILE = np.random.default_rng(1).integers(0, 100, (7, 5))

    def check(self, pile):
        before = pile.tobytes()
        settled, want = sandpile.settle(pile), sandpile.settle(self.PILE.tolist())
        for name in ("pile", "odometer"):
            array = getattr(settled, name)
            np.testing.assert_array_equal(array, getattr(want, name))
            self.assertEqual((array.dtype, array.flags.c_contiguous, array.flags.writeable), (np.int64, True, True))
        self.assertEqual((settled.lost, settled.topplings), (want.lost, want.topplings))
        self.assertEqual(pile.tobytes(), before)

    def test_each_integer_type(self):
        for name in "bBhHiIlLqQ":
            for order in "<>":
                with self.subTest(type=order + name):
                    self.check(self.PILE.astype(np.dtype(name).newbyteorder(order)))

    def test_arrays_that_are_not_contiguous(self):
        wide = np.zeros((14, 15), int)
        wide[::2, ::3] = self.PILE
        self.check(wide[::2, ::3])
        self.check(np.asfortranarray(self.PILE))
        self.check(self.PILE[::-1, ::-1].copy()[::-1, ::-1])
        self.check(np.broadcast_to(self.PILE, (2, 7, 5))[1])

    def test_read_only_arrays(self):
        pile = self.PILE.copy()
        pile.flags.writeable = False
        self.check(pile)

    def test_arrays_that_are_not_aligned(self):
        raw = np.zeros(7 * 5 * 8 + 1, np.uint8)
        pile = raw[1:].view(np.int64).reshape(7, 5)
        pile[...] = self.PILE
        self.check(pile)

    def test_what_is_returned_is_new(self):
        run = sandpile.Drive([[3, 3]])
        run.pile[...] = 9
        run.odometer[...] = 9
        self.assertEqual((run.pile.tolist(), run.odometer.tolist()), ([[3, 3]], [[0, 0]]))
        with self.assertRaises(ValueError):
            sandpile.identity((2, 2)).pile[0, 0] = 1

    def test_an_element_is_an_array_where_one_is_wanted(self):
        a = sandpile.recurrent(self.PILE)
        self.assertTrue(sandpile.burn(a).is_recurrent)
        np.testing.assert_array_equal(a, a.pile)
        self.assertTrue((a == a.pile).all() and (a.pile == a).all())
        self.assertEqual(a[2, 3], a.pile[2, 3])


class Group(unittest.TestCase):
    def test_multiples(self):
        for cylinder in (False, True):
            chance = np.random.default_rng(2)
            for shape in [(1, 3), (2, 3), (5, 4), (16, 16)]:
                a = sandpile.recurrent(chance.integers(0, 50, shape), cylinder=cylinder)
                neutral, total = sandpile.identity(shape, cylinder=cylinder), sandpile.identity(shape, cylinder=cylinder)
                for times in range(9):
                    self.assertEqual([times * a, a * np.uint8(times), np.int64(-times) * a], [total, total, -total])
                    total += a
                for n, m in chance.integers(-(2**62), 2**62, (5, 2)).tolist():
                    self.assertEqual(n * a + m * a, (n + m) * a)
                    self.assertEqual(n * (m * a), (n * m) * a)
                for n in (2**63 - 1, 2**63, 2**64 - 1, 2**64, 2**126, 10**40, -(10**40)):
                    self.assertEqual(n * a - (n - 1) * a, a)
                self.assertEqual(0 * a, neutral)

    def test_multiples_of_any_length(self):
        # The orders of the groups on 1 by 1, 2 by 2 and 3 by 3 (https://oeis.org/A007341).
        for side, order in ((1, 4), (2, 192), (3, 100_352)):
            a, chance = sandpile.recurrent(np.arange(side * side).reshape(side, side)), random.Random(side)
            for n in [2**63000, 2**64 - 1, 2**64, order * 10**9000, 2**9000 - 1, *(chance.getrandbits(9000) for _ in range(5))]:
                for times in (n, n + 1, -n):
                    self.assertEqual(times * a, times % order * a)

    def test_elements_in_a_set(self):
        a = sandpile.Recurrent([[3, 2], [2, 2]])
        self.assertEqual(len({n * a for n in range(100)}), 24)
        self.assertNotEqual(sandpile.identity((3, 3)), sandpile.identity((3, 3), cylinder=True))
        again = pickle.loads(pickle.dumps(a))
        self.assertEqual((again, again.pile.flags.writeable), (a, False))

    def test_nobody_can_change_an_element(self):
        a = sandpile.Recurrent([[3, 2], [2, 2]])
        made = [a + a, -a, 3 * a, 2**70 * a, a.act(0), sandpile.identity((2, 2)), sandpile.random_recurrent((2, 2), 1)]
        copies = [copy.copy(a), copy.deepcopy(a), pickle.loads(pickle.dumps(a)), sandpile.Recurrent.from_tree(a.tree())]
        for element in (a, *made, *copies, sandpile.recurrent([[[7, 1]]])):
            before = hash(element)
            with self.assertRaises(ValueError):
                element.pile.flags.writeable = True
            with self.assertRaises(ValueError):
                element.pile[0] = 1
            self.assertEqual(hash(element), before)
