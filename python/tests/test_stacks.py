"""Stacks of piles: they are settled and burned, and are elements of the group, as their piles are one by one."""

import collections
import unittest
import warnings
from concurrent.futures import ThreadPoolExecutor
from unittest import mock

import numpy as np
import sandpile
from sandpile import _library
from tools import same

LIMIT = 1_099_511_627_775
INT64 = np.dtype(np.int64)


def stack_of(count, height, width, most=20, seed=1):
    return np.random.default_rng(seed).integers(0, most, (count, height, width))


class Stacks(unittest.TestCase):
    def check(self, stack, **options):
        """A stack settles as its piles do one by one, and is not modified."""
        before, found = np.array(stack), sandpile.settle(stack, **options)
        one_by_one = [sandpile.settle(pile, **options) for pile in stack]
        for name in ("pile", "odometer", "lost", "topplings"):
            expected = np.array([getattr(settled, name) for settled in one_by_one], np.int64)
            self.assertTrue(same(getattr(found, name), expected), name)
        np.testing.assert_array_equal(np.array(stack), before)
        return found

    def test_as_one_by_one(self):
        for cylinder in (False, True):
            for shape in [(1, 1, 3), (5, 3, 4), (40, 8, 8), (7, 1, 256), (7, 256, 3), (3, 32, 32), (1, 256, 256)]:
                for most in (4, 20):
                    with self.subTest(shape=shape, cylinder=cylinder, most=most):
                        self.assertIs(self.check(stack_of(*shape, most), cylinder=cylinder).cylinder, cylinder)

    def test_more_sites_than_one_call_settles(self):
        for shape in [(1025, 8, 8), (3, 256, 256), (70, 31, 33)]:
            self.check(stack_of(*shape, most=5))

    def test_each_integer_type(self):
        stack = stack_of(4, 3, 5, most=100)
        for name in "bBhHiIlLqQ":
            for order in "<>":
                self.check(stack.astype(np.dtype(name).newbyteorder(order)))

    def test_arrays_of_any_layout(self):
        stack = stack_of(6, 7, 5)
        self.check(np.asfortranarray(stack))
        self.check(stack[::-2, ::-1, ::2])
        self.check(np.broadcast_to(stack[0], (3, 7, 5)))
        self.check(np.moveaxis(stack, 0, -1))
        stack.flags.writeable = False
        self.check(stack)
        self.check(stack.tolist())
        self.check(tuple(stack))

    def test_no_pile(self):
        for shape in [(0, 3, 4), (0, 256, 256)]:
            for kind in (int, np.uint64, float, object, "U1", [("x", int)]):
                found = sandpile.settle(np.zeros(shape, kind))
                self.assertEqual([found.pile.shape, found.odometer.shape, found.lost.shape, found.topplings.shape],
                                 [shape, shape, (0,), (0,)])
                self.assertEqual({found.pile.dtype, found.odometer.dtype, found.lost.dtype, found.topplings.dtype}, {INT64})

    def test_what_has_an_edge(self):
        piles = stack_of(3, 4, 5)
        for cylinder in (False, True):
            elements = [sandpile.recurrent(pile, cylinder=cylinder) for pile in piles]
            runs = [sandpile.Drive(pile, cylinder=cylinder) for pile in piles]
            for stack in (elements, tuple(runs), [piles[0], *elements], sandpile.settle(piles, cylinder=cylinder)):
                with warnings.catch_warnings(record=True) as warned:
                    self.assertIs(sandpile.settle(stack).cylinder, cylinder)
                self.assertEqual(warned, [])
                self.assertRaisesRegex(sandpile.Fault, "fault 9 Shapes", sandpile.settle, stack, cylinder=not cylinder)
        mixed = [sandpile.identity((3, 3)), sandpile.identity((3, 3), cylinder=True)]
        self.assertRaisesRegex(sandpile.Fault, "fault 9 Shapes: the piles have different edges", sandpile.settle, mixed)

    def test_faults(self):
        for shape in [(2, 1, 8193), (2, 0, 3), (0, 8193, 1), (0, 0, 0)]:
            for cylinder in (False, True):
                self.assertRaisesRegex(sandpile.Fault, "fault 1", sandpile.settle, np.zeros(shape, int), cylinder=cylinder)
        for count in (0, 1, 5):
            self.assertRaisesRegex(sandpile.Fault, "fault 24", sandpile.settle, np.zeros((count, 3, 2), int), cylinder=True)

    def test_the_pile_over_the_limit(self):
        for at in (0, 1, 1023, 1025, 2999):
            for heights in ([LIMIT, 1], [LIMIT + 1, 0], [2**63, 2**63], [2**64 - 1, 1], [2**64 - 1, 2**64 - 1]):
                stack = np.zeros((3000, 8, 8), np.uint64)
                if at:  # a call settles 1024 of them, or none
                    stack[at - 1, 3, 3] = LIMIT
                stack[[at, 2999], 7, :2] = heights
                with self.subTest(at=at, heights=heights):
                    said = f"fault 3 TooManyGrains: pile {at} of the stack has more than 1,099,511,627,775 grains"
                    self.assertRaisesRegex(sandpile.Fault, said, sandpile.settle, stack)

    def test_a_height_below_0(self):
        stack = stack_of(5, 3, 4)
        stack[3, 2, 1] = -7
        self.assertRaisesRegex(ValueError, "the one in pile 3, row 2, column 1 is -7", sandpile.settle, stack)

    def test_a_height_over_64_bits(self):
        stack = [[[0, 1]], [[2, 2**64 + 3]]]
        self.assertRaisesRegex(sandpile.Fault, "fault 3 .* pile 1, row 0, column 1 is 18446744073709551619", sandpile.settle, stack)

    def test_sequences_that_are_no_lists(self):
        one = sandpile.identity((3, 4), cylinder=True)
        for kind in (collections.deque, collections.UserList):
            settled = sandpile.settle(kind([one, one]))
            self.assertEqual((settled.pile.shape, settled.cylinder), ((2, 3, 4), True))
            self.assertRaisesRegex(sandpile.Fault, "fault 9 Shapes", sandpile.settle, kind([one]), cylinder=False)
            self.assertRaisesRegex(TypeError, "the lists of heights must", sandpile.settle, kind([[1, 2], [3]]))

    def test_a_masked_pile(self):
        masked = np.ma.masked_array([[3, 3]], [[False, True]])
        self.assertRaisesRegex(TypeError, "heights must be plain arrays, not masked ones", sandpile.settle, [[[3, 3]], masked])

    def test_other_calls_take_no_stack(self):
        stack = stack_of(2, 3, 4)
        for call in (sandpile.Drive, sandpile.lab):
            for kind in (ValueError, TypeError):
                for pile in (stack, stack[:0], sandpile.settle(stack)):
                    self.assertRaisesRegex(kind, r"shape \(height, width\), but this array has shape \(\d, 3, 4\)", call, pile)

    def test_stacks_in_threads(self):
        stacks = [stack_of(30, 9, 7, seed=seed) for seed in range(40)]
        with ThreadPoolExecutor(8) as pool:
            found = list(pool.map(sandpile.settle, stacks))
        for settled, stack in zip(found, stacks):
            self.assertTrue(same(settled.odometer, sandpile.settle(stack).odometer))

    def test_ctrl_c_comes_between_piles(self):
        calls = []

        def come(*words):
            calls.append(words)
            raise KeyboardInterrupt

        with mock.patch.object(_library.library, "sandpile_settle_all", come):
            self.assertRaises(KeyboardInterrupt, sandpile.settle, np.zeros((9, 256, 256), int))
        self.assertEqual(len(calls), 1)
        self.assertEqual(calls[0][4], 256 * 256)


class Burning(unittest.TestCase):
    def test_as_one_by_one(self):
        for cylinder in (False, True):
            piles = sandpile.recurrent(stack_of(6, 3, 4), cylinder).pile.copy()
            piles[[1, 4]] //= 2
            found, one_by_one = sandpile.burn(piles, cylinder), [sandpile.burn(pile, cylinder) for pile in piles]
            self.assertTrue(same(found.is_recurrent, np.array([one.is_recurrent for one in one_by_one])))
            self.assertEqual({*found.is_recurrent}, {False, True})
            self.assertTrue(same(found.forbidden, np.array([one.forbidden for one in one_by_one])))
            self.assertTrue(same(found.time, np.array([one.time for one in one_by_one])))
            orders = [one.order if one.is_recurrent else np.full(12, -1) for one in one_by_one]
            self.assertTrue(same(found.order, np.array(orders)))

    def test_faults(self):
        stack = stack_of(4, 3, 4, most=4)
        stack[2, 1, 1] = 4
        said = "fault 7 Unstable: pile 2 of the stack: a site has more than 3 grains"
        self.assertRaisesRegex(sandpile.Fault, said, sandpile.burn, stack)
        empty = np.zeros((0, 3, 2), int)
        self.assertRaisesRegex(sandpile.Fault, "fault 24", sandpile.burn, empty, cylinder=True)
        found = sandpile.burn(empty)
        self.assertEqual([part.shape for part in (found.is_recurrent, found.order, found.forbidden, found.time)],
                         [(0,), (0, 6), (0, 3, 2), (0, 3, 2)])


class Elements(unittest.TestCase):
    def test_as_one_by_one(self):
        for cylinder in (False, True):
            stacks = stack_of(5, 3, 4, most=60), stack_of(5, 3, 4, most=60, seed=2)
            a, b = (sandpile.recurrent(stack, cylinder) for stack in stacks)
            ones, others = ([sandpile.recurrent(pile, cylinder) for pile in stack] for stack in stacks)
            for found, each in (
                (a, lambda a, _: a),
                (a + b, lambda a, b: a + b),
                (a - b, lambda a, b: a - b),
                (-a, lambda a, _: -a),
                (-3 * a, lambda a, _: -3 * a),
                (10**40 * a, lambda a, _: 10**40 * a),
                (a.act(7), lambda a, _: a.act(7)),
                (a.act(row=2, column=1), lambda a, _: a.act(9)),
                (a + others[0], lambda a, _: a + others[0]),
                (others[0] - a, lambda a, _: others[0] - a),
            ):
                expected = [each(one, other) for one, other in zip(ones, others)]
                self.assertTrue(same(found.pile, np.array([one.pile for one in expected])))
                self.assertEqual((found.shape, found.cylinder, found.pile.flags.writeable), ((3, 4), cylinder, False))
                self.assertEqual(found, sandpile.Recurrent(expected))
            self.assertEqual((a == b, a == sandpile.Recurrent(ones), a != b), (False, True, True))
            self.assertEqual(hash(a), hash(sandpile.Recurrent(ones)))

    def test_one_is_not_a_stack_of_one(self):
        one, stack = sandpile.recurrent([[7, 1]]), sandpile.recurrent([[[7, 1]]])
        self.assertNotEqual(one, stack)
        self.assertNotEqual(hash(one), hash(stack))
        self.assertEqual((one + stack).pile.shape, (1, 1, 2))

    def test_faults(self):
        stack = stack_of(5, 3, 4)
        a = sandpile.recurrent(stack)
        said = "fault 9 Shapes: one stack has 5 piles, but the other 4"
        self.assertRaisesRegex(sandpile.Fault, said, lambda: a + sandpile.recurrent(stack[:4]))
        for other in (sandpile.identity((4, 3)), sandpile.recurrent(stack, cylinder=True)):
            self.assertRaisesRegex(sandpile.Fault, "fault 9 Shapes: the two piles differ", lambda: a + other)
        piles = a.pile.copy()
        piles[3] = 0
        said = "fault 8 NotRecurrent: pile 3 of the stack is not recurrent"
        self.assertRaisesRegex(sandpile.Fault, said, sandpile.Recurrent, piles)
        stack[2, 0, 0] = LIMIT
        self.assertRaisesRegex(sandpile.Fault, "fault 3 TooManyGrains: pile 2 of the stack: ", sandpile.recurrent, stack)
        for call in (sandpile.recurrent, sandpile.Recurrent):
            self.assertRaisesRegex(sandpile.Fault, "fault 24", call, np.zeros((0, 3, 2), int), cylinder=True)

    def test_no_pile(self):
        a = sandpile.recurrent(np.zeros((0, 3, 4), int))
        for found in (a, a + a, -a, 10**40 * a, a.act(0), a + sandpile.identity((3, 4))):
            self.assertEqual(found.pile.shape, (0, 3, 4))
