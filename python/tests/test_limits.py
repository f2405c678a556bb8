"""The limits of grids, grains, memory and blocks of drops, and what is said of more."""

import time
import unittest
from unittest import mock

import numpy as np
import sandpile
from sandpile import _dropping, _memory
from test_large import toppled
from tools import fault_or, in_blocks, same

MOST = 2**40 - 1
# Rows, and the grains that a grid takes.
LIMITS = {
    1: MOST, 256: MOST, 361: MOST, 362: 1_093_695_695_314, 1024: 137_170_910_720, 4096: 8_585_741_823, 8192: 2_146_959_455,
}
ZERO = np.uint8(0)
# A side, and what is said of it.
SIDES = {
    0: "0 {}s; a grid has at least 1",
    -1: "-1 {}s; a grid has at least 1",
    8193: "8,193 {}s; a grid has at most 8,192",
    9000: "9,000 {}s; a grid has at most 8,192",
    2**32: "4,294,967,296 {}s; a grid has at most 8,192",
    2**64 - 1: "18,446,744,073,709,551,615 {}s; a grid has at most 8,192",
}
TAKES_SHAPE = (sandpile.identity, lambda shape: sandpile.random_recurrent(shape, 1), sandpile.grain_limit)
TAKES_PILE = (
    sandpile.settle, sandpile.burn, sandpile.recurrent, sandpile.Recurrent, sandpile.superstable, sandpile.is_superstable,
    sandpile.Drive, lambda pile: sandpile.SharedPile(pile, 1), sandpile.Recurrent.from_tree,
    lambda pile: sandpile.settle(pile[None]), lambda pile: sandpile.burn(pile[None]), lambda pile: sandpile.recurrent(pile[None]),
    lambda pile: next(sandpile.replicas(pile, 1, [0], 1)),
)


def said(call, *words, **options):
    """The sentence of the fault that a call raises."""
    try:
        call(*words, **options)
    except sandpile.Fault as fault:
        return fault.sentence
    raise AssertionError("nothing was refused")


def column(rows, grains):
    """A pile of one column with so many grains on its middle site."""
    pile = np.zeros((rows, 1), np.int64)
    pile[rows // 2] = grains
    return pile


class Sides(unittest.TestCase):
    def test_shapes(self):
        for side, sentence in SIDES.items():
            for call in TAKES_SHAPE:
                self.assertEqual(said(call, (side, 5)), sentence.format("row"))
                self.assertEqual(said(call, (5, side)), sentence.format("column"))
                self.assertEqual(said(call, (side, 9000)), sentence.format("row"))

    def test_piles(self):
        # A side of 2**32 is that of a view: no array of such a size is made.
        for side in (0, 8193, 9000, 2**32):
            for call in TAKES_PILE:
                for shape, name in (((side, 3), "row"), ((3, side), "column")):
                    with self.subTest(side=side, shape=shape):
                        self.assertEqual(said(call, np.broadcast_to(ZERO, shape)), SIDES[side].format(name))

    def test_products_that_overflow(self):
        huge = np.broadcast_to(ZERO, (2**31, 2**31))
        for call in TAKES_PILE:
            self.assertEqual(said(call, huge), "2,147,483,648 rows; a grid has at most 8,192")

    def test_the_longest(self):
        for shape in ((8192, 1), (1, 8192), (8192, 3)):
            pile = np.full(shape, 3)
            self.assertEqual(sandpile.settle(pile).topplings, 0)
            self.assertTrue(sandpile.burn(pile).is_recurrent)
            self.assertEqual(sandpile.identity(shape).shape, shape)
            self.assertEqual(sandpile.random_recurrent(shape, 1).shape, shape)
            self.assertEqual(sandpile.Drive(pile).shape, shape)
            with sandpile.SharedPile(pile, 1) as shared, shared.split(1, rows=shape[0]) as part:
                self.assertEqual(part.sweep(), 0)

    def test_the_laboratory_runs_the_program(self):
        for shape, sentence in (((257, 1), "257 rows"), ((3, 8192), "8,192 columns")):
            self.assertEqual(said(sandpile.lab, np.zeros(shape, int)), f"{sentence}; lab runs the program, which takes at most 256")
        self.assertEqual(said(sandpile.lab, np.zeros((1, 9000), int)), SIDES[9000].format("column"))


class Grains(unittest.TestCase):
    def test_the_limit_of_a_grid(self):
        for rows, most in LIMITS.items():
            for columns in (1, 5, 8192):
                self.assertEqual(sandpile.grain_limit((rows, columns)), most)
        for rows in range(1, 8193):  # by the definition, which only the library computes
            self.assertEqual(sandpile.grain_limit((rows, 1)), min(2**40 - 1, (2**57 - 1) // (rows + 1) ** 2))
        self.assertRaises(TypeError, sandpile.grain_limit, 5)
        self.assertRaises(TypeError, sandpile.grain_limit, (2.0, 3))

    def words(self, rows):
        return f"{LIMITS[rows]:,} grains" + ("" if LIMITS[rows] == MOST else f", the limit on {rows:,} rows")

    def test_at_the_start(self):
        for rows, most in LIMITS.items():
            with self.subTest(rows=rows):
                settled = sandpile.settle(column(rows, most))
                self.assertTrue(same(settled.pile, toppled(column(rows, most), settled.odometer, False)))
                self.assertEqual(settled.pile.sum() + settled.lost, most)
                more = f"the pile has more than {self.words(rows)}"
                for call in (sandpile.settle, sandpile.burn, sandpile.recurrent, sandpile.Drive):
                    self.assertEqual(said(call, column(rows, most + 1)), more)
                self.assertEqual(said(sandpile.settle, [column(rows, 5), column(rows, most + 1)]), more.replace("the pile", "pile 1 of the stack"))

    def test_heights_below_0(self):
        for rows, most in LIMITS.items():
            pile = column(rows, -most)
            element, vector = sandpile.recurrent(pile, firing=True)
            self.assertTrue(same(element.pile, toppled(pile, vector, False)))
            more = f"the absolute values of the heights sum to more than {self.words(rows)}"
            self.assertEqual(said(sandpile.recurrent, column(rows, -most - 1)), more)
            self.assertEqual(said(sandpile.superstable, column(rows, -most - 1)), more)

    def test_reached_by_drops(self):
        for rows, most in LIMITS.items():
            with self.subTest(rows=rows):
                run = sandpile.Drive(column(rows, most - 3), seed=1)
                full = f"the pile and its drops together exceed {self.words(rows)}"
                run.drop(1), run.drop_at([0])
                for call in (run.drop, lambda n: run.drop(n, waves=True), lambda n: run.drop_at([0] * n)):
                    self.assertEqual(said(call, 2), full)
                run.drop(1)
                self.assertEqual((said(run.drop, 1), said(run.avalanche), said(run.waves, 0)), (full, full, full))
                self.assertEqual(run.drops, 3)

    def test_a_quota(self):
        for rows, most in LIMITS.items():
            sandpile.SharedPile(column(rows, most - 2), 2).close()
            sentence = f"the pile and its quota together exceed {self.words(rows)}"
            self.assertEqual(said(sandpile.SharedPile, column(rows, most - 2), 3), sentence)

    def test_heights_that_no_integer_has(self):
        self.assertEqual(
            said(sandpile.settle, [[0], [2**64]] * 200),
            "the height in row 1, column 0 is 18446744073709551616, over 896,233,158,225 grains, the limit on 400 rows",
        )


class Memory(unittest.TestCase):
    def setUp(self):
        patch = mock.patch.object(_memory, "available", return_value=10**8)
        patch.start()
        self.addCleanup(patch.stop)

    def refused(self, what, size, call, *words, **options):
        self.assertEqual(said(call, *words, **options), f"not enough memory for {what}: {size} needed, 100 MB available")

    def test_piles_and_stacks(self):
        large, stack = np.broadcast_to(ZERO, (8192, 8192)), np.broadcast_to(ZERO, (300, 300, 300))
        for call in (*TAKES_PILE[:8], sandpile.Drive):
            self.refused("a copy of the heights", "537 MB", call, large)
        for call in (sandpile.settle, sandpile.burn, sandpile.recurrent, sandpile.Recurrent, sandpile.superstable):
            self.refused("a copy of the heights", "216 MB", call, stack)
        for call in (sandpile.identity, lambda shape: sandpile.random_recurrent(shape, 1)):
            self.assertRegex(said(call, (8192, 8192)), "^not enough memory for .*: .* needed, 100 MB available$")

    def test_a_wide_grid(self):
        self.refused("a grid of 64 by 8,192", "846 MB", sandpile.settle, np.full((64, 8192), 4))
        self.assertEqual(sandpile.settle(np.full((8192, 64), 3)).topplings, 0)

    def test_what_drops_return(self):
        run = sandpile.Drive(np.zeros((300, 300), int))
        self.refused("a table of 10000000 drops", "480 MB", run.drop, 10**7)
        self.refused("the topplings of 1000 drops", "720 MB", run.drop, 1000, odometers=True)
        self.refused("a quota of 100,000,000 drops", "1.6 GB", sandpile.SharedPile, [[0]], 10**8)
        self.assertEqual(run.drops, 0)

    def test_the_sites_of_waves(self):
        run = sandpile.Drive(np.full((600, 600), 3))
        sentence = "not enough memory for the sites of 300 waves: 108 MB needed, 100 MB available"
        self.assertEqual(said(run.waves, row=300, column=300), sentence)
        self.assertEqual((run.drops, len(run.table)), (1, 1))  # the drop is made

    def test_waves_keep_the_blocks_before(self):
        one, other = (sandpile.Drive(np.full((40, 40), 3), seed=1) for _ in range(2))
        in_blocks(one, 10)
        asked = []

        def check(size, what):
            asked.append(what)
            if sum("waves and more" in each for each in asked) > 2:
                raise sandpile.Fault(4, what)

        with mock.patch.object(_memory, "check", check):
            self.assertEqual(fault_or(lambda: one.drop(1_000, waves=True)), 4)
        self.assertTrue(10 < one.drops < 1_000 and one.drops % 10 == 0)
        self.assertTrue(same(one.table, other.drop(one.drops)))
        self.assertTrue(same(one.drop(50), other.drop(50)))

    def test_it_is_a_memory_error(self):
        self.assertRaises(MemoryError, sandpile.settle, np.broadcast_to(ZERO, (8192, 8192)))

    def test_what_is_available_is_read_from_the_system(self):
        mock.patch.stopall()
        with open("/proc/meminfo") as file:
            total = int(next(file).split()[1]) * 1024
        self.assertTrue(0 < _memory.available() < total)


class Blocks(unittest.TestCase):
    def test_the_first_has_as_many_drops_as_fit_at_worst(self):
        # In an avalanche each site topples at most once a wave: 0.05 s are 762 times 1,024 * 16 topplings of 4 ns.
        for shape, cylinder, drops in (((32, 32), False, 762), ((2, 3), True, 2_083_333), ((4096, 4096), False, 1)):
            self.assertEqual(_dropping.Pace(shape, cylinder).drops, drops)

    def test_they_shrink_at_once_and_grow_slowly(self):
        pace = _dropping.Pace((4096, 4096), False)
        sizes = []
        for seconds in (1e-5,) * 6 + (0.2, 2.0) + (1e-5,) * 3:
            sizes.append(pace.drops)
            pace.note(pace.drops, seconds)
        self.assertEqual(sizes, [1, 2, 4, 7, 11, 17, 26, 6, 1, 2, 4])

    def test_few_drops_say_little(self):
        pace = _dropping.Pace((32, 32), False)
        before = pace.drops
        pace.note(1, 1e-6)
        self.assertEqual(pace.drops, before)
        pace.note(1, 1.0)
        self.assertEqual(pace.drops, 1)

    def test_slow_drops(self):
        run, sizes = sandpile.Drive(np.full((1024, 1024), 3)), []

        def slow(*words):
            sizes.append(words[2])
            time.sleep(0.02 * words[2])
            _dropping.drop_only(*words)

        run._drop(lambda: (20, run._draw), True, export=slow)
        self.assertEqual(sum(sizes), 20)
        self.assertLess(max(sizes), 4)

    def test_the_drops_are_the_same(self):
        one, other = (sandpile.Drive(np.full((64, 64), 3), seed=1) for _ in range(2))
        with mock.patch.object(_dropping, "_SECONDS_IN_BLOCK", 1e-5):
            self.assertTrue(same(one.drop(3_000), other.drop(3_000)))
        self.assertTrue(same(one.pile, other.pile))
