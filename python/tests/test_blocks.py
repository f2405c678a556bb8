"""Runs in blocks of drops, which need little memory, and the topplings of each site in each avalanche."""

import itertools
import linecache
import re
import sys
import unittest
from unittest import mock

import numpy as np
import sandpile
from sandpile import _dropping, driving
from test_live import equal
from tools import TOP, in_blocks, same, toppling_matrix

FULL = np.full((32, 32), 3)
# The cell of a notebook that gathers blocks.
CELL = compile(re.search(r"^def cell\(.*?^\n\n", (TOP / "docs" / "COOKBOOK.md").read_text(), re.M | re.S)[0], "cell", "exec")


def two_runs(**words):
    return (sandpile.Drive(FULL + 1, seed=5, stream=2, **words) for _ in range(2))


class Blocks(unittest.TestCase):
    def test_they_are_the_tables_of_one_call(self):
        for n, size, lengths in ((1000, 300, [300, 300, 300, 100]), (9, 3, [3, 3, 3]), (4, 2**40, [4]), (0, 5, [])):
            one, other = two_runs()
            tables = list(one.blocks(n, size))
            self.assertEqual(list(map(len, tables)), lengths)
            self.assertTrue(same(np.concatenate([one.drop(0), *tables]), other.drop(n)))
            self.assertTrue(same(one.drop(5), other.drop(5)))

    def test_stopped_early(self):
        one, other = two_runs()
        blocks = one.blocks(2**40, 10)
        next(blocks), next(blocks)
        self.assertEqual(one.drops, 20)
        one.drop(5)
        self.assertEqual(next(blocks)["number"].tolist(), list(range(25, 35)))
        other.drop(25), other.drop(10)
        self.assertTrue(equal(one, other))

    def test_what_is_refused_at_once(self):
        run = sandpile.Drive(FULL)
        for words in ((-1, 5), (5, 0), (5, -1), (2**64, 5)):
            self.assertRaises(sandpile.Fault, run.blocks, *words)
        for words in ((1.5, 5), (5, 1.5), (5, None)):
            self.assertRaises(TypeError, run.blocks, *words)


def is_stopped_at(number, call):
    """Whether Ctrl-C came during a cell: at this step of it or of the module, of those where it can come."""
    steps = itertools.count()

    def trace(frame, event, _):
        is_cell = frame.f_code.co_filename == "cell"
        if not is_cell and frame.f_code.co_filename not in (driving.__file__, _dropping.__file__):
            return None
        frame.f_trace_opcodes = is_cell
        is_with = linecache.getline(frame.f_code.co_filename, frame.f_lineno).lstrip().startswith("with ")  # it has its lock
        if event in ("line", "opcode") and not is_with and next(steps) == number:
            raise KeyboardInterrupt
        return trace

    before = sys.gettrace()
    sys.settrace(trace)
    try:
        call()
    except KeyboardInterrupt:
        return True
    finally:
        sys.settrace(before)
    return False


class Cells(unittest.TestCase):
    """What the page's cell gathers, whatever stops it, if it is run again."""

    def setUp(self):
        self.run_of_cell = run = in_blocks(sandpile.Drive(FULL, seed=5), 20)
        names = {"run": run, "rows": [run.drop(0)]}
        exec(CELL, names)
        self.rows, self.cell = names["rows"], names["cell"]

    def stop_in_a_part(self):
        """Stops the cell after 20 drops of a part of 30."""
        with mock.patch.object(self.run_of_cell, "_go_on", mock.Mock(side_effect=[None, KeyboardInterrupt])):
            self.assertRaises(KeyboardInterrupt, self.cell, 100, 30)

    def assert_gathered(self, drops):
        self.assertTrue(same(np.concatenate(self.rows), sandpile.Drive(FULL, seed=5).drop(drops)))

    def test_one_that_is_stopped_and_run_again(self):
        for is_again in (False, True):
            for number in itertools.count():
                self.setUp()
                if is_again:
                    self.stop_in_a_part()
                is_stopped = is_stopped_at(number, lambda: self.cell(100, 30))
                self.cell(100, 30)
                with self.subTest(number=number, is_again=is_again):
                    self.assert_gathered(100)
                if not is_stopped:
                    break
            self.assertGreater(number, 200)

    def test_one_that_is_stopped_again_before_a_drop(self):
        self.stop_in_a_part()
        for _ in range(3):
            with mock.patch.object(self.run_of_cell, "blocks", side_effect=KeyboardInterrupt):
                self.assertRaises(KeyboardInterrupt, self.cell, 100, 30)
        self.cell(100, 30)
        self.assert_gathered(100)

    def test_one_that_lacks_memory(self):
        self.stop_in_a_part()
        for _ in range(3):
            with mock.patch.object(_dropping, "new_array", side_effect=sandpile.Fault(4)):
                self.assertRaises(MemoryError, self.cell, 100, 30)
        self.cell(100, 30)
        self.assert_gathered(100)

    def test_one_that_wants_no_more(self):
        self.stop_in_a_part()
        for _ in range(3):
            self.cell(20, 30)
            self.assert_gathered(20)

    def test_the_rows_so_far_are_the_same_array(self):
        run = self.run_of_cell
        self.stop_in_a_part()
        self.assertIs(run.table, run.table)
        self.assertRaises(TypeError, run.drop, "5")
        self.assertEqual(len(run.table), 20)


class Odometers(unittest.TestCase):
    def test_the_topplings_of_each_drop(self):
        for cylinder in (False, True):
            one, other = two_runs(cylinder=cylinder)
            table, topplings = one.drop(700, odometers=True)
            self.assertEqual((topplings.shape, topplings.dtype), ((700, 32, 32), np.int64))
            for row, toppled in zip(table, topplings):
                before = other.odometer
                self.assertEqual(other.drop(1)[0].tolist(), row.tolist())
                self.assertTrue(same(other.odometer - before, toppled))
            self.assertTrue(same(table["size"], topplings.sum(axis=(1, 2))))
            self.assertTrue(same(one.drop(10), other.drop(10)))
            self.assertTrue(equal(one, other))

    def test_in_blocks(self):
        one, other = two_runs()
        parts = list(one.blocks(70, 30, odometers=True))
        self.assertEqual([len(table) for table, _ in parts], [30, 30, 10])
        for found, expected in zip(map(np.concatenate, zip(*parts)), other.drop(70, odometers=True)):
            self.assertTrue(same(found, expected))

    def test_at_sites(self):
        for words in ({"sites": [7, 7, 990]}, {"sites": 40}, {"rows": [[0, 1], [2, 3]], "columns": [5, 31]}, {"sites": []}):
            one, other = two_runs()
            table, topplings = one.drop_at(**words, odometers=True)
            self.assertTrue(same(table, other.drop_at(**words)))
            self.assertTrue(same(topplings.sum(axis=0), one.odometer - sandpile.Drive(FULL + 1).odometer))
            self.assertEqual(topplings.sum(axis=(1, 2)).tolist(), table["size"].tolist())
            self.assertTrue(equal(one, other))

    def test_at_sites_that_are_none(self):
        run = sandpile.Drive(FULL)
        table = run.drop(3)
        self.assertRaisesRegex(sandpile.Fault, "fault 25 NoSite: drop 1 is at", run.drop_at, [5, 1024], odometers=True)
        self.assertRaises(TypeError, run.drop_at, odometers=True)
        self.assertIs(run.table, table)

    def test_none(self):
        run = sandpile.Drive(FULL)
        table, topplings = run.drop(0, odometers=True)
        self.assertEqual((len(table), topplings.shape, run.drops), (0, (0, 32, 32), 0))

    def test_the_table_is_that_of_the_call(self):
        run = sandpile.Drive(FULL, seed=1)
        table, _ = run.drop(5, odometers=True)
        self.assertTrue(same(run.table, table))

    def test_what_is_refused(self):
        run = sandpile.Drive(FULL)
        table = run.drop(3)
        for n, number in ((-1, 15), (2**40, 6), (2**64 - 1, 6), (2**39, 4)):
            with self.assertRaises(sandpile.Fault) as caught:
                run.drop(n, odometers=True)
            self.assertEqual(caught.exception.number, number)
        self.assertRegex(str(caught.exception), f"not enough memory for the topplings of {2**39} drops")
        self.assertRaises(TypeError, run.drop, 1.5, odometers=True)
        self.assertIs(run.table, table)
        self.assertEqual(run.drops, 3)

    def test_ctrl_c_keeps_what_was_done(self):
        one, other = two_runs()
        one.drop(5), other.drop(5)
        one._go_on = mock.Mock(side_effect=[None] * 29 + [KeyboardInterrupt])
        self.assertRaises(KeyboardInterrupt, one.drop, 100, odometers=True)
        one._go_on = None
        self.assertEqual(one.drops, 34)
        self.assertTrue(same(one.table, other.drop(29)))
        self.assertTrue(same(one.drop(10), other.drop(10)))


class Avalanches(unittest.TestCase):
    def test_without_a_site_it_is_the_next_random_one(self):
        one, other = two_runs()
        for words in [()] * 300 + [(None,)]:
            row, topplings = one.avalanche(*words)
            table, expected = other.drop(1, odometers=True)
            self.assertEqual(row.tolist(), table[0].tolist())
            self.assertTrue(same(topplings, expected[0]))
        one.avalanche(7), other.drop_at(7)
        self.assertTrue(same(one.drop(10), other.drop(10)))

    def test_the_mean_is_the_inverse_of_the_toppling_matrix(self):
        # The mean is over the recurrent piles (Dhar 1990).
        green, middle = np.linalg.inv(toppling_matrix(7, 9))[31].reshape(7, 9), 31
        piles = (sandpile.random_recurrent((7, 9), seed) for seed in range(4000))
        topplings = np.array([sandpile.Drive(pile).avalanche(middle)[1] for pile in piles])
        error = topplings.std(axis=0, ddof=1) / len(topplings) ** 0.5
        self.assertLess((abs(topplings.mean(axis=0) - green) / error).max(), 4)
