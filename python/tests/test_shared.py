"""Shared piles: values by hand, threads that meet, and misuse, which is refused in words."""

import contextlib
import copy
import gc
import os
import pickle
import threading
import unittest
import warnings
from concurrent.futures import ThreadPoolExecutor
from unittest import mock

import numpy as np
import sandpile
from sandpile import _library, sharing
from tools import fault_or, resident, same

THREADS, EACH = 4, 20_000
COLUMN = [[4], [4], [4], [4]]


def with_drops(start, history):
    """The start with all the grains of a history on it."""
    grains = np.bincount(history, minlength=np.size(start)).reshape(np.shape(start))
    return np.asarray(start) + grains


@contextlib.contextmanager
def held(name):
    """Holds calls of an export once they are made. Yields an event that is set when one is there, and one that lets them go."""
    is_there, go = threading.Event(), threading.Event()
    export = getattr(_library.library, f"sandpile_{name}")

    def call(*words):
        is_there.set()
        go.wait(60)
        return export(*words)

    with mock.patch.object(_library.library, f"sandpile_{name}", call):
        try:
            yield is_there, go
        finally:
            go.set()


class ByHand(unittest.TestCase):
    def test_two_drops(self):
        # 0 3 0, a grain on 1 and one on 0: 0 4 0 topples to 1 0 1, and then 2 0 1.
        with sandpile.SharedPile([[0, 3, 0]], quota=2) as pile:
            with pile.split(2) as part:
                numbers = part.drop([1, 0])
            done = pile.settle()
        self.assertTrue(same(numbers, np.array([0, 1])))
        self.assertTrue(same(done.pile, np.array([[2, 0, 1]])))
        self.assertTrue(same(done.odometer, np.array([[0, 1, 0]])))
        self.assertTrue(same(done.history, np.array([1, 0])))
        self.assertEqual((done.lost, done.topplings), (2, 1))

    def test_numbers_are_those_of_one_history(self):
        with sandpile.SharedPile(np.zeros((2, 3), int), quota=9) as pile:
            one, other = pile.split(4), pile.split(5)
            numbers = [one.drop([5, 5]), other.drop(2), one.drop([]), other.drop([3, 4, 0]), one.drop([1])]
            self.assertEqual([some.tolist() for some in numbers], [[0, 1], [2], [], [3, 4, 5], [6]])
            self.assertEqual([one.tally(), other.tally(), pile.tally()], [7, 7, 7])
            pile.join(one)
            pile.join(other)
            done = pile.settle()
        self.assertEqual(done.history.tolist(), [5, 5, 2, 3, 4, 0, 1])
        self.assertEqual((done.pile.tolist(), done.topplings), ([[1, 1, 1], [1, 1, 2]], 0))

    def test_sweeps_topple_the_rows_of_the_part(self):
        # From the top: 4 4 4 4, and two grains on the last row. Its sweep leaves 5 2 there; the middle rows topple next.
        with sandpile.SharedPile(COLUMN, quota=3) as pile:
            last, middle = pile.split(2, rows=1), pile.split(1, rows=2)
            last.drop([3, 3])
            self.assertEqual([last.sweep(), last.sweep(), middle.sweep(), last.sweep()], [1, 0, 2, 0])
            # They end in the order in which they were made: the last row is not adjacent to the first one yet.
            pile.join(last)
            pile.join(middle)
            done, once = pile.settle(), sandpile.settle([[4], [4], [4], [6]])
        self.assertTrue(same(done.odometer, once.odometer) and same(done.pile, once.pile))
        self.assertEqual((done.lost, done.topplings), (once.lost, once.topplings))

    def test_what_is_left_of_a_part_comes_back(self):
        with sandpile.SharedPile(COLUMN, quota=5) as pile:
            with pile.split(5, rows=4) as part:
                part.drop(0)
            with pile.split(4, rows=4) as part:
                part.drop([1, 2])
            self.assertEqual(fault_or(lambda: pile.split(3)), 10)
            self.assertEqual(pile.settle().history.tolist(), [0, 1, 2])
            with pile.split(2) as part:
                part.drop([3, 3])
            self.assertEqual(pile.settle().history.tolist(), [0, 1, 2, 3, 3])

    def test_a_part_ends_after_an_error_too(self):
        with sandpile.SharedPile(COLUMN, quota=5) as pile:
            with self.assertRaises(ZeroDivisionError), pile.split(5, rows=4) as part:
                part.drop([2])
                raise ZeroDivisionError
            self.assertEqual(pile.settle().history.tolist(), [2])

    def test_edges(self):
        for cylinder in (False, True):
            start = np.full((5, 4), 3)
            with sandpile.SharedPile(start, quota=1, cylinder=cylinder) as pile:
                with pile.split(1) as part:
                    part.drop([0])
                done = pile.settle()
            once = sandpile.settle(with_drops(start, [0]), cylinder)
            self.assertTrue(same(done.pile, once.pile) and same(done.odometer, once.odometer))


class Threads(unittest.TestCase):
    def test_threads_that_drop_topple_and_look_on(self):
        start, lists = np.full((64, 64), 2), np.random.default_rng(5).integers(0, 4096, (THREADS, EACH // 100, 100))
        meet, tallies = threading.Barrier(THREADS + 3), []

        def dropper(sites):
            with pile.split(EACH) as part:
                meet.wait(60)
                return np.concatenate([part.drop(some) for some in sites])

        def sweeper(_):
            with part_of.pop() as part:
                meet.wait(60)
                return sum(part.sweep() for _ in range(50))

        def observer(_):
            meet.wait(60)
            while not tallies or tallies[-1] < THREADS * EACH:
                tallies.append(pile.tally())

        with sandpile.SharedPile(start, quota=THREADS * EACH) as pile, ThreadPoolExecutor(THREADS + 3) as pool:
            part_of = [pile.split(0, rows=32), pile.split(0, rows=32)]
            counts, looked = pool.map(sweeper, range(2)), pool.map(observer, range(1))
            numbers = list(pool.map(dropper, lists))
            self.assertGreater(sum(counts), 0)
            list(looked)
            done = pile.settle()
        self.assertEqual(tallies, sorted(tallies))
        self.assertEqual(sorted(np.concatenate(numbers)), list(range(THREADS * EACH)))
        for mine, sites in zip(numbers, lists):
            self.assertTrue((done.history[mine] == sites.ravel()).all())
        self.assertEqualsOneThread(start, done)

    def test_eight_threads_on_a_large_grid(self):
        start, lists = sandpile.random_recurrent((512, 512), seed=1), np.random.default_rng(6).integers(0, 512**2, (8, 2, 1000))
        meet = threading.Barrier(8)

        def work(part, sites):
            with part:
                meet.wait(60)
                for some in sites:
                    part.drop(some)
                    part.sweep()

        with sandpile.SharedPile(start, quota=16_000) as pile, ThreadPoolExecutor(8) as pool:
            list(pool.map(work, [pile.split(2000, rows=64) for _ in lists], lists))
            done = pile.settle()
        self.assertEqual(sorted(done.history), sorted(lists.ravel()))
        self.assertEqualsOneThread(start, done)

    def assertEqualsOneThread(self, start, done):
        once, one = sandpile.settle(with_drops(start, done.history)), sandpile.Drive(start)
        one.drop_at(done.history)
        for other in (once, one):
            self.assertTrue(same(done.pile, other.pile) and same(done.odometer, other.odometer))
            self.assertEqual((done.lost, done.topplings), (other.lost, other.topplings))

    def test_a_tally_does_not_wait_for_a_drop_or_a_settlement(self):
        with sandpile.SharedPile(COLUMN, quota=3) as pile, ThreadPoolExecutor(1) as pool:
            with pile.split(3) as part, held("pass_drop") as (is_there, go):
                dropped = pool.submit(part.drop, [0, 1])
                is_there.wait(60)
                self.assertEqual(pile.tally(), 0)
                go.set()
                self.assertEqual(dropped.result().tolist(), [0, 1])
            with held("pass_settle") as (is_there, go):
                done = pool.submit(pile.settle)
                is_there.wait(60)
                self.assertEqual(pile.tally(), 2)
                go.set()
                self.assertEqual(done.result().history.tolist(), [0, 1])

    def test_the_end_of_a_part_waits_for_its_drops(self):
        with sandpile.SharedPile(COLUMN, quota=3) as pile, ThreadPoolExecutor(1) as pool:
            with held("pass_drop") as (is_there, go):
                with pile.split(3) as part:
                    dropped = pool.submit(part.drop, [0, 1])
                    is_there.wait(60)
                    threading.Timer(0.05, go.set).start()
                self.assertTrue(go.is_set())
            self.assertEqual(dropped.result().tolist(), [0, 1])
            self.assertEqual(pile.settle().history.tolist(), [0, 1])


class Misuse(unittest.TestCase):
    def refuses(self, kind, words, call, *arguments):
        with self.assertRaisesRegex(kind, words):
            call(*arguments)

    def test_arguments(self):
        for number, call in [
            (1, lambda: sandpile.SharedPile(np.zeros((1, 8193), int), 1)),
            (24, lambda: sandpile.SharedPile([[0, 0]], 1, cylinder=True)),
            (3, lambda: sandpile.SharedPile([[2**40 - 5]], 5)),
            (15, lambda: sandpile.SharedPile([[5]], -1)),
        ]:
            self.assertEqual(fault_or(call), number)
        self.refuses(ValueError, "heights must be 0 or more", sandpile.SharedPile, [[-1]], 1)
        self.refuses(TypeError, "quota must be an integer", sandpile.SharedPile, [[1]], 1.5)
        with sandpile.SharedPile([[2**40 - 5]], 4) as pile, pile.split(3) as part:
            for number, call in [
                (10, lambda: pile.split(2)), (11, lambda: pile.split(0, 2)), (11, lambda: pile.split(0, 2**16 + 1)),
                (15, lambda: pile.split(0, -1)), (25, lambda: part.drop([0, 1])), (13, lambda: part.drop([0] * 4)),
            ]:
                self.assertEqual(fault_or(call), number)
            self.refuses(TypeError, "sites must be integers", part.drop, [0.5])
            self.refuses(TypeError, "rows must be an integer", pile.split, 0, "1")
            self.assertEqual(pile.tally(), 0)

    def test_a_part_in_two_threads(self):
        with sandpile.SharedPile(COLUMN, quota=3) as pile, pile.split(3) as part, ThreadPoolExecutor(1) as pool:
            with held("pass_drop") as (is_there, go):
                dropped = pool.submit(part.drop, [0, 1])
                is_there.wait(60)
                for call, words in ((part.drop, [[2]]), (part.sweep, []), (part.tally, [])):
                    self.refuses(RuntimeError, "another thread is using this part", call, *words)
                go.set()
            self.assertEqual((dropped.result().tolist(), part.drop([2]).tolist()), ([0, 1], [2]))

    def test_a_part_that_has_been_joined(self):
        with sandpile.SharedPile(COLUMN, quota=3) as pile:
            with pile.split(3) as part:
                part.drop([0])
            for call, words in ((part.drop, [[2]]), (part.sweep, []), (part.tally, []), (pile.join, [part]), (part.__enter__, [])):
                self.refuses(RuntimeError, "this part has been joined to its pile", call, *words)
            self.assertEqual(pile.settle().history.tolist(), [0])

    def test_a_part_that_has_not_been_joined(self):
        with sandpile.SharedPile(COLUMN, quota=3) as pile:
            with pile.split(1), pile.split(0, rows=1):
                self.refuses(sandpile.Fault, "Missing: parts of the pile have not been joined: 2", pile.settle)
            self.assertEqual(pile.settle().history.tolist(), [])

    def test_a_part_of_another_pile(self):
        with sandpile.SharedPile(COLUMN, quota=3) as pile, sandpile.SharedPile(COLUMN, quota=3) as other:
            with other.split(3, rows=4) as part:
                self.refuses(sandpile.Fault, "OtherPile: the part is of another pile", pile.join, part)
                part.drop([3])
            self.assertEqual([some.settle().history.tolist() for some in (pile, other)], [[], [3]])

    def test_what_is_no_part(self):
        with sandpile.SharedPile([[0]], quota=3) as pile:
            for part in (None, 3, pile):
                self.assertRaisesRegex(TypeError, "part must be a Part, not ", pile.join, part)

    def test_a_pile_that_is_closed(self):
        pile = sandpile.SharedPile(COLUMN, quota=3)
        part = pile.split(1)
        pile.close()
        pile.close()
        for call, words in (
            (pile.split, [1]), (pile.tally, []), (pile.settle, []), (pile.__enter__, []), (part.drop, [[0]]), (pile.join, [part]),
        ):
            self.refuses(RuntimeError, "this shared pile is closed", call, *words)
        part.__exit__(None, None, None)

    def test_copies(self):
        with sandpile.SharedPile(COLUMN, quota=3) as pile, pile.split(1) as part:
            for call in (pickle.dumps, copy.copy, copy.deepcopy):
                self.refuses(TypeError, "a shared pile cannot be copied or pickled", call, pile)
                self.refuses(TypeError, "a part of a shared pile cannot be copied or pickled", call, part)

    def test_a_forked_child(self):
        with sandpile.SharedPile(COLUMN, quota=3) as pile, pile.split(1) as part:
            child = os.fork()
            if not child:
                with contextlib.suppress(BaseException):
                    words = "belongs to the process that made it"
                    for call in (pile.settle, pile.tally, part.sweep, lambda: pile.split(1), lambda: part.drop([0]), lambda: pile.join(part)):
                        self.refuses(RuntimeError, words, call)
                    part.__exit__(None, None, None)
                    pile.close()
                    with warnings.catch_warnings():
                        warnings.simplefilter("error")
                        del part, pile
                    os._exit(0)
                os._exit(1)
            self.assertEqual(os.waitstatus_to_exitcode(os.waitpid(child, 0)[1]), 0)
            part.drop([1])
            pile.join(part)
            self.assertEqual(pile.settle().history.tolist(), [1])


class Dropped(unittest.TestCase):
    """What Python collects while it is still in use."""

    def warned(self, what):
        """The warnings while `what` runs and its objects are collected."""
        with warnings.catch_warnings(record=True) as caught:
            warnings.simplefilter("always")
            what()
            gc.collect()
        self.assertEqual({warning.category for warning in caught}, {ResourceWarning} if caught else set())
        return [str(warning.message) for warning in caught]

    def test_a_part(self):
        with sandpile.SharedPile(COLUMN, quota=3) as pile:
            self.assertEqual(self.warned(lambda: pile.split(2, rows=4).drop([1])), ["a part of a shared pile was not joined"])
            self.assertEqual(pile.settle().history.tolist(), [1])

    def test_a_pile(self):
        kept = []
        said = self.warned(lambda: kept.append(sandpile.SharedPile(COLUMN, quota=3).split(2)))
        self.assertEqual(said, ["a shared pile was dropped while parts of it were not joined: 1"])
        self.assertEqual(kept[0].drop([0, 0]).tolist(), [0, 1])
        self.assertEqual(self.warned(kept.clear), ["a part of a shared pile was not joined"])

    def test_nothing_is_said_of_what_has_ended(self):
        def ended():
            pile = sandpile.SharedPile(COLUMN, quota=3)
            with pile.split(1) as part:
                part.drop([0])
            with contextlib.suppress(sandpile.Fault):
                pile.split(1, rows=5)

        self.assertEqual(self.warned(ended), [])

    def grown(self, use):
        """By how much memory grows when 40 more piles are used. They alone take over 100 MB."""
        sites = np.zeros(10**5, int)

        def used():
            for _ in range(40):
                pile = sandpile.SharedPile(np.zeros((256, 256), np.uint8), quota=10**5)
                with pile.split(10**5, rows=256) as part:
                    part.drop(sites)
                pile.settle()
                use(pile)

        used()
        before = resident()
        used()
        return resident() - before

    def test_what_is_collected_is_freed(self):
        self.assertLess(self.grown(lambda pile: None), 20 << 20)

    def test_what_is_closed_is_freed(self):
        kept = []

        def close(pile):
            kept.append(pile)
            pile.close()

        self.assertLess(self.grown(close), 20 << 20)

    def test_ctrl_c_loses_no_part(self):
        # It comes when the library has split off the part, before anybody has it.
        def stopped(*words):
            split(*words)
            raise KeyboardInterrupt

        with sandpile.SharedPile(COLUMN, quota=3) as pile:
            for name in ("pass_split", "pass_split_rows", "pass_join"):
                split = getattr(_library.library, f"sandpile_{name}")
                with mock.patch.object(_library.library, f"sandpile_{name}", stopped):
                    self.assertRaises(KeyboardInterrupt, pile.split, 2, 4)
                self.assertEqual(len(pile.settle().history), 0)

    def test_ctrl_c_at_the_end_of_a_part(self):
        # It comes before the part is given back, then after that.
        give_back = sharing._Passes.give_back

        def before(*words):
            raise KeyboardInterrupt

        def after(*words):
            give_back(*words)
            raise KeyboardInterrupt

        for stopped in (before, after):
            with sandpile.SharedPile(COLUMN, quota=3) as pile:
                with mock.patch.object(sharing._Passes, "give_back", stopped), self.assertRaises(KeyboardInterrupt):
                    with pile.split(2) as part:
                        part.drop([3])
                if stopped is before:
                    self.assertEqual(fault_or(pile.settle), 14)
                    pile.join(part)
                self.assertEqual(pile.settle().history.tolist(), [3])
                self.assertRaises(RuntimeError, part.drop, [0])
                with pile.split(2, rows=4):
                    pass

    def test_ctrl_c_while_a_handle_is_made(self):
        said = []
        with sandpile.SharedPile(COLUMN, quota=3) as pile:
            calls = (lambda: pile.split(2), lambda: sandpile.SharedPile(COLUMN, quota=3), lambda: sandpile.Drive(COLUMN))
            for name in ("ctypes.c_void_p", "ctypes.addressof", "os.getpid", "threading.RLock"):
                for call in calls:
                    with mock.patch(f"sandpile._handles.{name}", side_effect=KeyboardInterrupt), mock.patch(
                        "sys.unraisablehook", said.append
                    ), contextlib.suppress(KeyboardInterrupt):
                        call()
        self.assertEqual(said, [])

    def test_memory_that_runs_out_while_parts_are_joined(self):
        with sandpile.SharedPile(COLUMN, quota=3) as pile:
            with pile.split(2) as part:
                part.drop([3])
            with mock.patch.object(_library.library, "sandpile_pass_join", lambda *_: 4):
                self.assertEqual([fault_or(pile.settle), fault_or(lambda: pile.split(3))], [4, 4])
            self.assertEqual(pile.settle().history.tolist(), [3])
            with mock.patch.object(sharing.np, "empty", side_effect=MemoryError):
                self.assertRaises(MemoryError, pile.settle)
            self.assertEqual(pile.settle().history.tolist(), [3])
