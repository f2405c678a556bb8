"""A run lives in the library between calls: one drop a call, avalanches, and who may look on or come between."""

import contextlib
import copy
import os
import pickle
import signal
import sys
import threading
import time
import unittest
from concurrent.futures import ThreadPoolExecutor
from unittest import mock

import numpy as np
import sandpile
from sandpile import _library
from tools import TOP, in_blocks, new_folder, ran, resident, same

FULL = np.full((32, 32), 3)
KEPT = ("pile", "odometer", "lost", "topplings", "drops", "table")


def equal(one, other):
    return all(np.array_equal(getattr(one, name), getattr(other, name)) for name in KEPT)


def exported(name, call):
    """Replaces an export of the library; `call` gets it and its arguments."""
    export = getattr(_library.library, f"sandpile_{name}")
    return mock.patch.object(_library.library, f"sandpile_{name}", lambda *words: call(export, *words))


class Calls(unittest.TestCase):
    def test_an_avalanche_by_hand(self):
        # 4 3 1 topples to 0 4 1, and that to 1 0 2. On a single row, each toppling loses two grains, and one more at an end.
        run = sandpile.Drive([[3, 3, 1]])
        row, topplings = run.avalanche(0)
        self.assertEqual(row.tolist(), (0, 0, 2, 2, 1, 5))
        self.assertTrue(same(topplings, np.array([[1, 1, 0]])))
        self.assertEqual((run.pile.tolist(), run.table.tolist(), run.drops, run.lost), ([[1, 0, 2]], [row.tolist()], 1, 5))
        row, topplings = run.avalanche(np.int8(1))
        self.assertEqual((row.tolist(), topplings.tolist()), ((1, 1, 0, 0, 0, 0), [[0, 0, 0]]))

    def test_avalanches_are_those_of_drops(self):
        for cylinder in (False, True):
            one, other = (sandpile.Drive(FULL + 2, cylinder=cylinder) for _ in range(2))
            for site in np.random.default_rng(2).integers(0, 1024, 300):
                before = one.odometer
                row, topplings = one.avalanche(site)
                self.assertEqual(row.tolist(), other.drop_at(site)[0].tolist())
                self.assertTrue(same(topplings, one.odometer - before))
                self.assertEqual((topplings.sum(), np.count_nonzero(topplings)), (row["size"], row["area"]))
            self.assertTrue(equal(one, other))

    def test_avalanches_among_other_drops(self):
        chance = np.random.default_rng(3)
        for shape, cylinder in ((1, 1), False), ((1, 60), True), ((60, 1), False), ((7, 3), True), ((20, 33), True), ((33, 20), False):
            start = chance.integers(0, 8, shape)
            one, other = (sandpile.Drive(start, cylinder=cylinder) for _ in range(2))
            for site, count in chance.integers(0, (start.size, 3), (400, 2)):
                few = chance.integers(0, start.size, count)
                self.assertTrue(same(one.drop_at(few), other.drop_at(few)))
                before = other.odometer
                row, topplings = one.avalanche(site)
                self.assertEqual(row.tolist(), other.drop_at(site)[0].tolist())
                self.assertTrue(same(topplings, other.odometer - before))
            self.assertTrue(same(one.pile, other.pile) and same(one.odometer, other.odometer))

    def test_the_height_of_a_site(self):
        for cylinder in (False, True):
            run = sandpile.Drive(FULL + 2, seed=4, cylinder=cylinder)
            for _ in range(3):
                run.drop(100)
                run.avalanche(17)
                heights = [run.height(site) for site in range(1024)]
                self.assertEqual((heights, {*map(type, heights)}), (run.pile.ravel().tolist(), {int}))
            self.assertEqual(run.height(np.uint8(33)), heights[33])

    def test_the_height_of_no_site(self):
        run = sandpile.Drive(FULL)
        for site in (-1, 1024, 2**70):
            with self.assertRaisesRegex(sandpile.Fault, f"NoSite: the height asked for is at site {site}, but .* 0 to 1023"):
                run.height(site)
        for site in (0.5, "0", [0], None):
            with self.assertRaisesRegex(TypeError, "site must be an integer"):
                run.height(site)

    def test_sites_that_are_none(self):
        run = sandpile.Drive(FULL)
        table = run.drop(3)
        for site in (-1, 1024):
            with self.assertRaisesRegex(sandpile.Fault, f"NoSite: the drop is at site {site}, but .* 0 to 1023"):
                run.avalanche(site)
        for site in (0.5, "0", [0]):
            with self.assertRaisesRegex(TypeError, "site must be an integer"):
                run.avalanche(site)
        self.assertIs(run.table, table)
        self.assertEqual(run.drops, 3)

    def test_one_drop_a_call(self):
        one, other = sandpile.Drive(FULL, seed=5), sandpile.Drive(FULL, seed=5)
        rows = []
        for _ in range(600):  # over the end of the sites that are drawn ahead
            rows += [one.drop(1), one.drop_at(7), one.drop(0), one.drop(3)]
        sites = np.concatenate(rows)["site"]
        self.assertTrue(same(np.concatenate(rows), other.drop_at(sites)))
        self.assertTrue(same(one.pile, other.pile) and same(one.odometer, other.odometer))
        drawn = np.delete(sites, np.arange(1, sites.size, 5))
        self.assertTrue(same(drawn, sandpile.Drive(FULL, seed=5).drop(2400)["site"]))

    def test_the_most_grains(self):
        run = sandpile.Drive([[2**40 - 3]])
        run.avalanche(0)
        again = pickle.loads(pickle.dumps(run))
        for one in (run, again):
            one.drop(1)
            for call, word in ((one.avalanche, 0), (one.drop, 1), (one.drop_at, 0)):
                with self.assertRaisesRegex(sandpile.Fault, "fault 6 Full"):
                    call(word)
            self.assertEqual(one.drops, 2)


class Copies(unittest.TestCase):
    def test_copies_go_on_alike(self):
        for cylinder in (False, True):
            run = sandpile.Drive(FULL + 9, seed=5, stream=2**63, cylinder=cylinder)
            run.drop(500)
            run.avalanche(77)
            for copied in (copy.copy, copy.deepcopy, lambda it: pickle.loads(pickle.dumps(it))):
                again, before = copied(run), copied(run)
                self.assertTrue(equal(run, again))
                again.drop(300)
                self.assertTrue(equal(run, before))
                before.drop(300)
                self.assertTrue(equal(again, before))

    def test_a_subclass_keeps_what_is_its_own(self):
        run = Named(FULL, seed=3)
        run.name = "a run"
        again = pickle.loads(pickle.dumps(run))
        self.assertEqual((type(again), again.name), (Named, "a run"))

    def test_handles_are_freed(self):
        def made():
            for _ in range(40):
                copy.copy(sandpile.Drive(np.zeros((256, 256), np.uint8))).drop(1)

        made()
        before = resident()
        made()
        self.assertLess(resident() - before, 20 << 20)  # a leak is over 80 MB


class Named(sandpile.Drive):
    name = ""


class CtrlC(unittest.TestCase):
    def test_between_the_library_and_python(self):
        def before(export, *words):
            raise KeyboardInterrupt

        def after(export, *words):
            export(*words)
            raise KeyboardInterrupt

        for name, called in (("drive_drop", lambda it: it.drop(3)), ("drive_avalanche", lambda it: it.avalanche(528))):
            for come, is_made in ((before, False), (after, True)):
                run, other = sandpile.Drive(FULL, seed=1), sandpile.Drive(FULL, seed=1)
                run.drop(10)
                other.drop(10)
                with exported(name, come):
                    self.assertRaises(KeyboardInterrupt, called, run)
                if is_made:
                    called(other)
                    self.assertTrue(equal(run, other))
                else:
                    self.assertEqual((len(run.table), run.drops), (0, 10))
                self.assertTrue(same(run.drop(5), other.drop(5)))
                self.assertTrue(equal(run, other))

    def test_in_a_later_block(self):
        run, other, blocks = in_blocks(sandpile.Drive(FULL, seed=1), 500), sandpile.Drive(FULL, seed=1), []

        def come(export, *words):
            blocks.append(export(*words))
            if len(blocks) == 2:
                raise KeyboardInterrupt

        with exported("drive_drop", come):
            self.assertRaises(KeyboardInterrupt, run.drop, 3 * 500)
        other.drop(2 * 500)
        self.assertTrue(equal(run, other))


@contextlib.contextmanager
def dropping(run, blocks, of):
    """Meanwhile another thread makes blocks `of` so many drops on a run."""
    in_blocks(run, of)
    with ThreadPoolExecutor(1) as pool:
        yield pool.submit(run.drop, blocks * of)


class OneAfterAnother(unittest.TestCase):
    def test_saves_of_a_run_that_drops(self):
        run, folder, drops = sandpile.Drive(FULL, seed=9), new_folder(self), []
        with dropping(run, blocks=4_000, of=500) as dropped:
            while not dropped.done() and len({*drops}) < 20:  # on a busy machine a save takes long
                run.save(folder / "run")  # of which `load` accepts none that contradicts itself
                drops.append(sandpile.Drive.load(folder / "run").drops)
        self.assertEqual(drops, sorted(drops))
        self.assertGreater(len({*drops} - {0, 2_000_000}), 3)

    def test_a_reader_does_not_wait_for_all_drops(self):
        run, seen = sandpile.Drive(np.full((64, 64), 3)), set()
        with dropping(run, blocks=80, of=2_000) as dropped:
            while not dropped.done():
                seen.add(run.drops)
        self.assertGreater(len(seen), 5)

    def test_a_signal_reads_a_run_that_drops(self):
        run, seen, stop = sandpile.Drive(np.full((64, 64), 3)), [], threading.Event()
        in_blocks(run, 100)
        self.addCleanup(signal.signal, signal.SIGALRM, signal.signal(signal.SIGALRM, lambda *_: seen.append(len(run.table))))

        def look():
            while not stop.is_set():
                _ = run.pile

        with ThreadPoolExecutor(1) as pool:
            pool.submit(look)
            signal.setitimer(signal.ITIMER_REAL, 0.002, 0.002)
            try:
                run.drop(60_000)
            finally:
                signal.setitimer(signal.ITIMER_REAL, 0)
                stop.set()
        self.assertGreater(len(seen), 10)
        self.assertTrue(set(seen) <= set(range(0, 60_001, 100)))

    def test_a_signal_that_comes_just_before_the_drops(self):
        run, other = sandpile.Drive(FULL, seed=1), sandpile.Drive(FULL, seed=1)

        def handler(export, *words):
            self.assertEqual((run.drops, len(run.table), pickle.loads(pickle.dumps(run)).drops), (0, 0, 0))
            return export(*words)

        with exported("drive_drop", handler):
            run.drop(7)
        other.drop(7)
        self.assertTrue(equal(run, other))

    def test_a_fork_waits_for_the_library(self):
        run, other, is_there = sandpile.Drive(FULL, seed=6), sandpile.Drive(FULL, seed=6), threading.Event()

        def slow(export, *words):
            is_there.set()
            time.sleep(0.1)
            return export(*words)

        with ThreadPoolExecutor(1) as pool, exported("drive_drop", slow):
            dropped = pool.submit(run.drop, 10)
            is_there.wait(60)
            child = os.fork()
            if not child:
                with contextlib.suppress(BaseException):
                    other.drop(10)
                    self.assertTrue(equal(run, other))
                    run.drop(5)
                    other.drop(5)
                    self.assertTrue(equal(run, other))
                    os._exit(0)
                os._exit(1)
            self.assertEqual(os.waitstatus_to_exitcode(os.waitpid(child, 0)[1]), 0)
            self.assertEqual(len(dropped.result()), 10)
        other.drop(10)
        self.assertTrue(equal(run, other))

    def test_a_fork_while_threads_make_runs(self):
        script = (
            "import os, sys, threading, time",
            "import sandpile",
            "sys.setswitchinterval(1e-6)",
            "end = time.monotonic() + 2",
            "runs = [sandpile.Drive([[0]]) for _ in range(1000)]",
            "def work():",
            "    while time.monotonic() < end:",
            "        sandpile.Drive([[0]])",
            "threads = [threading.Thread(target=work) for _ in range(3)]",
            "for thread in threads:",
            "    thread.start()",
            "while time.monotonic() < end:",
            "    child = os.fork()",
            "    if not child:",
            "        os._exit(0)",
            "    os.waitpid(child, 0)",
        )
        env = {**os.environ, "PYTHONPATH": str(TOP / "python")}
        self.assertEqual(ran(sys.executable, "-B", "-Wignore", "-c", "\n".join(script), env=env, timeout=100), "")
