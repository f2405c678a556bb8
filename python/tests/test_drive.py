"""Runs of drops: in one call or in many, stopped, saved, and in parallel threads."""

import contextlib
import copy
import io
import os
import pickle
import random
import signal
import subprocess
import sys
import threading
import time
import types
import unittest
from concurrent.futures import ThreadPoolExecutor
from pathlib import Path
from unittest import mock

import numpy as np
import sandpile
from tools import in_blocks, needs_module, new_folder, ran, same

FULL = np.full((32, 32), 3)
MODULE = str(Path(sandpile.__file__).parents[1])


def all_of(run):
    return [run.pile, run.odometer, np.array([run.lost, run.topplings, run.drops])]


class Drops(unittest.TestCase):
    def assertRunsEqual(self, one, other):
        self.assertTrue(all(map(same, all_of(one), all_of(other))))

    def test_one_call_or_many(self):
        whole, parts = sandpile.Drive(FULL, seed=5, stream=9), sandpile.Drive(FULL, seed=5, stream=9)
        table = whole.drop(30_000)
        pieces = [parts.drop(n) for n in (1, 0, 8191, 8192, 8193, 5423)]
        self.assertTrue(same(table, np.concatenate(pieces)))
        self.assertTrue(same(table["number"], np.arange(30_000)))
        self.assertRunsEqual(whole, parts)

    def test_the_table_adds_up(self):
        run = sandpile.Drive(FULL + 2, seed=1)
        settled = sandpile.settle(FULL + 2)
        table = run.drop(20_000)
        self.assertEqual(run.topplings, settled.topplings + int(table["size"].sum()))
        self.assertEqual(run.lost, settled.lost + int(table["lost"].sum()))
        self.assertEqual(int(run.pile.sum()) + run.lost, int((FULL + 2).sum()) + 20_000)
        self.assertTrue((table["area"] <= table["size"]).all() and (table["reach"] < 64).all())

    def test_the_reach_by_hand(self):
        # Both ends of a row have 3 grains, so a grain at one topples the other too if they are neighbours.
        for cylinder in (False, True):
            start = np.zeros((1, 10), int)
            start[0, [0, -1]] = 3
            run = sandpile.Drive(start, cylinder=cylinder)
            self.assertEqual([run.drop_at(site)["reach"][0] for site in (4, 4, 4, 4)], [0] * 4)  # only the last one topples
            row, toppled = run.avalanche(0)
            self.assertEqual((row["reach"], toppled.ravel().nonzero()[0].tolist()), (1, [0, 9]) if cylinder else (0, [0]))

    def test_the_shape(self):
        for shape in ((1, 1), (3, 5)):
            run = sandpile.Drive(np.zeros(shape, int))
            self.assertEqual((run.shape, {*map(type, run.shape)}), (shape, {int}))

    def test_given_sites_use_no_random_ones_up(self):
        one, other = sandpile.Drive(FULL, seed=3), sandpile.Drive(FULL, seed=3)
        first = one.drop(100)
        one.drop_at([0, 1, 2])
        second = one.drop(100)
        sites = other.drop(200)["site"]
        self.assertEqual(first["site"].tolist() + second["site"].tolist(), sites.tolist())
        self.assertEqual((second["number"][0], one.drops), (103, 203))

    def test_drawn_and_listed_are_the_same(self):
        for cylinder in (False, True):
            one, other = (sandpile.Drive(FULL, seed=11, cylinder=cylinder) for _ in range(2))
            table = one.drop(20_000)
            self.assertTrue(same(other.drop_at(table["site"]), table))
            self.assertRunsEqual(one, other)

    def test_saved_and_loaded(self):
        path = new_folder(self) / "run"
        for cylinder in (False, True):
            whole = sandpile.Drive(FULL + 5, seed=2**63, stream=7, cylinder=cylinder)
            part = sandpile.Drive(FULL + 5, seed=2**63, stream=7, cylinder=cylinder)
            whole.drop(1000)
            whole.drop_at([5, 6])
            whole_table = whole.drop(20_000)
            part.drop(1000)
            part.drop_at([5, 6])
            first = part.drop(9_000)
            part.save(path)
            again = sandpile.Drive.load(path.with_suffix(".npz"))
            self.assertRunsEqual(part, again)
            self.assertTrue(same(whole_table, np.concatenate([first, again.drop(11_000)])))
            self.assertRunsEqual(whole, again)
            self.assertEqual((again.seed, again.stream, again.cylinder), (2**63, 7, cylinder))
        self.assertEqual([file.name for file in path.parent.iterdir()], ["run.npz"])

    def test_a_save_that_fails_leaves_the_file_as_it_was(self):
        path = new_folder(self) / "run.npz"
        run = sandpile.Drive(FULL)
        run.save(path)
        before = path.read_bytes()
        run.drop(10)
        with mock.patch("os.fsync", side_effect=OSError("disk full")), self.assertRaises(OSError):
            run.save(path)
        self.assertEqual(path.read_bytes(), before)
        self.assertEqual(list(path.parent.iterdir()), [path])

    def test_what_is_no_saved_run(self):
        path = new_folder(self) / "run.npz"
        self.assertRaises(FileNotFoundError, sandpile.Drive.load, path)
        for text in (b"", b"no run"):
            path.write_bytes(text)
            self.assertRaises(ValueError, sandpile.Drive.load, path)
        np.savez(path, pile=FULL)
        self.assertRaises(ValueError, sandpile.Drive.load, path)

    def test_the_most_grains(self):
        most = 1_099_511_627_775
        run = sandpile.Drive([[most - 3]])
        run.drop(3)
        with self.assertRaises(sandpile.Fault) as caught:
            run.drop(1)
        self.assertEqual((caught.exception.number, run.drops, run.lost), (6, 3, most - int(run.pile.sum())))

    def test_pickled(self):
        run = sandpile.Drive(FULL, seed=4)
        run.drop(500)
        again = pickle.loads(pickle.dumps(run))
        self.assertTrue(same(run.drop(500), again.drop(500)))

    def assert_shown(self, pattern, modules):
        shown, run = io.StringIO(), sandpile.Drive(FULL)
        with contextlib.redirect_stderr(shown), mock.patch.dict(sys.modules, modules):
            run.drop(20_000, progress=True)
        self.assertRegex(shown.getvalue(), pattern)

    def test_progress(self):
        self.assert_shown(r"20,000 of 20,000 drops\n$", {"tqdm": None, "tqdm.auto": None})

    @needs_module("tqdm")
    def test_progress_by_tqdm(self):
        self.assert_shown(r"20\.0k", {})


class Broken:
    """A tqdm of which one step fails, and which then keeps its lock."""

    n = 0

    def __init__(self, step, error=AttributeError):
        self.step, self.error, self.lock = step, error, threading.RLock()

    def __call__(self, **_):
        self.fail("start")
        return self

    def get_lock(self):
        return self.lock

    def update(self, more):
        self.fail("update" if self.n else "first update")
        self.n += more

    def close(self):
        self.fail("close")

    def fail(self, step):
        if step == self.step:
            self.lock.acquire()
            raise self.error(f"{step} fails")

    def is_free(self):
        """Whether another thread can take the lock."""
        with ThreadPoolExecutor(1) as pool:
            return pool.submit(self.lock.acquire, blocking=False).result()


class Shut(io.StringIO):
    """A standard error that fails."""

    def write(self, _):
        raise BrokenPipeError


class Progress(unittest.TestCase):
    def shown(self, modules, error):
        """What is written on this standard error while grains drop, all of them."""
        run, written = sandpile.Drive(FULL), io.StringIO()
        with mock.patch.dict(sys.modules, modules), mock.patch("sys.stderr", error), mock.patch("sys.stdout", written):
            self.assertEqual(len(run.drop(20_000, progress=True)), 20_000)
        self.assertEqual((run.drops, written.getvalue()), (20_000, ""))
        return error.getvalue() if isinstance(error, io.StringIO) and not error.closed else None

    def test_a_tqdm_that_fails(self):
        for step in ("start", "first update", "update"):
            tqdm = Broken(step)
            with self.subTest(step=step):
                shown = self.shown({"tqdm.auto": types.SimpleNamespace(tqdm=tqdm)}, io.StringIO())
                self.assertRegex(shown, r"\r20,000 of 20,000 drops\n$")
                self.assertTrue(tqdm.is_free())
        self.assertEqual(self.shown({"tqdm.auto": types.SimpleNamespace(tqdm=Broken("close"))}, io.StringIO()), "\n")
        self.assertRegex(self.shown({"tqdm.auto": types.SimpleNamespace()}, io.StringIO()), " drops\n$")

    def test_a_tqdm_that_is_stopped(self):
        run, tqdm = in_blocks(sandpile.Drive(FULL), 8192), Broken("update", KeyboardInterrupt)
        with mock.patch.dict(sys.modules, {"tqdm.auto": types.SimpleNamespace(tqdm=tqdm)}):
            self.assertRaises(KeyboardInterrupt, run.drop, 20_000, progress=True)
        self.assertEqual((len(run.table), tqdm.is_free()), (2 * 8192, True))

    def test_widgets_that_a_notebook_cannot_be_executed_with(self):
        for version, is_widget in (((6, 0, 0, "final", 0), False), ((7, 0, 0), True), ((8, 1, 5), True), (None, True)):
            widget, text = Broken(None), Broken(None)
            modules = {"tqdm.auto": types.SimpleNamespace(tqdm=widget), "tqdm.std": types.SimpleNamespace(tqdm=text)}
            modules["ipywidgets"] = version and types.SimpleNamespace(version_info=version)
            with self.subTest(version=version):
                self.assertEqual(self.shown(modules, io.StringIO()), "")
                self.assertEqual((widget.n, text.n), (20_000, 0) if is_widget else (0, 20_000))

    def test_a_standard_error_that_fails(self):
        shut = io.StringIO()
        shut.close()
        for modules in ({}, {"tqdm.auto": None}):
            for error in (shut, Shut(), None):
                self.shown(modules, error)

    def test_a_standard_error_that_is_closed(self):
        script = "import sandpile; print(len(sandpile.Drive([[3]]).drop(9, progress=True)))"
        words = ["sh", "-c", f"exec '{sys.executable}' -c '{script}' 2>&-"]
        self.assertEqual(ran(*words, env={"PYTHONPATH": MODULE}), "9\n")

    @needs_module("tqdm")
    def test_the_program_ends_after_its_standard_error_failed(self):
        script = """
import time, sandpile, tqdm
tqdm.tqdm.monitor_interval = 0.01  # its thread takes the lock at each, and the program waits for the thread
print(len(sandpile.Drive([[3]]).drop(9, progress=True)), flush=True)
time.sleep(0.2)
"""
        read, write = os.pipe()
        os.close(read)
        self.addCleanup(os.close, write)
        text = subprocess.run(
            [sys.executable, "-c", script], stdout=subprocess.PIPE, stderr=write, timeout=60, env={"PYTHONPATH": MODULE}
        ).stdout
        self.assertEqual(text, b"9\n")


class Held:
    """Holds the first block of drops until it is let go."""

    def __init__(self):
        self.is_there, self.go = threading.Event(), threading.Event()

    def __call__(self):
        if not self.is_there.is_set():
            self.is_there.set()
            self.go.wait(60)


@contextlib.contextmanager
def dropping(run, n):
    """Meanwhile another thread drops `n` grains on a run, and its first block is not yet made. Yields its table to be."""
    held = run._go_on = Held()
    with ThreadPoolExecutor(1) as pool:
        table = pool.submit(run.drop, n)
        held.is_there.wait(60)
        try:
            yield table
        finally:
            held.go.set()


class Threads(unittest.TestCase):
    def test_one_run_in_two_threads(self):
        run, path = sandpile.Drive(FULL, seed=6), new_folder(self) / "run"
        with dropping(run, 10_000) as table:
            for call, word in ((run.drop, 5), (run.drop_at, [0, 1]), (run.drop, 0)):
                with self.assertRaisesRegex(RuntimeError, "another call is dropping grains on this Drive"):
                    call(word)
            run.save(path)
            self.assertEqual([run.drops, sandpile.Drive.load(path).drops, pickle.loads(pickle.dumps(run)).drops], [0] * 3)
        other = sandpile.Drive(FULL, seed=6)
        self.assertTrue(same(table.result(), other.drop(10_000)))
        self.assertTrue(same(run.drop(10), other.drop(10)))

    def test_a_copy_and_a_child_are_runs_of_their_own(self):
        run = sandpile.Drive(FULL, seed=6)
        with dropping(run, 10):
            again = pickle.loads(pickle.dumps(run))
            self.assertEqual([len(again.drop(5)), len(copy.copy(run).drop(5))], [5, 5])
            child = os.fork()
            if not child:
                with contextlib.suppress(BaseException):
                    run.drop(5)
                    os._exit(0)
                os._exit(1)
            self.assertEqual(os.waitstatus_to_exitcode(os.waitpid(child, 0)[1]), 0)
        self.assertEqual(run.drops, 10)

    def test_replicas_in_threads_are_those_one_after_another(self):
        def replica(stream):
            run = sandpile.Drive(np.full((64, 64), 3), seed=1, stream=stream)
            return [run.drop(20_000), *all_of(run)]

        with ThreadPoolExecutor(8) as pool:
            beside = list(pool.map(replica, range(8)))
        after = list(map(replica, range(8)))
        self.assertTrue(all(same(a, b) for one, other in zip(beside, after) for a, b in zip(one, other)))
        self.assertEqual(len({one[0].tobytes() for one in beside}), 8)

    def test_all_calls_in_threads(self):
        piles = [np.random.default_rng(at).integers(0, 50, (17, 13)) for at in range(200)]

        def calls(pile):
            a = sandpile.recurrent(pile)
            return [sandpile.settle(pile).odometer, a.pile, (-a + 3 * a).pile, sandpile.burn(a).order]

        with ThreadPoolExecutor(8) as pool:
            beside = list(pool.map(calls, piles))
        self.assertTrue(all(same(a, b) for one, pile in zip(beside, piles) for a, b in zip(one, calls(pile))))


STOPPED = """
import signal, threading, time, numpy as np, sandpile
signal.signal(signal.SIGINT, signal.default_int_handler)  # it is ignored in what a shell starts in the background
run = sandpile.Drive(np.full((64, 64), 3), seed=8)
def tell(before):  # only then does Ctrl-C come
    while run.drops == before:
        time.sleep(0.01)
    print("drops", flush=True)
for _ in range(4):
    before = run.drops
    try:
        threading.Thread(target=tell, args=(before,)).start()
        run.drop(10**7)
    except KeyboardInterrupt:
        pass
    assert 0 < len(run.table) < 10**7 and run.drops == before + len(run.table)
    assert run.table["number"].tolist() == list(range(before, run.drops))
assert run.drops > 0
other = sandpile.Drive(np.full((64, 64), 3), seed=8)
table = other.drop(run.drops)
assert (table[before:] == run.table).all()
assert (run.pile == other.pile).all() and (run.odometer == other.odometer).all() and run.lost == other.lost
assert (run.drop(100) == other.drop(100)).all()
print("kept", run.drops)
"""


class Interrupting:
    """An argument in whose check Ctrl-C comes."""

    def __index__(self):
        raise KeyboardInterrupt

    def __array__(self, *_, **__):
        raise KeyboardInterrupt


class Stopped(unittest.TestCase):
    def test_a_stopped_call_has_no_rows_of_the_call_before(self):
        run = sandpile.Drive(FULL, seed=6)
        for call in (run.drop, run.drop_at):
            run.drop(5)
            self.assertRaises(KeyboardInterrupt, call, Interrupting())
            self.assertEqual((len(run.table), run.table.dtype), (0, sandpile.AVALANCHE))
        run.drop(5)
        run._go_on = mock.Mock(side_effect=[KeyboardInterrupt, None])
        self.assertRaises(KeyboardInterrupt, run.drop, 5)
        self.assertEqual((len(run.table), run.drops), (0, 15))
        self.assertEqual(run.drop(5)["number"].tolist(), [15, 16, 17, 18, 19])

    def test_a_refused_call_keeps_the_table(self):
        run = sandpile.Drive(FULL)
        table = run.drop(5)
        for call, word in ((run.drop, -1), (run.drop, "5"), (run.drop, 2**40), (run.drop_at, [1024]), (run.drop_at, [0.5])):
            self.assertRaises((TypeError, sandpile.Fault), call, word)
            self.assertIs(run.table, table)

    def test_ctrl_c_keeps_what_was_done(self):
        child = subprocess.Popen(
            [sys.executable, "-c", STOPPED], stdout=subprocess.PIPE, stderr=subprocess.PIPE, text=True,
            env={"PYTHONPATH": MODULE},
        )
        chance = random.Random(3)
        for _ in range(4):
            if child.stdout.readline() != "drops\n":
                self.fail(child.communicate(timeout=120)[1])
            time.sleep(chance.uniform(0, 0.5))
            child.send_signal(signal.SIGINT)
        text, errors = child.communicate(timeout=120)
        self.assertEqual(child.returncode, 0, errors)
        self.assertRegex(text, r"^kept \d+\n$")
