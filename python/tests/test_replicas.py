"""Replicas: the same tables whatever runs them, in order, within a window, and nothing is left when they end early."""

import contextlib
import functools
import io
import itertools
import multiprocessing
import os
import pickle
import signal
import subprocess
import sys
import threading
import time
import unittest
import weakref
from concurrent.futures import Executor, Future, ProcessPoolExecutor, ThreadPoolExecutor
from pathlib import Path
from unittest import mock

import numpy as np
import sandpile
from sandpile import replicating
from tools import needs, needs_module, new_folder, ran, same

MODULE = str(Path(sandpile.__file__).parents[1])
SEED, STREAMS, DROPS = 7, (3, 0, 2**63 - 1), 9000


def own_start(shape, stream, cylinder=False):
    """The random start of a replica."""
    return sandpile.random_recurrent(shape, np.random.SeedSequence(SEED, spawn_key=(stream,)), cylinder)


def full(stream):
    """A pile of each stream except 2."""
    if stream == 2:
        raise sandpile.Fault(24)
    return np.full((5, 6), 3 + stream % 2)


# A start that is given, and the function of the stream that it stands for.
PILE, ELEMENT, RANDOM = [[3, 3], [3, 3]], sandpile.identity((4, 4), True), functools.partial(sandpile.random_recurrent, (3, 3))
STARTS = {
    "a shape": ((9, 8), functools.partial(own_start, (9, 8))),
    "a pile": (PILE, lambda _: PILE),
    "an element": (ELEMENT, lambda _: ELEMENT),
    "a function": (full, full),
    "a call of which the stream is the seed": (RANDOM, RANDOM),
}


def by_hand(start, stream, **edge):
    """The table of a replica, made with nothing but a `Drive`."""
    table = sandpile.Drive(start(stream), SEED, stream, **edge).drop(DROPS)
    return np.array([(stream, *row) for row in table.tolist()], sandpile.REPLICA)


class Later(Executor):
    """Runs what is submitted when it is told to."""

    def __init__(self):
        self.futures, self.calls = [], []

    def submit(self, *call):
        self.futures.append(Future())
        self.calls.append(call)
        return self.futures[-1]

    def run(self, at):
        call, *words = self.calls[at]
        self.futures[at].set_running_or_notify_cancel()
        self.futures[at].set_result(call(*words))


class Backwards(Later):
    """Runs what is submitted three by three, the last first."""

    def submit(self, *call):
        future = super().submit(*call)
        if len(self.futures) % 3 == 0:
            for at in (-1, -2, -3):
                self.run(at)
        return future


class AtOnce(Later):
    """Runs what is submitted at once."""

    def submit(self, *call):
        future = super().submit(*call)
        self.run(-1)
        return future


def soon(is_true):
    """Whether this becomes true within a minute."""
    end = time.monotonic() + 60
    while not is_true() and time.monotonic() < end:
        time.sleep(0.001)
    return is_true()


# A replica of so many drops takes a minute.
STOPPED = """
import contextlib, pathlib, signal, sys, threading, sandpile
from concurrent.futures import ProcessPoolExecutor, ThreadPoolExecutor
from multiprocessing import get_context
def processes(kind):
    return ProcessPoolExecutor(2, get_context(kind))
def start(stream):
    pathlib.Path(f"begun-{stream}").touch()
    return sandpile.random_recurrent((256, 256), stream)
if __name__ == "__main__":
    signal.signal(signal.SIGINT, signal.default_int_handler)  # it is ignored in what a shell starts in the background
    pool = eval(sys.argv[1])
    try:
        with pool or contextlib.nullcontext():
            for table in sandpile.replicas(start, 1, range(1000), 5 * 10**6, pool, window=8):
                pass
    except KeyboardInterrupt:
        print("stopped,", threading.active_count(), "thread")
"""
UNFINISHED = """
import numpy as np, sandpile
def start(stream):
    return sandpile.random_recurrent((256, 256), stream) if stream else np.zeros((256, 256), int)
tables = sandpile.replicas(start, 1, range(1000), 100_000, window=1000)
next(tables)  # which is ready soon, but all the others are not
1 / 0
"""


BY_MPI = """
import sandpile
from mpi4py.futures import MPIPoolExecutor
if __name__ == "__main__":
    with MPIPoolExecutor() as pool:
        tables = list(sandpile.replicas((9, 8), 7, range(4), 3000, pool))
    expected = list(sandpile.replicas((9, 8), 7, range(4), 3000))
    if all(map(lambda one, other: one.tobytes() == other.tobytes(), tables, expected)):
        print(len(tables), "tables, as in threads")
"""


class Tables(unittest.TestCase):
    def test_they_are_the_same_by_each_executor(self):
        fork, spawn = map(multiprocessing.get_context, ("fork", "spawn"))
        with ThreadPoolExecutor(2) as threads, ProcessPoolExecutor(2, fork) as forks, ProcessPoolExecutor(2, spawn) as spawns:
            for name, (start, hand) in STARTS.items():
                expected = [by_hand(hand, stream) for stream in STREAMS]
                for executor in (None, Backwards(), threads, forks, spawns):
                    with self.subTest(start=name, executor=executor):
                        tables = list(sandpile.replicas(start, SEED, STREAMS, DROPS, executor))
                        self.assertEqual(len(tables), 3)
                        self.assertTrue(all(map(same, tables, expected)))

    def test_on_a_cylinder(self):
        for start, hand in (((4, 5), functools.partial(own_start, (4, 5), cylinder=True)), (full, full)):
            table = next(sandpile.replicas(start, SEED, [3], DROPS, cylinder=True))
            self.assertTrue(same(table, by_hand(hand, 3, cylinder=True)))
            self.assertFalse(same(table, next(sandpile.replicas(start, SEED, [3], DROPS))))

    def test_seeds(self):
        fresh = [sandpile.replicas((3, 3), None, [1], 20) for _ in range(2)]
        self.assertNotEqual(fresh[0].seed, fresh[1].seed)
        for tables in (*fresh, sandpile.replicas((3, 3), np.random.SeedSequence(5), [1], 20)):
            self.assertTrue(same(next(tables), next(sandpile.replicas((3, 3), tables.seed, [1], 20))))

    def test_no_two_replicas_have_one_random_start(self):
        pairs, words = [(7, 1), (7, 2), (7 + 2**32, 0), (7 + 2**32, 1), (7, 2**32), (7, 2**32 + 1)], set()

        def start(shape, seed, *_):
            words.add(tuple(seed.generate_state(8)))
            return np.zeros(shape, int)

        with mock.patch.object(replicating, "drawn", start):
            for seed, stream in pairs:
                next(sandpile.replicas((2, 2), seed, [stream], 1))
        self.assertEqual(len(words), len(pairs))

    def test_nothing_to_do(self):
        self.assertEqual(list(sandpile.replicas((3, 3), 1, [], 5)), [])
        self.assertEqual([len(table) for table in sandpile.replicas((3, 3), 1, range(3), 0)], [0, 0, 0])

    def test_no_more_than_a_window_is_submitted_and_not_taken(self):
        for window in (1, 4, 9):
            executor = AtOnce()
            tables = sandpile.replicas((3, 3), 1, itertools.count(), 5, executor, window=window)
            self.assertEqual(executor.futures, [])
            for taken in range(20):
                self.assertEqual(next(tables)["stream"].tolist(), [taken] * 5)
                self.assertEqual(len(executor.futures), taken + window)

    def test_a_window_without_an_end(self):
        for window in (2**63 - 1, 2**63, 2**64 - 1):
            tables = sandpile.replicas((3, 3), 1, range(3), 1, window=window)
            self.assertEqual([len(table) for table in tables], [1, 1, 1])

    def test_a_window_by_default(self):
        executor = AtOnce()
        for workers in (3, 50):
            executor._max_workers = workers
            next(sandpile.replicas((3, 3), 1, itertools.count(), 5, executor))
            self.assertEqual(len(executor.futures), 2 * workers)
            executor.futures.clear()

    def test_a_table_that_was_taken_is_not_kept(self):
        for progress in (False, True):
            with contextlib.redirect_stderr(io.StringIO()):
                tables = sandpile.replicas((3, 3), 1, range(30), 1000, progress=progress)
                taken = [weakref.ref(table) for table in tables]
            self.assertTrue(soon(lambda: not any(table() is not None for table in taken)))

    def assert_shown(self, pattern, modules):
        shown = io.StringIO()
        with contextlib.redirect_stderr(shown), mock.patch.dict(sys.modules, modules):
            tables = list(sandpile.replicas((9, 8), SEED, STREAMS, DROPS, progress=True))
        self.assertRegex(shown.getvalue(), pattern)
        self.assertTrue(all(map(same, tables, sandpile.replicas((9, 8), SEED, STREAMS, DROPS))))

    def test_progress(self):
        self.assert_shown(r"\r27,000 of 27,000 drops\n$", {"tqdm": None, "tqdm.auto": None})

    @needs_module("tqdm")
    def test_progress_by_tqdm(self):
        self.assert_shown(r"27\.0k", {})


def measured(run):
    """What two users want of a replica: of its drops, and of those that follow."""
    sizes = np.bincount(run.table["size"], minlength=3)[:3]
    blocks = [table["size"].sum() for table in run.blocks(100, 30)]
    return run.stream, run.drops, sizes.tolist(), blocks, run.pile.tolist()


def by_hand_measured(start, stream, **edge):
    run = sandpile.Drive(start(stream), SEED, stream, **edge)
    run.drop(DROPS)
    return measured(run)


def itself(run):
    return run


def fails_at_2(run):
    if run.stream == 2:
        raise KeyError("no such measure")
    return run.drops


class Each(unittest.TestCase):
    def test_its_results_are_the_same_by_each_executor(self):
        fork, spawn = map(multiprocessing.get_context, ("fork", "spawn"))
        with ThreadPoolExecutor(2) as threads, ProcessPoolExecutor(2, fork) as forks, ProcessPoolExecutor(2, spawn) as spawns:
            for name in ("a shape", "a function"):
                start, hand = STARTS[name]
                expected = [by_hand_measured(hand, stream) for stream in STREAMS]
                for executor in (None, Backwards(), threads, forks, spawns):
                    with self.subTest(start=name, executor=executor):
                        results = list(sandpile.replicas(start, SEED, STREAMS, DROPS, executor, each=measured))
                        self.assertEqual(results, expected)

    def test_it_may_return_the_run(self):
        fork = multiprocessing.get_context("fork")
        with ProcessPoolExecutor(2, fork) as forks:
            for executor in (None, forks):
                tables = sandpile.replicas((9, 8), SEED, STREAMS, DROPS)
                runs = list(sandpile.replicas((9, 8), SEED, STREAMS, DROPS, executor, each=itself))
                for run, table, stream in zip(runs, tables, STREAMS):
                    self.assertEqual((run.stream, run.drops), (stream, DROPS))
                    self.assertTrue(same(run.table["size"], table["size"]))
                    expected = sandpile.Drive(own_start((9, 8), stream), SEED, stream)
                    expected.drop(DROPS)
                    self.assertTrue(same(run.drop(9), expected.drop(9)))

    def test_no_drops_before_it(self):
        self.assertEqual(list(sandpile.replicas((9, 8), SEED, range(3), 0, each=lambda run: len(run.table))), [0, 0, 0])

    def test_an_error_names_the_stream(self):
        fork = multiprocessing.get_context("fork")
        with ProcessPoolExecutor(1, fork) as processes:
            for executor in (None, processes):
                results = sandpile.replicas((3, 3), 1, [0, 1, 2, 3], 5, executor, each=fails_at_2)
                self.assertEqual([next(results), next(results)], [5, 5])
                said = "^the replica of stream 2 failed: KeyError: 'no such measure'$"
                with self.assertRaisesRegex(RuntimeError, said) as caught:
                    next(results)
                self.assertIsInstance(caught.exception.__cause__, KeyError)
                self.assertRaises(StopIteration, next, results)
            for cannot in (lambda run: 5, threading.local):  # to be pickled: the function, and its result
                with self.assertRaisesRegex(RuntimeError, "^the replica of stream 0 failed: "):
                    next(sandpile.replicas((3, 3), 1, [0], 5, processes, each=cannot))

    def test_what_is_no_function(self):
        for each in (5, "size", []):
            with self.assertRaisesRegex(TypeError, "^each must be a function of a Drive, not"):
                sandpile.replicas((3, 3), 1, [0], 5, each=each)

    def test_progress_counts_replicas(self):
        shown = io.StringIO()
        with contextlib.redirect_stderr(shown), mock.patch.dict(sys.modules, {"tqdm": None, "tqdm.auto": None}):
            list(sandpile.replicas((9, 8), SEED, STREAMS, 0, progress=True, each=measured))
        self.assertRegex(shown.getvalue(), r"\r3 of 3 replicas\n$")

    def test_it_ends_with_the_iterator(self):
        def endless(run):
            begun.append(run)
            for _ in run.blocks(10**9 if run.stream else 1, 1):
                if rescue.is_set():
                    break
            return run.stream

        begun, before, rescue = [], set(threading.enumerate()), threading.Event()
        self.addCleanup(rescue.set)
        results = sandpile.replicas([[0, 0], [0, 0]], 1, itertools.count(), 5, each=endless)
        self.assertEqual(next(results), 0)
        self.assertTrue(soon(lambda: len(begun) > 1))
        closing = threading.Thread(target=results.close)
        closing.start()
        closing.join(60)
        self.assertFalse(closing.is_alive())
        self.assertEqual(set(threading.enumerate()), before)

    def test_tables_do_not_travel(self):
        # A replica that was measured is all that is kept of it.
        runs = []

        def measure(run):
            runs.append(weakref.ref(run.table))
            return len(run.table)

        results = sandpile.replicas((3, 3), 1, range(8), 1000, each=measure)
        self.assertEqual(list(results), [1000] * 8)
        self.assertTrue(soon(lambda: not any(run() is not None for run in runs)))


class Processes(unittest.TestCase):
    @needs("mpiexec")
    @needs_module("mpi4py")
    def test_by_mpi(self):
        as_root = [f"{name}_ALLOW_RUN_AS_ROOT{end}" for name in ("OMPI", "PRTE") for end in ("", "_CONFIRM")]
        oversubscribed = {"OMPI_MCA_rmaps_base_oversubscribe": "1", "PRTE_MCA_rmaps_default_mapping_policy": ":oversubscribe"}
        here = {**dict.fromkeys(as_root, "1"), **oversubscribed, "OMPI_MCA_btl_tcp_if_include": "lo"}
        env = {**os.environ, **here, "PYTHONPATH": MODULE}
        path = new_folder(self) / "mpi.py"
        path.write_text(BY_MPI)
        for processes in (1, 3):  # with one, the pool starts another
            # Open MPI tells standard error of the machine's network, by its version.
            words = ["mpiexec", "-n", str(processes), sys.executable, "-m", "mpi4py.futures", path]
            ended = subprocess.run(words, env=env, timeout=300, capture_output=True, text=True)
            self.assertEqual((ended.stdout, ended.returncode), ("4 tables, as in threads\n", 0), ended.stderr)


class Wrong(unittest.TestCase):
    def test_what_is_refused_at_once(self):
        for words, more in (
            (([[-1]], 1, [1], 1), {}),
            (((3, 8193), 1, [1], 1), {}),
            (((3, 3), -1, [1], 1), {}),
            (((3, 3), 1, [1], -1), {}),
            (((3, 3), 1, [1], 1), {"window": 0}),
            (((3, 3), 1, [1], 1), {"window": -1}),
        ):
            with self.subTest(words=words, **more), self.assertRaises(ValueError):
                sandpile.replicas(*words, **more)
        for words, more in (
            (((3, 3, 3), 1, [1], 1), {}),
            (((3, 2.5), 1, [1], 1), {}),
            (([[0.5]], 1, [1], 1), {}),
            ((3, 1, [1], 1), {}),
            (((3, 3), 1.5, [1], 1), {}),
            (((3, 3), 1, 1, 1), {}),
            (((3, 3), 1, [1], 1.5), {}),
            (((3, 3), 1, [1], 1), {"executor": "threads"}),
            (((3, 3), 1, [1], 1), {"executor": multiprocessing}),
            (((3, 3), 1, [1], 1), {"window": 1.5}),
            (((3, 3), 1, itertools.count(), 1), {"progress": True}),
        ):
            with self.subTest(words=words, **more), self.assertRaises(TypeError):
                sandpile.replicas(*words, **more)

    def test_a_number_is_no_start(self):
        for start in (64, np.int64(64)):
            for kind in (ValueError, TypeError):
                with self.assertRaisesRegex(kind, r"start must be a shape, .*, not 64; a shape is \(64, 64\)"):
                    sandpile.replicas(start, 7, range(2), 9)

    def test_a_number_is_no_streams(self):
        said = r"^streams must be several integers, such as range\(4\), not 4$"
        self.assertRaisesRegex(TypeError, said, sandpile.replicas, (3, 3), 1, 4, 1)

    def test_a_stream_that_is_none(self):
        for stream, error in ((-1, sandpile.Fault), (2**63, sandpile.Fault), ("0", TypeError)):
            tables = sandpile.replicas((3, 3), 1, iter([0, stream]), 1, window=1)
            self.assertEqual(len(next(tables)), 1)
            self.assertRaisesRegex(error, "stream", next, tables)

    def test_an_error_names_the_stream(self):
        fork = multiprocessing.get_context("fork")
        with ProcessPoolExecutor(1, fork) as processes, ThreadPoolExecutor(1) as threads:
            for executor in (None, processes, threads):
                tables = sandpile.replicas(full, 1, [0, 1, 2, 3], 5, executor)
                self.assertEqual([next(tables)["stream"][0] for _ in range(2)], [0, 1])
                with self.assertRaisesRegex(RuntimeError, "^the replica of stream 2 failed: Fault: fault 24 ") as caught:
                    next(tables)
                self.assertEqual(caught.exception.__cause__.number, 24)
                self.assertRaises(StopIteration, next, tables)
            with self.assertRaisesRegex(RuntimeError, "^the replica of stream 0 failed: ") as caught:
                next(sandpile.replicas(lambda _: [[0]], 1, [0], 5, processes))
            self.assertIsInstance(caught.exception.__cause__, (AttributeError, pickle.PicklingError))  # by the version of Python
            self.assertEqual(len(next(sandpile.replicas(full, 1, [0], 5, processes))), 5)

    def test_too_many_drops_for_memory(self):
        for drops in (2**57, 2**60):
            with self.assertRaisesRegex(RuntimeError, "stream 0 failed: .*not enough memory for a table of") as caught:
                next(sandpile.replicas((3, 3), 1, [0], drops))
            self.assertEqual(caught.exception.__cause__.number, 4)


class Ends(unittest.TestCase):
    def assertCancelled(self, futures):
        self.assertTrue(all(future.cancelled() for future in futures))

    def test_what_has_not_begun_is_cancelled(self):
        for end in (lambda tables: tables.close(), lambda _: None):  # the second lets the iterator go
            executor = Later()
            tables = sandpile.replicas((3, 3), 1, itertools.count(), 5, executor, window=4)
            with ThreadPoolExecutor(1) as pool:
                first = pool.submit(next, tables)
                self.assertTrue(soon(lambda: len(executor.futures) == 4))
                executor.run(0)
                self.assertEqual(len(first.result()), 5)
            end(tables)
            del tables
            self.assertCancelled(executor.futures[1:])
            self.assertEqual(len(executor.futures), 4)

    def test_a_wait_that_is_stopped_cancels_all(self):
        executor = Later()
        with mock.patch.object(Future, "result", side_effect=KeyboardInterrupt):
            self.assertRaises(KeyboardInterrupt, next, sandpile.replicas((3, 3), 1, range(9), 5, executor, window=4))
        self.assertCancelled(executor.futures)
        self.assertEqual(len(executor.futures), 4)

    def test_threads_end_at_their_next_block(self):
        before, rescue = set(threading.enumerate()), threading.Event()
        self.addCleanup(rescue.set)

        class Endless(sandpile.Drive):
            def blocks(self, n, size):
                if self.stream == 0:
                    yield from super().blocks(n, size)
                while self.stream and not rescue.wait(0.01):
                    yield self.table

        with mock.patch.object(replicating, "Drive", Endless):
            tables = sandpile.replicas((3, 3), 1, itertools.count(), 5)
            self.assertEqual(len(next(tables)), 5)
            self.assertGreater(len(threading.enumerate()), len(before))
            closing = threading.Thread(target=tables.close)
            closing.start()
            closing.join(60)
            self.assertFalse(closing.is_alive())
        self.assertEqual(set(threading.enumerate()), before)
        self.assertRaises(StopIteration, next, tables)

    def test_threads_end_at_their_next_call(self):
        begun, made, go_on = [], [], threading.Event()
        self.addCleanup(go_on.set)
        real = replicating.drawn

        def slow(shape, seed, *words):
            if seed.spawn_key != (0,):
                begun.append(1)
                go_on.wait(60)
            return real(shape, seed, *words)

        class Counted(sandpile.Drive):
            def __init__(self, *words):
                made.append(1)
                super().__init__(*words)

        patches = mock.patch.object(replicating, "drawn", slow), mock.patch.object(replicating, "Drive", Counted)
        with patches[0], patches[1], ThreadPoolExecutor(2) as pool:
            for executor in (None, pool):
                begun.clear(), made.clear()
                go_on.clear()
                tables = sandpile.replicas((3, 3), 1, itertools.count(), 5, executor)
                self.assertEqual(len(next(tables)), 5)
                self.assertTrue(soon(lambda: len(begun) > 1))
                threading.Timer(0.1, go_on.set).start()
                tables.close()
                self.assertEqual([future.result() for future in [pool.submit(int) for _ in range(9)]], [0] * 9)
                self.assertEqual(len(made), 1)  # no other replica has made its second call

    def stopped(self, script, *words, is_begun):
        """What a program writes after Ctrl-C of a terminal, which each of its processes gets."""
        child = subprocess.Popen(
            [sys.executable, script, *words], stdout=subprocess.PIPE, stderr=subprocess.PIPE, text=True,
            env={"PYTHONPATH": MODULE}, start_new_session=True, cwd=script.parent,
        )
        try:
            self.assertTrue(soon(lambda: child.poll() is not None or is_begun()))
            time.sleep(0.3)
            os.killpg(child.pid, signal.SIGINT)
            text, errors = child.communicate(timeout=20)
            self.assertEqual((text, child.returncode), ("stopped, 1 thread\n", 0), errors)
        finally:
            with contextlib.suppress(ProcessLookupError):
                os.killpg(child.pid, signal.SIGKILL)
            child.communicate()

    def test_ctrl_c(self):
        for pool in ("None", "ThreadPoolExecutor(2)", "processes('fork')", "processes('spawn')"):
            with self.subTest(pool):
                script = new_folder(self) / "stopped.py"
                script.write_text(STOPPED)
                self.stopped(script, pool, is_begun=lambda: len(list(script.parent.glob("begun-*"))) > 1)

    def test_a_program_ends_while_there_is_an_iterator(self):
        ended = subprocess.run(
            [sys.executable, "-c", UNFINISHED], stdout=subprocess.PIPE, stderr=subprocess.PIPE, text=True,
            env={"PYTHONPATH": MODULE}, timeout=60,
        )
        self.assertEqual(ended.returncode, 1, ended.stderr)
        self.assertTrue(ended.stderr.endswith("\nZeroDivisionError: division by zero\n"), ended.stderr)
