"""Calls that may last are made by another process, which ends with them, whatever ends them: Ctrl-C, a signal, a lack of memory."""

import _thread
import contextlib
import fcntl
import io
import os
import pickle
import pty
import re
import signal
import subprocess
import sys
import termios
import threading
import time
import unittest
from concurrent.futures import ThreadPoolExecutor
from pathlib import Path
from unittest import mock

import numpy as np
import sandpile
from sandpile import _interruptible, _memory
from tools import fault_or, needs_module, new_folder, same

MODULE = str(Path(sandpile.__file__).parents[1])
GRIDS = ((5, 7, False), (5, 7, True), (1, 9, False), (9, 3, True))


def apart():
    """Has each call made by another process, however small its grid is."""
    return mock.patch.multiple(_interruptible, _MANY_TO_VISIT=0, _MANY_TO_SETTLE=0)


def here():
    """Has each call made in this process."""
    return mock.patch.object(_interruptible, "_SETTLING", set()), mock.patch.object(_interruptible, "_VISITING", set())


@contextlib.contextmanager
def worker(test, *lines):
    """Has a script stand in for the worker. It has the words of one, and makes no call."""
    script = new_folder(test) / "worker.py"
    begin = ("import os, signal, sys, time", "os.read(0, 1)", "signal.pthread_sigmask(signal.SIG_SETMASK, [])")
    script.write_text("\n".join([*begin, *lines, ""]))
    with apart(), mock.patch.object(_interruptible, "_WORKER", str(script)):
        yield


def pile_of(height, width, least=0, most=7, seed=1):
    return np.random.default_rng(seed).integers(least, most + 1, (height, width))


def results(height, width, cylinder):
    """What all calls return that another process may make."""
    pile, stack = pile_of(height, width), np.stack([pile_of(height, width, seed=seed) for seed in range(3)])
    debt = pile_of(height, width, -5, 5)
    settled, settled_stack = sandpile.settle(pile, cylinder), sandpile.settle(stack, cylinder)
    yield from (settled.pile, settled.odometer, settled.lost, settled.topplings)
    yield from (settled_stack.pile, settled_stack.odometer, settled_stack.lost, settled_stack.topplings)
    a, (b, firing) = sandpile.recurrent(pile, cylinder), sandpile.recurrent(debt, cylinder, firing=True)
    yield from (a.pile, b.pile, firing, sandpile.recurrent(debt, cylinder).pile, sandpile.recurrent(stack, cylinder).pile)
    yield from (sandpile.identity((height, width), cylinder).pile, sandpile.superstable(stack - 3, cylinder))
    yield from ((a + b).pile, (-a).pile, (10**40 * a).pile, a.act(3).pile, (a + sandpile.recurrent(stack, cylinder)).pile)
    yield from (sandpile.burn(pile // 2, cylinder).forbidden, sandpile.burn(b).order, sandpile.burn(stack // 2, cylinder).time)
    yield from (b.tree().directions, b.tree().depth, sandpile.Recurrent.from_tree(b.tree()).pile)
    yield from (sandpile.random_recurrent((height, width), 5, cylinder, count=2).pile,)


def of_run(run):
    """What a run shows, after some drops."""
    table = run.drop(40)
    at = [run.height(site) for site in range(5)], [run._handle.site(site)[1] for site in range(5)]
    return table.tolist(), run.pile.tolist(), run.odometer.tolist(), run.lost, run.topplings, run.drops, at


def has_ended(pid):
    with contextlib.suppress(OSError):
        return re.search(r"^State:\s+(\w)", Path(f"/proc/{pid}/status").read_text(), re.M)[1] == "Z"
    return True


class Apart(unittest.TestCase):
    def test_the_results_are_the_same(self):
        for grid in GRIDS:
            with self.subTest(grid=grid):
                with contextlib.ExitStack() as stack:
                    for patch in here():
                        stack.enter_context(patch)
                    expected = list(results(*grid))
                with apart(), mock.patch.object(_interruptible, "number_of", wraps=_interruptible.number_of) as number_of:
                    found = list(results(*grid))
                names = {call.args[1] for call in number_of.call_args_list}
                self.assertEqual(names, _interruptible._SETTLING | _interruptible._VISITING)
                for one, other in zip(found, expected, strict=True) if sys.version_info >= (3, 10) else zip(found, expected):
                    self.assertTrue(same(np.asarray(one), np.asarray(other)))

    def test_the_faults_are_the_same(self):
        most = sandpile.grain_limit((2, 2))
        calls = (
            lambda: sandpile.settle([[most, 1]]), lambda: sandpile.settle([[5, 9]], cylinder=True),
            lambda: sandpile.settle([[[most, 1]]]), lambda: sandpile.Drive([[most, 1]]),
            lambda: sandpile.recurrent([[most, -1]]), lambda: sandpile.burn([[4]]),
            lambda: sandpile.Recurrent.from_tree([[2, 1]]), lambda: sandpile.identity((2, 2), cylinder=True),
        )
        for call in calls:
            with self.subTest(call=call):
                expected = fault_or(call)
                with apart():
                    self.assertEqual(fault_or(call), expected)
                    with self.assertRaises(sandpile.Fault) as caught:
                        call()
                with self.assertRaises(sandpile.Fault) as here:
                    call()
                self.assertEqual(str(caught.exception), str(here.exception))

    def test_a_run_whose_start_is_settled_apart(self):
        for height, width, cylinder in GRIDS:
            pile = pile_of(height, width, 0, 30)
            expected = of_run(sandpile.Drive(pile, 3, cylinder=cylinder))
            with self.subTest(grid=(height, width, cylinder)), apart():
                run = sandpile.Drive(pile, 3, cylinder=cylinder)
                self.assertIsNotNone(run._handle._first)
                others = [run, pickle.loads(pickle.dumps(run))]
                run.save(file := new_folder(self) / "run")
                others.append(sandpile.Drive.load(file))
                for other in others:
                    self.assertEqual(of_run(other), expected)

    def test_a_run_is_full_at_the_same_drop(self):
        most = sandpile.grain_limit((2, 2))
        with apart():
            run = sandpile.Drive([[most - 5, 0], [0, 0]])
            run.drop(5)
            self.assertEqual(fault_or(lambda: run.drop(1)), 6)

    def test_other_threads_make_calls_here(self):
        with apart(), mock.patch.object(subprocess, "Popen", side_effect=AssertionError), ThreadPoolExecutor(1) as pool:
            self.assertEqual(pool.submit(sandpile.settle, [[0, 4, 0]]).result().topplings, 1)
            self.assertEqual(pool.submit(sandpile.Drive, [[0, 4, 0]]).result().topplings, 1)

    def test_only_long_calls_are_made_apart(self):
        long = (("settle", 513, 512, False), ("add", 1, 8192, False), ("multiple", 8192, 3, True), ("burn", 4096, 4096, True))
        short = (("settle", 512, 512, True), ("add", 8192, 8, False), ("burn", 2048, 2048, False), ("drive_new", 4096, 4096, False))
        for is_long, calls in ((True, long), (False, short)):
            for name, height, width, cylinder in calls:
                self.assertEqual(_interruptible.may_last(name, (height, width), cylinder), is_long, (name, height, width))

    def test_without_another_process(self):
        folder = new_folder(self)
        wrong = (
            mock.patch.object(sys, "executable", ""), mock.patch.object(sys, "executable", None),
            mock.patch.object(sys, "executable", "/usr/sbin/uwsgi"), mock.patch.object(sys, "executable", str(folder / "python3")),
            mock.patch.object(sys, "frozen", True, create=True),
            mock.patch.object(os, "memfd_create", side_effect=OSError(24, "too many")),
            mock.patch.object(subprocess, "Popen", side_effect=BlockingIOError(11, "no more processes")),
            mock.patch.object(os, "pwritev", side_effect=OSError(28, "no room")),
            mock.patch.object(_interruptible, "_WORKER", str(folder / "missing.py")),
        )
        for patch in wrong:
            with self.subTest(patch=patch), apart(), patch:
                self.assertEqual(sandpile.settle([[0, 4, 0]]).topplings, 1)
        with worker(self, "sys.exit(3)"):
            self.assertEqual(sandpile.settle([[0, 4, 0]]).topplings, 1)
        with apart(), mock.patch.object(os, "pwritev", side_effect=TimeoutError):  # of the handler of a signal
            self.assertRaises(TimeoutError, sandpile.settle, [[0, 4, 0]])


class Ended(unittest.TestCase):
    def test_a_process_that_is_killed(self):
        pile = np.array([[0, 4, 0]])
        for number in ("SIGKILL", "SIGBUS"):
            with worker(self, f"os.kill(os.getpid(), signal.{number})"), self.assertRaises(MemoryError) as caught:
                sandpile.settle(pile)
            said = f"not enough memory for a grid of 1 by 3: the process that computes was ended by {number}"
            self.assertEqual((caught.exception.number, caught.exception.sentence), (4, said))
        with worker(self, "os.kill(os.getpid(), signal.SIGSEGV)"):
            said = "^the process that computes identity on 1 by 3 was ended by Segmentation fault$"
            self.assertRaisesRegex(RuntimeError, said, sandpile.identity, (1, 3))
        self.assertEqual(pile.tolist(), [[0, 4, 0]])

    def test_memory(self):
        with worker(self, "os.write(1, b'4')"):
            self.assertRaisesRegex(MemoryError, "^fault 4 Memory: an allocation failed$", sandpile.settle, [[0, 4, 0]])
        least = 62 * 1024**2 + 12 * 1024**2
        with mock.patch.object(_memory, "available", return_value=least + 10**6):  # too little for the arrays that both have
            said = "not enough memory for a grid of 1,024 by 1,024: 94 MB needed, 79 MB available"
            self.assertRaisesRegex(MemoryError, said, sandpile.settle, np.zeros((1024, 1024), int))

    def test_an_error_while_the_process_starts_ends_it(self):
        started = []
        popen = subprocess.Popen

        def note(*words, **how):
            started.append(popen(*words, **how))
            return started[-1]

        for stopped in ("_move", "_answer"):
            stop = mock.patch.object(_interruptible, stopped, side_effect=KeyboardInterrupt)
            with apart(), mock.patch.object(subprocess, "Popen", note), stop:
                self.assertRaises(KeyboardInterrupt, sandpile.settle, [[0, 4, 0]])
        self.assertEqual([process.returncode for process in started], [-signal.SIGKILL] * 2)


# What the scripts below begin with. The terminal's Ctrl-C goes to all processes of the group.
NOTED = """
import os, signal, subprocess, sys, threading, time, numpy as np, sandpile
signal.signal(signal.SIGINT, signal.default_int_handler)  # it is ignored in what a shell starts in the background
started, at, popen = [], [], subprocess.Popen
def note(*words, **how):
    started.append(popen(*words, **how))
    return started[-1]
subprocess.Popen = note
def ctrl_c(after, before):
    while len(started) == before:
        time.sleep(0.01)
    time.sleep(after)
    at.append(time.monotonic())
    os.killpg(0, signal.SIGINT)
def stop(after):
    threading.Thread(target=ctrl_c, args=(after, len(started))).start()
tower = np.zeros((2048, 2048), int)
tower[1024, 1024] = 2**30
"""

STOPPED = f"""{NOTED}
a, b = (sandpile.random_recurrent(tower.shape, seed) for seed in (1, 2))
kept = [array.copy() for array in (tower, a.pile, b.pile)]
calls = (
    lambda: sandpile.settle(tower), lambda: sandpile.settle([tower, tower]), lambda: sandpile.identity(tower.shape),
    lambda: sandpile.recurrent(tower), lambda: sandpile.recurrent(-tower, firing=True), lambda: sandpile.superstable(tower),
    lambda: a + b, lambda: -a, lambda: 10**30 * a, lambda: sandpile.Drive(tower),
)
for call in calls:
    stop(0.4)
    try:
        call()
        print("not stopped")
    except KeyboardInterrupt:
        print(f"{{time.monotonic() - at[-1]:.3f}}", started[-1].wait(60))
assert all((array == copy).all() for array, copy in zip((tower, a.pile, b.pile), kept))
run = sandpile.Drive([[3]])
assert sandpile.settle(np.full((520, 520), 3)).lost == 0 and run.drop(1)["size"] == 1
"""

REPLICAS = f"""{NOTED}
stop(1)
try:
    next(sandpile.replicas(tower, 7, range(9), 5))
except KeyboardInterrupt:
    print(f"{{time.monotonic() - at[-1]:.3f}}", {{process.wait(60) for process in started}})
"""

TYPED = f"""{NOTED}
try:
    sandpile.settle(tower, progress=True)
except KeyboardInterrupt:
    print("stopped", started[0].wait(60))
"""

HANDLED = f"""{NOTED}
heard = []
for number in (signal.SIGINT, signal.SIGTERM):
    signal.signal(number, lambda number, _: heard.append(number))
tower = tower[:600, :600].copy()
tower[300, 300] = 2**24
def send():
    while not started:
        time.sleep(0.01)
    for number in (signal.SIGINT, signal.SIGTERM):
        os.killpg(0, number)
threading.Thread(target=send).start()
settled = sandpile.settle(tower)
print(settled.pile.sum() + settled.lost, sorted(heard))
"""

LEFT = f"""{NOTED}
def tell():
    while not started:
        time.sleep(0.01)
    print(started[0].pid, flush=True)
threading.Thread(target=tell).start()
sandpile.settle(tower)
"""


class CtrlC(unittest.TestCase):
    def said(self, script, **how):
        ended = subprocess.run(
            [sys.executable, "-c", script], stdout=subprocess.PIPE, stderr=subprocess.PIPE, text=True, env={"PYTHONPATH": MODULE},
            start_new_session=True, timeout=300, **how,
        )
        self.assertEqual(ended.returncode, 0, ended.stderr)
        return ended.stdout

    def test_each_call(self):
        seconds, statuses = zip(*map(str.split, self.said(STOPPED).splitlines()))
        self.assertEqual(statuses, ("-9",) * 10)
        # A busy machine may let this one wait.
        self.assertLess(sorted(map(float, seconds))[7], 0.5, seconds)
        self.assertLess(max(map(float, seconds)), 5, seconds)

    def test_an_interrupt_that_is_no_signal(self):
        before = signal.signal(signal.SIGINT, signal.default_int_handler)
        self.addCleanup(signal.signal, signal.SIGINT, before)
        with worker(self, "time.sleep(60)"):
            threading.Timer(0.5, _thread.interrupt_main).start()
            begun = time.monotonic()
            self.assertRaises(KeyboardInterrupt, sandpile.settle, [[0, 4, 0]])
            self.assertLess(time.monotonic() - begun, 10)

    def test_the_threads_of_replicas(self):
        seconds, statuses = self.said(REPLICAS).split()
        self.assertLess(float(seconds), 5)
        self.assertEqual(statuses, "{-9}")

    def test_a_handler_that_goes_on(self):
        self.assertEqual(self.said(HANDLED), f"{2**24} [2, 15]\n")

    def test_the_process_ends_with_its_parent(self):
        with subprocess.Popen([sys.executable, "-c", LEFT], stdout=subprocess.PIPE, text=True, env={"PYTHONPATH": MODULE}) as parent:
            worker = int(parent.stdout.readline())
            self.assertFalse(has_ended(worker))
            parent.kill()
            parent.wait()
            for _ in range(100):
                if has_ended(worker):
                    break
                time.sleep(0.05)
            self.assertTrue(has_ended(worker))


class Shown(unittest.TestCase):
    def shown(self, seconds, modules):
        said = io.StringIO()
        with mock.patch.dict(sys.modules, modules), mock.patch("sys.stderr", said):
            with worker(self, f"time.sleep({seconds})", "os.write(1, b'0')"):
                sandpile.settle([[0, 3, 0]], progress=True)
        return said.getvalue()

    def test_seconds(self):
        self.assertEqual(self.shown(0.1, {"tqdm.auto": None}), "")
        self.assertEqual(self.shown(2.5, {"tqdm.auto": None}), "\rsettle on 1 by 3: 1 s\rsettle on 1 by 3: 2 s\n")

    @needs_module("tqdm")
    def test_seconds_by_tqdm(self):
        self.assertEqual(self.shown(0.1, {}), "")
        self.assertRegex(self.shown(2.5, {}), r"\rsettle on 1 by 3: 1 s *\rsettle on 1 by 3: 2 s(.|\r)*\n$")

    def test_each_call_that_shows_them(self):
        element = sandpile.recurrent([[3, 3]])
        calls = (
            lambda: sandpile.settle([[[0, 3]], [[1, 2]]], progress=True), lambda: sandpile.identity((1, 2), progress=True),
            lambda: sandpile.recurrent([[0, 3]], progress=True), lambda: sandpile.recurrent([[0, -3]], firing=True, progress=True),
            lambda: sandpile.superstable([[0, 3]], progress=True), lambda: sandpile.Drive([[0, 4]], progress=True),
            lambda: element.multiple(5, progress=True),
        )
        for call in calls:
            with apart(), mock.patch.object(_interruptible, "_answer", return_value=b"0") as answer:
                call()
            self.assertRegex(answer.call_args_list[-1].args[1], "^[a-z_]+ on 1 by 2$")

    def test_ctrl_c_at_a_terminal(self):
        master, slave = pty.openpty()
        self.addCleanup(os.close, master)
        child = subprocess.Popen(
            [sys.executable, "-c", TYPED], stdin=slave, stdout=slave, stderr=slave, start_new_session=True,
            env={"PYTHONPATH": MODULE}, preexec_fn=lambda: fcntl.ioctl(0, termios.TIOCSCTTY, 0),
        )
        os.close(slave)
        said = b""
        while not said.endswith(b"settle on 2,048 by 2,048: 2 s"):
            said += os.read(master, 1)
        os.write(master, b"\x03")
        with contextlib.suppress(OSError):  # which the end of the session is
            while more := os.read(master, 1024):
                said += more
        self.assertRegex(said.decode(), r"(?s)\A\s*settle on 2,048 by 2,048: 1 s\s+settle on 2,048 by 2,048: 2 s.*\nstopped -9\s+\Z")
        self.assertEqual(child.wait(), 0)
