"""Recordings: whatever ends one, the next call goes on, and the file has the bytes of a run that nothing ended. Files that do not fit
are refused."""

import contextlib
import errno
import io
import itertools
import os
import random
import signal
import subprocess
import sys
import tempfile
import threading
import time
import unittest
from pathlib import Path
from unittest import mock

import numpy as np
import sandpile
from sandpile import _library
from test_replicas import MODULE, soon
from tools import files_in, in_blocks, same

FULL = np.full((16, 16), 3)
ROW = sandpile.AVALANCHE.itemsize
FILES = ("rows.bin", "run.npz")
# What a recording does to its files.
ON_DISK = ("open", "pwrite", "fsync", "replace")


def new_run(seed=1, drops_in_block=None):
    run = sandpile.Drive(FULL, seed=seed)
    run.drop(7)
    return in_blocks(run, drops_in_block) if drops_in_block else run


def expected(n, seed=1):
    """The rows of a run that nothing ended."""
    return new_run(seed).drop(n)


@contextlib.contextmanager
def at_call(number, act, is_after=False, names=ON_DISK):
    """Acts before or after the call with this number of those in `os` with these names. Yields the calls so far. Of long data, half is
    written at once."""
    calls = []

    def counted(name, real):
        def call(*words):
            calls.append(name)
            is_it = len(calls) == number + 1
            if is_it and not is_after:
                act()
            if name == "pwrite":
                words = words[0], words[1][: max(len(words[1]) // 2, 999)], words[2]
            result = real(*words)
            if is_it and is_after:
                act()
            return result

        return mock.patch.object(os, name, call)

    with contextlib.ExitStack() as stack:
        for name in names:
            stack.enter_context(counted(name, getattr(os, name)))
        yield calls


def raising(error):
    """A function that raises an error."""

    def act():
        raise error

    return act


def die():
    """Ends this process at once."""
    os.kill(os.getpid(), signal.SIGKILL)


class Disk:
    """What may be on a disk after a power cut: what was synced, perhaps other names, and zeros in place of what was not."""

    def __init__(self):
        self.synced, self.names, self.states = {}, {}, []
        for path in Path().iterdir():
            self.synced[path.stat().st_ino] = path.read_bytes()
            self.names[path.name] = path.stat().st_ino

    def look(self):
        here = {path.name: path.stat() for path in Path().iterdir()}
        least = {name: self.synced[inode] for name, inode in self.names.items()}
        most = {name: self.synced.get(it.st_ino, b"")[: it.st_size].ljust(it.st_size, b"\0") for name, it in here.items()}
        self.states += [least, most, *({**least, name: content} for name, content in most.items())]

    def fsync(self, number):
        if os.path.isdir(f"/proc/self/fd/{number}"):
            self.names = {path.name: path.stat().st_ino for path in Path().iterdir()}
            for inode in self.names.values():
                self.synced.setdefault(inode, b"")
        else:
            self.synced[os.fstat(number).st_ino] = Path(f"/proc/self/fd/{number}").read_bytes()

    @contextlib.contextmanager
    def watched(self):
        """Looks at the disk around each call."""

        def around(name, real):
            def call(*words):
                self.look()
                result = real(*words)
                self.look()
                if name == "fsync":
                    self.fsync(words[0])
                    self.look()
                return result

            return mock.patch.object(os, name, call)

        with contextlib.ExitStack() as stack:
            for name in ON_DISK:
                stack.enter_context(around(name, getattr(os, name)))
            yield


class InFolder(unittest.TestCase):
    """Is in a folder of its own, in memory if that can be: thousands of calls of fsync take minutes on a busy disk."""

    def setUp(self):
        memory = Path("/dev/shm")
        room = tempfile.TemporaryDirectory(dir=memory if os.access(memory, os.W_OK) else None)
        self.addCleanup(room.cleanup)
        self.folder = Path(room.name)
        self.addCleanup(os.chdir, os.getcwd())
        os.chdir(self.folder)

    def check(self, n, run=None, seed=1):
        """The next call goes on, and yields the rows of a run that nothing ended."""
        run = run or new_run(seed)
        rows = run.record(n, *FILES, every=0)
        self.assertTrue(same(np.asarray(rows), expected(n, seed)))
        self.assertEqual(Path(FILES[0]).read_bytes(), expected(n, seed).tobytes())
        self.assertEqual(sorted(os.listdir()), list(FILES))
        again = sandpile.Drive.load(FILES[1])
        for one in (run, again):
            self.assertEqual((one.drops, one.pile.tolist()), (n + 7, new_run_of(n, seed).pile.tolist()))

    def refused(self, said, run=None, n=300, kind=ValueError, files=FILES):
        """A call is refused, and changes nothing."""
        run = run or new_run()
        before, drops = files_in(Path()), run.drops
        with self.assertRaisesRegex(kind, said):
            run.record(n, *files)
        self.assertEqual((files_in(Path()), run.drops), (before, drops))


def new_run_of(n, seed):
    run = new_run(seed)
    run.drop(n)
    return run


class Records(InFolder):
    def test_the_rows_of_a_run(self):
        rows = new_run().record(30_000, *FILES)
        self.assertEqual(sandpile.Drive.load(FILES[1]).drops, 30_007)
        self.assertTrue(same(np.asarray(rows), expected(30_000)))
        self.assertFalse(rows.flags.writeable)
        self.assertTrue(same(np.fromfile(FILES[0], sandpile.AVALANCHE), expected(30_000)))
        self.assertTrue(same(np.memmap(FILES[0], sandpile.AVALANCHE, "r")["size"] + 0, expected(30_000)["size"]))

    def test_a_longer_one(self):
        for n in (0, 0, 5, 5, 300, 20_000):
            self.check(n)
        before = files_in(Path())
        self.check(20_000)
        self.assertEqual(files_in(Path()), before)

    def test_from_each_place_on_the_way(self):
        new_run().record(500, *FILES)
        for drops in (0, 100, 493, 500, 700):  # before the save, at it, and after it
            run = new_run()
            run.drop(drops)
            self.check(500 + drops, run)
        self.check(2000, sandpile.Drive.load(FILES[1]))

    def test_on_a_cylinder_and_far_in_a_stream(self):
        run = sandpile.Drive(FULL + 9, seed=2**64 - 1, stream=2**63, cylinder=True)
        for n in (100, 250_000):
            rows = run.record(n, *FILES)
            run = sandpile.Drive(FULL + 9, seed=2**64 - 1, stream=2**63, cylinder=True)
        self.assertTrue(same(np.asarray(rows), run.drop(n)))

    def test_progress(self):
        shown = io.StringIO()
        with contextlib.redirect_stderr(shown), mock.patch.dict(sys.modules, {"tqdm": None, "tqdm.auto": None}):
            new_run().record(9_000, *FILES, progress=True)
        self.assertRegex(shown.getvalue(), r"\r9,000 of 9,000 drops\n$")

    def test_how_often_it_saves(self):
        for every, saves in ((0, 101), (3600, 2)):
            with at_call(-1, die, names=["replace"]) as calls:
                new_run(drops_in_block=10).record(1000, f"rows{every}", f"run{every}", every=every)
            self.assertEqual(len(calls), saves)

    def test_other_calls_meanwhile(self):
        new_run().record(100, *FILES)  # from which the run goes on
        run, drops = new_run(drops_in_block=50), []
        recording = threading.Thread(target=run.record, args=(60_000, *FILES), kwargs={"every": 0.01})
        recording.start()
        self.assertTrue(soon(lambda: run.drops > 1000))
        self.assertRaisesRegex(RuntimeError, "another call is dropping grains", run.drop, 1)
        self.assertRaisesRegex(RuntimeError, "another call is dropping grains", run.record, 1, *FILES)
        while recording.is_alive():
            drops.append(run.drops)
            self.assertEqual(run.pile.shape, (16, 16))
            run.save("other")
        self.assertGreater(len({*drops}), 2)
        os.remove("other.npz")
        self.check(60_000)


class Ended(InFolder):
    """A recording that ends early, in each way and at each step."""

    def remove(self):
        for path in Path().iterdir():
            path.unlink()

    def each_step(self, end):
        """Ends a recording at each call of the system, until it ends by itself. `end` does so, and returns the calls that were made."""
        for is_after in (False, True):
            for number in itertools.count():
                with self.subTest(number=number, is_after=is_after):
                    run = new_run(drops_in_block=50)
                    calls = end(run, number, is_after)
                    self.check(100, run if number % 2 else None)  # in the same process, or in another one
                self.remove()
                if calls <= number:
                    break
            self.assertGreater(number, 15)

    def test_by_errors(self):
        for error in (KeyboardInterrupt(), OSError("no room")):

            def end(run, number, is_after):
                with at_call(number, raising(error), is_after) as calls, contextlib.suppress(type(error)):
                    run.record(100, *FILES, every=0)
                return len(calls)

            self.each_step(end)

    def test_by_a_kill(self):
        def end(_, number, is_after):
            child = os.fork()
            if not child:
                with at_call(number, die, is_after):
                    new_run(drops_in_block=50).record(100, *FILES, every=0)
                os._exit(0)
            status = os.waitstatus_to_exitcode(os.waitpid(child, 0)[1])
            self.assertIn(status, (0, -signal.SIGKILL))
            return number + 1 if status else 0

        self.each_step(end)

    def test_by_a_power_cut(self):
        states = set()
        for n in (100, 170):
            disk = Disk()
            with disk.watched():
                new_run(drops_in_block=50).record(n, *FILES, every=0)
            states |= {tuple(sorted(state.items())) for state in disk.states}
            disk.states.clear()
            disk.look()
            self.assertEqual(disk.states[0], files_in(Path()))  # all is on the disk
        self.assertGreater(len(states), 20)
        for state in states:
            self.remove()
            for name, content in state:
                Path(name).write_bytes(content)
            with self.subTest({name: len(content) for name, content in state}):
                self.check(200)

    def test_ctrl_c_and_a_lack_of_memory_lose_no_row(self):
        drop = _library.library.sandpile_drive_drop
        for error, number in itertools.product((KeyboardInterrupt, sandpile.Fault), range(1, 7)):
            run, made = new_run(drops_in_block=20), []

            def come(*words):
                if error is sandpile.Fault and len(made) == number:
                    return 4
                made.append(drop(*words))
                if error is KeyboardInterrupt and len(made) == number:
                    raise error
                return made[-1]

            with self.subTest(error=error, number=number):
                with mock.patch.object(_library.library, "sandpile_drive_drop", come):
                    self.assertRaises(error, run.record, 150, *FILES, every=3600)
                self.assertEqual((run.drops, sandpile.Drive.load(FILES[1]).drops), (7 + 20 * number,) * 2)
                self.assertTrue(same(np.fromfile(FILES[0], sandpile.AVALANCHE), expected(20 * number)))
            self.check(150, run)
            self.remove()


RECORDING = """
import signal, sys, numpy as np, sandpile
signal.alarm(120)  # in case the test is killed
signal.signal(signal.SIGINT, signal.default_int_handler)  # in case it is ignored, as in a job in the background
run = sandpile.Drive(np.full((64, 64), 3), seed=1)
print("begun", flush=True)
run.record(int(sys.argv[1]), "rows.bin", "run.npz", every=float(sys.argv[2]))
"""


class Gone(InFolder):
    """A file that loses its name while rows are recorded to it."""

    def ends(self, act, at=3):
        """A recording ends before the grains drop of the block after the one in which something was done."""
        run, blocks = new_run(drops_in_block=20), []

        def come(*words):
            blocks.append(drop(*words))
            if len(blocks) == at:
                act()
            return blocks[-1]

        drop = _library.library.sandpile_drive_drop
        with mock.patch.object(_library.library, "sandpile_drive_drop", come):
            with self.assertRaisesRegex(FileNotFoundError, "was removed or replaced while rows were recorded.*'rows.bin'"):
                run.record(150, *FILES, every=3600)
        self.assertEqual((len(blocks), run.drops, sandpile.Drive.load(FILES[1]).drops), (at, 7 + min(20 * at, 150), 7))

    def test_removed(self):
        self.ends(lambda: os.remove(FILES[0]))
        self.assertRaisesRegex(ValueError, "its file of rows, does not", new_run().record, 150, *FILES)

    def test_renamed_and_put_back(self):
        self.ends(lambda: os.rename(FILES[0], "other"))
        os.rename("other", FILES[0])
        self.check(150)

    def test_replaced(self):
        self.ends(lambda: Path("other").write_bytes(b"") or os.replace("other", FILES[0]))

    def test_removed_in_the_last_block(self):
        self.ends(lambda: os.remove(FILES[0]), at=8)


class OtherProcesses(InFolder):
    def start(self, n, every):
        words = [sys.executable, "-c", RECORDING, str(n), str(every)]
        child = subprocess.Popen(words, env={"PYTHONPATH": MODULE}, stdout=subprocess.PIPE, stderr=subprocess.PIPE, text=True)
        self.addCleanup(child.communicate)
        self.addCleanup(child.kill)
        self.assertEqual(child.stdout.readline(), "begun\n")
        return child

    def test_killed_at_random_moments(self):
        chance, kills, n = random.Random(1), 0, 600_000
        for every in itertools.cycle((0, 0.01, 3600)):
            child = self.start(n, every)
            with contextlib.suppress(subprocess.TimeoutExpired):
                child.wait(chance.random() * 0.15)
            child.kill()
            if child.wait() == 0:
                break
            kills += 1
        self.assertGreater(kills, 2)
        table = sandpile.Drive(np.full((64, 64), 3), seed=1).drop(n)
        self.assertEqual(Path(FILES[0]).read_bytes(), table.tobytes())
        self.assertEqual(sandpile.Drive.load(FILES[1]).drops, n)

    def test_only_one_at_once(self):
        self.start(10**9, 0.01)
        self.assertTrue(soon(lambda: os.path.exists(FILES[1])))
        run, begun = sandpile.Drive(np.full((64, 64), 3), seed=1), time.monotonic()
        said = "^another process or thread is recording to rows.bin$"
        self.assertRaisesRegex(RuntimeError, said, run.record, 10**9, *FILES)
        self.assertLess(time.monotonic() - begun, 5)
        self.assertEqual(run.drops, 0)

    def test_ctrl_c(self):
        child = self.start(10**9, 3600)
        self.assertTrue(soon(lambda: os.path.exists(FILES[0]) and os.path.getsize(FILES[0]) > 20_000 * ROW))
        child.send_signal(signal.SIGINT)
        self.assertTrue(child.communicate(timeout=60)[1].endswith("KeyboardInterrupt\n"))
        drops = sandpile.Drive.load(FILES[1]).drops
        self.assertGreaterEqual(drops, 20_000)
        self.assertEqual(os.path.getsize(FILES[0]), drops * ROW)


class Refused(InFolder):
    def setUp(self):
        super().setUp()
        new_run().record(200, *FILES)

    def test_rows_that_are_missing(self):
        content = Path(FILES[0]).read_bytes()
        for length in (0, 1, 100 * ROW, 200 * ROW - 1):
            Path(FILES[0]).write_bytes(content[:length])
            self.refused(f"^rows.bin has only {length // ROW} of the 200 rows that run.npz tells of$")
        os.remove(FILES[0])
        self.refused("^run.npz exists, but rows.bin, its file of rows, does not$")

    def test_rows_after_those_of_the_save_are_cut_off(self):
        for more in (b"x", expected(300)[200:].tobytes(), bytes(99 * ROW)):
            with open(FILES[0], "ab") as file:
                file.write(more)
            self.check(200)

    def test_rows_of_another_run(self):
        others = (expected(200, seed=2), expected(200)[::-1], np.zeros(200, sandpile.AVALANCHE), np.zeros(200, sandpile.REPLICA))
        for rows in others:
            rows.tofile(FILES[0])
            self.refused("^the first 200 rows of rows.bin are not those that run.npz tells of: they are of another run, or damaged$")
        changed = bytearray(expected(200).tobytes())
        changed[5000] ^= 1
        Path(FILES[0]).write_bytes(changed)
        self.refused("are not those that run.npz tells of")

    def test_another_run(self):
        moved = FULL.copy()  # a grain, so there are as many
        moved[0, :2] += (1, -1)
        for run, said in (
            (sandpile.Drive(FULL, seed=2), "its seed is 1, not 2"),
            (sandpile.Drive(FULL, seed=1, stream=3), "its stream is 0, not 3"),
            (sandpile.Drive(FULL, seed=1, cylinder=True), "its cylinder is False, not True"),
            (sandpile.Drive(FULL[1:], seed=1), r"its shape is \(16, 16\), not \(15, 16\)"),
            (sandpile.Drive(FULL + 1, seed=1), "it began on another pile, or had other drops"),
            (sandpile.Drive(moved, seed=1), "it began on another pile, or had other drops"),
        ):
            self.refused(f"^run.npz is of another run: {said}$", run)
        for drops in (0, 300):  # before the save, and after it
            run = new_run()
            run.drop_at(3)
            run.drop(drops)
            self.refused("it began on another pile, or had other drops", run)

    def test_a_lack_of_memory(self):
        with mock.patch.object(np, "bincount", side_effect=MemoryError):
            self.refused("^fault 4 Memory: not enough memory for the drops between a run and its save$", kind=sandpile.Fault)

    def test_saves_that_are_none_of_a_recording(self):
        new_run().save(FILES[1])
        self.refused("^run.npz was written by `save`, not by `record`; give another name$")
        Path(FILES[1]).write_bytes(b"no save")
        self.refused("^run.npz is not a saved run, or is damaged: ")
        os.remove(FILES[1])
        self.refused("^rows.bin has rows, but their save, run.npz, does not exist; to begin anew, give other names$")

    def test_a_save_that_lacks_one_of_its_numbers(self):
        with np.load(FILES[1]) as saved:
            arrays = dict(saved)
        for name in ("rows", "crc"):
            np.savez(FILES[1], **{at: array for at, array in arrays.items() if at != name})
            self.refused("^run.npz is not a saved run, or is damaged: ")
        np.savez(FILES[1], **arrays)
        self.check(200)

    def test_arguments(self):
        for n, number in ((-1, 15), (2**64, 15), (199, 15), (2**41, 6)):
            self.refused(f"^fault {number} ", n=n, kind=sandpile.Fault)
        self.refused("n is 199, but rows.bin has 200 rows of this run already", n=199)
        self.refused("^the rows and the save must be two files, but both are run.npz$", files=("run.npz", "run"))
        for wrong in (-1, float("nan")):
            self.assertRaisesRegex(sandpile.Fault, "every is .*, but must be 0 or more", new_run().record, 300, *FILES, every=wrong)
        for words in ((1.5, *FILES), (300, 7.5, "run"), (300, "rows", None), (300, *FILES, "10")):
            self.assertRaises(TypeError, new_run().record, *words)

    def test_nothing_is_made_that_is_refused(self):
        for n in (-1, 2**41):
            self.assertRaises(sandpile.Fault, new_run().record, n, "other.bin", "other")
        self.assertEqual(sorted(os.listdir()), sorted([*FILES]))


# A file may have 5,000 bytes here, later 9,000, and then as many as it wants.
FULL_DISK = """
import os, resource, numpy as np, sandpile
def record():
    run = sandpile.Drive(np.full((16, 16), 3), seed=1)
    run._most = 20
    return run.record(400, "rows.bin", "run.npz", every=0)
for limit in (5_000, 9_000):
    resource.setrlimit(resource.RLIMIT_FSIZE, (limit, resource.RLIM_INFINITY))
    try:
        record()
    except OSError as error:
        print(error.strerror, sandpile.Drive.load("run").drops)
resource.setrlimit(resource.RLIMIT_FSIZE, (resource.RLIM_INFINITY, resource.RLIM_INFINITY))
rows, expected = record(), sandpile.Drive(np.full((16, 16), 3), seed=1).drop(400)
print((rows == expected).all(), sorted(os.listdir(".")))
"""
# Root may write everywhere, so this is another user then.
READ_ONLY = """
import os, sandpile
run = sandpile.Drive([[3]])
if not os.geteuid():
    os.setuid(65534)
for rows in ("rows.bin", "new.bin"):
    try:
        run.record(9, rows, "run.npz")
    except OSError as error:
        print(error.strerror, run.drops)
"""


class NoRoom(InFolder):
    def said(self, script):
        env = {**os.environ, "PYTHONPATH": MODULE}
        ended = subprocess.run([sys.executable, "-B", "-c", script], env=env, capture_output=True, text=True, timeout=100)
        self.assertEqual((ended.returncode, ended.stderr), (0, ""))
        return ended.stdout

    def test_a_full_disk(self):
        self.assertEqual(
            self.said(FULL_DISK),
            "File too large 100\nFile too large 180\nTrue ['rows.bin', 'run.npz']\n",
        )

    def test_the_error_names_the_file(self):
        self.assertRaisesRegex(OSError, "'/dev/full'$", new_run().record, 100, "/dev/full", "run.npz")
        for call, before, name in (("pwrite", 0, "rows.bin"), ("fsync", 1, "rows.bin"), ("fsync", 2, "run.npz.part")):
            fails = mock.Mock(side_effect=[None] * before + [OSError(errno.ENOSPC, "No space left")])
            with mock.patch.object(os, call, fails), self.subTest(call, before=before), self.assertRaises(OSError) as caught:
                new_run().record(100, *FILES)
            self.assertEqual((str(caught.exception), fails.call_count), (f"[Errno 28] No space left: '{name}'", before + 1))
            for path in Path().iterdir():
                path.unlink()

    def test_a_folder_that_is_read_only(self):
        Path("rows.bin").touch()
        os.chmod("rows.bin", 0o666)
        os.chmod(".", 0o555)
        self.addCleanup(os.chmod, self.folder, 0o755)
        self.assertEqual(self.said(READ_ONLY), "Permission denied 0\n" * 2)
        self.assertEqual(files_in(Path()), {"rows.bin": b""})
