"""Saved runs: files that are damaged or wrong are refused, and threads can save to one name."""

import errno
import io
import os
import random
import struct
import sys
import unittest
import zipfile
from concurrent.futures import ThreadPoolExecutor
from pathlib import Path
from unittest import mock

import numpy as np
import sandpile
from tools import new_folder, ran, same

CHANGED = 1500
TOP = 2**63
ZEROS, ZERO = np.zeros((3, 5), np.uint64), np.uint64(0)
CENTRE = (np.arange(15).reshape(3, 5) == 7).astype(np.uint64)
# A run on a pile without a grain, before its first drop.
NOTHING = {"pile": ZEROS, "odometer": ZEROS, **dict.fromkeys(["start_grains", "lost", "drops", "drawn"], ZERO)}
# What differs from a save of `run_of`, by its name: another value, or what makes one of the saved value.
WRONG = {
    "fewer than no drops": {"drops": np.int64(-5)},
    "a seed that is no integer": {"seed": 1.7},
    "a seed in words": {"seed": "7"},
    "seeds": {"seed": np.array([7], np.uint64)},
    "a stream below 0": {"stream": np.int8(-1)},
    "a cylinder of 2": {**NOTHING, "cylinder": np.uint64(2)},
    "another edge": {"cylinder": np.uint64(1)},
    "more drawn than dropped": {"drawn": np.uint64(54)},
    "a grain more at the start": {"start_grains": lambda grains: grains + 1},
    "a drop more": {"drops": lambda drops: drops + 1},
    "a grain lost more": {"lost": lambda lost: lost + 1},
    "a grain lost more, and one at the start": {at: lambda grains: grains + 1 for at in ("lost", "start_grains")},
    "the most grains lost": {"lost": np.uint64(2**64 - 1)},
    "no odometer": {"odometer": np.zeros_like},
    "a great count": {"odometer": lambda odometer: odometer.astype(np.uint64) + np.uint64(TOP) * CENTRE},
    "counts that wrap around": {"odometer": lambda odometer: odometer.astype(np.uint64) + np.uint64(TOP)},
    "counts that are not least": {"odometer": lambda odometer: odometer + 1},
    "a float odometer": {"odometer": lambda odometer: odometer.astype(float)},
    "a flat odometer": {"odometer": np.ravel},
    "an odometer of another shape": {"odometer": np.transpose},
    "an odometer of one site": {**NOTHING, "odometer": ZEROS[:1, :1]},
    "a pile of another shape": {"pile": lambda pile: pile[:2]},
    "a pile of one site": {**NOTHING, "pile": ZEROS[:1, :1]},
    "an unstable pile": {"pile": lambda pile: pile + 4},
    "a pile below 0": {"pile": lambda pile: pile - 4},
    "an empty pile": {"pile": np.zeros((0, 0), np.uint64), "odometer": np.zeros((0, 0), np.uint64)},
    "a side of 8,193": {"pile": np.zeros((1, 8193), np.uint64), "odometer": np.zeros((1, 8193), np.uint64)},
    "a pile of objects": {"pile": lambda pile: pile.astype(object)},
    "a pile of records": {"pile": np.zeros((3, 5), [("x", int)])},
}


def run_of(seed=7):
    """A run with drops at random and at given sites, and a start that topples."""
    run = sandpile.Drive(np.full((3, 5), 4), seed=seed, stream=2)
    run.drop(50)
    run.drop_at([7, 7, 7])
    return run


def values(run):
    return (run.pile.tobytes(), run.odometer.tobytes(), run.lost, run.drops, run.seed, run.stream, run.cylinder,
            run.drop(5).tobytes())


class Damaged(unittest.TestCase):
    def setUp(self):
        self.path = new_folder(self) / "run.npz"
        run_of().save(self.path)
        self.content = self.path.read_bytes()
        self.want = values(run_of())

    def loaded(self, content):
        """The values in a file, or nothing if they are refused."""
        self.path.unlink()  # writing over a file takes milliseconds
        self.path.write_bytes(content)
        try:
            return values(sandpile.Drive.load(self.path))
        except ValueError as error:
            self.assertIn("run.npz is not a saved run, or is damaged: ", str(error))
            return None

    def test_truncated_at_each_byte(self):
        for length in range(len(self.content)):
            with self.subTest(length=length):
                self.assertIsNone(self.loaded(self.content[:length]))
        self.assertEqual(self.loaded(self.content), self.want)

    def test_changed_bytes(self):
        chance, refused = random.Random(1), 0
        for _ in range(CHANGED):
            content, at = bytearray(self.content), chance.randrange(len(self.content))
            content[at] ^= chance.randint(1, 255)
            with self.subTest(at=at, byte=content[at]):
                found = self.loaded(content)
                self.assertIn(found, (None, self.want))
                refused += found is None
        self.assertGreater(refused, CHANGED // 2)

    def test_what_is_no_save(self):
        array = io.BytesIO()
        np.save(array, np.zeros((3, 5), np.uint64))
        for content in (b"", b"no run", bytes(3 << 20), array.getvalue()):
            self.assertIsNone(self.loaded(content))
        self.path.unlink()
        self.assertRaises(FileNotFoundError, sandpile.Drive.load, self.path)
        self.path.mkdir()
        self.assertRaises(IsADirectoryError, sandpile.Drive.load, self.path)


class Wrong(unittest.TestCase):
    def setUp(self):
        self.path = new_folder(self) / "run.npz"
        run_of().save(self.path)
        with np.load(self.path) as saved:
            self.arrays = dict(saved)

    def refused(self):
        with self.assertRaisesRegex(ValueError, "run.npz is not a saved run, or is damaged: "):
            sandpile.Drive.load(self.path)

    def test_wrong_values(self):
        for name, changes in WRONG.items():
            arrays = {at: change(self.arrays[at]) if callable(change) else change for at, change in changes.items()}
            with self.subTest(name):
                np.savez(self.path, **{**self.arrays, **arrays})
                self.refused()

    def test_a_run_on_an_empty_pile(self):
        np.savez(self.path, **{**self.arrays, **NOTHING})
        run = sandpile.Drive.load(self.path)
        self.assertEqual((run.pile.tolist(), run.odometer.tolist(), run.lost, run.drops), (ZEROS.tolist(), ZEROS.tolist(), 0, 0))

    def test_a_missing_array(self):
        for name in self.arrays:
            with self.subTest(name):
                np.savez(self.path, **{at: array for at, array in self.arrays.items() if at != name})
                self.refused()

    def test_an_array_that_needs_more_memory_than_there_is(self):
        header = b"{'descr': '<u8', 'fortran_order': False, 'shape': (1000000, 1000000), }".ljust(117) + b"\n"
        np.savez(self.path, **{name: array for name, array in self.arrays.items() if name != "pile"})
        with zipfile.ZipFile(self.path, "a") as archive:
            archive.writestr("pile.npy", b"\x93NUMPY\x01\x00" + struct.pack("<H", len(header)) + header + bytes(800))
        self.refused()

    def test_running_out_of_memory(self):
        for error in (MemoryError, sandpile.Fault(4)):
            with mock.patch("sandpile._saves.settle", side_effect=error):
                self.assertRaisesRegex(MemoryError, "fault 4 Memory", sandpile.Drive.load, self.path)

    def test_the_same_values_of_another_type(self):
        for kind in (np.int64, np.uint64, ">u8", "<u4"):
            for packed in (np.savez, np.savez_compressed):
                packed(self.path, **{name: array.astype(kind, order="F") for name, array in self.arrays.items()})
                self.assertEqual(values(sandpile.Drive.load(self.path)), values(run_of()))


# A file may have 5,000 bytes here, and the save has more. It has failed without another word, and the old one is there.
FULL = """
import os, resource
import numpy as np
import sandpile

run = sandpile.Drive([[3]])
run.save("run")
run = sandpile.Drive(sandpile.random_recurrent((200, 200), seed=1))
resource.setrlimit(resource.RLIMIT_FSIZE, (5_000, 5_000))
try:
    run.save("run")
except OSError as error:
    print(error.strerror, os.listdir("."), sandpile.Drive.load("run").pile)
"""


class Names(unittest.TestCase):
    def test_a_path_without_a_name(self):
        for path in ("", ".", "/"):
            for call in (sandpile.Drive([[3]]).save, sandpile.Drive.load):
                self.assertRaisesRegex(OSError, "Is a directory", call, path)


class Full(unittest.TestCase):
    def test_a_file_that_has_no_room(self):
        env = {**os.environ, "PYTHONPATH": str(Path(sandpile.__file__).parents[1])}
        said = ran(sys.executable, "-B", "-c", FULL, cwd=new_folder(self), env=env)
        self.assertEqual(said, "File too large ['run.npz'] [[3]]\n")


class PowerCuts(unittest.TestCase):
    def test_a_save_is_on_the_disk_before_it_takes_the_name(self):
        path, calls = new_folder(self) / "run.npz", []

        def noting(name, told):
            real = getattr(os, name)

            def call(*words):
                result = real(*words)
                calls.append((name, *told(*words)))
                return result

            return mock.patch.object(os, name, call)

        def synced(number):
            synced = Path(os.readlink(f"/proc/self/fd/{number}"))
            return synced == path.parent, synced.stat().st_size

        with noting("fsync", synced), noting("replace", lambda _, name: [Path(name)]):
            run_of().save(path)
        (_, is_folder, size), *rest = calls
        self.assertEqual((is_folder, size), (False, path.stat().st_size))
        self.assertEqual([call[:2] for call in rest], [("replace", path), ("fsync", True)])

    def test_a_folder_that_cannot_be_synced(self):
        real, path = os.fsync, new_folder(self) / "run.npz"
        for number, is_refused in ((errno.EINVAL, False), (errno.EIO, True)):

            def fsync(at):
                if os.path.isdir(f"/proc/self/fd/{at}"):
                    raise OSError(number, os.strerror(number))
                real(at)

            with mock.patch.object(os, "fsync", fsync):
                if is_refused:
                    self.assertRaisesRegex(OSError, os.strerror(number), run_of().save, path)
                else:
                    run_of().save(path)
            self.assertEqual(values(sandpile.Drive.load(path)), values(run_of()))


class Together(unittest.TestCase):
    def test_threads_that_save_to_one_name(self):
        path = new_folder(self) / "run"
        runs = [run_of(seed) for seed in range(4)]
        expected = [(run.seed, run.pile.tolist()) for run in runs]

        def saved(run):
            for _ in range(40):
                run.save(path)
                again = sandpile.Drive.load(path)
                self.assertIn((again.seed, again.pile.tolist()), expected)

        with ThreadPoolExecutor(4) as pool:
            list(pool.map(saved, runs))
        self.assertEqual(os.listdir(path.parent), ["run.npz"])

    def test_shapes_of_a_save(self):
        path = new_folder(self) / "run.npz"
        for shape, cylinder in [((1, 1), False), ((1, 3), True), ((7, 1), False), ((5, 3), True), ((256, 256), True)]:
            run = sandpile.Drive(np.full(shape, 9, np.uint8), seed=3, cylinder=cylinder)
            run.drop(100)
            run.save(path)
            again = sandpile.Drive.load(path)
            self.assertTrue(same(again.pile, run.pile) and same(again.odometer, run.odometer))
            self.assertEqual((again.lost, again.cylinder, len(again.table)), (run.lost, cylinder, 0))
