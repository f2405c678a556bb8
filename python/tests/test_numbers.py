"""All arrays and tables that are returned are int64: they can be counted, and subtracted below 0."""

import unittest

import numpy as np
import sandpile
from tools import new_folder, same

FULL = np.full((3, 5), 3)
INT64 = np.dtype(np.int64)


def shared():
    """The numbers of three drops of a part, and what the pile then becomes."""
    with sandpile.SharedPile(FULL, quota=3) as pile:
        with pile.split(3) as part:
            numbers = part.drop([1, 0, 1])
        return numbers, pile.settle()


def returned():
    """Each array that a call returns, by the call's name."""
    settled, run, (numbers, record) = sandpile.settle(FULL + 1), sandpile.Drive(FULL), shared()
    a, lab = sandpile.recurrent(FULL), sandpile.lab(FULL, drops=5)
    yield from (("settle", settled.pile), ("settle", settled.odometer))
    for table in (run.drop(1), run.drop_at([7, 7]), run.drop(9000), run.drop(9000, waves=True)[1], lab.epochs):
        yield from ((field, table[field]) for field in table.dtype.names)
    yield from (("avalanche", run.avalanche(7)[1]), ("waves", run.waves(7)[1]), ("Drive", run.pile), ("Drive", run.odometer))
    yield from (("burn", sandpile.burn(FULL).order), ("burn", sandpile.burn(FULL - 3).order))
    yield from (("burn", sandpile.burn(FULL).time), ("Tree", a.tree().directions), ("Tree", a.tree().parents))
    yield from (("group", it.pile) for it in (a, sandpile.Recurrent(FULL), sandpile.identity((3, 5)), a + a, -a, 2**70 * a))
    yield from (("Part", numbers), ("SharedPile", record.pile), ("SharedPile", record.odometer), ("history", record.history))
    yield from (("lab", lab.pile), ("lab", lab.odometer))


class Numbers(unittest.TestCase):
    def test_what_is_returned_is_int64(self):
        for name, array in returned():
            with self.subTest(name):
                self.assertEqual(array.dtype, INT64)
                np.bincount(array.ravel())
        self.assertEqual((sandpile.AVALANCHE.itemsize, sandpile.EPOCH.itemsize), (48, 40))

    def test_counts_of_a_table(self):
        table = sandpile.Drive([[3]]).drop(5)
        self.assertEqual(np.bincount(table["size"]).tolist(), [3, 2])
        self.assertEqual((1 - table["lost"]).tolist(), [-3, 1, 1, 1, -3])
        self.assertEqual(np.diff(table["lost"]).tolist(), [-4, 0, 0, 4])

    def test_differences_of_an_odometer(self):
        self.assertEqual(np.diff(sandpile.settle([[0, 4, 0]]).odometer).tolist(), [[1, -1]])

    def test_what_is_loaded(self):
        run, path = sandpile.Drive(FULL + 1, seed=2**64 - 1), new_folder(self) / "run.npz"
        run.drop(100)
        run.save(path)
        with np.load(path) as saved:
            arrays = dict(saved)
        # Earlier versions saved all as uint64.
        np.savez(path.with_name("before.npz"), **{name: array.astype(np.uint64) for name, array in arrays.items()})
        for name in ("run", "before"):
            again = sandpile.Drive.load(path.with_name(f"{name}.npz"))
            self.assertTrue(same(again.pile, run.pile) and same(again.odometer, run.odometer))
            self.assertEqual((again.pile.dtype, again.seed, again.lost), (INT64, 2**64 - 1, run.lost))
        self.assertEqual({arrays[name].dtype for name in ("pile", "odometer", "lost", "drops")}, {INT64})
