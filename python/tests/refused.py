"""Run by test_memory.py with tools/refuse.c preloaded: refuses an allocation of each export, the first, then the
second, and so on until none is left. Only the export is refused memory, not NumPy or Python."""

import copy
import ctypes

import numpy as np
import sandpile
from sandpile import _library

# The commands of refuse.c.
IS_HERE = 1 << 60
END, BEGIN = IS_HERE + 1, IS_HERE + 2

malloc = ctypes.CDLL(None).malloc
malloc.argtypes, malloc.restype = [ctypes.c_size_t], ctypes.c_void_p


class Refusing:
    """The library; one allocation of its next call is refused."""

    def __init__(self, library, number):
        self.library, self.number, self.was_refused = library, number, False

    def __getattr__(self, name):
        export = getattr(self.library, name)

        def call(*arguments):
            malloc(BEGIN + self.number)
            fault = export(*arguments)
            self.was_refused |= malloc(END) is not None
            return fault

        return call


def try_call(name, call, kept=lambda: [pile, high, a.pile, *piles]):
    """Refuses each allocation of a call in turn. `kept` returns what must not change."""
    library, before, number = _library.library, [np.copy(it) for it in kept()], 0
    while True:
        number += 1
        _library.library = Refusing(library, number)
        try:
            call()
            fault = 0
        except sandpile.Fault as caught:
            fault = caught.number
        was_refused, _library.library = _library.library.was_refused, library
        if not was_refused:
            break
        assert fault == 4, (name, number, fault)
        assert all(map(np.array_equal, before, kept())), (name, number)
    assert number > 1 and fault == 0, (name, number, fault)
    print(f"{name}: {number - 1} requests refused")


pile = np.random.default_rng(1).integers(0, 9, (7, 9))
high = np.full((32, 32), 10**6)
large = np.random.default_rng(2).integers(0, 8, (300, 300))
assert malloc(IS_HERE) is not None, "refuse.c is not loaded"
run = sandpile.Drive(pile)
a = sandpile.recurrent(pile)
# Two piles, their odometers, the grains lost and the topplings.
piles = [np.array([pile, pile[::-1]], "u8"), np.zeros((2, 7, 9), "u8"), np.zeros(2, "u8"), np.zeros(2, "u8")]
try_call("settle", lambda: sandpile.settle(pile))
try_call("high", lambda: sandpile.settle(high))
try_call("large", lambda: sandpile.settle(large))
try_call("settle all", lambda: _library.call("settle_all", (7, 9), False, *piles))
try_call("burn", lambda: sandpile.burn(a))
try_call("identity", lambda: sandpile.identity((9, 7)))
try_call("recurrent", lambda: sandpile.recurrent(pile))
try_call("add", lambda: a + a)
try_call("inverse", lambda: -a)
try_call("multiple", lambda: 5 * a)
tree = a.tree()
try_call("burning times", lambda: sandpile.burn(a).time)
try_call("tree", a.tree)
try_call("pile of a tree", lambda: sandpile.Recurrent.from_tree(tree))
try_call("random", lambda: sandpile.random_recurrent((9, 7), seed=1))
try_call("class", lambda: sandpile.recurrent(pile - 4, firing=True))
try_call("superstable", lambda: sandpile.superstable(pile))
# A site that topples: a stable pile settles without memory.
full = int(np.argmax(a.pile))
try_call("act", lambda: a.act(full))


def state():
    return [run.pile, run.odometer, run.lost, run.drops]


run.save("run")
try_call("load", lambda: sandpile.Drive.load("run"))
try_call("copy", lambda: copy.copy(run), state)

shared, parts = sandpile.SharedPile(pile, 9), []
try_call("share", lambda: sandpile.SharedPile(pile, 9))
try_call("split", lambda: parts.append(shared.split(4, rows=3)), lambda: [shared.tally()])
parts[0].drop([5, 5, 62])
shared.join(parts[0])
try_call("settle shared", shared.settle, lambda: [shared.tally()])
assert shared.settle().history.tolist() == [5, 5, 62]
with shared.split(6, rows=7) as whole:  # nothing was lost
    whole.drop([0] * 6)
