"""The module and the program return the same numbers and faults, on 500 random inputs."""

import random
import unittest
from concurrent.futures import ThreadPoolExecutor

import numpy as np
import sandpile
from tools import PROGRAM, fault_or, program, text_of

INPUTS = 500
LIMIT = 1_099_511_627_775


def sides_of(chance):
    """A shape. Most are small; some are too narrow for a cylinder, and some are invalid."""
    kind = chance.random()
    if kind < 0.03:
        return chance.choice([(0, 3), (3, 0), (8193, 1), (1, 8193), (0, 0)])
    most = 8 if kind < 0.85 else 40 if kind < 0.97 else 256
    return chance.randint(1, most), chance.randint(1, most)


def pile_of(chance, shape):
    """Heights of one of many kinds, from stable ones to sums over the grain limit."""
    make = np.random.default_rng(chance.getrandbits(32)).integers
    kind = chance.random()
    if kind < 0.35:
        return make(0, 4, shape, dtype=np.uint8)
    if kind < 0.5:
        return np.full(shape, 3, np.int8)
    if kind < 0.85:
        return make(0, chance.choice([6, 9, 40, 1000]), shape, dtype=np.int32)
    pile = make(0, 4, shape, dtype=np.uint64)
    if pile.size:
        pile.flat[chance.randrange(pile.size)] = LIMIT - chance.choice([0, 1, 3, 100, 10**12])
    return pile


def whole(text):
    """The numbers in a text; words without digits are skipped."""
    return text if isinstance(text, int) else [int(word) for word in text.split() if word.lstrip("-").isdigit()]


def listed(pile, *rest):
    """The numbers in a pile's text, and those after it."""
    height, width = pile.shape
    return [width, height, *pile.ravel().tolist(), *rest]


class Input:
    """A random input for all calls, and the results of the module."""

    def __init__(self, seed):
        chance = random.Random(seed)
        self.shape, self.cylinder = sides_of(chance), chance.random() < 0.4
        self.pile, self.other = pile_of(chance, self.shape), pile_of(chance, self.shape)
        self.seed, self.stream, self.count = chance.getrandbits(32), chance.getrandbits(16), chance.randrange(60)
        self.times = chance.choice([chance.randrange(10), chance.getrandbits(64)])
        top = max(self.pile.size, 1)
        self.sites = [chance.randrange(top + (chance.random() < 0.02)) for _ in range(chance.randrange(20))]
        self.crew = {"droppers": chance.randint(1, 4), "drops": chance.randrange(50), "epochs": chance.randint(1, 3)}

    def text(self, pile=None):
        return text_of(self.pile if pile is None else pile, self.cylinder)

    def grid(self):
        return [f"--width={self.shape[1]}", f"--height={self.shape[0]}", *["--cylinder"] * self.cylinder]

    def settle(self):
        s = sandpile.settle(self.pile, cylinder=self.cylinder)
        return listed(s.pile, *s.odometer.ravel().tolist(), s.lost, s.topplings)

    def burn(self, pile):
        burned = sandpile.burn(pile, cylinder=self.cylinder)
        rows, columns = np.nonzero(burned.forbidden)
        places = np.column_stack([columns, rows]).ravel().tolist()
        if burned.is_recurrent:
            assert sorted(burned.order.tolist()) == list(range(pile.size))
            return []
        return [len(rows), *places]

    def identity(self):
        return listed(sandpile.identity(self.shape, cylinder=self.cylinder).pile)

    def recurrent(self):
        return listed(sandpile.recurrent(self.pile, cylinder=self.cylinder).pile)

    def group(self, name):
        a = sandpile.Recurrent(self.low(self.pile), cylinder=self.cylinder)
        if name == "inverse":
            return listed((-a).pile)
        if name == "multiple":
            return listed((self.times * a).pile)
        return listed((a + sandpile.Recurrent(self.low(self.other), cylinder=self.cylinder)).pile)

    def low(self, pile):
        """A recurrent pile if the sum is odd, otherwise the pile with heights cut to 4."""
        if pile.size and int(pile.sum(dtype=np.float64)) % 2:
            return np.asarray(sandpile.recurrent(np.minimum(pile, 9), cylinder=self.cylinder)) if self.is_grid() else pile
        return np.minimum(pile, 4)

    def is_grid(self):
        return all(1 <= side <= 256 for side in self.shape) and not (self.cylinder and self.shape[1] < 3)

    def dropped(self, random_sites):
        run = sandpile.Drive(self.pile, seed=self.seed, stream=self.stream, cylinder=self.cylinder)
        table = run.drop(self.count) if random_sites else run.drop_at(self.sites)
        rows = [number for row in table.tolist() for number in row]
        return [*rows, *listed(run.pile), run.lost, run.topplings]

    def lab(self):
        run = sandpile.lab(self.pile, seed=self.seed, cylinder=self.cylinder, **self.crew)
        rows = [number for row in run.epochs.tolist() for number in row]
        total = [int(run.epochs[name].sum()) for name in ("drops", "topplings", "lost")] + [run.epochs.tolist()[-1][-1]]
        return [*rows, *total, *listed(run.pile), *run.odometer.ravel().tolist()]

    def lab_words(self):
        return ["lab", f"--seed={self.seed}", *(f"--{name}={value}" for name, value in self.crew.items())]

    def drawn_words(self):
        return ["drops", f"--count={self.count}", f"--seed={self.seed}", f"--stream={self.stream}"]

    def pairs(self):
        """Each call by its name, for the module and for the program."""
        stable, sites = np.minimum(self.pile, 3), " ".join(map(str, self.sites))
        yield "settle", self.settle, ["settle"], self.text()
        yield "burn", lambda: self.burn(self.pile), ["burn"], self.text()
        yield "burn stable", lambda: self.burn(stable), ["burn"], self.text(stable)
        yield "recurrent", self.recurrent, ["recurrent"], self.text()
        both = [self.text(self.low(pile)) for pile in (self.pile, self.other)]
        yield "inverse", lambda: self.group("inverse"), ["inverse"], both[0]
        yield "multiple", lambda: self.group("multiple"), ["multiple", f"--times={self.times}"], both[0]
        # For other sides the command line reports its own fault, and so may the text of two piles.
        if all(1 <= side <= 256 for side in self.shape):
            yield "identity", self.identity, ["identity", *self.grid()], ""
            yield "add", lambda: self.group("add"), ["add"], "".join(both)
        yield "drop", lambda: self.dropped(True), self.drawn_words(), self.text()
        yield "drop_at", lambda: self.dropped(False), ["drops"], self.text() + sites
        yield "lab", self.lab, self.lab_words(), self.text()


def differences(seed):
    """The calls on which module and program differ, and the number of calls."""
    calls = list(Input(seed).pairs())
    ours = [fault_or(call) for _, call, _, _ in calls]
    theirs = [whole(program(*words, text=text)) for _, _, words, text in calls]
    return [(seed, name, one, other) for (name, *_), one, other in zip(calls, ours, theirs) if one != other], ours


class Program(unittest.TestCase):
    def test_the_same_numbers_and_faults(self):
        self.assertTrue(PROGRAM.exists(), "the program is not built: run ./build first")
        with ThreadPoolExecutor(4) as pool:
            found, ours = zip(*pool.map(differences, range(INPUTS)))
        wrong = [str(difference)[:500] for some in found for difference in some]
        self.assertEqual(wrong, [], f"{len(wrong)} calls differ")
        faults = {number for some in ours for number in some if isinstance(number, int)}
        self.assertEqual(faults, {1, 3, 6, 7, 8, 24, 25}, "these faults are met")
