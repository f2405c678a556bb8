"""Grids with sides beyond 256: against plain references, and by what results must satisfy. Sites next to multiples of 8, 256 and
1,024 are where the library's tiles, strips and lists end."""

import copy
import pickle
import unittest
from collections import deque

import numpy as np
import sandpile
from tools import new_folder, same

# Height, width, and whether it is a cylinder.
GRIDS = (
    (257, 3, False), (3, 257, False), (300, 300, False), (1, 8192, False), (8192, 1, False), (1024, 64, False),
    (257, 3, True), (3, 257, True), (300, 300, True), (1, 8192, True), (512, 3, True), (64, 1030, True),
)
# Here each site of a high pile topples some 10**7 times, which takes a plain loop hours.
LONGEST = (8192, 3, True)
SEAMS = (0, 7, 8, 255, 256, 257, 511, 512, 1023, 1024, 1025, 1039)


def taken(given, cylinder):
    """What each site takes if each site gives so much to each of its neighbours."""
    took = np.zeros_like(given)
    took[1:] += given[:-1]
    took[:-1] += given[1:]
    took[:, 1:] += given[:, :-1]
    took[:, :-1] += given[:, 1:]
    if cylinder:
        took[:, 0] += given[:, -1]
        took[:, -1] += given[:, 0]
    return took


def toppled(pile, odometer, cylinder):
    """The heights once each site has toppled so often: p - L u."""
    return pile - 4 * odometer + taken(odometer, cylinder)


def plain_settle(pile, cylinder):
    """The odometer: all sites that can topple do, as often as they can, until none can."""
    heights, odometer = pile.astype(np.int64), np.zeros(pile.shape, np.int64)
    while (each := heights >> 2).any():
        odometer += each
        heights = toppled(heights, each, cylinder)
    return odometer


def plain_times(pile, cylinder):
    """In each step all sites burn that have at least as many grains as unburnt neighbours."""
    times, step = np.full(pile.shape, -1), 0
    while ((times < 0) & (pile >= taken((times < 0).astype(int), cylinder))).any():
        step += 1
        times[(times < 0) & (pile >= taken((times < 0).astype(int), cylinder))] = step
    return times


class Plain:
    """A pile on which grains drop, with a queue of Python."""

    def __init__(self, pile, cylinder):
        (self.height, self.width), self.cylinder = pile.shape, cylinder
        self.heights = pile.ravel().tolist()

    def beside(self, site):
        row, column = divmod(site, self.width)
        for i, j in ((row - 1, column), (row, column - 1), (row, column + 1), (row + 1, column)):
            if self.cylinder:
                j %= self.width
            if 0 <= i < self.height and 0 <= j < self.width:
                yield i * self.width + j

    def distance(self, one, other):
        (i, j), (k, l) = divmod(one, self.width), divmod(other, self.width)
        across = abs(j - l)
        return abs(i - k) + (min(across, self.width - across) if self.cylinder else across)

    def wave(self, site):
        """The sites of a wave: this one topples, and then each other that has four grains, once."""
        topples, due = {site}, deque([site])
        while due:
            at = due.popleft()
            self.heights[at] -= 4
            for side in self.beside(at):
                self.heights[side] += 1
                if self.heights[side] > 3 and side not in topples:
                    topples.add(side)
                    due.append(side)
        return topples

    def drop(self, site):
        """The size, the area, the reach and the lost grains of an avalanche, and the sizes of its waves."""
        before = sum(self.heights)
        self.heights[site] += 1
        waves = []
        while self.heights[site] > 3:
            waves.append(self.wave(site))
        area = set().union(*waves)
        reach = max((self.distance(site, at) for at in area), default=0)
        return (sum(map(len, waves)), len(area), reach, before + 1 - sum(self.heights)), [*map(len, waves)]


def random_pile(grid, least, most):
    height, width, cylinder = grid
    return np.random.default_rng(height + width + cylinder).integers(least, most + 1, (height, width))


class Settling(unittest.TestCase):
    def is_settled(self, pile, cylinder):
        """What settling must satisfy: heights from 0 to 3, p - L u, no grain made or missed, topplings counted."""
        settled = sandpile.settle(pile, cylinder)
        self.assertTrue(0 <= settled.pile.min() and settled.pile.max() <= 3 and settled.odometer.min() >= 0)
        self.assertTrue(same(settled.pile, toppled(pile, settled.odometer, cylinder)))
        self.assertEqual(settled.pile.sum() + settled.lost, pile.sum())
        self.assertEqual(settled.topplings, settled.odometer.sum())
        return settled

    def test_against_a_plain_loop(self):
        for grid in GRIDS:
            with self.subTest(grid=grid):
                pile, cylinder = random_pile(grid, 0, 3), grid[2]
                pile[grid[0] // 2, grid[1] // 2] += 900
                self.assertTrue(same(self.is_settled(pile, cylinder).odometer, plain_settle(pile, cylinder)))

    def test_high_piles(self):
        # A pile of at least 3 everywhere settles to a recurrent one, and the least odometer is that of which each later one has
        # more: after it, no set of sites can take back a toppling each, which is burning.
        for grid in (*GRIDS, LONGEST):
            with self.subTest(grid=grid):
                pile = random_pile(grid, 3, 7)
                settled = self.is_settled(pile, grid[2])
                self.assertTrue(sandpile.burn(settled).is_recurrent)

    def test_a_stack_is_its_piles(self):
        for height, width, cylinder in GRIDS[:5]:
            stack = np.random.default_rng(1).integers(0, 5, (3, height, width))
            settled = sandpile.settle(stack, cylinder)
            for number, pile in enumerate(stack):
                one = sandpile.settle(pile, cylinder)
                self.assertTrue(same(settled.pile[number], one.pile) and same(settled.odometer[number], one.odometer))
                self.assertEqual((settled.lost[number], settled.topplings[number]), (one.lost, one.topplings))

    def test_towers_at_seams(self):
        for shape in ((40, 1040), (1040, 40)):
            for at in SEAMS:
                pile = np.zeros(shape, int)
                place = (7, at) if shape[0] < shape[1] else (at, 8)
                pile[place] = 1000
                with self.subTest(shape=shape, at=at):
                    for cylinder in (False, True):
                        self.assertTrue(same(sandpile.settle(pile, cylinder).odometer, plain_settle(pile, cylinder)))


class Drops(unittest.TestCase):
    def matches(self, run, plain, table, waves):
        """Whether rows of a table, and their waves, are those of plain drops."""
        for row in table:
            avalanche, sizes = plain.drop(int(row["site"]))
            self.assertEqual(tuple(row.tolist()[2:]), avalanche)
            self.assertEqual(waves["size"][waves["number"] == row["number"]].tolist(), sizes)
        self.assertEqual(run.pile.ravel().tolist(), plain.heights)

    def test_against_a_plain_queue(self):
        for grid in GRIDS:
            with self.subTest(grid=grid):
                cylinder = grid[2]
                start = sandpile.random_recurrent(grid[:2], seed=3, cylinder=cylinder)
                run, plain = sandpile.Drive(start, seed=5), Plain(start.pile, cylinder)
                self.matches(run, plain, *run.drop(15, waves=True))

    def test_the_longest_cylinder(self):
        start = random_pile(LONGEST, 0, 3)
        start[4000, 1] += 60
        settled, odometer = sandpile.settle(start, cylinder=True), plain_settle(start, True)
        self.assertTrue(same(settled.odometer, odometer) and same(settled.pile, toppled(start, odometer, True)))
        run = sandpile.Drive(start, seed=5, cylinder=True)
        self.matches(run, Plain(settled.pile, True), *run.drop(30, waves=True))

    def test_at_seams(self):
        for shape in ((24, 1040), (1040, 24)):
            start = sandpile.random_recurrent(shape, seed=2)
            run, plain = sandpile.Drive(start), Plain(start.pile, False)
            rows, columns = ([7, 8], SEAMS) if shape[0] < shape[1] else (SEAMS, [7, 8])
            sites = [row * shape[1] + column for row in rows for column in columns]
            with self.subTest(shape=shape):
                self.matches(run, plain, *run.drop_at(sites, waves=True))

    def test_many_drops_are_one_settling(self):
        for grid in GRIDS:
            with self.subTest(grid=grid):
                start, cylinder = random_pile(grid, 0, 3), grid[2]
                run = sandpile.Drive(start, seed=7, cylinder=cylinder)
                table, waves = run.drop(5_000, waves=True)
                grains = np.bincount(table["site"], minlength=start.size).reshape(start.shape)
                settled = sandpile.settle(start + grains, cylinder)
                self.assertTrue(same(run.pile, settled.pile) and same(run.odometer, settled.odometer))
                self.assertEqual((run.lost, run.topplings), (settled.lost, settled.topplings))
                sums = np.bincount(waves["number"], waves["size"], len(table))
                self.assertEqual(sums.tolist(), table["size"].tolist())
                self.assertTrue((table["area"] <= table["size"]).all())

    def test_sites_of_waves_and_topplings(self):
        for grid in GRIDS[2:8]:
            start = sandpile.random_recurrent(grid[:2], seed=4, cylinder=grid[2])
            one, other = (sandpile.Drive(start, seed=1) for _ in range(2))
            for _ in range(5):
                row, sizes, waves = one.waves()
                expected, topplings = other.avalanche()
                self.assertEqual((row.tolist(), sizes.sum()), (expected.tolist(), expected["size"]))
                self.assertTrue(same(waves.sum(axis=0), topplings))

    def test_the_middle_of_a_full_pile(self):
        # As many waves as the distance to the edge, each a rectangle one smaller.
        run = sandpile.Drive(np.full((301, 305), 3))
        sizes = run.waves(row=150, column=152)[1]
        self.assertEqual(sizes.tolist(), [(301 - 2 * wave) * (305 - 2 * wave) for wave in range(151)])

    def test_many_threads(self):
        start = random_pile((300, 70, False), 0, 5)
        with sandpile.SharedPile(start, quota=600) as pile:
            with pile.split(600, rows=300) as part:
                part.drop(np.arange(600) * 35)
                part.sweep()
            record = pile.settle()
        once = sandpile.settle(start + np.bincount(np.arange(600) * 35, minlength=start.size).reshape(start.shape))
        self.assertTrue(same(record.pile, once.pile) and same(record.odometer, once.odometer))

    def test_copies_saves_and_recordings(self):
        folder = new_folder(self)
        for number, shape in enumerate(((300, 300), (1, 8192), (1024, 64))):
            start = sandpile.random_recurrent(shape, seed=1)
            run = sandpile.Drive(start, seed=1)
            run.drop(200)
            run.save(folder / "run")
            others = [copy.copy(run), pickle.loads(pickle.dumps(run)), sandpile.Drive.load(folder / "run")]
            table = run.drop(100)
            for other in others:
                self.assertTrue(same(other.drop(100), table))
            files = folder / f"{number}.bin", folder / f"{number}.npz"
            sandpile.Drive(start, seed=1).record(150, *files)
            rows = sandpile.Drive(start, seed=1).record(300, *files)
            self.assertTrue(same(np.array(rows[200:]), table))

    def test_replicas(self):
        tables = list(sandpile.replicas((300, 260), seed=7, streams=range(3), drops=200))
        for stream, table in enumerate(tables):
            start = sandpile.random_recurrent((300, 260), np.random.SeedSequence(7, spawn_key=(stream,)))
            self.assertTrue(same(table["size"], sandpile.Drive(start, 7, stream).drop(200)["size"]))


class Burning(unittest.TestCase):
    def test_times_against_plain_steps(self):
        for grid in GRIDS:
            cylinder = grid[2]
            for pile in (sandpile.random_recurrent(grid[:2], seed=1, cylinder=cylinder).pile, random_pile(grid, 0, 3)):
                with self.subTest(grid=grid):
                    burned, times = sandpile.burn(pile, cylinder), plain_times(pile, cylinder)
                    self.assertTrue(same(burned.time, times))
                    self.assertTrue(same(burned.forbidden, times < 0))
                    self.assertEqual(burned.is_recurrent, (times > 0).all())
                    if burned.is_recurrent:
                        self.assertEqual(sorted(burned.order.tolist()), list(range(pile.size)))

    def test_a_stack(self):
        stack = [np.full((300, 260), 3), np.zeros((300, 260), int)]
        burned = sandpile.burn(stack)
        self.assertEqual(burned.is_recurrent.tolist(), [True, False])
        self.assertTrue(same(burned.time[0], plain_times(stack[0], False)))


class Group(unittest.TestCase):
    def test_classes(self):
        for grid in GRIDS:
            with self.subTest(grid=grid):
                pile, cylinder = random_pile(grid, -4, 6), grid[2]
                element, vector = sandpile.recurrent(pile, cylinder, firing=True)
                self.assertTrue(same(element.pile, toppled(pile, vector, cylinder)))
                self.assertTrue(sandpile.burn(element).is_recurrent)
                least = sandpile.superstable(pile, cylinder)
                self.assertTrue(sandpile.burn(3 - least, cylinder).is_recurrent)
                self.assertTrue(sandpile.recurrent(least, cylinder) == element)

    def test_what_is_superstable(self):
        # On the way the heights 15 - 2 s settle, where s is what 6 at each site settle to. A guess takes back over 10**4 topplings
        # of some sites.
        pile = np.zeros((512, 512), int)
        pile[256, 256] = 1
        self.assertTrue(same(sandpile.superstable(pile), pile))

    def test_sums(self):
        for height, width, cylinder in (*GRIDS[:3], *GRIDS[4:8]):  # on (1, 8192) this takes long
            with self.subTest(grid=(height, width, cylinder)):
                a, b = (sandpile.random_recurrent((height, width), seed, cylinder) for seed in (1, 2))
                zero = sandpile.identity((height, width), cylinder)
                self.assertTrue(a + b == b + a and a + zero == a and a - a == zero)
                self.assertTrue(sandpile.recurrent(np.zeros((height, width), int), cylinder) == zero)
                self.assertTrue(2**70 * a + 3 * a == (2**70 + 3) * a)
                self.assertTrue(same((a + b).pile, sandpile.settle(a.pile + b.pile, cylinder).pile))

    def test_trees(self):
        for height, width, cylinder in (*GRIDS, LONGEST):
            with self.subTest(grid=(height, width, cylinder)):
                element = sandpile.random_recurrent((height, width), seed=6, cylinder=cylinder)
                tree, times = element.tree(), sandpile.burn(element).time
                self.assertTrue(sandpile.Recurrent.from_tree(tree) == element)
                # The edge of a site leads to a site that burns one step before, and the sink burns in step 0.
                self.assertTrue(same(np.append(times.ravel(), 0)[tree.parents], times - 1))
                self.assertTrue(same(tree.parents, self.plain_parents(tree.directions, cylinder)))

    def plain_parents(self, directions, cylinder):
        height, width = directions.shape
        rows, columns = np.indices(directions.shape)
        rows += np.choose(directions, [-1, 0, 0, 1])
        columns += np.choose(directions, [0, -1, 1, 0])
        if cylinder:
            columns %= width
        inside = (rows >= 0) & (rows < height) & (columns >= 0) & (columns < width)
        return np.where(inside, rows * width + columns, height * width)
