"""The spanning trees of recurrent piles, by the definition of the bijection, and their pictures."""

import copy
import itertools
import pickle
import unittest

import numpy as np
import sandpile
from tools import same, toppling_matrix

GRIDS = ((2, 2, False), (1, 5, False), (2, 3, True), (1, 4, True))
SHAPES = ((1, 1, False), (1, 256, False), (7, 5, False), (5, 7, True), (256, 1, False), (256, 256, True), (64, 64, False))


def ends(height, width, cylinder):
    """To which site each direction leads from each site, None for the sink."""
    found = {}
    for row, column in itertools.product(range(height), range(width)):
        for way, (down, right) in enumerate(((-1, 0), (0, -1), (0, 1), (1, 0))):
            at = row + down, (column + right) % width if cylinder else column + right
            found[row, column, way] = at if 0 <= at[0] < height and 0 <= at[1] < width else None
    return found


def tree_by_definition(a):
    """Each site's edge leads to what burns one step before; which of these edges, its height says."""
    times, to = sandpile.burn(a).time, ends(*a.shape, a.cylinder)
    directions = np.empty(a.shape, np.int64)
    for site in np.ndindex(a.shape):
        around = [0 if to[(*site, way)] is None else times[to[(*site, way)]] for way in range(4)]
        passed = a[site] - 4 + sum(time < times[site] for time in around)
        directions[site] = [way for way in range(4) if around[way] == times[site] - 1][passed]
    return directions


def depth(directions, to, site):
    """How many edges lead from a site to the sink, or None on the way to a cycle."""
    for edges in range(1, directions.size + 1):
        site = to[(*site, directions[site])]
        if site is None:
            return edges
    return None


class Bijection(unittest.TestCase):
    def test_by_hand(self):
        # The corners burn first, each with two edges to the sink, and then the sides: the sink beside them burnt two steps
        # before, so their edges lead to corners. The middle is last. No site has a grain more than it needs, so all edges are
        # the first ones.
        a = sandpile.Recurrent([[2, 1, 2], [1, 0, 1], [2, 1, 2]])
        self.assertEqual(a.tree().directions.tolist(), [[0, 1, 0], [0, 0, 0], [1, 1, 2]])

    def test_all_trees_of_small_grids(self):
        for height, width, cylinder in GRIDS:
            with self.subTest(height=height, width=width, cylinder=cylinder):
                to, piles = ends(height, width, cylinder), set()
                for ways in itertools.product(range(4), repeat=height * width):
                    directions = np.reshape(ways, (height, width))
                    depths = [depth(directions, to, site) for site in np.ndindex(height, width)]
                    if None in depths:
                        self.assertRaisesRegex(
                            sandpile.Fault, "^fault 28 NotTree: ", sandpile.Recurrent.from_tree, directions, cylinder
                        )
                        continue
                    a = sandpile.Recurrent.from_tree(directions, cylinder)
                    self.assertTrue(same(a.tree().directions, directions))
                    self.assertEqual(sandpile.burn(a).time.ravel().tolist(), depths)
                    piles.add(a)
                self.assertEqual(len(piles), round(np.linalg.det(toppling_matrix(height, width, cylinder))))

    def test_random_piles(self):
        for height, width, cylinder in SHAPES:
            a = sandpile.recurrent(np.random.default_rng(5).integers(0, 8, (height, width)), cylinder)
            tree = a.tree()
            self.assertTrue(same(tree.directions, tree_by_definition(a)))
            self.assertIs(tree.cylinder, cylinder)
            self.assertEqual(sandpile.Recurrent.from_tree(tree), a)
            self.assertEqual(sandpile.Recurrent.from_tree(tree.directions.tolist(), cylinder), a)

    def test_parents(self):
        for height, width, cylinder in SHAPES[:4]:
            tree, to = sandpile.random_recurrent((height, width), 3, cylinder).tree(), ends(height, width, cylinder)
            for site in np.ndindex(height, width):
                at = to[(*site, tree.directions[site])]
                self.assertEqual(tree.parents[site], height * width if at is None else at[0] * width + at[1])


    def test_depths(self):
        depths = sandpile.Recurrent([[2, 1, 2], [1, 0, 1], [2, 1, 2]]).tree().depth
        self.assertEqual(depths.tolist(), [[1, 2, 1], [2, 3, 2], [1, 2, 1]])
        for height, width, cylinder in SHAPES:
            a = sandpile.random_recurrent((height, width), 3, cylinder)
            self.assertTrue(same(a.tree().depth, sandpile.burn(a).time))
        self.assertRaisesRegex(sandpile.Fault, "NotTree", lambda: sandpile.Tree(np.array([[2, 1]]), False).depth)

    def test_paths(self):
        for height, width, cylinder in SHAPES[:5]:
            tree = sandpile.random_recurrent((height, width), 3, cylinder).tree()
            for site, depth in enumerate(tree.depth.ravel()):
                path = tree.path(site)
                self.assertEqual([path[0], len(path), path.dtype], [site, depth, np.int64])
                self.assertEqual(tree.parents.ravel()[path].tolist(), [*path[1:], height * width])
                self.assertTrue(same(tree.path(row=site // width, column=site % width), path))

    def test_no_path(self):
        tree = sandpile.Tree(np.array([[2, 1, 2]]), False)
        self.assertEqual(tree.path(2).tolist(), [2])
        self.assertRaisesRegex(sandpile.Fault, "^fault 28 NotTree: from site 1, no path leads to the sink", tree.path, 1)
        self.assertRaisesRegex(sandpile.Fault, "NoSite: the path asked for is at site 3, but the grid has only", tree.path, 3)
        self.assertRaisesRegex(TypeError, "site must be an integer", tree.path, 1.5)


class Parents(unittest.TestCase):
    def test_the_way_back(self):
        for height, width, cylinder in SHAPES:
            a = sandpile.random_recurrent((height, width), 3, cylinder)
            parents = a.tree().parents
            again = sandpile.Recurrent.from_tree(parents=parents, cylinder=cylinder)
            self.assertTrue(same(again.tree().parents, parents))
            self.assertTrue(same(again.tree().depth, a.tree().depth))
            if cylinder and height > 1:  # each site has at most one edge to the sink
                self.assertEqual(again, a)

    def test_the_first_edge_to_the_sink(self):
        self.assertEqual(sandpile.Recurrent.from_tree(parents=[[1]]).tree().directions.tolist(), [[0]])
        tree = sandpile.Recurrent.from_tree(parents=[[4, 4], [4, 4]]).tree()
        self.assertEqual(tree.directions.tolist(), [[0, 0], [1, 2]])

    def test_each_integer_type(self):
        a = sandpile.random_recurrent((5, 6), 1, cylinder=True)
        for name in "bBhHiIlLqQ":
            parents = np.asfortranarray(a.tree().parents.astype(name))
            self.assertEqual(sandpile.Recurrent.from_tree(parents=parents, cylinder=True), a)
        self.assertEqual(sandpile.Recurrent.from_tree(parents=a.tree().parents.tolist(), cylinder=True), a)

    def test_what_is_none(self):
        from_tree = sandpile.Recurrent.from_tree
        for parents, said in (
            ([[3, 2, 0]], "a parent must be a neighbour, or 3 for the sink beyond the edge, but the one in row 0, column 2 is 0"),
            ([[3], [0], [0]], "must be a neighbour, .* row 2, column 0 is 0"),
            ([[3, 2, 4]], "must be a neighbour, .* row 0, column 2 is 4"),
            ([[3, -1, 3]], "must be a neighbour, .* row 0, column 1 is -1"),
            ([[3, 2**64, 3]], "must be a neighbour, .* row 0, column 1 is 18446744073709551616"),
            ([[3, 1, 3]], "must be a neighbour, .* row 0, column 1 is 1"),
            ([[1, 2, 1]], "the parents are not a spanning tree: from row 0, column [12] they lead back there"),
        ):
            with self.subTest(parents=parents):
                self.assertRaisesRegex(sandpile.Fault, f"^fault 28 NotTree: .*{said}", from_tree, parents=parents)
        inner = np.full((3, 3), 9)
        self.assertRaisesRegex(sandpile.Fault, "or 9 for the sink beyond the edge, .* row 1, column 1 is 9", from_tree, parents=inner)
        for parents, cylinder, number in (([[2, 2]], True, 24), (np.zeros((0, 3), int), None, 1), (np.zeros((1, 8193), int), None, 1)):
            with self.assertRaises(sandpile.Fault) as caught:
                from_tree(parents=parents, cylinder=cylinder)
            self.assertEqual(caught.exception.number, number)
        for kind in (ValueError, TypeError):
            self.assertRaisesRegex(kind, r"parents of a tree must have shape \(height, width\)", from_tree, parents=[1, 2])
        for parents in ([[1.0]], "1", {}, np.ma.masked_array([[1]]), sandpile.identity((2, 2)).tree()):
            self.assertRaises(TypeError, from_tree, parents=parents)
        self.assertRaisesRegex(TypeError, "by directions or by parents, not by both", from_tree, [[0]], parents=[[1]])
        self.assertRaises(TypeError, from_tree)


class Trees(unittest.TestCase):
    def test_what_is_none(self):
        from_tree = sandpile.Recurrent.from_tree
        for directions, said in (
            ([[0, 4]], "directions must be from 0 to 3, but the one in row 0, column 1 is 4"),
            ([[0], [-1]], "directions must be from 0 to 3, but the one in row 1, column 0 is -1"),
            ([[0, 2**64]], "directions must be from 0 to 3, but the one in row 0, column 1 is 18446744073709551616"),
            ([[2, 1]], "the directions are not a spanning tree"),
            ([[0, 2, 1]], "the directions are not a spanning tree: from row 0, column [12] they lead back there"),
            ([[0, 4]], "directions must be from 0 to 3, .*; parents are passed by name"),
        ):
            self.assertRaisesRegex(sandpile.Fault, f"^fault 28 NotTree: {said}", from_tree, directions)
        for directions, cylinder, number in (
            (np.zeros((1, 8193), int), None, 1),
            (np.zeros((0, 3), int), None, 1),
            ([[0, 0]], True, 24),
            (sandpile.identity((3, 3)).tree(), True, 9),
        ):
            with self.assertRaises(sandpile.Fault) as caught:
                from_tree(directions, cylinder)
            self.assertEqual(caught.exception.number, number)
        for directions in ([0, 1], np.zeros((2, 2, 2), int)):
            for kind in (ValueError, TypeError):
                self.assertRaisesRegex(kind, r"directions of a tree must have shape \(height, width\)", from_tree, directions)
        for directions in ([[0.0]], "0", None, {}, [["0"]], np.ma.masked_array([[0]])):
            self.assertRaises(TypeError, from_tree, directions)
        self.assertRaisesRegex(ValueError, "this is a stack", sandpile.recurrent(np.zeros((2, 3, 3), int)).tree)

    def test_each_integer_type(self):
        a = sandpile.random_recurrent((5, 6), 1)
        for name in "bBhHiIlLqQ":
            for order in "<>":
                directions = a.tree().directions.astype(np.dtype(name).newbyteorder(order))
                self.assertEqual(sandpile.Recurrent.from_tree(np.asfortranarray(directions)), a)

    def test_equal_values(self):
        tree = sandpile.random_recurrent((5, 6), 1).tree()
        for again in (copy.deepcopy(tree), pickle.loads(pickle.dumps(tree)), sandpile.random_recurrent((5, 6), 1).tree()):
            self.assertEqual(again, tree)
        self.assertNotEqual(sandpile.random_recurrent((5, 6), 2).tree(), tree)
        self.assertRegex(repr(tree), r"^Tree\(directions=array\(\[\[")

    def test_a_picture(self):
        # The first site leads out in the north, the middle one in the south, and the last one around to the first one.
        self.assertEqual(sandpile.Tree(np.array([[0, 3, 2]]), True)._shown().tolist(),
                         [[0, 3, 0, 0, 0, 0, 0], [3, 3, 0, 3, 0, 3, 3], [0, 0, 0, 3, 0, 0, 0]])
        self.assertEqual(sandpile.Tree(np.array([[0], [0]]), False)._shown().tolist(),
                         [[0, 3, 0], [0, 3, 0], [0, 3, 0], [0, 3, 0], [0, 0, 0]])
        for shape in ((1, 1), (256, 256), (3, 256)):
            self.assertTrue(sandpile.identity(shape).tree()._repr_png_().startswith(b"\x89PNG"))
