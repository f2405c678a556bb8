"""Spanning trees, each of which stands for a recurrent pile: the burning bijection (Majumdar and Dhar 1992).

The fire of Dhar's burning test comes from the sink. A site burns one step after some of its neighbours; its height tells from
which of them the fire came. So each site has an edge towards the sink, and these edges are a spanning tree of the sites and the
sink.
"""

from __future__ import annotations

from collections.abc import Iterator
from dataclasses import dataclass
from typing import Any, SupportsIndex

import numpy as np
from numpy.typing import ArrayLike, NDArray

from . import faults
from ._arrays import check_parents, directions_of, new_array, parents_of, site_at
from ._grid import COLUMNS, DIRECTIONS, ROWS, beside
from ._hints import OF_TREE, Hinted
from ._library import call
from ._memory import room_for
from ._places import by_name
from ._png import Pictured
from ._results import Result
from .faults import Fault

# So many sites find their parents at once, in little memory.
_SITES_AT_ONCE = 1 << 20
# The colours of 3 grains and 0 grains.
_PATH, _WALL = 3, 0


@dataclass(frozen=True, eq=False, repr=False)
class Tree(Result, Pictured, Hinted):
    """A spanning tree of a grid and the sink. Its picture has a light square for each site and each edge.

    Attributes
    ----------
    directions : numpy.ndarray
        Where the edge of each site towards the sink leads: 0 north, 1 west, 2 east, 3 south; shape (height, width), int64. An
        edge that leads out of the grid leads to the sink.
    cylinder : bool
        Whether the first and the last column are neighbours.
    parents : numpy.ndarray
        To which site the edge of each site leads, by number, ``row * width + column``, or ``height * width`` for the sink;
        shape (height, width), int64.
    depth : numpy.ndarray
        How many edges lead from each site to the sink, from 1 on; shape (height, width), int64. It is the ``burn(a).time`` of the
        element `a` of this tree.

    Examples
    --------
    >>> import sandpile
    >>> tree = sandpile.Recurrent([[0, 1, 3]]).tree()
    >>> tree.directions, tree.parents, tree.depth, tree.path(0)
    (array([[2, 2, 3]]), array([[1, 2, 3]]), array([[3, 2, 1]]), array([0, 1, 2]))
    """

    _HINTS = OF_TREE

    directions: NDArray[np.int64]
    cylinder: bool
    _ARRAY = "directions"

    @property
    def parents(self) -> NDArray[np.int64]:
        """To which site the edge of each site leads, by number, and ``height * width`` for the sink; shape (height, width), int64."""
        ways = self.directions.ravel()
        ends = new_array(ways.size, np.int64, "the parents of a tree")
        for some in _parts(ways.size):
            ends[some[0] : some[-1] + 1] = beside(some, ways[some], self.directions.shape, self.cylinder)
        return ends.reshape(self.directions.shape)

    @property
    def depth(self) -> NDArray[np.int64]:
        """How many edges lead from each site to the sink, from 1 on; shape (height, width), int64."""
        heights = heights_of_tree(directions_of(self.directions), self.cylinder)
        depths = new_array(heights.shape, np.uint32, "the depths of a tree")
        call("burn_times", heights.shape, self.cylinder, heights, depths)
        with room_for("the depths of a tree"):
            return depths.astype(np.int64)

    @by_name()
    def path(
        self, site: SupportsIndex | None = None, *, row: SupportsIndex | None = None, column: SupportsIndex | None = None
    ) -> NDArray[np.int64]:
        """The sites on the way from a site to the sink, this one first.

        Parameters
        ----------
        site : int
            The number of the site, row * width + column.
        row, column : int
            Instead of `site`, its row and its column, each from 0.

        Returns
        -------
        numpy.ndarray
            Their numbers, shape (n,), int64, where n is the `depth` of the site. The last edge leads to the sink, which is no site.

        Raises
        ------
        Fault
            NoSite (25) if the site is outside the grid, or NotTree (28) if the edges from it form a cycle.
        TypeError
            If the site, or its row and its column, are not integers.

        Examples
        --------
        >>> import numpy, sandpile
        >>> tree = sandpile.Recurrent([[2, 1, 2], [1, 0, 1], [2, 1, 2]]).tree()
        >>> numpy.divmod(tree.path(row=1, column=2), 3)
        (array([1, 0]), array([2, 2]))
        """
        (height, width), found = self.directions.shape, [site_at(site, row, column, self.directions.shape, "the path asked for")]
        line, at = divmod(found[0], width)
        while len(found) <= height * width:
            way = self.directions.item(line, at)
            line, at = line + ROWS.item(way), at + COLUMNS.item(way)
            at = at % width if self.cylinder else at
            if not (0 <= line < height and 0 <= at < width):
                return np.array(found)
            found.append(line * width + at)
        raise Fault(faults.NOT_TREE, f"from site {found[0]}, no path leads to the sink")

    def _shown(self) -> Any:
        height, width = self.directions.shape
        shown = np.full((2 * height + 1, 2 * width + 1), _WALL, np.uint8)
        shown[1::2, 1::2] = _PATH
        for direction, (row, column) in enumerate(zip(ROWS, COLUMNS)):  # the end of an edge is between two sites
            ends = shown[1 + row : 2 * height + row + 1 : 2, 1 + column : 2 * width + column + 1 : 2]
            ends[self.directions == direction] = _PATH
        if self.cylinder:  # an edge around it has an end on both sides
            shown[:, 0] = shown[:, -1] = shown[:, [0, -1]].max(axis=1)
        return shown


def heights_of_tree(directions: NDArray[np.uint8], cylinder: bool, what: str = "directions") -> NDArray[np.int64]:
    """The heights of the recurrent pile of a tree, whose directions are from 0 to 3. A fault says what is no tree."""
    heights = new_array(directions.shape, np.int64, "the heights")
    try:
        call("of_tree", directions.shape, cylinder, directions, heights)
    except Fault as fault:
        if fault.number != faults.NOT_TREE:
            raise
        row, column = _place_on_a_cycle(directions, cylinder)
        said = f"the {what} are not a spanning tree: from row {row}, column {column} they lead back there"
        raise Fault(faults.NOT_TREE, said) from None
    return heights


def _place_on_a_cycle(directions: NDArray[np.uint8], cylinder: bool) -> tuple[int, int]:
    """The row and the column of a site to which its own edges lead back."""
    sites = directions.size
    ends = np.append(Tree(directions.astype(np.int64), cylinder).parents, sites)  # from the sink to the sink
    for _ in range(sites.bit_length()):  # each time, twice as many edges
        ends = ends[ends]
    return divmod(int(ends[ends < sites][0]), directions.shape[1])


def directions_to(parents: ArrayLike, cylinder: bool) -> NDArray[np.uint8]:
    """The direction of the edge from each site to its parent. If several lead to the sink, it is the first one."""
    ends = parents_of(parents)
    ways = np.full(ends.size, len(DIRECTIONS), np.uint8)
    for some in _parts(ends.size):
        part = slice(some[0], some[-1] + 1)
        for direction in reversed(DIRECTIONS):
            ways[part][beside(some, direction, ends.shape, cylinder) == ends.ravel()[part]] = direction
    check_parents(ends, (ways == len(DIRECTIONS)).reshape(ends.shape))
    return ways.reshape(ends.shape)


def _parts(sites: int) -> Iterator[NDArray[np.int64]]:
    """The numbers of sites, in parts whose neighbours take little memory."""
    for begin in range(0, sites, _SITES_AT_ONCE):
        yield np.arange(begin, min(begin + _SITES_AT_ONCE, sites))
