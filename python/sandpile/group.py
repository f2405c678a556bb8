"""The sandpile group (Dhar 1990): recurrent piles, added by settling their sum.

A sum settles one pile, of heights up to 6, and an inverse two. A multiple settles a pile for each digit of n, in the greatest base
that a pile has room for. The space is proportional to the sites. A stack of elements is computed pile by pile.
"""

from __future__ import annotations

from typing import TYPE_CHECKING, Any, Iterator, Literal, Sequence, SupportsIndex, overload

import numpy as np
from numpy.typing import ArrayLike, NDArray

from . import faults
from ._arrays import (
    HasPile, Heights, checked_edge, directions_of, edge_of, heights_and_edge, index_of, new_array, shape_of, site_at,
)
from ._hints import OF_ELEMENT, Hinted
from ._library import call
from ._memory import room_for
from ._places import by_name
from ._stacks import each_class, each_pile
from .burning import burned, burned_stack
from .faults import Fault, ShapeError
from .settling import settle
from .trees import Tree, directions_to, heights_of_tree

_COPY = "a copy of the heights"


def _refuse_array(other: object) -> None:
    """Raises an error for an array, before its class can take the heights site by site, as masked arrays do."""
    if isinstance(other, np.ndarray):
        raise TypeError("the group adds elements, and multiplies them by integers; recurrent(array) is the element of an array")


class Recurrent(HasPile, Hinted):
    """A recurrent pile, as an element of the group of its grid; or a stack of them, with operations pile by pile.

    ``a + b``, ``a - b``, ``-a``, ``n * a`` for any integer ``n``, and ``a == b`` are those of the group; `sum` adds several
    elements. They are hashable, and have no order. ``numpy.asarray(a)`` and ``a.pile`` are the heights, and
    ``a[row, column]`` is one of them. ``==`` and ``!=`` with an array compare site by site; any other operator with an array
    is a `TypeError`. Only masked arrays do not ask: ``masked += a`` and ``masked < a`` use the heights. Nor do NumPy's own
    functions: they take a list of elements for the stack of its heights, so ``numpy.mean([a, b], axis=0)`` is the mean
    pile, and ``numpy.sum([a, b])`` is the number of grains, not the sum in the group.

    An element is added to each of a stack. ``==`` of two stacks is one bool, and ``a.pile[2]`` is the third pile of a stack.

    Parameters
    ----------
    pile : array_like of int
        A recurrent pile, shape (height, width), or a stack of them, shape (k, height, width). `recurrent` takes any pile.
    cylinder : bool, optional
        Whether the first and the last column are neighbours. By default as in `pile` if that has a `cylinder`, else False.

    Raises
    ------
    Fault
        Side (1), Narrow (24), TooManyGrains (3), Unstable (7), NotRecurrent (8), Memory (4), or Shapes (9) if `pile` has
        the other edge. Adding elements of different grids raises Shapes, too, and so do stacks of different lengths.
    ValueError
        If a height is below 0, or `pile` has neither two nor three dimensions; the latter is also a `TypeError`.
    TypeError
        If the heights are not integers.

    See Also
    --------
    recurrent : the element that is equivalent to a pile
    identity : the neutral element
    burn : whether a pile is recurrent

    Notes
    -----
    The group, and the operators `act` that generate it, are those of Dhar [1]_.

    References
    ----------
    .. [1] D. Dhar, "Self-organized critical state of sandpile automaton models", Physical Review Letters 64 (1990)
       1613-1616.

    Examples
    --------
    >>> import sandpile
    >>> a = sandpile.Recurrent([[3, 2], [2, 2]])
    >>> a + a
    Recurrent([[0, 3],
               [3, 2]])
    >>> 24 * a == a - a == sandpile.identity((2, 2))
    True
    >>> 10**30 * a == -a + a + (10**30 % 24) * a
    True
    """

    __slots__ = ("_pile", "_cylinder")
    _HINTS = OF_ELEMENT
    # NumPy then leaves the operators to this class, so `array + a` does not add the heights site by site.
    __array_ufunc__ = None

    def __init__(self, pile: ArrayLike, cylinder: bool | None = None) -> None:
        heights, edge = heights_and_edge(pile, cylinder, may_be_stack=True)
        if heights.ndim == 3:
            for number in np.flatnonzero(~burned_stack(heights, edge).is_recurrent)[:1]:
                raise Fault(faults.NOT_RECURRENT, f"pile {number} of the stack is not recurrent: some of its sites form a forbidden set")
        elif not burned(heights, edge).is_recurrent:
            raise Fault(faults.NOT_RECURRENT)
        self._keep(heights, edge)

    def _keep(self, heights: Heights, cylinder: bool) -> None:
        heights.flags.writeable = False
        # Nobody can make a view of it writeable, and so change what has a hash.
        self._pile, self._cylinder = heights.view(), cylinder

    @classmethod
    def _known(cls, heights: Heights, cylinder: bool) -> Recurrent:
        """The element of a new array from the library, which is known to be recurrent."""
        element = cls.__new__(cls)
        element._keep(heights, cylinder)
        return element

    @property
    def pile(self) -> Heights:
        """The heights, from 0 to 3; shape (height, width), or (k, height, width) of a stack; int64, read-only."""
        return self._pile

    @property
    def cylinder(self) -> bool:
        """Whether the first and the last column are neighbours."""
        return self._cylinder

    @property
    def shape(self) -> tuple[int, int]:
        """The height and the width of the grid."""
        height, width = self._pile.shape[-2:]
        return height, width

    @by_name()
    def act(
        self, site: SupportsIndex | None = None, *, row: SupportsIndex | None = None, column: SupportsIndex | None = None
    ) -> Recurrent:
        """The element after a grain drops at a site and the pile settles. This is Dhar's operator of the site; any two
        operators commute.

        Parameters
        ----------
        site : int
            The number of the site, row * width + column.
        row, column : int
            Instead of `site`, its row and its column, each from 0.

        Returns
        -------
        Recurrent
            The new element; this one does not change.

        Raises
        ------
        Fault
            NoSite (25) if the site is outside the grid, or Memory (4).
        TypeError
            If the site, or its row and its column, are not integers.

        See Also
        --------
        Drive.avalanche : how often each site topples meanwhile

        Examples
        --------
        >>> import sandpile
        >>> a = sandpile.Recurrent([[3, 2], [2, 2]])
        >>> a.act(0)
        Recurrent([[0, 3],
                   [3, 2]])
        >>> a.act(0).act(row=1, column=1) == a.act(3).act(0)
        True
        """
        heights = self._copied()
        height, width = self.shape
        heights.reshape(-1, height * width)[:, site_at(site, row, column, self.shape)] += 1
        return Recurrent._known(settle(heights, self._cylinder).pile, self._cylinder)

    def multiple(self, n: SupportsIndex, progress: bool = False) -> Recurrent:
        """The sum of `n` copies of this element, which is ``n * self``.

        Parameters
        ----------
        n : int
            Any integer. If it is negative, the copies are those of the inverse.
        progress : bool
            Whether to show how long it takes, as `settle` does.

        Raises
        ------
        Fault
            Memory (4).
        TypeError
            If `n` is not an integer.

        Examples
        --------
        >>> import sandpile
        >>> a = sandpile.Recurrent([[3, 2], [2, 2]])
        >>> a.multiple(25) == a, a.multiple(-1) == -a
        (True, True)
        """
        return self._multiple(index_of(n, "a multiple"), progress)

    def tree(self) -> Tree:
        """The spanning tree of this element, by the burning bijection [1]_.

        The edge of a site leads to a neighbour that burns one step earlier, or to the sink. The height of the site tells to
        which of these: if k of its edges lead to what burns earlier, it is the first in the order north, west, east, south if
        the height is 4 - k, and one further for each grain more.

        Returns
        -------
        Tree
            The tree. ``Recurrent.from_tree`` returns the element again.

        Raises
        ------
        Fault
            Memory (4).
        ValueError
            If this is a stack.

        See Also
        --------
        burn : ``burn(a).time`` is how many edges lead from each site to the sink

        References
        ----------
        .. [1] S. N. Majumdar and D. Dhar, "Equivalence between the Abelian sandpile model and the q->0 limit of the Potts
           model", Physica A 185 (1992) 129-145.

        Examples
        --------
        >>> import sandpile
        >>> sandpile.Recurrent([[0, 1, 3]]).tree().directions
        array([[2, 2, 3]])
        """
        if self._pile.ndim != 2:
            raise ShapeError("a tree is that of a single element, but this is a stack")
        directions = new_array(self.shape, np.uint8, "a tree")
        call("tree", self.shape, self._cylinder, self._pile, directions)
        with room_for("a tree"):
            return Tree(directions.astype(np.int64), self._cylinder)

    @overload
    @classmethod
    def from_tree(cls, directions: ArrayLike | Tree, cylinder: bool | None = None) -> Recurrent: ...

    @overload
    @classmethod
    def from_tree(cls, *, cylinder: bool | None = None, parents: ArrayLike) -> Recurrent: ...

    @classmethod
    def from_tree(cls, directions: Any = None, cylinder: bool | None = None, *, parents: Any = None) -> Recurrent:
        """The element of a spanning tree: `tree` of the element is the tree again.

        Parameters
        ----------
        directions : Tree, or array_like of int
            The direction of the edge of each site towards the sink, shape (height, width): 0 north, 1 west, 2 east, 3 south.
            An edge that leads out of the grid leads to the sink.
        cylinder : bool, optional
            Whether the first and the last column are neighbours. By default as in `directions` if that is a tree, else False.
        parents : array_like of int
            Instead of `directions`, to which neighbour the edge of each site leads, as in `Tree.parents`: by its number, row *
            width + column, or height * width for the sink. Parents do not tell two edges to the sink apart, such as those of a
            corner: then it is the first one, in the order of the directions.

        Raises
        ------
        Fault
            Side (1), Narrow (24), NotTree (28) if a direction is not from 0 to 3, a parent is no neighbour, or some edges form a
            cycle, Memory (4), or Shapes (9) if the tree has the other edge.
        ValueError
            If `directions` or `parents` is not two-dimensional; this is also a `TypeError`.
        TypeError
            If the directions or the parents are not integers, or both are given, or none.

        See Also
        --------
        Recurrent.tree : the bijection, and the way back
        random_recurrent : the element of a random spanning tree

        Examples
        --------
        >>> import sandpile
        >>> sandpile.Recurrent.from_tree([[2, 2, 3]])
        Recurrent([[0, 1, 3]])
        >>> sandpile.Recurrent.from_tree(parents=[[1, 2, 3]])
        Recurrent([[0, 1, 1]])
        """
        if parents is not None:
            if directions is not None:
                raise TypeError("a tree is given by directions or by parents, not by both")
            edge = edge_of(set(), cylinder)
            return cls._known(heights_of_tree(directions_to(parents, edge), edge, "parents"), edge)
        edges = {directions.cylinder} if isinstance(directions, Tree) else set()
        ways = directions_of(directions.directions if isinstance(directions, Tree) else directions)
        edge = edge_of(edges, cylinder)
        return cls._known(heights_of_tree(ways, edge), edge)

    def _copied(self) -> Heights:
        with room_for(_COPY):
            return self._pile.copy()

    def _made(self, name: str, *arguments: Any, progress: bool = False) -> Recurrent:
        """The element that an export of the library makes from this one."""
        heights = self._copied()
        for one in _piles(heights):
            call(name, self.shape, self._cylinder, one, *arguments, progress=progress)
        return Recurrent._known(heights, self._cylinder)

    def _is_beside(self, other: Recurrent) -> bool:
        return self.shape == other.shape and self._cylinder == other._cylinder

    def _sum(self, other: Recurrent) -> Recurrent:
        """The sum of two elements, or of the piles of a stack and those of another one, or one element."""
        if self._pile.ndim == other._pile.ndim == 2:
            return self._made("add", other._pile)
        counts = [len(_piles(a._pile)) for a in (self, other) if a._pile.ndim == 3]
        if min(counts) != max(counts):
            raise Fault(faults.SHAPES, f"one stack has {counts[0]} piles, but the other {counts[1]}")
        shape = (*counts[:1], *self.shape)
        with room_for("the heights of a stack"):
            heights, others = (np.array(np.broadcast_to(a._pile, shape), order="C") for a in (self, other))
        for one, another in zip(heights, others):
            call("add", self.shape, self._cylinder, one, another)
        return Recurrent._known(heights, self._cylinder)

    if not TYPE_CHECKING:  # so that a type checker refuses these operators, too

        def _refuse(self, other: object) -> Any:
            _refuse_array(other)
            return NotImplemented

        def _has_no_order(self, other: object) -> Any:
            if isinstance(other, np.ndarray):
                raise TypeError("elements of the group have no order; the array `.pile` of one has")
            return NotImplemented

        __truediv__ = __floordiv__ = __mod__ = __pow__ = __matmul__ = _refuse
        __rsub__ = __rtruediv__ = __rfloordiv__ = __rmod__ = __rpow__ = __rmatmul__ = _refuse
        __lt__ = __le__ = __gt__ = __ge__ = _has_no_order

    def __add__(self, other: Recurrent) -> Recurrent:
        if not isinstance(other, Recurrent):
            _refuse_array(other)
            return NotImplemented
        if not self._is_beside(other):
            raise Fault(faults.SHAPES)
        return self._sum(other)

    def __radd__(self, other: int) -> Recurrent:
        """``0 + a``, with which `sum` begins."""
        if type(other) is int and other == 0:
            return self
        _refuse_array(other)
        return NotImplemented

    def __neg__(self) -> Recurrent:
        return self._made("inverse")

    def __sub__(self, other: Recurrent) -> Recurrent:
        if not isinstance(other, Recurrent):
            _refuse_array(other)
            return NotImplemented
        return self + -other

    def __mul__(self, times: SupportsIndex) -> Recurrent:
        if isinstance(times, np.ndarray) and (times.ndim or type(times) is not np.ndarray):
            _refuse_array(times)
        try:
            n = index_of(times, "a multiple")
        except TypeError:
            return NotImplemented
        return self._multiple(n)

    def _multiple(self, n: int, progress: bool = False) -> Recurrent:
        """The sum of `n` copies. The library takes an `n` below 2**64, so the bits of a larger one are read from the highest on,
        63 at once."""
        if n < 0:
            return (-self)._multiple(-n, progress)

        def times(a: Recurrent, n: int) -> Recurrent:
            return a._made("multiple", n, progress=progress)

        left = (n.bit_length() - 1) // 63 * 63 if n >> 64 else 0
        total = times(self, n >> left)
        while left:
            left -= 63
            total = times(total, 1 << 63) + times(self, n >> left & (1 << 63) - 1)
        return total

    __rmul__ = __mul__

    @overload
    def __eq__(self, other: NDArray[Any]) -> NDArray[np.bool_]: ...  # type: ignore

    @overload
    def __eq__(self, other: object) -> bool: ...

    def __eq__(self, other: object) -> Any:
        if isinstance(other, np.ndarray):
            return self._pile == other
        if not isinstance(other, Recurrent):
            return NotImplemented
        return self._cylinder == other._cylinder and np.array_equal(self._pile, other._pile)

    @overload
    def __ne__(self, other: NDArray[Any]) -> NDArray[np.bool_]: ...  # type: ignore

    @overload
    def __ne__(self, other: object) -> bool: ...

    def __ne__(self, other: object) -> Any:
        return self._pile != other if isinstance(other, np.ndarray) else not self == other

    def __hash__(self) -> int:
        return hash((self._pile.shape, self._cylinder, self._pile.tobytes()))

    def __getitem__(self, key: Any) -> Any:
        return self._pile[key]

    def __iter__(self) -> Iterator[Any]:
        return iter(self._pile)

    def __reduce__(self) -> tuple[Any, tuple[Heights, bool]]:
        return Recurrent._known, (self._pile, self._cylinder)

    def __repr__(self) -> str:
        edge = ", cylinder=True" if self._cylinder else ""
        return f"Recurrent({np.array2string(self._pile, separator=', ', prefix='Recurrent(')}{edge})"


def _piles(heights: Heights) -> Sequence[Heights]:
    """The piles of a stack, or the only one."""
    return [*heights] if heights.ndim == 3 else [heights]


def identity(shape: Sequence[SupportsIndex], cylinder: bool = False, progress: bool = False) -> Recurrent:
    """The identity of the group of a grid.

    Parameters
    ----------
    shape : tuple of int
        The height and the width of the grid, each from 1 to 8,192.
    cylinder : bool
        Whether the first and the last column are neighbours.
    progress : bool
        Whether to show how long it takes, as `settle` does.

    Raises
    ------
    Fault
        Side (1), Narrow (24) or Memory (4).
    TypeError
        If `shape` is not two integers, or `cylinder` is not True or False.

    See Also
    --------
    recurrent : the element that is equivalent to a pile; ``recurrent(numpy.zeros(shape, int))`` is the identity, too
    Recurrent : the operations of the group

    Notes
    -----
    The identity is the recurrent pile that is equivalent to the empty one [1]_.

    References
    ----------
    .. [1] D. Dhar, "Self-organized critical state of sandpile automaton models", Physical Review Letters 64 (1990)
       1613-1616.

    Examples
    --------
    >>> import sandpile
    >>> sandpile.identity((2, 3)).pile
    array([[2, 1, 2],
           [2, 1, 2]])
    """
    heights, edge = new_array(shape_of(shape), np.int64, "the heights"), checked_edge(cylinder)
    call("identity", heights.shape, edge, heights, progress=progress)
    return Recurrent._known(heights, edge)


@overload
def recurrent(
    pile: ArrayLike, cylinder: bool | None = None, firing: Literal[False] = False, progress: bool = False
) -> Recurrent: ...


@overload
def recurrent(
    pile: ArrayLike, cylinder: bool | None = None, *, firing: Literal[True], progress: bool = False
) -> tuple[Recurrent, NDArray[np.int64]]: ...


@overload
def recurrent(pile: ArrayLike, cylinder: bool | None = None, firing: bool = False, progress: bool = False) -> Any: ...


def recurrent(pile: ArrayLike, cylinder: bool | None = None, firing: bool = False, progress: bool = False) -> Any:
    """The recurrent pile equivalent to a pile, or to each pile of a stack: they differ by topplings, forward or backward.

    Parameters
    ----------
    pile : array_like of int
        Grains on each site, shape (height, width), sides from 1 to 8,192, any integer type. Heights may be negative. Not
        modified. An array of shape (k, height, width), or a list of piles of one shape, is a stack, which may be empty.
    cylinder : bool, optional
        Whether the first and the last column are neighbours. By default as in `pile` if that has a `cylinder`, else False.
    firing : bool
        Whether to return also how often each site topples.
    progress : bool
        Whether to show how long it takes, as `settle` does.

    Returns
    -------
    element : Recurrent
        The recurrent pile, or a stack of them.
    vector : numpy.ndarray
        Only with `firing`: how often each site topples to get from the pile to the recurrent one, and if this is negative, how
        often backward; the shape of `pile`, int64. With the toppling matrix L, the recurrent pile is the given one minus L
        times this. No other vector has this property.

    Raises
    ------
    Fault
        Side (1), Narrow (24), TooManyGrains (3) if the absolute values of the heights sum to more than the `grain_limit`,
        Memory (4), or Shapes (9) if `pile` has the other edge.
    ValueError
        If `pile` has neither two nor three dimensions; this is also a `TypeError`.
    TypeError
        If the heights are not integers.

    See Also
    --------
    Recurrent : the operations of the group
    identity : the neutral element
    superstable : the superstable pile equivalent to a pile
    burn : whether a pile is recurrent
    settle : the stable pile that a pile becomes by topplings forward

    Notes
    -----
    Each pile is equivalent to exactly one recurrent pile [1]_, also if it has negative heights [2]_.

    References
    ----------
    .. [1] D. Dhar, "Self-organized critical state of sandpile automaton models", Physical Review Letters 64 (1990)
       1613-1616.
    .. [2] L. Babai and I. Gorodezky, "Sandpile transience on the grid is polynomially bounded", Proceedings of the 18th
       ACM-SIAM Symposium on Discrete Algorithms (2007) 627-636.

    Examples
    --------
    >>> import sandpile
    >>> a = sandpile.recurrent([[0, 0, 0], [0, 0, 1]])
    >>> a + sandpile.recurrent([[9, 0, 0], [0, 0, 0]]) == sandpile.recurrent([[9, 0, 0], [0, 0, 1]])
    True
    >>> (a + sandpile.recurrent([[[0, 0, 0], [0, 0, 0]], [[9, 0, 0], [0, 0, 0]]])).pile[1]
    array([[1, 0, 3],
           [1, 3, 3]])
    >>> sandpile.recurrent([[0, -1, 0]], firing=True)
    (Recurrent([[3, 1, 3]]), array([[-1, -1, -1]]))
    """
    heights, edge = heights_and_edge(pile, cylinder, may_be_stack=True, may_be_negative=True)
    if not firing and not (heights.size and heights.min() < 0):
        each_pile("recurrent", heights, edge, progress=progress)
        return Recurrent._known(heights, edge)
    vector = new_array(heights.shape if firing else 0, np.int64, "the firing vector")
    each_class("class", heights, edge, vector, progress=progress)
    element = Recurrent._known(heights, edge)
    return (element, vector) if firing else element
