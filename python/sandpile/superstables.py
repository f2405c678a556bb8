"""Superstable piles, which are the G-parking functions of a grid and the sink (Postnikov and Shapiro 2004)."""

from __future__ import annotations

from typing import Any

import numpy as np
from numpy.typing import ArrayLike

from ._arrays import Heights, heights_and_edge
from ._memory import room_for
from ._stacks import each_class


def superstable(pile: ArrayLike, cylinder: bool | None = None, progress: bool = False) -> Heights:
    """The superstable pile equivalent to a pile, or to each pile of a stack: they differ by topplings, forward or backward.

    Parameters
    ----------
    pile : array_like of int
        Grains on each site, shape (height, width), sides from 1 to 8,192, any integer type. Heights may be negative. Not
        modified. An array of shape (k, height, width), or a list of piles of one shape, is a stack, which may be empty.
    cylinder : bool, optional
        Whether the first and the last column are neighbours. By default as in `pile` if that has a `cylinder`, else False.
    progress : bool
        Whether to show how long it takes, as `settle` does.

    Returns
    -------
    numpy.ndarray
        The heights, each from 0 to 3; the shape of `pile`, int64.

    Raises
    ------
    Fault
        Side (1), Narrow (24), TooManyGrains (3) if the absolute values of the heights sum to more than the `grain_limit`,
        Memory (4), or Shapes (9) if `pile` has the other edge.
    ValueError
        If `pile` has neither two nor three dimensions; this is also a `TypeError`.
    TypeError
        If the heights are not integers.

    See Also
    --------
    is_superstable : whether a pile is its own
    recurrent : the recurrent pile equivalent to a pile

    Notes
    -----
    A pile without negative heights is superstable if no nonempty set of sites can topple together, each site of it once,
    without a negative height afterwards [1]_. Each pile is equivalent to exactly one, and a pile s is superstable if and only
    if 3 - s is recurrent [2]_.

    References
    ----------
    .. [1] M. Baker and S. Norine, "Riemann-Roch and Abel-Jacobi theory on a finite graph", Advances in Mathematics 215
       (2007) 766-788.
    .. [2] D. Dhar, "Self-organized critical state of sandpile automaton models", Physical Review Letters 64 (1990)
       1613-1616.

    Examples
    --------
    >>> import sandpile
    >>> sandpile.superstable([[3, 3, 3]])
    array([[0, 1, 0]])
    """
    heights, edge = heights_and_edge(pile, cylinder, may_be_stack=True, may_be_negative=True)
    each_class("superstable", heights, edge, progress=progress)
    return heights


def is_superstable(pile: ArrayLike, cylinder: bool | None = None) -> Any:
    """Whether a pile is superstable, or each pile of a stack.

    Parameters
    ----------
    pile, cylinder
        As for `superstable`.

    Returns
    -------
    bool or numpy.ndarray
        Whether it is; of a stack, shape (k,), bool.

    Raises
    ------
    Fault, ValueError, TypeError
        As from `superstable`.

    See Also
    --------
    superstable : the superstable pile equivalent to a pile, and what that means

    Examples
    --------
    >>> import sandpile
    >>> sandpile.is_superstable([[0, 1, 0]]), sandpile.is_superstable([[3, 3, 3]])
    (True, False)
    """
    heights, edge = heights_and_edge(pile, cylinder, may_be_stack=True, may_be_negative=True)
    with room_for("a copy of the heights"):
        found = heights.copy()
    each_class("superstable", found, edge)
    same = (found == heights).all(axis=(-2, -1))
    return same if heights.ndim == 3 else bool(same)
