"""Dhar's burning test (1990): whether a stable pile is recurrent.

Each site burns at most once, so the test, and the times of burning, take time and space proportional to the sites.
"""

from __future__ import annotations

import ctypes
from dataclasses import dataclass, field
from functools import cached_property
from typing import Any

import numpy as np
from numpy.typing import ArrayLike, NDArray

from ._arrays import Heights, heights_and_edge, new_array
from ._hints import OF_BURNED, Hinted
from ._library import call
from ._memory import room_for
from ._png import Pictured, ma
from ._results import Result
from ._stacks import enumerate_piles, naming


@dataclass(frozen=True, eq=False, repr=False)
class Burned(Result, Pictured, Hinted):
    """The result of burning a pile, or each pile of a stack.

    Attributes
    ----------
    is_recurrent : bool or numpy.ndarray
        Whether all sites burn, that is, whether the pile is recurrent; of a stack, shape (k,), bool.
    order : numpy.ndarray
        Site numbers, ``row * width + column``, in an order in which all sites burn; shape (sites,), int64. Empty if the
        pile is not recurrent. Of a stack, shape (k, sites), and such a pile has -1 everywhere.
    forbidden : numpy.ndarray
        Which sites are in the greatest forbidden set; shape (height, width), or (k, height, width) of a stack; bool. All
        False if the pile is recurrent.
    time : numpy.ndarray
        The step in which each site burns, from 1 on: in each step, all sites that can burn do; the same shape, int64. Sites
        of the forbidden set have -1. Computed when it is first read.
    """

    _HINTS = OF_BURNED

    is_recurrent: Any
    order: NDArray[np.int64]
    forbidden: NDArray[np.bool_]
    _heights: Heights = field(repr=False)
    _cylinder: bool = field(repr=False)
    _ARRAY = "time"

    @cached_property
    def time(self) -> NDArray[np.int64]:
        if self._heights.ndim == 2:
            return _times(self._heights, self._cylinder)
        times = new_array(self._heights.shape, np.int64, f"the burning times of {len(self._heights)} piles")
        for number in range(len(times)):
            times[number] = _times(self._heights[number], self._cylinder)
        return times

    def _shown(self) -> Any:
        return ma.masked_less(self.time, 0)


def burn(pile: ArrayLike, cylinder: bool | None = None) -> Burned:
    """Burns a stable pile, or each pile of a stack, from its edge. The sites that do not burn are the greatest forbidden set.

    Parameters
    ----------
    pile : array_like of int
        Grains on each site, shape (height, width), each from 0 to 3. Not modified. An array of shape (k, height, width), or a
        list of piles of one shape, is a stack, which may be empty.
    cylinder : bool, optional
        Whether the first and the last column are neighbours. By default as in `pile` if that has a `cylinder`, else False.

    Raises
    ------
    Fault
        Side (1), Narrow (24), TooManyGrains (3), Unstable (7), Memory (4), or Shapes (9) if `pile` has the other edge.
    ValueError
        If a height is below 0, or `pile` has neither two nor three dimensions; the latter is also a `TypeError`.
    TypeError
        If the heights are not integers.

    See Also
    --------
    recurrent : the recurrent pile that is equivalent to a pile
    Recurrent : a recurrent pile, as an element of the group

    Notes
    -----
    This is Dhar's burning test [1]_: a site burns if its height is at least the number of its unburnt neighbours.

    References
    ----------
    .. [1] D. Dhar, "Self-organized critical state of sandpile automaton models", Physical Review Letters 64 (1990)
       1613-1616.

    Examples
    --------
    >>> import sandpile
    >>> sandpile.burn([[3, 3, 3], [3, 3, 3]]).is_recurrent
    True
    >>> sandpile.burn([[0, 0, 3]]).forbidden
    array([[ True,  True, False]])
    >>> sandpile.burn([[0, 0, 3]]).time
    array([[-1, -1,  1]])
    >>> sandpile.burn([[[0, 0, 3]], [[3, 3, 3]]]).is_recurrent
    array([False,  True])
    """
    heights, edge = heights_and_edge(pile, cylinder, may_be_stack=True)
    return burned(heights, edge) if heights.ndim == 2 else burned_stack(heights, edge)


def burned(heights: Heights, cylinder: bool) -> Burned:
    """What `burn` returns, for heights that are checked."""
    found = new_array(heights.size, np.int64, "a burning order")
    count, recurrent = ctypes.c_size_t(), ctypes.c_bool()
    call("burn", heights.shape, cylinder, heights, found, ctypes.byref(count), ctypes.byref(recurrent))
    sites = found[: count.value]
    forbidden = np.zeros(heights.shape, bool)
    if recurrent.value:
        return Burned(True, sites, forbidden, heights, cylinder)
    forbidden.flat[sites] = True
    return Burned(False, np.empty(0, np.int64), forbidden, heights, cylinder)


def burned_stack(stack: Heights, cylinder: bool) -> Burned:
    """What `burn` returns, for a stack that is checked."""
    count, height, width = stack.shape
    is_recurrent, forbidden = np.zeros(count, bool), new_array(stack.shape, np.bool_, f"the forbidden sets of {count} piles")
    order = new_array((count, height * width), np.int64, f"the orders of {count} piles")
    order.fill(-1)
    for number, heights in enumerate_piles(stack, cylinder):
        with naming(number):
            one = burned(heights, cylinder)
        is_recurrent[number], forbidden[number] = one.is_recurrent, one.forbidden
        order[number, : one.order.size] = one.order
    return Burned(is_recurrent, order, forbidden, stack, cylinder)


def _times(heights: Heights, cylinder: bool) -> NDArray[np.int64]:
    """In which step each site burns, from 1 on, or -1."""
    times = new_array(heights.shape, np.uint32, "the burning times")
    call("burn_times", heights.shape, cylinder, heights, times)
    with room_for("the burning times"):
        found = times.astype(np.int64)
    found[found == 0] = -1
    return found
