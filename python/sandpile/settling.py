"""Settling: the stable pile that a pile becomes, and how often each site topples on the way.

The library topples the sites of a queue, each as often as its height allows, in time at most proportional to the sites and the
topplings. For a high pile it guesses how often each site topples (Friedrich and Levine 2013) and certifies the guess, so the
time hardly depends on the height: `docs/SETTLING.md`. A pile takes space proportional to its sites, and a stack 16 bytes more
for each site of the piles that one call settles.
"""

from __future__ import annotations

import ctypes
from dataclasses import dataclass
from typing import Any, Sequence, SupportsIndex

import numpy as np
from numpy.typing import ArrayLike

from ._arrays import HasPile, Heights, heights_and_edge, new_array, shape_of
from ._hints import OF_SETTLED, Hinted
from ._library import call, most_grains, most_in_words
from ._results import Result
from .faults import TOO_MANY_GRAINS, Fault

# A call of the library settles piles with so many sites together, or one pile.
_SITES_AT_ONCE = 1 << 16


@dataclass(frozen=True, eq=False, repr=False)
class Settled(Result, HasPile, Hinted):
    """The result of settling a pile, or each pile of a stack. It can be passed as a pile or a stack.

    Attributes
    ----------
    pile : numpy.ndarray
        The settled heights, each from 0 to 3; shape (height, width), or (k, height, width) of a stack; int64.
    odometer : numpy.ndarray
        How often each site toppled; the same shape, int64. No other way of settling the pile topples any site less often.
    lost : int or numpy.ndarray
        Grains that fell over the edge; of a stack, those of each pile, shape (k,), int64.
    topplings : int or numpy.ndarray
        The number of topplings, which is the sum of the odometer; of a stack, that of each pile, shape (k,), int64.
    cylinder : bool
        Whether the first and the last column are neighbours.
    """

    _HINTS = OF_SETTLED

    pile: Heights
    odometer: Heights
    lost: Any
    topplings: Any
    cylinder: bool


def settle(pile: ArrayLike, cylinder: bool | None = None, progress: bool = False) -> Settled:
    """Settles a pile, or each pile of a stack: sites with four or more grains give one to each neighbour, until there is no
    such site.

    Parameters
    ----------
    pile : array_like of int
        Grains on each site, shape (height, width), sides from 1 to 8,192, any integer type. Not modified. An array of shape
        (k, height, width), or a list of piles of one shape, is a stack, which may be empty.
    cylinder : bool, optional
        Whether the first and the last column are neighbours, so that grains are lost only in the north and the south. By
        default as in `pile` if that has a `cylinder`, such as a `Recurrent` or a `Drive`, else False.
    progress : bool
        Whether to show on standard error how long it takes, if that is over a second, with tqdm if it is installed.

    Raises
    ------
    Fault
        Side (1), Narrow (24), TooManyGrains (3), Memory (4), or Shapes (9) if `pile` has the other edge.
    ValueError
        If a height is below 0, or `pile` has neither two nor three dimensions; the latter is also a `TypeError`.
    TypeError
        If the heights are not integers.

    See Also
    --------
    Drive : drops grains one by one
    recurrent : the recurrent pile that is equivalent to a pile

    Notes
    -----
    The model is that of Bak, Tang and Wiesenfeld [1]_. The result does not depend on the order in which sites topple [2]_.

    On a large grid another process settles the pile, so that Ctrl-C can end it at once; so it is with all calls that may take
    long, but only in the main thread, which alone gets Ctrl-C. In others `progress` shows nothing. If something else ends that
    process, the call raises a `RuntimeError`, or the fault Memory if it was SIGKILL, by which the system ends what takes too much.

    References
    ----------
    .. [1] P. Bak, C. Tang and K. Wiesenfeld, "Self-organized criticality: an explanation of the 1/f noise", Physical
       Review Letters 59 (1987) 381-384.
    .. [2] D. Dhar, "Self-organized critical state of sandpile automaton models", Physical Review Letters 64 (1990)
       1613-1616.

    Examples
    --------
    >>> import sandpile
    >>> s = sandpile.settle([[0, 4, 0]])
    >>> s.pile
    array([[1, 0, 1]])
    >>> s.odometer
    array([[0, 1, 0]])
    >>> s.lost, s.topplings
    (2, 1)
    >>> sandpile.settle([[[0, 4, 0]], [[9, 0, 0]]]).topplings
    array([1, 2])
    """
    heights, edge = heights_and_edge(pile, cylinder, may_be_stack=True)
    return settled(heights, edge, progress) if heights.ndim == 2 else _settled_stack(heights, edge, progress)


def settled(heights: Heights, edge: bool, progress: bool = False) -> Settled:
    """What `settle` returns, for heights that are checked, which it changes."""
    odometer = new_array(heights.shape, np.int64, "the odometer")
    lost, topplings = ctypes.c_uint64(), ctypes.c_uint64()
    call("settle", heights.shape, edge, heights, odometer, ctypes.byref(lost), ctypes.byref(topplings), progress=progress)
    return Settled(heights, odometer, lost.value, topplings.value, edge)


def _settled_stack(heights: Heights, edge: bool, progress: bool) -> Settled:
    count, *shape = heights.shape
    odometer = new_array(heights.shape, np.int64, f"the odometers of {count} piles")
    lost, topplings = np.empty(count, np.int64), np.empty(count, np.int64)
    at_once = max(1, _SITES_AT_ONCE // (shape[0] * shape[1]))
    for begin in range(0, max(count, 1), at_once):  # without piles, the edge is checked all the same
        some = slice(begin, begin + at_once)
        try:
            arrays = (heights[some], odometer[some], lost[some], topplings[some])
            call("settle_all", tuple(shape), edge, *arrays, progress=progress)
        except Fault as fault:
            raise _of_stack(fault, heights[some], begin) from None
    return Settled(heights, odometer, lost, topplings, edge)


def _of_stack(fault: Fault, piles: Heights, begin: int) -> Fault:
    """The fault of some piles of a stack, from this one on. One of too many grains names the first pile that has them; those
    before it may be settled."""
    if fault.number != TOO_MANY_GRAINS:
        return fault
    shape = piles.shape[1:]
    most = most_grains(*shape)
    grains = np.minimum(piles.view(np.uint64), most + 1).sum(axis=(1, 2))
    first = begin + int((grains > most).argmax())
    return Fault(TOO_MANY_GRAINS, f"pile {first} of the stack has more than {most_in_words(*shape)}")


def grain_limit(shape: Sequence[SupportsIndex]) -> int:
    """How many grains a pile on a grid may have, together with all that drop on it.

    Parameters
    ----------
    shape : tuple of int
        The height and the width of the grid, each from 1 to 8,192.

    Returns
    -------
    int
        ``min(2**40 - 1, (2**57 - 1) // (height + 1)**2)``: on up to 361 rows 2**40 - 1, on 4,096 rows and as many columns 511
        grains a site, and on 8,192 by 8,192 sites 31.

    Raises
    ------
    Fault
        Side (1).
    TypeError
        If `shape` is not two integers.

    Examples
    --------
    >>> import sandpile
    >>> sandpile.grain_limit((361, 8192)), sandpile.grain_limit((4096, 4096))
    (1099511627775, 8585741823)
    """
    return most_grains(*shape_of(shape))
