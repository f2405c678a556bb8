"""The toppling matrix of a grid (Dhar 1990), for SciPy."""

from __future__ import annotations

from typing import Any, Sequence, SupportsIndex

import numpy as np

from . import _memory
from ._arrays import checked_edge, shape_of
from ._library import check_grid

# By the growth of the process on 1,500 by 1,500 sites; the matrix itself has 64.
_BYTES_A_SITE = 170


def toppling_matrix(shape: Sequence[SupportsIndex], cylinder: bool = False) -> Any:
    """The toppling matrix L of a grid, as a sparse matrix of SciPy.

    Its rows and its columns are the sites, by number, row * width + column. The diagonal is 4, the grains that a site gives as it
    topples, and neighbours have -1. So a pile p becomes p - L z if each site topples as often as z says [1]_.

    Parameters
    ----------
    shape : tuple of int
        The height and the width of the grid, each from 1 to 8,192.
    cylinder : bool
        Whether the first and the last column are neighbours.

    Returns
    -------
    scipy.sparse.csr_array
        The matrix, shape (sites, sites), int64, symmetric and positive definite. Its determinant is the number of recurrent piles.
        Entry (i, j) of its inverse is how often, on average, a drop at site i of a random recurrent pile topples site j.

    Raises
    ------
    ImportError
        If SciPy is not installed.
    Fault
        Side (1), Narrow (24) or Memory (4).
    TypeError
        If `shape` is not two integers, or `cylinder` is not True or False.

    See Also
    --------
    recurrent : with ``firing=True``, the z for which p - L z is recurrent

    References
    ----------
    .. [1] D. Dhar, "Self-organized critical state of sandpile automaton models", Physical Review Letters 64 (1990)
       1613-1616.

    Examples
    --------
    >>> import numpy, sandpile
    >>> matrix = sandpile.toppling_matrix((2, 2))    # doctest: +SKIP
    >>> matrix.toarray()    # doctest: +SKIP
    array([[ 4, -1, -1,  0],
           [-1,  4,  0, -1],
           [-1,  0,  4, -1],
           [ 0, -1, -1,  4]])
    >>> round(numpy.linalg.det(matrix.toarray()))    # doctest: +SKIP
    192
    """
    sides, edge = shape_of(shape), checked_edge(cylinder)
    check_grid(*sides, edge)
    try:
        from scipy import sparse
    except ImportError:
        how = "pip install scipy, or on Debian apt-get install python3-scipy"
        raise ImportError(f"toppling_matrix needs SciPy, which is not installed: {how}") from None
    what = f"the toppling matrix of {sides[0]:,} by {sides[1]:,} sites"
    _memory.check(_BYTES_A_SITE * sides[0] * sides[1], what)
    with _memory.room_for(what):
        column, row = _line(sparse, sides[0], False), _line(sparse, sides[1], edge)
        return sparse.csr_array(sparse.kronsum(row, column, "csr"))


def _line(sparse: Any, length: int, is_ring: bool) -> Any:
    """The matrix of the sites of a row or a column, each of which gives two grains."""
    line = sparse.diags([-1, 2, -1], [-1, 0, 1], shape=(length, length), dtype=np.int64)
    if not is_ring:
        return line
    ends = length - 1
    return line + sparse.diags([-1, -1], [ends, -ends], shape=(length, length), dtype=np.int64)
