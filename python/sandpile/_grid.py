"""The neighbours of the sites of a grid."""

from __future__ import annotations

from typing import Any

import numpy as np
from numpy.typing import NDArray

#: North, west, east and south, as in the trees of the library: so many rows and columns away.
DIRECTIONS = range(4)
ROWS, COLUMNS = np.array([-1, 0, 0, 1]), np.array([0, -1, 1, 0])


def beside(sites: NDArray[np.int64], direction: Any, shape: tuple[int, ...], cylinder: bool) -> NDArray[np.int64]:
    """The neighbour of each of some sites in a direction, the same for all or one for each. Beyond the edge it is the number
    after that of the last site, which is the sink."""
    height, width = shape
    rows, columns = sites // width + ROWS[direction], sites % width + COLUMNS[direction]
    if cylinder:
        columns %= width
    is_inside = (rows >= 0) & (rows < height) & (columns >= 0) & (columns < width)
    return np.where(is_inside, rows * width + columns, height * width)
