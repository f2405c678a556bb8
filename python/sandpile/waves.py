"""Waves of topplings (Ivashkevich, Ktitarev and Priezzhev 1994): how an avalanche topples, if the site of the drop topples as
late as it can.

In a wave, the site of the drop topples once, and then each other site that has four grains or more, once each. If the site of
the drop then has four grains again, another wave follows. An avalanche topples each site as often as there are waves with it.
"""

from __future__ import annotations

import ctypes
from typing import Any

import numpy as np
from numpy.typing import NDArray

from . import _memory
from ._arrays import Heights, new_array
from ._grid import DIRECTIONS, beside

_NUMBERS = ("number", "wave", "size")
#: The type of the rows of the waves that `Drive.drop` returns, one for each wave.
WAVE = np.dtype([(name, "i8") for name in _NUMBERS])


def most_waves(shape: tuple[int, ...], cylinder: bool) -> int:
    """No drop has more waves: the greatest distance of a site to the nearest open edge, counted from 1."""
    height, width = shape
    return (height + 1) // 2 if cylinder else (min(height, width) + 1) // 2


class WaveList:
    """The waves of blocks of drops, each of which has at most so many, one block after another."""

    def __init__(self, most: int) -> None:
        self._most, self._count = most, ctypes.c_size_t()
        # NumPy copies integers several times as fast as rows of this type.
        self._room: NDArray[np.int64] = np.empty((0, len(_NUMBERS)), np.int64)
        self._kept, self._number = self._room.copy(), 0

    def room(self, drops: int) -> tuple[int, int, Any]:
        """Where the library writes the waves of the next block, how many have room there, and where it writes how many there are.
        From here on, there is also room to keep them."""
        needed = drops * self._most
        if len(self._room) < needed:
            self._room = new_array((needed, len(_NUMBERS)), np.int64, f"the waves of {drops} drops")
        if len(self._kept) < self._number + needed:
            self._grow(needed)
        return self._room.ctypes.data, needed, ctypes.byref(self._count)

    def _grow(self, needed: int) -> None:
        """Makes room for so many more waves, and for a part of those that may come. The system moves a large array without a copy."""
        rows = self._number + needed + self._number // 4
        what = f"{self._number:,} waves and more"
        _memory.check((rows - self._number) * self._kept.strides[0], what)
        with _memory.room_for(what):
            self._kept.resize((rows, len(_NUMBERS)), refcheck=False)

    def keep(self) -> None:
        """Keeps what the library has written."""
        end = self._number + self._count.value
        self._kept[self._number : end] = self._room[: self._count.value]
        self._number = end

    def all(self, before: int) -> NDArray[np.void]:
        """The waves of all blocks. So many drops were made before those that the library counts."""
        self._kept.resize((self._number, len(_NUMBERS)), refcheck=False)
        waves = self._kept.ravel().view(WAVE)
        if before:
            waves["number"] += before
        return waves


def masks(pile: Heights, site: int, cylinder: bool, sizes: NDArray[np.int64]) -> NDArray[np.bool_]:
    """Which sites topple in each wave of a drop on a stable pile, by the definition; shape (waves, height, width). Their
    numbers must be those that the library has found."""
    waves = new_array((sizes.size, *pile.shape), np.bool_, f"the sites of {sizes.size:,} waves")
    heights, topples = np.append(pile, 0).astype(np.int8), np.zeros(pile.size + 1, bool)  # the sink is last
    heights[site] += 1
    for wave in waves:
        _topple_wave(heights, site, topples, pile.shape, cylinder)
        wave[:] = topples[:-1].reshape(pile.shape)
    if not np.array_equal(np.count_nonzero(waves, axis=(1, 2)), sizes):
        raise RuntimeError("the waves differ from those that the library has found: this is an error of the module sandpile")
    return waves


def _topple_wave(
    heights: NDArray[np.int8], site: int, topples: NDArray[np.bool_], shape: tuple[int, ...], cylinder: bool
) -> None:
    """Topples the sites of a wave, all that are due at once, and says which they are. The sink never topples."""
    topples.fill(False)
    topples[[site, -1]] = True
    due = np.array([site])
    while due.size:
        heights[due] -= 4
        sides = [beside(due, direction, shape, cylinder) for direction in DIRECTIONS]
        for side in sides:
            heights[side] += 1  # only the sink is more than once in a side
        due = np.concatenate([_not_yet(side[heights[side] > 3], topples) for side in sides])


def _not_yet(sites: NDArray[np.int64], topples: NDArray[np.bool_]) -> NDArray[np.int64]:
    """Those of the sites that do not yet topple, and now do."""
    new: NDArray[np.int64] = sites[~topples[sites]]
    topples[new] = True
    return new
