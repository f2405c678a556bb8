"""Abelian sandpiles on grids with open edges and on cylinders, for NumPy arrays.

The results are proved: libsandpile, which computes them, is written in Rattle (Rust with contracts), and each of its
exports has a contract, from the settled pile with the least odometer to the sandpile group. This module
checks the arguments and passes them on; it is tested, not proved.

A pile is an array of shape (height, width) and any integer type; sides are from 1 to 8,192. Calls return new arrays of type int64,
as are all fields of tables, or bool for masks, and do not change their arguments. ``cylinder=True`` makes the first and the last
column neighbours; a result or a run that is passed as a pile keeps its edge. A wrong value raises a `Fault` or another
`ValueError`, a wrong type a `TypeError`, and then nothing has changed. Calls release the global interpreter lock, so threads
run in parallel.

======================================  ==========================================================
`settle`                                the settled pile, and how often each site topples
`Drive`                                 drops grains one by one, and returns their avalanches
`replicas`                              the runs of many streams, in parallel
`SharedPile`                            many threads drop grains on one pile at once
`burn`                                  whether a pile is recurrent
`recurrent`, `identity`, `Recurrent`    the sandpile group
`superstable`, `is_superstable`         superstable piles (G-parking functions)
`random_recurrent`                      a random recurrent pile, each as likely as any other
`Recurrent.tree`                        the spanning tree of a recurrent pile
`lab`                                   a seeded run on many threads, by the program
`toppling_matrix`                       the toppling matrix of a grid, for SciPy
`grain_limit`                           how many grains a grid takes
`show`                                  a picture
`animate`                               avalanches, one after another
`play`                                  a page where a click drops a grain
======================================  ==========================================================

Examples
--------
>>> import numpy as np, sandpile
>>> s = sandpile.settle(np.full((64, 64), 5))
>>> int(s.pile.max()), s.topplings == int(s.odometer.sum())
(3, True)
"""

from typing import TYPE_CHECKING

from . import _hints
from ._dropping import AVALANCHE
from .animation import animate
from .burning import Burned, burn
from .driving import Drive
from .faults import Fault
from .group import Recurrent, identity, recurrent
from .laboratory import EPOCH, Run, lab
from .matrix import toppling_matrix
from .pictures import show
from .playing import Page, play
from .replicating import REPLICA, Replicas, replicas
from .settling import Settled, grain_limit, settle
from .sharing import Part, Record, SharedPile
from .stationary import random_recurrent
from .superstables import is_superstable, superstable
from .trees import Tree
from .version import VERSION
from .waves import WAVE

__version__ = VERSION
__all__ = [
    "AVALANCHE", "EPOCH", "REPLICA", "WAVE", "Burned", "Drive", "Fault", "Page", "Part", "Record", "Recurrent", "Replicas", "Run",
    "Settled", "SharedPile", "Tree", "animate", "burn", "grain_limit", "identity", "is_superstable", "lab", "play",
    "random_recurrent", "recurrent", "replicas", "settle", "show", "superstable", "toppling_matrix",
]


def __dir__() -> list[str]:
    """What a user calls, without the modules that have it."""
    return [*__all__, *(name for name in globals() if name.startswith("__"))]


if not TYPE_CHECKING:  # a type checker would take any name for one that there is

    def __getattr__(name: str) -> object:
        hint = _hints.OF_MODULE.get(name)
        raise AttributeError(f"module {__name__!r} has no attribute {name!r}" + (f": {hint}" if hint else ""))
