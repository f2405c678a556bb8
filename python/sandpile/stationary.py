"""Random recurrent piles, each exactly as likely as any other. That is the stationary law of a driven pile (Dhar 1990).

The library draws a spanning tree, each as likely as any other, by the walks of Wilson (1996): from each site that is not yet in
the tree, a walk with random steps goes on until it meets the tree, and without its loops it joins the tree. The pile is that of
the tree, by the burning bijection (Majumdar and Dhar 1992). Each step is two bits of the words of ChaCha8.
"""

from __future__ import annotations

import ctypes
from typing import Any, Sequence, SupportsIndex

import numpy as np

from ._arrays import Heights, checked_edge, count_of, index_of, listed, new_array, of_generator, shape_of
from ._interruptible import may_last
from ._library import call, call_at, check_memory
from ._stacks import enumerate_piles
from .group import Recurrent


def random_recurrent(
    shape: Sequence[SupportsIndex],
    seed: SupportsIndex | Sequence[int] | np.random.SeedSequence | None = None,
    cylinder: bool = False,
    count: SupportsIndex | None = None,
) -> Recurrent:
    """A random recurrent pile, each as likely as any other, or a stack of them. A run from it is stationary [1]_, and needs no
    burn-in.

    Parameters
    ----------
    shape : tuple of int
        The height and the width of the grid, each from 1 to 8,192.
    seed : None, int, sequence of int, or numpy.random.SeedSequence
        What `numpy.random.SeedSequence` takes: integers from 0 on, of any length. The pile of a seed is the same with each
        version of NumPy, and has nothing to do with the sites at which a `Drive` of that seed drops grains. Without a seed it
        is a new one.
    cylinder : bool
        Whether the first and the last column are neighbours.
    count : int, optional
        How many piles, as a stack; without it, a single one. Pile k of the stack is that of stream k of the seed, from 0 on:
        ``random_recurrent(shape, numpy.random.SeedSequence(seed, spawn_key=(k,)))``. If the seed is an integer, `replicas` starts
        stream k from it. A longer stack begins with the piles of a shorter one.

    Raises
    ------
    Fault
        Side (1), Narrow (24), Memory (4), or Plan (15) if `count` is negative.
    ValueError
        If an integer of `seed` is negative.
    TypeError
        If `shape` is not two integers, `seed` is none of those, `cylinder` is not True or False, or `count` is not an integer.

    See Also
    --------
    recurrent : the recurrent pile that is equivalent to a given one
    Recurrent.tree : the spanning tree of a recurrent pile

    Notes
    -----
    The pile is that of a random spanning tree [2]_ by Wilson's algorithm [3]_. Its walks end almost surely; if they take more
    than 2**40 steps, which nobody will meet, the pile is some other one. In C, `sandpile_random` makes the same pile of the
    numbers ``numpy.random.SeedSequence(seed).generate_state(2, numpy.uint64)``, as its seed and its stream.

    References
    ----------
    .. [1] D. Dhar, "Self-organized critical state of sandpile automaton models", Physical Review Letters 64 (1990)
       1613-1616.
    .. [2] S. N. Majumdar and D. Dhar, "Equivalence between the Abelian sandpile model and the q->0 limit of the Potts
       model", Physica A 185 (1992) 129-145.
    .. [3] D. B. Wilson, "Generating random spanning trees more quickly than the cover time", Proceedings of the 28th ACM
       Symposium on Theory of Computing (1996) 296-303.

    Examples
    --------
    >>> import sandpile
    >>> start = sandpile.random_recurrent((64, 64), seed=7)
    >>> run = sandpile.Drive(start, seed=7)
    >>> sandpile.burn(start).is_recurrent, start == sandpile.random_recurrent((64, 64), seed=7)
    (True, True)
    >>> stack = sandpile.random_recurrent((64, 64), seed=7, count=100)
    >>> stack.pile.shape, bool(sandpile.burn(stack).is_recurrent.all())
    ((100, 64, 64), True)
    """
    sides, sequence, edge = shape_of(shape), _sequence_of(seed), checked_edge(cylinder)
    if count is None:
        return drawn(sides, sequence, edge)
    piles = count_of(count, "count")
    check_memory("random", *sides)
    stack = new_array((piles, *sides), np.int64, f"a stack of {piles:,} piles")
    for stream, heights in enumerate_piles(stack, edge):
        _draw(heights, _stream_of(sequence, stream), edge)
    return Recurrent._known(stack, edge)


def _stream_of(seed: np.random.SeedSequence, stream: int) -> np.random.SeedSequence:
    """A child of a sequence, which `spawn` would not return again."""
    return np.random.SeedSequence(seed.entropy, spawn_key=(*seed.spawn_key, stream), pool_size=seed.pool_size)


def drawn(shape: tuple[int, int], seed: np.random.SeedSequence, edge: bool) -> Recurrent:
    """The pile of a seed."""
    check_memory("random", *shape)
    heights = new_array(shape, np.int64, "the heights")
    _draw(heights, seed, edge)
    return Recurrent._known(heights, edge)


def _draw(heights: Heights, seed: np.random.SeedSequence, edge: bool) -> None:
    """Writes the pile of a seed."""
    height, width = heights.shape
    # NumPy takes twice as long to generate two numbers of 64 bits, the same ones, and to tell the address itself.
    low, high, stream_low, stream_high = listed(seed.generate_state(4))
    words = low | high << 32, stream_low | stream_high << 32
    if may_last("random", heights.shape, edge):
        call("random", heights.shape, edge, *words, heights)
        return
    address = ctypes.addressof(ctypes.c_int64.from_buffer(heights.data))
    call_at("sandpile_random", width, height, edge, *words, address, heights.size)


def _sequence_of(seed: Any) -> np.random.SeedSequence:
    """The sequence of a seed. NumPy accepts more, such as numbers in strings."""
    if isinstance(seed, np.random.SeedSequence):
        return seed
    return np.random.SeedSequence(None if seed is None else _checked_seed(seed))


def _checked_seed(seed: Any) -> int | list[int]:
    """The integers of a seed, or the only one, of which NumPy makes the same sequence as of a list with it, but faster."""
    are_many = isinstance(seed, (list, tuple, range)) or isinstance(seed, np.ndarray) and seed.ndim
    try:
        numbers = [index_of(number, "seed") for number in seed] if are_many else [index_of(seed, "seed")]
    except TypeError:
        kinds = "an integer, a sequence of integers, a numpy.random.SeedSequence or None"
        raise TypeError(f"seed must be {kinds}, not {seed!r}{of_generator(seed)}") from None
    if min(numbers, default=0) < 0:
        raise ValueError(f"each integer of seed must be 0 or more, but one is {min(numbers)}")
    return numbers if are_many else numbers[0]
