"""Stacks of piles, for calls of the library that take one pile at a time."""

from __future__ import annotations

import contextlib
from collections.abc import Iterator

from ._arrays import Heights
from ._library import call
from .faults import Fault
from .settling import settle


def enumerate_piles(stack: Heights, cylinder: bool) -> Iterator[tuple[int, Heights]]:
    """The piles of a stack with their numbers. Of a stack without piles, the edge is checked all the same."""
    if not len(stack):
        settle(stack, cylinder)
    return enumerate(stack)


@contextlib.contextmanager
def naming(number: int) -> Iterator[None]:
    """Has a fault name the pile of the stack."""
    try:
        yield
    except Fault as fault:
        raise Fault(fault.number, f"pile {number} of the stack: {fault.sentence}") from None


def each_pile(name: str, heights: Heights, cylinder: bool, *others: Heights, progress: bool = False) -> None:
    """Calls an export on a pile and other arrays, or on the piles of a stack and the parts of these arrays one by one."""
    if heights.ndim == 2:
        call(name, heights.shape, cylinder, heights, *others, progress=progress)
        return
    for number, one in enumerate_piles(heights, cylinder):
        with naming(number):
            parts = (other[number : number + 1] for other in others)
            call(name, one.shape, cylinder, one, *parts, progress=progress)


def each_class(name: str, heights: Heights, cylinder: bool, *others: Heights, progress: bool = False) -> None:
    """Calls `each_pile` for an export that takes negative heights: its limit is one of their absolute values."""
    try:
        each_pile(name, heights, cylinder, *others, progress=progress)
    except Fault as fault:
        said = fault.sentence.replace("the pile has", "the absolute values of the heights sum to")
        raise Fault(fault.number, said) from None
