"""The limits of the sides of a grid."""

from __future__ import annotations

from .faults import SIDE, Fault

MOST_SIDE = 8192


def check_sides(shape: tuple[int, ...], most: int = MOST_SIDE, who: str = "a grid has") -> None:
    """Raises a fault for a side that is too short or too long, before an array of such a shape is made."""
    for length, name in zip(shape, ("row", "column")):
        if not 1 <= length <= most:
            limit = f"at most {most:,}" if length > most else "at least 1"
            raise Fault(SIDE, f"{length:,} {name}s; {who} {limit}")
