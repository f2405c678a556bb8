"""Checks arguments: what is accepted as a pile, a shape or a list of sites."""

from __future__ import annotations

import math
import operator
from collections.abc import Mapping, Sequence
from typing import TYPE_CHECKING, Any, SupportsIndex

import numpy as np
from numpy.typing import ArrayLike, NDArray

from . import _memory, faults
from ._library import most_in_words
from ._limits import check_sides
from ._places import warn_of_pair
from ._png import Pictured
from .faults import Fault, ShapeError

# The library reads and writes the same 8 bytes without a sign. All that it returns is below 2**54.
Heights = NDArray[np.int64]

_COPY = "a copy of the heights"
_BOOLS = {bool, np.bool_}
# NumPy before 1.24 makes an array of lists of them, with a warning.
_ALLOWS_RAGGED = tuple(map(int, np.__version__.split(".")[:2])) < (1, 24)


class HasPile(Pictured):
    """What has a `pile` and the edge of its grid, `cylinder`. It can be passed as a pile, NumPy takes it for one, and a
    notebook draws it."""

    __slots__ = ()

    if TYPE_CHECKING:  # a dataclass would take these for the values that its fields have by default

        @property
        def pile(self) -> Heights: ...

        @property
        def cylinder(self) -> bool: ...

    if not TYPE_CHECKING:  # so that a type checker refuses a loop, too

        def __iter__(self) -> Any:
            # What lacks this is a single number for pandas, whose tables would then add or compare the heights transposed.
            raise TypeError(f"a {type(self).__name__} is not iterable, but its heights, `.pile`, are")

    def __array__(self, dtype: Any = None, copy: bool | None = None) -> NDArray[Any]:
        if copy is False:
            return self._uncopied(dtype)
        return np.array(self.pile, dtype=dtype)

    def _uncopied(self, dtype: Any) -> NDArray[Any]:
        """The heights where they are, which may be read-only, or a ValueError."""
        heights = self.pile
        if heights is not self.pile:
            raise ValueError(f"the heights of a {type(self).__name__} are copied whenever they are read, but copy=False forbids it")
        if dtype is not None and np.dtype(dtype) != heights.dtype:
            raise ValueError(f"heights of type {heights.dtype} become {np.dtype(dtype)} only in a copy, but copy=False forbids it")
        return heights


def listed(array: NDArray[Any]) -> Any:
    """An array as lists. NumPy's versions have different types for them."""
    return array.tolist()


def _integers(values: ArrayLike, what: str) -> NDArray[Any]:
    """The values as an array, which must have one of NumPy's integer types. Of lists with integers that no such type has
    together, it is one of Python's integers."""
    is_list = isinstance(values, (list, tuple))
    parts: Any = values if is_list else [values]
    if any(isinstance(part, np.ma.MaskedArray) for part in parts):
        raise TypeError(f"{what} must be plain arrays, not masked ones")
    array = _array_of(values, what)
    if is_list and array.size:
        _check_list(values, what)
    if not array.size or array.dtype.kind in "iu":
        return array
    if is_list or isinstance(values, int):
        objects = np.asarray(values, object)
        if {*map(type, objects.flat)} == {int}:
            return objects
    how = "; add dtype=int where it is made" if array.dtype.kind == "f" else ""
    raise TypeError(f"{what} must be integers of at most 64 bits, but this array has type {array.dtype}{how}")


def _check_list(values: ArrayLike, what: str) -> None:
    """Refuses masked arrays anywhere in a list, whose hidden values NumPy would take, and bools among integers, of which it would
    make integers."""
    kinds = _kinds_in(values)
    if any(issubclass(kind, np.ma.MaskedArray) for kind in kinds):
        raise TypeError(f"{what} must be plain arrays, not masked ones")
    if not kinds.isdisjoint(_BOOLS):
        raise TypeError(f"{what} must be integers of at most 64 bits, but this list has values of type bool")


def _kinds_in(values: Any) -> set[type]:
    """The types of what is in nested lists. Of an array there it is also that of its values."""
    kinds = {*map(type, values)}
    if any(issubclass(kind, (list, tuple, np.ndarray)) for kind in kinds):
        for part in values:
            if isinstance(part, np.ndarray):
                kinds.add(part.dtype.type)
            elif isinstance(part, (list, tuple)):
                kinds |= _kinds_in(part)
    return kinds


def _array_of(values: ArrayLike, what: str) -> NDArray[Any]:
    """The values as an array. Lists of different lengths are refused, the same with each version of NumPy."""
    is_list = isinstance(values, (list, tuple))
    try:
        if not (_ALLOWS_RAGGED and is_list and _is_ragged(values)):
            return np.asarray(values)
    except ValueError:
        if not is_list:
            raise
    raise ShapeError(f"the lists of {what} must all have the same length")


def _is_ragged(values: ArrayLike) -> bool:
    return not {list, tuple, np.ndarray}.isdisjoint(map(type, np.asarray(values, object).flat))


def heights_and_edge(
    pile: ArrayLike, cylinder: bool | None, may_be_stack: bool = False, may_be_negative: bool = False
) -> tuple[Heights, bool]:
    """The heights, as from `heights_of`, and whether the grid is a cylinder: as `cylinder` says, else as the pile itself."""
    pile = _listed(pile)
    is_list = isinstance(pile, (list, tuple))
    piles: Any = pile if is_list else [pile]
    edges = {one.cylinder for one in piles if isinstance(one, HasPile)}
    if edges and is_list:  # NumPy before 2 warns of objects in a list
        pile = [one.pile if isinstance(one, HasPile) else one for one in piles]
    with _memory.room_for(_COPY):
        return heights_of(pile, may_be_stack, may_be_negative), edge_of(edges, cylinder)


def _listed(values: Any) -> Any:
    """A sequence such as a deque as a list, since NumPy takes it for one. Bytes and buffers stay what they are."""
    is_other = isinstance(values, Sequence) and not isinstance(values, (list, tuple, str, bytes, bytearray, memoryview))
    return list(values) if is_other else values


def edge_of(edges: set[bool], cylinder: bool | None) -> bool:
    """The only one of the edges that piles have, which must not contradict `cylinder`."""
    if len(edges) > 1:
        raise Fault(faults.SHAPES, "the piles have different edges")
    if cylinder is None:
        return any(edges)
    edge = checked_edge(cylinder)
    if edges - {edge}:
        raise Fault(faults.SHAPES, f"the pile has another edge than cylinder={cylinder}")
    return edge


def checked_edge(cylinder: bool) -> bool:
    """Whether a grid is a cylinder, which must be True or False."""
    if not isinstance(cylinder, (bool, np.bool_)):
        raise TypeError(f"cylinder must be True or False, not {cylinder!r}")
    return bool(cylinder)


def heights_of(pile: ArrayLike, may_be_stack: bool = False, may_be_negative: bool = False) -> Heights:
    """A new contiguous array of the heights, checked to be non-negative integers with two dimensions, or with three in a stack
    of piles. A height of 2**63 or more is negative here, but not in the library; if heights may be negative, it is refused."""
    if isinstance(pile, Mapping):
        raise TypeError(
            "a pile must be an array of shape (height, width), not a dictionary; "
            "for a configuration c of SageMath on sandpiles.Grid(m, n), pass numpy.reshape(c.values(), (m, n))"
        )
    array = _integers(pile, "heights")
    if array.ndim != 2 and not (may_be_stack and array.ndim == 3):
        stack = ", and a stack of piles (k, height, width)" if may_be_stack else ""
        raise ShapeError(f"a pile must have shape (height, width){stack}, but this array has shape {array.shape}{_meant_by(array)}")
    check_sides(array.shape[-2:])
    if not array.size:
        return np.empty(array.shape, np.int64)
    if not may_be_negative and array.dtype.kind != "u" and array.min() < 0:
        also = "recurrent and superstable take negative heights"
        raise ValueError(f"heights must be 0 or more, but the one in {_first(array, array < 0)}; {also}")
    # No integer type has all heights of a list of Python's integers.
    if array.dtype.kind == "O" or may_be_negative and array.dtype.kind == "u":
        _check_bits(array)
    _memory.check(array.size * np.dtype(np.int64).itemsize, _COPY)
    return np.array(array, dtype=np.int64, order="C")


def _meant_by(array: NDArray[Any]) -> str:
    """How to get a pile of a shape, if that was passed in its place."""
    if array.ndim > 1 or array.size != 2 - (array.ndim == 0):
        return ""
    height, width = listed(np.broadcast_to(array, 2))
    shape = f"({height}, {width})"
    return f"; of the shape {shape}, numpy.zeros({shape}, int) is an empty pile, and random_recurrent({shape}) a random one"


def _check_bits(array: NDArray[Any]) -> None:
    """Raises a fault for heights that int64 does not have."""
    most = most_in_words(*array.shape[-2:])
    if array.max() >= 2**63:
        raise Fault(faults.TOO_MANY_GRAINS, f"the height in {_first(array, array >= 2**63)}, over {most}")
    if array.dtype.kind == "O" and array.min() < -(2**63):
        raise Fault(faults.TOO_MANY_GRAINS, f"the height in {_first(array, array < -(2**63))}, below -{most}")


def _first(array: NDArray[Any], which: NDArray[np.bool_]) -> str:
    """Where the first of these heights is, and its value."""
    *pile, row, column = at = tuple(np.argwhere(which)[0])
    place = "".join(f"pile {number}, " for number in pile)
    return f"{place}row {row}, column {column} is {array[at]}"


def shape_of(shape: Sequence[SupportsIndex]) -> tuple[int, int]:
    """The height and the width, which must be integers."""
    try:
        height, width = shape
        sides = index_of(height, "a side"), index_of(width, "a side")
    except (TypeError, ValueError) as error:
        kind = ShapeError if isinstance(error, ValueError) else TypeError
        raise kind(f"a shape must be two integers, (height, width), not {shape!r}") from None
    check_sides(sides)
    return sides


def directions_of(directions: ArrayLike) -> NDArray[np.uint8]:
    """A new contiguous array of directions, each from 0 to 3."""
    array = _integers(_listed(directions), "directions")
    if array.ndim != 2:
        raise ShapeError(f"the directions of a tree must have shape (height, width), but this array has shape {array.shape}")
    check_sides(array.shape)
    wrong = (array < 0) | (array > 3)
    if wrong.any():
        by_name = "; parents are passed by name, parents=.."
        raise Fault(faults.NOT_TREE, f"directions must be from 0 to 3, but the one in {_first(array, wrong)}{by_name}")
    return np.array(array, dtype=np.uint8, order="C")


def parents_of(parents: ArrayLike) -> NDArray[Any]:
    """An array of site numbers, or of the number after the last one's, for the sink."""
    array = _integers(_listed(parents), "parents")
    if array.ndim != 2:
        raise ShapeError(f"the parents of a tree must have shape (height, width), but this array has shape {array.shape}")
    check_sides(array.shape)
    check_parents(array, (array < 0) | (array > array.size))
    return array.astype(np.int64)


def check_parents(parents: NDArray[Any], wrong: NDArray[np.bool_]) -> None:
    """Raises a fault for parents of which some are wrong."""
    if wrong.any():
        must = f"a parent must be a neighbour, or {parents.size} for the sink beyond the edge"
        raise Fault(faults.NOT_TREE, f"{must}, but the one in {_first(parents, wrong)}")


def sites_of(sites: ArrayLike, count: int) -> NDArray[np.int64]:
    """A new contiguous array of site numbers, each below `count`."""
    array = _integers(sites, "sites")
    if array.ndim > 1:
        raise ShapeError(f"sites must be a list of numbers, row * width + column, but this array has shape {array.shape}")
    array = np.atleast_1d(array)
    if array.size and not (array.min() >= 0 and array.max() < count):
        at = np.flatnonzero((array < 0) | (array >= count))[0]
        raise Fault(faults.NO_SITE, f"drop {at} is at site {array[at]}, but the grid has only sites 0 to {count - 1}")
    return np.array(array, dtype=np.int64, order="C")


def sites_at(
    sites: ArrayLike | None, rows: ArrayLike | None, columns: ArrayLike | None, shape: tuple[int, ...]
) -> NDArray[np.int64]:
    """The numbers of sites, given as such or by their rows and columns, as `sites_of` returns them."""
    with _memory.room_for("a copy of the sites"):
        return _sites_at(sites, rows, columns, shape)


def _sites_at(
    sites: ArrayLike | None, rows: ArrayLike | None, columns: ArrayLike | None, shape: tuple[int, ...]
) -> NDArray[np.int64]:
    height, width = shape
    if sites is not None and rows is None and columns is None:
        numbers = sites_of(sites, height * width)
        warn_of_pair(sites, shape)
        return numbers
    if sites is not None or rows is None or columns is None:
        raise TypeError("sites are either numbers, or rows and columns")
    rows, columns = np.broadcast_arrays(_integers(rows, "rows"), _integers(columns, "columns"))
    is_outside = (rows < 0) | (rows >= height) | (columns < 0) | (columns >= width)
    if is_outside.any():
        at = int(is_outside.argmax())
        raise _outside(f"drop {at}", rows.flat[at], columns.flat[at], shape)
    return rows.astype(np.int64).ravel() * width + columns.astype(np.int64).ravel()


def site_at(
    site: SupportsIndex | None, row: SupportsIndex | None, column: SupportsIndex | None, shape: tuple[int, ...],
    what: str = "the drop",
) -> int:
    """The number of a site, given as such or by its row and its column. A fault says what is there."""
    height, width = shape
    if row is None and column is None:
        if isinstance(site, tuple):
            raise TypeError(f"site must be an integer, not {site!r}; a row and a column are passed by name")
        at = index_of(site, "site")
        if not 0 <= at < height * width:
            raise Fault(faults.NO_SITE, f"{what} is at site {at}, but the grid has only sites 0 to {height * width - 1}")
        return at
    if site is not None:
        raise TypeError("a site is either a number, or a row and a column")
    row, column = index_of(row, "row"), index_of(column, "column")
    if not (0 <= row < height and 0 <= column < width):
        raise _outside(what, row, column, shape)
    return row * width + column


def index_of(value: Any, what: str) -> int:
    """A Python or NumPy number, which must be an integer."""
    try:
        if not isinstance(value, np.bool_):  # some versions of NumPy take it, with a warning
            return operator.index(value)
    except TypeError:
        pass
    raise TypeError(f"{what} must be an integer, not {value!r}")


def _outside(what: str, row: int, column: int, shape: tuple[int, ...]) -> Fault:
    height, width = shape
    only = f"only rows 0 to {height - 1} and columns 0 to {width - 1}"
    return Fault(faults.NO_SITE, f"{what} is at row {row}, column {column}, but the grid has {only}")


def count_of(number: SupportsIndex, what: str, most: int = 2**64 - 1, fault: int = faults.PLAN, least: int = 0) -> int:
    """A Python or NumPy number, which must be an integer from `least` to `most`; outside, it is this fault."""
    value = index_of(number, what)
    if not least <= value <= most:
        raise Fault(fault, f"{what} is {value}, but must be from {least} to {most}")
    return value


def seed_of(seed: SupportsIndex | np.random.SeedSequence | None, bits: int = 64, fault: int = faults.PLAN) -> int:
    """A seed of 64 or 32 bits: the first number that a sequence generates, and without a seed one of fresh entropy."""
    if seed is None:
        seed = np.random.SeedSequence()
    if isinstance(seed, np.random.SeedSequence):
        return int(seed.generate_state(1, np.uint64 if bits == 64 else np.uint32)[0])
    try:
        return count_of(seed, "seed", 2**bits - 1, fault)
    except TypeError:
        kinds, of_many = "an integer, a numpy.random.SeedSequence or None", ""
        if isinstance(seed, (list, tuple)):
            of_many = "; the seed of a run is one integer, in C as well, so make it of these: numpy.random.SeedSequence(..)"
        raise TypeError(f"seed must be {kinds}, not {seed!r}{of_many}{of_generator(seed)}") from None


def of_generator(seed: Any) -> str:
    """What to pass in place of a generator of NumPy, old or new."""
    is_one = hasattr(seed, "integers") or hasattr(seed, "randint")
    return "; a generator changes with each number it draws, so draw one: seed=rng.integers(2**32)" if is_one else ""


def new_array(shape: int | tuple[int, ...], kind: Any, what: str) -> NDArray[Any]:
    """An array that is not yet filled, of a size that the caller has chosen."""
    size = math.prod(shape if isinstance(shape, tuple) else (shape,)) * np.dtype(kind).itemsize
    _memory.check(size, what)
    try:
        return np.empty(shape, kind)
    except (MemoryError, ValueError):  # more bytes than there are, or than NumPy can count
        raise _memory.lack(what, size) from None
