"""A pile on which many threads drop grains at once.

The order of topplings does not matter (Dhar 1990), so the result is that of one thread: `docs/THEOREM.md`. A drop takes the
same time whatever the pile, since it topples nothing; a sweep visits each of its rows' sites once; `settle` settles what is
left. A pile takes 16 bytes for each grain of its quota, and at least 8 for each site.
"""

from __future__ import annotations

import ctypes
import threading
import warnings
from dataclasses import dataclass
from types import TracebackType
from typing import Any, SupportsIndex

import numpy as np
from numpy.typing import ArrayLike, NDArray

from . import _memory, faults
from ._arrays import Heights, count_of, heights_and_edge, new_array, sites_at
from ._handles import PassHandle
from ._library import call, call_on, most_in_words
from ._limits import MOST_SIDE
from ._places import by_name
from .faults import Fault
from .settling import Settled

_BYTES_OF_A_DROP = 16
# The struct of include/sandpile.h.
_HOLDING = np.dtype(
    [("left", "u8"), ("seen", "u8"), ("drops", np.uintp), ("first_row", "u2"), ("end_row", "u2")], align=True
)


@dataclass(frozen=True, eq=False, repr=False)
class Record(Settled):
    """What `SharedPile.settle` returns: what one thread gets that drops the grains of `history` one after another.

    Attributes
    ----------
    pile, odometer, lost, topplings, cylinder
        As of a `Settled`.
    history : numpy.ndarray
        The site of each drop, row * width + column, by the number that `Part.drop` returned; shape (drops,), int64.
    """

    lost: int
    topplings: int
    history: NDArray[np.int64]


class _Passes:
    """The passes of a pile: the first, one that only looks on, and those that parts hold or have given back.

    A pass can be joined to the first one only if their rows are adjacent, and Python may collect a part at any time. So
    what comes back waits until something needs it.
    """

    def __init__(self, heights: Heights, cylinder: bool, quota: int) -> None:
        self.shape, self.cylinder, self.is_closed = heights.shape, cylinder, False
        self.outside: set[PassHandle] = set()
        self._back: set[PassHandle] = set()
        # A signal's handler may count the drops in the thread that does so.
        self._lock, self._looks = threading.RLock(), threading.RLock()
        self._first, self._observer = PassHandle(), PassHandle()
        _memory.check(_BYTES_OF_A_DROP * quota, f"a quota of {quota:,} drops")
        try:
            call("shared_new", heights.shape, cylinder, heights, quota, self._first.at)
        except Fault as fault:
            if fault.number != faults.TOO_MANY_GRAINS:
                raise
            raise Fault(faults.TOO_MANY_GRAINS, f"the pile and its quota together exceed {most_in_words(*heights.shape)}") from None
        call_on("pass_split", self._first.at, 0, self._observer.at)

    def check(self) -> None:
        """Refuses a process that has not made the pile, and a pile that is closed."""
        if not self._first.is_here:
            raise RuntimeError("a shared pile belongs to the process that made it, and this one was forked from that")
        if self.is_closed:
            raise RuntimeError("this shared pile is closed")

    def split(self, part: PassHandle, quota: int, rows: int) -> None:
        """Gives a part of the quota and of the rows to an empty handle."""
        self.check()
        with self._lock:
            self._gather()
            self.outside.add(part)
            call_on("pass_split", self._first.at, quota, part.at)
            if rows:
                self._split_rows(part, rows)

    def _split_rows(self, part: PassHandle, rows: int) -> None:
        lower = PassHandle()
        try:
            call_on("pass_split_rows", self._first.at, rows, lower.at)
            call_on("pass_join", part.at, lower.at)
        finally:
            self.give_back(lower)  # it is empty, unless something has failed or Ctrl-C came

    def give_back(self, part: PassHandle) -> None:
        """Takes what a part has left and has done. Neither waits for a lock, nor fails. If Ctrl-C comes before the part has
        left `outside`, nothing has changed."""
        self._back.add(part)
        self.outside.discard(part)
        if self.is_closed:
            part.free()

    def _gather(self) -> None:
        """Joins to the first pass what has come back. Each that is joined may bring its rows next to those of another."""
        while sum([self._joins(part) for part in tuple(self._back - self.outside)]):
            pass

    def _joins(self, part: PassHandle) -> bool:
        """Joins a pass to the first one, unless rows between theirs are still elsewhere."""
        try:
            call_on("pass_join", self._first.at, part.at)
        except Fault as fault:
            if fault.number == faults.APART:
                return False
            if fault.number != faults.EMPTY:
                raise
        self._back.discard(part)
        return True

    def tally(self) -> int:
        self.check()
        drops = ctypes.c_uint64()
        with self._looks:
            call_on("pass_tally", self._observer.at, ctypes.byref(drops))
        return drops.value

    def settle(self) -> Record:
        self.check()
        heights, odometer = (new_array(self.shape, np.int64, what) for what in ("the heights", "the odometer"))
        lost, topplings, holding = ctypes.c_uint64(), ctypes.c_uint64(), np.zeros((), _HOLDING)
        with self._lock:
            self._gather()
            call_on("pass_holding", self._first.at, holding.ctypes.data)
            drops = int(holding["drops"])
            history = new_array(drops, np.int64, f"a history of {drops} drops")
            sums = (ctypes.byref(topplings), ctypes.byref(lost))
            call_on("pass_settle", self._first.at, heights, odometer, history, *sums)
        return Record(heights, odometer, lost.value, topplings.value, self.cylinder, history)

    def close(self) -> None:
        """Frees the pile, at once or when the last part outside ends."""
        with self._lock, self._looks:
            self.is_closed = True
            for handle in (self._first, self._observer, *self._back):
                handle.free()
            self._back.clear()


def _numbers_from_0(drops: int) -> NDArray[np.int64]:
    with _memory.room_for(f"the numbers of {drops} drops"):
        return np.arange(drops, dtype=np.int64)


class Part:
    """A part of a shared pile, for one thread at a time: the right to drop some grains on it, and to topple some of its rows.

    `SharedPile.split` makes it. At the end of its `with` block, also after an error, it is joined to the pile, with what
    it has left. A part that is never joined is joined when Python collects it, with a `ResourceWarning`.
    """

    def __init__(self, passes: _Passes) -> None:
        self._passes, self._use = passes, threading.Lock()
        self._pass = PassHandle()

    @property
    def _is_joined(self) -> bool:
        return self._pass not in self._passes.outside

    @by_name("rows", "columns")
    def drop(
        self, sites: ArrayLike | None = None, *, rows: ArrayLike | None = None, columns: ArrayLike | None = None
    ) -> NDArray[np.int64]:
        """Drops a grain at each of these sites in turn. Nothing topples.

        Parameters
        ----------
        sites, rows, columns : array_like of int
            The sites: their numbers, or their rows and columns, as in `Drive.drop_at`.

        Returns
        -------
        numpy.ndarray
            The numbers of the drops among those of all threads, from 0 on. They are consecutive. Shape (n,), int64.

        Raises
        ------
        Fault
            NoSite (25) if a site is outside the grid, Spent (13) if these are more grains than the part has left, or
            Memory (4). Then none was dropped.
        TypeError
            If the sites are not integers, have more than one dimension (which is also a `ValueError`), or are not given in one
            of the two ways.
        ValueError
            If the rows and the columns cannot be broadcast.
        RuntimeError
            If another thread is using the part, if it has been joined, if the pile is closed, or in a forked process.

        Examples
        --------
        >>> import sandpile
        >>> with sandpile.SharedPile([[0, 3]], quota=5) as pile, pile.split(3) as part:
        ...     part.drop([1, 1, 0])
        array([0, 1, 2])
        """
        at, first = sites_at(sites, rows, columns, self._passes.shape), ctypes.c_uint64()
        numbers = _numbers_from_0(at.size)  # before the drops, since memory may run out
        self._call("pass_drop", at, ctypes.byref(first))
        numbers += first.value
        return numbers

    def sweep(self) -> int:
        """Visits each site of its rows once, and topples it as often as its grains then allow.

        Returns
        -------
        int
            The number of topplings.

        Raises
        ------
        RuntimeError
            As from `drop`.

        Examples
        --------
        >>> import sandpile
        >>> with sandpile.SharedPile([[8], [0]], quota=0) as pile, pile.split(0, rows=2) as part:
        ...     part.sweep(), part.sweep()
        (2, 0)
        """
        return self._counted("pass_sweep")

    def tally(self) -> int:
        """How many drops of all threads have begun.

        Raises
        ------
        RuntimeError
            As from `drop`.
        """
        return self._counted("pass_tally")

    def _counted(self, name: str) -> int:
        count = ctypes.c_uint64()
        self._call(name, ctypes.byref(count))
        return count.value

    def _call(self, name: str, *arguments: Any) -> None:
        self._check()
        # Ctrl-C could come between an `acquire` that does not wait and its `try`. So a call that begins at the very same
        # moment waits.
        if self._use.locked():
            raise RuntimeError("another thread is using this part: split one off for each thread")
        with self._use:
            self._check()
            call_on(name, self._pass.at, *arguments)

    def _check(self) -> None:
        self._passes.check()
        if self._is_joined:
            raise RuntimeError("this part has been joined to its pile")

    def _join(self) -> None:
        # A call in another thread ends first.
        with self._use:
            self._passes.give_back(self._pass)

    def __enter__(self) -> Part:
        self._check()
        return self

    def __exit__(self, kind: type[BaseException] | None, error: BaseException | None, trace: TracebackType | None) -> None:
        if self._pass.is_here and not self._is_joined:
            self._join()

    def __del__(self) -> None:
        if "_pass" in vars(self) and self._pass.is_here and not self._is_joined:
            warnings.warn("a part of a shared pile was not joined", ResourceWarning, stacklevel=2, source=self)
            self._join()

    def __reduce__(self) -> Any:
        raise TypeError("a part of a shared pile cannot be copied or pickled: split off another one")

    def __repr__(self) -> str:
        height, width = self._passes.shape
        return f"<Part of a SharedPile: {height} by {width}{', joined' if self._is_joined else ''}>"


class SharedPile:
    """A pile on which many threads drop grains at once, and topple it meanwhile, without a lock.

    Whatever the interleaving, the drops of all threads form one history, and `settle` returns exactly what one thread gets
    that drops it.

    Parameters
    ----------
    start : array_like of int
        The start, shape (height, width), sides from 1 to 8,192, any integer type. It need not be stable, and is not modified.
    quota : int
        How many grains may be dropped on it. Each takes 16 bytes, reserved now.
    cylinder : bool, optional
        Whether the first and the last column are neighbours. By default as in `start` if that has a `cylinder`, else False.

    Raises
    ------
    Fault
        Side (1), Narrow (24), TooManyGrains (3), the quota included, Memory (4), Shapes (9) if `start` has the other edge,
        or Plan (15) if the quota is negative.
    ValueError
        If a height is below 0, or `start` is not two-dimensional; the latter is also a `TypeError`.
    TypeError
        If the heights or `quota` are not integers.

    See Also
    --------
    Drive : one thread, with the avalanche of each drop
    replicas : many piles in parallel, one for each stream
    lab : a seeded run on many threads, by the program

    Notes
    -----
    Split off a `Part` for each thread. Calls on different parts run in parallel. A shared pile belongs to its process: it
    cannot be copied or pickled, and a forked child cannot use it.

    The order of topplings does not matter [1]_, so threads may topple while others drop.

    References
    ----------
    .. [1] D. Dhar, "Self-organized critical state of sandpile automaton models", Physical Review Letters 64 (1990)
       1613-1616.

    Examples
    --------
    >>> import numpy as np, sandpile
    >>> from concurrent.futures import ThreadPoolExecutor
    >>> start = np.full((8, 8), 3)
    >>> with sandpile.SharedPile(start, quota=400) as pile:
    ...     def work(site):
    ...         with pile.split(100) as part:
    ...             return part.drop([site] * 100)
    ...     with ThreadPoolExecutor(4) as pool:
    ...         numbers = list(pool.map(work, [0, 9, 30, 63]))
    ...     done = pile.settle()
    >>> bool((done.history[numbers[2]] == 30).all())
    True
    >>> one = sandpile.Drive(start)
    >>> _ = one.drop_at(done.history)
    >>> bool((one.odometer == done.odometer).all()), one.lost == done.lost
    (True, True)
    """

    def __init__(self, start: ArrayLike, quota: SupportsIndex, cylinder: bool | None = None) -> None:
        heights, edge = heights_and_edge(start, cylinder)
        self._passes = _Passes(heights, edge, count_of(quota, "quota"))

    def split(self, quota: SupportsIndex, rows: SupportsIndex | None = None) -> Part:
        """Splits off a part, for one thread at a time.

        Parameters
        ----------
        quota : int
            How many grains it may drop; with 0 it can sweep its rows, and count the drops of others.
        rows : int, optional
            How many of the last rows that are not split off yet it gets, to topple them; without, none.

        Raises
        ------
        Fault
            TooMuch (10) if less of the quota is left, Rows (11) if fewer rows are, Plan (15) if a number is negative, or
            Memory (4).
        TypeError
            If a number is not an integer.
        RuntimeError
            If the pile is closed, or in a forked process.
        """
        drops, swept = count_of(quota, "quota"), count_of(0 if rows is None else rows, "rows")
        if swept > MOST_SIDE:  # the library takes 16 bits
            raise Fault(faults.ROWS)
        part = Part(self._passes)
        try:
            self._passes.split(part._pass, drops, swept)
        except BaseException:
            part._join()
            raise
        return part

    def join(self, part: Part) -> None:
        """Joins a part before the end of its `with` block.

        Raises
        ------
        Fault
            OtherPile (27) if it is of another pile.
        TypeError
            If it is not a `Part`.
        RuntimeError
            If it has been joined already, if the pile is closed, or in a forked process.
        """
        if not isinstance(part, Part):
            raise TypeError(f"part must be a Part, not {part!r}")
        if part._passes is not self._passes:
            raise Fault(faults.OTHER_PILE, "the part is of another pile")
        part._check()
        part._join()

    def tally(self) -> int:
        """How many drops of all threads have begun. Any thread may call it at any time.

        Raises
        ------
        RuntimeError
            If the pile is closed, or in a forked process.
        """
        return self._passes.tally()

    def settle(self) -> Record:
        """What one thread gets that drops the grains of all parts one after another. All parts must have been joined. The
        pile itself stays as it is, and may go on.

        Returns
        -------
        Record
            The settled `pile`, the `odometer`, the grains `lost`, the `topplings` and the `history`.

        Raises
        ------
        Fault
            Missing (14) if a part has not been joined, or Memory (4).
        RuntimeError
            If the pile is closed, or in a forked process.

        Examples
        --------
        >>> import sandpile
        >>> with sandpile.SharedPile([[0, 3, 0]], quota=2) as pile:
        ...     with pile.split(2) as part:
        ...         numbers = part.drop([1, 0])
        ...     done = pile.settle()
        >>> done.pile, done.topplings, done.history
        (array([[2, 0, 1]]), 1, array([1, 0]))
        """
        try:
            return self._passes.settle()
        except Fault as fault:
            if fault.number != faults.MISSING:
                raise
            parts = len(self._passes.outside)
            raise Fault(faults.MISSING, f"parts of the pile have not been joined: {parts}") from None

    def close(self) -> None:
        """Frees the pile. A part that has not been joined is of no use from then on."""
        if self._passes._first.is_here:
            self._passes.close()

    def __enter__(self) -> SharedPile:
        self._passes.check()
        return self

    def __exit__(self, kind: type[BaseException] | None, error: BaseException | None, trace: TracebackType | None) -> None:
        self.close()

    def __del__(self) -> None:
        passes = vars(self).get("_passes")
        if passes and passes.outside and not passes.is_closed and passes._first.is_here:
            said = f"a shared pile was dropped while parts of it were not joined: {len(passes.outside)}"
            warnings.warn(said, ResourceWarning, stacklevel=2, source=self)

    def __reduce__(self) -> Any:
        raise TypeError("a shared pile cannot be copied or pickled: its threads are those of one process")

    def __repr__(self) -> str:
        height, width = self._passes.shape
        return f"<SharedPile: {height} by {width}>"
