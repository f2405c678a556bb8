"""How a call of a `Drive` drops grains: in blocks, each by one call of the library, which Ctrl-C cannot interrupt.

1. The arguments are checked, and a table is made for all drops of the call. If that is refused, nothing has changed.
2. Each block writes its avalanches where there is room for those of a block, and then they become rows of the table.
3. The library counts the drops that it has made. So if Ctrl-C comes before a block is noted here, the run still learns of it.
"""

from __future__ import annotations

import ctypes
import time
from contextlib import nullcontext
from typing import Any, Callable, ContextManager, NamedTuple, Optional, Tuple

import numpy as np
from numpy.typing import NDArray

from ._arrays import Heights, new_array
from ._handles import DriveHandle
from ._library import call, call_at, most_grains, most_in_words
from .faults import FULL, Fault
from .progress import Bar
from .waves import WaveList, most_waves

# A block of drops has at most so many, and should take so many seconds.
_MOST_IN_BLOCK, _SECONDS_IN_BLOCK = 8192, 0.05
# A block of drops may have at most so many waves, if they are wanted, so that the room for them stays in the cache.
_WAVES_IN_BLOCK = 1 << 16
# A toppling takes a few nanoseconds.
_SECONDS_A_TOPPLING = 4e-9
# If fewer drops are wanted, so many random sites are drawn, and so much room for avalanches is kept from one call to the next.
_FEW = 256
# So few rows of a table are filled faster one by one.
_ROW_BY_ROW = 4

# The struct of include/sandpile.h.
_AVALANCHE = np.dtype([("site", np.uintp), ("size", "u8"), ("area", "u4"), ("reach", "u4"), ("lost", "u8")])
_SITE = _AVALANCHE["site"].itemsize

#: The type of the rows that `Drive.drop` returns, one for each drop.
AVALANCHE = np.dtype([(name, "i8") for name in ("number", *(_AVALANCHE.names or ()))])

NO_ROWS = np.empty(0, AVALANCHE)
NO_HEIGHTS = np.empty((0, 0), np.int64)
_COUNT = np.arange(_MOST_IN_BLOCK, dtype=np.int64)
_NO_SITES: NDArray[np.int64] = np.empty(0, np.int64)
_NO_BAR: ContextManager[Optional[Bar]] = nullcontext()

# What a copy of a run does not take over.
OF_THIS_PROCESS = {"_handle", "_before", "_call", "_ahead", "_few", "_found", "_go_on", "_pace"}

# How many drops there are, and where in memory the sites are of those from one up to another.
Sites = Tuple[int, Callable[[int, int], int]]
# Checks the arguments of a call, and returns the sites of its drops.
Check = Callable[[], Sites]
# Has the library drop grains: on which handle, where the sites are, how many, where the avalanches go, and how many drops of the
# call came before.
Export = Callable[[int, int, int, int, int], None]


def drop_only(at: int, sites: int, n: int, found: int, _: int) -> None:
    """The export that writes avalanches and nothing else."""
    call_at("sandpile_drive_drop", at, sites, n, found, n)


class State(NamedTuple):
    """What changes as grains drop."""

    drops: int  # so far
    drawn: int  # of these, drops at sites of the stream
    table: NDArray[np.void]  # of the last call


class Pace:
    """How many drops the next block has, by the time that the last one took. The first has as many as take the time of a block if
    no avalanche on the grid is larger than each of theirs. Nobody knows how large the next one is, so blocks grow slowly."""

    def __init__(self, shape: tuple[int, ...], cylinder: bool) -> None:
        most_topplings = shape[0] * shape[1] * most_waves(shape, cylinder)
        self.drops = max(1, int(_SECONDS_IN_BLOCK / (most_topplings * _SECONDS_A_TOPPLING)))

    def note(self, drops: int, seconds: float) -> None:
        """Takes in that a block with so many drops has taken so long."""
        fit = drops * _SECONDS_IN_BLOCK / max(seconds, 1e-9)
        self.drops = max(1, int(min(fit, max(self.drops, 1.5 * drops + 1))))


class _Call:
    """The drops of a call, and how many of them are known to be made: so many rows of the table are filled."""

    def __init__(self, first: int, drawn: int, draws: bool, table: NDArray[np.void], made: int = 0) -> None:
        self.first, self.drawn = first, drawn  # drops before this call, and how many of them were at sites of the stream
        self.draws, self.table, self.made = draws, table, made
        self._filled = table  # its rows that are filled, the same array at each look

    def state(self) -> State:
        if len(self._filled) != self.made:
            self._filled = self.table if self.made == len(self.table) else self.table[: self.made]
        return State(self.first + self.made, self.drawn + self.made * self.draws, self._filled)

    def fill(self, made: int, found: NDArray[np.void]) -> None:
        """Fills the rows up to one with the avalanches that the library has found last. Ctrl-C can come at any time."""
        begin, first = self.made, self.first + self.made
        if made - begin > _ROW_BY_ROW:
            _fill_columns(self.table[begin:made], first, found)
        else:
            for at in range(made - begin):
                self.table[begin + at] = (first + at, *found.item(at))
        self.made = made


def _fill_columns(rows: NDArray[np.void], first: int, found: NDArray[np.void]) -> None:
    rows["number"] = _COUNT[: len(rows)] + first
    for name in found.dtype.names or ():
        rows[name] = found[name][: len(rows)]


def _room(n: int) -> tuple[NDArray[np.void], int]:
    """Room for the avalanches of `n` drops, and its address, which NumPy is slow to tell."""
    room = new_array(n, _AVALANCHE, f"the avalanches of {n} drops")
    return room, room.ctypes.data


def listed(sites: NDArray[np.int64]) -> Sites:
    """The sites of an array that is checked."""
    at = sites.ctypes.data
    return sites.size, lambda begin, _: at + begin * sites.itemsize


class Dropping:
    """A pile that the library holds, and the drops on it."""

    _seed: int
    _stream: int
    _cylinder: bool
    _start_grains: int

    def _hold(self, given: Heights, state: State, progress: bool = False) -> None:
        """Makes the library hold a pile that was given these grains, in all drops so far and in those of the table."""
        self._handle, self._shape = DriveHandle(given, self._cylinder, progress), given.shape
        self._most, self._pace = _MOST_IN_BLOCK, Pace(given.shape, self._cylinder)  # drops in a block
        self._ahead = (0, _NO_SITES, 0)  # a place in the stream, the sites from there on, and their address
        self._few = self._found = _room(_FEW)  # the avalanches of the last block, and their address
        self._go_on: Optional[Callable[[], None]] = None  # called before each block; may raise an error
        self._continue(state)

    def _continue(self, state: State) -> None:
        """Takes up a state, of which the handle has made no drops."""
        rows = len(state.table)
        self._before = state.drops
        self._call = _Call(state.drops - rows, state.drawn, False, state.table, rows)

    def _current(self) -> State:
        with self._handle.use:
            last = self._call
            return last.state() if last.made == len(last.table) else self._read()[2]

    def _read(self, pile: Heights = NO_HEIGHTS, odometer: Heights = NO_HEIGHTS) -> tuple[int, int, State]:
        """Writes the pile and the odometer, unless they are empty, as of one time. Returns the topplings, the lost grains and the
        state. The library tells how many drops are made, if Ctrl-C came before that was noted here."""
        with self._handle.use:
            topplings, lost, drops = self._handle.read(pile, odometer)
            self._call.fill(self._before + drops - self._call.first, self._found[0])
            return topplings, lost, self._call.state()

    def _drop(
        self, check: Check, draws: bool, progress: bool = False, export: Export = drop_only, most: int | None = None
    ) -> NDArray[np.void]:
        """Makes the drops of a call, and returns their table; in blocks of at most `most` if it is given."""
        with self._handle.dropping():
            return self._drop_locked(check, draws, progress, export, most or self._most)

    def _drop_with(self, check: Check, draws: bool, progress: bool, odometers: bool, waves: bool) -> Any:
        if odometers and waves:
            raise TypeError("a drop returns odometers or waves; a copy of the run makes the same drops again")
        if odometers:
            return self._with_odometers(check, draws, progress)
        return self._with_waves(check, draws, progress) if waves else self._drop(check, draws, progress)

    def _with_waves(self, check: Check, draws: bool, progress: bool = False) -> tuple[NDArray[np.void], NDArray[np.void]]:
        each = most_waves(self._shape, self._cylinder)
        found, most = WaveList(each), min(self._most, _WAVES_IN_BLOCK // each)

        def export(at: int, sites: int, n: int, avalanches: int, _: int) -> None:
            call_at("sandpile_drive_waves", at, sites, n, avalanches, n, *found.room(n))
            found.keep()

        return self._drop(check, draws, progress, export, most), found.all(self._before)

    def _with_odometers(self, check: Check, draws: bool, progress: bool = False) -> tuple[NDArray[np.void], Heights]:
        topplings: Heights = NO_HEIGHTS
        first, counts = 0, self._shape[0] * self._shape[1]

        def check_and_make_room() -> Sites:
            nonlocal topplings, first
            drops, sites = check()
            self._check_grains(drops)
            topplings = new_array((drops, *self._shape), np.int64, f"the topplings of {drops} drops")
            first = topplings.ctypes.data
            return drops, sites

        def export(at: int, sites: int, _: int, found: int, begin: int) -> None:
            site, to = ctypes.c_int64.from_address(sites).value, first + begin * counts * topplings.itemsize
            call_at("sandpile_drive_avalanche", at, site, found, to, counts)

        return self._drop(check_and_make_room, draws, progress, export, most=1), topplings

    def _next_block(self, most: int) -> NDArray[np.void]:
        """Makes a block of at most so many drops at random sites. Only under the lock for drops."""
        return self._drop_locked(lambda: (min(most, self._most, self._pace.drops), self._draw), True, False, drop_only, self._most)

    def _drop_locked(self, check: Check, draws: bool, progress: bool, export: Export, most: int) -> NDArray[np.void]:
        sites = self._begin(check, draws, most)
        table, begin = self._call.table, 0
        with Bar(len(table)) if progress else _NO_BAR as bar:
            while begin < len(table):
                end = begin + min(most, self._pace.drops, len(table) - begin)
                self._drop_block(begin, end, sites, export)
                if bar:
                    bar.show(end)
                begin = end
        return table

    def _begin(self, check: Check, draws: bool, most: int) -> Callable[[int, int], int]:
        """Makes the table of a call, and returns where its sites are. From here on, Ctrl-C leaves no row of the call before; a
        refused call changes nothing."""
        with self._handle.use:
            now, last = self._current(), self._call
            self._call = _Call(now.drops, now.drawn, draws, NO_ROWS)
        try:
            n, sites = check()
            self._check_grains(n)
            table = new_array(n, AVALANCHE, f"a table of {n} drops")
            self._found = self._few if min(n, most) <= _FEW else _room(min(n, most))
            self._call = _Call(now.drops, now.drawn, draws, table)
            return sites
        except Exception:
            self._call = last
            raise

    def _drop_block(self, begin: int, end: int, sites: Callable[[int, int], int], export: Export) -> None:
        """Makes the drops of a call from one up to another."""
        if self._go_on:
            self._go_on()
        (found, at), place = self._found, sites(begin, end)
        with self._handle.use:
            begun = time.perf_counter()
            export(self._handle.at, place, end - begin, at, begin)
            self._call.fill(end, found)
            self._pace.note(end - begin, time.perf_counter() - begun)

    def _check_grains(self, n: int) -> None:
        """Refuses `n` more drops if they exceed the limit of grains."""
        if self._start_grains + self._call.first + self._call.made + n > most_grains(*self._shape):
            raise Fault(FULL, f"the pile and its drops together exceed {most_in_words(*self._shape)}")

    def _draw(self, begin: int, end: int) -> int:
        """The address of the sites of the stream at which a call makes its drops from one up to another."""
        (first, sites, at), drawn, n = self._ahead, self._call.drawn + begin, end - begin
        if not first <= drawn <= drawn + n <= first + sites.size:
            first, sites = drawn, new_array(max(n, _FEW), np.int64, "random sites")
            call("sites", self._shape, self._cylinder, self._seed, self._stream, first, sites)
            at = sites.ctypes.data
            self._ahead = first, sites, at
        return at + (drawn - first) * _SITE
