"""Recordings: the rows of a long run in a file, and a save of the run that says which of them last.

Ctrl-C, a kill or a power cut may end a recording at any time. The save on the disk never speaks of rows that the disk lacks, since
each of these is on the disk (fsync) before the next one begins:

1. New rows, after those of the save.
2. A new save, under another name.
3. That name in place of the old save's, in one step.

So a run goes on from its save. Rows after those of the save are cut off, and are made again, the same. The rows of the save are
compared with its CRC-32: a file that lacks some, or has others, is refused.
"""

from __future__ import annotations

import contextlib
import errno
import fcntl
import os
import time
import zlib
from pathlib import Path
from typing import TYPE_CHECKING, Callable, Optional

import numpy as np
from numpy.typing import NDArray

from . import _memory, _saves
from ._arrays import Heights
from ._library import call
from ._saves import Rows, Saved
from .faults import PLAN, Fault
from .progress import Bar

if TYPE_CHECKING:
    from .driving import Drive

# So many bytes of the file are read at once, and so many random sites are drawn, or as many as the grid has.
_BYTES_AT_ONCE, _SITES_AT_ONCE = 1 << 20, 1 << 16


def record(run: Drive, n: int, rows: Path, save: Path, every: float, progress: bool) -> None:
    """Drops grains until the file has `n` rows. The caller holds the run's lock for drops."""
    if not save.exists():
        run._check_grains(n)  # before a file is made
    with _saves.naming(rows), contextlib.closing(_Recording(run, rows, save)) as recording:
        recording.begin(n)
        if progress:
            with Bar(n) as bar:
                recording.go_on(n, every, bar.show)
        else:
            recording.go_on(n, every)


class _Recording:
    """A file of rows, locked until it is closed, and the save of their run."""

    def __init__(self, run: Drive, rows: Path, save: Path) -> None:
        self._run, self._rows, self._save = run, rows, save
        self._row = run.table.dtype.itemsize
        self._now = Rows(0, 0)  # of the file
        self._kept: Optional[Rows] = None  # those of the save, if it need not be written
        make = 0 if save.exists() else os.O_CREAT
        try:
            self._file = open(rows, "r+b", 0, opener=lambda name, flags: os.open(name, flags | make, 0o666))
        except FileNotFoundError:
            if make:
                raise
            raise ValueError(f"{save} exists, but {rows}, its file of rows, does not") from None
        self._lock()

    def _lock(self) -> None:
        """Locks the file, which ends with this process at the latest. The lock of another process or thread is not waited for."""
        try:
            fcntl.flock(self._file, fcntl.LOCK_EX | fcntl.LOCK_NB)
        except BaseException as error:
            self.close()
            if isinstance(error, BlockingIOError):
                raise RuntimeError(f"another process or thread is recording to {self._rows}") from None
            raise

    def close(self) -> None:
        """Closes the file, which frees the lock."""
        self._file.close()

    def begin(self, n: int) -> None:
        """Goes on from the save if there is one, once it is known to be of this run and its rows to be in the file."""
        if self._save.exists():
            self._go_on_from_save(n)
        elif os.fstat(self._file.fileno()).st_size:
            raise ValueError(f"{self._rows} has rows, but their save, {self._save}, does not exist; to begin anew, give other names")
        else:
            _saves.sync_folder(self._rows)
        self._first = self._run.drops - self._now.rows

    def _go_on_from_save(self, n: int) -> None:
        saved, kept = _saves.read(self._save)
        if kept is None:
            raise ValueError(f"{self._save} was written by `save`, not by `record`; give another name")
        if difference := _difference(self._run, saved):
            raise ValueError(f"{self._save} is of another run: {difference}")
        if n < kept.rows:
            raise Fault(PLAN, f"n is {n}, but {self._rows} has {kept.rows} rows of this run already")
        self._compare(kept)
        self._run._check_grains(saved.drops - self._run.drops + n - kept.rows)
        self._run._go_to(saved)
        self._file.truncate(kept.rows * self._row)
        self._now, self._kept = kept, kept if n == kept.rows else None

    def _compare(self, kept: Rows) -> None:
        """Refuses the file unless it has these rows, and perhaps others after them."""
        size, at, crc = kept.rows * self._row, 0, 0
        while data := os.pread(self._file.fileno(), min(size - at, _BYTES_AT_ONCE), at):
            at, crc = at + len(data), zlib.crc32(data, crc)
        if at < size:
            raise ValueError(f"{self._rows} has only {at // self._row} of the {kept.rows} rows that {self._save} tells of")
        if crc != kept.crc:
            raise ValueError(
                f"the first {kept.rows} rows of {self._rows} are not those that {self._save} tells of: they are of another run, "
                "or damaged"
            )

    def go_on(self, n: int, every: float, show: Optional[Callable[[int], None]] = None) -> None:
        """Drops grains until the file has `n` rows. If Ctrl-C or a lack of memory stops this, no row is lost."""
        try:
            self._keep()
            self._make(n, every, show)
            self._keep()
        except OSError:  # of a file: the run will go on from the last save
            raise
        except BaseException:
            self._append_rest()
            self._keep()
            raise

    def _make(self, n: int, every: float, show: Optional[Callable[[int], None]]) -> None:
        begun = time.monotonic()
        while self._now.rows < n:
            self._check_name()
            self._append(self._run._next_block(n - self._now.rows))
            if time.monotonic() - begun >= every:
                self._keep()
                begun = time.monotonic()
            if show:
                show(self._now.rows)

    def _check_name(self) -> None:
        """Ends a recording whose rows would be lost, since the file has no longer its name."""
        with contextlib.suppress(FileNotFoundError):
            if os.path.samestat(os.stat(self._rows), os.fstat(self._file.fileno())):
                return
        said = "the file of rows was removed or replaced while rows were recorded; put it back, or give other names"
        raise FileNotFoundError(errno.ENOENT, said, str(self._rows))

    def _append(self, table: NDArray[np.void]) -> None:
        """Writes rows after those that count so far, over what may be there. Only then they count, too."""
        data = table.view(np.uint8).data
        left, at = data, self._now.rows * self._row
        while left:
            done = os.pwrite(self._file.fileno(), left, at)
            left, at = left[done:], at + done
        self._now = Rows(self._now.rows + len(table), zlib.crc32(data, self._now.crc))

    def _append_rest(self) -> None:
        """Writes the rows that the file lacks. They are in the last table."""
        table = self._run.table
        lacking = self._run.drops - self._first - self._now.rows
        self._append(table[len(table) - lacking :])

    def _keep(self) -> None:
        """Saves the run, whose rows all count, unless the save has them."""
        now = self._now
        if now != self._kept:
            self._check_name()
            os.fsync(self._file.fileno())
            _saves.write(self._save, self._run._saved()[0], now)
            self._kept = now


def _difference(run: Drive, saved: Saved) -> Optional[str]:
    """What shows that a save is of another run: neither of the two leads to the other by drops at random sites."""
    here = run._saved()[0]
    for name, one, other in (
        ("shape", here.pile.shape, saved.pile.shape),
        ("seed", here.seed, saved.seed),
        ("stream", here.stream, saved.stream),
        ("cylinder", bool(here.cylinder), bool(saved.cylinder)),
    ):
        if one != other:
            return f"its {name} is {other}, not {one}"
    before, after = sorted((here, saved), key=lambda each: each.drops)
    with _memory.room_for("the drops between a run and its save"):
        is_on_its_way = (
            before.start_grains == after.start_grains
            and after.drops - before.drops == after.drawn - before.drawn
            and np.array_equal(before.given() + _grains(before, after.drawn), after.given())
        )
    return None if is_on_its_way else "it began on another pile, or had other drops"


def _grains(saved: Saved, end: int) -> Heights:
    """How many grains fall on each site from where a run is up to a place in its stream of random sites."""
    grains = np.zeros(saved.pile.size, np.int64)
    at_once = max(_SITES_AT_ONCE, grains.size)
    for begin in range(saved.drawn, end, at_once):
        sites = np.empty(min(at_once, end - begin), np.int64)
        call("sites", saved.pile.shape, bool(saved.cylinder), saved.seed, saved.stream, begin, sites)
        grains += np.bincount(sites, minlength=grains.size)
    return grains.reshape(saved.pile.shape)
