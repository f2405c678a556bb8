"""Handles of the library: piles that live between calls."""

from __future__ import annotations

import ctypes
import os
import threading
import weakref

from . import _library
from ._arrays import Heights
from ._interruptible import may_last
from ._library import call, call_at, call_on, check_memory
from .settling import settled


class Handle:
    """A struct at the address `at`, empty until a call fills it. What it holds is freed with this object."""

    def __init__(self, kind: str) -> None:
        self._struct = ctypes.c_void_p()
        self.at = ctypes.addressof(self._struct)
        self._free = getattr(_library.library, f"sandpile_{kind}_free")

    def free(self) -> None:
        """Frees what the handle holds, if anything, and empties it."""
        self._free(self.at)

    def __del__(self) -> None:
        if "_free" in vars(self):  # else Ctrl-C came while this was made
            self.free()


class PassHandle(Handle):
    """A pass of a shared pile. It belongs to the process that made it: in a forked child it may be a copy of what another
    thread was changing."""

    def __init__(self) -> None:
        self._process = os.getpid()
        super().__init__("pass")

    @property
    def is_here(self) -> bool:
        """Whether this process has made it."""
        return self._process == os.getpid()

    def free(self) -> None:
        """Frees what the handle holds, in the process that made it."""
        if self.is_here:
            super().free()


class DriveHandle(Handle):
    """A driven pile. Each call of the library is made under `with handle.use`, so one thread waits for another."""

    def __init__(self, heights: Heights, cylinder: bool, progress: bool = False) -> None:
        self._renew()
        super().__init__("drive")
        # Odometer, topplings and lost grains of a start that was settled where Ctrl-C can end it. Else the library counts them.
        self._first: tuple[Heights, int, int] | None = None
        if heights.max() > 3:
            if may_last("settle", heights.shape, cylinder):
                start = settled(heights, cylinder, progress)
                self._first = start.odometer, start.topplings, start.lost
            else:
                check_memory("settle", *heights.shape)
        call("drive_new", heights.shape, cylinder, heights, self.at)
        with _fork:  # a fork reads them all
            _drives.add(self)

    def _renew(self) -> None:
        # A signal's handler may read a run in the thread that uses it.
        self.use = threading.RLock()
        self._dropping = threading.Lock()

    def dropping(self) -> threading.Lock:
        """The lock that a thread holds while it drops grains by several calls. Another thread that would is refused."""
        if self._dropping.locked():
            raise RuntimeError("another call is dropping grains on this Drive: use it in one thread at a time")
        # Ctrl-C could come between an `acquire` that does not wait and its `try`. So a call that begins at the very same
        # moment waits.
        return self._dropping

    def read(self, heights: Heights, odometer: Heights) -> tuple[int, int, int]:
        """Writes both arrays, unless they are empty. Returns the topplings, the lost grains, and the drops made on this handle."""
        sums = ctypes.c_uint64(), ctypes.c_uint64(), ctypes.c_uint64()
        call_on("drive_read", self.at, heights, odometer, *map(ctypes.byref, sums))
        topplings, lost, drops = (number.value for number in sums)
        if self._first:
            each, all_topplings, all_lost = self._first
            odometer += each if odometer.size else 0
            topplings, lost = topplings + all_topplings, lost + all_lost
        return topplings, lost, drops

    def site(self, number: int) -> tuple[int, int]:
        """The height of a site, and how often it has toppled."""
        height, topplings = ctypes.c_uint64(), ctypes.c_uint64()
        call_at("sandpile_drive_site", self.at, number, ctypes.byref(height), ctypes.byref(topplings))
        return height.value, topplings.value + (self._first[0].item(number) if self._first else 0)


# A fork waits until no thread is inside a call on a driven pile, so the child's copy of each is whole. The locks of the
# child are new, since it has none of the threads that may hold the others.
_drives: weakref.WeakSet[DriveHandle] = weakref.WeakSet()
_held: list[DriveHandle] = []
_fork = threading.RLock()


def _before_fork() -> None:
    _fork.acquire()
    for drive in tuple(_drives):
        drive.use.acquire()
        _held.append(drive)


def _after_fork_in_parent() -> None:
    while _held:
        _held.pop().use.release()
    _fork.release()


def _after_fork_in_child() -> None:
    _held.clear()
    for drive in tuple(_drives):
        drive._renew()
    _fork.release()


os.register_at_fork(
    before=_before_fork, after_in_parent=_after_fork_in_parent, after_in_child=_after_fork_in_child
)
