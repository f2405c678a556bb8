"""Finds libsandpile and calls it."""

from __future__ import annotations

import ctypes
import functools
import os
from pathlib import Path
from typing import Any

import numpy as np

from . import _interruptible, _memory, _processor, faults
from .faults import Fault

_NAME = "libsandpile.so.1"
_HERE = Path(__file__).resolve().parent
_CHECKOUT = _HERE.parent.parent / "crates" / "sand_c" / "out"
# The major version of include/sandpile.h that the declarations below are for.
_MAJOR = 1
# A library that is compiled for newer processors has this name.
_IS_NEWER = "sandpile_x86_64_v3"

_SIDES = (ctypes.c_size_t, ctypes.c_size_t, ctypes.c_bool)
_ARRAY = (ctypes.c_void_p, ctypes.c_size_t)
_PLACE = (ctypes.c_void_p,)
_HANDLE = _PLACE
_TAKES: dict[str, tuple[Any, ...]] = {
    "settle": (*_SIDES, *_ARRAY, *_ARRAY, *_PLACE, *_PLACE),
    "settle_all": (*_SIDES, *_ARRAY, *_ARRAY, *_ARRAY, *_ARRAY),
    "sites": (*_SIDES, ctypes.c_uint64, ctypes.c_uint64, ctypes.c_uint64, *_ARRAY),
    "burn": (*_SIDES, *_ARRAY, *_ARRAY, *_PLACE, *_PLACE),
    "burn_times": (*_SIDES, *_ARRAY, *_ARRAY),
    "tree": (*_SIDES, *_ARRAY, *_ARRAY),
    "of_tree": (*_SIDES, *_ARRAY, *_ARRAY),
    "random": (*_SIDES, ctypes.c_uint64, ctypes.c_uint64, *_ARRAY),
    "identity": (*_SIDES, *_ARRAY),
    "recurrent": (*_SIDES, *_ARRAY),
    "add": (*_SIDES, *_ARRAY, *_ARRAY),
    "inverse": (*_SIDES, *_ARRAY),
    "multiple": (*_SIDES, *_ARRAY, ctypes.c_uint64),
    "class": (*_SIDES, *_ARRAY, *_ARRAY),
    "superstable": (*_SIDES, *_ARRAY),
    "drive_new": (*_SIDES, *_ARRAY, *_HANDLE),
    "drive_drop": (*_HANDLE, *_ARRAY, *_ARRAY),
    "drive_waves": (*_HANDLE, *_ARRAY, *_ARRAY, *_ARRAY, *_PLACE),
    "drive_avalanche": (*_HANDLE, ctypes.c_size_t, *_PLACE, *_ARRAY),
    "drive_read": (*_HANDLE, *_ARRAY, *_ARRAY, *_PLACE, *_PLACE, *_PLACE),
    "drive_site": (*_HANDLE, ctypes.c_size_t, *_PLACE, *_PLACE),
    "drive_free": _HANDLE,
    "shared_new": (*_SIDES, *_ARRAY, ctypes.c_uint64, *_HANDLE),
    "pass_split": (*_HANDLE, ctypes.c_uint64, *_HANDLE),
    "pass_split_rows": (*_HANDLE, ctypes.c_uint16, *_HANDLE),
    "pass_drop": (*_HANDLE, *_ARRAY, *_PLACE),
    "pass_tally": (*_HANDLE, *_PLACE),
    "pass_sweep": (*_HANDLE, *_PLACE),
    "pass_holding": (*_HANDLE, *_PLACE),
    "pass_join": (*_HANDLE, *_HANDLE),
    "pass_settle": (*_HANDLE, *_ARRAY, *_ARRAY, *_ARRAY, *_PLACE, *_PLACE),
    "pass_free": _HANDLE,
    "grain_limit": (*_SIDES, *_PLACE),
    "version": (),
}
# What a call needs for each site, in bytes, by the growth of the process on 1,024 by 1,024 sites: the most that piles needed, with
# the arrays that the call fills.
_BYTES_A_SITE = {
    "settle": 62, "burn": 30, "burn_times": 30, "tree": 32, "of_tree": 24, "random": 20, "identity": 52, "recurrent": 92,
    "add": 78, "inverse": 78, "multiple": 92, "class": 132, "superstable": 132, "drive_new": 42, "shared_new": 44,
}
# Calls that may guess an odometer, and what that takes for each mode of a row at each column.
_GUESSES = {"settle", "identity", "recurrent", "add", "inverse", "multiple", "class", "superstable"}
_BYTES_A_MODE = 12


def _places() -> list[str]:
    """Where the library may be, in order of preference: named, in this package, built in the checkout, known to the
    system."""
    if named := os.environ.get("LIBSANDPILE"):
        return [named]
    files = (_HERE / _NAME, _CHECKOUT / _NAME)
    return [*(str(file) for file in files if file.exists()), _NAME]


def _check_processor(place: str, kind: str) -> None:
    """Raises an error if this processor is too old: a call of the library would end the program."""
    if missing := _processor.lacking(kind):
        raise ImportError(
            f"{place} needs a processor of {kind}, but this one lacks {', '.join(missing)} (a virtual machine has what its model of "
            f"a processor has; that of qemu64 is too old); in the repository, ./build library makes one for the processor that it "
            f"runs on, of {_processor.OLDEST} or newer"
        )


def _load() -> ctypes.CDLL:
    place = _places()[0]
    try:
        library = ctypes.CDLL(place)
    except OSError as error:
        if "CPU ISA level" in str(error):  # the loader does not say what this processor lacks
            _check_processor(place, _processor.NEWER)
        raise ImportError(f"{place} cannot be loaded ({error}); in the repository, ./build library builds it") from None
    _check_processor(place, _processor.NEWER if hasattr(library, _IS_NEWER) else _processor.OLDEST)
    try:
        # Another major version may have other calls, so the version comes first.
        major = _declared(library, "version")() // 10000
        if major != _MAJOR:
            raise ImportError(f"{place} has version {major}.x, but this module needs version {_MAJOR}.x")
        for name in _TAKES:
            _declared(library, name)
    except AttributeError as error:
        raise ImportError(f"{place} is no libsandpile, or is older than this module: {error}") from None
    return library


def _declared(library: ctypes.CDLL, name: str) -> Any:
    """An export, with the types that it takes and returns."""
    export = getattr(library, f"sandpile_{name}")
    export.argtypes, export.restype = _TAKES[name], None if name.endswith("_free") else ctypes.c_uint32
    return export


library = _load()
# As named, whatever folder this process goes to.
_FILE: str = os.path.abspath(library._name) if "/" in library._name else library._name


def call(name: str, shape: tuple[int, ...], cylinder: bool, *arguments: Any, progress: bool = False) -> None:
    """Calls an export on a grid of this shape, as `call_on` does, in another process if that may last. A fault of too many grains
    names the limit of the grid."""
    height, width = shape
    lasts = _interruptible.may_last(name, shape, cylinder)
    shared = sum(array.nbytes for array in arguments if isinstance(array, np.ndarray)) if lasts else 0
    check_memory(name, height, width, shared)
    try:
        if not (lasts and _is_made_apart(name, width, height, cylinder, *arguments, progress=progress)):
            call_on(name, width, height, cylinder, *arguments)
    except Fault as fault:
        if fault.number != faults.TOO_MANY_GRAINS:
            raise
        raise Fault(faults.TOO_MANY_GRAINS, f"the pile has more than {most_in_words(height, width)}") from None


def _is_made_apart(name: str, *arguments: Any, progress: bool) -> bool:
    """Whether another process makes a call, which Ctrl-C can end. Raises the fault that the export returns."""
    width, height = arguments[:2]
    number = _interruptible.number_of(_FILE, name, f"{height:,} by {width:,}", arguments, progress)
    if number:
        raise Fault(number)
    return number is not None


@functools.lru_cache
def most_grains(height: int, width: int) -> int:
    """The grain limit of a grid, with either edge."""
    most = ctypes.c_uint64()
    call_on("grain_limit", width, height, False, ctypes.byref(most))
    return most.value


def check_grid(height: int, width: int, cylinder: bool) -> None:
    """Raises a fault for a grid that there is not, such as a cylinder that is too narrow."""
    call_on("grain_limit", width, height, cylinder, ctypes.byref(ctypes.c_uint64()))


def most_in_words(height: int, width: int) -> str:
    """The grain limit of a grid, as faults name it, with what makes it lower than that of others."""
    most = most_grains(height, width)
    return f"{most:,} grains" if most == most_grains(1, 1) else f"{most:,} grains, the limit on {height:,} rows"


def check_memory(name: str, height: int, width: int, more: int = 0) -> None:
    """Refuses a call of an export for which the memory is not there, with so many bytes more."""
    modes = _BYTES_A_MODE * width**2 if name in _GUESSES else 0
    _memory.check(_BYTES_A_SITE.get(name, 0) * height * width + modes + more, f"a grid of {height:,} by {width:,}")


def call_on(name: str, *arguments: Any) -> None:
    """Calls an export. An array is passed as a pointer and a length.

    Arrays must be contiguous, and new if the export writes to them. The global interpreter lock is released during the
    call. Raises the fault that the export returns.
    """
    passed: list[Any] = []
    for argument in arguments:
        if isinstance(argument, np.ndarray):
            passed += (argument.ctypes.data, argument.size)
        else:
            passed.append(argument)
    call_at(f"sandpile_{name}", *passed)


def call_at(name: str, *arguments: Any) -> None:
    """Calls an export as `call_on` does, but arrays are passed by their addresses already: NumPy is slow to tell them."""
    number = getattr(library, name)(*arguments)
    if number:
        raise Fault(number)
