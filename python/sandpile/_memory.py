"""Memory for large arrays: a call asks once, and is refused before the machine swaps or ends the process."""

from __future__ import annotations

import contextlib
import os
from collections.abc import Iterator

from .faults import MEMORY, Fault, OutOfMemory

# So many bytes are not asked for, since that would take longer than most calls.
_FEW_BYTES = 1 << 26


def available() -> int:
    """The bytes that can be had without swapping, by the estimate of Linux."""
    with contextlib.suppress(OSError), open("/proc/meminfo") as file:
        for line in file:
            if line.startswith("MemAvailable:"):
                return int(line.split()[1]) * 1024
    return os.sysconf("SC_AVPHYS_PAGES") * os.sysconf("SC_PAGE_SIZE")


def check(size: int, what: str) -> None:
    """Raises the fault Memory if fewer bytes are available."""
    if size > _FEW_BYTES and size > (there := available()):
        raise Fault(MEMORY, f"not enough memory for {what}: {_shown(size)} needed, {_shown(there)} available")


def lack(what: str, size: int = 0) -> Fault:
    """The fault Memory for an allocation that failed, although so many bytes seemed to be available."""
    return Fault(MEMORY, f"not enough memory for {what}" + (f": {_shown(size)} needed" if size > _FEW_BYTES else ""))


@contextlib.contextmanager
def room_for(what: str) -> Iterator[None]:
    """Has an allocation of NumPy fail with the fault Memory."""
    try:
        yield
    except OutOfMemory:
        raise
    except MemoryError:
        raise lack(what) from None


def _shown(size: int) -> str:
    return f"{size / 1e9:,.1f} GB" if size >= 10**9 else f"{size / 1e6:.0f} MB"
