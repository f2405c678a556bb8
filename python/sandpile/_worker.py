"""Makes one call of the library, in a process of its own that `_interruptible` starts and may kill. It imports little, to start fast.

Its words are the descriptor of memory that both share, the library, the export, and what the export takes: a number as such, and an
array as `*` with its length in bytes. The arrays are in the memory one after another. It writes the number that the export returns.
"""

from __future__ import annotations

import contextlib
import ctypes
import mmap
import os
import sys

# Arrays begin at multiples of this.
ALIGNMENT = 64
_PR_SET_PDEATHSIG, _SIGKILL = 1, 9  # importing `signal` takes long


def _end_before_the_parent() -> None:
    """Has this process end if the one that has started it does, and before that if memory runs out."""
    ctypes.CDLL(None).prctl(_PR_SET_PDEATHSIG, _SIGKILL)
    with contextlib.suppress(OSError), open("/proc/self/oom_score_adj", "w") as file:
        file.write("1000")


def _work(memory: str, library: str, export: str, *words: str) -> None:
    call = getattr(ctypes.CDLL(library), export)
    arrays = mmap.mmap(int(memory), 0)
    at = ctypes.addressof(ctypes.c_char.from_buffer(arrays))
    passed = []
    for word in words:
        number = int(word.lstrip("*"))
        passed.append(ctypes.c_uint64(at if word[0] == "*" else number))
        if word[0] == "*":
            at += -(-number // ALIGNMENT) * ALIGNMENT
    if os.read(0, 1):  # the arrays are there; nothing comes if the parent was stopped or has ended before
        os.write(1, b"%d" % call(*passed))


if __name__ == "__main__":
    _end_before_the_parent()
    _work(*sys.argv[1:])
    os._exit(0)
