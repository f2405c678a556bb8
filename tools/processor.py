"""The kinds of processor that the program and the library are built for, as the Python module tells them apart."""

from __future__ import annotations

import runpy
import struct
from collections.abc import Callable

from paths import TOP

_KNOWN = runpy.run_path(str(TOP / "python" / "sandpile" / "_processor.py"))
OLDEST: str = _KNOWN["OLDEST"]
NEWER: str = _KNOWN["NEWER"]
newest: Callable[[], str] = _KNOWN["newest"]

# An ELF note, GNU_PROPERTY_X86_ISA_1_NEEDED of the x86-64 psABI, with the bit of x86-64-v3: the loader of glibc refuses a file that has
# it on an older processor.
NEEDS_NEWER = struct.pack("<3I4s4I", 4, 16, 5, b"GNU", 0xC0008002, 4, 1 << 2, 0)
