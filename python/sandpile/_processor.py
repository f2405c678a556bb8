"""Which processors the library is compiled for, and whether this one is one of them. Imports nothing of the module, so that the
scripts of the repository can use it, too."""

from __future__ import annotations

from pathlib import Path

OLDEST, NEWER = "x86-64-v2", "x86-64-v3"
# What tells of the processor, and what each kind must have in addition to the older one, by the names there.
_TOLD = Path("/proc/cpuinfo")
_HAS = {
    OLDEST: ("cx16", "lahf_lm", "pni", "popcnt", "sse4_1", "sse4_2", "ssse3"),
    NEWER: ("abm", "avx", "avx2", "bmi1", "bmi2", "f16c", "fma", "movbe", "xsave"),
}


def lacking(kind: str) -> list[str] | None:
    """What this processor lacks of a kind, or None if nothing tells."""
    try:
        with open(_TOLD, "rb") as file:
            flags = next((line.split()[2:] for line in file if line.startswith(b"flags")), None)
    except OSError:
        return None
    needed = _HAS[OLDEST] + (_HAS[NEWER] if kind == NEWER else ())
    return None if flags is None else [name for name in needed if name.encode() not in flags]


def newest() -> str:
    """The newest kind that this processor is of, or the oldest if nothing tells."""
    return NEWER if lacking(NEWER) == [] else OLDEST
