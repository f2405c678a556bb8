"""What scripts and tests compile from C."""

from __future__ import annotations

from pathlib import Path

from paths import TOP
from running import need, run


def compiled(source: Path, made: Path, *options: str) -> Path:
    """Compiles a source in C."""
    need("cc", f"compiles {source.name} (on Debian: apt-get install gcc libc6-dev)")
    run(["cc", "-O2", *options, "-o", made, source], check=True)
    return made


def queue(folder: Path, side: int = 256) -> Path:
    """Compiles the plain queue in C that drops and settles as the program does, for grids with sides up to this one."""
    return compiled(TOP / "tools" / "bench" / "queue.c", folder / "queue", "-std=c99", f"-DSIDE={side}")


def refusing_library(folder: Path) -> dict[str, str]:
    """Compiles the library that makes allocations fail. Returns what a program that is run in this folder needs in its environment
    to load it. The loader splits this text at spaces and colons, which the path of the folder may have."""
    made = compiled(TOP / "tools" / "refuse.c", folder / "refuse.so", "-Wall", "-Wextra", "-Werror", "-shared", "-fPIC")
    return {"LD_PRELOAD": f"./{made.name}"}
