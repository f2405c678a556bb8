"""What is made of the crates: libraries, the program `sandpile`, and the library for C and Python. What each is made from is noted
next to it."""

from __future__ import annotations

import hashlib
import os
from pathlib import Path

import crate_list
import paths
import processor
import running
from paths import TOP

PROGRAM, LIBRARY = "sandpile", "sand_c"  # the crates
FILES = {PROGRAM: paths.PROGRAM, LIBRARY: paths.LIBRARY}
CRATES = crate_list.crates()
MAP = TOP / "include" / "sandpile.map"
# The checksum of each source; and the toolchain's line, with the processor if it is not that of a release.
MADE_FROM, MADE_BY = "made-from", "made-by"


def out_of(crate: str) -> Path:
    return TOP / "crates" / crate / "out"


def folder_of(crate: str) -> Path:
    """Where a product is, or the library of a crate that others use: its statements, which are all that they need."""
    return out_of(crate) if crate in FILES else out_of(crate) / "statements"


def file_of(crate: str) -> Path:
    return FILES.get(crate, folder_of(crate) / f"{crate}.rlib")


def with_all_below(top: str) -> list[str]:
    """A crate and all crates below it, lowest first."""
    found: list[str] = []

    def visit(crate: str) -> None:
        if crate in CRATES and crate not in found:
            for below in CRATES[crate].uses:
                visit(below)
            found.append(crate)

    visit(top)
    return found


def kit() -> Path:
    """The folder of the toolchain."""
    return Path(running.said("rt", "doc").strip()).parent


def toolchain() -> str:
    """The toolchain's line in a note of what something was made by."""
    running.need("rt", "is the Rattle toolchain, which proves and builds everything")
    return running.said("rt", "version").rstrip("\n") + "\n"


def maker(crate: str, toolchain: str, cpu: str) -> str:
    """What is noted next to a crate or a product of what it was made by. Only products have code, for a processor."""
    return toolchain if crate not in FILES or cpu == processor.OLDEST else f"{toolchain.strip()}, for {cpu}\n"


def own_sources(crate: str) -> list[str]:
    """A crate's line of crates.txt, and the checksum of each of its sources. Tests and wrong bodies are not sources."""
    folder = TOP / "crates" / crate
    files = (file for part in ("src", "specs", "proofs") for file in folder.joinpath(part).rglob("*"))
    names = {str(file.relative_to(folder)): file for file in files if file.is_file() and not file.is_symlink()}
    lines = [f"{hashlib.sha256(MAP.read_bytes()).hexdigest()}  -"] if crate == LIBRARY else []
    lines += [f"{hashlib.sha256(names[name].read_bytes()).hexdigest()}  {name}" for name in sorted(names) if "/tests" not in name]
    return [CRATES[crate].line, *lines]


def sources(crate: str) -> str:
    """What a crate is made from: its own sources, and those of all crates below it."""
    return "".join(f"{line}\n" for below in with_all_below(crate) for line in own_sources(below))


def read(path: Path) -> str:
    """The text of a file, or nothing if there is none."""
    return path.read_text() if path.exists() else ""


def is_made(crate: str, made_from: str, by: str | None) -> bool:
    """Whether a crate is built, from these sources, by this maker or by any."""
    if read(folder_of(crate) / MADE_FROM) != made_from or not os.access(file_of(crate), os.X_OK):
        return False
    return by is None or read(folder_of(crate) / MADE_BY) == by


def note(crate: str, made_from: str, by: str) -> None:
    (folder_of(crate) / MADE_BY).write_text(by)
    (folder_of(crate) / MADE_FROM).write_text(made_from)
