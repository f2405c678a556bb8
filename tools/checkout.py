"""Copies the files of this checkout, but not what git does not see: its own folder, and what .gitignore names."""

from __future__ import annotations

import fnmatch
import shutil
from pathlib import Path

from paths import TOP


def copy_to(folder: Path, *others: str) -> None:
    """Copies the files into a new folder, without those whose names match one of the others. What tests make in the checkout
    meanwhile is not in the way, since git does not see it."""
    unseen = [".git", *others, *(line.rstrip("/") for line in (TOP / ".gitignore").read_text().split())]

    def left_out(inside: str, names: list[str]) -> set[str]:
        path = Path(inside).relative_to(TOP)
        return {name for name in names for it in unseen if fnmatch.fnmatch(str(path / name) if "/" in it else name, it)}

    shutil.copytree(TOP, folder, symlinks=True, ignore=left_out)
