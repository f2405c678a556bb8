"""The crates of crates.txt."""

from __future__ import annotations

from typing import NamedTuple

from paths import TOP


class Crate(NamedTuple):
    """A crate's line in crates.txt, and the crates and libraries that it uses."""

    line: str
    uses: list[str]


def crates() -> dict[str, Crate]:
    """The crates of crates.txt, by name."""
    lines = [line for line in (TOP / "crates.txt").read_text().splitlines() if line and not line.startswith("#")]
    return {line.partition(":")[0].split()[0]: Crate(line, line.partition(":")[2].split()) for line in lines}
