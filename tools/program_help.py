"""What the program says of itself: its version, its commands and their options, read from its help."""

from __future__ import annotations

import re
from pathlib import Path

from running import said


def version_of(program: Path) -> str:
    """Name and version, such as `sandpile 1.0.0`."""
    return said(program, "--version").partition(",")[0]


def section_of(text: str, name: str) -> list[str]:
    """The lines of a section of help, such as `Options:`. They are indented or empty."""
    found = re.search(rf"^{name}:\n((?:(?:  .*)?\n)+)", text, re.M)
    return found[1].splitlines() if found else []


def commands_of(program: Path) -> dict[str, str]:
    """The commands that help lists, and what each does."""
    lines = (re.match(r"  (\w+) +(.*)", line) for line in section_of(said(program, "-h"), "Commands"))
    return {line[1]: line[2] for line in lines if line}


def options_of(program: Path, *words: str) -> dict[str, str]:
    """The options in short help, such as `-h, --help` or `--seed <N>`, and what each does."""
    lines = (re.match(r" +((?:-\w, )?--[\w-]+(?: <\w+>)?)  +(.*)", line) for line in section_of(said(program, *words, "-h"), "Options"))
    return {line[1]: line[2].replace(" (see more with '--help')", "") for line in lines if line}
