"""Reads a pile from the bytes of a file: a NumPy file, the text of the program, or rows of numbers."""

from __future__ import annotations

import io
import re
from typing import Any, NamedTuple, Optional

import numpy as np
from numpy.lib import format as _format
from numpy.typing import NDArray

from ._arrays import Heights, heights_of, shape_of

_NUMPY, _ZIP = b"\x93NUMPY", b"PK"
# NumPy gives it no types.
_npy: Any = _format
_HEAD = re.compile(r"\s*(\d{1,9})\s+(\d{1,9})(?:\s+(c))?(?=\s|$)")
_KINDS = "a .npy file, the text of a pile (width, height, perhaps c, then the heights), or rows of numbers"


class Read(NamedTuple):
    """A pile, and whether its text says that it is on a cylinder; None if it says nothing."""

    heights: Heights
    cylinder: Optional[bool]


def read(content: bytes) -> Read:
    """The pile of a file. What is none is a ValueError or a TypeError that says what was found."""
    if content.startswith(_NUMPY):
        return Read(heights_of(_array_of(content)), None)
    if content.startswith(_ZIP):
        raise ValueError("this is an archive, such as Drive.save writes: call play(Drive.load(..)), or save a pile with numpy.save")
    try:
        text = content.decode()
    except UnicodeDecodeError as error:
        raise ValueError(f"this file is no pile: byte {error.start} is no text, and {_KINDS} is wanted") from None
    return _of_text(text)


def _array_of(content: bytes) -> NDArray[Any]:
    """The array of a .npy file. Its shape is checked before there is an array."""
    file = io.BytesIO(content)
    try:
        version = _npy.read_magic(file)
        header = _npy.read_array_header_1_0 if version == (1, 0) else _npy.read_array_header_2_0
        shape, _, kind = header(file)
    except ValueError as error:
        raise ValueError(f"this .npy file cannot be read: {error}") from None
    if len(shape) == 2:
        shape_of(shape)
    needed = kind.itemsize
    for side in shape:
        needed *= side
    if not kind.hasobject and needed > len(content):
        size = len(content)
        raise ValueError(f"this .npy file has {size:,} bytes, but an array of shape {shape} and type {kind} needs {needed:,}")
    try:
        array: NDArray[Any] = np.load(io.BytesIO(content), allow_pickle=False)
    except (ValueError, EOFError) as error:
        raise ValueError(f"this .npy file cannot be read: {error}") from None
    return array


def _of_text(text: str) -> Read:
    """The pile of a text: that of the program if its sides fit the numbers, else a row for each line."""
    head = _HEAD.match(text)
    if head and (head[3] or _has_sides(text, head)):
        width, height = int(head[1]), int(head[2])
        shape_of((height, width))
        numbers = text[head.end():].split()
        if len(numbers) != width * height:
            pile = f"a pile of width {width} and height {height} has {width * height:,}"
            raise ValueError(f"this text has {len(numbers):,} heights, but {pile}")
        return Read(heights_of(np.reshape(_numbers(numbers), (height, width))), bool(head[3]))
    rows = [line.replace(",", " ").split() for line in text.splitlines() if line.strip()]
    if not rows:
        raise ValueError(f"this file is empty: {_KINDS} is wanted")
    for number, row in enumerate(rows):
        if len(row) != len(rows[0]):
            raise ValueError(f"line {number + 1} has {len(row)} numbers, but line 1 has {len(rows[0])}: {_KINDS} is wanted")
    shape_of((len(rows), len(rows[0])))
    return Read(heights_of([_numbers(row) for row in rows]), None)


def _has_sides(text: str, head: re.Match[str]) -> bool:
    return int(head[1]) * int(head[2]) == len(text[head.end():].split())


def _numbers(words: list[str]) -> list[int]:
    """The numbers of words, each of which must be an integer."""
    for word in words:
        if not re.fullmatch(r"[-+]?\d{1,30}", word):
            raise ValueError(f"{word[:40]!r} is no height: {_KINDS} is wanted")
    return [int(word) for word in words]
