"""Pictures without matplotlib: the colours of sites, PNG files, and what a notebook shows."""

from __future__ import annotations

import struct
import zlib
from typing import TYPE_CHECKING, Any

import numpy as np
from numpy.typing import NDArray

# NumPy's stubs do not declare types for masked arrays.
ma: Any = np.ma

# For 0, 1, 2 and 3 grains. If there are other values, the colours are between these.
COLOURS = ("#0b1d3a", "#2f6f9f", "#f2c14e", "#fdf6e3")
MOST, LEVELS = 3, 255
# For sites that stand out, such as those of a forbidden set.
RED = "#c8102e"
# The longer side of a picture has at most this many pixels. Each site has as many as fit, in whole numbers.
PIXELS = 512
# A side has at least a pixel for each site, but at most so many pixels: beyond, a pixel is the mean of a block of sites.
_MOST_PIXELS = 1024
# A notebook shows a few sites in a small picture: each has at most this many pixels a side.
_MOST_OF_A_SITE = 32


def rgb(*colours: str) -> NDArray[np.uint8]:
    """Colours as numbers; shape (n, 3)."""
    return np.array([list(bytes.fromhex(colour[1:])) for colour in colours], np.uint8)


def graded() -> NDArray[np.uint8]:
    """Colours from the one of 0 grains to the one of 3; shape (LEVELS, 3)."""
    grains = np.linspace(0, 3, LEVELS)
    channels = [np.interp(grains, range(4), channel) for channel in rgb(*COLOURS).T]
    return np.stack(channels, axis=1).round().astype(np.uint8)


def is_plain(values: Any) -> bool:
    """Whether all values are 0, 1, 2 or 3, which have a colour each."""
    found = ma.compressed(values)
    if found.size and found.dtype.kind in "iu":
        return bool(found.min() >= 0 and found.max() <= MOST)
    return bool(np.isin(found, range(MOST + 1)).all())


def sites_of_pixel(shape: tuple[int, ...]) -> int:
    """How many sites a side has the block that a pixel stands for; 1 if each site has a pixel or more."""
    return -(-max(*shape, 1) // _MOST_PIXELS)


def means(values: Any, side: int) -> Any:
    """The mean of each block of so many sites a side, and of smaller ones at the ends. It is masked if any of its sites is, so that
    none is hidden."""
    rows, columns = (np.arange(0, length, side) for length in values.shape)
    sums = np.add.reduceat(np.add.reduceat(ma.filled(values, 0), columns, 1, np.float64), rows, 0)
    height, width = values.shape
    found = sums / np.outer(np.diff(rows, append=height), np.diff(columns, append=width))
    if not ma.is_masked(values):
        return found
    is_masked = np.logical_or.reduceat(np.logical_or.reduceat(ma.getmaskarray(values), columns, 1), rows, 0)
    return ma.array(found, mask=is_masked)


def png(sites: NDArray[np.uint8], palette: NDArray[np.uint8], scale: int) -> bytes:
    """A PNG file. Each site has `scale` by `scale` pixels in the colour of the palette with its number."""
    pixels = sites.repeat(scale, axis=0).repeat(scale, axis=1)
    height, width = pixels.shape
    rows = np.pad(pixels, ((0, 0), (1, 0)))  # the 0 in front of a row says that it is not filtered
    header = struct.pack(">IIBBBBB", width, height, 8, 3, 0, 0, 0)
    chunks = ((b"IHDR", header), (b"PLTE", palette.tobytes()), (b"IDAT", zlib.compress(rows.tobytes())), (b"IEND", b""))
    return b"\x89PNG\r\n\x1a\n" + b"".join(_chunk(kind, data) for kind, data in chunks)


def _chunk(kind: bytes, data: bytes) -> bytes:
    return struct.pack(">I", len(data)) + kind + data + struct.pack(">I", zlib.crc32(kind + data))


def picture(values: Any) -> bytes | None:
    """The picture that a notebook shows of integers of 0 or more, in the colours and with the pixels of `show`; None unless they are
    on one grid. Masked sites are red."""
    if values.ndim != 2:
        return None
    colours, sites = rgb(*COLOURS), values
    is_small, has_colours = (side := sites_of_pixel(values.shape)) == 1, is_plain(values)
    if not (is_small and has_colours):
        shown = values if is_small else means(values, side)
        colours, sites = graded(), np.minimum(shown * LEVELS // (MOST if has_colours else shown.max()), LEVELS - 1)
    palette = np.concatenate([colours, rgb(RED)])
    scale = max(1, min(PIXELS // max(values.shape), _MOST_OF_A_SITE))
    return png(ma.filled(sites, len(colours)).astype(np.uint8), palette, scale)


class Pictured:
    """What a notebook shows as a picture if it is the last line of a cell."""

    __slots__ = ()

    if TYPE_CHECKING:

        @property
        def pile(self) -> NDArray[Any]: ...

    if not TYPE_CHECKING:  # so that a type checker refuses this, too

        def __array__(self, dtype: Any = None, copy: bool | None = None) -> Any:
            # Else NumPy would make an array of one object, which `numpy.save` writes and `numpy.load` refuses.
            raise TypeError(f"a {type(self).__name__} is no array: pass one that it has, such as `.{self._ARRAY}`")

    def _shown(self) -> Any:
        """What is drawn: an array, perhaps a masked one."""
        return self.pile

    def _repr_png_(self) -> bytes | None:
        return picture(self._shown())
