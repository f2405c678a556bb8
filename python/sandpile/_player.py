"""Matplotlib's player of an animation for a notebook, with frames that are not drawn by matplotlib: it takes about a twentieth of a
second for each, ten times as long, and its files are twice as large."""

from __future__ import annotations

import importlib
import tempfile
from collections.abc import Callable, Iterable
from pathlib import Path
from typing import Any, BinaryIO

import numpy as np
from numpy.typing import NDArray

from ._png import png

class _Picture:
    """Stands in for the figure that matplotlib saves for each frame."""

    def __init__(self, figure: Any) -> None:
        self.dpi, self._inches, self.png = figure.dpi, figure.get_size_inches(), b""

    def get_size_inches(self) -> Any:
        return self._inches

    def set_size_inches(self, *_: Any, **__: Any) -> None:
        """Matplotlib would have an even number of pixels, as some films need."""

    def savefig(self, file: BinaryIO, **_: Any) -> None:
        file.write(self.png)


# Matplotlib's types say that only figures are saved, and frames come in whole numbers a second.
def encode_frames(
    animation: Any, ax: Any, frames: Callable[[], Iterable[NDArray[Any]]], palette: NDArray[np.uint8], interval: float
) -> None:
    """Has `to_jshtml` encode the frames of an animation, each with a number for each site, in the colour of the palette with its
    number. If anything was added to the figure, matplotlib draws them as before."""
    by_matplotlib, before = animation.to_jshtml, _looks_of(ax)

    def to_jshtml(fps: float | None = None, embed_frames: bool = True, default_mode: str | None = None) -> str:
        if not embed_frames or _looks_of(ax) != before:
            drawn: str = by_matplotlib(fps, embed_frames, default_mode)
            return drawn
        ax.figure.canvas.draw()  # else matplotlib warns that the animation was never drawn
        return _player(ax, frames(), palette, fps or 1000 / interval, default_mode or "loop")

    setattr(animation, "to_jshtml", to_jshtml)


def _looks_of(ax: Any) -> tuple[Any, ...]:
    """What changes if a user adds something to axes or their figure, or moves them."""
    texts = [text.get_text() for text in (ax.title, ax.xaxis.label, ax.yaxis.label)]
    counts = [len(some.get_children()) for some in (ax, ax.figure)]
    return texts, counts, ax.axison, ax.viewLim.bounds, ax.get_position().bounds, *ax.figure.get_size_inches()


def _player(ax: Any, frames: Iterable[NDArray[Any]], palette: NDArray[np.uint8], fps: float, mode: str) -> str:
    drawing: Any = importlib.import_module("matplotlib.animation")
    picture, writer = _Picture(ax.figure), drawing.HTMLWriter(fps=fps, embed_frames=True, default_mode=mode)
    wide = round(picture.get_size_inches()[0] * picture.dpi)
    with tempfile.TemporaryDirectory() as folder:
        path = Path(folder, "player.html")
        with writer.saving(picture, path, picture.dpi):
            for sites in frames:
                picture.png = png(sites.astype(np.uint8), palette, wide // sites.shape[1])
                writer.grab_frame()
        return path.read_text()
