"""Clicks in a picture of matplotlib: each drops a grain, and the waves of its avalanche are outlined."""

from __future__ import annotations

from typing import TYPE_CHECKING, Any, Callable

import numpy as np
from numpy.typing import NDArray

from ._png import RED
from .driving import Drive

if TYPE_CHECKING:
    from matplotlib.axes import Axes

_LEFT = 1  # the button of the mouse
_POINTS = 10  # the size of the title
_WIDTH = 1.5


def check(pile: Any) -> None:
    """Refuses clicks on what has no run."""
    if not isinstance(pile, Drive):
        raise TypeError(f"a click drops a grain on a run, so it needs a Drive, not {type(pile).__name__}: pass Drive(pile)")


def listen(run: Drive, ax: Axes, draw: Callable[[], object]) -> None:
    """Drops a grain wherever the picture is clicked from now on, and has it drawn again. The axes count rows and columns."""
    from matplotlib.collections import LineCollection

    lines = LineCollection([], colors=RED, linewidths=_WIDTH)
    ax.add_collection(lines, autolim=False)
    ax.set_title("click a site: a grain drops there", fontsize=_POINTS)

    # A function, since matplotlib forgets a method with its object.
    def click(event: Any) -> None:
        if event.inaxes is not ax or event.button != _LEFT or _is_moved(event.canvas):
            return
        height, width = run.shape
        try:
            found, sizes, waves = run.waves(row=min(round(event.ydata), height - 1), column=min(round(event.xdata), width - 1))
        except (ValueError, RuntimeError) as error:
            ax.set_title(str(error), fontsize=_POINTS, wrap=True)
        else:
            draw()
            lines.set_segments([*outlines(waves, run.cylinder)])
            ax.set_title(f"size {found['size']:,}, {len(sizes)} {'wave' if len(sizes) == 1 else 'waves'}", fontsize=_POINTS)
        event.canvas.draw_idle()

    ax.figure.canvas.mpl_connect("button_press_event", click)


def _is_moved(canvas: Any) -> bool:
    """Whether a click is to move or enlarge the picture."""
    return bool(getattr(getattr(canvas, "toolbar", None), "mode", ""))


def outlines(waves: NDArray[np.bool_], cylinder: bool) -> NDArray[np.float64]:
    """The lines around the sites of each wave, each from one point to another, as columns and rows; shape (lines, 2, 2)."""
    rows = np.pad(waves, ((0, 0), (1, 1), (0, 0)))
    columns = np.pad(waves, ((0, 0), (0, 0), (1, 1)), "wrap" if cylinder else "constant")
    above = np.argwhere((rows[:, 1:] != rows[:, :-1]).any(axis=0))[:, ::-1] - 0.5
    left = np.argwhere((columns[:, :, 1:] != columns[:, :, :-1]).any(axis=0))[:, ::-1] - 0.5
    ends = [np.stack([points, points + step], axis=1) for points, step in ((above, (1, 0)), (left, (0, 1)))]
    return np.concatenate(ends)
