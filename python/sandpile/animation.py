"""Animations of avalanches, drawn with matplotlib."""

from __future__ import annotations

import copy
import sys
from collections.abc import Callable, Generator, Iterator
from typing import TYPE_CHECKING, Any, SupportsIndex

import numpy as np
from numpy.typing import NDArray

from ._arrays import Heights, count_of
from ._player import encode_frames
from ._png import COLOURS, RED, means, rgb, sites_of_pixel
from .driving import Drive
from .pictures import check_matplotlib, new_axes
from .progress import Bar

if TYPE_CHECKING:
    from matplotlib.animation import FuncAnimation
    from matplotlib.axes import Axes
    from matplotlib.image import AxesImage

# A frame has a number for each site: its grains, and this much more if it has toppled. A site that topples next has the last
# number.
_TOPPLED, _TOPPLES = 4, 8
# How much of the colour of a site that has toppled is red.
_TINT = 0.5
# No site topples.
_NONE = np.zeros(1, bool)


def animate(
    run: Drive, drops: SupportsIndex = 100, toppling: bool = False, interval: float = 100, ax: Axes | None = None,
    waves: bool = False, progress: bool = False,
) -> FuncAnimation:
    """Draws the next avalanches of a run, those at random sites. The run itself stays as it is.

    With a side of more than 1,024 sites, a pixel has the mean colour of a block of sites, as few as fit.

    Parameters
    ----------
    run : Drive
        The run. A copy of it makes the drops.
    drops : int
        Number of grains.
    toppling : bool
        Whether to draw each avalanche step by step. In each step, all sites with four or more grains topple at once; they are
        red before it. By default there is one frame for each drop, the pile after it. Sites that have toppled in an avalanche
        are tinted red.
    interval : float
        Milliseconds from one frame to the next.
    ax : matplotlib.axes.Axes, optional
        Where to draw; by default a new figure of about 512 pixels.
    waves : bool
        Whether to draw each avalanche wave by wave. The sites of a wave are red before it.
    progress : bool
        Whether to show on standard error, as `Drive.drop` does, how many drops are drawn, while a file or a player is made.

    Returns
    -------
    matplotlib.animation.FuncAnimation
        The animation. Keep it as long as it is shown. ``.save("avalanches.gif", writer="pillow")`` saves it, and
        ``.to_jshtml()`` is a player for a notebook, made in about 5 milliseconds a frame. If anything was added to the figure, such
        as a title, or `ax` was given, matplotlib draws each frame of the player, as it does for a file, in 50 milliseconds.

    Raises
    ------
    ImportError
        If matplotlib is not installed.
    TypeError
        If `run` is not a `Drive`, `drops` is not an integer, or both `toppling` and `waves` are asked for.
    Fault
        Plan (15) if `drops` is negative, Memory (4), or, when it is drawn, Full (6), as from `Drive.drop`.

    See Also
    --------
    show : a single picture
    Drive.avalanche : one drop, and how often each site topples in it
    Drive.waves : one drop, and which sites topple in each wave of its avalanche

    Examples
    --------
    >>> import sandpile
    >>> run = sandpile.Drive(sandpile.identity((32, 32)))
    >>> sandpile.animate(run, 50, toppling=True).save("avalanches.gif", writer="pillow")    # doctest: +SKIP
    """
    check_matplotlib("animate")
    from matplotlib.animation import FuncAnimation
    from matplotlib.colors import ListedColormap

    if not isinstance(run, Drive):
        raise TypeError(f"run must be a Drive, not {type(run).__name__}")
    if toppling and waves:
        raise TypeError("an avalanche is drawn step by step (toppling) or wave by wave (waves), not both")
    number, start = count_of(drops, "drops"), copy.copy(run)
    side, given, colours = sites_of_pixel(start.shape), ax, _colours()
    if ax is None:
        ax, _ = new_axes(tuple(-(-length // side) for length in start.shape))

    def pixels(heights: Heights) -> NDArray[Any]:
        return heights if side == 1 else np.stack([means(channel[heights], side) for channel in colours.T], axis=2)

    image = ax.imshow(
        pixels(start.pile), cmap=ListedColormap(colours), vmin=-0.5, vmax=_TOPPLES + 0.5, interpolation="nearest"
    )
    ax.set_axis_off()
    figure = ax.figure.figure  # that of a subfigure is the whole one, which alone can be saved
    frames = _steps if toppling else _waves if waves else _drops

    def draw(heights: Heights) -> tuple[AxesImage, ...]:
        image.set_data(pixels(heights))
        return (image,)

    def begun() -> Generator[Heights, None, None]:
        """The frames. Each time that the animation begins, another copy makes the drops."""
        own = copy.copy(start)
        return _shown(frames(own, number), own, number) if progress else frames(own, number)

    animation = FuncAnimation(
        figure, draw, begun, lambda: (image,),
        interval=interval, save_count=sys.maxsize if toppling or waves else number, cache_frame_data=False,
    )
    if given is None and side == 1:
        encode_frames(animation, ax, begun, np.rint(255 * colours).astype(np.uint8), interval)
    return animation


def _colours() -> NDArray[np.float64]:
    """The colour of each number of a frame, from 0 to 1."""
    plain, red = rgb(*COLOURS), rgb(RED)
    colours: NDArray[np.float64] = np.concatenate([plain, (1 - _TINT) * plain + _TINT * red, red]) / 255
    return colours


def _shown(frames: Iterator[Heights], run: Drive, drops: int) -> Generator[Heights, None, None]:
    """The same frames. Shows how many drops they have."""
    before = run.drops
    with Bar(drops) as bar:
        for frame in frames:
            bar.show(run.drops - before)
            yield frame


def _drops(run: Drive, drops: int) -> Generator[Heights, None, None]:
    """A frame for each drop."""
    before = run.odometer
    for _ in range(drops):
        run.drop(1)
        after = run.odometer
        yield run.pile + _TOPPLED * (after > before)
        before = after


def _steps(run: Drive, drops: int) -> Generator[Heights, None, None]:
    """A frame before the first step of each avalanche, and one after each of its steps."""
    for _ in range(drops):
        heights = run.pile
        heights.flat[run.drop(1)["site"]] += 1
        yield from _avalanche(heights, run.cylinder, lambda now: now > 3)


def _waves(run: Drive, drops: int) -> Generator[Heights, None, None]:
    """A frame before the first wave of each avalanche, and one after each of its waves."""
    for _ in range(drops):
        heights = run.pile
        row, _, masks = run.waves()
        heights.flat[row["site"]] += 1
        left: Iterator[Any] = iter(masks)
        yield from _avalanche(heights, run.cylinder, lambda _: next(left, _NONE))


def _avalanche(
    heights: Heights, cylinder: bool, toppling: Callable[[Heights], NDArray[np.bool_]]
) -> Iterator[Heights]:
    """A frame before each step of an avalanche, in which the sites topple that `toppling` returns for the heights, and one at
    its end."""
    topples, toppled = toppling(heights), np.zeros(heights.shape, bool)
    while topples.any():
        yield np.where(topples, _TOPPLES, heights + _TOPPLED * toppled)
        heights = _after_step(heights, topples, cylinder)
        topples, toppled = toppling(heights), toppled | topples
    yield heights + _TOPPLED * toppled


def _after_step(heights: Heights, topples: NDArray[np.bool_], cylinder: bool) -> Heights:
    """The heights once these sites have toppled."""
    given = np.pad(topples.astype(np.int64), 1)
    if cylinder:
        given[:, 0], given[:, -1] = given[:, -2], given[:, 1]
    gained: Heights = given[:-2, 1:-1] + given[2:, 1:-1] + given[1:-1, :-2] + given[1:-1, 2:]
    return heights - 4 * topples + gained
