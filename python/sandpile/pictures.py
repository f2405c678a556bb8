"""Pictures of piles, drawn with matplotlib."""

from __future__ import annotations

from typing import TYPE_CHECKING, Any, cast, overload

import numpy as np
from numpy.typing import ArrayLike, NDArray

from . import clicking
from ._png import COLOURS, LEVELS, MOST, PIXELS, RED, Pictured, graded, is_plain, ma, means, rgb, sites_of_pixel
from ._memory import room_for
from .faults import ShapeError

if TYPE_CHECKING:
    from matplotlib.axes import Axes
    from matplotlib.figure import Figure

    from .driving import Drive

# A power of two, so inches are exact, and no pixel is lost.
_PIXELS_AN_INCH = 128
# For a colour bar, in pixels: its width, its distance from the picture and from the ends of the figure, what the figure is
# wider with it, and the least height. Then the size of its text, in points.
_BAR, _GAP, _ROOM, _LEAST_HEIGHT, _TEXT = 16, 14, 120, 128, 8
# With a title, in pixels: the room above the picture, and the least width of the figure.
_TITLE, _LEAST_WIDTH = 32, 384


# Matplotlib's types say of all axes that they may be on a subfigure, which has no `savefig`. New ones are not.
@overload
def show(pile: ArrayLike | Pictured, ax: None = None, click: bool = False) -> Any: ...


@overload
def show(pile: ArrayLike | Pictured, ax: Axes, click: bool = False) -> Axes: ...


def show(pile: ArrayLike | Pictured, ax: Axes | None = None, click: bool = False) -> Axes:
    """Draws a pile, an odometer, a mask, the times of burning or a tree, and returns the axes.

    Heights from 0 to 3 have one colour each. If there are other values, colours go from 0 to the greatest value, or from
    the least one if that is negative, and a colour bar shows them. Sites that are True in a mask are red, and so are those
    that are masked or not a number, and sites of a `Burned` that never burn. A tree is drawn as a maze, with a light square for
    each site and each edge.

    With a side of more than 1,024 sites, a pixel is the mean of a block of sites, as the colour bar says: of 4 by 4 on 4,096 by
    4,096, say. Its colour is between those of the heights, or between that of False and that of True, and red if any of its sites
    is masked. Draw a part, such as ``pile[:1024, :1024]``, to see each site.

    Parameters
    ----------
    pile : array_like of numbers or bool, Recurrent, Settled, Drive, Run, Burned or Tree
        What to draw, shape (height, width).
    ax : matplotlib.axes.Axes, optional
        Where to draw; by default a new figure of about 512 pixels.
    click : bool
        Whether a click on a site of a `Drive` drops a grain there. The waves of its avalanche are then outlined, and the title
        has the size and how many waves there were. It needs a window, as of ``matplotlib.pyplot.show()``.

    Returns
    -------
    matplotlib.axes.Axes
        The axes; ``show(pile).figure.savefig("pile.png")`` saves the picture.

    Raises
    ------
    ImportError
        If matplotlib is not installed.
    ValueError
        If `pile` has no sites, or is not two-dimensional; the latter is also a `TypeError`.
    TypeError
        If its values are not numbers, or a click is to drop grains on something other than a `Drive`.

    See Also
    --------
    play : a page where a click drops a grain
    animate : the next avalanches of a run

    Notes
    -----
    Pyplot keeps a new figure until it is closed. To save many pictures, draw them all in one `ax`, or close each figure.

    Examples
    --------
    >>> import sandpile
    >>> sandpile.show(sandpile.identity((32, 32))).figure.savefig("identity.png")    # doctest: +SKIP
    """
    check_matplotlib("show")
    from matplotlib.colors import ListedColormap
    from matplotlib.ticker import StrMethodFormatter

    if click:
        clicking.check(pile)
    with room_for("a picture"):
        values = _values_of(pile)
        side = sites_of_pixel(values.shape)
        pixels, (colours, least, greatest) = (values, _colours_of(values)) if side == 1 else _means_of(values, side)
    has_bar, bar = len(colours) == LEVELS, None
    if ax is None:
        ax, bar = new_axes(pixels.shape, has_bar)
    colormap = ListedColormap(colours / 255).with_extremes(bad=RED)
    bottom, right = (side * length - 0.5 for length in pixels.shape)  # in sites
    image = ax.imshow(pixels, cmap=colormap, vmin=least, vmax=greatest, interpolation="nearest", extent=(-0.5, right, bottom, -0.5))
    if has_bar:
        label = "" if side == 1 else f"mean of {side} by {side} sites"
        ax.figure.colorbar(image, cax=bar, ax=ax, format=StrMethodFormatter("{x:,.6g}")).set_label(label, size=_TEXT)
    ax.set_axis_off()
    if click:
        clicking.listen(
            cast("Drive", pile), ax, lambda: image.set_data(_values_of(pile) if side == 1 else means(_values_of(pile), side))
        )
    return ax


def check_matplotlib(what: str) -> None:
    """Raises an error if matplotlib is not installed."""
    try:
        import matplotlib.pyplot  # noqa: F401
    except ImportError:
        raise ImportError(f"{what} needs matplotlib, which is not installed") from None


def _values_of(pile: ArrayLike | Pictured) -> Any:
    """What is to be drawn. What is not a number is masked."""
    values = pile._shown() if isinstance(pile, Pictured) else np.asanyarray(pile)
    if values.ndim != 2:
        raise ShapeError(f"a pile must have shape (height, width), but this array has {values.ndim} dimensions")
    if values.dtype.kind not in "biuf":
        raise TypeError(f"a picture is drawn of numbers, but this array has type {values.dtype}")
    if not values.size:
        raise ValueError(f"there are no sites to draw in an array of shape {values.shape}")
    return ma.masked_invalid(values)


def _colours_of(values: Any) -> tuple[NDArray[np.uint8], float, float]:
    """The colours of these values, and from which value to which they go."""
    if values.dtype == bool:
        return rgb(COLOURS[0], RED), -0.5, 1.5
    if is_plain(values):
        return rgb(*COLOURS), -0.5, 3.5
    return graded(), min(0, values.min()), max(0, values.max())


def _means_of(values: Any, side: int) -> tuple[Any, tuple[NDArray[np.uint8], float, float]]:
    """The means of the blocks of a picture, with their colours."""
    pixels = means(values, side)
    if values.dtype == bool:
        return pixels, (np.linspace(rgb(COLOURS[0])[0], rgb(RED)[0], LEVELS).round().astype(np.uint8), 0, 1)
    return pixels, (graded(), 0, MOST) if is_plain(values) else _colours_of(pixels)


def new_axes(shape: tuple[int, ...], has_bar: bool = False) -> tuple[Axes, Axes | None]:
    """A new figure with axes for a picture of this shape, in which each site has the same whole number of pixels, and with axes for
    its colour bar. It has no room for a title before there is one."""
    from matplotlib.text import Text

    scale = max(1, PIXELS // max(*shape, 1))
    height, width = shape[0] * scale, shape[1] * scale
    high, wide = (max(height, _LEAST_HEIGHT), width + _ROOM) if has_bar else (height, width)
    figure = _new_figure(wide, high)
    ax = figure.add_axes((0, 0, _fraction(width, wide), _fraction(height, high)))
    for title in ax.get_children():
        if isinstance(title, Text):
            title.add_callback(_make_room)
    if not has_bar:
        return ax, None
    bar = figure.add_axes(((width + _GAP) / wide, _GAP / high, _BAR / wide, 1 - 2 * _GAP / high))
    bar.tick_params(labelsize=_TEXT)
    figure.sca(ax)
    return ax, bar


def _make_room(title: Any) -> None:
    """Makes a figure higher and wider, if need be, so that the title of its picture is seen. Pixels of the picture stay."""
    figure = title.figure
    dpi, places = figure.dpi, [(ax, ax.get_position(original=True)) for ax in figure.axes]
    wide, high = (round(inches * dpi) for inches in figure.get_size_inches())
    lacking = _TITLE - round((1 - places[0][1].y1) * high)
    if not title.get_text() or lacking <= 0:
        return
    new_wide, new_high = max(wide, _LEAST_WIDTH), high + lacking
    figure.set_size_inches(new_wide / dpi, new_high / dpi)
    for ax, was in places:
        left, bottom = round(was.x0 * wide) + (new_wide - wide) // 2, round(was.y0 * high)
        width, height = round(was.width * wide), round(was.height * high)
        ax.set_position((
            _fraction(left, new_wide), _fraction(bottom, new_high), _fraction(width, new_wide), _fraction(height, new_high),
        ))


def _fraction(side: int, whole: int) -> float:
    """What fraction one side is of another. Of a rounding error upwards, matplotlib would make one more pixel."""
    fraction = side / whole
    return fraction if fraction * whole <= side else float(np.nextafter(fraction, 0))


def _new_figure(width: int, height: int) -> Figure:
    """A new figure of pyplot, which does not warn, however many are open."""
    import matplotlib.pyplot as plt

    # Not `rc_context`: the first figure chooses the backend, which sets more parameters for good.
    most = plt.rcParams["figure.max_open_warning"]
    plt.rcParams["figure.max_open_warning"] = 0
    try:
        return plt.figure(figsize=(width / _PIXELS_AN_INCH, height / _PIXELS_AN_INCH), dpi=_PIXELS_AN_INCH)
    finally:
        plt.rcParams["figure.max_open_warning"] = most
