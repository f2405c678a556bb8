"""A page on which grains drop by clicks, in a browser or in a notebook."""

from __future__ import annotations

import os
import sys
import threading
import time
from pathlib import Path
from types import TracebackType
from typing import TYPE_CHECKING, Any, SupportsIndex, cast

import numpy as np
from numpy.typing import ArrayLike

from ._arrays import checked_edge, count_of, seed_of, shape_of
from .driving import Drive
from .group import identity

if TYPE_CHECKING:
    from ._server import Server
    from ._session import Session, Start

_FILES = Path(__file__).resolve().parent / "page"
_SHAPE, _ICON = (64, 64), (16, 16)
PORT = 8630
_HIGH = 900  # pixels, in a notebook
_SECONDS = 0.2  # between two looks whether a page is closed
# Variables that tell of a kernel on another machine than the browser.
_HUBS = ("JUPYTERHUB_API_TOKEN", "JUPYTERHUB_SERVICE_PREFIX", "COLAB_RELEASE_TAG", "KAGGLE_KERNEL_RUN_TYPE", "SSH_CONNECTION")


class Page:
    """A page with a run, until it is closed. In a notebook, it shows itself in a frame.

    Attributes
    ----------
    run : Drive
        The run that the page shows. What is clicked changes it, and what drops on it shows on the page. After another start on
        the page it is another run.
    address : str
        Where the page is, on this machine alone. Whoever has the address can use it.
    is_open : bool
        Whether the page is served.
    """

    def __init__(self, session: Session, server: Server) -> None:
        self._session, self._server, self._is_open = session, server, True
        # A daemon, so that a program can end without closing the page.
        threading.Thread(target=server.serve_forever, kwargs={"poll_interval": 0.05}, daemon=True).start()

    @property
    def run(self) -> Drive:
        return self._session.run

    @property
    def address(self) -> str:
        return self._server.address

    @property
    def is_open(self) -> bool:
        return self._is_open

    def close(self) -> None:
        """Stops the server. The run stays. A page that is closed stays closed."""
        if self.is_open:
            self._is_open = False
            self._server.shutdown()
            self._server.server_close()

    def wait(self) -> None:
        """Waits until the page is closed, or until Ctrl-C, which closes it."""
        try:
            while self.is_open:
                time.sleep(_SECONDS)  # if Ctrl-C comes while the lock of an event is taken, it stays locked
        except KeyboardInterrupt:
            pass
        finally:
            self.close()

    def __enter__(self) -> Page:
        return self

    def __exit__(self, kind: type[BaseException] | None, error: BaseException | None, trace: TracebackType | None) -> None:
        self.close()

    def __repr__(self) -> str:
        return f"<Page: {self.address if self.is_open else 'closed'}, {self.run!r}>"

    def _repr_html_(self) -> str:
        """What a notebook shows: the page, or a sentence if the browser cannot reach it."""
        address = self.address
        if not self.is_open:
            return "<p>This page is closed. Its run goes on: <code>play(page.run)</code> shows it again.</p>"
        if hub := _hub():
            return (
                f"<p>The variable {hub} says that this kernel runs on another machine than the browser, which cannot reach the "
                f"page, since only that machine can: <a href='{address}'>{address}</a>. It can through a tunnel with the same port "
                f"on both sides, such as <code>{self._server.tunnel}</code>. <code>show</code> and <code>animate</code> need none."
                "</p>"
            )
        return (
            f"<iframe src='{address}' title='sandpile' style='width: 100%; height: {_HIGH}px; border: 0'></iframe>"
            f"<p>If nothing is above, the kernel runs on another machine than the browser, or the page is closed. "
            f"<a href='{address}' target='_blank'>The page alone</a></p>"
        )


def play(
    start: ArrayLike | tuple[SupportsIndex, SupportsIndex] | Drive | None = None,
    seed: SupportsIndex | np.random.SeedSequence | None = None,
    stream: SupportsIndex = 0,
    cylinder: bool | None = None,
    *,
    port: SupportsIndex = PORT,
    browser: bool = True,
    wait: bool | None = None,
) -> Page:
    """Shows a run on a page of its own, where a click drops a grain and the avalanche runs wave by wave.

    The page is served by this process, on the loopback interface of this machine alone, and needs no network. In a terminal, the
    browser opens it, and Ctrl-C ends it. In a notebook, the page is shown below the cell, and the call returns at once.

    Parameters
    ----------
    start : Drive, array_like of int, tuple of int, or None
        A run, which the page then changes; or what `Drive` takes as its start; or a shape, ``(height, width)``, for a start from
        ``random_recurrent(start, page.run.seed)``. By default the shape ``(64, 64)``.
    seed, stream, cylinder
        As `Drive` takes them. Not with a run, which has its own.
    port : int
        Where the page is served. If it is in use, the next free one of twenty is taken. 0 is any free port.
    browser : bool
        Whether to open the page in the browser. A notebook shows it in any case.
    wait : bool, optional
        Whether to return only when Ctrl-C has closed the page. By default True, but False in a notebook.

    Returns
    -------
    Page
        The page, with its `run`, its `address` and `close`. It closes itself at the end of a ``with``.

    Raises
    ------
    Fault
        Plan (15) if `port` is not from 0 to 65535; as from `Drive` and `random_recurrent`.
    TypeError
        If a run is given with a seed, a stream or an edge; as from `Drive`.
    ValueError
        As from `Drive`.
    OSError
        If no port is free, or this one may not be used.

    See Also
    --------
    show : with ``click=True``, a window of matplotlib where a click drops a grain
    animate : the next avalanches of a run

    Notes
    -----
    ``python -m sandpile`` does the same. Another start on the page makes another run, ``page.run``. The page topples the waves
    itself, for the picture, and compares them with what the library has found: how often each site topples, and the pile.

    Examples
    --------
    >>> import sandpile
    >>> with sandpile.play((8, 8), seed=7, port=0, browser=False, wait=False) as page:
    ...     table = page.run.drop(100)
    >>> page
    <Page: closed, <Drive: 8 by 8, seed 7, stream 0, 100 drops>>
    """
    from . import _server, _session  # with parts of the standard library that only a page needs

    at, run = count_of(port, "port", 65535), _run_of(start, seed, stream, cylinder)
    session, icon = _session.Session(*run), _server.file(identity(_ICON)._repr_png_() or b"", "image/png")
    page = Page(session, _server.bound(at, {**_server.files(_FILES), "icon.png": icon, **session.routes}))
    if wait is None:
        wait = not _is_notebook()
    if (browser or wait) and not _is_notebook():
        _tell(page, at, browser, wait)
    if wait:
        page.wait()
    return page


def _run_of(start: Any, seed: Any, stream: SupportsIndex, cylinder: bool | None) -> tuple[Drive, Start]:
    """The run of a page, and where it starts."""
    from ._session import Start, uniform

    if isinstance(start, Drive):
        if not (seed is None and type(stream) is int and stream == 0 and cylinder is None):
            raise TypeError("a run has its own seed, stream and edge: call play(run), or play(run.pile, seed, ..) for another run")
        return start, Start("the run that was passed", "")
    if start is None or isinstance(start, tuple) and all(map(np.isscalar, start)):
        shape = shape_of(cast(Any, _SHAPE if start is None else start))
        edge, number = checked_edge(False if cylinder is None else cylinder), seed_of(seed)
        pile, told = uniform(shape, edge, number)
        return Drive(pile, number, stream), told
    return Drive(start, seed, stream, cylinder), Start("the pile that was passed, settled", "")


def _tell(page: Page, port: int, browser: bool, wait: bool) -> None:
    """Says where the page is, and opens it."""
    at = page._server.port
    if port not in (0, at):
        print(f"port {port} is in use, so the page is at port {at}")
    print(f"the page: {page.address}")
    if browser and not _open(page.address):
        tunnel = page._server.tunnel
        print(f"no browser was found: open this address in one on this machine, or, after `{tunnel}` to it, on another")
    if wait:
        print("Ctrl-C ends it")
    sys.stdout.flush()


def _open(address: str) -> bool:
    """Opens the page in a browser, if there is one with windows: one in the terminal would take that over."""
    if not any(os.environ.get(name) for name in ("DISPLAY", "WAYLAND_DISPLAY", "BROWSER")):
        return False
    import webbrowser

    try:
        return webbrowser.open(address)
    except webbrowser.Error:
        return False


def _is_notebook() -> bool:
    ipython = sys.modules.get("IPython")
    shell = ipython.get_ipython() if ipython else None
    return getattr(shell, "kernel", None) is not None


def _hub() -> str | None:
    """The variable that tells of a kernel on another machine, if there is one."""
    return next((name for name in _HUBS if os.environ.get(name)), None)
