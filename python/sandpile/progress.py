"""The progress of a long call, on standard error."""

from __future__ import annotations

import contextlib
import importlib
import sys
import time
import warnings
from types import TracebackType
from typing import Any


def _tqdm() -> Any:
    """The bar of tqdm: in a notebook a widget, but text if ipywidgets is older than 7, as Debian's is. A notebook that is executed by
    nbconvert cannot have widgets of those."""
    bar = importlib.import_module("tqdm.auto").tqdm
    widgets = getattr(sys.modules.get("ipywidgets"), "version_info", (7,))  # which tqdm imports in a notebook
    return bar if widgets >= (7,) else importlib.import_module("tqdm.std").tqdm


class Bar:
    """Shows how many of `total` drops or replicas are done: with tqdm if it is installed, else on a line that is overwritten.

    No failure to show them ends the call: if tqdm fails, the line is written, and if that fails, nothing.
    """

    def __init__(self, total: int, unit: str = "drop") -> None:
        self._total, self._unit, self._shown_at, self._is_shown = total, unit, 0.0, True
        self._how: dict[str, Any] = {"total": total, "unit": unit, "unit_scale": True}
        self._tqdm: Any = None
        self._lock: Any = None  # of tqdm

    def __enter__(self) -> Bar:
        try:
            with warnings.catch_warnings():
                warnings.simplefilter("ignore")  # in a notebook without ipywidgets the bar is text, which is fine
                tqdm = _tqdm()
            self._lock = tqdm.get_lock()
            self._tqdm = tqdm(**self._how)
        except Exception:
            self._release()
        return self

    def show(self, done: int) -> None:
        """Shows that so many are done, at most ten times a second."""
        if self._tqdm is not None:
            try:
                self._tqdm.update(done - self._tqdm.n)
                return
            except Exception:
                self._tqdm = None
                self._release()
        if done == self._total or time.monotonic() - self._shown_at > 0.1:
            self._shown_at = time.monotonic()
            self._write(f"\r{self._text(done)}")

    def _text(self, done: int) -> str:
        return f"{done:,} of {self._total:,} {self._unit}s"

    def __exit__(self, kind: type[BaseException] | None, error: BaseException | None, trace: TracebackType | None) -> None:
        if kind is not None:
            self._release()
        if self._tqdm is not None:
            with contextlib.suppress(Exception):
                self._tqdm.close()
                return
        self._write("\n")

    def _release(self) -> None:
        """Frees the lock of tqdm, which keeps it if it fails or is stopped while it writes. Its own thread would wait
        for it when the program ends."""
        with contextlib.suppress(Exception):
            self._lock.release()

    def _write(self, text: str) -> None:
        if self._is_shown and sys.stderr is not None:  # `print` takes None for standard output
            try:
                print(text, end="", file=sys.stderr, flush=True)
            except Exception:
                self._is_shown = False


class Clock(Bar):
    """Shows, in the same way, how many seconds something has taken so far."""

    def __init__(self, what: str, seconds: int) -> None:
        super().__init__(0, "second")
        self._what, self._how = what, {"desc": what, "bar_format": "{desc}: {n:,} s", "initial": seconds}

    def _text(self, done: int) -> str:
        return f"{self._what}: {done:,} s"
