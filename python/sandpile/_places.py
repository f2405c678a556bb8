"""Rows and columns, which are passed by name: what a call says if they are passed otherwise."""

from __future__ import annotations

import functools
import sys
import warnings
from typing import Any, Callable, TypeVar, cast

import numpy as np

_Method = TypeVar("_Method", bound=Callable[..., Any])
_PACKAGE = __name__.partition(".")[0]


def by_name(row: str = "row", column: str = "column") -> Callable[[_Method], _Method]:
    """Has a method that takes a site refuse a second position in words, where Python would count arguments."""

    def of(method: _Method) -> _Method:
        @functools.wraps(method)
        def checked(self: Any, *sites: Any, **named: Any) -> Any:
            if len(sites) > 1:
                name = method.__name__
                raise TypeError(f"{name} takes sites by number; a row and a column are passed by name: {name}({row}=.., {column}=..)")
            return method(self, *sites, **named)

        return cast(_Method, checked)

    return of


def warn_of_pair(sites: Any, shape: tuple[int, ...]) -> None:
    """Warns of a tuple that may be meant as a row and a column, but is the numbers of two sites."""
    is_pair = isinstance(sites, tuple) and len(sites) == 2 and all(isinstance(number, (int, np.integer)) for number in sites)
    if is_pair and all(0 <= number < side for number, side in zip(sites, shape)):
        row, column = sites
        warnings.warn(
            f"({row}, {column}) drops a grain at site {row} and one at site {column}; a row and a column are passed by name: "
            f"rows={row}, columns={column}; a list, [{row}, {column}], is two sites without a warning",
            stacklevel=_level_of_caller(),
        )


def _level_of_caller() -> int:
    """How many calls further out, as seen by the function that asks, is the first one that is not of this module."""
    level, frame = 0, sys._getframe()
    while frame.f_back and str(frame.f_globals.get("__name__")).partition(".")[0] == _PACKAGE:
        level, frame = level + 1, frame.f_back
    return level
