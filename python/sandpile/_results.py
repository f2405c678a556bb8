"""What the results of calls have in common: they are compared by their values, and printed as NumPy prints arrays."""

from __future__ import annotations

from dataclasses import dataclass, fields
from typing import Any

import numpy as np


@dataclass(frozen=True, eq=False, repr=False)
class Result:
    """Numbers and arrays. ``==`` compares all of them, and is a bool. There is no hash, since arrays can change."""

    def __eq__(self, other: object) -> bool:
        if type(other) is not type(self):
            return NotImplemented
        return all(np.array_equal(getattr(self, field.name), getattr(other, field.name)) for field in fields(self))

    def __repr__(self) -> str:
        name = type(self).__name__
        indent = " " * len(f"{name}(")
        shown = [field.name for field in fields(self) if field.repr]
        lines = ",\n".join(_line(f"{indent}{field}=", getattr(self, field)) for field in shown)
        return f"{name}({lines.lstrip()})"


def _line(begin: str, value: Any) -> str:
    """A line that begins so and ends with a value. NumPy shortens a long array; its rows begin below the first one."""
    if not isinstance(value, np.ndarray):
        return f"{begin}{value!r}"
    rows = np.array_repr(value, np.get_printoptions()["linewidth"] - len(begin))
    return begin + rows.replace("\n", "\n" + " " * len(begin))
