"""The words of other programs and texts: the error of a missing name says how it is called here. None of them is an alias."""

from __future__ import annotations

from typing import TYPE_CHECKING, ClassVar, Mapping

_STABLE = "settle(pile).pile is the stable pile"
_TREE = "recurrent(pile).tree() is the spanning tree of the class of a pile"
_IS_RECURRENT = "burn(pile).is_recurrent is the burning test"
_ORDER = "the recipe 'Find the order of an element in Python' in docs/COOKBOOK.md finds it"
_DROPS = "drop(n) drops n grains at random sites, drop_at(sites) one at each of these; each settles before the next"
_COLUMN = 'is a column of the table that a drop returns, such as run.drop(10)["size"]'
_NO_DURATION = "the steps of an avalanche are not counted; animate(run, toppling=True) draws them"

OF_MODULE = {
    "stabilize": _STABLE,
    "stabilise": _STABLE,
    "relax": _STABLE,
    "topple": "settle(pile) topples until the pile is stable; Drive(pile).avalanche(site) drops a grain and returns what topples",
    "add": "Drive(pile).drop_at(site) adds a grain and settles; recurrent(p) + recurrent(q) is a sum in the group",
    "avalanche": "Drive(pile).avalanche(site) is that of one drop, Drive(pile).drop(n) has those of n drops",
    "odometer": "settle(pile).odometer says how often each site topples",
    "is_recurrent": _IS_RECURRENT,
    "burning_test": _IS_RECURRENT,
    "order": _ORDER,
    "tree": _TREE,
    "spanning_tree": _TREE,
    "laplacian": "toppling_matrix(shape) is the matrix of the topplings",
    "max_stable": "numpy.full(shape, 3) is the greatest stable pile",
    "Sandpile": "a pile is an array of shape (height, width); Drive(pile) is one on which grains drop",
    "duration": _NO_DURATION,
}
OF_SETTLED = {
    "heights": "the heights are pile",
    "firing": "how often each site toppled is odometer",
    "dissipated": "the grains over the edge are lost",
    "size": "the number of topplings is topplings",
}
OF_RUN = {
    **dict.fromkeys(("add", "add_grain", "step", "relax", "topple", "settle", "stabilize"), _DROPS),
    "heights": OF_SETTLED["heights"],
    "dissipated": OF_SETTLED["dissipated"],
    **{name: f"{name} {_COLUMN}" for name in ("size", "area", "reach")},
    "duration": _NO_DURATION,
}
OF_ELEMENT = {
    "order": _ORDER,
    "heights": OF_SETTLED["heights"],
    "add": "a + b is the sum of two elements, a.act(site) adds a grain",
    "inverse": "-a is the inverse",
    "time": "burn(a).time says when each site burns",
}
OF_TREE = {"depths": "it is called depth", "parent": "it is called parents", "edges": "they are directions, or parents"}
OF_BURNED = {
    "times": "it is called time",
    "recurrent": "it is called is_recurrent",
    "forbidden_set": "it is called forbidden",
    "tree": _TREE,
}


class Hinted:
    """What says in the error of a missing attribute how it is called here."""

    __slots__ = ()
    _HINTS: ClassVar[Mapping[str, str]] = {}

    if not TYPE_CHECKING:  # a type checker would take any name for one that there is

        def __getattr__(self, name: str) -> object:
            hint = type(self)._HINTS.get(name)
            if hint is None:
                return object.__getattribute__(self, name)  # Python's own error, or that of a property
            raise AttributeError(f"{type(self).__name__!r} object has no attribute {name!r}: {hint}")
