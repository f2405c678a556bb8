"""A run that a page shows: what the page may ask of it, one request at a time.

Heights and topplings travel as bytes, after a header that says what they are. A version tells how often the run was started, and
how many drops it has, so a page sees whether it shows the latest pile.
"""

from __future__ import annotations

import io
import json
import secrets
import threading
import time
from collections import deque
from typing import Any, Callable, Mapping, NamedTuple

import numpy as np
from numpy.typing import NDArray

from ._arrays import Heights, count_of, index_of, listed
from ._dropping import AVALANCHE
from ._png import COLOURS, RED
from ._reading import read
from ._server import Answer, Request, Route
from .burning import burn
from .driving import Drive
from .group import Recurrent, identity
from .stationary import random_recurrent

# A request makes drops for at most about so many seconds, so that the page can stop them, show them and ask for something else.
_SECONDS = 0.08
# Of more drops than these, the table keeps the last ones.
_MOST_ROWS = 2_000_000
# A file that the page sends has at most so many bytes.
MOST_IN_FILE = 1 << 27
# Avalanches are counted by the number of bits of their size.
_BITS = 48
# A grid is sent in the first of these types that has all its numbers. The last one has integers up to 2**53.
_TYPES = ("u1", "u2", "u4", "f8")
_ALIGNED = 8


class Start(NamedTuple):
    """Where a run starts: in words, and in Python."""

    words: str
    code: str


class Session:
    """A run and its avalanches. The run is another one after each start."""

    def __init__(self, run: Drive, start: Start) -> None:
        self._lock = threading.RLock()
        self._starts = 0
        self._begin(run, start)
        self.routes: Mapping[str, Route] = {
            "state": Route(lambda request: self.state(request.words.get("known", ""))),
            "site": Route(lambda request: self.site(*_place(request.words))),
            "odometer": Route(lambda _: self.odometer()),
            "last": Route(lambda _: self.last()),
            "burning": Route(lambda _: self.burning()),
            "tree": Route(lambda _: self.tree()),
            "table.npy": Route(lambda _: self.table()),
            "drop": Route(lambda request: self.drop(*_place(request.words)) if request.words else self.drop(), changes=True),
            "drops": Route(lambda request: self.drops(_number(request.words, "n")), changes=True),
            "start": Route(lambda request: self.start(request.words), changes=True),
            "file": Route(lambda request: self.take(request.content, request.words.get("seed", "")), True, MOST_IN_FILE),
        }

    def _begin(self, run: Drive, start: Start) -> None:
        """Shows a run from now on, of which no avalanche is known."""
        self.run, self._start = run, start
        self._starts += 1
        self._counts: NDArray[np.int64] = np.zeros(_BITS, np.int64)
        self._tables: deque[NDArray[np.void]] = deque()
        self._rows = 0  # of all tables
        self._last: Heights | None = None

    # What the page shows.

    def state(self, known: str = "") -> Answer:
        """The numbers of the run, and its heights, unless the page knows them."""
        with self._lock:
            if known == self._version(self.run.drops):
                return _packed({"version": known}, {})
            return self._state({})

    def _state(self, more: Mapping[str, Any], **arrays: NDArray[Any]) -> Answer:
        run, (height, width) = self.run, self.run.shape
        pile = np.empty(run.shape, np.int64)
        _, lost, state = run._read(pile=pile)
        numbers = {
            "version": self._version(state.drops), "height": height, "width": width, "cylinder": run.cylinder,
            "drops": state.drops, "mean": float(pile.mean()), "lost": lost, "seed": str(run.seed), "stream": str(run.stream),
            "start": self._start.words, "code": self._start.code, "counts": listed(self._counts), "rows": self._rows,
            "colours": COLOURS, "red": RED,
        }
        return _packed({**numbers, **more}, {"heights": pile, **arrays})

    def site(self, row: int, column: int) -> Answer:
        """The height of a site, and how often it has toppled."""
        with self._lock:
            run = self.run
            height = run.height(row=row, column=column)
            with run._handle.use:
                topplings = run._handle.site(row * run.shape[1] + column)[1]
            return _packed({"height": height, "odometer": topplings}, {})

    def odometer(self) -> Answer:
        """How often each site has toppled."""
        with self._lock:
            return _packed({}, {"odometer": self.run.odometer})

    def last(self) -> Answer:
        """How often each site toppled in the last avalanche."""
        with self._lock:
            if self._last is None:
                raise ValueError("no grain has been dropped since this start, so there is no last avalanche: click a site")
            return _packed({}, {"last": self._last})

    def burning(self) -> Answer:
        """In which step each site burns, from 1 on; 0 if it never does."""
        with self._lock:
            burned = burn(self.run)
        return _packed({"recurrent": bool(burned.is_recurrent)}, {"time": np.maximum(burned.time, 0)})

    def tree(self) -> Answer:
        """The directions of the spanning tree of the pile."""
        with self._lock:
            pile = self.run.pile
            stays = int(burn(pile, self.run.cylinder).forbidden.sum())
            if stays:
                raise ValueError(
                    f"the pile has no spanning tree, since it is not recurrent: {stays:,} sites never burn; drop more grains, or "
                    "start from a recurrent pile"
                )
            return _packed({}, {"directions": Recurrent(pile, self.run.cylinder).tree().directions})

    def table(self) -> Answer:
        """The table of the drops so far, as a NumPy file."""
        with self._lock:
            tables = [*self._tables]
        file = io.BytesIO()
        np.save(file, np.concatenate(tables) if tables else np.empty(0, AVALANCHE))
        return Answer(file.getvalue(), "application/octet-stream")

    # What changes the run.

    def drop(self, row: int | None = None, column: int | None = None) -> Answer:
        """Drops a grain at a site, or at the next random one."""
        with self._lock:
            avalanche, topplings = self._drop_one(row, column)
            numbers = {name: int(avalanche[name]) for name in AVALANCHE.names or ()}
            return self._state({"from": self._version(numbers["number"]), "avalanche": numbers}, topplings=topplings)

    def drops(self, n: int) -> Answer:
        """Drops up to so many grains at random sites, as many as a block has, and says how many they were."""
        with self._lock:
            wanted, made, some, end = count_of(n, "n", least=1), 0, 1, time.monotonic() + _SECONDS
            while made < wanted - 1 and time.monotonic() < end:
                made += len(self._note(self.run.drop(min(some, wanted - 1 - made))))
                some *= 2
            self._drop_one()
            return self._state({"made": made + 1})

    def start(self, words: Mapping[str, str]) -> Answer:
        """Starts again from a pile of a kind, with a seed if there is one."""
        with self._lock:
            kind, shape, cylinder = words.get("kind", ""), self.run.shape, self.run.cylinder
            seed = _seed(words.get("seed", ""))
            make = _STARTS.get(kind)
            if make is None:
                raise ValueError(f"a start is one of {', '.join(_STARTS)}, not {kind!r}")
            pile, start = make(shape, cylinder, seed, words)
            self._begin(Drive(pile, seed, cylinder=cylinder), start)
            return self._state({})

    def take(self, content: bytes, seed: str = "") -> Answer:
        """Starts again from the pile of a file."""
        heights, cylinder = read(content)
        with self._lock:
            edge, number = self.run.cylinder if cylinder is None else cylinder, _seed(seed)
            height, width = heights.shape
            words = f"the reader's pile, {height} by {width}, {int(heights.sum()):,} grains, settled"
            self._begin(Drive(heights, number, cylinder=edge), Start(words, _drive("pile", number, edge)))
            return self._state({})

    def _drop_one(self, row: int | None = None, column: int | None = None) -> tuple[np.void, Heights]:
        """A drop, and how often each site topples in its avalanche, which is kept."""
        avalanche, topplings = self.run.avalanche(row=row, column=column)
        self._last = topplings
        self._note(np.array([avalanche], AVALANCHE))  # not `run.table`, which may be of another call by now
        return avalanche, topplings

    def _version(self, drops: int) -> str:
        return f"{self._starts}.{drops}"

    def _note(self, table: NDArray[np.void]) -> NDArray[np.void]:
        """Counts the avalanches of a table, and keeps it."""
        _, bits = np.frexp(table["size"])  # exact, since sizes are below 2**53
        self._counts += np.bincount(bits, minlength=_BITS)
        self._tables.append(table)
        self._rows += len(table)
        while self._rows - len(self._tables[0]) >= _MOST_ROWS:
            self._rows -= len(self._tables.popleft())
        return table


# The starts that a page can ask for: of a shape, an edge, a seed and the words of the request.

_Made = tuple[Any, Start]


def _drive(pile: str, seed: int, cylinder: bool) -> str:
    return f"sandpile.Drive({pile}, seed={seed}{', cylinder=True' if cylinder else ''})"


def uniform(shape: tuple[int, int], cylinder: bool, seed: int) -> _Made:
    """A uniform recurrent pile, and what it is."""
    edge = ", cylinder=True" if cylinder else ""
    code = f"sandpile.Drive(sandpile.random_recurrent({shape}, seed={seed}{edge}), seed={seed})"
    return random_recurrent(shape, seed, cylinder), Start(f"a uniform recurrent pile, seed {seed}", code)


def _filled(grains: int, words: str) -> Callable[..., _Made]:
    def make(shape: tuple[int, int], cylinder: bool, seed: int, _: Mapping[str, str]) -> _Made:
        return np.full(shape, grains), Start(words, _drive(f"numpy.full({shape}, {grains})", seed, cylinder))

    return make


def _identity(shape: tuple[int, int], cylinder: bool, seed: int, _: Mapping[str, str]) -> _Made:
    edge = ", cylinder=True" if cylinder else ""
    code = f"sandpile.Drive(sandpile.identity({shape}{edge}), seed={seed})"
    return identity(shape, cylinder), Start("the identity", code)


def _heap(shape: tuple[int, int], cylinder: bool, seed: int, words: Mapping[str, str]) -> _Made:
    n, (row, column) = _number(words, "grains"), (shape[0] // 2, shape[1] // 2)
    pile = np.zeros(shape, np.int64)
    pile[row, column] = count_of(n, "grains", most=2**63 - 1)
    code = f"pile = numpy.zeros({shape}, int); pile[{row}, {column}] = {n}; {_drive('pile', seed, cylinder)}"
    return pile, Start(f"a heap of {n:,} grains in row {row}, column {column}, settled", code)


_STARTS: Mapping[str, Callable[..., _Made]] = {
    "uniform": lambda shape, cylinder, seed, _: uniform(shape, cylinder, seed),
    "empty": _filled(0, "the empty pile"),
    "threes": _filled(3, "3 grains everywhere"),
    "identity": _identity,
    "heap": _heap,
}


# What a request says in words.

def _number(words: Mapping[str, str], name: str) -> int:
    """A number of a request."""
    word = words.get(name, "")
    try:
        return int(word)
    except ValueError:
        raise ValueError(f"{name} must be a whole number, not {word[:40]!r}") from None


def _place(words: Mapping[str, str]) -> tuple[int, int]:
    """A row and a column."""
    return _number(words, "row"), _number(words, "column")


def _seed(word: str) -> int:
    """The seed that the reader has typed; without one, a short new one."""
    if not word.strip():
        return secrets.randbits(32)
    return count_of(_number({"the seed": word}, "the seed"), "the seed")


def _packed(numbers: Mapping[str, Any], arrays: Mapping[str, NDArray[Any]]) -> Answer:
    """A header with these numbers, and the bytes of these arrays of numbers from 0 on. Each begins at a multiple of eight bytes;
    the first eight are the length of the header."""
    small = {name: _small(array) for name, array in arrays.items()}
    kinds = [[name, array.dtype.str[1:], array.size] for name, array in small.items()]
    header = _padded(json.dumps({**numbers, "arrays": kinds}).encode(), b" ")
    length = len(header).to_bytes(_ALIGNED, "little")
    parts = (_padded(array.tobytes(), b"\0") for array in small.values())
    return Answer(b"".join([length, header, *parts]), "application/octet-stream")


def _small(array: NDArray[Any]) -> NDArray[Any]:
    """The numbers in the smallest type that has them."""
    greatest = int(array.max())
    for kind in _TYPES[:-1]:
        if greatest <= np.iinfo(kind).max:
            return array.astype(f"<{kind}")
    return array.astype(f"<{_TYPES[-1]}")


def _padded(content: bytes, by: bytes) -> bytes:
    return content + by * (-len(content) % _ALIGNED)
