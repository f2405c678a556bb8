"""The laboratory: seeded runs on many threads, by the program `sandpile`."""

from __future__ import annotations

import os
import re
import shutil
import signal
import subprocess
from dataclasses import dataclass
from pathlib import Path
from typing import SupportsIndex

import numpy as np
from numpy.typing import ArrayLike, NDArray

from ._arrays import HasPile, Heights, heights_and_edge, index_of, listed, seed_of
from ._limits import check_sides
from ._results import Result
from .faults import USAGE, Fault

_CHECKOUT = Path(__file__).resolve().parents[2] / "crates" / "sandpile" / "out" / "sandpile"
# pip puts the program into bin/, next to sandpile/ if it has a --target, else next to lib/python3.N/site-packages/sandpile/.
_ABOVE = list(Path(__file__).parents)
_INSTALLED = [folder / "bin" for folder in _ABOVE[1:2] + _ABOVE[4:5]]
# A pile is passed as a text.
_MOST_SIDE = 256
# docs/FORMATS.md describes it.
_OUTPUT = re.compile(
    r"epoch drops topplings lost grains\n(?P<epochs>(?:\d+(?: \d+){4}\n)*)total \d+(?: \d+){3}\n"
    r"\d+ \d+(?: c)?\n(?P<pile>(?:\d+[ \n])*)"
    r"odometer\n(?P<odometer>(?:\d+[ \n])*)"
)

#: The type of the rows of `Run.epochs`, one for each epoch.
EPOCH = np.dtype([(name, "i8") for name in ("epoch", "drops", "topplings", "lost", "grains")])


@dataclass(frozen=True, eq=False, repr=False)
class Run(Result, HasPile):
    """The result of a run of the laboratory. It can be passed as a pile.

    Attributes
    ----------
    epochs : numpy.ndarray
        A structured array with a row for each epoch: its number `epoch` from 0, its `drops`, its `topplings`, the
        grains `lost` in it, and the `grains` of the pile at its end.
    pile : numpy.ndarray
        The settled heights at the end; shape (height, width), int64.
    odometer : numpy.ndarray
        How often each site toppled in all epochs; shape (height, width), int64.
    cylinder : bool
        Whether the first and the last column are neighbours.
    seed : int
        The seed of the run.
    """

    epochs: NDArray[np.void]
    pile: Heights
    odometer: Heights
    cylinder: bool
    seed: int


def _program() -> str:
    """The program: the one named by SANDPILE, else that of the checkout, else the one installed with this module, else the
    one on the path."""
    if named := os.environ.get("SANDPILE"):
        return named
    if _CHECKOUT.exists():
        return str(_CHECKOUT)
    for path in (*_INSTALLED, None):
        if found := shutil.which("sandpile", path=path):
            return found
    raise FileNotFoundError("the program sandpile was not found: put it on the path, or name it in SANDPILE")


def _text_of(heights: Heights, cylinder: bool) -> str:
    height, width = heights.shape
    rows = (" ".join(map(str, row)) for row in listed(heights.view(np.uint64)))
    return "\n".join([f"{width} {height}{' c' if cylinder else ''}", *rows, ""])


def _error_of(ended: subprocess.CompletedProcess[str]) -> Exception:
    """The fault that the program reports. If it reports none, something else ended it, or its output is cut off."""
    said = ended.stderr.strip()
    fault = re.search(r"^fault (\d+) (\w+)", said, re.M)
    if ended.returncode == 1 and fault:
        return Fault(int(fault[1]), name=fault[2])
    if ended.returncode == 2:
        return Fault(USAGE, said.partition("\n")[0].removeprefix("error: "))
    return RuntimeError(f"the program sandpile {_end_of(ended.returncode)}; on standard error: {said or 'nothing'}")


def _end_of(status: int) -> str:
    """How the program ended."""
    if status == 0:
        return "wrote only a part of its output"
    if status > 0:
        return f"ended with status {status}"
    try:
        return f"was ended by {signal.Signals(-status).name}"
    except ValueError:
        return f"was ended by signal {-status}"


def _run_of(text: str, shape: tuple[int, ...], cylinder: bool, seed: int) -> Run | None:
    """Parses a table of epochs, its total, a pile, and its odometer. Returns None if the text is cut off."""
    found = _OUTPUT.fullmatch(text)
    if not found:
        return None
    epochs = np.array(found["epochs"].split(), np.int64)
    pile = np.array(found["pile"].split(), np.int64)
    odometer = np.array(found["odometer"].split(), np.int64)
    if not pile.size == odometer.size == shape[0] * shape[1]:
        return None
    return Run(epochs.view(EPOCH), pile.reshape(shape), odometer.reshape(shape), cylinder, seed)


def lab(
    pile: ArrayLike,
    seed: SupportsIndex | np.random.SeedSequence | None = None,
    droppers: SupportsIndex = 2,
    drops: SupportsIndex = 100,
    epochs: SupportsIndex = 1,
    cylinder: bool | None = None,
    workers: SupportsIndex = 1,
    sweeps: SupportsIndex = 0,
    observers: SupportsIndex = 0,
) -> Run:
    """Runs the laboratory: in each epoch, each dropper, of which there are two by default, drops `drops` grains on one pile.

    The droppers are threads that drop at the same time. The pile settles after each epoch.

    The program `sandpile` does the run: the one named by the variable SANDPILE, else that of the checkout, else the one
    installed with this module, else the one on the path. It takes sides up to 256; a `SharedPile` takes longer ones.

    Parameters
    ----------
    pile : array_like of int
        The start, shape (height, width), sides from 1 to 256, any integer type. Not modified.
    seed : int or numpy.random.SeedSequence, optional
        An integer from 0 to 4294967295, or a sequence, whose ``generate_state(1, np.uint32)[0]`` the seed then is. Without
        a seed, one is drawn from fresh entropy. The `seed` of the result is the integer. Dropper k of epoch t drops at the
        sites of stream 64 * t + k.
    droppers : int
        Threads that drop grains, from 1 to 64.
    drops : int
        Grains of each dropper in each epoch, from 0 to 1,000,000; so there are droppers * drops * epochs in all.
    epochs : int
        From 1 to 100.
    cylinder : bool, optional
        Whether the first and the last column are neighbours. By default as in `pile` if that has a `cylinder`, else False.
    workers, sweeps, observers : int
        Threads that topple (1 to 16), how often each of them sweeps its rows (0 to 1000), and threads that count
        drops (0 to 16). They do not affect the result.

    Raises
    ------
    Fault
        Side (1), Narrow (24), TooManyGrains (3), TooLarge (19) for one height, TooLong (22), Shapes (9) if `pile` has the
        other edge, Usage (23) if a parameter is outside its limits, or Memory (4).
    ValueError
        If a height is below 0, or `pile` is not two-dimensional; the latter is also a `TypeError`.
    TypeError
        If the heights or a parameter are not integers, or `seed` is neither an integer nor a sequence.
    OSError
        If the program cannot be started; FileNotFoundError if it is not found.
    RuntimeError
        If the program ends without a result or a fault, by a signal for example. The error says how, and what the
        program wrote to standard error.

    See Also
    --------
    SharedPile : the same in this process, with threads of your own
    Drive : one thread, with the avalanche of each drop
    random_recurrent : a start from which no burn-in is needed

    Notes
    -----
    The result is that of one thread that drops the same grains, since the order of topplings does not matter [1]_. A run
    needs up to about 40 bytes of memory per drop, counting all epochs.

    References
    ----------
    .. [1] D. Dhar, "Self-organized critical state of sandpile automaton models", Physical Review Letters 64 (1990)
       1613-1616.

    Examples
    --------
    >>> import sandpile
    >>> run = sandpile.lab([[0]], droppers=2, drops=3, epochs=2)
    >>> run.epochs["lost"], run.odometer
    (array([4, 8]), array([[3]]))
    """
    (heights, edge), number = heights_and_edge(pile, cylinder), seed_of(seed, bits=32, fault=USAGE)
    options = dict(
        seed=number, droppers=droppers, drops=drops, epochs=epochs, workers=workers, sweeps=sweeps, observers=observers
    )
    check_sides(heights.shape, _MOST_SIDE, "lab runs the program, which takes")
    words = [f"--{name}={index_of(value, name)}" for name, value in options.items()]
    ended = subprocess.run(
        [_program(), "lab", *words], input=_text_of(heights, edge), capture_output=True, check=False,
        text=True, errors="backslashreplace",
    )
    run = None if ended.returncode else _run_of(ended.stdout, heights.shape, edge, number)
    if run is None:
        raise _error_of(ended)
    return run
