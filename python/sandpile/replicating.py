"""Replicas of a run, in parallel: each has its own stream of random sites, and may have its own random start."""

from __future__ import annotations

import atexit
import contextlib
import functools
import itertools
import os
import sys
import threading
import weakref
from collections import deque
from concurrent.futures import CancelledError, Future, ThreadPoolExecutor
from dataclasses import dataclass
from typing import (
    Any, Callable, Deque, Generator, Iterable, Iterator, Optional, Sequence, Sized, SupportsIndex, Tuple, TypeVar, Union, cast,
    overload,
)

import numpy as np
from numpy.typing import ArrayLike, NDArray

from ._arrays import checked_edge, count_of, heights_and_edge, new_array, seed_of, shape_of
from ._dropping import AVALANCHE
from ._interruptible import asking
from .driving import Drive
from .faults import ShapeError
from .progress import Bar
from .stationary import drawn

_MOST_STREAM = 2**63 - 1

#: The type of the rows of the tables of `replicas`, one row for each drop.
REPLICA = np.dtype([("stream", "i8"), *AVALANCHE.descr])
_AVALANCHE = list(AVALANCHE.names or ())

_Table = NDArray[np.void]
_Result = TypeVar("_Result")
_Results = Generator[Any, None, None]  # the table of each replica, or what the function of `each` returns
_Submitted = Deque[Tuple[int, "Future[Any]"]]
_Start = Union[ArrayLike, Tuple[int, int], Callable[[int], ArrayLike]]


class Replicas(Iterator[_Result]):
    """The results of replicas, one for each stream, in the order of the streams: their tables, or what a function returns.

    `close` ends an iterator early: it cancels the replicas that have not begun, ends those on threads, between two calls of
    the library, and waits for threads of its own. An error, Ctrl-C or the end of the iterator does the same. Ctrl-C of a
    terminal or a notebook also goes to the processes of a pool, and ends the replicas there. Use an iterator, and close it, in
    one thread at a time.

    Attributes
    ----------
    seed : int
        The seed of all replicas.
    """

    def __init__(self, seed: int, results: _Results) -> None:
        self.seed, self._results = seed, results

    def __next__(self) -> _Result:
        result: _Result = next(self._results)
        return result

    def close(self) -> None:
        """Cancels the replicas that have not begun."""
        self._results.close()

    def __repr__(self) -> str:
        return f"<Replicas: seed {self.seed}>"


@dataclass(frozen=True)
class _Plan:
    """What all replicas have in common. It is sent to each worker."""

    start: Any  # an array, a shape, or a function of the stream
    cylinder: bool | None
    seed: int
    drops: int
    each: Optional[Callable[[Drive], Any]]
    key: bytes  # no other plan has it

    def run(self, stream: int, go_on: Callable[[], None]) -> Drive:
        """A replica before its first drop."""
        start = self.start
        if callable(start):
            start = start(stream)
        elif isinstance(start, tuple):
            seed = np.random.SeedSequence(self.seed, spawn_key=(stream,))
            start = drawn(cast(Tuple[int, int], start), seed, bool(self.cylinder))
        go_on()
        return Drive(start, self.seed, stream, self.cylinder)


# The keys of plans of which Ctrl-C has ended a replica in this process. A process of a pool goes on with the next replica, which
# it may hold already, so that cannot be cancelled.
_ended: set[bytes] = set()


def _replica(plan: _Plan, stream: int, stop: threading.Event | None = None) -> Any:
    """The table of a replica, or what its function returns."""

    def go_on() -> None:
        """Ends a replica that nobody waits for."""
        if plan.key in _ended or stop is not None and stop.is_set():
            raise CancelledError

    try:
        go_on()
        with asking(go_on) if stop else contextlib.nullcontext():
            return (_table if plan.each is None else _measured)(plan, stream, go_on)
    except KeyboardInterrupt:
        _ended.add(plan.key)
        raise


def _table(plan: _Plan, stream: int, go_on: Callable[[], None]) -> _Table:
    run, table = plan.run(stream, go_on), new_array(plan.drops, REPLICA, f"a table of {plan.drops} drops")
    go_on()
    with run._handle.dropping():
        while run.drops < plan.drops:
            block = run._next_block(plan.drops - run.drops)
            rows = table[run.drops - len(block) : run.drops]
            rows["stream"], rows[_AVALANCHE] = stream, block
            go_on()
    return table


def _measured(plan: _Plan, stream: int, go_on: Callable[[], None]) -> Any:
    """What the function of a plan returns for a replica. All blocks of drops go on only if the replica does."""
    run, each = plan.run(stream, go_on), cast(Callable[[Drive], Any], plan.each)
    run._go_on = go_on
    try:
        run.drop(plan.drops)
        return each(run)
    finally:
        run._go_on = None  # the function may return the run itself


# Python waits for all threads before it runs what `atexit` has. So that the program ends soon after an error or Ctrl-C while
# an iterator still exists, the threads are stopped before.
_stops: weakref.WeakSet[threading.Event] = weakref.WeakSet()


def _stop_all() -> None:
    for stop in tuple(_stops):
        stop.set()


getattr(threading, "_register_atexit", atexit.register)(_stop_all)


@overload
def replicas(
    start: _Start, seed: SupportsIndex | np.random.SeedSequence | None, streams: Iterable[SupportsIndex], drops: SupportsIndex,
    executor: Any = None, cylinder: bool | None = None, window: SupportsIndex | None = None, progress: bool = False,
    each: None = None,
) -> Replicas[_Table]: ...


@overload
def replicas(
    start: _Start, seed: SupportsIndex | np.random.SeedSequence | None, streams: Iterable[SupportsIndex], drops: SupportsIndex,
    executor: Any = None, cylinder: bool | None = None, window: SupportsIndex | None = None, progress: bool = False, *,
    each: Callable[[Drive], _Result],
) -> Replicas[_Result]: ...


def replicas(
    start: _Start,
    seed: SupportsIndex | np.random.SeedSequence | None,
    streams: Iterable[SupportsIndex],
    drops: SupportsIndex,
    executor: Any = None,
    cylinder: bool | None = None,
    window: SupportsIndex | None = None,
    progress: bool = False,
    each: Callable[[Drive], Any] | None = None,
) -> Replicas[Any]:
    """Drops grains in many replicas at once, and yields the table of each, or what a function returns of it.

    The results are the same whatever runs the replicas. They come in the order of `streams`, each as soon as it and those
    before it are made. Nothing runs until the first is asked for.

    Parameters
    ----------
    start : tuple of int, array_like of int, or callable
        A shape, ``(height, width)``: each replica starts from its own random recurrent pile, ``random_recurrent(start,
        numpy.random.SeedSequence(seed, spawn_key=(stream,)))``, with the `seed` of the result. Or the pile from which all
        start, as for `Drive`. Or a function of the stream that returns such a pile; for processes it must be one that can
        be pickled.
    seed : int, numpy.random.SeedSequence, or None
        The seed of all replicas, as for `Drive`.
    streams : iterable of int
        The stream of each replica, from 0 to 2**63 - 1.
    drops : int
        Grains that each replica drops.
    executor : concurrent.futures.Executor, distributed.Client, or None
        What runs the replicas: any executor whose workers can import `sandpile`, such as a `ProcessPoolExecutor` or an
        `mpi4py.futures.MPIPoolExecutor`, but no `InterpreterPoolExecutor`; or a client of Dask. It is not shut down. None is
        a thread for each processor.
    cylinder : bool, optional
        Whether the first and the last column are neighbours.
    window : int, optional
        How many replicas at most are under way or wait to be taken; each has a table of 56 bytes a drop. By default it is
        twice the number that the executor runs at once, or twice the number of processors if it does not tell.
    progress : bool
        Whether to show on standard error how many drops the tables so far have, as `Drive.drop` does, or with `each`, how
        many replicas are done. `streams` must then have a length.
    each : callable, optional
        A function of a `Drive`, called once for each replica, where the replica runs, when it has made its drops; its results
        are yielded, and no tables. `Drive.table` has the rows of the drops. The function may drop more grains: with
        ``drops=0`` it measures as it likes, such as by `Drive.blocks` in little memory. For processes it must be one that can
        be pickled, such as one of a module, and so must its results.

    Returns
    -------
    Replicas
        An iterator of structured arrays with the column `stream`, and then those of `Drive.drop`; or of the results of
        `each`. It has the `seed` of the replicas, and `close` ends it early.

    Raises
    ------
    Fault
        As from `Drive`, or Plan (15) if a number is outside its limits.
    ValueError, TypeError
        As from `Drive`, or TypeError if another argument has the wrong type.
    RuntimeError
        From the iterator, if a replica fails, or `each` does. It names the stream, and its ``__cause__`` is the error.

    See Also
    --------
    random_recurrent : the start of a replica
    Drive : a single run

    Examples
    --------
    >>> import sandpile
    >>> for table in sandpile.replicas((32, 32), seed=7, streams=range(3), drops=100):
    ...     print(table["stream"][0], len(table), (table["size"] >= table["area"]).all())
    0 100 True
    1 100 True
    2 100 True
    >>> list(sandpile.replicas((32, 32), seed=7, streams=range(3), drops=100, each=lambda run: len(run.table)))
    [100, 100, 100]
    """
    if each is not None and not callable(each):
        raise TypeError(f"each must be a function of a Drive, not {each!r}")
    plan = _Plan(*_start_of(start, cylinder), seed_of(seed), count_of(drops, "drops"), each, os.urandom(16))
    executor, workers = _workers_of(executor)
    most = count_of(2 * workers if window is None else window, "window", least=1)
    try:
        given = iter(streams)
    except TypeError:
        raise TypeError(f"streams must be several integers, such as range(4), not {streams!r}") from None
    left = (count_of(stream, "stream", _MOST_STREAM) for stream in given)
    if executor is None or isinstance(executor, ThreadPoolExecutor):
        results = _in_threads(plan, left, most, executor)
    else:
        results = _in_order(left, functools.partial(executor.submit, _replica, plan), most)
    if progress:
        count = len(cast(Sized, streams))
        results = _shown(results, count, "replica") if each else _shown(results, count * plan.drops, "drop")
    return Replicas(plan.seed, results)


def _start_of(start: _Start, cylinder: bool | None) -> tuple[Any, bool | None]:
    """A checked pile with its edge, or a shape or a function of the stream, whose piles may have their own."""
    is_shape = isinstance(start, tuple) and all(map(np.isscalar, start))
    if isinstance(start, (int, np.integer)):
        raise ShapeError(f"start must be a shape, a pile or a function of the stream, not {start}; a shape is ({start}, {start})")
    if not is_shape and not callable(start):
        return heights_and_edge(start, cylinder)
    edge = None if cylinder is None else checked_edge(cylinder)
    return shape_of(cast(Sequence[int], start)) if is_shape else start, edge


def _workers_of(executor: Any) -> tuple[Any, int]:
    """The executor that runs the replicas, unless threads will, and how many it runs at once."""
    processors = os.cpu_count() or 1
    if executor is None:
        return None, processors
    if hasattr(executor, "get_executor"):
        # A client of Dask takes equal calls for one, unless it is told that they are not.
        return executor.get_executor(pure=False), sum(executor.nthreads().values()) or processors
    if not hasattr(executor, "submit"):
        raise TypeError(f"executor must be one of concurrent.futures, a client of Dask or None, not {executor!r}")
    # Those of Python and of mpi4py tell how many workers they have under this name only.
    return executor, getattr(executor, "_max_workers", None) or processors


def _in_order(streams: Iterator[int], submit: Callable[[int], Future[Any]], window: int) -> _Results:
    """The results in the order of the streams. At most `window` of them are under way or wait to be taken."""
    submitted: _Submitted = deque()
    try:
        while True:
            for stream in itertools.islice(streams, min(window - len(submitted), sys.maxsize)):
                submitted.append((stream, submit(stream)))
            if not submitted:
                return
            yield _first(submitted)
    finally:
        for _, future in submitted:
            future.cancel()


def _first(submitted: _Submitted) -> Any:
    """The result of the first replica, once it is there."""
    stream, future = submitted[0]
    try:
        result = future.result()
    except Exception as error:
        raise RuntimeError(f"the replica of stream {stream} failed: {type(error).__name__}: {error}") from error
    submitted.popleft()
    return result


def _in_threads(plan: _Plan, streams: Iterator[int], window: int, executor: ThreadPoolExecutor | None) -> _Results:
    """The results of replicas on threads, which end with this iterator: on those given, or on new ones, which end, too."""
    stop = threading.Event()
    _stops.add(stop)
    with contextlib.ExitStack() as own:
        threads = executor or own.enter_context(ThreadPoolExecutor(os.cpu_count()))
        try:
            yield from _in_order(streams, lambda stream: threads.submit(_replica, plan, stream, stop), window)
        finally:
            stop.set()


def _shown(results: _Results, total: int, unit: str) -> _Results:
    """The same results. Shows how many of all drops or replicas they have."""
    done = 0
    with contextlib.closing(results), Bar(total, unit) as bar:
        for result in results:
            done += len(result) if unit == "drop" else 1
            bar.show(done)
            yield result
