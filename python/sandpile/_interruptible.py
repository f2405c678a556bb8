"""Has another process make a call of the library that may take long, so that Ctrl-C ends it at once.

In this process it would run to its end: nothing in the library looks for Ctrl-C, and a thread cannot be ended from outside. The
other process is killed at any error, and its arrays are read only when it is done, so a call is made whole or not at all. Only the
main thread gets Ctrl-C, others may have something to ask, and only a Python can start another one; else, and if that fails, the call
is made here.
"""

from __future__ import annotations

import contextlib
import os
import select
import signal
import subprocess
import sys
import threading
import time
from collections.abc import Callable, Iterator
from pathlib import Path
from typing import Any

import numpy as np

from ._worker import ALIGNMENT
from .faults import MEMORY, Fault
from .progress import Clock

_WORKER = str(Path(__file__).with_name("_worker.py"))
# Calls that visit each site once, and those that settle. From such a size on, they can take half a second.
_VISITING = {"burn", "burn_times", "tree", "of_tree", "random"}
_SETTLING = {"settle", "settle_all", "identity", "recurrent", "add", "inverse", "multiple", "class", "superstable"}
_MANY_TO_VISIT, _MANY_TO_SETTLE, _WIDE = 1 << 22, 1 << 18, 1 << 12
# A grain that walks at random reaches the edge in about the square of the way to it.
_MANY_STEPS = 1 << 36
# By these the system ends a process if memory runs out.
_OF_MEMORY = (signal.SIGKILL, signal.SIGBUS)
_MILLISECONDS_TO_ASK, _SECONDS_TO_END, _BYTES_AT_ONCE = 200, 0.1, 1 << 26


class _Thread(threading.local):
    """What a thread asks while it waits for another process."""

    go_on: Callable[[], None] | None = None


_thread = _Thread()


def may_last(name: str, shape: tuple[int, ...], cylinder: bool) -> bool:
    """Whether a call of an export may take longer than half a second here, and another process can make it."""
    height, width = shape
    sites, way = height * width, height if cylinder else min(height, width)
    if name in _SETTLING:
        lasts = sites > _MANY_TO_SETTLE or width > _WIDE or sites * way**2 > _MANY_STEPS
    else:
        lasts = name in _VISITING and sites > _MANY_TO_VISIT
    can_end = threading.current_thread() is threading.main_thread() or _thread.go_on is not None
    return lasts and can_end and _can_start_another()


@contextlib.contextmanager
def asking(go_on: Callable[[], None]) -> Iterator[None]:
    """Has this thread ask again and again whether a call is to go on, which it is unless `go_on` raises an error."""
    before, _thread.go_on = _thread.go_on, go_on
    try:
        yield
    finally:
        _thread.go_on = before


def _can_start_another() -> bool:
    """Whether this is a program of its own, and not in another one that `sys.executable` would start."""
    is_python = Path(sys.executable or "").name.startswith(("python", "pypy")) and not hasattr(sys, "frozen")
    return is_python and hasattr(os, "memfd_create")


def number_of(library: str, name: str, grid: str, arguments: tuple[Any, ...], progress: bool) -> int | None:
    """Has another process make a call, and fills the arrays. Returns what the export returns, or None if no process can make it."""
    words, places = _words_of(arguments)
    with contextlib.ExitStack() as stack:
        try:
            memory = os.memfd_create("sandpile")
            stack.callback(os.close, memory)
            os.ftruncate(memory, sum(_room(len(part)) for _, part in places))
            process = stack.enter_context(_started(memory, library, f"sandpile_{name}", *words))
            _move(os.pwritev, memory, places)
            os.write(process.stdin.fileno(), b"!")
        except OSError as error:
            if error.errno is None:  # of the handler of a signal
                raise
            return None
        answer = _answer(process.stdout.fileno(), f"{name} on {grid}" if progress else "")
        if answer:
            _move(os.preadv, memory, [(at, part) for at, part in places if not part.readonly])
        else:
            _check_end(-process.wait(), name, grid)
    return int(answer) if answer else None


def _words_of(arguments: tuple[Any, ...]) -> tuple[list[str], list[tuple[int, memoryview]]]:
    """The words for the worker, and the bytes of the arrays, with their places in the memory."""
    words: list[str] = []
    places: list[tuple[int, memoryview]] = []
    at = 0
    for argument in arguments:
        is_array = isinstance(argument, np.ndarray)
        if not is_array and not hasattr(argument, "_obj"):  # which has what `ctypes.byref` refers to
            words.append(str(int(argument)))
            continue
        part = argument.reshape(-1).view(np.uint8).data if is_array else memoryview(argument._obj).cast("B")
        words += [f"*{len(part)}", str(argument.size)] if is_array else [f"*{len(part)}"]
        places.append((at, part))
        at += _room(len(part))
    return words, places


def _room(size: int) -> int:
    return -(-size // ALIGNMENT) * ALIGNMENT


@contextlib.contextmanager
def _started(memory: int, *words: str) -> Iterator[Any]:
    """The worker, which is killed at the end, and waited for. A terminal or a batch system may send a signal to it, too: all are
    blocked there, for what it means is decided here, but Ctrl-Z stops both."""
    command, pipe, nowhere = [sys.executable, "-I", "-S", _WORKER, str(memory), *words], subprocess.PIPE, subprocess.DEVNULL
    process: Any = None
    before = signal.pthread_sigmask(signal.SIG_BLOCK, ())
    try:
        signal.pthread_sigmask(signal.SIG_BLOCK, signal.valid_signals() - {signal.SIGTSTP})
        process = subprocess.Popen(command, stdin=pipe, stdout=pipe, stderr=nowhere, pass_fds=[memory])
        signal.pthread_sigmask(signal.SIG_SETMASK, before)  # Ctrl-C may come here
        yield process
    finally:
        signal.pthread_sigmask(signal.SIG_SETMASK, before)
        if process is not None:
            process.kill()
            _reap(process)
            process.stdin.close()
            process.stdout.close()


def _reap(process: Any) -> None:
    """Waits for a process that is killed. On a busy machine its memory may take long to free, so a thread waits for that."""
    try:
        process.wait(_SECONDS_TO_END)
    except subprocess.TimeoutExpired:
        threading.Thread(target=process.wait, daemon=True).start()


def _move(move: Callable[[int, list[memoryview], int], int], memory: int, places: list[tuple[int, memoryview]]) -> None:
    """Writes arrays to the memory, or reads them from there, in parts between which Ctrl-C can come."""
    for at, part in places:
        moved = 0
        while moved < len(part):
            moved += move(memory, [part[moved : moved + _BYTES_AT_ONCE]], at + moved)


def _answer(pipe: int, progress: str) -> bytes:
    """What the worker writes, or nothing if it ends. Shows the seconds that it takes, once it has taken one. An interrupt that is no
    signal, such as that of IDLE, is found at the next look."""
    begun, seen, poll, clock = time.monotonic(), 0, select.poll(), None
    poll.register(pipe, select.POLLIN)
    with contextlib.ExitStack() as stack:
        while not poll.poll(_MILLISECONDS_TO_ASK):
            if _thread.go_on:
                _thread.go_on()
            seconds = int(time.monotonic() - begun)
            if progress and seconds > seen:
                clock, seen = clock or stack.enter_context(Clock(progress, seconds)), seconds
                clock.show(seconds)
    return os.read(pipe, 16)


def _check_end(number: int, name: str, grid: str) -> None:
    """Raises the error for a worker that a signal has ended, if one has."""
    if number in _OF_MEMORY:
        said = f"not enough memory for a grid of {grid}: the process that computes was ended by {signal.Signals(number).name}"
        raise Fault(MEMORY, said)
    if number > 0:
        raise RuntimeError(f"the process that computes {name} on {grid} was ended by {signal.strsignal(number)}")
