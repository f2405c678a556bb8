"""Shared by several tests: random piles, the program, and tools that may be missing."""

import hashlib
import importlib.util
import itertools
import os
import shutil
import struct
import subprocess
import sys
import tempfile
import types
import unittest
from pathlib import Path

import numpy as np
import paths

TOP, PROGRAM, LIBRARY = paths.TOP, paths.PROGRAM, paths.LIBRARY.parent
# Of a double round of ChaCha: the four columns of its 16 words, then the four diagonals.
_QUARTER_ROUNDS = [(at, 4 + (at + n) % 4, 8 + (at + 2 * n) % 4, 12 + (at + 3 * n) % 4) for n in (0, 1) for at in range(4)]


def needs(*tools):
    """Leaves a test out if a command is not on the path."""
    missing = [tool for tool in tools if not shutil.which(tool)]
    return unittest.skipIf(missing, f"there is no {', '.join(missing)}")


def needs_module(*names):
    """Leaves a test out if this Python lacks a module."""
    missing = [name for name in names if not importlib.util.find_spec(name)]
    return unittest.skipIf(missing, f"Python has no {', '.join(missing)}")


def text_of(pile, cylinder=False):
    """The text of a pile, as the program reads it."""
    height, width = pile.shape
    rows = "\n".join(" ".join(map(str, row)) for row in pile.tolist())
    return f"{width} {height}{' c' if cylinder else ''}\n{rows}\n"


def program(*words, text=""):
    """The output of the program, or the number of its fault."""
    ended = subprocess.run([PROGRAM, *map(str, words)], input=text, capture_output=True, text=True, timeout=300)
    return ended.stdout if ended.returncode == 0 else int(ended.stderr.split()[1])


def fault_or(call):
    """The result of a call of the module, or the number of its fault."""
    import sandpile

    try:
        return call()
    except sandpile.Fault as fault:
        return fault.number


def _block_of(seed, stream, at):
    """The words of a block of ChaCha8, by Bernstein's definition of 2008."""
    start = struct.unpack("<16I", b"expand 32-byte k" + struct.pack("<Q24xQQ", seed, at, stream))
    state = list(start)
    for a, b, c, d in 4 * _QUARTER_ROUNDS:
        for x, y, z, bits in ((a, b, d, 16), (c, d, b, 12), (a, b, d, 8), (c, d, b, 7)):
            state[x] = (state[x] + state[y]) % 2**32
            mixed = state[z] ^ state[x]
            state[z] = (mixed << bits | mixed >> 32 - bits) % 2**32
    return [(a + b) % 2**32 for a, b in zip(start, state)]


def words_of(seed, stream, place=0):
    """The words of a stream from a place on, without the library."""
    words = (word for at in itertools.count(place // 16) for word in _block_of(seed, stream, at))
    return itertools.islice(words, place % 16, None)


def ran(*words, **how):
    """Runs a command that must succeed, and returns its output."""
    ended = subprocess.run([str(word) for word in words], stdout=subprocess.PIPE, stderr=subprocess.STDOUT, text=True, **how)
    if ended.returncode:
        raise AssertionError(f"{words} ended with status {ended.returncode}:\n{ended.stdout}")
    return ended.stdout


def new_folder(test):
    """A folder that exists for one test."""
    folder = tempfile.TemporaryDirectory()
    test.addCleanup(folder.cleanup)
    return Path(folder.name)


def stand_in(path, *lines):
    """A script in the place of a command."""
    path.parent.mkdir(parents=True, exist_ok=True)
    path.write_text("\n".join(["#!/bin/bash", *lines, ""]))
    path.chmod(0o755)


def release_in(top):
    """Puts the wheel of what is built in a checkout into its dist/, its checksums into release/, and removes what is built."""
    (top / "dist").mkdir()
    wheel = top / "dist" / ran(sys.executable, top / "tools" / "wheel", top / "dist").rstrip("\n")
    code = "import sys; sys.path.insert(0, sys.argv[1]); import products; print(end=products.sources(sys.argv[2]))"
    sums = {f"dist/{wheel.name}": wheel.read_bytes()}
    for crate in ("sandpile", "sand_c"):
        shutil.rmtree(top / "crates" / crate / "out")
        sums[f"crates/{crate}/out/made-from"] = ran(sys.executable, "-c", code, top / "tools", crate).encode()
    (top / "release").mkdir()
    lines = (f"{hashlib.sha256(content).hexdigest()}  {name}\n" for name, content in sums.items())
    (top / "release" / "SHA256SUMS").write_text("".join(lines))


def files_in(folder):
    """The files in a folder, by their path there, with their bytes."""
    return {str(path.relative_to(folder)): path.read_bytes() for path in folder.rglob("*") if path.is_file()}


def in_blocks(run, of):
    """Has a run make blocks of so many drops, whatever time they take. Returns the run."""
    run._most, run._pace = of, types.SimpleNamespace(drops=of, note=lambda *_: None)
    return run


def resident():
    """The bytes of memory in use."""
    with open("/proc/self/statm") as file:
        return int(file.read().split()[1]) * os.sysconf("SC_PAGE_SIZE")


def toppling_matrix(height, width, cylinder=False):
    """What each site loses as each other one topples, by the definition."""
    matrix = 4 * np.eye(height * width, dtype=int)
    for row, column in np.ndindex(height, width):
        for i, j in ((row - 1, column), (row, column - 1), (row, column + 1), (row + 1, column)):
            j = j % width if cylinder else j
            if 0 <= i < height and 0 <= j < width:
                matrix[row * width + column, i * width + j] -= 1
    return matrix


def same(one, other):
    """Whether two arrays have the same shape, type and values."""
    return one.shape == other.shape and one.dtype == other.dtype and np.array_equal(one, other)
