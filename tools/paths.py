"""Where things are: the top of this repository, and what is built in it."""

from __future__ import annotations

from pathlib import Path

TOP = Path(__file__).resolve().parent.parent
PROGRAM = TOP / "crates" / "sandpile" / "out" / "sandpile"
STATIC = PROGRAM.with_name("sandpile-static")  # with the C library of the machine that linked it
# `rt ci` leaves two programs. The second one is made by Rattle's own compiler.
PROGRAMS = (PROGRAM, PROGRAM.with_name("sandpile.by-rattle"))
LIBRARY = TOP / "crates" / "sand_c" / "out" / "libsandpile.so.1"
ARCHIVE = LIBRARY.with_name("libsandpile.a")
WITH_NUMPY = TOP / "python" / "with-numpy"
OF_MODULE = (".py", ".typed", ".html", ".css", ".js")  # the files of the Python module end so
