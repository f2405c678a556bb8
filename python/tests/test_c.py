"""The header and the library in C: the exports, each call with values worked out by hand and on a small stack, and what calls take of
memory; these values and the example under valgrind and AddressSanitizer."""

import ctypes
import re
import unittest

import exports
import numpy as np
import sandpile
from tools import LIBRARY, TOP, needs, new_folder, ran

HERE = TOP / "python" / "tests"
EXAMPLE, CALLS, STACK, MEMORY = TOP / "examples" / "settle.c", HERE / "calls.c", HERE / "stack.c", HERE / "memory.c"
HEADER = TOP / "include" / "sandpile.h"
INCLUDE = f"-I{HEADER.parent}"
STRICT = ["-pedantic", "-Wall", "-Wextra", "-Werror"]
SANITIZED = ["-O1", "-g", "-fsanitize=address,undefined", "-fno-sanitize-recover=all"]
VALGRIND = ["valgrind", "--quiet", "--error-exitcode=9", "--leak-check=full", "--show-leak-kinds=all"]
LAST_LINE = "8193 wide: the width or the height of a grid is outside 1 to 8192"


class FromC(unittest.TestCase):
    def built(self, source, *options):
        """A program, linked with the shared library."""
        program = new_folder(self) / source.stem
        linked = [f"-L{LIBRARY}", "-lsandpile", f"-Wl,-rpath,{LIBRARY}"]
        ran("cc", "-std=c99", *STRICT, *options, INCLUDE, source, *linked, "-o", program)
        return program

    @needs("cc")
    def test_the_header_is_c99(self):
        ran("cc", "-std=c99", *STRICT, "-fsyntax-only", "-x", "c", HEADER, INCLUDE)

    @needs("c++")
    def test_the_header_is_cpp(self):
        for standard in ("c++11", "c++20"):
            ran("c++", f"-std={standard}", *STRICT, "-fsyntax-only", "-x", "c++", HEADER)

    @needs("nm")
    def test_only_its_calls_are_exported(self):
        names = ran("nm", "-D", "--defined-only", "--format=posix", LIBRARY / "libsandpile.so").splitlines()
        exported = {line.split("@")[0] for line in names if line.split()[1] == "T"}
        self.assertEqual(exported, exports.calls(exports.declared(HEADER.read_text())))

    @needs("cc", "nm")
    def test_each_call_returns_what_is_worked_out_by_hand(self):
        program = self.built(CALLS, "-O2")
        ran(program)
        called = set(re.findall(r"U (sandpile_\w+)", ran("nm", "-D", program)))
        self.assertEqual(called, exports.calls(exports.exported()))

    @needs("cc")
    def test_each_call_runs_on_a_small_stack(self):
        text = ran(self.built(STACK, "-O2", "-pthread"))
        taken = dict(re.findall(r"(sandpile_\w+): (\d+) bytes", text))
        self.assertEqual(taken.keys(), exports.calls(exports.exported()))

    @needs("cc")
    def test_calls_take_as_much_memory_as_the_header_says(self):
        ran(self.built(MEMORY, "-O2"))

    def test_the_rounding_mode_changes_nothing(self):
        set_mode, results = ctypes.CDLL("libm.so.6").fesetround, set()
        pile = np.random.default_rng(1).integers(0, 60, (90, 80))
        for mode in (0x400, 0x800, 0xC00, 0):  # down, up, to zero and, in the end, to the nearest
            self.assertEqual(set_mode(mode), 0)
            settled, neutral = sandpile.settle(pile), sandpile.identity((70, 70), cylinder=True)
            results.add((settled.pile.tobytes(), settled.odometer.tobytes(), neutral.pile.tobytes()))
        self.assertEqual(len(results), 1)

    @needs("cc")
    def test_the_example(self):
        self.assertEqual(ran(self.built(EXAMPLE, "-O2")).splitlines()[-1], LAST_LINE)

    @needs("cc", "valgrind")
    def test_valgrind_is_silent_over_the_example(self):
        text = ran(*VALGRIND, self.built(EXAMPLE, "-O2"))
        self.assertEqual((text.count("\n"), text.splitlines()[-1]), (6, LAST_LINE))

    @needs("cc", "valgrind")
    def test_valgrind_is_silent_over_each_call(self):
        self.assertEqual(ran(*VALGRIND, self.built(CALLS, "-O2")), "")

    @needs("cc")
    def test_addresssanitizer_is_silent_over_the_example(self):
        text = ran(self.built(EXAMPLE, *SANITIZED))
        self.assertEqual((text.count("\n"), text.splitlines()[-1]), (6, LAST_LINE))

    @needs("cc")
    def test_addresssanitizer_is_silent_over_each_call(self):
        self.assertEqual(ran(self.built(CALLS, *SANITIZED)), "")
