"""How a run of the laboratory can fail: by a fault of the program, or because the program does not run to its end; and which
program it is."""

import os
import shutil
import sys
import unittest
from pathlib import Path
from unittest import mock

import numpy as np
import sandpile
from sandpile import _library
from tools import new_folder, ran, stand_in

# A run of two droppers, three drops each, on one site that holds three grains: docs/FORMATS.md.
OUTPUT = """epoch drops topplings lost grains
0 6 1 4 2
1 6 2 8 0
total 12 3 12 0
1 1
0
odometer
3
"""


class Ends(unittest.TestCase):
    def setUp(self):
        self.program = new_folder(self) / "sandpile"
        named = mock.patch.dict(os.environ, SANDPILE=str(self.program))
        named.start()
        self.addCleanup(named.stop)

    def run_by(self, script, **seed):
        """A run by a program that is this shell script."""
        self.program.write_text(f"#!/bin/sh\n{script}\n")
        self.program.chmod(0o755)
        return sandpile.lab([[0]], drops=3, epochs=2, **seed)

    def fault_of(self, script):
        with self.assertRaises(sandpile.Fault) as caught:
            self.run_by(script)
        return caught.exception

    def test_its_output(self):
        run = self.run_by(f"printf '{OUTPUT}'")
        self.assertEqual(run.epochs.tolist(), [(0, 6, 1, 4, 2), (1, 6, 2, 8, 0)])
        self.assertEqual((run.pile.tolist(), run.odometer.tolist(), run.epochs.dtype), ([[0]], [[3]], sandpile.EPOCH))

    def test_its_first_line_says_whose_the_drops_are(self):
        self.assertRegex(sandpile.lab.__doc__.partition("\n")[0], "each dropper, of which there are two by default, drops `drops`")

    def test_its_seed(self):
        words, sequence, seeds = self.program.with_name("words"), np.random.SeedSequence(7), []
        for given in ({}, {"seed": None}, {"seed": 2**32 - 1}, {"seed": sequence}):
            seeds.append(self.run_by(f"echo $* > '{words}'; printf '{OUTPUT}'", **given).seed)
            self.assertIn(f" --seed={seeds[-1]} ", words.read_text())
        self.assertEqual(seeds[2:], [2**32 - 1, int(sequence.generate_state(1)[0])])
        self.assertEqual((len(set(seeds)), max(seeds)), (4, 2**32 - 1))

    def test_what_is_no_number(self):
        for name in ("droppers", "drops", "epochs", "workers", "sweeps", "observers"):
            for value in (1.5, "2", None):
                with self.assertRaisesRegex(TypeError, f"{name} must be an integer, not "):
                    sandpile.lab([[0]], **{name: value})

    def test_output_that_is_cut_off(self):
        for length in range(len(OUTPUT)):
            with self.subTest(length=length), self.assertRaisesRegex(RuntimeError, "only a part of its output.* nothing$"):
                self.run_by(f"printf '{OUTPUT[:length]}'")

    def test_a_program_that_is_killed(self):
        for name in ("KILL", "ABRT"):
            with self.assertRaisesRegex(RuntimeError, f"ended by SIG{name}; .*low on memory"):
                self.run_by(f"echo low on memory >&2; kill -{name} $$")
        with self.assertRaisesRegex(RuntimeError, "ended by signal 40;"):
            self.run_by("kill -40 $$")

    def test_a_program_that_ends_with_another_status(self):
        for status, said in [(1, "no rt"), (1, "a fault 4 Memory"), (126, "fault 4 Memory"), (127, "no library \\377")]:
            with self.subTest(status=status, said=said), self.assertRaises(RuntimeError) as caught:
                self.run_by(f"printf '{said}\\n' >&2; exit {status}")
            self.assertIn(f"status {status}; on standard error: {said}".replace("377", "xff"), str(caught.exception))

    def test_faults(self):
        memory = self.fault_of("echo a word before it >&2; echo fault 4 Memory >&2; exit 1")
        self.assertEqual((memory.number, memory.name), (4, "Memory"))
        self.assertIsInstance(memory, MemoryError)
        for said in ("error: no such option\nand more", "fault 4 Memory"):
            usage = self.fault_of(f"printf '{said}\\n' >&2; exit 2")
            self.assertEqual((usage.number, usage.sentence), (23, said.partition("\n")[0].replace("error: ", "")))

    def test_a_program_that_cannot_start(self):
        self.assertRaises(FileNotFoundError, sandpile.lab, [[0]])
        self.program.write_text("no script")
        self.assertRaises(PermissionError, sandpile.lab, [[0]])
        self.program.chmod(0o755)
        self.assertRaises(OSError, sandpile.lab, [[0]])


class Found(unittest.TestCase):
    """Which program a module finds that is outside the checkout."""

    def test_the_order(self):
        for modules in ("lib/python3/site-packages", "."):
            with self.subTest(modules):
                folder = new_folder(self)
                shutil.copytree(Path(sandpile.__file__).parent, folder / "prefix" / modules / "sandpile")
                programs = [folder / name / "sandpile" for name in ("prefix/bin", "path", "other")]
                for program in programs:
                    stand_in(program)
                env = {"PATH": f"{folder}/path", "PYTHONPATH": f"{folder}/prefix/{modules}"}
                env["LIBSANDPILE"] = _library.library._name
                self.assertEqual(self.found(**env, SANDPILE=str(programs[2])), str(programs[2]))
                for program in programs[:2]:
                    self.assertEqual(self.found(**env), str(program))
                    program.unlink()
                self.assertIn("put it on the path", self.found(**env))

    def found(self, **env):
        script = "try: print(laboratory._program())\nexcept FileNotFoundError as error: print(error)"
        return ran(sys.executable, "-c", f"from sandpile import laboratory\n{script}", env=env).rstrip("\n")
