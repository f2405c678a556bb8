"""The toppling matrix for SciPy: by the definition, and what it has to do with the calls of the group."""

import subprocess
import sys
import unittest
from unittest import mock

import numpy as np
import sandpile
from tools import TOP, needs_module, toppling_matrix

GRIDS = [(1, 1, False), (1, 5, False), (5, 1, False), (3, 4, False), (1, 3, True), (4, 3, True), (2, 5, True)]


@needs_module("scipy")
class Matrix(unittest.TestCase):
    def test_by_the_definition(self):
        for height, width, cylinder in GRIDS:
            matrix = sandpile.toppling_matrix((height, width), cylinder)
            self.assertEqual((matrix.format, matrix.dtype, matrix.shape), ("csr", np.int64, (height * width,) * 2))
            self.assertEqual(matrix.toarray().tolist(), toppling_matrix(height, width, cylinder).tolist())

    def test_its_determinant_is_the_number_of_recurrent_piles(self):
        # Those of 2 by 2 and 3 by 3 are in the OEIS: A007341.
        for shape, cylinder, piles in (((2, 2), False, 192), ((3, 3), False, 100_352), ((1, 4), True, 192)):
            self.assertEqual(round(np.linalg.det(sandpile.toppling_matrix(shape, cylinder).toarray())), piles)

    def test_a_firing_vector(self):
        for cylinder in (False, True):
            pile = np.random.default_rng(1).integers(-99, 99, (30, 40))
            a, vector = sandpile.recurrent(pile, cylinder, firing=True)
            fired = sandpile.toppling_matrix(np.int64(a.shape), cylinder) @ vector.ravel()
            self.assertEqual((pile.ravel() - fired).tolist(), a.pile.ravel().tolist())

    def test_a_large_one(self):
        matrix = sandpile.toppling_matrix((1000, 1000))
        self.assertEqual((matrix.nnz, matrix.sum()), (1_000_000 * 5 - 4000, 4000))  # edges to the sink

    def test_what_is_refused(self):
        for shape, cylinder, number in (((0, 3), False, 1), ((3, 8193), False, 1), ((3, 2), True, 24)):
            with self.assertRaises(sandpile.Fault) as caught:
                sandpile.toppling_matrix(shape, cylinder)
            self.assertEqual(caught.exception.number, number)
        self.assertRaisesRegex(TypeError, "a shape must be two integers", sandpile.toppling_matrix, 3)
        self.assertRaisesRegex(TypeError, "cylinder must be True or False", sandpile.toppling_matrix, (3, 3), 1)
        with mock.patch("sandpile._memory.available", lambda: 10**9):
            said = "Memory: not enough memory for the toppling matrix of 8,192 by 8,192 sites: 11.4 GB needed"
            self.assertRaisesRegex(sandpile.Fault, said, sandpile.toppling_matrix, (8192, 8192))


class WithoutSciPy(unittest.TestCase):
    def test_it_says_what_to_install(self):
        with mock.patch.dict(sys.modules, {"scipy": None}):
            with self.assertRaisesRegex(ImportError, "needs SciPy, .*pip install scipy, or .* python3-scipy"):
                sandpile.toppling_matrix((3, 3))

    def test_only_this_call_imports_it(self):
        code = "import sys, sandpile; sandpile.identity((3, 3)).tree().depth; sys.exit('scipy' in sys.modules)"
        ended = subprocess.run([sys.executable, "-B", "-c", code], env={"PYTHONPATH": str(TOP / "python")})
        self.assertEqual(ended.returncode, 0)
