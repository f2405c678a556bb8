"""Each allocation of each call is refused in turn: the call raises fault 4, and nothing has changed."""

import os
import subprocess
import sys
import unittest
from pathlib import Path

from compiling import refusing_library
from tools import needs, new_folder

HERE = Path(__file__).resolve().parent


class Memory(unittest.TestCase):
    @needs("cc")
    def test_each_failed_allocation_is_fault_4(self):
        folder = new_folder(self)
        env = {**os.environ, **refusing_library(folder), "PYTHONPATH": str(HERE.parent)}
        ended = subprocess.run(
            [sys.executable, "-B", HERE / "refused.py"], cwd=folder, env=env, capture_output=True, text=True, timeout=600
        )
        self.assertEqual(ended.returncode, 0, ended.stdout + ended.stderr)
        for line in ended.stdout.splitlines():
            print(f"python: {line}")
