"""For pytest, which thus finds the module, the tests' own `tools` and the scripts' modules, as tests/run does."""

import sys
from pathlib import Path

HERE = Path(__file__).resolve().parent
sys.path[:0] = [str(HERE), str(HERE.parent), str(HERE.parent.parent / "tools")]
