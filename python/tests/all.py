"""Runs the tests in this folder, and prints at the end how many passed. With `--installed`, they test the module that this Python
has, and not the one of the checkout."""

import sys
import unittest
from pathlib import Path

HERE = Path(__file__).resolve().parent
IS_INSTALLED = "--installed" in sys.argv
sys.path[:0] = [str(HERE), *([] if IS_INSTALLED else [str(HERE.parent)]), str(HERE.parent.parent / "tools")]
import running


class Counting(unittest.TextTestResult):
    """Counts the tests that passed, and prints each one left out as it happens."""

    passed = 0

    def addSuccess(self, test):
        super().addSuccess(test)
        self.passed += 1

    def addSkip(self, test, reason):
        super().addSkip(test, reason)
        self.stream.writeln(f"python: left out, since {reason}: {test.id()}")


def main(names):
    patterns = [f"{name}.py" for name in names if name != "--installed"] or ["test_*.py"]
    loader = unittest.TestLoader()
    tests = unittest.TestSuite(loader.discover(str(HERE), pattern) for pattern in patterns)
    result = unittest.TextTestRunner(sys.stdout, verbosity=0, resultclass=Counting).run(tests)
    failed = len(result.failures) + len(result.errors)
    return running.closing("python", result.passed, failed, len(result.skipped))


if __name__ == "__main__":
    running.start(main)
