"""Runs all tests. The last line is 'N passed, M failed'."""

import sys
import unittest
from pathlib import Path


def main() -> int:
    """Runs the tests, and returns the status."""
    folder = Path(__file__).resolve().parent
    suite = unittest.defaultTestLoader.discover(str(folder), "*_test.py", str(folder.parents[1]))
    result = unittest.TextTestRunner(sys.stdout).run(suite)
    failed = len({test.id() for test, _ in result.failures + result.errors})
    print(f"{result.testsRun - failed} passed, {failed} failed")
    return 1 if failed else 0


sys.exit(main())
