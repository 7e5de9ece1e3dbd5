"""Runs the tests of the files that are named, or all tests. The last line is 'N passed, M failed'."""

import sys
import unittest
from pathlib import Path


def main() -> int:
    """Runs the tests, and returns the status."""
    folder = Path(__file__).resolve().parent
    loader, names = unittest.defaultTestLoader, sys.argv[1:] or ["*_test.py"]
    suite = unittest.TestSuite(loader.discover(str(folder), name, str(folder.parent)) for name in names)
    result = unittest.TextTestRunner(sys.stdout).run(suite)
    failed = len({getattr(test, "test_case", test).id() for test, _ in result.failures + result.errors})
    for test, why in result.skipped:
        print(f"skipped: {test.id()}: {why}")
    print(f"{result.testsRun - len(result.skipped) - failed} passed, {failed} failed")
    return 1 if failed else 0


sys.exit(main())
