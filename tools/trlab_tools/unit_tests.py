"""Tests that `unittest` runs, and their count."""
import sys
import unittest
from collections.abc import Iterable
from types import ModuleType

from .command import Count


def of_modules(modules: Iterable[ModuleType]) -> unittest.TestSuite:
    """The tests of modules."""
    return unittest.TestSuite(map(unittest.defaultTestLoader.loadTestsFromModule, modules))


def run(tests: unittest.TestSuite) -> unittest.TestResult:
    """Run tests, and print the failures."""
    return unittest.TextTestRunner(stream=sys.stdout, verbosity=0).run(tests)


def count_of(result: unittest.TestResult) -> Count:
    """How many tests passed, failed and were skipped. Failures in parts of a test, in a `subTest`, count as one failure."""
    failed = {getattr(test, "test_case", test).id() for test, _ in result.failures + result.errors}
    count = Count()
    count.failed, count.skipped = len(failed), len(result.skipped)
    count.passed = result.testsRun - count.failed - count.skipped
    return count
