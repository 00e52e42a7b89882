"""Runs tests, and prints as the last line 'N passed, M failed': for test_rowanspan.py and test_embedded.py."""
from __future__ import annotations

import sys
import unittest


def run_counted(tests: unittest.TestSuite) -> int:
    """Runs the tests; returns the status. A test that is skipped counts as neither; its reason is printed."""
    result = unittest.TextTestRunner(sys.stdout).run(tests)
    for _, reason in result.skipped:
        print(f"skipped: {reason}")
    failed = len(result.failures) + len(result.errors)
    print(f"{max(result.testsRun - failed - len(result.skipped), 0)} passed, {failed} failed")
    return 1 if failed else 0
