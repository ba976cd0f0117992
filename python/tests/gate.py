"""Run tests, and print 'N passed, M failed, K skipped' on the last line.

python3 tests/gate.py               the tests that need only numpy, without pytest
python3 tests/gate.py WORDS..       the tests that pytest finds with these words
"""

from __future__ import annotations

import pathlib
import sys
import unittest
from typing import Any

HERE = pathlib.Path(__file__).resolve().parent


class Counts:
    """A pytest plugin that counts passed, failed and skipped tests."""

    def __init__(self) -> None:
        self.passed, self.failed = 0, 0
        self.skipped: list[str] = []

    def pytest_collectreport(self, report: Any) -> None:
        """Count a file that cannot be imported, or is skipped completely."""
        self._count(report)

    def pytest_runtest_logreport(self, report: Any) -> None:
        """Count a test."""
        self._count(report)
        self.passed += report.when == "call" and report.passed

    def _count(self, report: Any) -> None:
        self.failed += report.failed
        if report.skipped:
            reason = report.longrepr[2] if isinstance(report.longrepr, tuple) else report.longrepr
            self.skipped.append(f"{report.nodeid}: {str(reason).removeprefix('Skipped: ')}")


def by_pytest(words: list[str]) -> Counts:
    """Run the tests that pytest finds."""
    import pytest

    counts = Counts()
    ended = pytest.main(["-q", "--no-header", "-p", "no:cacheprovider", *words], [counts])
    counts.failed += int(ended) not in (0, 1)
    return counts


def by_unittest() -> Counts:
    """Run the tests that need only numpy."""
    names = sorted(path.stem for path in HERE.glob("test_numpy_*.py"))
    suite = unittest.TestLoader().loadTestsFromNames([f"tests.{name}" for name in names])
    result = unittest.TextTestRunner(stream=sys.stdout, verbosity=0).run(suite)
    counts = Counts()
    counts.failed = len(result.failures) + len(result.errors)
    counts.skipped = [f"{test}: {reason}" for test, reason in result.skipped]
    counts.passed = max(result.testsRun - counts.failed - len(counts.skipped), 0)
    return counts


def main() -> int:
    sys.path.insert(0, str(HERE.parent))
    counts = by_pytest(sys.argv[1:]) if sys.argv[1:] else by_unittest()
    for told in counts.skipped:
        print(f"skipped  python: {told}")
    print(
        f"{counts.passed} passed, {counts.failed} failed, {len(counts.skipped)} skipped", flush=True
    )
    return 1 if counts.failed else 0


if __name__ == "__main__":
    sys.exit(main())
