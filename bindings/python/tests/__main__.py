"""python3 -m tests, in bindings/python: runs all tests, says which were not tried, and ends with 'N passed, M failed'."""

import sys
import unittest
from pathlib import Path

FOLDER = Path(__file__).resolve().parent


class Result(unittest.TextTestResult):
    """Counts what passed: testsRun has what was skipped in it in some releases of Python, and not in others."""

    passed = 0

    def addSuccess(self, test: unittest.TestCase) -> None:
        super().addSuccess(test)
        self.passed += 1


def main() -> int:
    suite = unittest.defaultTestLoader.discover(str(FOLDER), top_level_dir=str(FOLDER.parent))
    result = unittest.TextTestRunner(verbosity=0, stream=sys.stdout, resultclass=Result).run(suite)
    for test, reason in result.skipped:
        print(f"not tried: {test.id()}: {reason}")
    failed = len(result.failures) + len(result.errors) + len(result.unexpectedSuccesses)
    if result.passed + failed == 0:
        print("no test was found")
        failed = 1
    print(f"{result.passed} passed, {failed} failed")
    return 1 if failed else 0


if __name__ == "__main__":
    sys.exit(main())
