"""Runs all tests of the package, or those of the modules that are named.  Prints `plan N`, which is how many there are, and then
a line `ok ..`, `FAILED: ..` or `SKIPPED: ..` for each.  With the variable GIVE_UP it ends behind the first that fails.

    run.py [MODULE..]
"""

import os
import sys
import unittest

import support  # noqa: F401


class Result(unittest.TestResult):
    """Says how each test went."""

    def addSuccess(self, test) -> None:
        super().addSuccess(test)
        print(f"ok {test.id()}", flush=True)

    def addSkip(self, test, reason) -> None:
        super().addSkip(test, reason)
        print(f"SKIPPED: {test.id()}: {reason}", flush=True)

    def addFailure(self, test, error) -> None:
        super().addFailure(test, error)
        self.say(test, error)

    def addError(self, test, error) -> None:
        super().addError(test, error)
        self.say(test, error)

    def addSubTest(self, test, subtest, error) -> None:
        super().addSubTest(test, subtest, error)
        if error is not None:
            self.say(subtest, error)

    def say(self, test, error) -> None:
        text = self._exc_info_to_string(error, test)
        print(f"FAILED: {test.id()}: {' | '.join(text.splitlines())[-900:]}", flush=True)


def main(modules: list[str]) -> int:
    loader, result = unittest.defaultTestLoader, Result()
    result.failfast = "GIVE_UP" in os.environ
    tests = loader.loadTestsFromNames(modules) if modules else loader.discover(str(support.TESTS))
    print(f"plan {tests.countTestCases()}", flush=True)
    tests.run(result)
    return 0 if result.wasSuccessful() else 1


if __name__ == "__main__":
    sys.exit(main(sys.argv[1:]))
