"""Runs test cases with select's kqueue given by the client: cases.py RESULT NAME..

A NAME is that of a module, a class or a test, as unittest takes it. RESULT is a file for the counts, as JSON.
"""
import json
import sys
import unittest

import kqsim

kqsim.install()

try:
    from test import support
except ImportError:
    pass
else:
    # test_above_fd_setsize is one of those that take the processor long, and is run only where these are asked for
    support.use_resources = ["cpu"]


class Result(unittest.TextTestResult):
    passed = 0

    def addSuccess(self, test):
        super().addSuccess(test)
        self.passed += 1


def main():
    loader = unittest.TestLoader()
    suite = loader.loadTestsFromNames(sys.argv[2:])
    found = unittest.TextTestRunner(stream=sys.stdout, verbosity=2, resultclass=Result).run(suite)
    counts = {
        "passed": found.passed,
        "failed": [str(test) for test, _ in found.failures + found.errors],
        "skipped": [str(test) for test, _ in found.skipped],
    }
    with open(sys.argv[1], "w", encoding="utf-8") as file:
        json.dump(counts, file)


if __name__ == "__main__":
    main()
