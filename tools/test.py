#!/usr/bin/env python3
"""Runs the tests of the tools: each tool on stored inputs, its output compared with the stored one.

What needs the program runs it where it is built, or as the variable CODE_TABLES says; what needs GAP, GUAVA or Sage runs them where they are there.
The rest is skipped, and the last line counts what was tried and what was skipped, and why: `OK` is said only where nothing was. It takes less than
two minutes on an idle machine."""

import sys
import unittest
from collections import Counter
from pathlib import Path


def last_line(result):
    """How many tests were tried, passed and were skipped, with the reasons."""
    reasons = Counter(reason for _, reason in result.skipped)
    skipped, failed = reasons.total(), len(result.failures) + len(result.errors)
    told = f"{result.testsRun} tests: {failed} failed" if failed else f"{result.testsRun} tests: " + ("not all were tried" if skipped else "OK")
    return told + f", {skipped} skipped (" * bool(skipped) + ", ".join(f"{count}: {reason}" for reason, count in reasons.most_common()) + ")" * bool(skipped)


class Runner(unittest.TextTestRunner):
    """A runner whose last line counts what was skipped."""

    def run(self, test):
        result = super().run(test)
        print(last_line(result), file=sys.stderr)
        return result


if __name__ == "__main__":
    if sys.version_info < (3, 11):
        sys.exit("tools/test.py: Python 3.11 or later is needed, and this is %d.%d: nothing was tried" % sys.version_info[:2])
    unittest.main(module=None, testRunner=Runner, argv=[sys.argv[0], "discover", "-s", str(Path(__file__).resolve().parent / "tests"), *sys.argv[1:]])
