#!/usr/bin/env python3
"""Runs tools/klvjob as a user would and checks what it does. The last line is `N passed, M failed`.

    tests/tools.py              the cases of tests/klvjob/test_*.py; needs Python 3.8 or later and nothing else
    tests/tools.py --program    those of tests/klvjob/program_*.py, which hold the tool to the program that
                                PERLENHUF_PROGRAM names

KLVJOB_SEED sets the seed of the random ones.
"""

import os
import sys
import unittest

sys.dont_write_bytecode = True
HERE = os.path.dirname(os.path.abspath(__file__))
sys.path[:0] = [os.path.join(HERE, "klvjob"), os.path.join(HERE, "..", "tools")]


def main() -> int:
    pattern = "program_*.py" if "--program" in sys.argv[1:] else "test_*.py"
    suite = unittest.defaultTestLoader.discover(os.path.join(HERE, "klvjob"), pattern=pattern)
    result = unittest.TextTestRunner(stream=sys.stderr, verbosity=1).run(suite)
    failed = len({test.id().split(" ")[0] for test, _ in result.failures + result.errors})
    passed = result.testsRun - failed
    print(f"tools/klvjob: {passed} passed, {failed} failed")
    return 0 if failed == 0 and passed > 0 and not result.skipped else 1


if __name__ == "__main__":
    sys.exit(main())
