#!/usr/bin/env python3
"""Runs the built program over files and lines, and compares what it prints and its status with what the documents say.

    tests/run.py [MODULE ..]        such as test_keys; all of this folder unless some are named

The program is crates/uca/out/uca, which `rt ci` and tools/build.py make, or what the environment variable UCA names. It needs
python3 alone. `test_refusals` needs a C compiler too, and `test_header` that and the libraries for C, which `rt ci` proves and does not keep, as
tools/build.py does. Without these a line says what was not run. The last line is `N passed, M failed`, without what was not run.
"""
import os
import sys
import unittest

HERE = os.path.dirname(os.path.realpath(__file__))


def main(names):
    sys.path.insert(0, HERE)
    import program

    if not os.access(program.UCA, os.X_OK):
        print(f"there is no program {program.UCA}: make it by tools/build.py")
        print("0 passed, 1 failed")
        return 1
    loader = unittest.TestLoader()
    suite = loader.loadTestsFromNames(names) if names else loader.discover(HERE)
    result = unittest.TextTestRunner(stream=sys.stdout, verbosity=0).run(suite)
    tests_that_failed = {getattr(test, "test_case", test) for test, _ in [*result.failures, *result.errors]}
    for test, why in result.skipped:
        print(f"not run, since {why}: {test}")
    # where no test is found, that is a failure
    failed = len(tests_that_failed) + (result.testsRun == 0)
    print(f"{max(result.testsRun - failed - len(result.skipped), 0)} passed, {failed} failed")
    return 1 if failed else 0


if __name__ == "__main__":
    sys.exit(main(sys.argv[1:]))
