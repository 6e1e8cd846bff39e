#!/usr/bin/env python3
"""Runs the tests of the module and of the command, and says by name what was skipped, and why.

    python3 bindings/python/tests/run.py [TEST..]

The module is found as Python finds it. QORSHUDAN_CASES names a file of cases with the second program's answers (`cargo run --bin
answers` in comparison/), and QORSHUDAN_COMMAND the command, without which it is `python3 -m qorshudan`.
"""

import os
import sys
import unittest

sys.dont_write_bytecode = True


def main() -> int:
    here = os.path.dirname(os.path.abspath(__file__))
    sys.path.insert(0, here)
    loader = unittest.defaultTestLoader
    # A file that skips itself when it is loaded is told as skipped.
    tests = unittest.TestSuite(loader.discover(here, name + ".py") for name in sys.argv[1:] or ["test*"])
    result = unittest.TextTestRunner(verbosity=1).run(tests)
    for test, reason in result.skipped:
        print(f"skipped: {test.id().replace('unittest.loader.ModuleSkipped.', '')}: {reason}")
    if not result.testsRun:
        print("no test ran")
        return 1
    return 0 if result.wasSuccessful() else 1


if __name__ == "__main__":
    sys.exit(main())
