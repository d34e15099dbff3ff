"""Runs all tests, CPython's own of the codecs too, and ends with one line `N passed, N failed`."""

import importlib.util
import os
import sys
import unittest

HERE = os.path.dirname(os.path.abspath(__file__))
sys.path.insert(0, HERE)


def main() -> int:
    if not os.access(os.environ.get("ICONVD_PROGRAM", ""), os.X_OK):
        print("run.py: ICONVD_PROGRAM names no program: build iconvd first", file=sys.stderr)
        return 1
    suite = unittest.defaultTestLoader.discover(HERE, pattern="test_*.py")
    result = unittest.TextTestRunner(stream=sys.stdout, verbosity=1).run(suite)
    failed = len(result.failures) + len(result.errors)
    skipped = len(result.skipped)
    passed = result.testsRun - failed - skipped
    if importlib.util.find_spec("test.multibytecodec_support"):
        import cpython

        counts = cpython.run()
        passed, failed, skipped = passed + counts[0], failed + counts[1], skipped + counts[2]
    else:
        print("CPython's own tests cannot be run: Debian's libpython3.11-testsuite is not there")
        failed += 1
    print(f"{passed} passed, {failed} failed, {skipped} skipped")
    return 1 if failed else 0


if __name__ == "__main__":
    sys.exit(main())
