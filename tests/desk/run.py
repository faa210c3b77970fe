"""The tests of the desk's program: its sessions, and what they can't see. The last line is `N passed, M failed`.

Usage: run.py [--damage | --accept]. With --damage the sessions alone are run, every expectation spoiled, and none may agree; with --accept what is printed
and counted now is written down.
"""

from __future__ import annotations

import io
import pathlib
import sys
import unittest

import expected
import sessions

HERE = pathlib.Path(__file__).resolve().parent


def unit_tests() -> tuple[int, int]:
    """The tests in Python: how many passed and failed. Those that are passed over count as neither."""
    told = io.StringIO()
    result = unittest.TextTestRunner(stream=told).run(unittest.defaultTestLoader.discover(str(HERE)))
    failed = len(result.failures) + len(result.errors)
    if failed:
        print(told.getvalue())
    return result.testsRun - failed - len(result.skipped), failed


def main(words: list[str]) -> int:
    damage, accept = "--damage" in words, "--accept" in words
    passed, failed = sessions.run_all(damage, accept)
    if accept:
        expected.accept()
    if not damage:
        more_passed, more_failed = unit_tests()
        passed, failed = passed + more_passed, failed + more_failed
    print(f"{passed} passed, {failed} failed")
    return int(failed > 0 or passed == 0)


if __name__ == "__main__":
    sys.exit(main(sys.argv[1:]))
