"""Runs a suite of tests: those in the files test_*.py of a folder. Each script of tests/ that does this calls `main`."""
import os
import sys
import unittest
from argparse import Namespace
from typing import Callable, List, NoReturn

from . import tool


def run(folder: str, names: List[str]) -> int:
    """Runs the tests of a folder, or those whose names (FILE.CLASS.TEST) contain one of these. The last line is 'N passed, M
    failed', with ', K left out' if some were."""
    loader = unittest.TestLoader()
    loader.testNamePatterns = [f"*{name}*" for name in names] or None
    result = unittest.TextTestRunner(stream=sys.stdout, verbosity=1).run(loader.discover(folder))
    for test, why in result.skipped:
        print(f"left out: {test} ({why})")
    failed = len({str(test).split(" [")[0].split(" (")[0] for test, _ in result.failures + result.errors})
    left_out = f", {len(result.skipped)} left out" if result.skipped else ""
    print(f"{result.testsRun - failed - len(result.skipped)} passed, {failed} failed{left_out}")
    return tool.RIGHT if result.wasSuccessful() and result.testsRun else tool.WRONG


def main(docstring: str, folder: str = "", missing: Callable[[], str] = str) -> NoReturn:
    """Runs the tests beside this script, or those in a folder there. If something that all of them need is missing, `missing`
    returns what it is, and they are left out."""
    def run_named(given: Namespace) -> int:
        cause = missing()
        if cause:
            print(f"left out: {cause}\n0 passed, 0 failed, 1 left out")
            return tool.RIGHT
        return run(os.path.join(os.path.dirname(os.path.realpath(sys.argv[0])), folder), given.names)

    words = tool.Words(docstring)
    words.add_argument("names", nargs="*")
    tool.run(words, run_named)
