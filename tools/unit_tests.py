#!/usr/bin/env python3
"""Runs the unit tests in the files test_*.py of a folder, or those of one of its files, or of these the ones with a name. The
last line is `N passed, M failed`, with `, K skipped` if tests are skipped. Of a folder a line before it has the seconds of processors
that each file took. SFI in the environment is the program, that of crates/sfi if absent.

    [SFI=PATH] tools/unit_tests.py FOLDER [FILE [NAME]..]
"""
import os
import sys
import unittest

sys.dont_write_bytecode = True


class Files(unittest.TestSuite):
    """The tests of files, each of which is a suite, and what each took."""

    def __init__(self, tests):
        super().__init__(tests)
        self.took = []

    def __iter__(self):
        for file in super().__iter__():
            name, before = f"{next(iter_tests(file), file).__module__}.py", sum(os.times()[:4])
            yield file
            self.took.append((round(sum(os.times()[:4]) - before), name))

    def told(self):
        return ", ".join(f"{name} {seconds}" for seconds, name in sorted(self.took, reverse=True) if seconds)


def iter_tests(suite):
    """All tests of a suite."""
    for it in suite:
        yield from iter_tests(it) if isinstance(it, unittest.TestSuite) else (it,)


def tests_in(reports):
    """The tests that ran and of which, or of a part of which, these tell: not what makes a class ready."""
    tests = {getattr(test, "test_case", test) for test, _ in reports}
    return {it for it in tests if isinstance(it, unittest.TestCase)}


def main(folder, pattern="test_*.py", *names):
    loader = unittest.TestLoader()
    loader.testNamePatterns = [f"*.{it}" for it in names] or None
    files = Files(it for it in loader.discover(folder, pattern) if it.countTestCases())
    result = unittest.TextTestRunner(stream=sys.stdout).run(files)
    failed = len(result.failures) + len(result.errors) + len(result.unexpectedSuccesses)
    skipped = len(result.skipped)
    for test, why in result.skipped:
        print(f"skipped: {test.id()}: {why}")
    passed = result.testsRun - len(tests_in([*result.failures, *result.errors, *result.skipped])) - len(result.unexpectedSuccesses)
    if len(files.took) > 1:
        print(f"seconds of processors: {files.told()}")
    print(f"{passed} passed, {failed} failed" + (f", {skipped} skipped" if skipped else ""))
    return 1 if failed else 0


if __name__ == "__main__":
    sys.exit(main(*sys.argv[1:]))
