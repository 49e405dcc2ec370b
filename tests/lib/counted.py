# SPDX-License-Identifier: ISC
"""Runs the cases of a test, by `unittest` or by answers to lines, and counts them for the gate.

The last line is 'N passed, M failed', and ', K skipped' where something is missing. A test counts
once, however many of its subtests fail.
"""

import concurrent.futures
import io
import sys
import unittest


class Result(unittest.TextTestResult):
    """A result that counts tests, and not subtests."""

    def counts(self):
        """How many tests passed, failed and were skipped."""
        broken = {getattr(it, "test_case", it) for it, _ in [*self.failures, *self.errors]}
        skipped = {it for it, _ in self.skipped} - broken
        # What befalls a class before its tests is none of the tests that ran.
        others = [it for it in broken | skipped if isinstance(it, unittest.TestCase)]
        return self.testsRun - len(others), len(broken), len(skipped)


def suite(cases, names):
    """The tests of some classes, or those with one of these words in their names."""
    loader = unittest.TestLoader()
    loader.testNamePatterns = [f"*{name}*" for name in names] or None
    return unittest.TestSuite(loader.loadTestsFromTestCase(case) for case in cases)


def run(tests, stream):
    """Runs tests, and says on a stream how each went."""
    result = unittest.TextTestRunner(stream, verbosity=2, resultclass=Result).run(tests)
    for test, reason in result.skipped:
        what = test.shortDescription() or test.id()
        print(f"left out: {what.rstrip('.')}, without {reason}", file=stream)
    return result


def run_beside(beside, tests):
    """Runs tests, and beside them the ones that wait long; the counts of all."""
    said = io.StringIO()
    with concurrent.futures.ThreadPoolExecutor(1) as thread:
        waiting = thread.submit(run, beside, said)
        result = run(tests, sys.stdout)
        waited = waiting.result()
    print(said.getvalue(), flush=True)
    return [sum(each) for each in zip(result.counts(), waited.counts())]


def run_answered(cases):
    """Runs cases that give the lines that were answered wrongly, with their answers; the counts.

    Each case stands with the name of what is missing for it, which is empty where nothing is.
    """
    passed = failed = skipped = 0
    for case, missing in cases:
        if missing:
            print(f"left out: {case.__doc__.rstrip('.')}, without {missing}", flush=True)
            skipped += 1
            continue
        found = case()
        for line, answer in found[:3]:
            print(f"    {line[:300]}\n    was answered {answer[:300]}")
        print(f"{'FAILED' if found else 'ok'}: {case.__doc__}", flush=True)
        passed, failed = passed + (not found), failed + bool(found)
    return passed, failed, skipped


def report(passed, failed, skipped):
    """Prints the last line, and gives the status to end with."""
    print(f"{passed} passed, {failed} failed" + (f", {skipped} skipped" if skipped else ""))
    return failed != 0 or passed + skipped == 0
