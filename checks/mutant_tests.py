#!/usr/bin/env python3
"""Runs tests in a copy of the repository for `mutants`, at the top of the folder with the tests:
mutant_tests.py RESULT SEEN NAME..

A name is a module's or a test's. With a folder SEEN all are run, and what each test runs of the
instrumented files is written there (seen_lines.py). Without (`-`) the first that fails is the end.
RESULT gets a line for each test: how it ended, its seconds of a processor and its name."""

from __future__ import annotations

import os
import sys
import unittest
from pathlib import Path
from typing import Iterator


def each_of(tests: unittest.TestSuite) -> Iterator[unittest.TestCase]:
    for test in tests:
        if isinstance(test, unittest.TestSuite):
            yield from each_of(test)
        else:
            yield test


def processor_seconds() -> float:
    """What this process took, with all that it has started. The time of day says more of the other
    work on the machine."""
    return sum(os.times()[:4])


class Watched(unittest.TestResult):
    """Writes how each test ended, and says to what is instrumented which test is running."""

    def __init__(self, result: Path, seen: Path | None) -> None:
        super().__init__()
        self.result, self.seen = result.open("a"), seen
        self.failfast = seen is None
        self.begun, self.number = 0.0, 0

    def startTest(self, test: unittest.TestCase) -> None:
        super().startTest(test)
        self.number += 1
        self.begun = processor_seconds()
        if self.seen:
            say_current(self.seen, self.number)

    def tell(self, how: str, test: unittest.TestCase, seconds: float) -> None:
        print(how, f"{seconds:.3f}", test.id(), sep="\t", file=self.result, flush=True)

    def stopTest(self, test: unittest.TestCase) -> None:
        failed = any(
            case is test or getattr(case, "test_case", None) is test
            for case, _ in (*self.failures, *self.errors)
        )
        skipped = any(case is test for case, _ in self.skipped)
        self.tell(
            "failed" if failed else "skipped" if skipped else "passed", test,
            processor_seconds() - self.begun,
        )
        super().stopTest(test)


def say_current(seen: Path, number: int) -> None:
    """From now on what is run belongs to this test."""
    (seen / "current").write_text(str(number))
    tracer = sys.modules.get("kistalub_tracer")
    if tracer:
        tracer.forget()  # type: ignore[attr-defined]


def main() -> None:
    result, seen, names = Path(sys.argv[1]), sys.argv[2], sys.argv[3:]
    sys.path.insert(0, "")
    if seen != "-":
        say_current(Path(seen), 0)
    tests = unittest.TestSuite(each_of(unittest.defaultTestLoader.loadTestsFromNames(names)))
    watched = Watched(result, None if seen == "-" else Path(seen))
    tests.run(watched)
    sys.exit(0 if watched.wasSuccessful() and watched.testsRun else 1)


if __name__ == "__main__":
    main()
