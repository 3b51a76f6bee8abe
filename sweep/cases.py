"""Named cases of a sweep, which are those of unittest: which of them are run, some at once, and what is said of each."""

import os
import signal
import sys
import time
import unittest
from concurrent.futures import ThreadPoolExecutor, as_completed


def name_of(case):
    return ".".join(case.id().split(".")[-2:])


def chosen(part, modules, words):
    """The cases of the modules that the words name, by Class.name, name or Class, or all."""
    cases = []
    for module in modules:
        for group in unittest.defaultTestLoader.loadTestsFromModule(module):
            cases += [case for case in group if not words or set(words).intersection(
                {name_of(case), *name_of(case).split(".")})]
    unknown = [word for word in words if not any(word in (name_of(case), *name_of(case).split(".")) for case in cases)]
    if unknown:
        sys.exit(f"{part}: no such case: {' '.join(unknown)}")
    return cases


class Run:
    """The cases that are under way, and what came of the others."""

    def __init__(self, part, cases, is_timed):
        self.part, self.cases, self.is_timed = part, cases, is_timed
        self.begun, self.passed, self.failed, self.skipped = {}, 0, 0, 0

    def attempt(self, case):
        self.begun[case], result = time.monotonic(), unittest.TestResult()
        case.run(result)
        return case, result

    def all(self, at_once):
        with ThreadPoolExecutor(at_once) as threads:
            for done in as_completed([threads.submit(self.attempt, case) for case in self.cases]):
                self.note(*done.result())

    def note(self, case, result):
        """Counts a case, and says what went wrong, if something did."""
        wrong, seconds = result.failures + result.errors, time.monotonic() - self.begun.pop(case)
        for _, text in wrong[:3]:
            print(f"{self.part}: {name_of(case)}: {text}", file=sys.stderr)
        if wrong:
            self.failed += 1
            print(f"{self.part}: to run it again: sweep/{self.part} {name_of(case)}", file=sys.stderr)
        elif result.skipped:
            self.skipped += 1
            print(f"{self.part}: {name_of(case)} is skipped: {result.skipped[0][1]}")
        else:
            self.passed += 1
        if self.is_timed:
            print(f"{seconds:6.1f} s {name_of(case)}", flush=True)

    def last(self):
        print(f"{self.passed} passed, {self.failed} failed" + (f", {self.skipped} skipped" if self.skipped else ""),
              flush=True)
        return 1 if self.failed else 0

    def end_after(self, seconds, clear):
        """Ends a run that takes longer, or is stopped, and has what it has begun cleared away."""
        def end(*_):
            names = ", ".join(name_of(case) for case in self.begun)
            print(f"{self.part}: these took too long, or waited for others that did: {names}", file=sys.stderr)
            self.failed += len(self.cases) - self.passed - self.failed - self.skipped
            clear()
            os._exit(self.last())

        for number in signal.SIGALRM, signal.SIGTERM, signal.SIGINT:
            signal.signal(number, end)
        signal.alarm(seconds)
