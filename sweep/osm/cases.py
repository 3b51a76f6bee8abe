"""Cases by name, on unittest: `./test SWEEP -k NAME` runs those that have NAME in their names."""

import glob
import shlex
import sys
import unittest
from pathlib import Path

from osm.place import Place
from osm.program import Done, fault

SWEEP = Path(sys.argv[0]).name


def each(rows):
    """Makes a method a case for each row of a table: the name of the case and what the method is given."""
    def with_rows(method):
        method.rows = rows
        return method
    return with_rows


def by_words(rows):
    """Rows for `each` that are named by the words of the run, which stand first in each."""
    named = {name_of(words): (words, *rest) for words, *rest in rows}
    if len(named) != len(rows):
        raise ValueError("two rows have the same words")
    return named


def name_of(words):
    text = words if isinstance(words, str) else shlex.join(words)
    return text if text.isprintable() else ascii(text)[1:-1]


def of_row(method, given):
    return lambda self: method(self, *given)


class Case(unittest.TestCase):
    """A case, with a folder of its own if it asks for one."""

    maxDiff = 1000

    def __init_subclass__(cls):
        for name, method in list(vars(cls).items()):
            for row, given in getattr(method, "rows", {}).items():
                setattr(cls, f"{name}: {row}", of_row(method, given if isinstance(given, tuple) else (given,)))
            if hasattr(method, "rows"):
                delattr(cls, name)

    def place(self, files=None):
        place = Place()
        place.fill(files or {})
        return place

    def expect(self, place, words, out="", status=0, **options):
        """The run ends with that status, prints that and says nothing."""
        self.assertEqual(place.run(words, **options), Done(status, out), words)

    def says(self, place, words, line, status=3, **options):
        """The run has exactly that fault, with its cause, prints nothing, and leaves the files as they were."""
        before = place.files()
        self.assertEqual(place.run(words, **options), fault(line, status), words)
        self.assertEqual(place.files(), before, words)

    def refuse(self, place, words, text, status=3, cause=None, **options):
        """The run has that fault, with that cause or whatever its cause, prints nothing, and leaves the files as they
        were."""
        before, found = place.files(), place.run(words, **options)
        wanted = fault(text if cause is None else f"{text} ({cause})", status)
        self.assertEqual(found.plain() if cause is None else found, wanted, words)
        self.assertEqual(place.files(), before, words)


class FolderCase(Case):
    """A case of runs one after the other in a folder, which has the files of another place before."""

    @staticmethod
    def laid_out():
        return Place()

    def setUp(self):
        self.folder = self.place()
        self.folder.copy(self.laid_out())

    def prints(self, words, out="", status=0):
        self.expect(self.folder, words, out, status)

    def faulty(self, text, *runs, status=3, **options):
        """Each of the runs has that fault, whatever its cause, and leaves the files as they are."""
        for words in runs:
            self.refuse(self.folder, words, text, status, **options)

    def holds(self, name, data):
        """The file has these bytes; with None, it isn't there."""
        self.assertEqual(self.folder.read(name), data.encode() if isinstance(data, str) else data, name)


class Result(unittest.TextTestResult):
    """Says of each failing case the command that runs it again."""

    def __init__(self, *words, **options):
        super().__init__(*words, **options)
        self.failed = set()

    def addError(self, test, err):  # noqa: N802, a name of unittest
        super().addError(test, err)
        self.fail(test)

    def addFailure(self, test, err):  # noqa: N802
        super().addFailure(test, err)
        self.fail(test)

    def addSubTest(self, test, subtest, err):  # noqa: N802
        super().addSubTest(test, subtest, err)
        if err:
            self.fail(test)

    def fail(self, test):
        if test.id() not in self.failed:
            self.failed.add(test.id())
            name = glob.escape(test.id().partition(".")[2])
            self.stream.writeln(f"\nagain: ./test {SWEEP} -k {shlex.quote('*' + name)}")


class Runner(unittest.TextTestRunner):
    resultclass = Result


def main():
    """Runs the cases, and says last how many passed."""
    result = unittest.main(testRunner=Runner, exit=False, verbosity=0).result
    skipped, failed = len(result.skipped), len(result.failed)
    print(f"{max(0, result.testsRun - failed - skipped)} passed, {failed} failed" + (f", {skipped} skipped" if skipped else ""))
    sys.exit(bool(failed or result.testsRun == 0))
