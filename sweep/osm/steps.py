"""Cases of runs over a few small files. How each run ends, what it prints and says, and all files afterwards are
compared byte by byte.

A case is a list of steps: files that are written (None removes one), and runs over what is there. For some runs the
case says how many calls of the store they make, or which call fails. Each expected value is also tried with one thing
wrong: the status, a byte of a text or a file, a file more or less, the number of calls, the order of faults. Each of
these has to be complained of."""

from itertools import count
from typing import NamedTuple

from osm.cases import Case, each
from osm.place import Place
from osm.program import Done, faulty


class Run(NamedTuple):
    """The words of a run, and what it has to do. The files that aren't in `written` stay as they were, and None stands for
    one that isn't there. If `calls` is given, the run makes exactly so many calls of the store: it does the same over a
    store that fails after these, and not over one that fails one call earlier. If `after` is given, the store fails after
    so many calls."""

    words: list
    done: Done
    written: dict
    calls: int | None = None
    after: int | None = None
    given: bytes = b""

    def saying(self, text):
        return self._replace(done=self.done._replace(said=text))

    def also(self, out, written):
        """The same run, if it prints that first and writes that."""
        return self._replace(done=self.done._replace(out=out), written=written)


class InTurn(NamedTuple):
    """A run of which each call of the store fails in turn, alone and with all later ones. It ends with these faults, which
    come first in this order if one call fails alone, and changes no file but those in `first`, which it writes before
    others, and leaves so at least once; what it says then isn't said again. The same words then do their work."""

    run: Run
    faults: list
    first: dict = {}


class Meanwhile(NamedTuple):
    """A run during which another program replaces these files, one after the other, all of them or the first one, before
    each of its calls in turn. It ends as one of these runs does, each of which has to be seen, and writes nothing else."""

    files: dict
    runs: list


def prints(words, text, written={}, status=0, **more):
    return Run(words.split(" ") if isinstance(words, str) else words, Done(status, text), written, **more)


def fails(words, text, written={}, status=3, output="", **more):
    return prints(words, output, written, status, **more).saying(f"osmrepl: {text}\n")


def with_files(files, changed):
    """The files after some were written and some, for which None stands, removed."""
    return {name: content for name, content in {**files, **changed}.items() if content is not None}


def shortened(value):
    text = repr(value[:400] if isinstance(value, (bytes, str)) else value)
    return text if len(text) < 400 else f"{text[:400]}.."


def complaint(run, files, found):
    """What is wrong with how a run over the files ended, and with the files after it; None if nothing is."""
    due, (done, left) = with_files(files, run.written), found
    for what, one, wanted in (("the status", done.status, run.done.status), ("the output", done.out, run.done.out),
                              ("what is said", done.said, run.done.said), ("which files are there", sorted(left), sorted(due)),
                              *((name, left.get(name), due[name]) for name in due)):
        if one != wanted:
            return f"{what}: {shortened(one)}, which should be {shortened(wanted)}"
    return None


def other_letter(text):
    """The text with another first letter."""
    return chr(ord(text[0]) ^ 1) + text[1:]


def wrong_ones(run, files):
    """The run with one wrong expectation each: of the status, a byte of a text or a file, a file more or less."""
    yield run._replace(done=run.done._replace(status=run.done.status + 1))
    for name in ("out", "said"):
        text = getattr(run.done, name)
        for other in (text + "x", other_letter(text)) if text else (text + "x",):
            yield run._replace(done=run.done._replace(**{name: other}))
    for name, content in with_files(files, run.written).items():
        for other in (None, content + b"\0", bytes([content[0] ^ 1]) + content[1:] if content else b"x"):
            yield run._replace(written={**run.written, name: other})
    yield run._replace(written={**run.written, "other": b""})


def wrong_calls(step):
    """The step with another number of calls, another order of its faults, or another run."""
    if isinstance(step, InTurn):
        for faults in (step.faults[1:], step.faults[::-1], [*step.faults, "never"]):
            yield step._replace(faults=faults)
        yield step._replace(first={} if step.first else {"other": b""})
    elif isinstance(step, Meanwhile):
        never = step.runs[0]._replace(done=step.runs[0].done._replace(status=9))
        for runs in (step.runs[1:], step.runs[:-1], [*step.runs, never]):
            yield step._replace(runs=runs)
    elif step.calls:
        for calls in (step.calls - 1, step.calls + 1):
            yield step._replace(calls=calls)


class Steps(Case):
    """Cases that functions make, each with its name and its steps."""

    made_by = ()

    def __init_subclass__(cls):
        for make in cls.made_by:
            cases = list(make())
            if len(dict(cases)) < len(cases):
                raise ValueError(f"two cases of {make.__name__} have one name")
            setattr(cls, f"test_{make.__name__}", each(dict(cases))(lambda self, steps: self.try_all(steps)))
        super().__init_subclass__()

    @classmethod
    def setUpClass(cls):
        cls.folder = Place()

    def try_all(self, steps):
        files = {}
        self.folder.fill(files)
        for step in steps:
            if isinstance(step, dict):
                files = with_files(files, step)
                self.folder.fill(files)
            else:
                after = self.try_step(step, files)
                for wrong in wrong_calls(step):
                    self.folder.fill(files)
                    self.complain(wrong, files)
                    self.folder.fill(after)
                files = after

    def try_step(self, step, files):
        """Tries a run over the files, and gives the files after it."""
        if isinstance(step, Meanwhile):
            self.try_meanwhile(step, files)
            return with_files(files, step.files)
        if isinstance(step, InTurn):
            self.try_in_turn(step, files)
            return with_files(files, step.run.written)
        self.try_run(step, files)
        return with_files(files, step.written)

    def complain(self, wrong, files):
        try:
            self.try_step(wrong, files)
        except AssertionError:
            return
        self.fail(f"no complaint of {shortened(wrong)}")

    def result(self, run, calls=None, what="on"):
        """How the run ends over a store of which something comes after so many calls, and the files then."""
        env = {} if calls is None else faulty("store", calls + 1, what)
        return self.folder.run(run.words, given=run.given, env=env).plain(), self.folder.files()

    def judge(self, run, files, found):
        text = complaint(run, files, found)
        if text:
            self.fail(f"{' '.join(run.words)}: {text}")
        for wrong in wrong_ones(run, files):
            if complaint(wrong, files, found) is None:
                self.fail(f"no complaint of {shortened(wrong)}")

    def try_run(self, run, files):
        if run.calls:
            done, _ = self.result(run, run.calls - 1)
            self.assertTrue(done.status == 3 and done.said.endswith(" failed\n"), f"{run.words}: fewer calls, {done}")
            self.folder.fill(files)
        self.judge(run, files, self.result(run, run.after if run.calls is None else run.calls))

    def try_in_turn(self, step, files):
        run, first = step.run, step.first
        between, is_between = with_files(files, first), False
        for what in ("fail", "on"):
            told = []
            for calls in count():
                self.folder.fill(files)
                found = done, left = self.result(run, calls, what)
                if (done.status, done.said) == (run.done.status, run.done.said):
                    break
                text = done.said.removeprefix("osmrepl: ").removesuffix("\n")
                self.assertIn(text, step.faults, f"{run.words}, {what} after {calls} calls")
                told.append(text)
                written = first if left == between else {}
                is_between = is_between or bool(written)
                self.judge(fails(run.words, text, written), files, found)
                self.judge(run.saying("") if "save.journal" in written else run, files, self.result(run))
            self.judge(run, files, found)
            if what == "fail":
                self.assertEqual(list(dict.fromkeys(told)), step.faults, run.words)
        self.assertEqual(is_between, bool(first), f"{run.words}: which fault left {shortened(first)}")

    def try_meanwhile(self, step, files):
        """The first of the files is replaced at each call, and so are all of them; and after the first one all others."""
        seen, run = set(), step.runs[0]
        for number in range(1, len(step.files) + 1):
            begin = dict(list(step.files.items())[:number - 1])
            for names in {tuple(step.files)[number - 1:], tuple(step.files)[number - 1:number]}:
                new = {f"new.{name}": step.files[name] for name in names}
                for calls in count():
                    self.folder.fill({**files, **begin, **new})
                    found = self.result(run, calls, " ".join(f"new.{name} {name}" for name in names))
                    if any(name in found[1] for name in new):
                        break
                    due = with_files(files, {**begin, **{name: step.files[name] for name in names}})
                    ends = [index for index, end in enumerate(step.runs) if complaint(end, due, found) is None]
                    self.assertTrue(ends, f"{run.words}, {names} replaced after {calls} calls: {shortened(found[0])}")
                    seen.add(ends[0])
        self.assertEqual(seen, set(range(len(step.runs))), f"{run.words}: which of the ends were seen")
