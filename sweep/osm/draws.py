"""Examples that Hypothesis draws, and makes smaller if one fails. They come in rounds. Each round is a case with its
own seed, so that it always has the same examples. OSMREPL_MORE=N in the environment asks for N times as many rounds."""

import multiprocessing
import os
import sys
import traceback
from collections import Counter
from concurrent.futures import ProcessPoolExecutor
from functools import cached_property
from random import Random

from osm import program
from osm.cases import each

try:
    from hypothesis import HealthCheck, Phase, Verbosity, given, seed, settings, strategies
except ImportError:
    given = None

# What a process of rounds tries, by the number of a round.
try_round = None


class Draws:
    """Makes one example. The first choice and the least number are the simplest ones."""

    def __init__(self, draw, random):
        self.draw, self.bits = draw, random.getrandbits

    def seeded(self):
        """Draws of one seed, in hardly any time: for what needn't become smaller part by part."""
        return Draws(None, Random(self.number(0, 65_535)))

    def number(self, least, most):
        count = most - least + 1
        return least + self.bits(count.bit_length() + 4) % count

    def pick(self, *choices):
        return choices[self.number(0, len(choices) - 1)]

    def is_one_in(self, count):
        """Whether something comes that comes so seldom."""
        return self.number(0, count - 1) == count - 1

    def sample(self, choices, count):
        """So many of them, none twice."""
        rest = list(choices)
        return [rest.pop(self.number(0, len(rest) - 1)) for _ in range(count)]

    def left(self, parts):
        """Those parts, of which one is seldom left out: but to make the example smaller, any is."""
        return [part for part in parts if self.bits(8)]

    def some(self, make, average, most, least=0):
        """A list of what is made, so many on average, of which each can be left out to make the example smaller."""
        made = []
        while len(made) < most:
            one = self.part(lambda: [make()] if len(made) < least or self.number(0, average) else [])
            if not one:
                break
            made += one
        return made

    def part(self, make):
        """What is made of draws that belong together."""
        return self.draw(strategies.just(None).map(lambda _: make()))


class Rounds:
    """The rounds of a case, some at once if there are processors."""

    def __init__(self, make, judge, count, examples):
        self.make, self.judge, self.examples = make, judge, examples
        self.numbers, self.jobs = range(1, count * program.MORE + 1), {}

    def try_round(self, case, number):
        """Which kinds of outcome came in a round, and how the smallest example failed, if one did."""
        kinds, tried = Counter(), []

        @seed(number)
        @settings(max_examples=self.examples, database=None, deadline=None, phases=[Phase.generate, Phase.shrink],
                  report_multiple_bugs=False, suppress_health_check=list(HealthCheck), verbosity=Verbosity.quiet)
        # these bits come in a third of the time that `strategies.integers` takes
        @given(strategies.composite(lambda draw: self.make(Draws(draw, draw(strategies.randoms(use_true_random=False)))))())
        def judged(example):
            tried[:] = [tried[0] + 1 if tried else 1, example]
            kinds.update(self.judge(case, example) or ())

        try:
            judged()
        except Exception as error:  # the last one that was tried is the smallest
            text = "".join(traceback.format_exception(error, limit=-2))
            return kinds, f"\n{tried[1]}\n{text}the smallest of {tried[0]} examples that were tried"
        return kinds, None

    @cached_property
    def pool(self):
        # the folders of the whole run are this process's
        program.memory(), program.room()
        return ProcessPoolExecutor(os.cpu_count(), multiprocessing.get_context("fork"), enter, (self,))

    def tried(self, case, number):
        """The same, of a round that may be under way. All are begun at once, unless cases are chosen by name."""
        self.case = case
        for due in [number] if "-k" in sys.argv else self.numbers:
            if due not in self.jobs:
                self.jobs[due] = self.pool.submit(call, due)
        return self.jobs[number].result()


def enter(rounds):
    global try_round
    try_round = lambda number: rounds.try_round(rounds.case, number)  # noqa: E731


def call(number):
    return try_round(number)


def drawn(make, rounds, examples, wanted=(), kept=None):
    """Makes a method cases that judge examples: rounds of so many that are made by draws, and those that are kept by name.
    The method may say which kinds of outcome came. One more case fails if one that is wanted never did, or fewer times than
    a dictionary of them says."""
    def with_rounds(judge):
        table = Rounds(make, judge, rounds, examples)

        def of_row(self, number, example):
            if example is not None:
                judge(self, example)
            elif given is None:
                self.skipTest("python3-hypothesis isn't installed")
            elif number:
                failed = table.tried(self, number)[1]
                if failed:
                    self.fail(failed)
            else:
                came = sum((table.tried(self, n)[0] for n in table.numbers), Counter())
                self.assertEqual(Counter(wanted) - came, Counter(), "so much more has to come in the rounds")

        rows = {name: (None, example) for name, example in (kept or {}).items()}
        rows |= {f"round {number}": (number, None) for number in table.numbers}
        return each(rows | ({"every kind came": (None, None)} if wanted else {}))(of_row)
    return with_rounds
