"""Runs of `osmrepl follow` beside the downloads."""

import contextlib
import re
import subprocess
import time
from collections import deque
from pathlib import Path

from .faults import BUSY, Fault
from .fetcher import Listener
from .files import writing
from .output import LOG
from .program import TICK, Program, Run
from .progress import Progress
from .source import Source

EVERY = 5
# How many bytes of new changes a run is given, as far as they are known: it holds what they changed.
MOST_BYTES = 7 << 20
# how long a run may go on after a signal
PATIENCE = 20


class Follower(Listener):
    """Follows a folder: one run at a time, not more often than every five seconds unless there is a full run's work,
    and once more at the end."""

    def __init__(self, program: Program, source: Source, save: Path, room: Path, number: int) -> None:
        self.words = ["follow", "--quiet", "--kinds", source.kinds]
        self.names = [source.folder, save, *source.keys]
        self.program, self.files = program, (room / "follow.out", room / "follow.err")
        self.child: subprocess.Popen | None = None
        self.due = 0.0
        # where the save is, and what was put in the folder since: the last numbers of lots and their bytes
        self.number, self.waiting = number, deque[tuple[int, int]]()
        self.faults: list[str] = []
        self.missing: list[int] = []
        self.is_busy = False

    def placed(self, number: int, size: int) -> None:
        self.waiting.append((number, size))
        self.tick()

    def tick(self) -> None:
        """Begins a run if it is time for one and there is something to follow. A fault of the run before is raised,
        since the next would have it too."""
        if self.child and self.child.poll() is None:
            return
        self.finish()
        if self.faults:
            raise Fault("; ".join(self.faults))
        if not self.waiting or self.waiting[-1][0] <= self.number:
            return
        # a run that has as much as it may have needn't wait: one more is made in any case
        limit = self.limit()
        if limit or time.monotonic() >= self.due:
            # more lots come while it works
            self.begin(limit or self.limit_of(self.waiting[-1][0]))

    def limit(self) -> list[str]:
        """The words that bound a run to lots of so many bytes, at least one; none if that is all there is."""
        while self.waiting and self.waiting[0][0] <= self.number:
            self.waiting.popleft()
        last, sum_of = None, 0
        for number, size in self.waiting:
            sum_of += size
            if last is not None and sum_of > MOST_BYTES:
                return self.limit_of(last)
            last = number
        return []

    def limit_of(self, last: int) -> list[str]:
        return ["--limit", str(last - self.number)]

    def begin(self, limit: list[str]) -> None:
        self.due = time.monotonic() + EVERY
        output, errors = self.files
        with writing(output), open(output, "wb") as out, open(errors, "wb") as said:
            self.child = self.program.begin(*self.words, *limit, "--", *self.names, output=out, errors=said)

    def finish(self, patience: float | None = None) -> None:
        """Waits for the run that is under way, at most so long, and takes note of what it said."""
        if self.child is None:
            return
        is_cut = not self.wait(patience)
        if is_cut:
            self.child.terminate()
        status = self.child.wait()
        self.child = None
        output, errors = map(self.said, self.files)
        run = Run(status, output, errors)
        self.missing, self.is_busy = run.missing(), status == BUSY
        self.faults = [] if is_cut or status == BUSY else run.faults()
        before, self.number = self.number, max(self.number, reached(run.output))
        if self.number > before:
            LOG.info("followed to %d", self.number)

    def wait(self, patience: float | None) -> bool:
        """Waits for the end of the run that is under way, and shows how far it is. False if that takes too long."""
        end = time.monotonic() + patience if patience else None
        with Progress("followed to") as progress:
            while self.child.poll() is None:
                if end and time.monotonic() > end:
                    return False
                with contextlib.suppress(subprocess.TimeoutExpired):
                    self.child.wait(TICK)
                progress.what = f"followed to {max(self.number, reached(self.said(self.files[0])))}"
        return True

    @staticmethod
    def said(file: Path) -> str:
        return file.read_bytes().decode("utf-8", "replace")

    def last(self, most: int | None) -> None:
        """The runs after all is brought, up to a number if there is one that they may not pass."""
        self.finish()
        before = -1
        while not self.faults and not self.is_busy and (limit := self.limit()) and self.number > before:
            before = self.number
            self.begin(limit)
            self.finish()
        if not self.faults and (most is None or most > self.number):
            self.begin([] if most is None else self.limit_of(most))
            self.finish()

    def end(self) -> None:
        """After a signal: waits a while for the run that is under way, and begins no other."""
        self.finish(PATIENCE)
        # a signal to the group of processes ended it too
        self.faults = [line for line in self.faults if not line.startswith("osmrepl: status -")]


def reached(output: str) -> int:
    """The last number that a run of the follower printed."""
    found = re.findall(r"^(?:number |applied \d+\.\.)(\d+)$", output, re.MULTILINE)
    return int(found[-1]) if found else 0
