"""The history of a mirror as its runs tell it: parts without a gap, the gaps between them, and faults that stayed over
several runs. Moments are Unix seconds."""

import statistics
from dataclasses import dataclass
from datetime import datetime

from .runs import Run

# a time without runs counts as a gap from so many times the usual one on, and from so many seconds on
TIMES, LEAST = 3, 180


@dataclass(frozen=True)
class Timed:
    """A run, and when it began and ended."""

    run: Run
    begin: float
    end: float


@dataclass(frozen=True)
class Event:
    """A fault that some runs met, one after the other, or a time in which there was no run."""

    begin: float
    end: float
    runs: int
    fault: str | None = None


@dataclass(frozen=True)
class History:
    """Runs in parts, so that between two parts there is a gap. `pause` is how long there may be no run before that
    counts as one. If the mirror is quiet the last gap still goes on."""

    parts: list[list[Timed]]
    gaps: list[Event]
    faults: list[Event]
    pause: float
    is_quiet: bool

    @property
    def begin(self) -> float:
        return self.parts[0][0].begin


def history_of(runs: list[Run], now: datetime) -> History:
    timed = [Timed(run, begin, begin + run.seconds) for run in runs for begin in [run.at.timestamp()]]
    pause = pause_of(timed)
    parts = parts_of(timed, pause)
    gaps = [Event(before[-1].end, after[0].begin, 0) for before, after in zip(parts, parts[1:])]
    is_quiet = bool(timed) and now.timestamp() - timed[-1].end > pause
    if is_quiet:
        gaps.append(Event(timed[-1].end, now.timestamp(), 0))
    faults = [fault for part in parts for fault in faults_of(part)]
    return History(parts, gaps, faults, pause, is_quiet)


def pause_of(timed: list[Timed]) -> float:
    between = [max(0, after.begin - before.begin) for before, after in zip(timed, timed[1:])]
    return max(LEAST, TIMES * statistics.median(between)) if between else LEAST


def parts_of(timed: list[Timed], pause: float) -> list[list[Timed]]:
    """The runs, cut at each gap."""
    parts: list[list[Timed]] = []
    for one in timed:
        if not parts or one.begin - parts[-1][-1].end > pause:
            parts.append([])
        parts[-1].append(one)
    return parts


def faults_of(part: list[Timed]) -> list[Event]:
    """The faults of a part: runs one after the other with the same one are one event."""
    found: list[Event] = []
    before = None
    for one in part:
        fault = one.run.fault
        if fault is not None and fault == before:
            found[-1] = Event(found[-1].begin, one.end, found[-1].runs + 1, fault)
        elif fault is not None:
            found.append(Event(one.begin, one.end, 1, fault))
        before = fault
    return found
