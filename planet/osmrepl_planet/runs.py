"""SAVE.runs: what came of each run of mirror, a line of JSON each. It is appended to, and replaced as a whole by its
newest lines once it is full. What a kill has cut is no line, and is left out by whoever reads."""

import json
import math
import os
from collections.abc import Iterable, Iterator
from dataclasses import dataclass, replace
from datetime import datetime
from pathlib import Path

from . import files, locks, state
from .state import time_text

# how many lines there are at most, and how many of them stay then: those of 52 days, if a run is made each minute
MOST = 100_000
KEPT = 75_000
# no line that is written is shorter, in bytes
LEAST_LINE = 100
MOST_FAULT = 1000
MOST_NUMBER = 1 << 53
# how much of the end is read first
TAIL = 1 << 16
# how long another run may hold the file, in seconds
PATIENCE = 5


@dataclass(frozen=True)
class Run:
    """A run: when it began and how long it took, the numbers that it took if there are any, where the mirror is after
    it and how old it is by the clock, how old it may be, the server's newest number, the status, and what went wrong,
    said or not. `runs` and `faults` count this run, all before it, and those of them with a fault."""

    at: datetime
    seconds: float
    first: int | None = None
    last: int | None = None
    number: int | None = None
    time: datetime | None = None
    lag: int | None = None
    most_lag: int | None = None
    server: int | None = None
    status: int = 0
    fault: str | None = None
    runs: int = 1
    faults: int = 0

    @property
    def failed(self) -> bool:
        """Whether its status asks for a person. A signal that ended it doesn't."""
        return 0 < self.status < 128

    def values(self) -> dict:
        """What JSON has of it."""
        time = self.time and time_text(self.time)
        return {**vars(self), "at": time_text(self.at), "time": time, "seconds": round(self.seconds, 3)}

    @property
    def line(self) -> bytes:
        return json.dumps(self.values(), separators=(",", ":"), sort_keys=True).encode() + b"\n"


def path_of(save: Path) -> Path:
    return files.beside(save, "runs")


def read_line(line: bytes) -> Run | None:
    """The run of a line, or None if it is none."""
    try:
        values = json.loads(line)
        if set(values) != set(Run.__dataclass_fields__):
            return None
        numbers = {word: count_of(values[word]) for word in ("first", "last", "number", "lag", "most_lag", "server")}
        counts = {word: int(count_of(values[word])) for word in ("status", "runs", "faults")}
        seconds, fault = values["seconds"], values["fault"]
        at, time = state.read_time(values["at"]), values["time"] and state.read_time(values["time"])
        is_right = at is not None and 0 <= seconds < math.inf and isinstance(fault, str | None)
    except (ValueError, TypeError, RecursionError):
        return None
    return Run(at=at, time=time, seconds=seconds, fault=fault, **numbers, **counts) if is_right else None


def count_of(value: object) -> int | None:
    if value is not None and (type(value) is not int or not 0 <= value < MOST_NUMBER):
        raise ValueError
    return value


def read(save: Path, since: datetime | None = None) -> list[Run]:
    """The runs that began since a moment, in their order, or the last one if that is older; all, if no moment is
    given."""
    path = path_of(save)
    if not path.is_file():
        return []
    with files.reading(path), open(path, "rb") as file:
        for start, text in files.ends(file.fileno(), TAIL):
            lines = lines_of(start, text)
            first = next(read_lines(lines), None)
            if since and first and first.at < since:
                break
    runs = list(read_lines(lines))
    return [run for run in runs if since is None or run.at >= since] or runs[-1:]


def read_lines(lines: Iterable[bytes]) -> Iterator[Run]:
    return (run for line in lines if line and (run := read_line(line)))


def lines_of(start: int, text: bytes) -> list[bytes]:
    """The lines of the end of a file. What the first one lacks is before it."""
    return text.split(b"\n")[1 if start else 0:]


def append(save: Path, run: Run) -> None:
    """Adds a run, and gives it its counts."""
    path = path_of(save)
    flags = os.O_RDWR | os.O_APPEND | os.O_CREAT
    with files.writing(path), locks.opened(path, flags, PATIENCE) as descriptor:
        size = os.fstat(descriptor).st_size
        before = next(read_lines(reversed(lines_of(*next(files.ends(descriptor, TAIL))))), None)
        line = counted(run, before).line
        kept = lines_kept(descriptor, size)
        if kept is not None:
            files.replace(path, kept + line)
        else:
            # a line that a kill has cut ends here
            is_cut = size > 0 and os.pread(descriptor, 1, size - 1) != b"\n"
            write(descriptor, b"\n" + line if is_cut else line)


def counted(run: Run, before: Run | None) -> Run:
    runs, faults = (before.runs, before.faults) if before else (0, 0)
    fault = run.fault and run.fault[:MOST_FAULT]
    return replace(run, fault=fault, runs=runs + 1, faults=faults + (fault is not None))


def lines_kept(descriptor: int, size: int) -> bytes | None:
    """The newest lines of a file that is full, to which one is added then, or None of one that isn't."""
    if size < MOST * LEAST_LINE:
        return None
    lines = os.pread(descriptor, size, 0).removesuffix(b"\n").split(b"\n")
    return b"".join(line + b"\n" for line in lines[1 - KEPT:]) if len(lines) >= MOST else None


def write(descriptor: int, text: bytes) -> None:
    while text:
        text = text[os.write(descriptor, text):]
