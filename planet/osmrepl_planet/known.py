"""What is known of a mirror: from SAVE's first and last lines, its journal, SAVE.source, SAVE.runs and the folder's
state.txt. No server is asked, no lock is taken, and nothing is written."""

import math
import time
from dataclasses import dataclass, field, replace
from datetime import datetime, timedelta, timezone
from pathlib import Path

from . import runs
from . import save as saves
from . import source as sources
from .cursors import Cursor, cursor_of
from .faults import Fault, fault_of, one_line
from .folder import Folder
from .numbering import Numbers
from .runs import Run
from .source import Source
from .state import MOST_AHEAD, time_text

DAY = timedelta(days=1)


@dataclass(frozen=True)
class Status:
    """What is known of a mirror at a moment. `history` is the runs of the last day, or of more days, `server` the
    newest number that is known of the server, which the run at `seen` saw, and `reached` how far the mirror is in the
    server's numbers."""

    save: Path
    now: datetime
    most_age: int | None = None
    holding: saves.Holding | None = None
    source: Source | None = None
    history: list[Run] = field(default_factory=list)
    server: int | None = None
    reached: int | None = None
    seen: datetime | None = None
    cursors: list[Cursor] = field(default_factory=list)
    fault: str | None = None

    @property
    def number(self) -> int | None:
        return self.holding and self.holding.position.number

    @property
    def time(self) -> datetime | None:
        return self.holding.position.time if self.holding else None

    @property
    def age(self) -> int | None:
        """By the clock, in seconds; 0 of a time that is somewhat ahead of the clock."""
        if self.time is None or self.is_ahead:
            return None
        return max(0, math.floor((self.now - self.time).total_seconds()))

    @property
    def is_ahead(self) -> bool:
        """Whether its time is so far ahead of the clock that it has no age."""
        return self.time is not None and self.time - self.now > MOST_AHEAD

    @property
    def no_age(self) -> str:
        """Why the age isn't known."""
        return "its time is more than a day ahead of the clock" if self.is_ahead else "number 0 has no time"

    @property
    def most(self) -> int:
        """The age from which on the mirror is late: as it was said now, or to the last run, or in SAVE.source."""
        if self.most_age is not None:
            return self.most_age
        of_run = next((run.most_lag for run in reversed(self.history) if run.most_lag is not None), None)
        if of_run is not None:
            return of_run
        return self.source.most_lag if self.source else sources.DEFAULT_LAG

    @property
    def behind(self) -> int | None:
        return None if self.server is None or self.reached is None else max(0, self.server - self.reached)

    @property
    def sees_server(self) -> bool:
        """Whether the last run saw the server."""
        return self.last_run is not None and self.last_run.server is not None

    @property
    def last_run(self) -> Run | None:
        return self.history[-1] if self.history else None

    @property
    def day(self) -> list[Run]:
        return [run for run in self.history if run.at >= self.now - DAY]

    @property
    def state(self) -> str:
        if self.age is None:
            return "unknown"
        if self.age > self.most:
            return "late"
        return "failed" if self.fault or self.last_run and self.last_run.failed else "ok"

    def behind_of(self, cursor: Cursor) -> int | None:
        """How many numbers a consumer has yet to take."""
        if cursor.state is None or self.number is None:
            return None
        return max(0, self.number - cursor.state.number)


def status_of(save: Path, most_age: int | None, back: timedelta) -> Status:
    """The status of a mirror, with its runs of so many days. Its fault is the first of what can't be read."""
    now = datetime.fromtimestamp(time.time(), timezone.utc)
    found = Status(save, now, most_age)
    for add in add_holding, add_source, add_runs, add_server:
        try:
            found = add(found, back)
        except (Fault, OSError) as error:
            found = found if found.fault else replace(found, fault=fault_of(error, save).text)
    return found


def add_holding(status: Status, _back: timedelta) -> Status:
    holding = saves.holding_of(status.save)
    if holding.other is not None:
        fault = f"{status.save}: its journal is of another save, at {holding.other} (docs/OPERATING.md, 'The way out')"
        return replace(status, holding=holding, fault=fault)
    return replace(status, holding=holding)


def add_source(status: Status, _back: timedelta) -> Status:
    source = sources.read(status.save)
    return replace(status, source=source, cursors=[cursor_of(path) for path in source.cursors] if source else [])


def add_runs(status: Status, back: timedelta) -> Status:
    return replace(status, history=runs.read(status.save, status.now - back))


def add_server(status: Status, _back: timedelta) -> Status:
    """How far the server was when a run saw it last. The folder, whose numbers are the server's, may know more."""
    last = next((run for run in reversed(status.history) if run.server is not None), None)
    known = [last.server] if last else []
    numbers, reached = Numbers(status.save), status.number
    if numbers.is_there and reached is not None:
        reached = next((line.source for line in numbers.lines_from(reached)), None)
    elif status.source and (newest := Folder(status.source.folder).newest()):
        known.append(newest.number)
    return replace(status, server=max(known, default=None), reached=reached, seen=last and last.at)


def report_of(status: Status) -> dict:
    """What --json prints: the same words always, and null for what isn't known."""
    holding, source, day, last = status.holding, status.source, status.day, status.last_run
    return {
        "age": status.age, "behind": status.behind, "fault": status.fault, "most_age": status.most,
        "now": time_text(status.now), "number": status.number, "seen": status.seen and time_text(status.seen),
        "server": status.server, "state": status.state,
        "time": status.time and time_text(status.time),
        "save": holding and {"base": holding.position.base, "edits": holding.edits, "number": holding.saved,
                             "objects": holding.objects},
        "journal": holding and {"bytes": holding.journal, "numbers": holding.waiting},
        "day": {"faults": sum(run.fault is not None for run in day), "runs": len(day)},
        "last_run": last and last.values(),
        "source": source and {"folder": shown(source.folder), "url": shown(source.url)},
        "cursors": [{"behind": status.behind_of(cursor), "fault": cursor.fault and shown(cursor.fault),
                     "number": cursor.state and cursor.state.number, "path": shown(cursor.path),
                     "time": cursor.state and time_text(cursor.state.time)} for cursor in status.cursors]}


def shown(value: object) -> str:
    return one_line(str(value))


def counted(count: int, noun: str, form: str = "") -> str:
    """As `1 run`, and `1,440 runs` in the form `,`."""
    return f"{count:{form}} {noun}" + ("" if count == 1 else "s")


def length_text(seconds: float) -> str:
    """A length of time in its two greatest units: `1 h 5 min`. One below 0, over a change of the clock, is 0."""
    left = max(0, round(seconds))
    units = [(86400, "d"), (3600, "h"), (60, "min"), (1, "s")]
    place = next((place for place, (size, _) in enumerate(units) if left >= size), 3)
    parts = []
    for size, name in units[place:place + 2]:
        parts.append(f"{left // size} {name}")
        left %= size
    return " ".join(part for part in parts if not part.startswith("0 ")) or "0 s"


def server_text(status: Status, number: str) -> str:
    """Where the server is, or where it was if the last run didn't see it."""
    if status.sees_server or status.seen is None:
        return f"the server is at {number}"
    return f"the server was at {number} at {time_text(status.seen)}"
