"""A folder whose numbers are its own: each diff of the server is published as one or more of them, so that diffs of
any size are followed. A run that is killed leaves published parts, which the next one publishes again: the same changes
at the same times as the same numbers, so `osmrepl publish --sequence` writes none twice."""

import contextlib
import os
import re
from collections.abc import Iterator
from concurrent.futures import Future
from datetime import datetime
from pathlib import Path

from . import files, locks
from . import save as saves
from . import source as sources
from .convert import MOST_BYTES, MOST_CHANGES
from .converter import Converted
from .faults import Fault, OtherSource
from .fetcher import OTHER_SERVER, Download, Fetcher, Job, Listener, note_converted
from .folder import Folder
from .numbering import BEGINNING, Line, Numbers
from .output import LOG
from .program import Program
from .server import Server
from .source import Source
from .state import State, time_text
from .stop import Stop


class Renumbering:
    """The folder of a save, its list, and the lock that `osmrepl publish` would take."""

    def __init__(self, numbers: Numbers, folder: Folder, lock: int) -> None:
        self.numbers, self.folder, self.lock, self.program = numbers, folder, lock, Program()
        # the last line of the list, once there is one
        self.line: Line | None = None
        # the folders of numbers that have no file of a run that was killed
        self.cleared: set[Path] = set()

    @property
    def is_on(self) -> bool:
        return self.line is not None

    def most(self, newest: int) -> int | None:
        """The number that a follower may go up to in a folder that is at another one; None if it may go to its end."""
        return self.line.last if self.line and self.line.last < newest else None

    def check_folder(self, number: int) -> None:
        """Refuses a folder into which somebody else published later numbers: they would be removed."""
        if not self.folder.is_renumbered and self.folder.has_published(number):
            raise OtherSource(f"{self.folder.path}: has numbers after {number} that were published there; name another "
                              "folder by --dir")

    def switch_on(self, number: int, time: datetime | None) -> None:
        """Has the numbers of the folder be its own after a number of the server's. A run that is killed before the list
        is there has taken files from the folder that are fetched again."""
        self.check_folder(number)
        self.folder.restart(number, time, is_renumbered=True)
        self.line = self.numbers.begin(number, time)
        self.folder.note_renumbered()
        LOG.info("the numbers of %s are its own after %d", self.folder.path, number)

    def resume(self, position: saves.Position) -> None:
        """Goes on from the last line up to which the folder has all that the save lacks. If that isn't the last one, or
        if files of later numbers were lost, the folder and the list end there from now on. A save of before the first
        line is at a number of the server's, and is switched on anew."""
        lines = self.numbers.lines_from(position.number)
        if not lines:
            return
        self.check(lines, position)
        self.check_folder(position.number)
        self.line = self.line_to_go_on_from(lines, position.number)
        newest = self.folder.newest()
        top = newest.number if newest else 0
        if self.line is not lines[-1] or top < self.line.last or not self.folder.has_all(self.line.last + 1, top):
            self.folder.restart(self.line.last, self.line.time, is_renumbered=True)
        self.numbers.cut(self.line)
        self.folder.note_renumbered()

    def line_to_go_on_from(self, lines: list[Line], number: int) -> Line:
        found = lines[0]
        for line in lines[1:]:
            if not self.folder.has_all(max(line.first, number + 1), line.last):
                break
            found = line
        return found

    def check(self, lines: list[Line], position: saves.Position) -> None:
        """The save has the time of the line at or below its number: all parts of a diff but the last one do. After the
        last line the folder may have a whole diff that the list doesn't name yet."""
        time = position.time or BEGINNING
        if time == lines[0].time:
            return
        found = self.folder.state(position.number) if position.number > lines[-1].last else None
        if found is None or found.time != time:
            raise Fault(f"{self.numbers.path}: doesn't have number {position.number} of {time_text(time)}, at which "
                        "the save is: the list of another mirror (put the right copy back, or start anew)")

    def publish(self, state: State, text: Path, url: str, stop: Stop) -> Line:
        """Publishes the changes of the next diff in parts: all but the last one at the time of the diff before, up to
        which all edits are in. Then the list names them."""
        before, ends = self.line, ends_of(text)
        if state.time < before.time:
            raise Fault(f"{url}: older than the number before it")
        last = before.last + len(ends)
        for number, start, end in zip(range(before.last + 1, last + 1), [0, *ends], ends):
            stop.check()
            part = text if len(ends) == 1 else part_of(text, start, end)
            time = time_text(state.time if number == last else before.time)
            self.clear(number)
            done = self.program.run("publish", "--any-time", "--no-lock", "--now", time, "--sequence", number, "--",
                                    self.folder.path, part, kept=(self.lock,))
            if done.status != 0:
                stop.check()
                said = "; ".join(done.faults()).replace(str(part), f"part {number - before.last} of {len(ends)}")
                raise Fault(re.sub("^osmrepl: (?=changes: at |sequence )", f"{url}: ", said))
        self.line = Line(state.number, before.last + 1, last, state.time)
        self.numbers.append(self.line)
        LOG.info("published %d as %d..%d", state.number, self.line.first, last)
        return self.line

    def clear(self, number: int) -> None:
        """Removes what runs of osmrepl that were killed left where a number comes."""
        for place in self.folder.path, self.folder.place(number, "opl").parent:
            if place not in self.cleared:
                files.remove_left(place)
                self.cleared.add(place)


@contextlib.contextmanager
def entered(save: Path, folder: Folder, source: Source, position: saves.Position) -> Iterator[Renumbering | None]:
    """The renumbering of a save, for a block in which nobody else publishes into the folder; None if the folder has the
    server's numbers. It isn't on yet in the run that is to switch it on."""
    numbers, kept = Numbers(save), sources.read(save)
    if not numbers.is_there:
        if kept and kept.renumber:
            raise Fault(f"{numbers.path}: not there (put a copy back, or start anew with what osmrepl-planet export "
                        f"writes of {save})")
        folder.check_numbers()
    if not numbers.is_there and not source.renumber:
        yield None
        return
    with locks.folder_held(folder.path) as lock:
        found = Renumbering(numbers, folder, lock)
        if numbers.is_there:
            found.resume(position)
        yield found


def ends_of(text: Path) -> list[int]:
    """Where the parts of a file of changes end: each is as long as a number may be, and the last one may be empty if it
    is the only one."""
    ends, end, lines, size = [], 0, 0, 0
    with files.reading(text), open(text, "rb") as file:
        for line in file:
            if lines == MOST_CHANGES or (lines and size + len(line) > MOST_BYTES):
                ends.append(end)
                lines = size = 0
            lines, size, end = lines + 1, size + len(line), end + len(line)
    return [*ends, end]


def part_of(text: Path, start: int, end: int) -> Path:
    part = text.with_name("part.opl")
    with files.writing(part), open(text, "rb") as file, open(part, "wb") as out:
        while start < end:
            start += os.sendfile(out.fileno(), file.fileno(), start, end - start)
    return part


class Parts(Fetcher):
    """Brings the diffs after that of the list, and publishes each. No later one is taken after one that isn't there."""

    is_cut = True

    def __init__(self, job: Job, server: Server, listener: Listener, renumbering: Renumbering) -> None:
        super().__init__(job, server, listener)
        self.renumbering = renumbering

    def begin(self, number: int) -> Future:
        return self.downloading.submit(self.download_and_convert, number, True)

    def take_diff(self, download: Download, found: Converted) -> None:
        super().take_diff(download, found)
        self.lot.converted = 0

    def take_published(self, download: Download) -> None:
        """Its changes as OPL are what the program made of them when they were looked at."""
        text = self.room / f"{download.file.name}.opl"
        self.add(download.state, text, "opl", download.size, text.stat().st_size)

    def add(self, state: State, changes: Path, form: str, size: int, length: int) -> None:
        note_converted(str(state.number), self.lot.converted)
        line = self.renumbering.publish(state, changes, self.server.changes_url(state.number, self.form), self.stop)
        files.remove(changes)
        self.outcome.fetched.append(state.number)
        self.outcome.published += range(line.first, line.last + 1)
        self.listener.placed(line.last, length)

    def refuse(self, state: State, slot: Path, reason: str) -> None:
        out = OTHER_SERVER if reason.startswith("objects without") else (
            f"export the mirror, apply {self.server.changes_url(state.number, self.form)} to it by osmium "
            "apply-changes, and start with the result")
        raise Fault(f"sequence {state.number} has {reason} and can't be followed: {out}")

    def lack(self, number: int) -> None:
        self.outcome.missing.append(number)
        self.is_over = True

    def put(self) -> None:
        """Each number has its place already."""
