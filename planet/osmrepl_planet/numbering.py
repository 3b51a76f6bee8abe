"""SAVE.numbers: which numbers of a folder have which diff of its server, if the numbers of the folder are its own. It
is appended to, and cut off at the end of a line: its last whole line counts."""

import os
import re
from dataclasses import dataclass
from datetime import datetime
from pathlib import Path

from . import files, state
from .faults import Fault, one_line
from .state import time_text

# The time of number 0, which has none: the first one that a state may have. All edits up to it are in.
BEGINNING = state.FIRST
LINE = re.compile(rb"(\d{1,9}) (\d{1,9}) (\d{1,9}) (\d{4}-\d\d-\d\dT\d\d:\d\d:\d\dZ)")
# how much of the end is read first: hours of minutes
TAIL = 1 << 14


@dataclass(frozen=True)
class Line:
    """A diff of the server, the first and the last number of the folder that have its changes, and its time; of the
    first line the number at which both are the same. `end` is where a line that was read ends in the list."""

    source: int
    first: int
    last: int
    time: datetime
    end: int = 0

    @property
    def text(self) -> bytes:
        return f"{self.source} {self.first} {self.last} {time_text(self.time)}\n".encode()


class Numbers:
    """The list of a save."""

    def __init__(self, save: Path) -> None:
        self.path = files.beside(save, "numbers")

    @property
    def is_there(self) -> bool:
        return self.path.exists()

    def lines_from(self, number: int) -> list[Line]:
        """The last line that isn't after a number of the folder, and all lines after it; none if all are after it."""
        with files.reading(self.path), files.open_file(self.path) as file:
            for start, text in files.ends(file.fileno(), TAIL):
                lines = self.read(text, start)
                before = [place for place, line in enumerate(lines) if line.last <= number]
                if before:
                    return lines[before[-1]:]
        return []

    def read(self, text: bytes, start: int) -> list[Line]:
        """The whole lines of a text that begins somewhere in the list."""
        torn = text.find(b"\n") + 1 if start else 0
        text, place, lines = text[torn:], start + torn, []
        for part in text.split(b"\n")[:-1]:
            found, place = LINE.fullmatch(part), place + len(part) + 1
            time = state.read_time(found[4].decode()) if found else None
            line = Line(*(int(found[group]) for group in (1, 2, 3)), time, place) if time else None
            if line is None or not follows(line, lines[-1:]):
                said = one_line(part[:60].decode("utf-8", "replace"))
                raise Fault(f"{self.path}: bad line at byte {place - len(part) - 1}: {said}")
            lines.append(line)
        if not lines and start == 0:
            raise Fault(f"{self.path}: it has no whole line")
        return lines

    def begin(self, number: int, time: datetime | None) -> Line:
        """Writes a list that begins at a number of the server's, in place of any other."""
        line = Line(number, number, number, time or BEGINNING)
        files.replace(self.path, line.text)
        return line

    def append(self, line: Line) -> None:
        with files.writing(self.path), open(self.path, "ab") as file:
            file.write(line.text)
            file.flush()
            os.fsync(file.fileno())

    def cut(self, line: Line) -> None:
        """Has the list end with a line that was read."""
        with files.writing(self.path):
            if self.path.stat().st_size != line.end:
                os.truncate(self.path, line.end)
                files.sync_file(self.path)


def follows(line: Line, before: list[Line]) -> bool:
    """Whether a line may come after another one."""
    if line.last < line.first:
        return False
    return not before or (line.source, line.first) == (before[0].source + 1, before[0].last + 1)
