"""The first lines of a save and of its journal: at which number they are together."""

import contextlib
import os
import re
from collections.abc import Iterator
from dataclasses import dataclass, replace
from datetime import datetime
from pathlib import Path
from typing import BinaryIO

from . import files, opl, state
from .faults import Fault

# a hundred keys of 1,020 bytes, each of which may be escaped
MOST_HEAD = 1 << 20
# how much of a save's end is read for its counts, a million changesets, and how much of it first
MOST_COUNTS, FIRST_COUNTS = 16 << 20, 1 << 16


@dataclass(frozen=True)
class Position:
    """The number of a save and its journal, its time, which number 0 hasn't, the filter, and the number at which the
    save was begun."""

    number: int
    time: datetime | None
    kinds: str = "nwr"
    keys: tuple[str, ...] = ()
    base: int = 0


def head_of(text: bytes) -> bytes | None:
    """The first lines of a save, through the number of its objects, or None if it doesn't begin like one."""
    found = re.match(rb"osmrepl-save [123]\n(?:.*\n)*?objects \d+\n", text)
    return found[0] if found else None


def read_head(head: bytes) -> Position | None:
    """What the first lines of a save say."""
    lines = head.decode("utf-8", "replace").split("\n")
    kinds = next((line[6:] for line in lines if line.startswith("kinds ")), "nwr")
    keys: tuple[str, ...] = ()
    for place, line in enumerate(lines):
        if re.fullmatch(r"keys \d{1,3}", line):
            keys = tuple(lines[place + 1:place + 1 + int(line[5:])])
            lines = lines[:place] + lines[place + 1 + len(keys):]
            break
    found = re.search(r"^sequence (\d{1,9})\ntime (\S+)$", "\n".join(lines), re.MULTILINE)
    if not found:
        return None
    base = next((int(line[5:]) for line in lines if re.fullmatch(r"base \d{1,9}", line)), 0)
    return Position(int(found[1]), state.read_time(found[2]), kinds, tuple(map(opl.unescape, keys)), base)


def read_journal(text: bytes, head: bytes) -> tuple[int, datetime | None] | None:
    """The number and the time of a journal, if it is one of the save that begins with these lines."""
    start = b"osmrepl-journal 1\n" + head
    if not text.startswith(start):
        return None
    found = re.match(rb"sequence (\d{1,9})\ntime (\S+)\n", text[len(start):])
    return (int(found[1]), state.read_time(found[2].decode("ascii", "replace"))) if found else None


@dataclass(frozen=True)
class Start:
    """A save that is open, its first lines and what they say, and the beginning and the size of the journal beside
    it."""

    file: BinaryIO
    head: bytes
    position: Position
    journal: bytes
    size: int

    @property
    def own(self) -> Position | None:
        """Where the journal is, if it is this save's."""
        found = read_journal(self.journal, self.head)
        return found and replace(self.position, number=found[0], time=found[1])


@contextlib.contextmanager
def head_and_journal(save: Path) -> Iterator[Start]:
    """A save and its journal, which is read first: one that is merged meanwhile is no longer the new save's. The other
    way round, the journal that comes after a merge would leave the old save at its number."""
    lead = files.lead_of(save)
    journal, size = journal_of(lead)
    with files.reading(lead), files.open_file(lead) as file:
        head = head_of(file.read(MOST_HEAD))
        position = read_head(head) if head else None
        if position is None:
            raise Fault(f"{save}: no save that osmrepl begin or follow wrote")
        yield Start(file, head, position, journal, size)


def position_of(save: Path) -> Position:
    """Where a save and its journal are."""
    with head_and_journal(save) as start:
        return start.own or start.position


@dataclass(frozen=True)
class Holding:
    """What is known of a save without reading all of it. Number and time are those of the save with its journal; objects
    and edits, which are None if there are too many changesets, those of the save alone, which is at `saved`.
    `journal` is the size of a journal that belongs to it, and `other` the number at which another one ends that follow
    refuses."""

    position: Position
    saved: int
    objects: int
    edits: int | None
    journal: int = 0
    other: int | None = None

    @property
    def waiting(self) -> int:
        """How many numbers the journal has."""
        return self.position.number - self.saved


def holding_of(save: Path) -> Holding:
    """What a save and its journal hold."""
    with head_and_journal(save) as start:
        edits = edits_of(start.file)
    saved, own = start.position, start.own
    found = Holding(own or saved, saved.number, int(start.head.split()[-1]), edits)
    return replace(found, journal=start.size) if own else replace(found, other=end_above(start.journal, saved.number))


def journal_of(lead: Path) -> tuple[bytes, int]:
    """The beginning of a save's journal, and its size."""
    path = files.beside(lead, "journal")
    try:
        with files.reading(path), files.open_file(path) as file:
            return file.read(MOST_HEAD), os.fstat(file.fileno()).st_size
    except Fault:
        if path.exists():
            raise
        return b"", 0


def end_above(journal: bytes, number: int) -> int | None:
    """The number at which the journal of another save ends, if that is above the number of this one."""
    head = head_of(journal.removeprefix(b"osmrepl-journal 1\n"))
    found = read_journal(journal, head) if head else None
    return found[0] if found and found[0] > number else None


def edits_of(file: BinaryIO) -> int | None:
    """The sum of the users' counts, which come after the objects: no line before these begins like theirs."""
    for _, text in files.ends(file.fileno(), FIRST_COUNTS, MOST_COUNTS):
        found = re.search(rb"\nusers (\d+)\n((?:\d+ \d+\n)*)changesets ", text)
        if found:
            return sum(map(int, found[2].split()[1::2]))
    return None
