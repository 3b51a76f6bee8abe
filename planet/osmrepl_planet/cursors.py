"""Cursors: the state text of each consumer of a mirror, which says how far it has taken the mirror's numbers."""

import contextlib
import os
from collections.abc import Iterator
from dataclasses import dataclass, replace
from datetime import datetime
from pathlib import Path

from . import files, locks
from . import save as saves
from . import source as sources
from .faults import Fault
from .folder import Folder
from .save import Position
from .source import Source
from .state import State, read_state, state_text, time_text

# a state text has a few lines
MOST_TEXT = 1 << 16


@dataclass(frozen=True)
class Cursor:
    """A consumer's state text: how far it has come, or why that isn't known."""

    path: Path
    state: State | None
    fault: str | None = None


def cursor_of(path: Path) -> Cursor:
    try:
        with files.reading(path), files.open_file(path) as file:
            state = read_state(file.read(MOST_TEXT))
    except Fault as fault:
        return Cursor(path, None, fault.text.removeprefix(f"{path}: "))
    return Cursor(path, state, None if state else "bad state")


def read(path: Path) -> State:
    found = cursor_of(path)
    if found.state is None:
        raise Fault(f"{path}: {found.fault}")
    return found.state


def move(path: Path, number: int, time: datetime) -> None:
    """Has a cursor name a number, as a whole."""
    files.replace(files.lead_of(path), state_text(number, time))


@contextlib.contextmanager
def held(save: Path, path: Path) -> Iterator[int]:
    """Keeps a second run of the same consumer of a save away. Gives the lock's descriptor."""
    lock = files.beside(path, "lock")
    for needed in save, lock.parent:
        if not needed.exists():
            raise Fault(f"{needed}: not there")
    with locks.held(lock, f"{path}: in use ({lock})") as descriptor:
        yield descriptor


@dataclass(frozen=True)
class Mirrored:
    """A mirror that is handed on: where its save is, and where its numbers come from."""

    save: Path
    position: Position
    source: Source

    @property
    def folder(self) -> Folder:
        return Folder(self.source.folder)

    def time_of(self, number: int) -> datetime | None:
        """The time of a number: the save's own, or as the folder has it."""
        if number == self.position.number:
            return self.position.time
        found = self.folder.state(number)
        return found.time if found and found.number == number else None

    def time_needed(self, number: int, anew: str) -> datetime:
        found = self.time_of(number)
        if found is None:
            raise Fault(f"{self.folder.path}: has no state of number {number} (bring it back, or {anew})")
        return found

    def to_begin_at(self) -> Position:
        """The position of the save, at which a consumer may begin: number 0 has no time."""
        if self.position.number == 0 or self.position.time is None:
            raise Fault(f"{self.save}: at number 0, which has no time to begin at")
        return self.position

    def check(self, name: Path, number: int, time: datetime, anew: str) -> None:
        """Refuses a consumer that isn't of this mirror as it is; `anew` says how it begins again."""
        if number > self.position.number:
            raise Fault(f"{name}: at {number}, after {self.save}, which is at {self.position.number} (bring that up to "
                        f"date, or {anew})")
        known = self.time_of(number)
        if known is None and number < self.position.base:
            raise Fault(f"{name}: at {number}, before {self.save}, which was begun at {self.position.base} ({anew})")
        if known and known != time:
            raise Fault(f"{name}: number {number} is of {time_text(time)} there, and of {time_text(known)} in "
                        f"{self.save}: another mirror ({anew})")


def mirrored(save: Path) -> Mirrored:
    position, source, path = saves.position_of(save), sources.read(save), sources.path_of(save)
    if source is None:
        raise Fault(f"{path}: not there (osmrepl-planet mirror {files.word_of(save)} --url URL writes it)")
    if (source.kinds, set(source.keys)) != (position.kinds, set(position.keys)):
        raise Fault(f"{path}: other kinds or keys than those of {save}")
    return Mirrored(save, position, source)


def is_listed(source: Source, path: Path) -> bool:
    return os.path.realpath(path) in map(os.path.realpath, source.cursors)


def check_listed(mirrored: Mirrored, path: Path, anew: str) -> None:
    """Refuses a cursor of which SAVE.source doesn't say that it is one of this mirror."""
    if not is_listed(mirrored.source, path):
        raise Fault(f"{path}: {sources.path_of(mirrored.save)} has no line for it ({anew})")


def add(save: Path, path: Path) -> None:
    """Lists a cursor in SAVE.source, so that rotation keeps what its consumer lacks."""
    with sources.held(save):
        source = sources.read(save)
        if source and not is_listed(source, path):
            sources.write(save, replace(source, cursors=(*source.cursors, Path(os.path.abspath(path)))))
