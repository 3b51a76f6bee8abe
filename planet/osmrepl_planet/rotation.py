"""Removes the files of old numbers that neither the mirror nor a consumer of it needs."""

import contextlib
from datetime import datetime
from pathlib import Path

from . import files, state
from .cursors import cursor_of
from .faults import Fault
from .folder import DIGITS, Folder
from .output import LOG
from .source import Source


def rotate(folder: Folder, source: Source, number: int, since: datetime) -> None:
    """Removes what is of numbers below that of the save and those of all cursors, and of times before a moment, from
    the lowest on. Nothing is removed if a cursor can't be read."""
    for path in source.cursors:
        found = cursor_of(path)
        if found.state is None:
            raise Fault(f"{path}: {found.fault}, so --keep removes nothing (mend it, or remove its line of "
                        "SAVE.source)")
        number = min(number, found.state.number)
    with files.writing(folder.path):
        LOG.info("removed the files of %d numbers", remove_before(folder, number, since))


def remove_before(folder: Folder, number: int, since: datetime) -> int:
    """How many numbers were removed."""
    removed = 0
    for place in sorted(folder.path.glob(f"{DIGITS}/{DIGITS}")):
        for text in sorted(place.glob(f"{DIGITS}.state.txt")):
            found = folder.read(text)
            of = state.number_of(str(text.relative_to(folder.path)))
            if of >= number or found and found.time >= since:
                return removed
            remove(text)
            removed += 1
        remove_empty(place)
    return removed


def remove(text: Path) -> None:
    """Removes the files of a number, its state last: without that nobody would look for them again."""
    name = text.name.removesuffix("state.txt")
    for file in [file for file in text.parent.glob(f"{name}*") if file != text]:
        file.unlink()
    text.unlink()


def remove_empty(place: Path) -> None:
    with contextlib.suppress(OSError):
        place.rmdir()
        place.parent.rmdir()
