"""Locks that keep a second run away. The system frees them when the process ends, and the children that were given
them."""

import contextlib
import fcntl
import os
import time
from collections.abc import Iterator
from pathlib import Path

from .faults import Busy, Fault, cause_of
from .files import beside
from .stop import Stop


@contextlib.contextmanager
def held(path: Path, said: str, patience: float = 0, stop: Stop | None = None) -> Iterator[int]:
    """Holds the lock of a file, which is made if it isn't there. If another run has it for longer than `patience`
    seconds, `said` is the fault. Gives its descriptor: a child that is given it holds the lock too, for as long as it
    lives."""
    try:
        descriptor = os.open(path, os.O_RDWR | os.O_CREAT | os.O_CLOEXEC, 0o666)
    except OSError as error:
        raise Fault(f"{path}: lock failed ({cause_of(error)})") from error
    try:
        wait_for(descriptor, path, said, patience, stop)
        yield descriptor
    finally:
        os.close(descriptor)


@contextlib.contextmanager
def opened(path: Path, flags: int, patience: float) -> Iterator[int]:
    """A descriptor of a file that is replaced as a whole, with its own lock, so that no other run writes it
    meanwhile."""
    while True:
        descriptor = os.open(path, flags | os.O_CLOEXEC, 0o666)
        try:
            wait_for(descriptor, path, f"{path}: in use", patience, None)
            # the run before may have put another file in its place
            if is_at(path, descriptor):
                yield descriptor
                return
        finally:
            os.close(descriptor)


def is_at(path: Path, descriptor: int) -> bool:
    try:
        return os.path.samestat(os.stat(path), os.fstat(descriptor))
    except FileNotFoundError:
        return False


def wait_for(descriptor: int, path: Path, said: str, patience: float, stop: Stop | None) -> None:
    end = time.monotonic() + patience
    while True:
        try:
            fcntl.flock(descriptor, fcntl.LOCK_EX | fcntl.LOCK_NB)
            return
        except BlockingIOError:
            if time.monotonic() >= end:
                raise Busy(said) from None
        except OSError as error:
            raise Fault(f"{path}: lock failed ({cause_of(error)})") from error
        if stop:
            stop.check()
        time.sleep(0.1)


def of_save(save: Path) -> Path:
    """The lock of a save, as osmrepl names it."""
    return beside(save, "lock")


def folder_held(folder: Path) -> contextlib.AbstractContextManager[int]:
    """Holds the lock of `osmrepl publish`, which a run of it that outlives this one still holds."""
    file = folder / ".osmrepl-lock"
    return held(file, f"{folder}: in use ({file})")


def save_in_use(save: Path) -> str:
    return f"{save}: in use ({of_save(save)})"
