"""A line on a terminal that shows how far a run is."""

import contextlib
import os
import sys
import threading
import time
from collections.abc import Iterator

from . import threads
from .faults import Fault

PATIENCE = 0.5
EVERY = 0.2
CLEAR = "\r\033[K"

# what writes on the terminal holds it
LOCK = threading.Lock()


class Progress:
    """Shows `WHAT DONE of ALL, RATE a second, SECONDS s left` on standard error, if that is a terminal, once the block
    has taken half a second; while no number is known, how long it has taken. The line is gone after the block, and
    while anything else is said."""

    # the blocks under way, of which the inner one is shown, and whether its line is there
    blocks: list["Progress"] = []
    is_there = False

    def __init__(self, what: str, total: int | None = None, unit: str = "") -> None:
        self.what, self.total, self.unit, self.done = what, total, unit, None
        self.start, self.ended = time.monotonic(), threading.Event()

    def __enter__(self) -> "Progress":
        # without a thread there is no line, and the block does its work all the same
        with contextlib.suppress(Fault):
            if sys.stderr.isatty():
                threads.begin(self.draw)
                Progress.blocks.append(self)
        return self

    def __exit__(self, *_: object) -> None:
        self.ended.set()
        if self in Progress.blocks:
            with cleared():
                Progress.blocks.remove(self)

    def show(self, done: int) -> None:
        self.done = done

    def draw(self) -> None:
        """Draws the line again and again, whatever the block waits for."""
        wait = PATIENCE
        while not self.ended.wait(wait):
            wait = EVERY
            with LOCK, contextlib.suppress(OSError, ValueError):
                if Progress.blocks[-1:] == [self]:
                    line = line_of(self.what, self.done, self.total, self.unit, time.monotonic() - self.start)
                    write(CLEAR + line[:width() - 1])
                    Progress.is_there = True


@contextlib.contextmanager
def cleared() -> Iterator[None]:
    """A block that prints, and finds no line."""
    with LOCK:
        if Progress.is_there:
            Progress.is_there = False
            with contextlib.suppress(OSError, ValueError):
                write(CLEAR)
        yield


def write(text: str) -> None:
    sys.stderr.write(text)
    sys.stderr.flush()


def width() -> int:
    try:
        return os.get_terminal_size(sys.stderr.fileno()).columns or 80
    except (OSError, ValueError):
        return 80


def line_of(what: str, done: int | None, total: int | None, unit: str, seconds: float) -> str:
    """The text of the line."""
    if done is None:
        return f"{what}, {seconds:.0f} s"
    rate = done / seconds if seconds > 0 else 0
    text = f"{what} {done:,}" + (f" of {total:,}" if total is not None else "") + unit + f", {rate:,.0f} a second"
    if total is not None and rate > 0:
        text += f", {(total - done) / rate:,.0f} s left"
    return text
