"""The wish that a run ends, as signals say it."""

import signal
import threading
from collections.abc import Callable
from concurrent.futures import wait
from typing import TypeVar

from .faults import Stopped
from .threads import Threads

SIGNALS = (signal.SIGTERM, signal.SIGINT, signal.SIGHUP)
# how long a wait is before a signal is looked for
TICK = 0.1
Value = TypeVar("Value")


class Stop:
    """Whether a signal came, and which."""

    def __init__(self) -> None:
        self.event = threading.Event()
        self.number = 0

    def listen(self) -> None:
        """Takes note of signals from now on, in place of the end of the process. One that is ignored stays so, as under
        nohup."""
        for number in SIGNALS:
            if signal.getsignal(number) is not signal.SIG_IGN:
                signal.signal(number, self.note)

    def note(self, number: int, _frame: object) -> None:
        self.number = self.number or number
        self.event.set()

    @property
    def is_set(self) -> bool:
        return self.event.is_set()

    def wait(self, seconds: float) -> bool:
        """Waits, but not longer than until a signal. True if there was one."""
        return self.event.wait(seconds)

    def check(self) -> None:
        if self.event.is_set():
            raise Stopped

    def apart(self, work: Callable[..., Value], *words: object) -> Value:
        """What some work gives. It is done in a thread of its own, since a signal doesn't end what the main thread
        waits for."""
        done = Threads(1).submit(work, *words)
        while not done.done():
            self.check()
            wait({done}, TICK)
        return done.result()
