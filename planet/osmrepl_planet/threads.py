"""Threads. The system may refuse one, as `ulimit -u` or TasksMax has it."""

import contextlib
import threading
from collections.abc import Callable, Iterator
from concurrent.futures import Future, ThreadPoolExecutor

from .faults import Fault


@contextlib.contextmanager
def beginning() -> Iterator[None]:
    """Says that no thread could be begun: for that Python has no fault of its own."""
    try:
        yield
    except RuntimeError as error:
        if "start new thread" not in str(error):
            raise
        raise Fault("no thread can be begun (a limit of processes or memory)") from error


def begin(work: Callable[[], None]) -> None:
    """Does some work in a thread that doesn't hold up the end of the process."""
    with beginning():
        threading.Thread(target=work, daemon=True).start()


class Threads(ThreadPoolExecutor):
    """Threads that are begun when there is work for them. If the system refuses one more, those that there are do it."""

    def submit(self, *words: object, **more: object) -> Future:
        with beginning():
            return super().submit(*words, **more)

    def _adjust_thread_count(self) -> None:
        try:
            super()._adjust_thread_count()
        except RuntimeError:
            if not self._threads:
                raise
