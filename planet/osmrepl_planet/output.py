"""What a run says on standard error, and what it prints."""

import contextlib
import logging
import sys

from .faults import printable
from .files import write_fault
from .progress import cleared

NAME = "osmrepl-planet"
LOG = logging.getLogger(NAME)


class Handler(logging.StreamHandler):
    """Writes lines where none of a terminal's progress is."""

    def emit(self, record: logging.LogRecord) -> None:
        with cleared():
            super().emit(record)


def begin_log(is_verbose: bool) -> None:
    """Has `LOG.info` say what is done, if that is wanted."""
    logging.basicConfig(handlers=[Handler(sys.stderr)], format=f"{NAME}: %(message)s",
                        level=logging.INFO if is_verbose else logging.WARNING)
    logging.getLogger("urllib3").setLevel(logging.CRITICAL)


def say(text: str) -> None:
    """Says a line on standard error, whatever a server or the name of a file puts into it. One that can't be said is
    dropped."""
    with cleared(), contextlib.suppress(OSError, ValueError):
        sys.stderr.write(f"{NAME}: {printable(text)}\n")
        sys.stderr.flush()


def print_lines(lines: list[str]) -> None:
    try:
        with cleared():
            for line in lines:
                print(line)
            sys.stdout.flush()
    except OSError as error:
        raise write_fault("output", error) from error


def ranges(numbers: list[int]) -> list[tuple[int, int]]:
    """The ranges of rising numbers."""
    found: list[tuple[int, int]] = []
    for number in numbers:
        if found and found[-1][1] + 1 == number:
            found[-1] = (found[-1][0], number)
        else:
            found.append((number, number))
    return found


def ranges_text(numbers: list[int]) -> str:
    return ", ".join(f"{first}..{last}" for first, last in ranges(numbers))
