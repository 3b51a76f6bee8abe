"""State texts of replication servers, and the paths of numbers."""

import re
from dataclasses import dataclass
from datetime import datetime, timedelta, timezone

MOST_NUMBER = 999_999_999
TIME = re.compile(r"(\d{4})-(\d\d)-(\d\d)T(\d\d)\\?:(\d\d)\\?:(\d\d)Z", re.ASCII)
# between which times osmrepl takes one
FIRST = datetime(1970, 1, 1, 0, 0, 1, tzinfo=timezone.utc)
LAST = datetime(2106, 2, 7, 6, 28, 15, tzinfo=timezone.utc)
# how far clocks may differ, as osmrepl publish has it: beyond that one of them is wrong
MOST_AHEAD = timedelta(days=1)


@dataclass(frozen=True)
class State:
    """A number, its time, and the text that says so."""

    number: int
    time: datetime
    text: bytes


def read_time(text: str) -> datetime | None:
    found = TIME.fullmatch(text)
    try:
        time = datetime(*map(int, found.groups()), tzinfo=timezone.utc) if found else None
    except ValueError:
        return None
    return time if time and FIRST <= time <= LAST else None


def time_text(time: datetime) -> str:
    return time.strftime("%Y-%m-%dT%H:%M:%SZ")


def read_state(text: bytes) -> State | None:
    """The state that a text tells, or None if it is none: no other text than osmrepl takes. The last line of a word
    counts."""
    values = {}
    for line in text.decode("utf-8", "replace").split("\n"):
        word, is_there, value = line.removesuffix("\r").partition("=")
        if is_there:
            values[word.strip(" \t")] = value.strip(" \t")
    number, time = values.get("sequenceNumber", ""), read_time(values.get("timestamp", ""))
    if not re.fullmatch(r"[0-9]{1,9}", number) or time is None:
        return None
    return State(int(number), time, text)


def state_text(number: int, time: datetime) -> bytes:
    colons = time_text(time).replace(":", "\\:")
    return f"sequenceNumber={number}\ntimestamp={colons}\n".encode()


def path_of(number: int, suffix: str) -> str:
    """The path of a file of a number: `000/000/007.state.txt`."""
    digits = f"{number:09d}"
    return f"{digits[:3]}/{digits[3:6]}/{digits[6:]}.{suffix}"


def number_of(path: str) -> int | None:
    """The number of the path of a state: the opposite of `path_of`."""
    found = re.fullmatch(r"(\d{3})/(\d{3})/(\d{3})\.state\.txt", path)
    return int("".join(found.groups())) if found else None
