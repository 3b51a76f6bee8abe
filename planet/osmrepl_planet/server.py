"""A replication server: its states, its changes, and the number of a time."""

from datetime import datetime
from pathlib import Path

from . import state
from .client import Client
from .faults import Fault
from .files import writing
from .state import State, time_text

MOST_STATE = 64 << 10
MOST_DIFF = 256 << 20
# how many numbers beside one that isn't there are looked at in a search
NEIGHBOURS = 8


class Server:
    """The files of a server's folder. `url` is as it was named, `base` where its `state.txt` was in the end, if its
    numbers are there too: with it, no later request has to be led on."""

    def __init__(self, url: str, client: Client) -> None:
        self.url, self.base, self.client = url, url, client

    def newest(self) -> State:
        url = f"{self.url}/state.txt"
        answer = self.client.get(url, MOST_STATE)
        if not answer.is_there:
            raise Fault(f"{url}: not there")
        found = state.read_state(answer.body)
        if found is None:
            raise Fault(f"{url}: bad state")
        base = answer.url.removesuffix("/state.txt")
        if answer.url.endswith("/state.txt") and base not in (self.url, self.base):
            # a server may lead on with this file alone
            if self.client.get(f"{base}/{state.path_of(found.number, 'state.txt')}", MOST_STATE).is_there:
                self.base = base
        return found

    def state(self, number: int) -> State | None:
        """The state of a number, or None if it isn't there. One that names another number is an error of the server
        like any other: it is asked for again, after growing waits."""
        url = f"{self.base}/{state.path_of(number, 'state.txt')}"
        wait = 1
        for left in reversed(range(self.client.settings.tries)):
            answer = self.client.get(url, MOST_STATE)
            if not answer.is_there:
                return None
            found = state.read_state(answer.body)
            if found and found.number == number:
                return found
            if left:
                self.client.pause(wait)
                wait *= 2
        raise Fault(f"{url}: doesn't name {number}")

    def changes_url(self, number: int, form: str) -> str:
        return f"{self.base}/{state.path_of(number, form)}"

    def changes(self, number: int, form: str, file: Path) -> int | None:
        """Brings the changes of a number into a file. Gives their size, or None if they aren't there."""
        with writing(file), open(file, "wb") as out:
            answer = self.client.get(self.changes_url(number, form), MOST_DIFF, out)
        return answer.size if answer.is_there else None

    def find(self, wanted: datetime) -> State:
        """The last state that isn't after a time."""
        top = self.newest()
        if top.time <= wanted:
            return top
        return Search(self, wanted, top).run()


class Search:
    """The search for the last number whose state isn't after a time. Below the first number that the server has, none
    is there."""

    def __init__(self, server: Server, wanted: datetime, top: State) -> None:
        self.server, self.wanted = server, wanted
        # the number of `low` is too low or fits, `high` is after the time
        self.low, self.high = 0, top
        self.best: State | None = None

    def run(self) -> State:
        step = 1
        while self.best is None and self.high.number - step > 0 and self.probe(self.high.number - step):
            step *= 2
        while self.high.number - self.low > 1:
            self.probe((self.low + self.high.number) // 2)
        if self.best is None:
            raise Fault(f"{self.server.url}: goes back to {time_text(self.high.time)} only; take a newer extract")
        return self.best

    def probe(self, number: int) -> bool:
        """Looks at a number, or at one of those after it. False if all that is there is at or below the time."""
        found = self.first_from(number)
        if found is None:
            self.low = number
            return False
        if found.time > self.wanted:
            self.high = found
            return True
        self.low, self.best = found.number, found
        return False

    def first_from(self, number: int) -> State | None:
        for candidate in range(number, min(number + NEIGHBOURS, self.high.number)):
            found = self.server.state(candidate)
            if found:
                return found
        return None
