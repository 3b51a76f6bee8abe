"""The folder of the numbers brought: what it has, its lock, and lots of files that get their places at once."""

import os
import time
from collections.abc import Iterator
from contextlib import contextmanager, suppress
from dataclasses import dataclass, field
from datetime import datetime
from pathlib import Path

from . import files, locks, state
from .client import LONGEST_AWAY, KeptAway
from .faults import Fault, cause_of, one_line
from .state import State

MOST_NUMBERS = 64
MOST_BYTES = 16 << 20
MOST_SECONDS = 5
# the files of a number that osmrepl-planet publishes
PUBLISHED = "o5c", "opl", "osc.gz"
# how a run gets another folder; a mirror for good
OTHER_FOLDER = "name another folder by --dir, or in SAVE.source"
DIGITS = "[0-9]" * 3
RENUMBERED = "The numbers of this folder aren't its server's. SAVE.numbers, beside the save, says which they are.\n"


class Folder:
    """A folder DIR, and its room `DIR/.fetch`."""

    def __init__(self, path: Path) -> None:
        self.path, self.work = path, path / ".fetch"
        self.not_before, self.renumbered = self.work / "not-before", self.work / "renumbered"
        self.noted_server = self.work / "server"

    @contextmanager
    def entered(self) -> Iterator[Path]:
        """Keeps other runs out, and gives a room for temporary files on the folder's file system."""
        with files.writing(self.path):
            self.work.mkdir(parents=True, exist_ok=True)
        with locks.held(self.work / "lock", f"{self.path}: another run is fetching into it"):
            with files.Room(self.work, "run.") as room:
                yield room

    def place(self, number: int, suffix: str) -> Path:
        return self.path / state.path_of(number, suffix)

    def has(self, number: int, suffix: str) -> bool:
        return os.path.exists(f"{self.path}/{state.path_of(number, suffix)}")

    def has_changes(self, number: int) -> bool:
        return self.has(number, "o5c") or self.has(number, "opl")

    def size_of(self, number: int) -> int:
        """The bytes of the changes of a number, as far as it has any."""
        for suffix in "o5c", "opl":
            with suppress(OSError):
                return self.place(number, suffix).stat().st_size
        return 0

    def has_all(self, first: int, last: int) -> bool:
        return all(self.has(number, "state.txt") and self.has_changes(number) for number in range(first, last + 1))

    @property
    def is_renumbered(self) -> bool:
        """Whether its numbers are those of one save alone."""
        return self.renumbered.exists()

    def check_numbers(self) -> None:
        """Refuses a folder whose numbers aren't those of a server."""
        if self.is_renumbered:
            raise Fault(f"{self.path}: its numbers are those of a mirror with --renumber; name another folder")

    @property
    def server(self) -> str | None:
        """The URL of the server that its numbers are of, if it has any. A folder of an earlier release doesn't say it."""
        if self.newest() is None and self.highest() is None:
            return None
        try:
            return one_line(self.noted_server.read_text("utf-8", "replace")) or None
        except (FileNotFoundError, NotADirectoryError):
            return None
        except OSError as error:
            raise Fault(f"{self.noted_server}: read failed ({cause_of(error)})") from error

    def check_server(self, url: str, is_moved: bool) -> None:
        """Refuses a server whose numbers would be mixed with those of another one."""
        if not is_moved and self.server not in (None, url):
            raise Fault(f"{self.path}: has numbers of {self.server}, not of {url} (if that is the same folder at another "
                        f"address, --moved takes the right one, named by --url; otherwise {OTHER_FOLDER})")

    def note_server(self, url: str) -> None:
        """Keeps the URL, unless the folder is published here: then its server hands this folder on."""
        newest = self.newest()
        is_own = newest is not None and all(self.has(newest.number, suffix) for suffix in PUBLISHED)
        if self.server != url and not is_own:
            files.replace(self.noted_server, f"{url}\n".encode())

    def has_published(self, number: int) -> bool:
        """Whether a later number was published here: it has both forms, and what is fetched has one."""
        return any(file.with_suffix(".opl").exists() for file in self.later(number) if file.suffix == ".o5c")

    def later(self, number: int) -> Iterator[Path]:
        """The files of all numbers after one."""
        for file in self.path.glob(f"{DIGITS}/{DIGITS}/{DIGITS}.*"):
            if int("".join(file.relative_to(self.path).parts)[:9]) > number:
                yield file

    def restart(self, number: int, time: datetime | None, is_renumbered: bool) -> None:
        """Has the folder end at a number: `state.txt` says it, and the files of all later numbers go. A reader of the
        folder finds none of these from the first step on."""
        top = self.path / "state.txt"
        if number and time:
            files.replace(top, state.state_text(number, time))
        else:
            files.remove(top)
        with files.writing(self.path):
            for file in self.later(number):
                file.unlink()
        if not is_renumbered:
            files.remove(self.renumbered)

    def note_renumbered(self) -> None:
        if not self.is_renumbered:
            files.replace(self.renumbered, RENUMBERED.encode())

    def newest(self) -> State | None:
        """What `state.txt` says."""
        return self.read(self.path / "state.txt")

    def state(self, number: int) -> State | None:
        return self.read(self.place(number, "state.txt"))

    @staticmethod
    def read(path: Path) -> State | None:
        try:
            with files.open_file(path) as file:
                return state.read_state(file.read())
        except OSError:
            return None

    def lowest(self) -> int | None:
        return next(self.numbers(), None)

    def highest(self) -> int | None:
        return next(self.numbers(is_falling=True), None)

    def numbers(self, is_falling: bool = False) -> Iterator[int]:
        """The numbers that have a state, in order."""
        for outer in sorted(self.path.glob(DIGITS), reverse=is_falling):
            for inner in sorted(outer.glob(DIGITS), reverse=is_falling):
                for file in sorted(inner.glob(f"{DIGITS}.state.txt"), reverse=is_falling):
                    yield state.number_of(str(file.relative_to(self.path)))

    def refusal(self, number: int) -> str | None:
        """What was said of a number that can't be followed."""
        try:
            return self.place(number, "refused").read_text("utf-8", "replace").strip()
        except OSError:
            return None

    def stay_away(self, url: str) -> None:
        """Ends the run if the server wants no request now. What another server wants is left. A later moment than any
        server may say is one of a clock that was wrong."""
        moment, of = self.kept_away(url)
        if moment - LONGEST_AWAY <= time.time() < moment:
            if of == url:
                said = time.strftime("%Y-%m-%dT%H:%M:%SZ", time.gmtime(moment))
                raise Fault(f"{url}: asked for no request before {said}", mends=True)
        else:
            files.remove(self.not_before)

    def kept_away(self, url: str) -> tuple[int, str]:
        """The moment before which a server wants no request, and that server: `url` if the file, which is then of an
        earlier release, doesn't say it."""
        try:
            moment, _, of = self.not_before.read_text("utf-8", "replace").strip().partition(" ")
            return int(moment), of or url
        except (OSError, ValueError):
            return 0, url

    def keep_away(self, url: str, fault: KeptAway) -> None:
        with files.writing(self.not_before):
            self.not_before.write_text(f"{fault.moment} {url}\n", "utf-8")


@dataclass
class Lot:
    """Numbers whose files are whole and not yet in their places."""

    folder: Folder
    room: Path
    moves: list[tuple[Path, Path]] = field(default_factory=list)
    newest: State | None = None
    numbers: list[int] = field(default_factory=list)
    # the bytes that were downloaded, those of the changes, and how many were converted
    size: int = 0
    changes: int = 0
    converted: int = 0
    begun: float = field(default_factory=time.monotonic)

    def add(self, number: State, changes: Path | None, suffix: str, size: int) -> None:
        """Adds a number: its changes, unless the folder has them, and then its state."""
        text = self.room / f"{number.number}.state.txt"
        with files.writing(text):
            text.write_bytes(number.text)
        if changes:
            self.move(changes, self.folder.place(number.number, suffix))
        self.move(text, self.folder.place(number.number, "state.txt"))
        self.newest = number
        self.numbers.append(number.number)
        self.size += size

    def refuse(self, number: State, diff: Path, said: str) -> None:
        """Adds a diff that no follower can take, with its state and what is said of it."""
        text = self.room / f"{number.number}.refused"
        with files.writing(text):
            text.write_text(said + "\n")
        self.move(diff, self.folder.place(number.number, "osc.gz"))
        self.add(number, text, "refused", 0)
        self.numbers.pop()

    def move(self, file: Path, to: Path) -> None:
        self.moves.append((file, to))

    @property
    def is_full(self) -> bool:
        return len(self.numbers) >= MOST_NUMBERS or self.size >= MOST_BYTES or (
            bool(self.moves) and time.monotonic() - self.begun > MOST_SECONDS)

    def put(self, top: State | None = None, is_servers: bool = False) -> None:
        """Has the files on the disk, and then in their places, number by number; `state.txt` is the last, that of
        `top`, or else of the last number, unless the folder has a later one. One of a number that never came goes back
        with the server's."""
        newest, before = top or self.newest, self.folder.newest()
        never_came = is_servers and before and not self.folder.has(before.number, "state.txt")
        if newest and (before is None or before.number < newest.number or before.number > newest.number and never_came):
            text = self.room / "state.txt"
            with files.writing(text):
                text.write_bytes(newest.text)
            self.move(text, self.folder.path / "state.txt")
        if self.moves:
            with files.writing(self.folder.path):
                files.sync_all(self.room, [file for file, _ in self.moves])
            for file, to in self.moves:
                rename(file, to)


def rename(file: Path, to: Path) -> None:
    with files.writing(to.parent):
        try:
            os.rename(file, to)
        except FileNotFoundError:
            to.parent.mkdir(parents=True, exist_ok=True)
            os.rename(file, to)
