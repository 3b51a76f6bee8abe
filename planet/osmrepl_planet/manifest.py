"""A folder of lots for engines that take files: each lot once, under a name that has its range, and a manifest with the
sum of each, as sha256sum -c reads it."""

import contextlib
import re
from collections.abc import Iterator
from pathlib import Path

from . import files, locks
from .faults import Fault
from .lots import NAME, Lot, lot_of, lots_in

LINE = re.compile(rf"([0-9a-f]{{64}})  ({NAME.pattern})\n")


class Manifest:
    """The lots that a folder has, or had, each with its sum."""

    def __init__(self, folder: Path) -> None:
        self.folder, self.path = folder, folder / "manifest"
        self.sums: dict[Lot, str] = {}
        if self.path.exists():
            with files.reading(self.path), files.open_file(self.path) as file:
                text = file.read().decode("utf-8", "replace")
            for number, line in enumerate(text.splitlines(True), 1):
                found = LINE.fullmatch(line)
                if found is None:
                    raise Fault(f"{self.path}: bad line {number}")
                self.sums[lot_of(found[2])] = found[1]

    @property
    def last(self) -> int | None:
        return max((lot.last for lot in self.sums), default=None)

    def lot_after(self, number: int, form: str) -> Lot | None:
        """The lot that begins after a number: one that the manifest names, or one that a kill kept out of it."""
        begun = [lot for lot in self.sums or lots_in(self.folder) if lot.form != form]
        if begun:
            raise Fault(f"{self.folder}: its lots are .{begun[0].form} (--form {begun[0].form}, or another folder)")
        known = next((lot for lot in self.sums if lot.first == number + 1), None)
        if known is None and self.last not in (None, number):
            raise Fault(f"{self.path}: ends at {self.last}, and the cursor is at {number}: lots of another cursor "
                        "(name another folder)")
        return known or next((lot for lot in lots_in(self.folder) if lot.first == number + 1), None)

    def is_settled(self, lot: Lot, file: Path, _mirrored: object, _anew: str) -> bool:
        """A lot that is there after the cursor is made again, which shows whether it is one of this mirror: a run was
        killed, or an older cursor was put back."""
        if file.exists():
            self.check(lot, file)
        return False

    def settle(self, lot: Lot, made: Path, _time: object) -> None:
        self.check(lot, made)

    def check(self, lot: Lot, file: Path) -> None:
        """Refuses other bytes than those that a lot had before."""
        known = self.sums.get(lot)
        if known and known != files.sum_of(file):
            raise Fault(f"{self.folder / lot.name}: isn't what {self.path} says of it (put a copy back, or name another "
                        "folder)")

    def take(self, lot: Lot, _lock: int, _stop: object) -> None:
        """Names a lot that has its place."""
        file = self.folder / lot.name
        self.check(lot, file)
        if lot not in self.sums:
            self.sums[lot] = files.sum_of(file)
            lines = [f"{found}  {one.name}\n" for one, found in self.sums.items()]
            files.replace(self.path, "".join(lines).encode())

    def end(self) -> None:
        """Lots stay."""


@contextlib.contextmanager
def entered(folder: Path) -> Iterator[Manifest]:
    """The manifest of a folder, for a block in which no other run adds to it."""
    files.make_folder(folder)
    lock = folder / ".lock"
    with locks.held(lock, f"{folder}: in use ({lock})"):
        yield Manifest(folder)
