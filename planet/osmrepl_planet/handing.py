"""Hands a mirror on: a change file of what a consumer lacks, the consumer's command, and then the cursor. While a file
waits for its consumer it stays as it is, whatever the mirror does."""

import os
import shutil
import subprocess
import sys
import tempfile
from collections.abc import Iterator
from contextlib import contextmanager
from dataclasses import dataclass, replace
from datetime import datetime
from pathlib import Path
from typing import BinaryIO, Protocol

from . import cursors, files, lots
from .converter import how
from .cursors import Mirrored
from .faults import Fault, Stopped, cause_of
from .lots import Lot
from .output import LOG
from .program import TICK
from .progress import cleared
from .state import State
from .stop import Stop


class Taker(Protocol):
    """Whoever takes lots, and the folder in which each has its place."""

    folder: Path

    def lot_after(self, number: int, form: str) -> Lot | None:
        """The lot after a number whose range is settled: an earlier run made it."""

    def is_settled(self, lot: Lot, file: Path, mirrored: Mirrored, anew: str) -> bool:
        """Whether the file of a lot is there and needn't be made. A fault if it is of another mirror."""

    def settle(self, lot: Lot, made: Path, time: datetime) -> None:
        """Keeps what tells the file of a lot, whose last number is of that time, from another mirror's. Refuses one that
        differs from what it was."""

    def take(self, lot: Lot, lock: int, stop: Stop) -> None:
        """Takes a lot that has its place. A fault if it isn't taken."""

    def end(self) -> None:
        """The cursor has moved, or there is nothing new."""


class Command:
    """A command that is given the file of a lot. What it is to take waits in the folder CURSOR.pending."""

    def __init__(self, cursor: Path, words: list[str], is_quiet: bool) -> None:
        self.cursor, self.words, self.is_quiet = cursor, words, is_quiet
        self.folder = files.beside(cursor, "pending")

    def lot_after(self, number: int, form: str) -> Lot | None:
        found = next((lot for lot in lots.lots_in(self.folder) if lot.first == number + 1), None)
        return found and replace(found, form=form)

    def noted(self, lot: Lot) -> Path:
        """A state text: that of the last number, when the file was made."""
        return self.folder / f"{lot.first}-{lot.last}.state.txt"

    def is_settled(self, lot: Lot, file: Path, mirrored: Mirrored, anew: str) -> bool:
        if not file.exists():
            return False
        # an earlier release kept none
        if (known := cursors.cursor_of(self.noted(lot)).state) is not None:
            mirrored.check(file, lot.last, known.time, anew)
        return True

    def settle(self, lot: Lot, made: Path, time: datetime) -> None:
        cursors.move(self.noted(lot), lot.last, time)

    def take(self, lot: Lot, lock: int, stop: Stop) -> None:
        path = os.path.abspath(self.folder / lot.name)
        words = [word.replace("{}", path) for word in self.words]
        environment = {**os.environ, "OSMREPL_FROM": str(lot.first), "OSMREPL_TO": str(lot.last)}
        with self.output() as output:
            status = self.run(words, environment, output, lock, stop)
            if status == 0:
                return
            show(output)
        if stop.is_set:
            raise Stopped
        raise Fault(f"{self.cursor}: {lot} wasn't taken: {words[0]}: {how(status)}")

    @contextmanager
    def output(self) -> Iterator[BinaryIO | None]:
        """Where the command's output is kept until it is known whether a person is needed; None if it is shown."""
        if self.is_quiet:
            with tempfile.TemporaryFile() as file:
                yield file
        else:
            yield None

    def run(self, words: list[str], environment: dict, output: BinaryIO | None, lock: int, stop: Stop) -> int:
        """Runs the command to its end, which a signal only asks for. It holds the lock of the cursor too: if this run
        is killed alone, no other one begins beside the command."""
        LOG.info("running %s", " ".join(words))
        try:
            child = subprocess.Popen(words, env=environment, stdin=subprocess.DEVNULL, stdout=output, stderr=output,
                                     pass_fds=[lock])
        except (OSError, ValueError) as error:
            raise Fault(f"{self.cursor}: {words[0]}: doesn't run ({cause_of(error)})") from error
        is_asked = False
        while True:
            try:
                return child.wait(TICK)
            except subprocess.TimeoutExpired:
                if stop.is_set and not is_asked:
                    child.terminate()
                    is_asked = True

    def end(self) -> None:
        shutil.rmtree(self.folder, ignore_errors=True)


def show(output: BinaryIO | None) -> None:
    """Says what a command said that wasn't shown."""
    if output:
        output.seek(0)
        with cleared():
            sys.stderr.flush()
            shutil.copyfileobj(output, sys.stderr.buffer)
            sys.stderr.flush()


@dataclass(frozen=True)
class Handing:
    """A mirror and a cursor, which this run alone has."""

    mirrored: Mirrored
    cursor: Path
    lock: int
    stop: Stop

    @property
    def anew(self) -> str:
        return f"remove {self.cursor} and begin it anew: hand-on {self.mirrored.save} {self.cursor} --start OUT.osm.pbf"

    def run(self, taker: Taker, most: int | None, form: str) -> Lot | None:
        """Hands on the next lot, of so many numbers at most. Gives which, or None if there is nothing new."""
        state = self.state()
        lot = taker.lot_after(state.number, form) or self.new_lot(state.number, most, form)
        if lot:
            self.hand_on(lot, taker)
        taker.end()
        return lot

    def state(self) -> State:
        """Where the consumer is, which has to be one of this mirror."""
        if not files.lead_of(self.cursor).exists():
            raise Fault(f"{self.cursor}: not there (--start OUT.osm.pbf begins it)")
        state = cursors.read(self.cursor)
        cursors.check_listed(self.mirrored, self.cursor, self.anew)
        self.mirrored.check(self.cursor, state.number, state.time, self.anew)
        return state

    def new_lot(self, number: int, most: int | None, form: str) -> Lot | None:
        last = self.mirrored.position.number
        if most is not None:
            last = min(last, number + most)
        return Lot(number + 1, last, form) if last > number else None

    def hand_on(self, lot: Lot, taker: Taker) -> None:
        time, file = self.mirrored.time_needed(lot.last, self.anew), taker.folder / lot.name
        files.make_folder(taker.folder)
        with files.Room(taker.folder, ".lot.") as room:
            if not taker.is_settled(lot, file, self.mirrored, self.anew):
                made = lots.write(self.mirrored, lot, room, self.stop, self.anew)
                taker.settle(lot, made, time)
                if not file.exists() or files.sum_of(file) != files.sum_of(made):
                    files.put(made, file)
        self.stop.check()
        taker.take(lot, self.lock, self.stop)
        cursors.move(self.cursor, lot.last, time)
        LOG.info("handed on %s", lot)


@contextmanager
def entered(save: Path, cursor: Path, stop: Stop) -> Iterator[Handing]:
    """Keeps other runs from a cursor."""
    with cursors.held(save, cursor) as lock:
        yield Handing(cursors.mirrored(save), cursor, lock, stop)
