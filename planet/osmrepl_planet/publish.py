"""Publishes a file of changes as the next number of a folder, once, and as .osc.gz beside osmrepl's files, so that
the clients of the field can follow the folder."""

import argparse
import os
import re
import subprocess
from collections.abc import Iterator
from dataclasses import dataclass
from datetime import datetime, timezone
from pathlib import Path

from . import files, locks, lots, opl, program, state
from .faults import DONE, Fault
from .folder import Folder
from .options import STRICT, VERBOSE
from .output import LOG, print_lines
from .progress import Progress
from .state import time_text
from .stop import Stop
from .taking import Changes

HELP = """\
CHANGES is an OPL file, or whatever osmium reads as changes: .osc, .osc.gz, .o5c. From the first try
on the first line of CHANGES, a comment, keeps the number and the time that the changes are
published with (of another form than OPL that is CHANGES.publish.opl). So however often a run is cut
off, the same words again publish the changes once. At the end CHANGES is removed.

While a run works, CHANGES is .publish.CHANGES beside it, so a file that comes under its name
meanwhile stays for the next run. After a fault it has its name again, unless another file came
under it. What a run that was killed left under the other name is published first, and then CHANGES.

The number's .osc.gz is written and synced before state.txt names the number. It has objects that
have no user or no changeset as the field has them; .opl and .o5c have the number 2147483647 there.
--strict refuses such objects. A repeat changes no .osc.gz that is published. Changes that XML can't
hold, such as control characters, are refused.

As in
  osmrepl-planet publish folder changes.opl

Status 0: done; 2: the words are refused; 3: any other fault; 4: another run is at work in DIR."""

MARK = re.compile(rb"# published as (\d{1,9}) at (\d{4}-\d\d-\d\dT\d\d:\d\d:\d\dZ)\n(?:# of ([0-9a-f]{64})\n)?")
# what osmium says of a line that it can't read: it counts them from 0
BAD_LINE = re.compile(r"osmium: (OPL error: .* on line )(\d+)( column \d+)$")


@dataclass(frozen=True)
class Publication:
    """A number, its time, the OPL file of its changes, the sum of the file that this was made of, if it is another, and
    whether they are those of a try before."""

    number: int
    time: str
    text: Path
    of: str
    is_repeat: bool = False


def add_words(parser: argparse.ArgumentParser) -> None:
    parser.add_argument("dir", metavar="DIR", type=Path, help="the folder; it is made if it isn't there")
    parser.add_argument("changes", metavar="CHANGES", type=Path, help="the changes")
    parser.add_argument("--now", metavar="TIME", type=moment,
                        help="the time of the number, as 2024-01-01T00:00:00Z, on the first try (that of the clock)")
    parser.add_argument("--strict", action="store_true", help=STRICT)
    parser.add_argument("-v", "--verbose", action="store_true", help=VERBOSE)


def moment(text: str) -> str:
    if "\\" in text or state.read_time(text) is None:
        raise argparse.ArgumentTypeError("bad time")
    return text


def run(words: argparse.Namespace, stop: Stop) -> int:
    program.need_osmium()
    folder, changes = Folder(words.dir), Changes(words.changes)
    publisher = Publisher(words, folder, changes, program.Program(), stop)
    folder.check_numbers()
    if folder.server:
        raise Fault(f"{folder.path}: has numbers of {folder.server}; name another folder")
    with files.writing(words.dir):
        words.dir.mkdir(parents=True, exist_ok=True)
    with locks.folder_held(words.dir) as lock:
        files.remove(changes.new_text)
        is_left = changes.is_left
        if is_left:
            publisher.publish_taken(lock)
        if not is_left or os.path.lexists(changes.given):
            changes.take()
            publisher.publish_taken(lock)
    return DONE


@dataclass
class Publisher:
    """The words of a run, the folder, the changes and the program."""

    words: argparse.Namespace
    folder: Folder
    changes: Changes
    osmrepl: program.Program
    stop: Stop

    def publish_taken(self, lock: int) -> None:
        """Publishes the changes that were taken, says so, and removes them."""
        said: list[str] = []
        with self.changes.held():
            publication = self.prepare(said)
            self.stop.check()
            self.publish(publication, lock)
            print_lines([*said, f"published {publication.number}"])
        self.changes.remove()

    def prepare(self, said: list[str]) -> Publication:
        """The publication of the changes: that of the first try, or a new one."""
        changes, text = self.changes, self.changes.text
        found, number = mark_of(text) if text.exists() else None, self.next_number()
        if found and (changes.is_opl or not changes.taken.exists() or found.of == files.sum_of(changes.taken)):
            self.check_mark(found, number)
            return found
        check_top(self.folder, number - 1)
        time = self.words.now or time_text(datetime.now(timezone.utc))
        with files.reading(changes.given), open(changes.taken, "rb"):
            pass
        check_form(changes)
        made_of = "" if changes.is_opl else files.sum_of(changes.taken)
        mark = f"# published as {number} at {time}\n" + (f"# of {made_of}\n" if made_of else "")
        tally = write_marked(changes, mark.encode(), self.words.strict)
        LOG.info("read %d changes", tally.lines)
        if tally.has_nobody:
            said.append(f"without user {tally.no_user}, without changeset {tally.no_changeset}")
        return Publication(number, time, text, made_of)

    def next_number(self) -> int:
        newest = self.folder.newest()
        if newest is None and (self.folder.path / "state.txt").exists():
            raise Fault(f"{self.folder.path}/state.txt: bad state")
        return newest.number + 1 if newest else 1

    def check_mark(self, found: Publication, number: int) -> None:
        """Refuses changes that were to be published as a number that the folder can't have had yet."""
        if found.number > number:
            kept = f"the first line of {self.changes.given}" if self.changes.is_opl else str(self.changes.text)
            raise Fault(f"{self.changes.given}: was to be number {found.number}, and {self.folder.path} is at "
                        f"{number - 1}: an old copy of it (bring its newest numbers back, or remove {kept})")

    def publish(self, publication: Publication, lock: int) -> None:
        """Publishes the number. Its .osc.gz is there before state.txt names it; one that is published stays as it
        is, and so does one of a number that isn't the next."""
        folder, number = self.folder, publication.number
        newest, diff = folder.newest(), folder.place(number, "osc.gz")
        is_next = number == (newest.number if newest else 0) + 1
        if is_next:
            check_top(folder, last_own(folder, publication))
            self.write_diff(publication.text, diff)
        for place in folder.path, diff.parent:
            files.remove_left(place)
        with Progress(f"publishing {number}"):
            done = self.osmrepl.run("publish", "--now", publication.time, "--sequence", number, "--no-lock", "--",
                                    folder.path, publication.text, kept=(lock,))
        if done.status != 0:
            if is_next and folder.newest() == newest:
                files.remove(diff)
            raise Fault("; ".join(done.faults()).replace(str(self.changes.taken), str(self.changes.given)), done.status)
        if not diff.exists():
            self.write_diff(publication.text, diff)

    def write_diff(self, text: Path, diff: Path) -> None:
        """Writes the changes as others read them."""
        new = diff.with_name(f".{diff.name}.new")
        with files.writing(diff):
            diff.parent.mkdir(parents=True, exist_ok=True)
        try:
            lots.write_diff(text, new, diff, self.check_text)
        except Fault as fault:
            if found := BAD_LINE.search(fault.text):
                raise Fault(f"{self.changes.given}: osmium: {found[1]}{int(found[2]) + 1}{found[3]}") from fault
            raise
        files.put(new, diff)

    def check_text(self, text: bytes) -> None:
        """Refuses what no .osc.gz can have."""
        opl.check(text, "XML", self.changes.given, f"mend {self.changes.given}", is_own=False)


def check_top(folder: Folder, number: int) -> None:
    """Refuses a folder that has the state of a number after that one: state.txt was lost, or is an older copy."""
    highest = folder.highest()
    if highest is None or highest <= number:
        return
    top, newest, file = folder.path / "state.txt", folder.newest(), folder.place(highest, "state.txt")
    said = f"at {newest.number}" if newest else "not there"
    raise Fault(f"{top}: {said}, though {file} is there (copy that to {top}; or remove it, if it was never published)")


def last_own(folder: Folder, publication: Publication) -> int:
    """The last number whose state may be there: that of the publication itself, if a try before left it."""
    found = folder.state(publication.number)
    is_own = publication.is_repeat and found is not None and time_text(found.time) == publication.time
    return publication.number if is_own else publication.number - 1


def check_form(changes: Changes) -> None:
    """Refuses a data file: its objects are no changes."""
    if opl.form_of(changes.given.name) == "OPL":
        # that says nothing of what it holds
        return
    words = ["fileinfo", "--no-progress", "-g", "header.with_history", os.path.abspath(changes.taken)]
    done = subprocess.run([program.need_osmium(), *words], stdin=subprocess.DEVNULL, capture_output=True, check=False)
    if done.returncode != 0:
        raise program.fault_of(changes.given, done.stderr, done.returncode)
    if done.stdout.strip() == b"no":
        raise Fault(f"{changes.given}: a data file, and no changes")


def mark_of(text: Path) -> Publication | None:
    """What the first line of a file keeps of the first try."""
    with files.reading(text), files.open_file(text) as file:
        found = MARK.match(file.read(400))
    if found is None:
        return None
    return Publication(int(found[1]), found[2].decode(), text, (found[3] or b"").decode(), is_repeat=True)


def write_marked(changes: Changes, mark: bytes, strict: bool) -> opl.Tally:
    """Writes the text of the changes with the mark before it, in which each object has an author."""
    new, tally, given = changes.new_text, opl.Tally(), changes.given
    with files.writing(changes.text), files.removed_after_fault(new):
        with open(new, "wb") as out, Progress(f"read {given.name}:", unit=" changes") as progress:
            out.write(mark)
            for block in opl_of(changes):
                tally.take(block)
                out.write(block if strict else opl.with_nobody(block))
                progress.show(tally.lines)
        if strict and tally.has_nobody:
            raise Fault(f"{given}: objects without user or changeset, which --strict refuses")
    files.put(new, changes.text)
    return tally


def opl_of(changes: Changes) -> Iterator[bytes]:
    """The text of the changes in blocks: as it is, or as osmium makes it, or osmrepl of what osmium misreads."""
    if changes.is_opl:
        with files.reading(changes.given), open(changes.taken, "rb") as file:
            yield from opl.blocks_of(file)
        return
    if program.is_misread(changes.taken):
        yield from converted(changes)
        return
    with program.osmium_cat(os.path.abspath(changes.taken), "-f", "opl", "-o", "-", of=changes.given) as text:
        yield from opl.blocks_of(text)


def converted(changes: Changes) -> Iterator[bytes]:
    """The text that osmrepl makes of an o5c file, which takes no objects without authors."""
    done = program.Program().run("convert", "--", changes.taken, changes.text)
    if done.status != 0:
        said = "; ".join(done.faults()).replace(str(changes.taken), str(changes.given))
        raise Fault(f"{said}; and osmium misreads it at a role of 250 bytes")
    try:
        with open(changes.text, "rb") as file:
            yield from opl.blocks_of(file)
    finally:
        files.remove(changes.text)
