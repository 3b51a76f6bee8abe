"""Keeps a SQLite database with the objects of a mirror and its edits: a consumer whose number is in its own tables."""

import argparse
from dataclasses import replace
from pathlib import Path

from . import cursors, export, files, lots
from .cursors import Mirrored
from .database import At, Database, Rows, at
from .faults import DONE, Fault
from .lots import Lot
from .options import VERBOSE, plain_path
from .output import LOG, print_lines
from .progress import Progress
from .state import read_time
from .stop import Stop

# how many numbers a transaction has at most, and after how many bytes of changes it has no more
MOST_NUMBERS, MOST_BYTES = 1440, 64 << 20

HELP = """\
DB is made of SAVE's objects if it isn't there, and then given what is new, with its number in the
same transaction: whatever is killed, it has the objects of exactly that number, and the edits of
the numbers after base, at which it was made, up to that one. Others may read it meanwhile (WAL).
DB.state.txt, a cursor that SAVE.source lists, says the number to status and to mirror --keep.

  mirror (number, time, kinds, keys, base)
  objects (kind, id, version, time, changeset, uid, user, lon, lat)
  tags (kind, id, place, key, value)
  refs (way, place, node)
  members (relation, place, kind, id, role)
  edits (day, uid, changeset, created, modified, deleted)
  users (uid, user)

A kind is n, w or r. Edits are counted as osmrepl tally counts them: those of all objects, also ones
that the filter doesn't keep. As in
  osmrepl-planet sqlite follower.save map.db
  sqlite3 map.db "SELECT value, count(*) FROM tags WHERE key = 'highway' GROUP BY value"

Status 0: done, or nothing new; 2: the words are refused; 3: any other fault; 4: another run is at
work on DB."""


def add_words(parser: argparse.ArgumentParser) -> None:
    parser.add_argument("save", metavar="SAVE", type=Path, help="the mirror")
    parser.add_argument("db", metavar="DB", type=plain_path, help="the database")
    parser.add_argument("-v", "--verbose", action="store_true", help=VERBOSE)


def run(words: argparse.Namespace, stop: Stop) -> int:
    return Consumer(words.save, words.db, stop).run()


class Consumer:
    """A mirror and its database. The cursor beside that only says what is in it."""

    def __init__(self, save: Path, path: Path, stop: Stop) -> None:
        self.save, self.path, self.stop = save, path, stop
        self.lead, self.cursor = files.lead_of(path), files.beside(path, "state.txt")
        self.anew = f"remove {path}, and it is made anew"

    def run(self) -> int:
        with cursors.held(self.save, self.cursor):
            if not self.lead.exists():
                self.begin(cursors.mirrored(self.save))
            mirrored = cursors.mirrored(self.save)
            with Database(self.lead) as database:
                found = database.open()
                self.check(mirrored, found)
                self.note(found)
                found = self.take_all(mirrored, database, found)
        print_lines([f"number {found.number}"])
        return DONE

    def begin(self, mirrored: Mirrored) -> None:
        """Makes the database of all objects. The cursor names an earlier number meanwhile, so that nothing is removed
        from the folder that it will lack."""
        position = mirrored.to_begin_at()
        self.note(at(position))
        new = self.lead.with_name(f".{self.lead.name}.new")
        # what is beside a database is read as a part of it, also of one that is gone
        for left in (new, *(Path(f"{file}-{rest}") for file in (new, self.lead) for rest in ("wal", "shm"))):
            files.remove(left)
        with Database(new) as database:
            database.begin()
            database.finish(self.insert_all(database, at(position)))
        files.put(new, self.lead)

    def insert_all(self, database: Database, found: At) -> At:
        """Inserts what `osmrepl show` prints. Gives where that is, which may be after where the save was before."""
        with export.shown(self.save) as shown, Progress("wrote", unit=" objects") as progress:
            start = shown.read(1)
            if start:
                head, rest = export.read_head(shown, start)
                progress.total, done = int(head[3]), 0
                for block in export.objects_of(shown, rest, progress.total):
                    self.stop.check()
                    rows = Rows(block.decode().splitlines())
                    database.insert(rows)
                    done += len(rows.keys)
                    progress.show(done)
                found = replace(found, number=int(head[1]), time=read_time(head[2].decode()))
        LOG.info("wrote the objects of number %d", found.number)
        return found

    def check(self, mirrored: Mirrored, found: At) -> None:
        wanted = at(mirrored.position)
        if (found.kinds, found.keys) != (wanted.kinds, wanted.keys):
            raise Fault(f"{self.path}: of other kinds or keys than {self.save} ({self.anew})")
        mirrored.check(self.path, found.number, found.time, self.anew)
        cursors.check_listed(mirrored, self.cursor, self.anew)

    def note(self, found: At) -> None:
        """Has the cursor say what is in the database, whatever it said."""
        known = cursors.cursor_of(self.cursor).state
        if known is None or (known.number, known.time) != (found.number, found.time):
            cursors.move(self.cursor, found.number, found.time)
        cursors.add(self.save, self.cursor)

    def take_all(self, mirrored: Mirrored, database: Database, found: At) -> At:
        with files.Room(self.lead.parent, f".{self.lead.name}.changes.") as room:
            while found.number < mirrored.position.number:
                self.stop.check()
                last = last_of(mirrored, found.number)
                time = mirrored.time_needed(last, self.anew)
                lot = Lot(found.number + 1, last, "opl")
                changes = lots.write_text(mirrored, lot, room, self.stop, self.anew)
                edits = lots.write_edits(mirrored, lot, room, self.stop, self.anew)
                with Progress(f"taking the numbers up to {last}"):
                    database.take(lot, time, changes, edits)
                found = replace(found, number=last, time=time)
                cursors.move(self.cursor, last, time)
        return found


def last_of(mirrored: Mirrored, number: int) -> int:
    """The last number of the transaction after a number."""
    last, size = number, 0
    while last < mirrored.position.number and last - number < MOST_NUMBERS and size < MOST_BYTES:
        last += 1
        size += mirrored.folder.size_of(last)
    return last
