"""The tables of a SQLite database with the objects of a mirror and the edits since it was made, and its number beside
them: all change in one transaction."""

import contextlib
import csv
import sqlite3
from collections.abc import Iterable, Iterator
from dataclasses import dataclass
from datetime import datetime
from pathlib import Path

from . import files, opl, state
from .faults import Fault, cause_of
from .lots import Lot
from .save import Position
from .state import time_text

# osmr, and which tables these are
KNOWN = "application_id", "user_version"
APPLICATION, VERSION = 0x6F736D72, 1
# how long another program may hold the database, in seconds
PATIENCE = 60
COLUMNS = {"objects": 9, "tags": 5, "refs": 3, "members": 5}
TABLES = """\
CREATE TABLE mirror (number INTEGER NOT NULL, time TEXT NOT NULL, kinds TEXT NOT NULL, keys TEXT NOT NULL,
    base INTEGER NOT NULL);
CREATE TABLE objects (kind TEXT, id INTEGER, version INTEGER, time TEXT, changeset INTEGER, uid INTEGER, user TEXT,
    lon REAL, lat REAL, PRIMARY KEY (kind, id)) WITHOUT ROWID;
CREATE TABLE tags (kind TEXT, id INTEGER, place INTEGER, key TEXT, value TEXT,
    PRIMARY KEY (kind, id, place)) WITHOUT ROWID;
CREATE TABLE refs (way INTEGER, place INTEGER, node INTEGER, PRIMARY KEY (way, place)) WITHOUT ROWID;
CREATE TABLE members (relation INTEGER, place INTEGER, kind TEXT, id INTEGER, role TEXT,
    PRIMARY KEY (relation, place)) WITHOUT ROWID;
CREATE TABLE edits (day TEXT, uid INTEGER, changeset INTEGER, created INTEGER NOT NULL, modified INTEGER NOT NULL,
    deleted INTEGER NOT NULL, PRIMARY KEY (day, uid, changeset)) WITHOUT ROWID;
CREATE TABLE users (uid INTEGER PRIMARY KEY, user TEXT NOT NULL);
"""
INDEXES = """\
CREATE INDEX tags_by_key ON tags (key, value);
CREATE INDEX refs_by_node ON refs (node);
CREATE INDEX members_by_id ON members (kind, id);
"""
REMOVED = {"DELETE FROM objects WHERE kind = ? AND id = ?": "nwr", "DELETE FROM tags WHERE kind = ? AND id = ?": "nwr",
           "DELETE FROM refs WHERE ? = 'w' AND way = ?": "w", "DELETE FROM members WHERE ? = 'r' AND relation = ?": "r"}
# the counts of two ranges add up, and a user has the name of the last one
COUNTED = """\
INSERT INTO edits VALUES (:day, :uid, :changeset, :created, :modified, :deleted)
    ON CONFLICT (day, uid, changeset) DO UPDATE SET created = created + excluded.created,
    modified = modified + excluded.modified, deleted = deleted + excluded.deleted""", """\
INSERT INTO users VALUES (:uid, :user) ON CONFLICT (uid) DO UPDATE SET user = excluded.user"""


@dataclass(frozen=True)
class At:
    """Where a database is: the number that it has, its time, and under which filter."""

    number: int
    time: datetime
    kinds: str
    keys: str


def at(position: Position) -> At:
    return At(position.number, position.time, position.kinds, " ".join(sorted(map(opl.escape, position.keys))))


class Rows:
    """The rows of lines of OPL, by their tables, and the objects of these."""

    def __init__(self, lines: Iterable[str]) -> None:
        self.keys: list[tuple[str, int]] = []
        self.of: dict[str, list[tuple]] = {table: [] for table in COLUMNS}
        for line in lines:
            self.take(line)

    def take(self, line: str) -> None:
        head, version, shown, changeset, time, uid, user, tags, *body = line.split(" ")
        key = head[0], int(head[1:])
        self.keys.append(key)
        if shown == "dD":
            return
        lon, lat = (float(part[1:]) for part in body) if key[0] == "n" else (None, None)
        meta = int(version[1:]), time[1:], author(changeset), author(uid), text(user[1:])
        self.of["objects"].append((*key, *meta, lon, lat))
        for place, tag in enumerate(parts(tags)):
            name, _, value = tag.partition("=")
            self.of["tags"].append((*key, place, text(name), text(value)))
        if key[0] == "w":
            self.of["refs"] += [(key[1], place, int(ref[1:])) for place, ref in enumerate(parts(body[0]))]
        elif key[0] == "r":
            self.of["members"] += [(key[1], place, *member(part)) for place, part in enumerate(parts(body[0]))]


def parts(field: str) -> list[str]:
    return field[1:].split(",") if field[1:] else []


def member(part: str) -> tuple[str, int, str]:
    ref, _, role = part.partition("@")
    return ref[0], int(ref[1:]), text(role)


def text(escaped: str) -> str:
    return opl.unescape(escaped) if "%" in escaped else escaped


def author(field: str) -> int | None:
    number = int(field[1:])
    return None if number in (0, opl.NOBODY) else number


class Database:
    """A database that is open."""

    def __init__(self, path: Path) -> None:
        self.path = path
        with self.saying():
            self.connection = sqlite3.connect(path, timeout=PATIENCE, isolation_level=None)

    def __enter__(self) -> "Database":
        return self

    def __exit__(self, *_: object) -> None:
        with contextlib.suppress(sqlite3.Error):
            self.connection.close()

    @contextlib.contextmanager
    def saying(self) -> Iterator[None]:
        """Says which database has a fault."""
        try:
            yield
        except sqlite3.Error as error:
            raise Fault(f"{self.path}: sqlite: {cause_of(error)}") from error

    def begin(self) -> None:
        """Makes the tables, without anything that a kill would need: nobody knows the file yet."""
        with self.saying():
            for setting in ("journal_mode = OFF", "synchronous = OFF", f"application_id = {APPLICATION}",
                            f"user_version = {VERSION}"):
                self.connection.execute(f"PRAGMA {setting}")
            self.connection.executescript(TABLES)
            self.connection.execute("BEGIN")

    def finish(self, found: At) -> None:
        """Has the database be one that others may open while it changes."""
        with self.saying():
            self.connection.execute("INSERT INTO mirror VALUES (?, ?, ?, ?, ?)",
                                    (found.number, time_text(found.time), found.kinds, found.keys, found.number))
            self.connection.execute("COMMIT")
            self.connection.executescript(INDEXES)
            self.connection.execute("PRAGMA journal_mode = WAL")

    def open(self) -> At:
        """Where it is. Each of its transactions is on the disk at its end."""
        with self.saying():
            self.connection.execute("PRAGMA synchronous = FULL")
            known = [self.connection.execute(f"PRAGMA {word}").fetchone() for word in KNOWN]
            if known != [(APPLICATION,), (VERSION,)]:
                raise Fault(f"{self.path}: no database of osmrepl-planet sqlite (name another file)")
            row = self.connection.execute("SELECT number, time, kinds, keys FROM mirror").fetchone()
        number, time, kinds, keys = row
        return At(number, state.read_time(time), kinds, keys)

    def insert(self, rows: Rows) -> None:
        with self.saying():
            for table, columns in COLUMNS.items():
                marks = ", ".join("?" * columns)
                self.connection.executemany(f"INSERT INTO {table} VALUES ({marks})", rows.of[table])

    def remove(self, rows: Rows) -> None:
        """Removes what the objects were. One that isn't there is taken as removed."""
        with self.saying():
            for statement, kinds in REMOVED.items():
                self.connection.executemany(statement, [key for key in rows.keys if key[0] in kinds])

    def count(self, edits: Path) -> None:
        """Adds the rows of a tally."""
        with self.saying():
            for statement in COUNTED:
                self.connection.executemany(statement, edits_of(edits))

    def take(self, lot: Lot, time: datetime, changes: Path, edits: Path) -> None:
        """Takes the changes and the edits of the numbers of a lot, unless it has these already: they and the number
        are there together or not at all."""
        with self.saying():
            self.connection.execute("BEGIN IMMEDIATE")
            number = self.connection.execute("SELECT number FROM mirror").fetchone()[0]
        if number == lot.first - 1:
            for rows in rows_of(changes):
                self.remove(rows)
                self.insert(rows)
            self.count(edits)
            with self.saying():
                self.connection.execute("UPDATE mirror SET number = ?, time = ?", (lot.last, time_text(time)))
        with self.saying():
            self.connection.execute("COMMIT")


def rows_of(changes: Path) -> Iterator[Rows]:
    with files.reading(changes), open(changes, "rb") as file:
        for block in opl.blocks_of(file):
            yield Rows(block.decode().splitlines())


def edits_of(tally: Path) -> Iterator[dict[str, str]]:
    with files.reading(tally), open(tally, encoding="utf-8", newline="") as file:
        yield from csv.DictReader(file, strict=True)
