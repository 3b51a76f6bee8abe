"""sqlite: a database whose tables are those of the mirror's export and of one tally of all numbers that it took,
whatever is killed."""

import contextlib
import fcntl
import re
import shutil
import sqlite3

from planet_cases.counting import EDITS, answers_of, tallied
from planet_cases.killing import Killing
from planet_place import NOBODY, Case, expect, expect_fault, number_in, numbered, opl_of, time_text
from planet_server import path_of, state_text

TABLES = "objects", "tags", "refs", "members"


def unescaped(text):
    return re.sub("%([0-9a-f]+)%", lambda found: chr(int(found[1], 16)), text)


def parts_of(text):
    return [part for part in text[1:].split(",") if part]


def rows_of(text):
    """The rows that the lines of an export come to, by their tables."""
    rows = {table: [] for table in TABLES}
    for line in text.splitlines():
        values = {part[0]: part for part in line.split(" ")[1:]}
        key = line[0], int(line.split(" ")[0][1:])
        authors = [int(values[letter][1:]) or None for letter in "ci"]
        place = [float(values[letter][1:]) for letter in "xy"] if line[0] == "n" else [None, None]
        version, user = int(values["v"][1:]), unescaped(values["u"][1:])
        rows["objects"].append((*key, version, values["t"][1:], *authors, user, *place))
        for number, tag in enumerate(parts_of(values["T"])):
            rows["tags"].append((*key, number, *map(unescaped, tag.split("="))))
        for number, ref in enumerate(parts_of(values.get("N", "N"))):
            rows["refs"].append((key[1], number, int(ref[1:])))
        for number, member in enumerate(parts_of(values.get("M", "M"))):
            ref, role = member.split("@")
            rows["members"].append((key[1], number, ref[0], int(ref[1:]), unescaped(role)))
    return {table: sorted(found) for table, found in rows.items()}


def tables_of(file):
    with contextlib.closing(sqlite3.connect(f"file:{file}?mode=ro", uri=True)) as database:
        expect("whole", database.execute("PRAGMA integrity_check").fetchall(), [("ok",)])
        return {table: sorted(database.execute(f"SELECT * FROM {table}")) for table in TABLES}


def number_of(file):
    with contextlib.closing(sqlite3.connect(f"file:{file}?mode=ro", uri=True)) as database:
        return database.execute("SELECT number FROM mirror").fetchall()


def edits_of(file):
    """The number at which a database was made, its own number, and its edits."""
    [numbers], edits = answers_of(file, "SELECT base, number FROM mirror", EDITS)
    return *numbers, edits


class Databases(Case):
    def begin_at(self, number, *words, save="follower.save"):
        self.tree.set_top(number)
        expect("start", self.start(save, *words)[1:], ("", 0))
        self.up_to(number, save=save)

    def sqlite(self, db="map.db", save="follower.save"):
        return self.planet("sqlite", save, db)

    def expect_tables(self, number, db="map.db", save="follower.save"):
        """They are those of the mirror's export, and of a database that is made new."""
        expect("number", number_of(self.place / db), [(number,)])
        expect("export", self.planet("export", save, "now.opl"), ("", "", 0))
        found = tables_of(self.place / db)
        expect("tables of the export", found == rows_of(opl_of(self.place / "now.opl")), True)
        with contextlib.suppress(FileNotFoundError):
            (self.place / "new.db").unlink()
        expect("a new one", self.sqlite("new.db", save), (f"number {number}\n", "", 0))
        expect("tables of a new one", found == tables_of(self.place / "new.db"), True)
        return found

    def expect_edits(self, last, db="map.db", folder="follower.save.diffs"):
        """They are those of one tally of all numbers after 9, at which the database was made."""
        base, number, edits = edits_of(self.place / db)
        expect("numbers of edits", (base, number), (9, last))
        expect("edits", edits == tallied(self.installed.program, self.place / folder, 10, last), True)
        return edits

    @numbered(8, 40)
    def test_tables_follow_the_mirror(self):
        self.begin_at(9)
        expect("made", self.sqlite(), ("number 9\n", "", 0))
        self.expect_tables(9)
        expect("no edits", edits_of(self.place / "map.db"), (9, 9, []))
        self.up_to(20)
        expect("taken", self.sqlite(), ("number 20\n", "", 0))
        self.expect_tables(20)
        self.expect_edits(20)
        expect("nothing new", self.sqlite(), ("number 20\n", "", 0))
        self.up_to(47)
        words = ["sqlite", "follower.save", "map.db"]
        shutil.copy(self.place / "map.db", self.place / "copy.db")
        for setting in "sqlite.MOST_NUMBERS = 4", "sqlite.MOST_BYTES = 3000":
            shutil.copy(self.place / "copy.db", self.place / "map.db")
            said = self.tuned([setting], *words, "-v")[1]
            expect(f"in several parts: {said}", said.count(" changes ") > 3, True)
            expect("rows of edits", len(self.expect_edits(47)) > 20, True)
        found = self.expect_tables(47)
        expect("rows", {table: len(rows) > 5 for table, rows in found.items()}, dict.fromkeys(TABLES, True))
        expect("cursor", number_in(self.place / "map.db.state.txt"), 47)
        expect("status", "map.db.state.txt at 47, 0 behind" in self.planet("status", "follower.save")[0], True)

    @numbered(8, 40)
    def test_tables_of_some_objects(self):
        self.begin_at(9, "highway", "a b", "--kinds", "nw")
        expect("made", self.sqlite()[1:], ("", 0))
        for number in 15, 30, 47:
            self.up_to(number)
            expect("taken", self.sqlite(), (f"number {number}\n", "", 0))
        self.expect_tables(47)
        # of all objects
        self.expect_edits(47)
        self.begin_at(47, "highway", save="other.save")
        expect("another filter", self.sqlite(save="other.save"),
               ("", "map.db: of other kinds or keys than other.save (remove map.db, and it is made anew)\n", 3))

    def test_nobody_and_what_was_never_there(self):
        """A deletion of an object that it never had changes nothing. Who has no author has no number."""
        self.begin_at(9)
        expect("made", self.sqlite()[1:], ("", 0))
        before, moment = tables_of(self.place / "map.db"), time_text(self.tree.seconds_of(12))
        for number in 10, 11:
            self.tree.publish(number, "".join(f"{key} v2 dD c5 t{moment} i5 uann T{body}\n" for key, body in (
                ("n9000", " x y"), ("w9000", " N"), ("r9000", " M"))))
        self.tree.publish(12, f"n9001 v1 dV c0 t{moment} i0 u Ta%20%b=c%3d%d%2c%,é=%1f600% x1.5 y-2.25\n")
        self.up_to(11)
        expect("taken", self.sqlite(), ("number 11\n", "", 0))
        expect("nothing changed", tables_of(self.place / "map.db") == before, True)
        self.up_to(12)
        expect("taken", self.sqlite(), ("number 12\n", "", 0))
        found = tables_of(self.place / "map.db")
        expect("nobody", set(found["objects"]) - set(before["objects"]),
               {("n", 9001, 1, moment, None, None, "", 1.5, -2.25)})
        expect("tags", set(found["tags"]) - set(before["tags"]),
               {("n", 9001, 0, "a b", "c=d,"), ("n", 9001, 1, "é", "😀")})
        day = moment[:10]
        expect("edits", self.expect_edits(12), [
            (day, 5, "ann", 5, 0, 0, 6), (day, NOBODY, "anonymous", NOBODY, 1, 0, 0)])

    @numbered(8, 8)
    def test_edits_of_users_who_change_their_names(self):
        """A user has the last one in all rows, and a changeset that goes on has one row for each day."""
        self.begin_at(9)
        expect("made", self.sqlite()[1:], ("", 0))
        for number, name in enumerate(["ann", "a%2c%b", "%22%%22%", "line%d%%a%end", "%1f600%", "ann"], 10):
            authors = (1, 1, f"i5 u{name}"), (3, 1, f"i5 u{name}"), (4, 2, f"i5 u{name}"), (6, 2, f"i6 u{name}x")
            self.tree.publish(number, "".join(
                f"n{node} v{number - 9 + node % 2} dV c{7 + number // 12} t2024-01-0{day}T00:00:00Z {author} T x1 y2\n"
                for node, day, author in authors))
        for number, last in (10, "ann"), (12, '""'), (13, "line\r\nend"), (15, "ann"):
            self.up_to(number)
            expect("taken", self.sqlite(), (f"number {number}\n", "", 0))
            found = self.expect_edits(number)
            expect("names", {row[2] for row in found}, {last, f"{last}x"})
        expect("rows", [row[:2] + row[3:] for row in found], [
            ("2024-01-01", 5, 7, 0, 4, 0), ("2024-01-01", 5, 8, 0, 8, 0), ("2024-01-02", 5, 7, 1, 1, 0),
            ("2024-01-02", 5, 8, 0, 4, 0), ("2024-01-02", 6, 7, 1, 1, 0), ("2024-01-02", 6, 8, 0, 4, 0)])

    def test_readers_see_a_number_as_a_whole(self):
        """One that reads holds nobody up."""
        self.begin_at(9)
        expect("made", self.sqlite()[1:], ("", 0))
        with contextlib.closing(sqlite3.connect(self.place / "map.db", isolation_level=None)) as reader:
            expect("mode", reader.execute("PRAGMA journal_mode").fetchone(), ("wal",))
            reader.execute("BEGIN")

            def rows():
                return [sorted(reader.execute(f"SELECT * FROM {table}")) for table in ("mirror", *TABLES)]

            before = rows()
            self.up_to(11)
            expect("taken", self.sqlite(), ("number 11\n", "", 0))
            expect("the same", rows(), before)
            reader.execute("COMMIT")
            expect("then the new", reader.execute("SELECT number FROM mirror").fetchone(), (11,))
        self.expect_tables(11)

    @numbered(8, 12)
    def test_from_a_copy_and_without_files(self):
        self.begin_at(9)
        expect("made", self.sqlite()[1:], ("", 0))
        shutil.copy(self.place / "map.db", self.place / "copy.db")
        cursor = self.place / "map.db.state.txt"
        self.up_to(12, "--keep", "0")
        expect("taken", self.sqlite(), ("number 12\n", "", 0))
        shutil.copy(self.place / "copy.db", self.place / "map.db")
        expect("the cursor is ahead", number_in(cursor), 12)
        expect("taken again", self.sqlite(), ("number 12\n", "", 0))
        self.expect_tables(12)
        self.expect_edits(12)
        for text in None, "", state_text(10, self.tree.seconds_of(10)):
            cursor.unlink()
            if text is not None:
                cursor.write_text(text)
            expect("the database counts", self.sqlite(), ("number 12\n", "", 0))
            expect("cursor", number_in(cursor), 12)
        # new.db was made by expect_tables, and its cursor is one more
        self.up_to(14, "--keep", "0")
        for db in "map.db", "new.db":
            expect("taken", self.sqlite(db)[1:], ("", 0))
        self.up_to(16, "--keep", "0")
        shutil.copy(self.place / "copy.db", self.place / "map.db")
        self.up_to(16, "--keep", "0")
        anew = "(bring it back, or remove map.db, and it is made anew)"
        expect("gone", self.sqlite(), ("", f"follower.save.diffs: number 10 isn't there any more {anew}\n", 3))
        (self.place / "map.db").unlink()
        # what is beside a database that is gone would be taken for a part of the new one
        (self.place / "map.db-wal").write_bytes(b"something")
        expect("made anew", self.sqlite(), ("number 16\n", "", 0))
        self.expect_tables(16)
        expect("without the edits before", edits_of(self.place / "map.db"), (16, 16, []))

    def test_what_is_refused(self):
        self.begin_at(10)
        (self.place / "text.db").write_text("something that is long enough to be no database" * 99)
        (self.place / "empty.db").write_text("")
        with contextlib.closing(sqlite3.connect(self.place / "other.db")) as other:
            other.execute("CREATE TABLE mirror (number)")
        for db, said in (("text.db", "text.db: sqlite: file is not a database"),
                         ("empty.db", "empty.db: no database of osmrepl-planet sqlite (name another file)"),
                         ("other.db", "other.db: no database of osmrepl-planet sqlite (name another file)"),
                         ("none/map.db", "none: not there")):
            expect(db, self.sqlite(db), ("", f"{said}\n", 3))
        expect("no save", self.sqlite(save="none.save"), ("", "none.save: not there\n", 3))
        expect("made", self.sqlite()[1:], ("", 0))
        with open(self.place / "map.db.state.txt.lock", "rb") as lock:
            fcntl.flock(lock, fcntl.LOCK_EX)
            expect("busy", self.sqlite(), ("", "map.db.state.txt: in use (map.db.state.txt.lock)\n", 4))
        with contextlib.closing(sqlite3.connect(self.place / "map.db", isolation_level=None)) as writer:
            writer.execute("BEGIN IMMEDIATE")
            self.up_to(11)
            expect("another writes", self.tuned(["database.PATIENCE = 0.3"], "sqlite", "follower.save", "map.db"),
                   ("", "map.db: sqlite: database is locked\n", 3))
            writer.execute("ROLLBACK")
        self.begin_at(9, save="behind.save")
        expect_fault("ahead", self.sqlite(save="behind.save"), "map.db: at 10, after behind.save, which is at 9 (")
        state = self.place / "follower.save.diffs" / path_of(10, "state.txt")
        self.up_to(11)
        text = state.read_text()
        state.write_text(state_text(10, self.tree.seconds_of(10) - 1))
        expect("another time", self.sqlite()[2], 3)
        state.write_text(text)
        expect("right", self.sqlite(), ("number 11\n", "", 0))
        self.expect_tables(11)


    def test_a_save_that_was_begun_anew(self):
        """It may hold other objects at the same number: the new SAVE.source has no line for the database."""
        self.begin_at(10)
        expect("made", self.sqlite()[1:], ("", 0))
        source = self.place / "follower.save.source"
        text = source.read_text()
        source.write_text("".join(line for line in text.splitlines(True) if not line.startswith("cursor ")))
        expect("refused", self.sqlite(), (
            "", "map.db.state.txt: follower.save.source has no line for it (remove map.db, and it is made anew)\n", 3))
        (self.place / "map.db").unlink()
        self.up_to(11)
        expect("anew", self.sqlite(), ("number 11\n", "", 0))
        self.expect_tables(11)


class KilledDatabases(Killing):
    """Made in one transaction, and taken in one for each number."""

    def setUp(self):
        super().setUp()
        self.hook["STEP_SQL"], self.exports, self.edits = "yes", {}, {9: []}
        self.tree.set_top(9)
        self.started()
        self.export(9)

    def command(self):
        return self.with_settings(["sqlite.MOST_NUMBERS = 1"])

    def expect_tables(self, room, number):
        """Those of an export of that number, as far as the number is one of the mirror's."""
        expect("number", number_of(room / "map.db"), [(number,)])
        expect(f"tables of {number}", tables_of(room / "map.db") == rows_of(opl_of(self.exports[number])), True)
        expect(f"edits up to {number}", edits_of(room / "map.db"), (9, number, self.edits[number]))

    def export(self, number):
        expect("export", self.run_in(self.before, ["export", "follower.save", f"../{number}.opl"]), (0, "", ""))
        self.exports[number] = self.place / f"{number}.opl"
        if number > 9:
            self.edits[number] = tallied(self.installed.program, self.before / "follower.save.diffs", 10, number)
            expect("more edits", len(self.edits[number]) > len(self.edits[number - 1]), True)

    def kill(self, top):
        words = ["sqlite", "follower.save", "map.db"]

        def check(room, _unharmed):
            if (room / "map.db").exists():
                self.expect_tables(room, number_of(room / "map.db")[0][0])
            cursor = room / "map.db.state.txt"
            if cursor.exists():
                is_made = (room / "map.db").exists()
                expect("the cursor isn't ahead",
                       not is_made or number_in(cursor) <= number_of(room / "map.db")[0][0], True)

        def finish(room, _unharmed, done):
            expect("again", done, (0, f"number {top}\n", ""))
            left = [one.name for one in room.glob(".*")] + [one.name for one in room.glob("map.db-*")]
            expect("left", left, [])
            self.expect_tables(room, top)
            expect("cursor", number_in(room / "map.db.state.txt"), top)

        return self.kill_each(self.before, words, check, finish, alone=5)

    def test_one_that_is_made(self):
        expect("steps", self.kill(9) >= 15, True)

    def test_one_that_takes_two_numbers(self):
        expect("made", self.run_in(self.before, ["sqlite", "follower.save", "map.db"]), (0, "number 9\n", ""))
        for number in 10, 11:
            self.tree.set_top(number)
            expect("mirror", self.run_in(self.before, ["mirror", "follower.save"]), (0, "", ""))
            self.export(number)
        expect("steps", self.kill(11) >= 20, True)
