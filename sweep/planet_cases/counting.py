"""The edits of a mirror in a database, by the command of docs/OPERATING.md, `examples/count-edits`: each number once,
whatever is killed and however the numbers are cut."""

import contextlib
import csv
import io
import shutil
import sqlite3
import subprocess
from itertools import count

from osm.program import faulty
from planet_cases.handing_on import Consumers
from planet_cases.killing import Killing
from planet_place import PATH, TOP, expect, needs, number_in, numbered

COUNT = TOP / "examples/count-edits"
WORDS = "--form", "opl", "--", COUNT, "follower.save.diffs", "edits.db"
COLUMNS = ["day", "uid", "user", "changeset", "created", "modified", "deleted"]
EDITS = f"SELECT {', '.join(COLUMNS)} FROM edits LEFT JOIN users USING (uid) ORDER BY day, uid, changeset"


def tallied(program, folder, first, last):
    """The rows of one tally of some numbers by day, user and changeset, each of one changeset."""
    words = ["tally", folder, "--from", str(first), "--to", str(last), "--by", "day,user,changeset"]
    done = subprocess.run([program, *words], capture_output=True, check=False)
    expect("tally", (done.stderr, done.returncode), (b"", 0))
    head, *rows = csv.reader(io.StringIO(done.stdout.decode(), newline=""))
    expect("columns", head, [*COLUMNS, "changesets"])
    expect("changesets of a row", {row[-1] for row in rows} <= {"1"}, True)
    return [(day, int(uid), user, *map(int, counts)) for day, uid, user, *counts, _ in rows]


def answers_of(file, *queries):
    """The rows of each query, by a reader that finds a whole database."""
    with contextlib.closing(sqlite3.connect(file)) as database:
        expect("whole", database.execute("PRAGMA integrity_check").fetchall(), [("ok",)])
        return [database.execute(query).fetchall() for query in queries]


class CountedEdits(Consumers):
    def count(self, *words, command=WORDS):
        return self.planet("hand-on", "follower.save", "map", *words, *command,
                           PATH=f"{self.installed.program.parent}:{PATH}")

    def expect_edits(self, last):
        """They are those of one tally of all numbers from 10 on."""
        numbers, rows = answers_of(self.place / "edits.db", "SELECT * FROM counted", EDITS)
        expect("counted", numbers, [(10, last)])
        wanted = tallied(self.installed.program, self.place / "follower.save.diffs", 10, last)
        expect("edits", rows == wanted and len(rows) > 5, True)

    def put_back(self):
        """The cursor is where it was at first, and nothing waits."""
        shutil.rmtree(self.place / "map.pending", ignore_errors=True)
        shutil.copy(self.place / "first", self.place / "map")

    @needs("sqlite3")
    @numbered(8, 40)
    def test_each_number_once(self):
        shutil.copy(self.place / "map", self.place / "first")
        self.up_to(12)
        expect("the first", self.count(), ("handed on 10..12\n", "", 0))
        self.expect_edits(12)
        self.put_back()
        expect("again", self.count(), ("handed on 10..12\n", "", 0))
        self.expect_edits(12)
        self.up_to(47)
        self.put_back()
        said = "count-edits: edits.db: at 12, and 10..47 doesn't come next: another DB or CURSOR\n"
        expect("others", self.count(), ("", f"{said}map: 10..47 wasn't taken: {COUNT}: status 1\n", 3))
        self.put_back()
        for lot, first, last in (3, 10, 12), (3, 13, 15), (1, 16, 16), (30, 17, 46), (9, 47, 47):
            expect("a lot", self.count("--lot", str(lot)), (f"handed on {first}..{last}\n", "", 0))
            self.expect_edits(last)

    @needs("sqlite3")
    def test_a_number_that_is_gone(self):
        self.up_to(11)
        script = 'rm -f follower.save.diffs/*/*/011.opl && exec "$@"'
        for _ in range(2):
            expect("lost", self.count(command=["--", "sh", "-c", script, "sh", *WORDS[3:]]),
                   ("", "missing 11\nmap: 10..11 wasn't taken: sh: status 1\n", 3))
        expect("nothing", (self.place / "edits.db").exists(), False)

    @needs("sqlite3")
    @numbered(8, 8)
    def test_a_command_that_is_killed_at_each_of_its_calls(self):
        """At each opening for writing, sync and removal of its own and of each program that it runs."""
        self.up_to(15)
        shutil.copy(self.place / "map", self.place / "first")
        for call in count(1):
            self.put_back()
            for left in self.place.glob("edits.db*"):
                left.unlink()
            under = ["env", *(f"{name}={value}" for name, value in faulty("changes", call, "kill").items())]
            done = self.count("--lot", "3", command=["--form", "opl", "--", *under, *WORDS[3:]])
            if done == ("handed on 10..12\n", "", 0):
                break
            expect(f"killed at {call}: {done}", done[::2], ("", 3))
            self.up_to(15)
            expect("again", self.count(), ("handed on 10..12\n", "", 0))
            expect("the rest", self.count(), ("handed on 13..15\n", "", 0))
            self.expect_edits(15)
        expect("calls", call > 5, True)


class KilledCounts(Killing):
    """Killed before each step of hand-on, alone and with the command; a repeat does the rest."""

    @needs("sqlite3")
    def test_a_count(self):
        self.hook["PATH"] = f"{self.installed.program.parent}:{PATH}"
        self.tree.set_top(9)
        before = self.started()
        expect("cursor", self.run_in(before, ["hand-on", "follower.save", "map", "--start", "map.opl"])[::2], (0, ""))
        self.tree.set_top(11)
        expect("mirror", self.run_in(before, ["mirror", "follower.save"]), (0, "", ""))
        wanted = tallied(self.installed.program, before / "follower.save.diffs", 10, 11)
        expect("rows", len(wanted) > 1, True)

        def check(room, _unharmed):
            expect("cursor", number_in(room / "map") in (9, 11), True)
            if number_in(room / "map") == 11:
                finish(room, _unharmed, (0, "", ""))

        def finish(room, _unharmed, done):
            expect("again", done, (0, "handed on 10..11\n", "") if done[1] else (0, "", ""))
            expect("cursor", number_in(room / "map"), 11)
            expect("edits", answers_of(room / "edits.db", "SELECT * FROM counted", EDITS), [[(10, 11)], wanted])

        words = ["hand-on", "follower.save", "map", *map(str, WORDS)]
        expect("steps", self.kill_each(before, words, check, finish, alone=2, since="count-edits") >= 3, True)
