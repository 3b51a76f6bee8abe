"""Lots and their names, manifests, cursors, edits, the program, commands of the command line, and rows of OPL."""

import csv
import os
import sys
import tempfile
import threading
import types
import unittest
from dataclasses import replace
from datetime import datetime, timezone
from pathlib import Path
from unittest import mock

sys.path.insert(0, str(Path(__file__).resolve().parent.parent))

from osmrepl_planet import command_line, cursors, database, hand_on, lots, manifest, mirror, program  # noqa: E402
from osmrepl_planet import rotation, threads  # noqa: E402
from osmrepl_planet.faults import Fault  # noqa: E402
from osmrepl_planet.folder import Folder  # noqa: E402
from osmrepl_planet.lots import Lot  # noqa: E402
from osmrepl_planet.save import Position  # noqa: E402
from osmrepl_planet.source import Source  # noqa: E402
from osmrepl_planet.state import path_of, state_text  # noqa: E402
from osmrepl_planet.stop import Stop  # noqa: E402

MOMENT = datetime(2024, 1, 1, 2, 3, 4, tzinfo=timezone.utc)


def later(minutes):
    return MOMENT.replace(minute=MOMENT.minute + minutes)


class InFolder(unittest.TestCase):
    def setUp(self):
        folder = tempfile.TemporaryDirectory()
        self.addCleanup(folder.cleanup)
        self.place = Path(folder.name)

    def write(self, name, text="text\n"):
        file = self.place / name
        file.parent.mkdir(parents=True, exist_ok=True)
        file.write_bytes(text.encode())
        return file


class Names(InFolder):
    def test_what_is_written_is_read(self):
        for lot in Lot(1, 1, "opl"), Lot(8, 999_999_999, "osc.gz"):
            self.assertEqual(lots.lot_of(lot.name), lot)

    def test_what_is_no_lot(self):
        for name in "8-9", "8-9.osc", "8-9.osc.gz.new", ".8-9.opl", "8-.opl", "-1-9.opl", "8-9.o5c", "1234567890-9.opl":
            self.assertIsNone(lots.lot_of(name), name)

    def test_lots_of_a_folder_are_in_order(self):
        self.assertEqual(lots.lots_in(self.place / "none"), [])
        for name in "10-12.opl", "9-9.opl", "9-9.osc.gz", "manifest", ".lock":
            self.write(name)
        self.assertEqual([lot.name for lot in lots.lots_in(self.place)], ["9-9.opl", "9-9.osc.gz", "10-12.opl"])


class Manifests(InFolder):
    def take(self, *names):
        for name in names:
            self.write(name)
            manifest.Manifest(self.place).take(lots.lot_of(name), 0, None)

    def test_the_next_lot(self):
        self.assertIsNone(manifest.Manifest(self.place).lot_after(7, "opl"))
        self.take("8-9.opl", "10-10.opl")
        found = manifest.Manifest(self.place)
        self.assertEqual((found.lot_after(7, "opl"), found.last), (Lot(8, 9, "opl"), 10))
        self.assertIsNone(found.lot_after(10, "opl"))
        self.write("11-14.opl")
        self.assertEqual(found.lot_after(10, "opl"), Lot(11, 14, "opl"))
        for number, form in (8, "opl"), (11, "opl"), (6, "opl"), (7, "osc.gz"):
            with self.subTest(number), self.assertRaises(Fault):
                found.lot_after(number, form)

    def test_other_bytes_are_refused_and_a_lot_is_named_once(self):
        self.take("8-9.opl", "8-9.opl")
        text = (self.place / "manifest").read_text()
        self.assertRegex(text, r"\A[0-9a-f]{64}  8-9\.opl\n\Z")
        self.write("8-9.opl", "other\n")
        with self.assertRaisesRegex(Fault, "isn't what"):
            manifest.Manifest(self.place).take(Lot(8, 9, "opl"), 0, None)
        self.assertEqual((self.place / "manifest").read_text(), text)

    def test_lines_that_are_none(self):
        self.take("8-9.opl")
        text = (self.place / "manifest").read_text()
        for wrong in text + text[:20], text[:-1], text.upper(), text.replace("  ", " "), "\n" + text:
            self.write("manifest", wrong)
            with self.subTest(wrong), self.assertRaisesRegex(Fault, "bad line [12]$"):
                manifest.Manifest(self.place)


class Cursors(InFolder):
    def mirrored(self, number=9):
        folder = self.place / "folder"
        for known in 8, 9:
            self.write(f"folder/{path_of(known, 'state.txt')}", state_text(known, later(known)).decode())
        return cursors.Mirrored(Path("a.save"), Position(number, later(number)), Source("http://a", folder))

    def test_one_that_is_moved_is_read(self):
        cursors.move(self.place / "map", 7, MOMENT)
        found = cursors.read(self.place / "map")
        self.assertEqual((found.number, found.time), (7, MOMENT))
        self.write("map", "something")
        with self.assertRaisesRegex(Fault, "bad state"):
            cursors.read(self.place / "map")

    def test_one_of_the_mirror_is_taken(self):
        mirrored = self.mirrored()
        for number in 8, 9:
            mirrored.check(Path("map"), number, later(number), "anew")
        # what the folder no longer has can't be compared
        mirrored.check(Path("map"), 7, MOMENT, "anew")
        begun = replace(mirrored, position=replace(mirrored.position, base=8))
        begun.check(Path("map"), 8, later(8), "anew")
        with self.assertRaisesRegex(Fault, r"^map: at 7, before a.save, which was begun at 8 \(anew\)$"):
            begun.check(Path("map"), 7, MOMENT, "anew")
        for number, time, said in (10, later(10), "after a.save"), (8, later(9), "another mirror"), (9, MOMENT, "other"):
            with self.subTest(number), self.assertRaisesRegex(Fault, f"{said}.*anew"):
                mirrored.check(Path("map"), number, time, "anew")

    def test_the_time_of_a_number(self):
        mirrored = self.mirrored(10)
        self.assertEqual([mirrored.time_of(number) for number in (7, 8, 10)], [None, later(8), later(10)])

    def test_links_are_the_same_cursor(self):
        self.write("map")
        (self.place / "link").symlink_to("map")
        source = Source("http://a", self.place, cursors=(self.place / "map",))
        self.assertTrue(cursors.is_listed(source, self.place / "link"))
        self.assertFalse(cursors.is_listed(source, self.place / "other"))


class Rotations(InFolder):
    def setUp(self):
        super().setUp()
        for number in range(999_998, 1_000_004):
            self.write(f"folder/{path_of(number, 'state.txt')}", state_text(number, later(number - 999_998)).decode())
            self.write(f"folder/{path_of(number, 'opl')}")

    def rotate(self, number, since, *names):
        source = Source("http://a", self.place / "folder", cursors=tuple(self.place / name for name in names))
        rotation.rotate(Folder(self.place / "folder"), source, number, since)
        files = [str(file.relative_to(self.place / "folder")) for file in self.place.glob("folder/*/*/*")]
        return sorted({int(file.replace("/", "")[:9]) - 999_998 for file in files}), len(files)

    def test_what_is_old_and_needed_by_nobody(self):
        self.assertEqual(self.rotate(999_998 + 4, MOMENT), ([0, 1, 2, 3, 4, 5], 12))
        self.assertEqual(self.rotate(999_998 + 4, later(1)), ([1, 2, 3, 4, 5], 10))
        cursors.move(self.place / "map", 999_998 + 2, MOMENT)
        self.assertEqual(self.rotate(999_998 + 4, later(9), "map"), ([2, 3, 4, 5], 8))
        self.assertFalse((self.place / "folder/000").exists())
        self.assertEqual(self.rotate(999_998 + 4, later(9)), ([4, 5], 4))
        self.assertEqual(self.rotate(999_998 + 4, later(9)), ([4, 5], 4))

    def test_a_state_that_cannot_be_read(self):
        self.write(f"folder/{path_of(999_998, 'state.txt')}", "something")
        self.assertEqual(self.rotate(999_998 + 4, later(2))[0], [2, 3, 4, 5])

    def test_a_cursor_that_cannot_be_read(self):
        for name in "none", "bad":
            self.write("bad", "something")
            with self.subTest(name), self.assertRaisesRegex(Fault, "removes nothing"):
                self.rotate(999_998 + 4, later(9), name)
        self.assertEqual(self.rotate(0, later(9))[1], 12)


class Edits(InFolder):
    """What is made of the answers of the program, in whose place a script prints and says them."""

    def write_edits(self, status, said=""):
        script = self.write("osmrepl", f"#!/bin/sh\necho \"$@\"\nprintf '{said}' >&2\nexit {status}\n")
        script.chmod(0o755)
        mirrored = cursors.Mirrored(Path("a.save"), Position(9, later(9)), Source("http://a", Path("folder")))
        with mock.patch.dict(os.environ, {"OSMREPL": str(script)}):
            return lots.write_edits(mirrored, Lot(8, 9, "opl"), self.place, Stop(), "anew")

    def test_a_table(self):
        words = "tally --by day,user,changeset --from 8 --to 9 -- folder\n"
        self.assertEqual(self.write_edits(0).read_text(), words)

    def test_numbers_that_cannot_be_read(self):
        bad = "osmrepl: 000/000/009.opl: at 1: BadKind"
        for status, said, fault in [
                (1, "missing 9\\nmissing 12\\n", r"^folder: number 9 isn't there any more \(bring it back, or anew\)$"),
                (3, f"{bad}\\n", f"^{bad}$"), (3, "", "^osmrepl: status 3$"), (1, "", "^osmrepl: status 1$")]:
            with self.subTest(said), self.assertRaisesRegex(Fault, fault):
                self.write_edits(status, said)


class FewThreads(unittest.TestCase):
    """The system lets a process have no more than so many."""

    def begun(self, most):
        begin, done = threading.Thread.start, []

        def start(thread):
            if len(done) == most:
                raise RuntimeError("can't start new thread")
            done.append(thread)
            begin(thread)

        gate = threading.Event()
        with mock.patch.object(threading.Thread, "start", start), threads.Threads(4) as pool:
            try:
                waiting = [pool.submit(gate.wait) for _ in range(8)]
            finally:
                gate.set()
            return [one.result(10) for one in waiting]

    def test_those_that_there_are_do_the_work(self):
        for most in 1, 2, 3:
            self.assertEqual(self.begun(most), [True] * 8)

    def test_none(self):
        with self.assertRaisesRegex(Fault, "no thread can be begun"):
            self.begun(0)


class Programs(InFolder):
    """Which programs on the path are taken: not the launcher of a repository, which may compile for minutes."""

    def find(self, name):
        with mock.patch.dict(os.environ, {"PATH": str((self.place / name).parent), "OSMREPL": ""}), \
                mock.patch.object(sys, "argv", [str(self.place / "elsewhere/planet/osmrepl-planet")]):
            return program.find()

    def test_the_launcher(self):
        self.write("repository/crates.txt")
        self.write("repository/osmrepl", "#!/usr/bin/env bash\n").chmod(0o755)
        (self.place / "bin").mkdir()
        (self.place / "bin/osmrepl").symlink_to("../repository/osmrepl")
        self.write("repository/out/bin/osmrepl", "#!/bin/sh\n").chmod(0o755)
        for name in "repository/osmrepl", "bin/osmrepl", "repository/out/bin/osmrepl":
            with self.subTest(name), self.assertRaisesRegex(Fault, "is the launcher of the repository"):
                self.find(name)

    def test_others(self):
        self.write("repository/crates.txt")
        for name, text in [("repository/opt/bin/osmrepl", "\x7fELF"), ("repository/out/bin/osmrepl", "\x7fELF"),
                           ("usr/bin/osmrepl", "#!/bin/sh\n"), ("elsewhere/out/bin/osmrepl", "#!/bin/sh\n")]:
            self.write(name, text).chmod(0o755)
            with self.subTest(name):
                self.assertEqual(self.find(name), str(self.place / name))


class CommandLines(unittest.TestCase):
    def test_what_is_a_command(self):
        other = types.SimpleNamespace()
        for module, words, wanted in [
                (hand_on, ["a", "b", "--", "c", "--", "d"], (["a", "b"], ["c", "--", "d"])),
                (hand_on, ["a", "b", "--"], (["a", "b"], [])), (hand_on, ["a"], (["a"], [])),
                (mirror, ["a", "--then", "b", "--", "c"], (["a", "--then", "b"], ["c"])),
                (mirror, ["--then=b", "a", "--", "c"], (["--then=b", "a"], ["c"])),
                (mirror, ["--", "--then"], (["--", "--then"], [])), (other, ["a", "--", "b"], (["a", "--", "b"], []))]:
            with self.subTest(words):
                self.assertEqual(command_line.cut_command(module, words), wanted)


class Rows(unittest.TestCase):
    def test_rows_of_each_kind(self):
        rows = database.Rows([
            "n1 v2 dV c7 t2024-01-01T02:03:04Z i5 uZo%eb%%20%x Ta=b,c%2c%d= x-1.5 y2",
            "w-2 v1 dV c2147483647 t2024-01-01T02:03:04Z i2147483647 u T Nn1,n3,n1",
            "r3 v1 dV c7 t2024-01-01T02:03:04Z i5 uann Ttype=a Mn1@,w-2@b%40%c",
            "w4 v1 dV c7 t2024-01-01T02:03:04Z i5 uann T N", "r5 v2 dD c7 t2024-01-01T02:03:04Z i5 uann T M"])
        time = "2024-01-01T02:03:04Z"
        self.assertEqual(rows.keys, [("n", 1), ("w", -2), ("r", 3), ("w", 4), ("r", 5)])
        self.assertEqual(rows.of["objects"], [
            ("n", 1, 2, time, 7, 5, "Zoë x", -1.5, 2.0), ("w", -2, 1, time, None, None, "", None, None),
            ("r", 3, 1, time, 7, 5, "ann", None, None), ("w", 4, 1, time, 7, 5, "ann", None, None)])
        self.assertEqual(rows.of["tags"], [("n", 1, 0, "a", "b"), ("n", 1, 1, "c,d", ""), ("r", 3, 0, "type", "a")])
        self.assertEqual(rows.of["refs"], [(-2, 0, 1), (-2, 1, 3), (-2, 2, 1)])
        self.assertEqual(rows.of["members"], [(3, 0, "n", 1, ""), (3, 1, "w", -2, "b@c")])


HEAD = "day,uid,user,changeset,created,modified,deleted,changesets\n"


class Databases(InFolder):
    def made(self):
        path = self.place / "a.db"
        with database.Database(path) as found:
            found.begin()
            found.insert(database.Rows(["n1 v1 dV c7 t2024-01-01T02:03:04Z i5 uann Ta=b x1 y2"]))
            found.finish(database.at(Position(7, MOMENT, "nw", ("b c", "a"))))
        return database.Database(path)

    def test_where_it_is(self):
        with self.made() as found:
            self.assertEqual(found.open(), database.At(7, MOMENT, "nw", "a b%20%c"))

    def take(self, found, first, last, changes="", rows=""):
        texts = self.write("changes.opl", changes), self.write("edits.csv", HEAD + rows)
        found.take(Lot(first, last, "opl"), later(last), *texts)

    def edits(self, found):
        return found.connection.execute("SELECT day, uid, user, changeset, created, modified, deleted FROM edits "
                                        "NATURAL JOIN users ORDER BY day, uid, changeset").fetchall()

    def test_a_range_is_taken_once(self):
        changes = "n1 v2 dD c7 t2024-01-01T02:03:04Z i5 uann T x y\n" \
                  "n2 v1 dV c7 t2024-01-01T02:03:04Z i5 uann Tc=d x1 y2\n"
        with self.made() as found:
            self.assertEqual(self.edits(found), [])
            for _ in range(2):
                self.take(found, 8, 9, changes, "2024-01-01,5,ann,7,1,0,1,1\n")
                self.assertEqual((found.open().number, found.open().time), (9, later(9)))
                rows = found.connection.execute("SELECT kind, id, key FROM objects JOIN tags USING (kind, id)")
                self.assertEqual(rows.fetchall(), [("n", 2, "c")])
                self.assertEqual(self.edits(found), [("2024-01-01", 5, "ann", 7, 1, 0, 1)])

    def test_ranges_add_up_and_the_last_name_stays(self):
        name, spelled = 'a, "b"\r\nc', '"a, ""b""\r\nc"'
        with self.made() as found:
            self.take(found, 8, 9, rows="2024-01-01,5,ann,7,1,0,2,1\n2024-01-02,5,ann,7,1,0,0,1\n"
                                        "2024-01-02,6,bob,8,0,1,0,1\n")
            self.take(found, 10, 10)
            self.take(found, 11, 14, rows=f"2024-01-02,5,{spelled},7,2,3,4,1\n2024-01-02,5,{spelled},9,0,0,1,1\n")
            self.assertEqual(self.edits(found), [
                ("2024-01-01", 5, name, 7, 1, 0, 2), ("2024-01-02", 5, name, 7, 3, 3, 4),
                ("2024-01-02", 5, name, 9, 0, 0, 1), ("2024-01-02", 6, "bob", 8, 0, 1, 0)])
            self.assertEqual(found.connection.execute("SELECT number, base FROM mirror").fetchall(), [(14, 7)])

    def test_a_fault_changes_nothing(self):
        changes = "n1 v2 dD c7 t2024-01-01T02:03:04Z i5 uann T x y\n"
        row = "2024-01-01,5,ann,7,1,0,1,1\n"
        for more, rows, fault in (("something\n", row, ValueError), ("", f'{row}2024-01-01,5,"ann', csv.Error),
                                  ("", f"{row}2024-01-01,5,ann,8,1\n", Fault)):
            with self.subTest(fault), self.made() as found, self.assertRaises(fault):
                self.take(found, 8, 9, changes + more, rows)
            with database.Database(self.place / "a.db") as found:
                self.assertEqual((found.open().number, self.edits(found)), (7, []))
                self.assertEqual(found.connection.execute("SELECT count(*) FROM objects").fetchone(), (1,))
            (self.place / "a.db").unlink()


if __name__ == "__main__":
    unittest.main()
