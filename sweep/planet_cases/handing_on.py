"""hand-on: what a consumer is given, when its cursor moves, what is refused, and lots. The consumers here are small
scripts; sqlite_consumer.py and real_consumers.py have others. And mirror --then and --keep."""

import fcntl
import os
import shutil
import signal
import subprocess
from pathlib import Path

from planet_cases.killing import Killing, noted
from planet_place import (NOBODY, Case, disk, expect, expect_among, expect_fault, files_of, must, needs, number_in,
                          numbered, opl_of, run, time_text, wait_until)
from planet_server import path_of, state_text

# A consumer that keeps each file under the range that it is told, and fails if a repeat differs.
KEEPING = ('kept=kept/$OSMREPL_FROM-$OSMREPL_TO; echo "$kept" >>kept/log; '
           "if [ -e $kept ]; then cmp {} $kept; else cp {} $kept; fi")


class Consumers(Case):
    """A mirror of the first two numbers, to 9 unless a case says otherwise, whose consumer `map` begins there."""

    keys = ()

    def setUp(self):
        super().setUp()
        begin = self.tree.first + 1
        self.tree.set_top(begin)
        expect("start", self.start("follower.save", *self.keys)[1:], ("", 0))
        expect("mirror", self.mirror(), ("", 0))
        expect("first cursor", self.planet("hand-on", "follower.save", "map", "--start", "map.osm.pbf"),
               (f"number {begin}\n", "", 0))
        (self.place / "kept").mkdir()

    def hand_on(self, *words, command=("sh", "-c", KEEPING), save="follower.save", cursor="map"):
        return self.planet("hand-on", save, cursor, *words, *(("--", *command) if command else ()))

    def cursor(self, name="map"):
        found = dict(line.split("=") for line in (self.place / name).read_text().splitlines() if line[0] != "#")
        return int(found["sequenceNumber"]), found["timestamp"].replace("\\", "")

    def last_run(self):
        return (self.place / "follower.save.runs").read_text().splitlines()[-1]

    def at(self, number):
        return number, time_text(self.tree.seconds_of(number))

    def kept(self):
        """The ranges that the consumer was given, in their order."""
        file = self.place / "kept/log"
        return [line.removeprefix("kept/") for line in file.read_text().splitlines()] if file.exists() else []

    def expect_mirrored(self, files):
        """The change files, laid over what the consumer began with, give the mirror as it is now."""
        must(["osmium", "apply-changes", "--no-progress", "-O", "map.osm.pbf", *files, "-o", "map.opl"], self.place)
        expect("export", self.planet("export", "follower.save", "now.opl"), ("", "", 0))
        found, wanted = [(self.place / name).read_text() for name in ("map.opl", "now.opl")]
        expect("the consumer has the mirror", found == wanted, True)

    def kept_files(self):
        files = []
        for name in dict.fromkeys(self.kept()):
            shutil.copy(self.place / "kept" / name, self.place / f"{name}.osc.gz")
            files.append(f"{name}.osc.gz")
        return files


class HandsOn(Consumers):
    @numbered(8, 14)
    def test_what_is_new_once(self):
        expect("nothing new", self.hand_on(command=["false"]), ("", "", 0))
        expect("cursor", self.cursor(), self.at(9))
        expect("source", ("cursor", "map") in self.source(), True)
        self.up_to(12)
        expect("hand-on", self.hand_on(), ("handed on 10..12\n", "", 0))
        expect("cursor", self.cursor(), self.at(12))
        expect("again", self.hand_on(command=["false"]), ("", "", 0))
        self.up_to(21)
        for first, last in (13, 15), (16, 18), (19, 21):
            expect("a lot", self.hand_on("--lot", "3"), (f"handed on {first}..{last}\n", "", 0))
            expect("cursor", self.cursor(), self.at(last))
        expect("ranges", self.kept(), ["10-12", "13-15", "16-18", "19-21"])
        self.expect_mirrored(self.kept_files())
        expect("left", {name for name in os.listdir(self.place) if name.startswith("map")},
               {"map.osm.pbf", "map.opl", "map", "map.lock"})
        for diff in self.kept_files():
            lines = opl_of(self.place / diff).splitlines()
            keys = [line.split(" ")[0] for line in lines]
            expect("one change of each object", len(keys), len(set(keys)))

    def test_opl_and_words_with_the_path_in_them(self):
        self.up_to(11)
        script = 'test "$1" = "path=$2" && test "$2" = "$PWD/map.pending/10-11.opl" && cp "$2" got.opl'
        expect("hand-on", self.hand_on("--form", "opl", command=["sh", "-c", script, "sh", "path={}", "{}"]),
               ("handed on 10..11\n", "", 0))
        self.expect_mirrored(["got.opl"])

    def test_what_waits_is_of_another_history(self):
        """The mirror was put back, and its server published these numbers anew."""
        self.up_to(11)
        expect("it waits", self.hand_on(command=["false"])[2], 3)
        noted = self.place / "map.pending/10-11.state.txt"
        text, other = noted.read_bytes(), self.tree.seconds_of(11) - 1
        noted.write_text(state_text(11, other))
        said = (f"map.pending/10-11.osc.gz: number 11 is of {time_text(other)} there, and of "
                f"{time_text(self.tree.seconds_of(11))} in follower.save: another mirror (remove map and begin it anew: "
                "hand-on follower.save map --start OUT.osm.pbf)\n")
        expect("refused", self.hand_on(), ("", said, 3))
        expect("nothing is handed on", (os.listdir(self.place / "kept"), self.cursor()), ([], self.at(9)))
        noted.write_bytes(text)
        expect("right", self.hand_on(), ("handed on 10..11\n", "", 0))

    def test_a_folder_that_ends_before_the_mirror(self):
        self.up_to(11)
        state = self.place / "follower.save.diffs/state.txt"
        text = state.read_text()
        state.write_text(state_text(10, self.tree.seconds_of(10)))
        said = ("follower.save.diffs: doesn't go up to 11, as follower.save does (bring it back, or remove map and begin it "
                "anew: hand-on follower.save map --start OUT.osm.pbf)\n")
        expect("an older copy", self.hand_on(), ("", said, 3))
        state.write_text(text)
        expect("right", self.hand_on(), ("handed on 10..11\n", "", 0))

    def test_nobody_has_no_number(self):
        self.tree.publish(12, "n1 v99 dV c0 t2024-01-01T00:00:00Z i0 u T x1 y2\n")
        self.up_to(12)
        expect("it has one in the mirror", f" c{NOBODY} " in self.program("show", "follower.save"), True)
        expect("hand-on", self.hand_on()[1:], ("", 0))
        shutil.copy(self.place / "kept/10-12", self.place / "got.osc.gz")
        expect("but not here", "n1 v99 dV c0 t2024-01-01T00:00:00Z i0 u " in opl_of(self.place / "got.osc.gz"), True)

    def test_what_xml_cannot_hold(self):
        """A number that its server has as OPL. No file of it waits, and the cursor stays."""
        diff = self.tree.folder / path_of(12, "opl")
        diff.write_text("n1 v99 dV c7 t2024-01-01T00:00:00Z i5 ua%01%nn T x1 y2\n")
        for file in diff.with_name("012.state.txt"), self.tree.folder / "state.txt":
            file.write_text(state_text(12, self.tree.seconds_of(12)))
        diff.with_name("012.osc.gz").unlink(missing_ok=True)
        expect("mirror", self.mirror(), ("", 0))
        said = "follower.save.diffs: n1: a character that XML can't hold (%01%); --form opl holds it\n"
        expect("hand-on", self.hand_on(), ("", said, 3))
        expect("lots", self.hand_on("--lots", "lots", command=None), ("", said, 3))
        expect("nothing is handed on", (os.listdir(self.place / "kept"), os.listdir(self.place / "map.pending"),
                                        files_of(self.place / "lots"), self.cursor()), ([], [], {}, self.at(9)))
        expect("as OPL", self.hand_on("--form", "opl"), ("handed on 10..12\n", "", 0))
        expect("the object", "n1 v99 dV c7 t2024-01-01T00:00:00Z i5 ua%01%nn T x1 y2\n" in (
            self.place / "kept/10-12").read_text(), True)

    def test_a_command_that_fails_gets_the_same_again(self):
        """Whatever the mirror has by then, and however many numbers it is asked for."""
        self.up_to(10)
        began = "map: 10..10 wasn't taken: sh: "
        for end, said in ("exit 7", "status 7"), ("kill -9 $$", "SIGKILL"), ("kill -TERM $$", "SIGTERM"):
            command = ["sh", "-c", f"{KEEPING}; {end}"]
            expect(said, self.hand_on(command=command), ("", f"{began}{said}\n", 3))
            expect("cursor", self.cursor(), self.at(9))
            expect("what waits", sorted(os.listdir(self.place / "map.pending")), ["10-10.osc.gz", "10-10.state.txt"])
            self.up_to(11)
        expect("no command", self.hand_on(command=["./nothing", "{}"]),
               ("", "map: ./nothing: doesn't run (no such file or directory)\n", 3))
        (self.place / "text").write_text("x")
        expect("no program", self.hand_on(command=["./text"]),
               ("", "map: ./text: doesn't run (permission denied)\n", 3))
        expect("cursor", self.cursor(), self.at(9))
        other = ["sh", "-c", "test $(basename {}) = 10-10.opl && exit 3"]
        expect("another form of the same range", self.hand_on("--form", "opl", command=other)[2], 3)
        expect("at last", self.hand_on("--lot", "5"), ("handed on 10..10\n", "", 0))
        expect("ranges", self.kept(), ["10-10"] * 4)
        expect("what waits", (self.place / "map.pending").exists(), False)
        expect("the rest", self.hand_on(), ("handed on 11..11\n", "", 0))
        self.expect_mirrored(self.kept_files())

    def test_output_and_environment_are_those_of_the_run(self):
        self.up_to(11)
        command = ["sh", "-c", "echo $OTHER $OSMREPL_FROM $OSMREPL_TO; echo said >&2; cat"]
        out, error, status = run([self.installed.planet, "hand-on", "follower.save", "map", "--", *command], self.place,
                                 OTHER="x")
        expect("output", (out, error, status), ("x 10 11\nhanded on 10..11\n", "said\n", 0))

    def test_a_signal_asks_the_command_to_end(self):
        self.up_to(11)
        for trap, status, number in ("exit 5", 143, 9), ("touch taken; exit 0", 143, 11):
            (self.place / "begun").unlink(missing_ok=True)
            script = f"trap '{trap}' TERM; touch begun; while :; do sleep 0.1; done"
            words = "hand-on", "follower.save", "map", "--", "sh", "-c", script
            with self.running(*words, stderr=subprocess.PIPE, stdout=subprocess.PIPE, text=True) as one:
                wait_until("the command", (self.place / "begun").exists)
                one.child.send_signal(signal.SIGTERM)
                expect("said", one.child.communicate(timeout=30)[1], "")
                expect("status", one.child.returncode, status)
            expect("cursor", self.cursor(), self.at(number))

    def test_two_at_once(self):
        """Also if the first one was killed and its command goes on."""
        self.up_to(11)
        begun, end = self.place / "begun", self.place / "end"
        script = "touch begun; while [ ! -e end ]; do sleep 0.05; done"
        with self.running("hand-on", "follower.save", "map", "--", "sh", "-c", script) as one:
            wait_until("the command", begun.exists)
            said = "map: in use (map.lock)\n"
            expect("another", self.hand_on(), ("", said, 4))
            expect("start", self.planet("hand-on", "follower.save", "map", "--start", "x.opl"), ("", said, 4))
            expect("lots", self.hand_on("--lots", "lots", command=None), ("", said, 4))
            expect("mirror", self.mirror("--then", "map", "--", "false"), ("", 4))
            expect("its line", '"status":0' in self.last_run(), True)
            one.child.kill()
            one.child.wait()
            expect("the command goes on", self.hand_on(), ("", said, 4))
            end.touch()
        wait_until("the lock", lambda: self.hand_on()[2] == 0)
        expect("cursor", self.cursor(), self.at(11))

    def test_what_is_refused(self):
        one = "one of -- COMMAND, --start OUT and --lots DIR is needed\n"
        for words in [], ["--start", "a.opl", "--lots", "b"], ["--lots", "b", "--", "true"], ["--"]:
            expect(f"{words}", self.planet("hand-on", "follower.save", "map", *words), ("", one, 2))
        expect("--lot of --start", self.hand_on("--start", "a.opl", "--lot", "1", command=None)[2], 2)
        for out in "map", "follower.save":
            expect(out, self.hand_on("--start", out, command=None), ("", f"{out}: is SAVE or CURSOR too\n", 2))
        for words in ["--lot", "0"], ["--lot", "x"], ["--form", "osc"]:
            expect(f"{words}", self.hand_on(*words)[2], 2)
        for words in ["--then", "map"], ["--lot", "1"]:
            expect(f"mirror {words}", self.mirror(*words)[1], 2)
        self.up_to(11)
        for save, cursor, said in [
                ("none.save", "map", "none.save: not there"), ("follower.save", "a/map", "a: not there"),
                ("follower.save", "none", "none: not there (--start OUT.osm.pbf begins it)")]:
            expect(said, self.hand_on(save=save, cursor=cursor), ("", f"{said}\n", 3))
        expect("there already", self.hand_on("--start", "other.opl", command=None),
               ("", "map: there already, at 9 (remove it to begin anew)\n", 3))
        expect("not exported", (self.place / "other.opl").exists(), False)
        anew = "remove map and begin it anew: hand-on follower.save map --start OUT.osm.pbf"
        file = self.place / "map"
        old = file.read_text()
        expect("is at 9", self.cursor()[0], 9)
        at = [time_text(self.tree.seconds_of(number)) for number in (9, 10)]
        for text, said in [
                ("", "map: bad state"),
                (state_text(12, self.tree.seconds_of(12)),
                 f"map: at 12, after follower.save, which is at 11 (bring that up to date, or {anew})"),
                (state_text(9, self.tree.seconds_of(10)),
                 f"map: number 9 is of {at[1]} there, and of {at[0]} in follower.save: another mirror ({anew})")]:
            file.write_text(text)
            expect(said, self.hand_on(command=["touch", "run"]), ("", f"{said}\n", 3))
            expect("it stays", file.read_text(), text)
        file.write_text(old)
        folder = self.place / "follower.save.diffs"
        for name in "state.txt", "opl":
            gone = folder / path_of(10, name)
            gone.rename(self.place / "gone")
            expect(f"without {name}", self.hand_on(command=["touch", "run"]), (
                "", f"follower.save.diffs: number 10 isn't there any more (bring it back, or {anew})\n", 3))
            (self.place / "gone").rename(gone)
        spoilt = folder / path_of(11, "opl")
        text = spoilt.read_bytes()
        spoilt.write_bytes(b"something\n")
        expect_fault("spoilt", self.hand_on(command=["touch", "run"]), "osmrepl: ")
        spoilt.write_bytes(text)
        source = self.place / "follower.save.source"
        lines = source.read_text()
        source.write_text(lines.replace("kinds nwr", "kinds nw"))
        expect("other kinds", self.hand_on(command=["touch", "run"]),
               ("", "follower.save.source: other kinds or keys than those of follower.save\n", 3))
        source.write_text(lines.replace("cursor map\n", ""))
        expect("not listed", self.hand_on(command=["touch", "run"]),
               ("", f"map: follower.save.source has no line for it ({anew})\n", 3))
        source.unlink()
        expect("no source", self.hand_on(command=["touch", "run"])[1:], (
            "follower.save.source: not there (osmrepl-planet mirror follower.save --url URL writes it)\n", 3))
        source.write_text(lines)
        expect("never run", (self.place / "run").exists(), False)
        expect("cursor", self.cursor(), self.at(9))
        expect("right", self.hand_on(), ("handed on 10..11\n", "", 0))

    def test_a_mirror_that_was_begun_anew_has_no_cursors(self):
        expect("start", self.start("follower.save", "--kinds", "n")[1:], ("", 0))
        expect("mirror", self.mirror(), ("", 0))
        expect("refused", self.hand_on()[2], 3)
        (self.place / "map").unlink()
        expect("begun anew", self.hand_on("--start", "map.osm.pbf", command=None), ("number 9\n", "", 0))
        self.up_to(11)
        expect("hand-on", self.hand_on()[1:], ("", 0))
        self.expect_mirrored(self.kept_files())

    def test_number_0_has_no_cursor(self):
        """Nor has a save that another run writes, for as long as that takes."""
        expect("mirror", self.planet("mirror", "empty.save", "--url", self.server.place, "--empty", "--dir", "none",
                                     "--lag", "999999999")[2] in (0, 1, 3), True)
        (self.place / "lock").touch()
        with open(self.place / "follower.save.lock", "rb") as lock:
            fcntl.flock(lock, fcntl.LOCK_EX)
            words = "hand-on", "follower.save", "other", "--start", "x.opl"
            expect("busy", self.tuned(["hand_on.PATIENCE = 0.5"], *words),
                   ("", "follower.save: in use (follower.save.lock)\n", 4))
        expect("no cursor", (self.place / "other").exists(), False)

    @needs("root")
    def test_a_full_disk_keeps_the_cursor(self):
        with disk(self.place / "disk", 64):
            expect("start", self.hand_on("--start", "other.opl", command=None, cursor="disk/map")[1:], ("", 0))
            self.up_to(11)
            full = f"{KEEPING}; dd if=/dev/zero of=disk/full bs=1k 2>/dev/null; true"
            for _ in range(2):
                expect("full", self.hand_on(command=["sh", "-c", full], cursor="disk/map"),
                       ("", "disk/map: write failed (no space left on device)\n", 3))
                expect("cursor", self.cursor("disk/map"), self.at(9))
            (self.place / "disk/full").unlink()
            expect("again", self.hand_on(cursor="disk/map"), ("handed on 10..11\n", "", 0))
            expect("ranges", self.kept(), ["10-11"] * 3)

    def test_beside_where_a_link_leads(self):
        (self.place / "else").mkdir()
        (self.place / "map").rename(self.place / "else/real")
        (self.place / "map").symlink_to("else/real")
        self.up_to(11)
        expect("hand-on", self.hand_on(), ("handed on 10..11\n", "", 0))
        expect("a link still", (self.place / "map").is_symlink(), True)
        expect("cursor", self.cursor("else/real"), self.at(11))

    def test_numbers_of_the_folders_own(self):
        """With --renumber, numbers of which some share a time."""
        small = ["renumber.MOST_CHANGES = 3"]
        expect("mirror", self.tuned(small, "mirror", "follower.save", "--renumber"), ("", "", 0))
        self.tree.set_top(11)
        expect("mirror", self.tuned(small, "mirror", "follower.save"), ("", "", 0))
        while self.cursor()[0] < self.number():
            before = self.cursor()[0]
            expect("hand-on", self.hand_on("--lot", "2")[1:], ("", 0))
            expect("it moves", self.cursor()[0] - before in (1, 2), True)
        self.expect_mirrored(self.kept_files())


class Filtered(Consumers):
    keys = "highway", "--kinds", "nw"

    @numbered(8, 40)
    def test_what_a_filter_keeps(self):
        """An object that loses its tag is a deletion, and so is one that the consumer never had."""
        last = 9
        for number in 12, 20, 47:
            self.up_to(number)
            expect("hand-on", self.hand_on(), (f"handed on {last + 1}..{number}\n", "", 0))
            last = number
            self.expect_mirrored(self.kept_files())
        begun = {line.split(" ")[0] for line in opl_of(self.place / "map.osm.pbf").splitlines()}
        lines = [line for file in self.kept_files() for line in opl_of(self.place / file).splitlines()]
        visible = {line.split(" ")[0] for line in lines if " dV " in line}
        never = {line.split(" ")[0] for line in lines if " dD " in line} - begun - visible
        expect("some that it never had", len(never) > 3, True)
        expect("only what is kept", {line[0] for line in lines if " dV " in line}, {"n", "w"})


class MirrorsThatHandOn(Consumers):
    def then(self, script, *words):
        return self.mirror(*words, "--then", "map", "--", "sh", "-c", script)

    @numbered(8, 8)
    def test_then(self):
        """One line for cron: it says nothing if all is well."""
        self.tree.set_top(11)
        expect("both", self.then(f"echo hallo; {KEEPING}"), ("", 0))
        expect("cursor", self.cursor(), self.at(11))
        expect("nothing new", self.then("exit 3"), ("", 0))
        self.tree.set_top(13)
        out, error, status = self.planet("mirror", "follower.save", "--then", "map", "--", "sh", "-c",
                                         f"echo hallo; echo da >&2; {KEEPING}; exit 3")
        said = "map: 12..13 wasn't taken: sh: status 3\n"
        expect("what it printed is said before the line", (out, error, status), ("", f"hallo\nda\n{said}", 3))
        expect("noted", f'"fault":"{said[:-1]}"' in self.last_run(), True)
        expect("the mirror went on", self.number(), 13)
        self.tree.set_top(15)
        self.server.always = self.tree.missing(14)
        line, status = self.then(f"{KEEPING}; exit 4")
        expect("beside a fault of the mirror", (line, status), (
            "number 14 is missing; map: 12..13 wasn't taken: sh: status 4", 3))
        self.server.always = {}
        waits = "test -e {} && basename {} .opl | grep -qx 12-13"
        expect("mended", self.then(waits, "--lot", "1", "--form", "opl"), ("", 0))
        expect("the same range first", self.cursor(), self.at(13))
        expect("one number", self.then(KEEPING, "--lot=1"), ("", 0))
        expect("cursor", self.cursor(), self.at(14))
        expect("-v", self.planet("mirror", "follower.save", "-v", "--then=map", "--", "echo", "{}")[2], 0)
        expect("ranges", self.kept(), ["10-11", "12-13", "12-13", "14-14"])
        expect("no cursor", self.mirror("--then", "other", "--", "true"),
               ("other: not there (--start OUT.osm.pbf begins it)", 3))

    @numbered(8, 12)
    def test_keep(self):
        """Files of old numbers go, except those that the mirror or a consumer lacks."""
        folder = self.place / "follower.save.diffs"

        def there():
            found = sorted({int(name.replace("/", "")[:9]) for name in files_of(folder) if name != "state.txt"})
            return found and (found[0], found[-1])

        self.up_to(15, "--keep", "1")
        expect("a day", there(), (8, 15))
        self.up_to(15, "--keep", "0")
        expect("what the consumer lacks", there(), (9, 15))
        expect("hand-on", self.hand_on("--lot", "3"), ("handed on 10..12\n", "", 0))
        self.up_to(16, "--keep", "0")
        expect("what it lacks now", there(), (12, 16))
        (self.place / "map").rename(self.place / "elsewhere")
        said = "map: not there, so --keep removes nothing (mend it, or remove its line of SAVE.source)"
        expect("no cursor", self.mirror("--keep", "0"), (said, 3))
        expect("all stay", there(), (12, 16))
        (self.place / "elsewhere").rename(self.place / "map")
        expect("then", self.mirror("--keep", "0", "--then", "map", "--", "sh", "-c", KEEPING), ("", 0))
        expect("mirror", self.mirror("--keep", "0"), ("", 0))
        expect("the last one stays", there(), (16, 16))
        self.up_to(19, "--keep", "0")
        expect("it goes on", there(), (16, 19))
        expect("hand-on", self.hand_on()[1:], ("", 0))
        self.expect_mirrored(self.kept_files())
        shutil.rmtree(folder / "000")
        anew = "remove map and begin it anew: hand-on follower.save map --start OUT.osm.pbf"
        (self.place / "map").write_text(state_text(18, self.tree.seconds_of(18)))
        expect("gone", self.hand_on(),
               ("", f"follower.save.diffs: number 19 isn't there any more (bring it back, or {anew})\n", 3))

    def test_days_to_keep_are_a_hundred_years_at_most(self):
        self.tree.set_top(11)
        for days in "800000", "36501", "-1", "x", "":
            expect(days, self.planet("mirror", "follower.save", f"--keep={days}"),
                   ("", "--keep: bad number of days (0 to 36500)\n", 2))
        expect("nothing is fetched", self.number(), 9)
        expect("the most", self.mirror("--keep", "36500"), ("", 0))
        expect("number", self.number(), 11)

    def test_how_many_numbers_went_is_said(self):
        """Also if all that the folder has is old, since the files of SAVE's own number were lost."""
        self.up_to(11)
        expect("hand-on", self.hand_on()[1:], ("", 0))
        folder = self.place / "follower.save.diffs"
        for lost, count in (11, 3), (None, 0):
            if lost:
                (folder / path_of(lost, "state.txt")).unlink()
            error, status = self.planet("mirror", "follower.save", "--keep", "0", "-v")[1:]
            said = [line for line in error.splitlines() if "removed" in line]
            expect(error, (said, status), ([f"removed the files of {count} numbers"], 0))

    @numbered(999998, 6)
    def test_empty_folders_go(self):
        folder = self.place / "follower.save.diffs"

        def there():
            return sorted(str(one.relative_to(folder)) for one in folder.glob("[0-9]*/*"))

        self.up_to(1000003, "--keep", "0")
        expect("folders", there(), ["000/999", "001/000"])
        source = self.place / "follower.save.source"
        source.write_text(source.read_text().replace("cursor map\n", ""))
        self.up_to(1000003, "--keep", "0")
        expect("folders", there(), ["001/000"])


class Lots(Consumers):
    def lots(self, *words):
        return self.hand_on("--lots", "lots", *words, command=None)

    def sums(self):
        return run(["sha256sum", "-c", "manifest"], self.place / "lots")

    @numbered(8, 14)
    def test_lots_and_their_manifest(self):
        expect("nothing new", self.lots(), ("", "", 0))
        self.up_to(15)
        for first, last in (10, 11), (12, 13), (14, 15):
            expect("a lot", self.lots("--lot", "2"), (f"handed on {first}..{last}\n", "", 0))
        names = ["10-11.osc.gz", "12-13.osc.gz", "14-15.osc.gz"]
        expect("lots", sorted(files_of(self.place / "lots")), [*names, "manifest"])
        expect("sums", self.sums(), ("".join(f"{name}: OK\n" for name in names), "", 0))
        self.expect_mirrored([f"lots/{name}" for name in names])
        whole = files_of(self.place / "lots")
        # a cursor that was put back, and lots that were taken away
        (self.place / "map").write_text(state_text(9, self.tree.seconds_of(9)))
        (self.place / "lots/12-13.osc.gz").unlink()
        for _ in range(3):
            expect("again", self.lots("--lot", "5")[1:], ("", 0))
        expect("the same bytes", files_of(self.place / "lots"), whole)
        expect("cursor", self.cursor(), self.at(15))

    @numbered(8, 14)
    def test_what_lots_refuse(self):
        self.up_to(13)
        expect("a lot", self.lots("--lot", "2"), ("handed on 10..11\n", "", 0))
        expect("another form", self.lots("--form", "opl"),
               ("", "lots: its lots are .osc.gz (--form osc.gz, or another folder)\n", 3))
        for number in 8, 10, 13:
            (self.place / "map").write_text(state_text(number, self.tree.seconds_of(number)))
            said = f"lots/manifest: ends at 11, and the cursor is at {number}: lots of another cursor "
            expect(f"at {number}", self.lots(), ("", f"{said}(name another folder)\n", 3))
        (self.place / "map").write_text(state_text(9, self.tree.seconds_of(9)))
        lot = self.place / "lots/10-11.osc.gz"
        bytes_ = lot.read_bytes()
        lot.write_bytes(b"something")
        said = "lots/10-11.osc.gz: isn't what lots/manifest says of it (put a copy back, or name another folder)\n"
        expect("spoilt", self.lots(), ("", said, 3))
        expect("cursor", self.cursor(), self.at(9))
        lot.write_bytes(bytes_)
        manifest = self.place / "lots/manifest"
        text = manifest.read_text()
        manifest.write_text(text + "something\n")
        expect("manifest", self.lots(), ("", "lots/manifest: bad line 2\n", 3))
        manifest.unlink()
        os.mkfifo(manifest)
        expect("a pipe", self.lots(), ("", "lots/manifest: not a file\n", 3))
        manifest.unlink()
        manifest.write_text("0" * 64 + text[64:])
        lot.unlink()
        expect_fault("other bytes", self.lots()[1:], part="isn't what lots/manifest says")
        expect("it isn't left", lot.exists(), False)
        manifest.write_text(text)
        expect("right", self.lots(), ("handed on 10..11\n", "", 0))
        expect("the next", self.lots(), ("handed on 12..13\n", "", 0))

    def test_a_lot_of_another_history(self):
        """Where the cursor was put back too, its lot is made again and compared."""
        self.up_to(10)
        expect("a lot", self.lots(), ("handed on 10..10\n", "", 0))
        lot, manifest = self.place / "lots/10-10.osc.gz", self.place / "lots/manifest"
        (self.place / "other.opl").write_text("n1 v99 dV c7 t2024-01-01T00:00:00Z i5 uann T x1 y2\n")
        must(["osmium", "cat", "-O", "other.opl", "-o", lot], self.place)
        manifest.write_text(must(["sha256sum", "10-10.osc.gz"], lot.parent))
        (self.place / "map").write_text(state_text(9, self.tree.seconds_of(9)))
        said = "lots/10-10.osc.gz: isn't what lots/manifest says of it (put a copy back, or name another folder)\n"
        expect("refused", self.lots(), ("", said, 3))
        expect("cursor", self.cursor(), self.at(9))

    def test_a_lot_that_the_manifest_lacks(self):
        """A kill between the two: the range stays."""
        self.up_to(10)
        expect("a lot", self.lots(), ("handed on 10..10\n", "", 0))
        (self.place / "lots/manifest").unlink()
        (self.place / "map").write_text(state_text(9, self.tree.seconds_of(9)))
        self.up_to(11)
        expect("the same", self.lots(), ("handed on 10..10\n", "", 0))
        expect("the rest", self.lots("--form", "osc.gz"), ("handed on 11..11\n", "", 0))
        expect("sums", self.sums(), ("10-10.osc.gz: OK\n11-11.osc.gz: OK\n", "", 0))

    def test_opl(self):
        self.up_to(11)
        expect("a lot", self.lots("--form", "opl"), ("handed on 10..11\n", "", 0))
        self.expect_mirrored(["lots/10-11.opl"])
        expect("sums", self.sums(), ("10-11.opl: OK\n", "", 0))

    def test_two_cursors_and_one_folder(self):
        expect("start", self.hand_on("--start", "other.opl", command=None, cursor="other")[1:], ("", 0))
        self.up_to(11)
        (self.place / "lots").mkdir()
        with open(self.place / "lots/.lock", "wb") as lock:
            fcntl.flock(lock, fcntl.LOCK_EX)
            expect("busy", self.lots(), ("", "lots: in use (lots/.lock)\n", 4))
        expect("one", self.lots()[1:], ("", 0))
        expect("the other", self.hand_on("--lots", "lots", command=None, cursor="other"), ("handed on 10..11\n", "", 0))
        expect("one lot", len(files_of(self.place / "lots")), 2)


class Orders(Consumers):
    """What is on the disk, and when."""

    def notes(self, *words):
        """What a run of hand-on renames, syncs and starts after it began the work on a lot, with names in its place."""
        found = []
        for word, *names in noted(self, "hand-on", "follower.save", "map", *words):
            short = [name.removeprefix(f"{self.place}/").rsplit("/.lot.", 1)[0] for name in names]
            if word != "open" and short[0] != str(self.installed.program) and "cat" not in short:
                found.append(" ".join([word, *short]))
        return found

    def test_a_file_before_the_command_and_the_cursor_after_it(self):
        self.up_to(11)
        file, noted = "map.pending/10-11.osc.gz", "map.pending/.10-11.state.txt.new"
        expect("steps", self.notes("--", "true"), [
            f"sync {self.place}", f"sync {noted}", f"rename {noted} map.pending/10-11.state.txt", "sync map.pending",
            "sync map.pending", f"rename map.pending {file}", "sync map.pending", "start true",
            "sync .map.new", "rename .map.new map", f"sync {self.place}"])

    def test_a_lot_before_the_manifest_and_the_cursor_after_it(self):
        self.up_to(11)
        expect("steps", self.notes("--lots", "lots"), [
            f"sync {self.place}", "sync lots", "rename lots lots/10-11.osc.gz", "sync lots", "sync lots/.manifest.new",
            "rename lots/.manifest.new lots/manifest", "sync lots", "sync .map.new", "rename .map.new map",
            f"sync {self.place}"])


class KilledHandOns(Killing):
    """Killed before each step, alone and with the command; a repeat does the rest."""

    def setUp(self):
        super().setUp()
        self.tree.set_top(9)
        self.started()
        (self.before / "kept").mkdir()

    def begin(self, top=11):
        words = ["hand-on", "follower.save", "map", "--start", "map.osm.pbf"]
        expect("start", self.run_in(self.before, words), (0, "number 9\n", ""))
        self.tree.set_top(top)
        expect("mirror", self.run_in(self.before, ["mirror", "follower.save"]), (0, "", ""))

    def number(self, room):
        found = (room / "map").read_text()
        expect("a whole state text", found.startswith("sequenceNumber=") and found.endswith("Z\n"), True)
        return number_in(room / "map")

    def expect_left(self, room, *more):
        left = [str(one.relative_to(room)) for one in room.rglob(".*") if one.name not in (".fetch", *more)]
        expect("left", left, [])

    def test_a_hand_on(self):
        self.begin()
        words = ["hand-on", "follower.save", "map", "--", "sh", "-c", KEEPING]

        def check(room, unharmed):
            expect("cursor", self.number(room) in (9, 11), True)
            if self.number(room) == 11:
                expect("taken", (room / "kept/10-11").exists(), True)
            for file in (room / "map.pending").glob("10-11.osc.gz"):
                expect("whole", file.read_bytes(), (unharmed / "kept/10-11").read_bytes())
                # both go once the cursor has moved
                if self.number(room) == 9:
                    expect("of which history", number_in(room / "map.pending/10-11.state.txt"), 11)

        def finish(room, unharmed, done):
            expect("again", done, (0, "handed on 10..11\n", "") if "10..11" in done[1] else (0, "", ""))
            expect("cursor", self.number(room), 11)
            expect("what was taken", (room / "kept/10-11").read_bytes(), (unharmed / "kept/10-11").read_bytes())
            expect("ranges", set((room / "kept/log").read_text().split()), {"kept/10-11"})
            expect("what waits", (room / "map.pending").exists(), False)
            self.expect_left(room)

        expect("steps", self.kill_each(self.before, words, check, finish) >= 8, True)

    def test_a_start(self):
        words = ["hand-on", "follower.save", "map", "--start", "map.osm.pbf"]

        def check(room, unharmed):
            if (room / "map").exists():
                expect("the first cursor", self.number(room), 9)
                expect("exported", opl_of(room / "map.osm.pbf"), opl_of(unharmed / "map.osm.pbf"))
                expect("listed", "\ncursor map\n" in (room / "follower.save.source").read_text(), True)
            done = self.run_in(room, ["mirror", "follower.save", "--keep", "0"])
            said = "map: not there, so --keep removes nothing"
            expect(f"rotation, {done}", done == (0, "", "") or done[0] == 4 or done[2].startswith(said), True)

        def finish(room, unharmed, done):
            said = (3, "", "map: there already, at 9 (remove it to begin anew)\n")
            expect("again", done in ((0, "number 9\n", ""), said), True)
            check(room, unharmed)
            expect("cursor", self.number(room), 9)
            self.expect_left(room)

        expect("steps", self.kill_each(self.before, words, check, finish) >= 8, True)

    def test_lots(self):
        self.begin()
        words = ["hand-on", "follower.save", "map", "--lots", "lots"]

        def check(room, unharmed):
            whole = files_of(unharmed / "lots")
            expect_among(files_of(room / "lots"), whole)
            expect("cursor", self.number(room) in (9, 11), True)
            if self.number(room) == 11:
                expect("all is there", files_of(room / "lots"), whole)

        def finish(room, unharmed, done):
            expect("again", (done[0], done[2]), (0, ""))
            expect("lots", files_of(room / "lots"), files_of(unharmed / "lots"))
            expect("cursor", self.number(room), 11)
            self.expect_left(room, ".lock")

        expect("steps", self.kill_each(self.before, words, check, finish) >= 8, True)

    def test_a_mirror_that_hands_on_and_rotates(self):
        self.begin(10)
        self.tree.set_top(11)
        words = ["mirror", "follower.save", "--keep", "0", "--then", "map", "--", "sh", "-c", KEEPING]
        (self.before / "wanted").mkdir()

        def kept(room):
            return dict.fromkeys((room / "kept/log").read_text().split()) if (room / "kept/log").exists() else {}

        def check(room, _unharmed):
            expect("cursor", self.number(room) in (9, 10, 11), True)

        def finish(room, _unharmed, done):
            # what waited from before the kill is of fewer numbers
            for _ in range(2):
                done = self.again(room, words)
                expect("again", done, (0, "", ""))
            expect("cursor", self.number(room), 11)
            expect("ranges", list(kept(room)) in (["kept/10-11"], ["kept/10-10", "kept/11-11"]), True)
            names = [shutil.copy(room / name, room / f"{Path(name).name}.osc.gz") for name in kept(room)]
            must(["osmium", "apply-changes", "--no-progress", "-O", "map.osm.pbf", *names, "-o", "map.opl"], room)
            expect("export", self.run_in(room, ["export", "follower.save", "now.opl"]), (0, "", ""))
            expect("the consumer has the mirror", (room / "map.opl").read_text(), (room / "now.opl").read_text())
            states = sorted(file.name for file in (room / "follower.save.diffs/000/000").iterdir())
            expect("files", states, ["011.opl", "011.state.txt"])
            self.expect_left(room)

        steps = self.kill_each(self.before, words, check, finish, alone=5, since="osmrepl follow")
        expect("steps", steps >= 15, True)
