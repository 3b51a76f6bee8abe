"""publish and export: what others get of a folder and of a mirror."""

import os
import re
import shutil

from planet_place import (NOBODY, PATH, TOP, Case, disk, expect, expect_fault, expect_started, files_of, locked, must,
                          needs, nodes, numbers, opl_of, run, time_text)
from planet_server import Server, path_of, publish

ODD = """\
n1 v1 dV c7 t2024-01-01T00:10:00Z i5 uann T x8.25 y47.5
n2 v3 dV c8 t2024-01-01T01:30:00Z i6 uZo%eb%%20%M%fc%ller Tname=%1f600%%20%\"<&'>,a=b%2c%%3d%%40% x1.5 y-2.25
n2 v1 dV c8 t2024-01-01T01:30:00Z i6 ubob T x1.5 y2.25
n2 v2 dD c8 t2024-01-01T01:30:00Z i6 ubob T x y
w10 v1 dV c9 t2024-01-01T01:30:00Z i5 u T Nn1,n1
w10 v2 dD c9 t2024-01-01T01:30:00Z i5 uann T N
r4 v1 dV c9 t2024-01-01T02:45:00Z i5 uann Ttype=route Mw10@,n1@a%20%b
r5 v1 dV c9 t2024-01-01T02:45:00Z i5 uann T M
n3 v1 dV c2147483647 t2024-01-01T02:45:00Z i2147483647 u T x1 y2
n-1 v1 dV c9 t2024-01-01T02:45:00Z i5 uann T x1 y2
"""


class Publishes(Case):
    def publish(self, text, *words, name="changes.opl", folder="folder"):
        file = self.place / name
        file.write_text(text)
        return self.planet("publish", folder, name, *words)

    def opened(self, number, folder="folder"):
        """The .osc.gz of a number as OPL."""
        return opl_of(self.folder(folder) / path_of(number, "osc.gz"))

    def test_the_diff_has_the_changes_of_the_folder(self):
        """Odd names, versions out of order, bare deletions, an object of nobody, and a number without changes."""
        expect("publish", self.publish(ODD), ("published 1\n", "", 0))
        expect("publish nothing", self.publish(""), ("published 2\n", "", 0))
        expect("files", set(files_of(self.folder())), {"state.txt"} | numbers_of(1, 2))
        expect("changes", (self.folder() / path_of(1, "opl")).read_text(), ODD)
        (self.place / "odd.opl").write_text(ODD)
        odd = opl_of(self.place / "odd.opl")
        expect("changes of the diff", self.opened(1), odd.replace(f"c{NOBODY} ", "c0 ").replace(f"i{NOBODY} ", "i0 "))
        expect("no changes", self.opened(2), "")
        xml = must(["gzip", "-dc", self.folder() / path_of(1, "osc.gz")])
        nobody = [line for line in xml.splitlines() if '<node id="3"' in line][0]
        expect(f"nobody: {nobody}", ("user" in nobody, "uid" in nobody, "changeset" in nobody), (False, False, False))
        expect("audit", self.program("audit", "folder"), "ok 1..2\n")
        expect("changes are taken away", (self.place / "changes.opl").exists(), False)
        state = (self.folder() / "state.txt").read_text().splitlines()
        shape = re.sub("[0-9]", "0", state[1])
        expect("state", (state[0], shape), ("sequenceNumber=2", r"timestamp=0000-00-00T00\:00\:00Z"))

    def test_a_repeat_publishes_nothing_twice(self):
        expect("publish", self.publish(ODD, "--now", "2024-01-01T03:00:00Z"), ("published 1\n", "", 0))
        whole = files_of(self.folder())
        # as a run leaves it that was killed before it took CHANGES away
        text = f"# published as 1 at 2024-01-01T03:00:00Z\n{ODD}"
        expect("again", self.publish(text), ("published 1\n", "", 0))
        expect("files", files_of(self.folder()), whole)
        # a lost diff comes back
        (self.folder() / path_of(1, "osc.gz")).unlink()
        expect("again", self.publish(text), ("published 1\n", "", 0))
        expect("files", set(files_of(self.folder())), set(whole))
        expect("its changes", self.opened(1).count("\n"), ODD.count("\n"))
        expect("another", self.publish(ODD), ("published 2\n", "", 0))

    def test_a_refused_repeat_changes_no_diff(self):
        expect("publish", self.publish(ODD, "--now", "2024-01-01T03:00:00Z"), ("published 1\n", "", 0))
        whole = {file: (file.read_bytes(), file.stat().st_mtime_ns, file.stat().st_ino)
                 for file in self.folder().rglob("*") if file.is_file() and file.name[0] != "."}
        first = ODD.splitlines(True)[0]
        for text in (f"# published as 1 at 2024-01-01T03:00:00Z\n{first}",
                     f"# published as 1 at 2024-01-01T04:00:00Z\n{ODD}",
                     f"# published as 3 at 2024-01-01T04:00:00Z\n{ODD}",
                     f"# published as 0 at 2024-01-01T04:00:00Z\n{ODD}"):
            expect_fault(text[:50], self.publish(text), status=(2, 3))
            found = {file: (file.read_bytes(), file.stat().st_mtime_ns, file.stat().st_ino)
                     for file in self.folder().rglob("*") if file.is_file() and file.name[0] != "."}
            expect("files", found, whole)
            expect("CHANGES is left", (self.place / "changes.opl").read_text(), text)

    def test_each_form_of_changes(self):
        (self.place / "plain.opl").write_text("".join(
            line for line in ODD.splitlines(True) if line[:3] not in ("n-1",) and " v1 " in line and " dV " in line))
        forms = ["osc", "osc.gz", "opl.gz"] + (["o5c"] if shutil.which("osmconvert") else [])
        for number, form in enumerate(forms, 1):
            name = f"changes.{form}"
            if form == "o5c":
                self.program("convert", "plain.opl", name)
            else:
                must(["osmium", "cat", "-O", "plain.opl", "-o", name], self.place)
            expect(form, self.planet("publish", "folder", name), (f"published {number}\n", "", 0))
            expect("changes", (self.folder() / path_of(number, "opl")).read_text(),
                   (self.place / "plain.opl").read_text())
            expect("CHANGES is taken away", [one for one in os.listdir(self.place) if one.startswith("changes")], [])

    def test_another_file_under_the_same_name(self):
        """A run that was killed at its end leaves what it made of CHANGES, which isn't taken for a new file's."""
        lines = nodes(1, 2).splitlines(True)
        for number, line in enumerate(lines, 1):
            (self.place / "line.opl").write_text(line)
            must(["osmium", "cat", "-O", "line.opl", "-o", f"{number}.osc"], self.place)
        shutil.copy(self.place / "1.osc", self.place / "next.osc")
        expect("publish", self.planet("publish", "folder", "next.osc", "--now", "2024-01-01T03:00:00Z"),
               ("published 1\n", "", 0))
        # as it is between the removal of CHANGES and that of its text
        (self.place / "next.osc.publish.opl").write_text(f"# published as 1 at 2024-01-01T03:00:00Z\n{lines[0]}")
        shutil.copy(self.place / "2.osc", self.place / "next.osc")
        out, error, status = self.planet("publish", "folder", "next.osc")
        expect(f"publish another: {error}", (out, status), ("published 2\n", 0))
        expect("its changes", (self.folder() / path_of(2, "opl")).read_text(), lines[1])
        expect("left", [one for one in os.listdir(self.place) if one.startswith("next")], [])

    def test_objects_without_authors(self):
        bare = "n3 v1 dV c0 t2024-01-01T02:45:00Z i0 u T x1 y2\n"
        out, error, status = self.publish(bare)
        expect(f"publish: {out}{error}", (out.splitlines()[-1], status), ("published 1", 0))
        expect("said", "without user 1, without changeset 1" in out + error, True)
        expect("the folder", (self.folder() / path_of(1, "opl")).read_text(),
               f"n3 v1 dV c{NOBODY} t2024-01-01T02:45:00Z i{NOBODY} u T x1 y2\n")
        expect("the diff", self.opened(1), bare)
        expect_fault("strict", self.publish(bare, "--strict"))
        expect("files", set(files_of(self.folder())), {"state.txt"} | numbers_of(1, 1))

    def test_what_is_refused_leaves_the_folder(self):
        expect("publish", self.publish(ODD), ("published 1\n", "", 0))
        whole = files_of(self.folder())
        for name, text in [("a page", "<html>\n"), ("many", nodes(0, 100000)),
                           ("no version", ODD.replace(" v1 ", " v0 ", 1)),
                           ("no place", "n1 v1 dV c20 t2024-01-01T09:00:00Z i5 uann T x y\n"),
                           ("half a line", ODD[:-20])]:
            expect_fault(name, self.publish(text))
            expect("files", files_of(self.folder()), whole)
        expect("none", self.planet("publish", "folder", "none.opl"), ("", "none.opl: not there\n", 3))
        expect_fault("back in time", self.publish(ODD, "--now", "2020-01-01T00:00:00Z"), part="TimeBack")
        expect("files", files_of(self.folder()), whole)

    def test_what_xml_cannot_hold_is_refused(self):
        """Nothing is published of it, as nobody could read its .osc.gz. The same number follows once it is mended."""
        lines = ODD.splitlines(True)
        for old, new, said in [("uann", "ua%1%nn", "n1: a character that XML can't hold (%1%)"),
                               ("uann", "ua\x1fnn", "n1: a character that XML can't hold (%1f%)"),
                               ("uann", "ua%fffe%nn", "n1: a character that XML can't hold (%fffe%)"),
                               (" c7 ", " c4294967295 ", "n1: a changeset that XML can't hold (4294967295)"),
                               (" i5 ", " i4294967295 ", "n1: a user id that XML can't hold (4294967295)"),
                               (" v1 ", " v2147483648 ", "n1: a version that XML can't hold (2147483648)")]:
            said = ("", f"changes.opl: {said}; mend changes.opl\n", 3)
            expect("refused", self.publish("".join([*lines[1:], lines[0].replace(old, new)])), said)
            expect("files", set(files_of(self.folder())), set())
        expect("left", [name for name in os.listdir(self.place) if name.endswith((".new", ".publish.opl"))], [])
        held = lines[0].replace(" T ", " Tname=Gleis%20%1%20%%9%%fffd% ").replace(" c7 ", " c4294967294 ").replace(
            " i5 ", " i4294967294 ").replace(" v1 ", " v2147483647 ")
        expect("mended", self.publish(held), ("published 1\n", "", 0))
        expect("its diff", self.opened(1),
               must(["osmium", "cat", self.folder() / path_of(1, "opl"), "-f", "opl"]))

    @needs("osmconvert")
    def test_an_o5c_file_that_osmium_misreads(self):
        """One with a role of 250 bytes, which osmium alone has in its table of strings."""
        meta = "v1 dV c7 t2024-01-01T00:10:00Z"
        text = (f"n1 {meta} i5 uann T x1 y2\nr1 {meta} i5 uann Ttype=route,name=North Mn1@a\n"
                f"r2 {meta} i6 ubob Ttype=route,name=South Mn1@b\nr3 {meta} i5 uann Tref=1 Mn1@{'%44f%' * 125}\n"
                f"r4 {meta} i5 uann Ttype=route,name=North M\nr5 {meta} i6 ubob Tname=South,type=route M\n")
        (self.place / "plain.opl").write_text(text)
        self.program("convert", "plain.opl", "changes.o5c")
        whole = (self.place / "changes.o5c").read_bytes()
        expect("publish", self.planet("publish", "folder", "changes.o5c"), ("published 1\n", "", 0))
        expect("changes", (self.folder() / path_of(1, "opl")).read_text(), text)
        # without authors osmrepl doesn't take it
        must(["osmium", "cat", "-O", "plain.opl", "-o", "plain.osc"], self.place)
        bare = re.sub(' uid="5" user="ann"', "", (self.place / "plain.osc").read_text())
        (self.place / "bare.osc").write_text(bare)
        must(["osmconvert", "bare.osc", "--out-o5c", "-o=bare.o5c"], self.place)
        out, error, status = self.planet("publish", "folder", "bare.o5c")
        expect(f"without authors: {error}", (out, "NoMetadata (bare.o5c); and osmium misreads it" in error,
                                             error.count("\n"), status), ("", True, 1, 3))
        (self.place / "cut.o5c").write_bytes(whole[:-9])
        out, error, status = self.planet("publish", "folder", "cut.o5c")
        expect(f"cut: {error}", (out, "cut.o5c" in error, error.count("\n"), status), ("", True, 1, 3))
        expect("left", sorted(name for name in os.listdir(self.place) if "publish" in name), [])
        expect("number", "sequenceNumber=1\n" in (self.folder() / "state.txt").read_text(), True)

    def test_osmium_says_why_it_reads_no_more(self):
        """A fault before it has read all changes, here before the first one."""
        tools = self.script("tools/osmium", "echo a fault >&2\nexit 1").parent
        (self.place / "changes.opl").write_text(nodes(1, 50000))
        expect("publish", self.planet("publish", "folder", "changes.opl", PATH=f"{tools}:{PATH}"),
               ("", f"folder/{path_of(1, 'osc.gz')}: osmium: a fault\n", 3))
        expect("again", self.planet("publish", "folder", "changes.opl"), ("published 1\n", "", 0))

    def test_a_folder_that_is_locked_is_left(self):
        expect("publish", self.publish(ODD), ("published 1\n", "", 0))
        with locked(self.folder() / ".osmrepl-lock"):
            expect_fault("locked", self.publish(ODD), part="in use", status=4)
        expect("CHANGES is left", (self.place / "changes.opl").exists(), True)

    @needs("root")
    def test_a_full_disk(self):
        small = self.enter(disk(self.place / "disk", 64))
        expect("publish", self.publish(ODD, folder="disk/folder"), ("published 1\n", "", 0))
        whole = files_of(small / "folder")
        (small / "filler").write_bytes(b"a" * (os.statvfs(small).f_bavail * 4096 - 4096))
        long = "".join(f"n{number} v1 dV c7 t2024-01-01T00:00:00Z i5 uann Tnote={number * 7919 % 9973} x1 y2\n"
                       for number in range(3000))
        expect_fault("publish", self.publish(long, folder="disk/folder"), part="write failed")
        (small / "filler").unlink()
        found = files_of(small / "folder")
        expect("published", {name: found.get(name) for name in whole}, whole)
        must(["mount", "-o", "remount,size=4m", small])
        expect("with room", self.planet("publish", "disk/folder", "changes.opl"), ("published 2\n", "", 0))
        expect("audit", self.program("audit", small / "folder"), "ok 1..2\n")


def numbers_of(first, last):
    return numbers(first, last, "opl", "o5c", "osc.gz")


class Exports(Case):
    def up(self):
        self.start()
        expect("mirror", self.mirror(), ("", 0))

    def export(self, name="out.osm.pbf"):
        expect(name, self.planet("export", "follower.save", name)[1:], ("", 0))

    def expect_objects(self, wanted, name="out.osm.pbf"):
        expect("objects", opl_of(self.place / name), wanted)

    def test_a_second_mirror_goes_on_from_what_was_exported(self):
        self.start()
        self.up_to(9)
        self.tree.set_top(11)
        self.export()
        expect("header", self.header("out.osm.pbf", "base_url", "sequence_number", "timestamp"),
               [self.server.place, "9", time_text(self.tree.seconds_of(9))])
        expect_started(self.planet("start", "out.osm.pbf", "second.save"), 9, "second.save")
        expect("mirror", self.mirror(save="second.save"), ("", 0))
        self.expect_result("second.save")

    @needs("pyosmium-up-to-date")
    def test_others_go_on_from_what_was_exported(self):
        self.start()
        self.up_to(9)
        self.tree.set_top(11)
        self.export()
        expect("up to date", run(["pyosmium-up-to-date", "out.osm.pbf"], self.place), ("", "", 0))
        self.expect_objects(self.tree.result())

    def test_a_mirror_changes_to_a_folder_of_other_numbers(self):
        """As from minutes to hours: its number there is that of the last time that isn't after the mirror's."""
        self.start()
        self.up_to(9)
        self.export()
        hours = self.place / "hours"
        must(["osmium", "merge-changes", *self.tree.diffs(), "-o", "hour.opl", "-f", "opl"], self.place)
        (self.place / "none.opl").write_text("")
        publish(hours, 2, self.tree.seconds_of(9) - 30, self.place / "none.opl")
        publish(hours, 3, self.tree.seconds_of(11), self.place / "hour.opl")
        with Server(hours) as other:
            expect_started(self.planet("start", "out.osm.pbf", "hours.save", "--url", other.place), 2, "hours.save")
            expect("mirror", self.mirror(save="hours.save"), ("", 0))
            expect("number", self.number("hours.save"), 3)
        self.expect_result("hours.save")

    def test_each_form(self):
        self.up()
        for name in "out.osm.pbf", "out.osm.bz2", "out.opl", "out.osm", "out.osm.gz":
            self.export(name)
            self.expect_objects(self.tree.result(), name)
        expect("files", [one for one in os.listdir(self.place) if one.startswith(".out")], [])

    def test_objects_of_nobody_have_no_author(self):
        self.tree.extract.write_text(re.sub(r" c[0-9]+ (t[^ ]*) i[0-9]+ u[^ ]* ", r" c0 \1 i0 u ",
                                            self.tree.extract.read_text()))
        expect("start", self.start()[1:], ("", 0))
        self.export()
        self.expect_objects(opl_of(self.tree.extract))

    def test_what_a_form_cannot_hold(self):
        """The old file stays. Each value is in the form that holds it."""
        state = self.tree.folder / path_of(7, "state.txt")
        line = "n1 v1 dV c7 t2024-01-01T00:00:00Z i5 uann T x1 y2\n"
        forms = {"XML": ["out.osm", "out.osm.bz2"], "PBF": ["out.osm.pbf"], "OPL": ["out.opl"]}
        for old, new, what, value, refusing in [
                ("uann", "ua%01%nn", "character", "%01%", ["XML"]),
                (" c7 ", " c4294967295 ", "changeset", "4294967295", ["XML", "PBF"]),
                (" i5 ", " i4294967295 ", "user id", "4294967295", ["XML", "PBF"]),
                (" i5 ", " i2147483648 ", "user id", "2147483648", ["PBF"]),
                (" v1 ", " v2147483648 ", "version", "2147483648", ["XML", "PBF", "OPL"])]:
            text = line.replace(old, new)
            (self.place / "base.opl").write_text(text)
            self.program("begin", "base.opl", state, "odd.save")
            for form, names in forms.items():
                for name in names:
                    (self.place / name).write_text("old")
                    found = self.planet("export", "odd.save", name)
                    if form in refusing:
                        said = (f"odd.save: n1: a {what} that {form} can't hold ({value}); "
                                "osmrepl export odd.save OUT.opl holds it\n")
                        expect(f"{new} in {name}", (found, (self.place / name).read_text()), (("", said, 3), "old"))
                    else:
                        expect(f"{new} in {name}", (found, must(["osmium", "cat", name, "-f", "opl"], self.place)),
                               (("", "", 0), text))
            self.program("export", "odd.save", "held.opl")
            expect("the way out", (self.place / "held.opl").read_text(), text)
        expect("files", [one for one in os.listdir(self.place) if one.startswith(".out")], [])

    def test_what_is_refused_leaves_the_file(self):
        self.up()
        out = self.place / "out.osm.pbf"
        out.write_text("old")
        save = self.place / "follower.save"
        (self.place / "faulty.save").write_bytes(save.read_bytes()[:-5])
        shutil.copy(self.place / "follower.save.source", self.place / "faulty.save.source")
        for words in (["faulty.save", out], ["none.save", out], ["follower.save", "none/out.osm.pbf"],
                      ["follower.save", "out.csv"]):
            expect_fault(f"{words}", self.planet("export", *words), status=(2, 3))
            expect("the old file", out.read_text(), "old")
        expect("files", [one for one in os.listdir(self.place) if one.startswith(".out") or one == "out.csv"], [])

    def test_a_mirror_that_was_begun_empty(self):
        """Its base is 0, and show prints no base. Others begin with it, too."""
        small = self.place / "small"
        shutil.copytree(TOP / "examples/folder", small)
        with Server(small) as one:
            expect("mirror", self.planet("mirror", "own.save", "--url", one.place, "--empty", "--lag", "999999999"),
                   ("", "", 0))
        objects = self.program("show", "own.save").split("\n", 3)[3].split("users")[0]
        expect("export", self.planet("export", "own.save", "out.osm.pbf")[1:], ("", 0))
        self.expect_objects(objects)
        expect("sequence", self.header("out.osm.pbf", "sequence_number"), ["3"])
        expect("hand-on", self.planet("hand-on", "own.save", "cursor", "--start", "start.opl"), ("number 3\n", "", 0))
        expect("objects", (self.place / "start.opl").read_text(), objects)
        expect("sqlite", self.planet("sqlite", "own.save", "own.db"), ("number 3\n", "", 0))

    def test_a_mirror_without_a_source(self):
        """One that was begun by begin: its number and time are known, and no server."""
        self.begin()
        self.export()
        self.expect_objects(opl_of(self.tree.extract))

    def test_a_show_that_ends_within_a_line_says_why(self):
        """Whoever reads that line refuses it too. What show says once nobody reads any more is no cause."""
        self.up()
        text = self.program("show", "follower.save")
        text = re.sub("\nobjects [0-9]+", "\nobjects 100000000", text[:text.index(" v", len(text) // 2) + 2])
        (self.place / "shown").write_text(text)

        def fails(rest, fault, *words):
            show = self.script("osmrepl", f"cat shown\n{rest}\necho 'osmrepl: {fault}' >&2\nexit 3")
            return self.planet(*words, OSMREPL=str(show))

        fault = "save: changed while it was read"
        for words in ("export", "follower.save", "out.osm.pbf"), ("sqlite", "follower.save", "own.db"):
            expect(f"{words}", fails("", fault, *words), ("", f"osmrepl: {fault}\n", 3))
        expect_fault("osmium's own", fails("yes 2>/dev/null", "no more is read", "export", "follower.save", "out.opl"),
                     "out.opl: osmium: ")

    @needs("root")
    def test_a_full_disk(self):
        """Of each size: the old file stays."""
        self.up()
        failed = 0
        for pages in range(1, 20):
            with disk(self.place / "disk", 4 * pages) as small:
                (small / "out.osm.pbf").write_text("old")
                _, error, status = done = self.planet("export", "follower.save", "disk/out.osm.pbf")
                if status == 0:
                    break
                failed += 1
                expect_fault("export", done, part="write failed")
                expect("files", files_of(small), {"out.osm.pbf": b"old"})
                expect("rooms", [one for one in os.listdir(small) if one.startswith(".out")], [])
        expect(f"sizes, {failed}, {error}", (failed >= 1, status), (True, 0))
