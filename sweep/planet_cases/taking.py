"""How publish takes CHANGES: what comes under its name meanwhile, what a run that was killed or refused leaves, and a
folder whose state.txt was lost."""

import hashlib
import os
import subprocess

from planet_cases.killing import HOOK, Killing
from planet_place import PATH, TOP, disk, expect, expect_fault, files_of, must, nodes, opl_of, run
from planet_server import path_of

# renameat2 is called by way of ctypes
RENAMES = HOOK.replace('    return event in ("sqlite"', '''\
    if event == "ctypes.dlsym":
        return words[1] == "renameat2"
    return event in ("sqlite"''')


def line(number):
    return nodes(number, number)


class Taking(Killing):
    hook_text = RENAMES

    def put(self, name, number, room=None):
        """Lays a file of one change under a name, in the form that it says."""
        made = self.place / f"made-{number}.opl"
        made.write_text(line(number))
        to = (room or self.place) / name
        if to.suffix == ".opl":
            made.rename(to)
        elif to.suffix == ".o5c":
            self.program("convert", made, to)
            made.unlink()
        else:
            must(["osmium", "cat", "-O", made, "-o", to])
            made.unlink()

    def wrapped(self, text):
        """The program, before whose publications something else is done."""
        return str(self.script("osmrepl",
                               f'if [ "$1" = publish ]; then\n{text}\nfi\nexec {self.installed.program} "$@"'))

    def expect_published(self, *wanted, folder=None):
        """Each number has these changes, in all forms."""
        folder = folder or self.folder()
        found = sorted(file.relative_to(folder).as_posix() for file in folder.rglob("*.opl"))
        expect("numbers", found, [path_of(number, "opl") for number in range(1, len(wanted) + 1)])
        for number, change in enumerate(wanted, 1):
            for form in "opl", "osc.gz":
                expect(f"{number} as {form}", opl_of(folder / path_of(number, form)), line(change))

    def newest(self):
        return int((self.folder() / "state.txt").read_text().partition("sequenceNumber=")[2].split()[0])

    def left(self, name="next", room=None):
        return sorted(one for one in os.listdir(room or self.place) if name in one)

    def test_another_file_comes_meanwhile(self):
        """Before the program publishes. All forms are those of the file that was there first, and the other stays."""
        number = 0
        for form in "opl", "osc":
            program = self.wrapped(f"mv late.{form} next.{form}")
            self.put(f"next.{form}", number + 1)
            self.put(f"late.{form}", number + 2)
            expect(form, self.planet("publish", "folder", f"next.{form}", OSMREPL=program),
                   (f"published {number + 1}\n", "", 0))
            expect("the other stays", self.left(), [f"next.{form}"])
            expect("the other", self.planet("publish", "folder", f"next.{form}"), (f"published {number + 2}\n", "", 0))
            expect("nothing is left", self.left(), [])
            number += 2
        self.expect_published(1, 2, 3, 4)

    def test_what_a_killed_run_took_is_published_first(self):
        for form in "opl", "osc.gz":
            self.put(f".publish.next.{form}", 1)
            self.put(f"next.{form}", 2)
            expect("by that name", self.planet("publish", f"folder-{form}", f".publish.next.{form}"),
                   ("", f".publish.next.{form}: a name of the run's own (give next.{form})\n", 3))
            expect("both", self.planet("publish", f"folder-{form}", f"next.{form}"),
                   ("published 1\npublished 2\n", "", 0))
            self.expect_published(1, 2, folder=self.folder(f"folder-{form}"))
            expect("nothing is left", self.left(), [])

    def test_a_refused_file_has_its_name_again(self):
        """Unless another one has come under it: then its place is said, and it is published first."""
        self.put("next.opl", 1)
        program = self.wrapped("exit 3")
        expect("refused", self.planet("publish", "folder", "next.opl", OSMREPL=program), ("", "osmrepl: status 3\n", 3))
        marked = (self.place / "next.opl").read_text().split("\n", 1)
        expect("its name", (marked[0][:17], marked[1], self.left()), ("# published as 1 ", line(1), ["next.opl"]))
        self.put("late.opl", 2)
        program = self.wrapped("mv late.opl next.opl; exit 3")
        expect("refused", self.planet("publish", "folder", "next.opl", OSMREPL=program), (
            "", "osmrepl: status 3; these changes are .publish.next.opl, and the next run takes them first\n", 3))
        expect("both are there", self.left(), [".publish.next.opl", "next.opl"])
        expect("again", self.planet("publish", "folder", "next.opl"), ("published 1\npublished 2\n", "", 0))
        self.expect_published(1, 2)

    def test_before_each_step_and_another_file_comes(self):
        """Each of two files is published once, whenever the run of the first is killed."""
        for form in "opl", "osc":
            before, name = self.place / f"before-{form}", f"next.{form}"
            before.mkdir()
            self.put(name, 1, before)

            def check(room, _, name=name):
                if not (room / name).exists():
                    self.put(name, 2, room)

            def finish(room, _, done, name=name, form=form):
                if len(list((room / "folder").rglob("*.opl"))) == 1:
                    # it was killed before it took the first one
                    expect("the first", done, (0, "published 1\n", ""))
                    self.put(name, 2, room)
                    done = self.run_in(room, ["publish", "folder", name])
                    expect("the second", done, (0, "published 2\n", ""))
                expect(f"again: {done}", (done[0], done[1].splitlines()[-1], done[2]), (0, "published 2", ""))
                self.expect_published(1, 2, folder=room / "folder")
                expect("nothing is left", self.left(room=room), [])

            words = ["publish", "folder", name]
            expect("steps", self.kill_each(before, words, check, finish, alone=1000) > 5, True)

    def test_a_state_text_that_is_lost_or_older(self):
        for number in 1, 2, 3:
            self.put("next.opl", number)
            expect("publish", self.planet("publish", "folder", "next.opl"), (f"published {number}\n", "", 0))
        top, file = self.folder() / "state.txt", self.folder() / path_of(3, "state.txt")
        for said, older in ("not there", None), ("at 1", (self.folder() / path_of(1, "state.txt")).read_bytes()):
            top.unlink(missing_ok=True)
            if older:
                top.write_bytes(older)
            whole = files_of(self.folder())
            self.put("next.opl", 9)
            expect(said, self.planet("publish", "folder", "next.opl"), (
                "", f"folder/state.txt: {said}, though folder/{path_of(3, 'state.txt')} is there (copy that to "
                "folder/state.txt; or remove it, if it was never published)\n", 3))
            expect("nothing is written", files_of(self.folder()), whole)
            expect("its name", (self.place / "next.opl").read_text(), line(9))
            # a first try of number 3 that its state is left of is no other
            (self.place / "next.opl").write_text(f"# published as 3 at 2024-01-01T00:00:00Z\n{line(9)}")
            expect(said, self.planet("publish", "folder", "next.opl")[2], 3)
            expect("nothing is written", files_of(self.folder()), whole)
        top.write_bytes(file.read_bytes())
        self.put("next.opl", 4)
        expect("mended", self.planet("publish", "folder", "next.opl"), ("published 4\n", "", 0))
        self.expect_published(1, 2, 3, 4)

    def test_what_a_killed_program_left_goes(self):
        self.put("next.opl", 1)
        expect("publish", self.planet("publish", "folder", "next.opl"), ("published 1\n", "", 0))
        for name in ".state.txt.osmrepl-4711", "000/000/.002.o5c.osmrepl-4711", "000/000/.mine":
            (self.folder() / name).write_text("left\n")
        self.put("next.opl", 2)
        (self.place / ".publish.next.opl.new").write_text("left\n")
        expect("publish", self.planet("publish", "folder", "next.opl"), ("published 2\n", "", 0))
        hidden = [file.name for file in self.folder().rglob(".*")]
        expect("hidden files", (sorted(hidden), self.left()), ([".mine", ".osmrepl-lock"], []))
        (self.place / "next.osc").write_text('<osmChange version="0.6"><create>')
        expect_fault("refused", self.planet("publish", "folder", "next.osc"), "next.osc: osmium: ")
        expect("what is left of it", self.left(), ["next.osc"])

    def test_what_a_killed_program_left_of_a_mirror_goes(self):
        self.begin()
        self.up_to(9, "--renumber")
        for name in ".state.txt.osmrepl-4711", "000/000/.010.o5c.osmrepl-4711":
            (self.folder() / name).write_text("left\n")
        self.up_to(11)
        expect("hidden files", [file.name for file in self.folder().rglob(".*.osmrepl-*")], [])
        self.expect_result()

    def test_data_files_and_bad_lines(self):
        (self.place / "data.osm").write_text(must(["osmium", "cat", self.tree.extract, "-f", "osm"]))
        (self.place / "data.osc").write_text((self.place / "data.osm").read_text())
        must(["osmium", "cat", "data.osm", "-o", "data.osm.pbf"], self.place)
        for name in "data.osm", "data.osc", "data.osm.pbf":
            content = (self.place / name).read_bytes()
            expect(name, self.planet("publish", "folder", name), ("", f"{name}: a data file, and no changes\n", 3))
            expect("its name", ((self.place / name).read_bytes(), self.left("publish")), (content, []))
        (self.place / "next.opl").write_text(line(1) + line(2).replace(" dV ", " dX "))
        expect("a bad line, below that of the number", self.planet("publish", "folder", "next.opl"), (
            "", "next.opl: osmium: OPL error: invalid visible flag on line 3 column 7\n", 3))
        expect("its line", (self.place / "next.opl").read_text().splitlines()[2][:8], "n2 v1 dX")
        expect("nothing is published", files_of(self.folder()), {})

    def test_a_repeat_after_a_restart(self):
        """It was put back from a copy, or its file system has another number: what tells it is what it holds."""
        for number, name in enumerate(("next.opl", "next.osc", "next.osc.gz", "next.o5c"), 1):
            self.put(name, number)
            with open("/dev/full", "wb") as full:
                done = subprocess.run([self.installed.planet, "publish", "folder", name], cwd=self.place, stdout=full,
                                      env={"PATH": PATH}, stderr=subprocess.DEVNULL, check=False)
            expect(f"{name}: what it can't print", (done.returncode, self.newest()), (3, number))
            changes = self.place / name
            content = changes.read_bytes()
            changes.rename(self.place / "kept")
            changes.write_bytes(content)
            os.utime(changes, (0, 0))
            expect(f"{name}: a repeat", self.planet("publish", "folder", name), (f"published {number}\n", "", 0))
            expect(f"{name}: nothing is left", self.left(), [])
        self.expect_published(1, 2, 3, 4)

    def test_a_folder_that_was_put_back(self):
        """Its next number is below the one that the changes were to be."""
        self.put("first.opl", 1)
        expect("the first", self.planet("publish", "folder", "first.opl"), ("published 1\n", "", 0))
        said = "was to be number 5, and folder is at 1: an old copy of it (bring its newest numbers back, or remove"
        mark = "# published as 5 at 2024-01-01T00:00:00Z\n"
        (self.place / "next.opl").write_text(mark + line(2))
        expect("OPL", self.planet("publish", "folder", "next.opl"),
               ("", f"next.opl: {said} the first line of next.opl)\n", 3))
        self.put("next.osc", 2)
        content = (self.place / "next.osc").read_bytes()
        of = f"# of {hashlib.sha256(content).hexdigest()}\n"
        (self.place / "next.osc.publish.opl").write_text(mark + of + line(2))
        expect("another form", self.planet("publish", "folder", "next.osc"),
               ("", f"next.osc: {said} next.osc.publish.opl)\n", 3))
        (self.place / "next.osc.publish.opl").unlink()
        expect("without it", self.planet("publish", "folder", "next.osc"), ("published 2\n", "", 0))

    def test_what_is_no_file(self):
        os.mkfifo(self.place / "next.opl")
        expect("a pipe", self.planet("publish", "folder", "next.opl"), ("", "next.opl: not a file\n", 3))
        self.put("mine.opl", 1)
        (self.place / "mine").symlink_to("mine.opl")
        expect("a name as of a device", self.planet("publish", "folder", "mine"), (
            "", "mine: its name says no form (.opl, .osc, .osc.gz, .o5c)\n", 3))
        expect("it stays", os.readlink(self.place / "mine"), "mine.opl")

    def publish_once(self, before="", changes="next.opl"):
        """What the script says if something else is done before it publishes."""
        tool = self.script("tools/osmrepl", f'{before}\nexec {self.installed.program} "$@"')
        return run([TOP / "examples/publish-once", "folder", changes], self.place, PATH=f"{tool.parent}:/usr/bin:/bin")

    def test_publish_once(self):
        """The script: another file that comes meanwhile, and one that was refused."""
        self.put("next.opl", 1)
        self.put("late.opl", 2)
        expect("the first", self.publish_once("mv late.opl next.opl"), ("published 1\n", "", 0))
        self.put("late.opl", 3)
        out, error, status = self.publish_once("mv late.opl next.opl; exit 3")
        expect("refused", (out, error.splitlines()[-1], status), (
            "", "publish-once: these changes are ./.publish.next.opl, and the next run takes them first", 3))
        expect("both are there", self.left(), [".publish.next.opl", "next.opl"])
        expect("again", self.publish_once(), ("published 2\npublished 3\n", "", 0))
        expect("nothing is left", self.left(), [])
        self.put("next.opl", 4)
        expect("refused", self.publish_once("exit 3"), ("", "", 3))
        expect("its name", self.left(), ["next.opl"])
        expect("again", self.publish_once(), ("published 4\n", "", 0))
        texts = [(self.folder() / path_of(number, "opl")).read_text() for number in range(1, 5)]
        expect("changes", texts, [line(number) for number in range(1, 5)])

    def test_publish_once_on_a_full_disk(self):
        """The line that keeps the number needs room for a copy of the changes."""
        text = "".join(map(line, range(1, 1001)))
        with disk(self.place / "small", 3 * len(text) // 2048) as small:
            (small / "next.opl").write_text(text)
            out, error, status = self.publish_once(changes=small / "next.opl")
            expect(f"a full disk: {error}", (out, "No space left" in error, status != 0), ("", True, True))
            expect("the changes", ((small / "next.opl").read_text(), os.listdir(small)), (text, ["next.opl"]))
            must(["mount", "-o", "remount,size=1m", small])
            expect("with room", self.publish_once(changes=small / "next.opl"), ("published 1\n", "", 0))
            expect("nothing is left", os.listdir(small), [])
        expect("changes", (self.folder() / path_of(1, "opl")).read_text(), text)
