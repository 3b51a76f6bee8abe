"""--renumber: a folder with numbers of its own. Diffs of any size come to what osmium makes of them, whenever a run is
killed; and what the list, the folder and the server may have become between two runs."""

import re
import shutil
import time

from planet_cases.killing import KILLED, Killing, noted
from planet_place import (CHANGES, QUIET, Case, disk, expect, expect_fault, expect_files, expect_started, files_of,
                          must, needs, nodes, opl_of, run, time_text)
from planet_server import Fault, Server, path_of, publish, state_text

# as old as anything
OLD = "--lag", "999999999"
# parts of three changes, of which a small diff has several
SMALL = ["renumber.MOST_CHANGES = 3"]
# steps of a run: the words of one, and which of those with these words
FIRST_LINE = [("open .follower.save.numbers.new", 1), ("numbers.new follower.save.numbers", 1), ("renumbered.new", 1),
              (".source.new", 1)]
AT_LINE = "open follower.save.numbers", 1
AT_FOLLOW = [("/osmrepl follow", 1), ("follow", "in"), ("follow", "after")]


def large(count):
    """So many changes, whose text doesn't depend on anything else."""
    return "".join(f"n{number + 1000000} v1 dV c{number // 50 + 5000} t2024-01-01T00:00:00Z i{number % 97 + 5} uann "
                   f"Tnote=of%20%{number} x{number % 1000 / 10} y{number % 500 / 10}\n"
                   for number in range(1, count + 1))


def lines_of(file):
    return [tuple(line.split(" ")) for line in file.read_text().splitlines()]


class Renumbers(Case):
    """The numbers 8 to 11 of a server, each in parts of three changes unless a case says otherwise."""

    settings = SMALL

    def planet(self, *words, **environment):
        if self.settings and words[0] in ("mirror", "fetch", "start"):
            return self.tuned(self.settings, *words)
        return super().planet(*words, **environment)

    def list(self, save="follower.save"):
        return lines_of(self.place / f"{save}.numbers")

    def time_of(self, number):
        """That of a number of the server."""
        return time_text(self.tree.begin if number == 7 else self.tree.seconds_of(number))

    def count_of(self, number):
        """How many numbers a diff becomes."""
        return max(1, -(-opl_of(self.tree.folder / path_of(number, "osc.gz")).count("\n") // 3))

    def wanted_list(self, last, begin=7):
        """The list after the diffs to a number."""
        lines, number = [(str(begin), str(begin), str(begin), self.time_of(begin))], begin
        for diff in range(begin + 1, last + 1):
            count = self.count_of(diff)
            lines.append((str(diff), str(number + 1), str(number + count), self.time_of(diff)))
            number += count
        return lines

    def state(self, number, folder="folder"):
        text = (self.place / folder / path_of(number, "state.txt")).read_text()
        return dict(line.split("=") for line in text.replace("\\", "").splitlines())

    def counts(self, save="follower.save"):
        """What show says after the objects: the counts of edits."""
        return self.program("show", save).split("\nusers ", 1)[1]

    def expect_whole(self, last=11, save="follower.save", folder="folder", begin=7):
        """The list, the times of all parts, the folder and the objects are those of the diffs to a number."""
        wanted = self.wanted_list(last, begin)
        expect("the list", self.list(save), wanted)
        before = wanted[0]
        for line in wanted[1:]:
            for number in range(int(line[1]), int(line[2]) + 1):
                time_ = line[3] if number == int(line[2]) else before[3]
                expect(f"the state of {number}", self.state(number, folder),
                       {"sequenceNumber": str(number), "timestamp": time_})
            before = line
        expect("audit", self.program("audit", folder, "--from", begin + 1), f"ok {begin + 1}..{before[2]}\n")
        expect("number", self.number(save), int(before[2]))
        expect("time", f"\ntime {before[3]}\n" in self.program("show", save), True)
        expect("it is kept", dict(self.source(save))["renumber"], "yes")
        if last == 11:
            self.expect_result(save)

    def test_each_diff_becomes_the_numbers_that_it_needs(self):
        self.begin()
        self.up_to(9, "--renumber")
        self.expect_whole(9)
        self.up_to(11)
        self.expect_whole()
        expect("nothing new", self.mirror(), ("", 0))
        self.expect_whole()
        expect("lag", self.program("lag", "folder", "follower.save"), "behind 0\nseconds 0\n")
        expect("left behind", self.left_behind(), ["renumbered"])
        # others may follow the folder, by its own numbers
        with Server(self.folder()) as other:
            out, error, status = super().planet("fetch", "--url", other.place, "--dir", "copy", "--from", "8")
            last = self.list()[-1][2]
            expect(f"fetch: {error}", (out, status), (f"fetched 8..{last}\nnumber {last}\n", 0))
        # the parts of a diff are its changes, in their order
        for source, first, last, _ in self.list()[1:]:
            parts = [self.folder() / path_of(number, "opl") for number in range(int(first), int(last) + 1)]
            expect(f"changes of {source}", opl_of(*parts), opl_of(self.tree.folder / path_of(int(source), "osc.gz")))

    def test_a_diff_without_changes_becomes_one_number(self):
        self.tree.publish(9, "", is_top=False)
        self.begin()
        expect("a mirror", self.mirror("--renumber"), ("", 0))
        self.expect_whole()
        first, last = next(line[1:3] for line in self.list() if line[0] == "9")
        expect("one number", (first, (self.folder() / path_of(int(first), "opl")).read_text()), (last, ""))

    def test_from_the_start(self):
        expect_started(self.start("follower.save", "--renumber", "--dir", "folder"), 7, "follower.save")
        expect("the list", self.list(), self.wanted_list(7))
        expect("mirror", self.mirror(), ("", 0))
        self.expect_whole()

    def test_words_that_are_not_kept_yet_are_not_quiet(self):
        """A server that doesn't answer is named at once by a run whose --url or --renumber the next one won't have."""
        self.begin()
        self.server.always = {"state.txt": Fault(status=503)}
        said = "URL/state.txt: status 503", 3
        expect("--url", self.mirror("--tries", "1", *OLD), said)
        self.server.always = {}
        expect("mirror", self.mirror(), ("", 0))
        self.server.always = {"state.txt": Fault(status=503)}
        expect("quiet", self.mirror("--tries", "1"), ("", 0))
        expect("--renumber", self.mirror("--tries", "1", "--renumber"), said)
        expect("it isn't on", ((self.place / "follower.save.numbers").exists(), "renumber" in dict(self.source())),
               (False, False))

    def test_from_number_0(self):
        server = self.place / "small"
        shutil.copytree(self.tree.folder, server)
        shutil.rmtree(server / "000")
        for number in 1, 2:
            publish(server, number, self.tree.seconds_of(number + 7), self.tree.folder / path_of(number + 7, "osc.gz"))
        with Server(server) as one:
            words = "--url", one.place, "--empty", "--renumber", *OLD
            expect("mirror", self.planet("mirror", "own.save", *words), QUIET)
        ends = [(self.count_of(8), 8), (self.count_of(8) + self.count_of(9), 9)]
        expect("the list", self.list("own.save"), [
            ("0", "0", "0", "1970-01-01T00:00:01Z"), ("1", "1", str(ends[0][0]), self.time_of(8)),
            ("2", str(ends[0][0] + 1), str(ends[1][0]), self.time_of(9))])
        expect("number", self.number("own.save"), ends[1][0])
        expect("audit", self.program("audit", "own.save.diffs"), f"ok 1..{ends[1][0]}\n")

    def test_a_mirror_under_way_goes_on_without_a_beginning(self):
        """Its counts stay: SAVE is that of a mirror that never had other numbers, byte for byte, if no diff is cut, and
        but for its number if some are."""
        self.settings = []
        self.begin()
        self.begin("plain.save")
        expect("plain", self.mirror("--dir", "plain", save="plain.save"), ("", 0))
        self.up_to(9)
        for number in 8, 9:
            shutil.copy(self.place / "follower.save", self.place / f"{number}.save")
            shutil.copy(self.place / "follower.save.source", self.place / f"{number}.save.source")
            shutil.copytree(self.folder(), self.place / f"of-{number}")
        self.tree.set_top(11)
        expect("whole", self.mirror("--renumber", "--dir", "of-8", save="8.save"), ("", 0))
        expect("the save", (self.place / "8.save").read_bytes(), (self.place / "plain.save").read_bytes())
        self.settings = SMALL
        expect("in parts", self.mirror("--renumber", "--dir", "of-9", save="9.save"), ("", 0))
        found = re.sub("\nsequence [0-9]+\n", "\nsequence 11\n", (self.place / "9.save").read_text())
        expect("but for its number", found, (self.place / "plain.save").read_text())
        expect("a number of its own", self.number("9.save"), int(self.wanted_list(11, 9)[-1][2]))

    def test_it_is_named_where_a_diff_is_too_large_and_takes_it(self):
        """100,001 changes at number 9, with numbers after it that the folder has already."""
        self.settings = []
        self.tree.publish(9, large(100001), is_top=False)
        self.begin()
        command = "osmrepl-planet mirror follower.save --renumber"
        expect_fault("refused", self.mirror(*OLD), part=f"can't be followed: {command} takes it in parts; or export")
        kept = [path_of(9, "osc.gz"), path_of(9, "refused"), path_of(10, "opl"), path_of(11, "opl")]
        expect("what is kept", [(self.folder() / name).exists() for name in kept], [True] * 4)
        expect("its words", self.mirror(*command.split()[3:]), ("", 0))
        expect("the list", [line[:3] for line in self.list()], [
            ("8", "8", "8"), ("9", "9", "10"), ("10", "11", "11"), ("11", "12", "12")])
        expect("what was kept", [(self.folder() / name).exists() for name in kept], [False, False, True, True])
        expect("times", [self.state(number)["timestamp"] for number in (9, 10, 11, 12)],
               [self.time_of(number) for number in (8, 9, 10, 11)])
        expect("changes", [(self.folder() / path_of(number, "opl")).read_bytes().count(b"\n") for number in (9, 10)],
               [100000, 1])
        self.expect_result()

    def test_a_diff_of_many_bytes_is_cut_by_its_size(self):
        """22 objects with 3 MB of tags each, of which 64 MiB hold 20."""
        self.settings, tags = [], ",".join(f"{number:04}={'a' * 1000}" for number in range(3200))
        self.tree.publish(9, nodes(2000001, 2000022, tags), is_top=False)
        self.begin()
        expect("a mirror", self.mirror("--renumber"), ("", 0))
        expect("the list", [line[:3] for line in self.list()], [
            ("7", "7", "7"), ("8", "8", "8"), ("9", "9", "10"), ("10", "11", "11"), ("11", "12", "12")])
        expect("objects", [(self.folder() / path_of(number, "opl")).read_bytes().count(b"\n") for number in (9, 10)],
               [20, 2])
        self.expect_result()

    def test_a_torn_line_is_cut_off(self):
        self.begin()
        self.up_to(9, "--renumber")
        file = self.place / "follower.save.numbers"
        whole = file.read_bytes()
        for torn in b"10 ", b"10 14 17 2024-01-01T00:00:0", b"\0" * 40:
            file.write_bytes(whole + torn)
            expect("export", self.planet("export", "follower.save", "out.osm.pbf"), QUIET)
            expect("nothing new", self.mirror(), ("", 0))
            expect("the list", file.read_bytes(), whole)
        # the last line too: its diff is published once more, as the same numbers
        numbers = files_of(self.folder())
        file.write_bytes(whole[:-5])
        expect("a line is lost", self.mirror(), ("", 0))
        expect("the list", file.read_bytes(), whole)
        expect("the numbers", files_of(self.folder()), numbers)
        file.write_bytes(whole + b"10 ")
        self.up_to(11)
        self.expect_whole()

    def test_a_list_that_is_lost_or_of_another_mirror(self):
        self.begin()
        self.up_to(9, "--renumber")
        self.tree.set_top(11)
        file, save = self.place / "follower.save.numbers", self.place / "follower.save"
        whole, numbers, begun = file.read_bytes(), files_of(self.folder()), save.read_bytes()
        lines = whole.splitlines(True)
        other = lines[0].split()
        for name, text, part in [
                ("lost", None, "not there (put a copy back"), ("empty", b"", "it has no whole line"),
                ("no line", whole + b"10\n", f"bad line at byte {len(whole)}: 10"),
                ("a gap", lines[0] + lines[2], f"bad line at byte {len(lines[0])}: 9 "),
                ("backwards", lines[0] + b"8 8 7 2024-01-01T00:00:00Z\n", "bad line"),
                ("another's", b"5 7 7 " + other[3] + b"\n6 8 9999 2024-01-01T00:00:00Z\n", "another mirror"),
                ("another's time", re.sub(rb" [^ ]*\n$", b" 2024-01-01T00:00:00Z\n", whole), "another mirror")]:
            file.unlink(missing_ok=True)
            if text is not None:
                file.write_bytes(text)
            self.server.paths()
            for words in (), ("--renumber",):
                expect_fault(name, self.mirror(*words), "follower.save.numbers: ", part)
            expect("requests", self.server.paths(), [])
            expect("the list", file.read_bytes() if file.exists() else None, text)
            expect("files", (files_of(self.folder()), save.read_bytes()), (numbers, begun))
        # the way out of the first
        file.unlink(missing_ok=True)
        expect("export", self.planet("export", "follower.save", "out.osm.pbf"), QUIET)
        expect("header", self.header("out.osm.pbf", "sequence_number", "timestamp", "base_url"),
               ["", self.time_of(9), self.server.place])
        out, error, status = self.planet("start", "out.osm.pbf", "follower.save", "--renumber", "--dir", "folder")
        expect(f"start: {error}", (out.splitlines()[1:3], status), ([f"state 9 {self.time_of(9)}", "number 9"], 0))
        expect("mirror", self.mirror(), ("", 0))
        self.expect_whole(begin=9)

    def test_an_export_has_the_number_of_the_last_whole_diff(self):
        self.begin()
        expect("a mirror", self.mirror("--renumber", "--lag", "999999999"), ("", 0))
        lines = self.list()
        source, first, last, _ = next(line for line in lines[1:] if int(line[2]) > int(line[1]))
        self.begin("part.save")
        for name in "numbers", "source":
            shutil.copy(self.place / f"follower.save.{name}", self.place / f"part.save.{name}")
        for number, diff in (int(last) - 1, int(source) - 1), (int(last), int(source)):
            self.program("follow", "folder", "part.save", "--limit", number - self.number("part.save"))
            expect("export", self.planet("export", "part.save", "out.osm.pbf"), QUIET)
            expect(f"header at {number}", self.header("out.osm.pbf", "sequence_number", "timestamp"),
                   [str(diff), self.time_of(diff)])
            # what is followed twice comes to the same
            expect_started(self.planet("start", "out.osm.pbf", "second.save"), diff, "second.save")
            expect("mirror", self.mirror(save="second.save"), ("", 0))
            self.expect_result("second.save")
        expect("from amid a diff", self.mirror(save="part.save"), ("", 0))
        expect("the save", (self.place / "part.save").read_bytes(), (self.place / "follower.save").read_bytes())

    def test_the_server_is_behind_ahead_or_another(self):
        self.begin()
        self.up_to(10, "--renumber")
        whole = self.list(), files_of(self.folder())
        self.up_to(9)
        expect_fault("behind", self.mirror("--lag", "0"), "URL: its newest number is 9; the mirror is ")
        self.tree.set_top(11)
        state = self.tree.folder / path_of(10, "state.txt")
        right = state.read_text()
        state.write_text(state_text(10, self.tree.seconds_of(10) - 30))
        self.server.paths()
        there = time_text(self.tree.seconds_of(10) - 30)
        expect_fault("another", self.mirror(), f"URL: number 10 is of {there} there, and of {self.time_of(10)} "
                     "in follower.save.numbers: another source")
        expect("requests", set(self.server.paths()), {"state.txt", path_of(10, "state.txt")})
        state.unlink()
        expect("nothing changed", (self.list(), files_of(self.folder())), whole)
        expect("a server that has it no more", self.mirror(), ("", 0))
        state.write_text(right)
        self.expect_whole()
        # and one that moved
        with Server(self.tree.folder) as other:
            expect("moved", self.mirror("--url", other.place, "--moved"), ("", 0))
        expect("source", dict(self.source())["url"], other.place)

    def test_a_number_that_the_server_lacks_ends_the_run(self):
        self.begin()
        self.server.always = {path_of(9, "osc.gz"): Fault(status=404)}
        expect("missing", self.mirror("--renumber", *OLD), ("number 9 is missing", 1))
        expect("the list", self.list(), self.wanted_list(8))
        out, error, status = self.planet("fetch", "follower.save")
        number = self.list()[-1][2]
        expect("fetch", (out, error, status), (f"missing 9\nnumber {number}\n", "", 1))
        self.server.always = {}
        lines = self.wanted_list(11)
        expect("fetch", self.planet("fetch", "follower.save"), (
            f"fetched 9..11\npublished {lines[2][1]}..{lines[-1][2]}\nnumber {lines[-1][2]}\n", "", 0))
        expect("mirror", self.mirror(), ("", 0))
        self.expect_whole()

    def test_what_is_wrong_with_a_diff_is_said_of_it(self):
        self.begin()
        self.up_to(8, "--renumber")
        self.tree.set_top(11)
        whole, begun = self.list(), self.number()
        url, good = f"URL/{path_of(9, 'osc.gz')}", (self.tree.folder / path_of(9, "osc.gz")).read_bytes()
        for name, text, part in [
                ("no place", "n5 v1 dV c7 t2024-01-01T00:00:00Z i5 uann T x y\n",
                 f"{url}: changes: at 1: NoLocation (part 1 of 1"),
                ("no version", "n5 v0 dV c7 t2024-01-01T00:00:00Z i5 uann T x1 y1\n",
                 "sequence 9 has objects without version (first n5) and can't be followed: follow a server")]:
            self.tree.write_diff(9, text)
            expect_fault(name, self.mirror(*OLD), part)
            expect("the list", (self.list(), self.number()), (whole, begun))
        (self.tree.folder / path_of(9, "osc.gz")).write_bytes(good)
        state = self.tree.folder / path_of(9, "state.txt")
        right = state.read_text()
        state.write_text(state_text(9, self.tree.seconds_of(8) - 30))
        expect("back in time", self.mirror(*OLD), (f"{url}: older than the number before it", 3))
        state.write_text(right)
        expect("mended", self.mirror(), ("", 0))
        self.expect_whole()

    def test_what_was_lost_or_put_back_is_brought_again(self):
        """Files of numbers that are followed aren't needed; others come again, as the same numbers. Copies of SAVE,
        with its list or without, go on from where they are."""
        self.begin()
        self.up_to(8, "--renumber")
        early = {name: (self.place / name).read_bytes() for name in ("follower.save", "follower.save.numbers")}
        self.up_to(10)
        for file in self.folder().glob("[0-9]*/*/*"):
            file.unlink()
        self.tree.set_top(11)
        self.server.paths()
        expect("rotated", self.mirror(), ("", 0))
        expect("requests", path_of(10, "osc.gz") in self.server.paths(), False)
        expect("the list", self.list(), self.wanted_list(11))
        self.expect_result()
        late, lines = (self.place / "follower.save").read_bytes(), self.list()

        def put_back(*names):
            for name in names:
                (self.place / name).write_bytes(early[name])

        for name, names, harm in [
                ("an old SAVE, its numbers rotated", ["follower.save"], "rotated"),
                ("an old SAVE and the list of then", early, "rotated"),
                ("an old SAVE, no folder", ["follower.save"], "gone"),
                ("no folder", [], "gone"), ("an old SAVE and a lost number", ["follower.save"], "number"),
                ("a lost state.txt", [], "top"), ("an old state.txt", [], "old top")]:
            put_back(*names)
            files = sorted(self.folder().glob("[0-9]*/*/*"))
            if harm == "gone":
                shutil.rmtree(self.folder())
            elif harm == "rotated":
                for file in files:
                    file.unlink()
            elif harm == "number":
                for file in self.folder().glob(path_of(int(lines[-1][1]), "*")):
                    file.unlink()
            elif harm == "top":
                (self.folder() / "state.txt").unlink()
            else:
                (self.folder() / "state.txt").write_text(state_text(8, self.tree.seconds_of(8)))
            expect(name, self.mirror(), ("", 0))
            expect(f"{name}: the list", self.list(), lines)
            expect(f"{name}: SAVE", (self.place / "follower.save").read_bytes(), late)
        # a SAVE of before is switched on anew
        self.begin()
        expect("from before", self.mirror(), ("", 0))
        self.expect_whole()
        expect("SAVE", (self.place / "follower.save").read_bytes(), late)

    def test_a_folder_with_numbers_of_its_own_is_no_other_runs(self):
        self.begin()
        self.begin("second.save")
        self.up_to(9, "--renumber")
        self.tree.set_top(11)
        whole = files_of(self.folder())
        (self.place / "changes.opl").write_text(nodes(1, 1))
        said = "folder: its numbers are those of a mirror with --renumber; name another folder\n"
        for command in (["fetch", *self.words, "--from", "8"], ["publish", "folder", "changes.opl"],
                        ["mirror", "second.save", *self.words], ["mirror", "second.save", *self.words, "--renumber"],
                        ["start", self.tree.pbf(self.server.place), "third.save", "--dir", "folder"]):
            expect(f"{command}", self.planet(*command), ("", said, 3))
            expect("files", files_of(self.folder()), whole)
        expect_fault("from", self.planet("fetch", "follower.save", "--from", "8"), "--from isn't taken", status=2)
        expect("SAVE and sources", [(self.place / name).exists() for name in (
            "second.save.source", "second.save.numbers", "third.save")], [False] * 3)
        expect("mirror", self.mirror(), ("", 0))
        self.expect_whole()

    def test_what_others_published_into_a_folder_is_left(self):
        """Switching on would remove the numbers after SAVE's."""
        self.begin()
        for number in range(1, 10):
            (self.place / "changes.opl").write_text(nodes(number, number))
            self.program("publish", "public", "changes.opl", "--now", "2024-01-01T01:00:00Z")
        whole = files_of(self.place / "public")
        said = ("", "public: has numbers after 7 that were published there; name another folder by --dir\n", 3)
        words = "--dir", "public", "--renumber"
        expect("mirror", self.planet("mirror", "follower.save", "--url", self.server.place, *words), said)
        expect("start", self.start("own.save", *words), said)
        expect("files", files_of(self.place / "public"), whole)
        expect("no SAVE", (self.place / "own.save").exists(), False)
        expect("it is nobody's", (self.place / "public/.fetch/server").exists(), False)
        # and one that was switched on elsewhere
        expect("mirror", self.mirror("--renumber"), ("", 0))
        early = self.place / "follower.save.source"
        early.write_text(early.read_text().replace("folder folder", "folder public"))
        (self.place / "public/.fetch/lock").parent.mkdir(exist_ok=True)
        self.begin("again.save")
        for name in "numbers", "source":
            shutil.copy(self.place / f"follower.save.{name}", self.place / f"again.save.{name}")
        expect("another folder", self.planet("mirror", "again.save"), said)
        expect("files", files_of(self.place / "public"), whole)

    def test_another_start_has_the_numbers_that_its_words_say(self):
        """Over numbers of the folder's own those of the server, and the other way round."""
        for words in ("--renumber",), (), ("--renumber",), ("--renumber",):
            expect("start", self.start("follower.save", "--dir", "folder", *words)[1:], ("", 0))
            expect("a list", (self.place / "follower.save.numbers").exists(), bool(words))
            expect("mirror", self.mirror(), ("", 0))
            if words:
                self.expect_whole()
            else:
                expect("files", {name[-13:] for name in files_of(self.folder()) if name.endswith("state.txt")},
                       {f"{number:03}.state.txt" for number in (8, 9, 10, 11)} | {"state.txt"})
                expect("number", self.number(), 11)
                self.expect_result()

    @needs("root")
    def test_a_full_disk(self):
        """It is said at once, and with room the same numbers come of it."""
        small = self.enter(disk(self.place / "disk", 200))
        self.begin()
        (small / "filler").write_bytes(b"a" * 100_000)
        self.tree.write_diff(9, nodes(10000, 10299, f"note={'a' * 200}"))
        found = self.mirror("--dir", "disk/folder", "--url", self.server.place, "--renumber", *OLD)
        expect_fault("mirror", found, part="write failed (")
        expect("its cause", "no space left" in found[0].lower(), True)
        lines = self.list()
        expect("the list", lines, self.wanted_list(int(lines[-1][0])))
        expect("the save", self.number(), int(lines[-1][2]))
        (small / "filler").unlink()
        must(["mount", "-o", "remount,size=8m", small])
        expect("with room", self.mirror(), ("", 0))
        self.expect_whole(folder="disk/folder")

    def test_a_folder_that_publish_wrote(self):
        server, save = self.place / "served", "own.save"
        for number in range(8, 12):
            diff, changes = self.tree.folder / path_of(number, "osc.gz"), self.place / "changes.opl"
            must(["osmium", "cat", "-O", diff, "-o", changes])
            (server / path_of(number, "o5c")).parent.mkdir(parents=True, exist_ok=True)
            self.program("convert", changes, server / path_of(number, "o5c"))
            for name in path_of(number, "state.txt"), "state.txt":
                shutil.copy(self.tree.folder / path_of(number, "state.txt"), server / name)
        self.begin(save)
        with Server(server) as one:
            expect("mirror", self.planet("mirror", save, "--url", one.place, "--dir", "folder", "--renumber"), QUIET)
        self.expect_whole(save=save)

    def test_each_line_is_synced_after_its_parts(self):
        """And the first one before any part."""
        self.begin()
        found = []
        for words in noted(self, "mirror", "follower.save", *self.words, "--renumber", settings=SMALL):
            if words[0] == "sync" and words[1].endswith(".numbers.new"):
                found.append("first")
            elif words[0] == "sync" and words[1].endswith(".numbers"):
                found.append("line")
            elif "--sequence" in words:
                found.append(int(words[words.index("--sequence") + 1]))
        wanted = ["first"]
        for _, first, last, _ in self.list()[1:]:
            wanted += [*range(int(first), int(last) + 1), "line"]
        expect("the order", found, wanted)


class KillsOfParts(Killing):
    """Runs with --renumber that are killed."""

    def command(self):
        return self.with_settings(SMALL)

    def fetched(self):
        """Before them a save whose folder has numbers of the server already, and so the files that switching on takes
        away."""
        self.begin("before/follower.save")
        self.tree.set_top(8)
        expect("fetch", run([self.installed.planet, "fetch", *self.words, "--from", "8"], self.before)[1:], ("", 0))
        self.tree.set_top(9)
        return self.before

    def test_a_mirror_before_each_step(self):
        before = self.fetched()
        plain = files_of(before / "folder")
        words = ["mirror", "follower.save", *self.words, "--renumber"]

        def check(room, unharmed):
            """What the list names is published, and each number is the one of the unharmed run."""
            wanted = files_of(unharmed / "folder")
            numbers, whole = room / "follower.save.numbers", lines_of(unharmed / "follower.save.numbers")
            lines = lines_of(numbers) if numbers.exists() else []
            expect("lines", lines, whole[:len(lines)])
            found = files_of(room / "folder")
            for name, content in found.items():
                if name != "state.txt":
                    expect(name, content in (wanted.get(name), None if lines else plain.get(name)), True)
            for number in range(8, int(lines[-1][2]) + 1 if lines else 8):
                expect(f"{number} is there", path_of(number, "state.txt") in found, True)
            number = re.search("\nsequence ([0-9]+)\n", (room / "follower.save").read_text())[1]
            expect("the save is at the end of a diff", number in ["7", *(line[2] for line in lines)], True)

        def finish(room, unharmed, done):
            expect("again", done, (0, "", ""))
            expect_files(room, unharmed)

        expect("steps", self.kill_each(before, words, check, finish) > 30, True)

    def test_a_start_over_another_mirror_before_each_step(self):
        """From when osmrepl begins on: with numbers of the folder's own and without, over a mirror with such numbers.
        A mirror that is made before the start is made again is refused, or is right."""
        before, wanted = self.fetched(), self.tree.result()
        file, folder = self.tree.pbf(self.server.place), ("--dir", "folder")
        expect("a mirror", self.run_in(before, ["mirror", "follower.save", *self.words, "--renumber"]), (0, "", ""))
        self.tree.set_top(11)

        def check(room, unharmed):
            copy = self.place / "copy"
            shutil.copytree(room, copy)
            status, _, error = self.again(copy, ["mirror", "follower.save"])
            if status:
                expect_fault("refused", (error, status), "follower.save.numbers: ")
            else:
                self.program("export", copy / "follower.save", "copy.opl")
                expect("objects", opl_of(self.place / "copy.opl"), wanted)
            shutil.rmtree(copy)

        def finish(room, unharmed, done):
            expect("again", (done[0], done[2]), (0, ""))
            for one in room, unharmed:
                if lines_of(one / "follower.save.source")[-1][0] != "form":
                    expect("mirror", self.run_in(one, ["mirror", "follower.save"]), (0, "", ""))
            expect_files(room, unharmed)

        for more in ["--renumber"], []:
            words = ["start", file, "follower.save", *folder, *more]
            expect("steps", self.kill_each(before, words, check, finish, 8, "osmrepl begin") > 8, True)

    def test_a_large_diff_and_kills_from_its_beginning_on(self):
        """Of the very first diff, which has several parts of 100,000 changes: before, amid and after the first line of
        the list, before and after each part, before its own line, before, in and after the run of follow; and so of
        small ones after it. In turns all that runs is killed, or the parent alone."""
        self.command = super().command
        self.tree.publish(8, large(CHANGES))
        for name in "killed", "unharmed":
            (self.place / name).mkdir()
            self.begin(f"{name}/follower.save")
        words = ["mirror", "follower.save", *self.words, "--renumber"]
        parts = -(-CHANGES // 100000)
        kills = self.kill_at(FIRST_LINE + [step for part in range(1, parts + 1) for step in (
            ("publish --any-time", part), ("part.opl", part + 1) if part < parts else AT_LINE)] + AT_FOLLOW, words)
        self.tree.set_top(11)
        kills += self.kill_at([("publish --any-time", 1), AT_LINE, ("publish --any-time", 2), *AT_FOLLOW], words)
        expect("again", self.again(self.place / "killed", words), (0, "", ""))
        expect("unharmed", self.run_in(self.place / "unharmed", words), (0, "", ""))
        expect(f"kills, {kills}", kills >= 10 + 2 * parts, True)
        shown = [self.program("show", f"{name}/follower.save") for name in ("killed", "unharmed")]
        expect("the same mirror", shown[0] == shown[1], True)
        lists = [lines_of(self.place / name / "follower.save.numbers") for name in ("killed", "unharmed")]
        expect("the list", lists[0], lists[1])
        expect("the first diff", lists[0][1][:3], ("8", "8", str(7 + parts)))
        found, wanted = (files_of(self.place / name / "folder") for name in ("killed", "unharmed"))
        expect("numbers", found == wanted, True)
        self.expect_result("killed/follower.save")

    def kill_at(self, steps, words):
        """Kills a run at each of the steps, one after the other: the words of a step and which of those with these
        words, or what is done to follow. Gives how many were killed."""
        room = self.place / "killed"
        program = self.script("osmrepl", f'[ "$1" = follow ] || exec {self.installed.program} "$@"\n'
                              f'{self.installed.program} "$@" &\n[ "$KILL" = in ] && sleep 0.2 || wait\nkill -9 0')
        for place, (at, number) in enumerate(steps):
            whom, status, error = ("all", "all", "alone")[place % 3], 4, ""
            environment = {"STEP_KILL": f"parent {number} {whom}", "STEP_AT": at}
            if at == "follow":
                environment = {"KILL": number, "OSMREPL": str(program)}
            # while what a parent that was killed alone has begun is at work
            while status == 4:
                status, _, error = self.run_in(room, words, **environment)
                time.sleep(0.1)
            expect(f"killed, {whom}, at {at} {number}: {error}", status, KILLED)
        return len(steps)
