"""Whose numbers a folder has: what is of another server is refused before anything of it is taken."""

import shutil
import time

from planet_place import Case, Tree, expect, expect_fault, files_of, nodes, time_text
from planet_server import Fault, Server, path_of

WAY_OUT = "remove folder, or name another folder by --dir, or in SAVE.source"


class Servers(Case):
    """A tree whose numbers are those of another server too, at other times."""

    def setUp(self):
        super().setUp()
        self.others = Tree(self.place / "others", 8, 5, seed=2)
        self.other = self.enter(Server(self.others.folder))
        # the server at another address
        self.again = self.enter(Server(self.tree.folder))

    def told(self, text):
        return super().told(text).replace(self.other.place, "OTHER").replace(self.again.place, "AGAIN")

    def noted(self):
        return self.told((self.folder() / ".fetch/server").read_text())

    def begin_other(self, save="other.save"):
        self.program("begin", self.others.extract, self.others.state, save)

    def refused(self, url, known="URL"):
        return (f"folder: has numbers of {known}, not of {url} (if that is the same folder at another address, --moved "
                "takes the right one, named by --url; otherwise name another folder by --dir, or in SAVE.source)")

    def test_a_folder_is_of_one_server(self):
        self.begin()
        self.begin_other()
        self.up_to(10)
        expect("noted", self.noted(), "URL\n")
        before = files_of(self.folder())
        to_other = "--url", self.other.place, "--dir", "folder"
        expect("another mirror", self.mirror(*to_other, save="other.save"), (self.refused("OTHER"), 3))
        for words in ["--from", "8"], []:
            expect(f"fetch {words}", self.planet("fetch", *to_other, *words), ("", self.refused("OTHER") + "\n", 3))
        extract = self.others.pbf(self.other.place)
        expect("start", self.planet("start", extract, "new.save", "--dir", "folder"),
               ("", "folder: has numbers of URL, not of OTHER; remove it, or name another folder by --dir\n", 3))
        (self.place / "changes.opl").write_text(self.others.extract.read_text())
        expect("publish", self.planet("publish", "folder", "changes.opl"),
               ("", "folder: has numbers of URL; name another folder\n", 3))
        expect("requests", self.other.paths(), [])
        expect("files", files_of(self.folder()), before)
        expect("no new save", [file.name for file in self.place.glob("new.save*")], ["new.save.lock"])
        expect("no source", (self.place / "other.save.source").exists(), False)
        expect_fault("even if it is said to have moved", self.mirror(*to_other, "--moved", save="other.save"),
                     "folder: its number 10 has another time than OTHER's (")
        expect("noted", self.noted(), "URL\n")
        expect("another folder", self.mirror(*to_other[:3], "own", save="other.save"), ("", 0))
        self.up_to(11)
        self.expect_result()

    def test_a_server_that_moved(self):
        """Its folder moves with the first SAVE, and then each other one has to."""
        words = "--url", self.again.place
        for save in "follower.save", "second.save":
            self.begin(save)
            self.up_to(9, save=save)
        self.tree.set_top(10)
        expect("without a word", self.planet("fetch", *words, "--dir", "folder"),
               ("", self.refused("AGAIN") + "\n", 3))
        expect("moved", self.mirror(*words, "--moved"), ("", 0))
        expect("noted", self.noted(), "AGAIN\n")
        expect("the second", self.mirror(save="second.save"), (self.refused("URL", "AGAIN"), 3))
        expect("moved", self.mirror(*words, "--moved", save="second.save"), ("", 0))
        self.tree.set_top(11)
        for save in "follower.save", "second.save":
            expect("from now on", self.mirror(save=save), ("", 0))
            self.expect_result(save)
        expect("back", self.planet("fetch", *self.words, "--moved"), ("number 11\n", "", 0))
        expect("noted", self.noted(), "URL\n")

    def test_a_folder_of_an_earlier_release(self):
        """It says nothing of its server, which the times of its numbers tell apart from another one."""
        self.begin()
        self.begin_other()
        self.tree.set_top(10)
        expect("a fetch", self.fetch(), ("fetched 8..10\nnumber 10\n", "", 0))
        (self.folder() / ".fetch/server").unlink(missing_ok=True)
        before = files_of(self.folder())
        here, there = (time_text(tree.seconds_of(10)) for tree in (self.tree, self.others))
        said = (f"folder: its number 10 has another time than OTHER's ({here}, {there}): numbers of another server, or "
                f"of before it was set back ({WAY_OUT})")
        for _ in range(2):
            expect("another server", self.mirror("--url", self.other.place, save="other.save"), (said, 3))
        expect("fetch", self.planet("fetch", "--url", self.other.place, "--dir", "folder"), ("", said + "\n", 3))
        expect("files", files_of(self.folder()), before)
        expect("number", self.number("other.save"), 7)
        expect("nothing is noted", (self.folder() / ".fetch/server").exists(), False)
        self.up_to(11)
        expect("noted", self.noted(), "URL\n")
        self.expect_result()

    def test_a_server_that_was_set_back(self):
        """Numbers that it published anew aren't those that were brought before."""
        self.begin()
        self.up_to(8)
        self.tree.set_top(11)
        expect("a fetch", self.planet("fetch", "follower.save"), ("fetched 9..11\nnumber 11\n", "", 0))
        for number in 10, 11:
            for suffix in "osc.gz", "state.txt":
                (self.tree.folder / path_of(number, suffix)).unlink()
        self.tree.set_top(9)
        said = f"folder: has number 11, which URL hasn't: its newest number is 9 (if that stays, {WAY_OUT})"
        expect("it may be an old state.txt", self.mirror(), ("", 0))
        expect("fetch says it", self.planet("fetch", "follower.save"), ("", said + "\n", 3))
        expect_fault("an old mirror", self.mirror("--lag", "0"), said)
        expect("number", self.number(), 8)
        for number in range(10, 13):
            self.tree.publish(number, nodes(7000, 7000), later=1)
        here, there = (time_text(self.tree.seconds_of(11) + later) for later in (0, 1))
        said = (f"folder: its number 11 has another time than URL's ({here}, {there}): numbers of another server, or "
                f"of before it was set back ({WAY_OUT})")
        for _ in range(2):
            expect("published anew", self.mirror(), (said, 3))
        expect("number", self.number(), 8)
        self.server.always = {path_of(11, "state.txt"): Fault(status=404)}
        self.server.paths()
        expect("one that is no longer there isn't compared", self.fetch(), ("fetched 12..12\nnumber 12\n", "", 0))
        expect("requests", self.server.paths().count(path_of(11, "state.txt")), 1)
        self.server.always = {}
        shutil.rmtree(self.folder())
        expect("without the folder", self.mirror(), ("", 0))
        expect("number", self.number(), 12)
        expect("its changes", self.program("show", "follower.save").count("\nn7000 "), 1)

    def test_a_wish_of_one_server_is_not_anothers(self):
        self.begin()
        self.up_to(9)
        self.tree.set_top(10)
        self.server.faults = {"state.txt": [Fault(status=503, headers={"Retry-After": "3600"})]}
        expect("told to stay away", self.planet("fetch", "follower.save", "--tries", "1")[2], 3)
        expect("it stays away", self.mirror(), ("", 0))
        expect("number", self.number(), 9)
        self.again.paths()
        expect("another address", self.mirror("--url", self.again.place, "--moved"), ("", 0))
        expect("number", self.number(), 10)
        self.server.paths()
        expect_fault("the wish stands", self.planet("fetch", "follower.save", "--url", self.server.place, "--moved"),
                     "URL: asked for no request before ")
        expect("requests", self.server.paths(), [])
        (self.folder() / ".fetch/not-before").write_text(f"{int(time.time()) + 3600}\n")
        expect_fault("one of an earlier release is anybody's", self.planet("fetch", "follower.save"),
                     "AGAIN: asked for no request before ")

    def test_a_time_far_ahead_of_the_clock(self):
        """A mirror of such a time has no age: one of both times is wrong."""
        self.begin()
        self.tree.publish(12, nodes(7000, 7000), later=2 * 3600)
        expect("two hours are none", self.mirror(), ("", 0))
        expect("ok", self.planet("status", "follower.save", "--max-age", "60")[2], 0)
        self.tree.publish(13, nodes(7000, 7000), later=2 * 86400)
        for _ in range(2):
            said, status = self.mirror()
            expect(f"said by each run: {said}", (said.startswith("the mirror is "), said[21:], status),
                   (True, "seconds ahead of the clock, at number 13", 1))
        expect("status", self.planet("status", "follower.save")[0].splitlines()[1],
               "age unknown (its time is more than a day ahead of the clock)")
        expect("a plugin", self.planet("status", "follower.save", "--max-age", "60"),
               ("OSMREPL UNKNOWN: its time is more than a day ahead of the clock\n", "", 3))
        self.server.always = {"state.txt": Fault(status=500)}
        expect_fault("what the next run mends isn't kept back", self.mirror("--tries", "1"),
                     "URL/state.txt: status 500; ")

    def test_what_no_line_of_source_can_have(self):
        """A path with a line feed or another control character would spoil SAVE.source."""
        self.begin()
        (self.place / "a\nb").mkdir()
        for words in (["mirror", "follower.save", "--url", self.server.place, "--dir", "x\nrenumber yes"],
                      ["mirror", "follower.save", "--url", self.server.place, "--cookies", "x\x1b[1m"],
                      ["mirror", "follower.save", "--url", self.server.place, "--then", "x\n", "--", "true"],
                      ["start", self.tree.pbf(self.server.place), "new.save", "--dir", "x\ry"],
                      ["fetch", "--url", self.server.place, "--dir", "x\x85"],
                      ["hand-on", "follower.save", "c\nd", "--start", "out.opl"],
                      ["sqlite", "follower.save", "c\x7f.db"]):
            expect_fault(f"{words}", self.planet(*words), part="control characters", status=2)
        expect_fault("SAVE", self.start("new\n.save"), part="control characters")
        expect("requests", self.server.paths(), [])
        expect("no source", sorted(self.place.glob("*.source")), [])
        expect("a folder above may have one", self.mirror(), ("", 0))
        words = [self.place / "follower.save", self.place / "a\nb/c", "--start", "out.opl"]
        expect("hand-on", self.planet("hand-on", *words)[2], 2)
        expect("the source is read", self.mirror(), ("", 0))

    def test_a_query_or_a_fragment_is_refused(self):
        """The names of files would come after it."""
        self.begin()
        for after in "?key=1", "#x", "/minute?key=1", "/minute#x", "/?a#b":
            url = self.server.place + after
            named = after[min(after.find(letter) for letter in "?#" if letter in after):]
            for words in (["mirror", "follower.save"], ["fetch", "--dir", "new"],
                          ["start", self.tree.extract, "new.save", "--sequence", "7"]):
                expect(f"{words} {url}", self.planet(*words, "--url", url),
                       ("", f"--url: {named} in URL isn't taken (files have their names after it)\n", 2))
            expect_fault("a header", self.planet("start", self.tree.pbf(url), "new.save"),
                         part=f"{named} in URL isn't taken")
        expect("requests", self.server.paths(), [])
        expect("no folder", self.folder("new").exists(), False)
