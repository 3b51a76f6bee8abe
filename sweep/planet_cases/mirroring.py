"""mirror: what it brings a mirror up to, when it says something, and what it refuses."""

import os
import shutil
import signal
import subprocess
import threading
import time

from planet_place import (LONGEST_COMMAND, PATH, QUIET, TOP, Case, disk, expect, expect_fault, files_of, must, needs,
                          nodes, numbered, numbers, opl_of, run, time_text, wait_until)
from planet_server import Fault, Server, path_of, state_text

# as old as anything
OLD = "--lag", "999999999"


class Mirrors(Case):
    @numbered(6000900, 200)
    def test_over_all_faults_the_objects_are_those_that_osmium_makes(self):
        """200 numbers over a border of the folders of a thousand."""
        tree, server = self.tree, self.server
        first, wrong, lost = tree.first, tree.first + 130, tree.first + 30
        self.begin()
        tree.set_top(first + 59)
        server.always.update(tree.missing(lost))
        server.faults.update({
            path_of(first + 5, "state.txt"): [Fault(status=500), Fault(status=502)],
            path_of(first + 10, "osc.gz"): [Fault(cut=True)],
            path_of(first + 15, "osc.gz"): [Fault(status=503)],
            path_of(first + 20, "osc.gz"): [Fault(stall=True)]})
        expect("a number is missing", self.mirror("--timeout", "3", *OLD), (f"number {lost} is missing", 1))
        asked = {path: [one.moment for one in server.requests if one.path == path] for path in server.faults}
        waits = {path: [round(b - a, 1) for a, b in zip(moments, moments[1:])] for path, moments in asked.items()}
        for number, suffix, least in [(5, "state.txt", [1, 2]), (10, "osc.gz", [1]), (15, "osc.gz", [1]),
                                      (20, "osc.gz", [2])]:
            found = waits[path_of(first + number, suffix)]
            expect(f"waits before {number} is asked for again, {found}",
                   len(found) == len(least) and all(a >= b for a, b in zip(found, least)), True)
        expect("the number before it", self.number(), lost - 1)

        server.always.clear()
        state = path_of(wrong, "state.txt")
        server.always[state] = Fault(body=state_text(wrong + 1, 1700000000).encode())
        tree.set_top(tree.last)
        expect("a wrong number", self.mirror("--tries", "2", *OLD), (f"URL/{state}: doesn't name {wrong}", 3))
        expect("the save", self.number(), wrong - 1)
        server.always.clear()
        server.paths()
        expect("all is mended", self.mirror(), ("", 0))
        asked = server.paths()
        expect("nothing is asked for twice", len(asked), len(set(asked)))
        expect("requests", set(asked) - {path_of(wrong - 1, "state.txt")}, {"state.txt"} | {
            path_of(number, suffix) for number in range(wrong, tree.last + 1) for suffix in ("osc.gz", "state.txt")})
        expect(f"connections, {server.connections}", server.connections <= 4 * 4, True)
        expect("nothing new", self.mirror(), ("", 0))
        expect("requests", set(server.paths()) - {path_of(tree.last, "state.txt")}, {"state.txt"})
        self.expect_result()
        expect("files", set(files_of(self.folder())), numbers(first, tree.last) | {"state.txt"})
        for number in (first, tree.last):
            expect(f"changes of {number}", (self.folder() / path_of(number, "opl")).read_text(),
                   opl_of(tree.folder / path_of(number, "osc.gz")))
        expect("left behind", self.left_behind(), [])

    @numbered(980, 40)
    def test_some_objects_are_those_that_osmium_picks_out(self):
        """Kinds and keys are those of the save's first lines."""
        self.begin("roads.save", "highway", "--kinds", "w")
        expect("a mirror of roads", self.mirror(save="roads.save"), ("", 0))
        source = self.source("roads.save")
        expect("source", [pair for pair in source if pair[0] in ("kinds", "key")], [("kinds", "w"), ("key", "highway")])
        self.expect_result("roads.save", picked=["w/highway"])
        # SAVE.source of other kinds
        file = self.place / "roads.save.source"
        file.write_text(file.read_text().replace("kinds w", "kinds n"))
        self.tree.set_top(1019)
        (self.place / "roads.save").write_bytes((self.place / "roads.save").read_bytes())
        expect_fault("under another filter", self.mirror(*OLD, save="roads.save"), part="other filter")

    def test_keys_that_are_no_bare_words(self):
        """Keys with blanks, commas and other letters, as SAVE and SAVE.source escape them."""
        keys = "a b", "c=d,e", "Straße %20%", "-f", "#g"
        self.begin("keys.save", "--kinds=nwr", "--", *keys)
        expect("mirror", self.mirror(save="keys.save"), ("", 0))
        self.up_to(11, save="keys.save")
        expect("number", self.number("keys.save"), 11)
        expect("start", self.start("own.save", "--kinds=nwr", "--", *keys)[1:], ("", 0))
        expect("mirror", self.mirror(save="own.save"), ("", 0))
        expect("the same", (self.place / "own.save").read_bytes(), (self.place / "keys.save").read_bytes())

    def test_another_source_is_refused(self):
        self.begin()
        self.up_to(9)
        self.tree.set_top(11)
        with Server(self.tree.folder) as other:
            said = "follower.save.source: its server is URL (--moved takes the other from now on)"
            expect("another URL", self.mirror("--url", other.place), (said, 3))
            expect("requests", other.paths(), [])
            expect("number", self.number(), 9)
            expect("with a slash it is the same", self.mirror("--url", self.server.place + "/"), ("", 0))
            expect("moved", self.mirror("--url", other.place, "--moved"), ("", 0))
            expect("source", dict(self.source())["url"], other.place)
            expect("from now on", self.mirror(), ("", 0))
            expect("requests", "state.txt" in other.paths(), True)
            expect("fetch too", self.planet("fetch", "follower.save", "--url", self.server.place)[2], 3)
        self.expect_result()

    def test_a_folder_with_other_times_is_refused(self):
        """The server's state of SAVE's own number has another time."""
        self.begin()
        own = self.tree.folder / path_of(7, "state.txt")
        own.write_text(state_text(7, self.tree.begin - 3600))
        begun, there = time_text(self.tree.begin), time_text(self.tree.begin - 3600)
        said = f"URL: number 7 is of {there} there, and of {begun} in SAVE: another source"
        for _ in range(2):
            expect_fault("another source", self.mirror(), said)
            expect("it isn't kept", (self.place / "follower.save.source").exists(), False)
        expect("number", self.number(), 7)
        own.unlink()
        expect("a server that has it no more", self.mirror(), ("", 0))
        self.expect_result()

    def test_a_server_of_lower_numbers_is_refused(self):
        """One of hours where SAVE is of minutes, say. The one that is kept may give an old state.txt now and then."""
        self.begin()
        old, said = Fault(body=state_text(5, self.tree.begin).encode()), "URL: its newest number is 5"
        self.server.always = {"state.txt": old}
        for _ in range(2):
            expect("another source", self.mirror(), (said, 3))
            expect("it isn't kept", (self.place / "follower.save.source").exists(), False)
        self.server.always = {}
        expect("the right one", self.mirror(), ("", 0))
        self.server.always = {"state.txt": old}
        expect("an old one of the right one", self.mirror(), ("", 0))
        expect("is said by fetch", self.planet("fetch", "follower.save"), ("", f"{said}\n", 3))
        self.expect_result()

    def test_a_state_that_was_ahead_goes_back(self):
        """state.txt names numbers that the server doesn't have, and later the last one that it has."""
        self.begin()
        self.server.always = {"state.txt": Fault(body=state_text(15, int(time.time())).encode())}
        expect("ahead", self.mirror(), ("", 0))
        expect("lag", self.program("lag", "folder", "follower.save").split("\n")[0], "behind 4")
        self.server.always = {}
        expect("back", self.mirror(), ("", 0))
        expect("lag", self.program("lag", "folder", "follower.save"), "behind 0\nseconds 0\n")
        self.expect_result()

    def test_from_number_0(self):
        """A SAVE that isn't there, at the beginning of a server."""
        expect_fault("without --empty", self.mirror(), "follower.save: not there")
        server = self.place / "small"
        shutil.copytree(TOP / "examples/folder", server)
        with Server(server) as one:
            expect("mirror", self.planet("mirror", "own.save", "--url", one.place, "--empty", *OLD), ("", "", 0))
            expect("number", self.number("own.save"), 3)
            self.program("follow", TOP / "examples/folder", "wanted.save")
            expect("the save", (self.place / "own.save").read_bytes(), (self.place / "wanted.save").read_bytes())

    def test_quiet_until_it_is_too_old(self):
        """What the next run mends is said only once the mirror is older than the lag."""
        newest = path_of(11, "osc.gz")
        for name, faults, part in [
                ("404", {newest: Fault(status=404)}, "number 11 is missing"),
                ("404 of a state", {path_of(11, "state.txt"): Fault(status=404)}, "number 11 is missing"),
                ("503", {newest: Fault(status=503)}, f"URL/{newest}: status 503"),
                ("500", {"state.txt": Fault(status=500)}, "URL/state.txt: status 500"),
                ("retry", {newest: Fault(status=429, headers={"Retry-After": "1000"})}, "URL"),
                ("cut", {newest: Fault(cut=True)}, f"URL/{newest}: cut off"),
                ("stall", {newest: Fault(stall=True)}, f"URL/{newest}: timed out")]:
            save = f"{name}.save"
            self.begin(save)
            words = ["--url", self.server.place, "--dir", f"of {name}", "--tries", "1"]
            words += ["--timeout", "1"] if name == "stall" else []
            self.server.always = {}
            self.up_to(10, *words, save=save)
            self.tree.set_top(11)
            self.server.always = faults
            expect(f"{name} is quiet", self.mirror(save=save), ("", 0))
            done = self.mirror("--lag", "0", save=save)
            for text in part, "the mirror is ":
                expect_fault(f"{name} is said", done, part=text, status=(1, 3))
            expect("number", self.number(save), 10)
            self.server.always = {}
            if name == "retry":
                (self.folder(f"of {name}") / ".fetch/not-before").write_text("1\n")
            expect("mended", self.mirror(save=save), ("", 0))
            expect("number", self.number(save), 11)

    def test_what_a_person_has_to_mend_is_said_at_once(self):
        for name, path, fault, part in [
                ("401", "state.txt", Fault(status=401), "URL/state.txt: status 401"),
                ("403", path_of(10, "osc.gz"), Fault(status=403), f"URL/{path_of(10, 'osc.gz')}: status 403"),
                ("no state", "state.txt", Fault(status=404), "URL/state.txt: not there"),
                ("page", path_of(10, "osc.gz"), Fault(body=b"<html>"), f"URL/{path_of(10, 'osc.gz')}: "),
                ("missing", path_of(9, "osc.gz"), Fault(status=404), "number 9 is missing")]:
            save = f"{name}.save"
            self.begin(save)
            words = ["--url", self.server.place, "--dir", f"of {name}", "--tries", "1", *OLD]
            self.server.always = {path: fault}
            for _ in range(2):
                expect_fault(name, self.mirror(*words, save=save), part, status=(1, 3))
            self.server.always = {}
            expect("mended", self.mirror(save=save), ("", 0))
        self.begin()
        expect_fault("no folder", self.mirror("--dir", "/dev/null/folder"), part="write failed")

    def test_a_line_if_a_person_is_needed(self):
        server, save = self.server, self.place / "follower.save"
        save.write_text("something\n")
        expect("no save", self.mirror(), ("follower.save: no save that osmrepl begin or follow wrote", 3))
        expect("no source", (self.place / "follower.save.source").exists(), False)
        self.begin()
        expect("no source", self.planet("mirror", "follower.save"),
               ("", "follower.save.source: not there (name the server once by --url)\n", 3))
        self.up_to(8)
        said, status = self.mirror("--lag", "100")
        expect(f"too old: {said}", (said[:14], said[-25:], status), ("the mirror is ", " seconds old, at number 8", 1))
        self.tree.set_top(11)
        server.always = {**self.tree.missing(9), **self.tree.missing(11)}
        said, status = self.mirror()
        expect(f"missing: {said}", (said in ("number 9 and 1 more are missing", "number 9 is missing"), status),
               (True, 1))
        server.always = {}
        expect("up to date", self.mirror(), ("", 0))
        faulty = self.place / "faulty.save"
        faulty.write_bytes(save.read_bytes()[:-5])
        shutil.copy(self.place / "follower.save.source", self.place / "faulty.save.source")
        expect_fault("a spoilt save", self.mirror(save="faulty.save"), "osmrepl: save: line ")

    def test_lines_of_source_that_are_none(self):
        self.begin()
        file = self.place / "follower.save.source"
        right = f"# a comment\n\nurl {self.server.place}\nfolder folder\n"
        for line, text in [(5, right + "something else\n"), (5, right + "tries x\n"), (5, right + "tries 0\n"),
                           (5, right + "form osc\n"), (5, right + "url\n"), (5, right + "lag -1\n"),
                           (5, right + "kinds x\n"), (5, right + "kinds \n"),
                           (5, right + "strict perhaps\n"), (3, right.replace("url http", "url gopher"))]:
            file.write_text(text)
            expect_fault(text, self.mirror(), f"follower.save.source: line {line}: ")
        for text in "", "# none\n", right.replace("url", "# url"), "a" * 100000:
            file.write_text(text)
            said, status = self.mirror()
            expect(f"{text[:40]}: {said[:200]}", (said.startswith("follower.save.source: "), len(said) < 300, status),
                   (True, True, 3))
        file.write_bytes(b"\xff\xfe\0\n")
        expect_fault("bytes", self.mirror(), "follower.save.source: ")
        file.write_text(right)
        expect("right", self.mirror(), ("", 0))

    def test_from_another_folder(self):
        """The folder of SAVE.source is found from wherever it is run, and moves with SAVE."""
        self.begin()
        self.up_to(9)
        self.tree.set_top(10)
        expect("elsewhere", run([self.installed.planet, "mirror", self.place / "follower.save"], "/"), QUIET)
        expect("its folder", (self.folder() / path_of(10, "state.txt")).exists(), True)
        other = self.place / "other"
        other.mkdir()
        for name in "follower.save", "follower.save.source", "folder":
            shutil.move(self.place / name, other / name)
        self.tree.set_top(11)
        expect("moved", run([self.installed.planet, "mirror", "other/follower.save"], self.place), QUIET)
        expect("number", self.number("other/follower.save"), 11)
        expect("no folder here", self.folder().exists(), False)

    def test_it_goes_on_from_what_its_journal_has(self):
        """What the journal has isn't asked for again, and its number is the one that is said."""
        self.begin()
        self.tree.set_top(9)
        expect("a fetch", self.fetch()[1:], ("", 0))
        self.program("follow", "folder", "follower.save", "--sizes", "0:67108864")
        expect("a journal", (self.place / "follower.save.journal").read_bytes().count(b"\nbatch "), 2)
        for name in numbers(8, 9):
            (self.folder() / name).unlink()
        self.server.paths()
        said, status = self.mirror("--lag", "100")
        expect(f"too old: {said}", (said[-25:], status), (" seconds old, at number 9", 1))
        self.up_to(11)
        asked = {path_of(number, suffix) for number in (10, 11) for suffix in ("state.txt", "osc.gz")}
        expect("what is asked for", set(self.server.paths()) - {path_of(9, "state.txt")}, asked | {"state.txt"})
        self.expect_result()

    def test_beside_the_journal_of_another_save(self):
        """A save that is put back without its journal: what osmrepl says is said, and both files stay as they are."""
        self.begin()
        save, journal = self.place / "follower.save", self.place / "follower.save.journal"
        old = save.read_bytes()
        for top, sizes in (8, "0:0"), (9, "0:67108864"):
            self.tree.set_top(top)
            expect("a fetch", self.fetch()[1:], ("", 0))
            self.program("follow", "folder", "follower.save", "--sizes", sizes)
        save.write_bytes(old)
        kept = journal.read_bytes()
        self.tree.set_top(10)
        expect_fault("refused", self.mirror(), part="save: journal: of another save, at 9 (")
        expect("the files", (save.read_bytes(), journal.read_bytes()), (old, kept))
        journal.unlink()
        self.up_to(11)
        self.expect_result()

    @numbered(995, 150)
    def test_it_moves_while_it_fetches(self):
        """A lot of 64 numbers is followed while the next ones are still being fetched."""
        self.begin()
        self.server.always = {path_of(1130, "osc.gz"): Fault(stall=True)}
        with self.running("mirror", "follower.save", *self.words, start_new_session=True) as one:
            wait_until("a lot is followed", lambda: self.number() >= 994 + 64)
            expect("it is at work", one.child.poll(), None)
            expect("a whole lot", (self.folder() / path_of(994 + 64, "opl")).exists(), True)
            os.killpg(one.child.pid, signal.SIGKILL)
        self.server.always = {}
        self.server.paths()
        expect("after a kill", self.mirror(), ("", 0))
        asked = self.server.paths()
        expect(f"one lot is lost, {len(asked)}", path_of(1000, "osc.gz") in asked, False)
        self.expect_result()

    def test_every_so_often(self):
        """It goes on after faults, and a signal ends it and its children."""
        self.begin()
        self.tree.set_top(8)
        words = ["mirror", "follower.save", *self.words, "--every", "1", "--tries", "1", *OLD]
        with open(self.place / "said", "w", encoding="utf-8") as said:
            one = self.enter(self.running(*words, start_new_session=True, stderr=said, stdout=said))
        wait_until("number 8", lambda: self.number() == 8)
        self.server.always = {"state.txt": Fault(status=403)}
        wait_until("a fault", lambda: "status 403" in (self.place / "said").read_text())
        self.server.always = {"state.txt": Fault(status=503)}
        time.sleep(1.5)
        self.server.always = {}
        self.tree.set_top(11)
        wait_until("number 11", lambda: self.number() == 11)
        expect("it is at work", one.child.poll(), None)
        one.child.terminate()
        expect("status", one.child.wait(10), 0)
        for line in (self.place / "said").read_text().splitlines():
            expect("a line", "status 403" in line, True)
        try:
            os.killpg(one.child.pid, 0)
            expect("children", "left", "gone")
        except ProcessLookupError:
            pass
        expect("left behind", self.left_behind(), [])
        self.expect_result()

    def test_every_so_often_where_no_file_can_be(self):
        """It goes on after what the system says of a file that it only looks for."""
        words = ["mirror", "x" * 256, "--url", self.server.place, "--every", "1"]
        with open(self.place / "said", "w", encoding="utf-8") as said:
            with self.running(*words, stderr=said) as one:
                wait_until("two runs", lambda: (self.place / "said").read_text().count(": file name too long") > 1)
                one.child.terminate()
                expect("status", one.child.wait(10), 0)

    def test_a_signal_ends_it_after_the_number_at_work(self):
        """With --every while a server stalls: status 0, and what it had is there."""
        self.begin()
        self.server.always = {path_of(10, "osc.gz"): Fault(stall=True)}
        with self.running("mirror", "follower.save", *self.words, "--every", "60", start_new_session=True) as one:
            self.wait_for_request(path_of(10, "osc.gz"))
            time.sleep(0.3)
            one.child.terminate()
            expect("status", one.child.wait(15), 0)
            wait_until("its children end", lambda: run(["pgrep", "-g", str(one.child.pid)])[0] == "")
        self.server.always = {}
        expect("after it", self.mirror(), ("", 0))
        self.expect_result()

    def test_two_at_once(self):
        """The second is quiet, and neither loses anything."""
        self.begin()
        release = threading.Event()
        self.server.always = {path_of(9, "osc.gz"): Fault(act=lambda: release.wait(60))}
        with self.running("mirror", "follower.save", *self.words) as one:
            self.wait_for_request(path_of(9, "osc.gz"))
            for _ in range(3):
                expect("a second", self.mirror(), ("", 4))
            release.set()
            expect("the first", one.child.wait(60), 0)
        expect("after both", self.mirror(), ("", 0))
        self.expect_result()

    @needs("root")
    def test_a_full_disk(self):
        """Said at once, also if the mirror is young; what was there is whole, and goes on once there is room."""
        small = self.enter(disk(self.place / "disk", 200))
        self.begin()
        filler = small / "filler"
        filler.write_bytes(b"a" * 120_000)
        self.tree.write_diff(11, nodes(10000, 10499, f"note={'a' * 200}"))
        words = "--dir", str(small / "folder"), "--url", self.server.place, *OLD
        found = self.mirror(*words)
        expect_fault("mirror", found, part="write failed (")
        expect("its cause", "no space left" in found[0].lower(), True)
        for name, content in files_of(small / "folder").items():
            if name.endswith(".opl"):
                diff = self.tree.folder / name.replace(".opl", ".osc.gz")
                expect(f"{name} is whole", content.decode(), opl_of(diff))
        filler.unlink()
        must(["mount", "-o", "remount,size=2m", small])
        expect("with room", self.mirror(*OLD), ("", 0))
        self.expect_result()

    def test_on_a_terminal_one_line_says_how_far_it_is(self):
        self.begin()
        self.server.delay = 0.3
        words = f"{self.installed.planet} mirror follower.save --url {self.server.place} --dir folder"
        done = subprocess.run(["script", "-qec", words, "/dev/null"], cwd=self.place, stdin=subprocess.DEVNULL,
                              env={"PATH": PATH, "TERM": "xterm"}, capture_output=True, timeout=LONGEST_COMMAND,
                              check=False)
        # the line is written over and cleared, by returns alone
        said = done.stdout
        expect(f"terminal: {said}", (done.stderr, done.returncode, said.count(b"\n"), b" of 4, " in said,
                                     said.endswith(b"\r\033[K")), (b"", 0, 0, True, True))
        expect("number", self.number(), 11)

    def test_the_lines_of_cron_and_systemd_run(self):
        """As OPERATING shows them and as they were installed, with the folder and the server filled in."""
        self.begin()
        folder, prefix = str(self.place), str(self.installed.place)

        def lines_of(page, start):
            return [line.removeprefix(start).replace("/opt/osmrepl", prefix)
                    for line in page.read_text().splitlines() if line.startswith(start)]

        def filled(line):
            return line.replace("/srv/osm", folder)

        def cron(line):
            return run(["/bin/sh", "-c", filled(line)], "/", HOME="/", SHELL="/bin/sh")

        shown, local, watched = lines_of(TOP / "docs/OPERATING.md", "    * * * * * ")
        expect("the line of crontab", lines_of(self.installed.place / "planet/crontab", "* * * * * "), [shown])
        both = [lines_of(place, "SuccessExitStatus=") for place in (
            self.installed.place / "planet/osmrepl-mirror.service", TOP / "packaging/osmrepl-mirror@.service")]
        expect("a status that is no failure, as the package has it", *both)
        self.tree.set_top(9)
        self.begin()
        self.mirror("--dir", "folder")
        self.tree.set_top(10)
        expect("cron", cron(shown), QUIET)
        expect("number", self.number(), 10)
        expect("cron, of a folder", cron(local), QUIET)
        expect("cron, for Prometheus", cron(watched.replace("/var/lib/node_exporter", folder)), QUIET)
        expect("its file", "} 10\n" in (self.place / "follower.prom").read_text(), True)
        self.begin()
        (self.folder() / path_of(9, "opl")).rename(self.place / "lost.opl")
        out, error, status = cron(local)
        expect(f"cron, of a gap, {out!r}", (out.splitlines()[-2:], error, status), (["missing 9", "number 8"], "", 0))
        self.tree.set_top(11)
        unit = (self.installed.place / "planet/osmrepl-mirror.service").read_text().splitlines()
        command = [line.removeprefix("ExecStart=") for line in unit if line.startswith("ExecStart=")]
        expect("a folder", "WorkingDirectory=/srv/osm" in unit, True)
        expect("systemd", run(filled(command[0]).split(" "), folder), QUIET)
        self.expect_result()
        if shutil.which("systemd-analyze"):
            copies = []
            for name in "osmrepl-mirror.service", "osmrepl-mirror.timer":
                copies.append(self.place / name)
                copies[-1].write_text((self.installed.place / "planet" / name).read_text())
            out, error, status = run(["systemd-analyze", "verify", *copies])
            expect("systemd-analyze", [line for line in (out + error).splitlines() if "osmrepl-mirror." in line], [])
