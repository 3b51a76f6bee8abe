"""What the system of a run may have: low limits, no thread, a locale whose names aren't UTF-8, and pipes in place of
files."""

import gzip
import os
import subprocess

from planet_place import LONGEST_COMMAND, PATH, Case, expect, expect_fault, nodes, run, wait_until
from planet_server import path_of

# no thread can be begun
NO_THREAD = '''\
import threading


def start(self):
    raise RuntimeError("can't start new thread")


threading.Thread.start = start
'''
NO_THREAD_SAID = "no thread can be begun (a limit of processes or memory)"


class Limits(Case):
    def limited(self, limit, *words):
        """What a run says under a limit that nothing raises again."""
        command = ["bash", "-c", f'ulimit {limit} && exec "$0" "$@"', self.installed.planet, *words]
        out, error, status = run(command, self.place)
        return self.told(out), self.told(error), status

    def test_a_hard_limit(self):
        """Of the size of files, and of memory: below those that the converter has."""
        for number, limit in enumerate(("-f 1000000", "-v 900000")):
            save = f"{number}.save"
            self.begin(save)
            expect(limit, self.limited(limit, "mirror", save, "--url", self.server.place), ("", "", 0))
            self.expect_result(save)

    def test_a_file_that_is_larger_than_the_limit(self):
        """That is no fault of the diff, which is taken without the limit."""
        self.tree.write_diff(8, nodes(1, 5000))
        expect_fault("limited", self.limited("-f 200", "fetch", *self.words, "--from", "8"),
                     part=": write failed (file too large)")
        expect("without it", self.fetch(), ("fetched 8..11\nnumber 11\n", "", 0))

    def test_a_place_that_is_none(self):
        """libosmium has a fault of its own for it."""
        (self.tree.folder / path_of(8, "osc.gz")).write_bytes(gzip.compress(
            b'<osmChange version="0.6"><create><node id="1" version="1" timestamp="2024-01-01T00:00:00Z" uid="5" '
            b'user="ann" changeset="7" lat="1,5" lon="2"/></create></osmChange>'))
        expect("fetch", self.fetch()[1:],
               (f"URL/{path_of(8, 'osc.gz')}: osmium: characters after coordinate: ',5'\n", 3))

    def test_a_folder_whose_name_is_not_utf_8(self):
        expect_fault("fetch", self.fetch(name="f\udce4"), part=": a name that isn't UTF-8\n")

    def test_a_locale_whose_names_are_not_utf_8(self):
        self.tree.set_top(9)
        self.begin("k\xe4.save")
        words = {"LC_ALL": "C", "PYTHONUTF8": "0", "PYTHONCOERCECLOCALE": "0"}
        expect("mirror", self.planet("mirror", "k\xe4.save", "--url", self.server.place, **words), ("", "", 0))
        self.tree.set_top(11)
        expect("in another locale", self.planet("mirror", "k\xe4.save", LC_ALL="C.UTF-8"), ("", "", 0))
        expect("again", self.planet("mirror", "k\xe4.save", **words), ("", "", 0))
        expect("folders", [name for name in os.listdir(self.place) if name.endswith(".diffs")], ["k\xe4.save.diffs"])
        expect("its folder", dict(self.source("k\xe4.save"))["folder"], "k\xe4.save.diffs")
        self.expect_result("k\xe4.save")


class Threads(Case):
    def setUp(self):
        super().setUp()
        self.hook = self.hooked(NO_THREAD)

    def lines(self):
        return (self.place / "follower.save.runs").read_text().splitlines()

    def test_no_thread(self):
        self.begin()
        expect("mirror", self.mirror(), ("", 0))
        expect("no thread", self.mirror(**self.hook), (NO_THREAD_SAID, 3))
        expect("it is noted", (len(self.lines()), NO_THREAD_SAID in self.lines()[1]), (2, True))
        words = "mirror", "follower.save", "--every", "1"
        with self.running(*words, environment=self.hook, stderr=subprocess.DEVNULL) as one:
            wait_until("two runs", lambda: len(self.lines()) >= 4)
            one.child.terminate()
            expect("status", one.child.wait(10), 0)
        expect("fetch", self.fetch(name="other", **self.hook), ("", f"{NO_THREAD_SAID}\n", 3))
        expect("mirror", self.mirror(), ("", 0))

    def test_on_a_terminal(self):
        """No line says how far a run is, and it does its work."""
        (self.place / "next.opl").write_text(nodes(1, 1))
        main, other = os.openpty()
        done = subprocess.run([self.installed.planet, "publish", "folder", "next.opl"], cwd=self.place, stderr=other,
                              env={"PATH": PATH, **self.hook}, stdin=subprocess.DEVNULL, stdout=subprocess.PIPE,
                              text=True, timeout=LONGEST_COMMAND, check=False)
        os.close(other)
        os.close(main)
        expect("publish", (done.stdout, done.returncode), ("published 1\n", 0))


class Pipes(Case):
    """A pipe in place of a file isn't waited for."""

    def test_in_place_of_a_file(self):
        self.begin()
        expect("mirror", self.mirror(), ("", 0))
        for name in "follower.save.source", "follower.save.journal", "follower.save":
            file, kept = self.place / name, self.place / "kept"
            is_there = file.exists()
            if is_there:
                file.rename(kept)
            os.mkfifo(file)
            said = f"{name}: not a file"
            expect(f"mirror of {name}", self.mirror(), (said, 3))
            expect(f"status of {name}", self.planet("status", "follower.save")[1:], (f"{said}\n", 3))
            file.unlink()
            if is_there:
                kept.rename(file)
        expect("mirror", self.mirror(), ("", 0))

    def test_in_place_of_a_cursor(self):
        self.start()
        expect("mirror", self.mirror(), ("", 0))
        os.mkfifo(self.place / "cursor")
        with open(self.place / "follower.save.source", "a", encoding="utf-8") as source:
            source.write("cursor cursor\n")
        out, error, status = self.planet("status", "follower.save")
        expect("status", ("cursor: not a file" in out, error, status), (True, "", 0))
        expect_fault("mirror", self.mirror("--keep", "1"), "cursor: not a file, so --keep removes nothing")

    def test_in_place_of_a_data_file_or_of_cookies(self):
        os.mkfifo(self.place / "pipe")
        for words in (["start", "pipe", "a.save", "--url", self.server.place, "--sequence", "7"],
                      ["start", self.tree.pbf(self.server.place), "a.save", "--cookies", "pipe"],
                      ["mirror", "a.save", "--empty", "--url", self.server.place, "--cookies", "pipe"],
                      ["fetch", "--url", self.server.place, "--dir", "folder", "--from", "8", "--cookies", "pipe"]):
            expect(words, self.planet(*words), ("", "pipe: not a file\n", 3))
        expect("requests", self.server.paths(), [])

    def test_in_place_of_a_state(self):
        (self.place / "folder").mkdir()
        os.mkfifo(self.place / "folder/state.txt")
        (self.place / "next.opl").write_text(nodes(1, 1))
        expect("publish", self.planet("publish", "folder", "next.opl"), ("", "folder/state.txt: not a file\n", 3))
        expect("fetch", self.fetch(), ("", "folder/state.txt: not a file\n", 3))
