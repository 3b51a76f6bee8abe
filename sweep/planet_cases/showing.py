"""What is shown on a terminal while a run goes on, and what -v says."""

import re
import subprocess

from planet_place import LONGEST_COMMAND, PATH, Case, expect, nodes, opl_of, time_text, wait_until
from planet_server import Fault, path_of


def screen_of(text):
    """The rows of a terminal after a text with returns and clearings of the rest of a row."""
    rows, column = [""], 0
    for part in re.findall(r"\r|\n|\x1b\[K|[^\r\n\x1b]+", text):
        if part == "\r":
            column = 0
        elif part == "\n":
            rows.append("")
            column = 0
        elif part == "\x1b[K":
            rows[-1] = rows[-1][:column]
        else:
            rows[-1] = rows[-1][:column] + part + rows[-1][column + len(part):]
            column += len(part)
    return rows


class Terminals(Case):
    """The program osmrepl takes a second longer for its work, and the server 0.2 s for each answer."""

    def setUp(self):
        super().setUp()
        self.server.delay = 0.2
        self.slow = self.script("osmrepl", f'sleep 1\nexec {self.installed.program} "$@"')

    def shown(self, *words):
        """What a terminal is given by a run, and its status."""
        line = " ".join([str(self.installed.planet), *map(str, words)])
        done = subprocess.run(["script", "-qec", line, "/dev/null"], cwd=self.place, stdin=subprocess.DEVNULL,
                              env={"PATH": PATH, "TERM": "xterm", "OSMREPL": str(self.slow)}, capture_output=True,
                              timeout=LONGEST_COMMAND, check=False)
        expect("script", done.stderr, b"")
        return done.stdout.decode().replace("\r\n", "\n").replace(self.server.place, "URL"), done.returncode

    def expect_shown(self, words, parts, rows, status=0):
        """Each of the lines is shown and gone, and what is printed or said stands alone in its row."""
        text, ended = self.shown(*words)
        for part in parts:
            expect(f"{part} in {text!r}", re.search(f"\r\x1b\\[K{part}", text) is not None, True)
        expect(f"{words}: {text!r}", (screen_of(text), ended), ([*rows, ""], status))

    def test_start_shows_how_long_it_takes(self):
        file = self.tree.pbf(self.server.place)
        self.server.delay = 0.7
        self.expect_shown(["start", file, "own.save"], ["asking URL, [0-9]+ s", "osmrepl begin, [0-9]+ s"], [
            "source URL", f"state 7 {time_text(self.tree.begin)}", "number 7", "next: osmrepl-planet mirror own.save"])

    def test_fetch_shows_the_numbers(self):
        self.server.faults = {path_of(8, "osc.gz"): [Fault(status=503)]}
        self.expect_shown(["fetch", *self.words, "--from", "8"], ["fetched 0 of 4, 0 a second"],
                          ["fetched 8..11", "number 11"])
        self.server.always = {path_of(10, "osc.gz"): Fault(status=403)}
        self.expect_shown(["fetch", "--url", self.server.place, "--dir", "new", "--from", "8"], ["fetched [0-9]"], [
            f"osmrepl-planet: URL/{path_of(10, 'osc.gz')}: status 403", "fetched 8..9", "number 9"], 3)

    def test_mirror_shows_the_numbers_and_then_nothing(self):
        self.begin()
        words = ["mirror", "follower.save", *self.words]
        self.server.faults = {path_of(8, "osc.gz"): [Fault(status=503)]}
        self.expect_shown(words, ["fetched [0-4] of 4", "followed to [0-9]"], [])
        self.server.always = {"state.txt": Fault(status=403)}
        self.server.delay = 0.7
        self.expect_shown(words, ["asking URL, [0-9]+ s"], ["osmrepl-planet: URL/state.txt: status 403"], 3)

    def test_lines_of_v_stand_alone_too(self):
        self.begin()
        self.server.faults = {path_of(8, "osc.gz"): [Fault(status=503)]}
        count = sum(self.count_of(number) for number in range(8, 12))
        self.expect_shown(["mirror", "follower.save", *self.words, "-v"], ["fetched [0-4] of 4"],
                          [f"osmrepl-planet: {line}" for line in (
                              f"URL is at 11 of {time_text(self.tree.seconds_of(11))}", "fetched 8..11",
                              f"converted {count} changes", "followed to 11")])

    def count_of(self, number):
        return opl_of(self.tree.folder / path_of(number, "osc.gz")).count("\n")

    def test_publish_of_a_large_file_shows_how_far_it_is(self):
        (self.place / "changes.opl").write_text(nodes(1, 100000))
        self.expect_shown(["publish", "folder", "changes.opl"], ["publishing 1, [0-9]+ s"], ["published 1"])

    def test_export_shows_how_long_it_takes(self):
        self.begin()
        self.expect_shown(["export", "follower.save", "out.osm.pbf"], ["wrote, [0-9]+ s"], [])

    def test_mirror_says_what_it_does(self):
        """Without a terminal, of plain numbers and of the folder's own, and while it stays."""
        self.server.delay = 0
        counts, line = [self.count_of(number) for number in range(8, 12)], "URL is at {} of {}"
        at = [line.format(number, time_text(self.tree.seconds_of(number))) for number in range(8, 12)]
        self.begin()
        self.tree.set_top(9)
        words = ["mirror", "follower.save", "-v"]
        expect("-v", self.planet(*words, *self.words)[1].splitlines(), [
            at[1], "fetched 8..9", f"converted {sum(counts[:2])} changes", "followed to 9"])
        expect("nothing new", self.planet(*words)[1].splitlines(), [at[1]])
        self.tree.set_top(10)
        converted = [f"converted {counts[2]} changes"] if counts[2] else []
        expect("--renumber", self.planet(*words, "--renumber")[1].splitlines(), [
            at[2], "the numbers of folder are its own after 9", "fetched 10", *converted, "published 10 as 10..10",
            "followed to 10"])
        with open(self.place / "said", "w", encoding="utf-8") as said:
            one = self.enter(self.running(*words, "--every", "60", stderr=said, stdout=said))
        wait_until("a line", lambda: "next in " in (self.place / "said").read_text())
        expect("--every", [self.told(line) for line in (self.place / "said").read_text().splitlines()][0], at[2])
        expect("the next", re.search(r"next in (59|60) s\n$", (self.place / "said").read_text()) is not None, True)
        one.child.terminate()
        expect("status", one.child.wait(10), 0)
