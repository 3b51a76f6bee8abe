"""SAVE.runs and status: what each form says, kills while SAVE.runs is written, and the page in a browser."""

import fcntl
import html.parser
import json
import os
import re
import signal
import struct
import subprocess

from osm.schemas import is_valid
from planet_cases.killing import Killing
from planet_place import PATH, QUIET, TOP, Case, expect, expect_fault, files_of, needs, run, wait_until
from planet_server import Fault, path_of, state_text

SCHEMA = json.loads((TOP / "docs/status.schema.json").read_text(encoding="utf-8"))
FORMS = ["--json"], ["--prometheus"], ["--max-age", "3600"]


class Values(html.parser.HTMLParser):
    """The numbers of a page, by their names."""

    def __init__(self, text):
        super().__init__()
        self.values = {}
        self.feed(text)

    def handle_starttag(self, tag, attrs):
        words = dict(attrs)
        if tag == "data":
            self.values[words["id"]] = int(words["value"]) if words["value"] else None


def expect_values(text, report):
    """The page has the numbers of the report."""
    found = Values(text).values
    save, journal, day = (report[name] or {} for name in ("save", "journal", "day"))
    wanted = {"age": report["age"], "number": report["number"], "behind": report["behind"], "server": report["server"],
              "objects": save.get("objects"), "edits": save.get("edits"), "base": save.get("base"),
              "save-number": save.get("number"), "journal-numbers": journal.get("numbers"),
              "journal-bytes": journal.get("bytes"), "day-runs": day["runs"], "day-faults": day["faults"]}
    for place, cursor in enumerate(report["cursors"]):
        if cursor["fault"] is None:
            wanted |= {f"cursor-{place}-{name}": cursor[name] for name in ("number", "behind")}
    expect("numbers of the page", found, wanted)


def metrics_of(text):
    """The values of metrics, by their names without labels."""
    lines = [line for line in text.splitlines() if not line.startswith("#")]
    return {line.split("{")[0]: float(line.rsplit(" ", 1)[1]) for line in lines}


class Watching(Case):
    def runs(self, save="follower.save"):
        """The lines of SAVE.runs that are whole."""
        lines = (self.place / f"{save}.runs").read_bytes().split(b"\n")
        found = []
        for line in lines:
            try:
                found.append(json.loads(line))
            except ValueError:
                pass
        return found

    def report(self, *words, save="follower.save", status=0):
        out, error, found = self.planet("status", save, "--json", *words)
        expect(f"status: {error}", found, status)
        report = json.loads(out)
        expect("one line", out, json.dumps(report, separators=(",", ":"), sort_keys=True) + "\n")
        expect(f"the schema takes {out}", is_valid(SCHEMA, report), True)
        return report


class Forms(Watching):
    def test_what_is_said_of_a_mirror_and_its_journal(self):
        """The counts of a SAVE with a journal are said to be those of SAVE."""
        self.begin()
        self.up_to(9)
        before = self.report()
        expect("without a journal", (before["number"], before["save"]["number"], before["journal"]),
               (9, 9, {"bytes": 0, "numbers": 0}))
        shown = self.program("show", "follower.save")
        users = re.search(r"^users \d+\n((?:\d+ \d+\n)*)", shown, re.MULTILINE)[1].split()[1::2]
        expect("edits", (before["save"]["edits"], len(users) > 1), (sum(map(int, users)), True))
        self.tree.set_top(11)
        expect("fetch", self.planet("fetch", "follower.save")[2], 0)
        self.program("follow", "folder", "follower.save", "--sizes", "0:67108864")
        journal = self.place / "follower.save.journal"
        after = self.report()
        expect("with a journal", (after["number"], after["save"], after["journal"]),
               (11, before["save"], {"bytes": journal.stat().st_size, "numbers": 2}))
        lines = self.planet("status", "follower.save")[0].splitlines()
        expect("objects", lines[3], f"objects {before['save']['objects']} (in SAVE; the journal has 2 numbers more)")

    def test_behind_and_cursors(self):
        self.begin()
        self.server.always = self.tree.missing(10)
        self.mirror()
        self.server.always = {}
        source = self.place / "follower.save.source"
        (self.place / "map.txt").write_text(state_text(8, self.tree.seconds_of(8)))
        (self.place / "spoilt.txt").write_text("something\n")
        with open(source, "a", encoding="utf-8") as file:
            file.write("cursor map.txt\ncursor spoilt.txt\ncursor none.txt\n")
        report = self.report()
        expect("behind", (report["number"], report["server"], report["behind"]), (9, 11, 2))
        expect("cursors", [(cursor["number"], cursor["behind"], cursor["fault"]) for cursor in report["cursors"]],
               [(8, 1, None), (None, None, "bad state"), (None, None, "not there")])
        expect("a line", self.planet("status", "follower.save")[0].splitlines()[9],
               "cursors map.txt at 8, 1 behind; spoilt.txt: bad state; none.txt: not there")
        expect("mirror", self.mirror(), ("", 0))
        expect("the words stay", [pair for pair in self.source() if pair[0] == "cursor"],
               [("cursor", "map.txt"), ("cursor", "spoilt.txt"), ("cursor", "none.txt")])

    def test_numbers_of_the_folders_own(self):
        """With --renumber what is behind is counted in the server's numbers."""
        self.begin()
        self.up_to(9, "--renumber")
        report = self.report()
        expect("none", (report["server"], report["behind"]), (9, 0))
        self.tree.set_top(11)
        self.server.always = {path_of(10, "osc.gz"): Fault(status=403)}
        expect("a fault", self.mirror()[1], 3)
        report = self.report()
        expect("two", (report["server"], report["behind"], report["state"]), (11, 2, "failed"))

    def test_it_only_reads(self):
        """While another run is at work, and without a change of a file."""
        self.begin()
        self.mirror()
        folder = self.folder()
        before = files_of(self.place)
        with open(folder / ".fetch/lock", "rb") as one, open(self.place / "follower.save.lock", "ab") as two:
            for file in one, two:
                fcntl.flock(file, fcntl.LOCK_EX)
            for words in [[], *FORMS, ["--html", "-"], ["--prometheus", "-"]]:
                out, error, status = self.planet("status", "follower.save", *words)
                expect(f"{words}: {error}", (out != "", error, status), (True, "", 0))
        expect("files", files_of(self.place), before)

    def test_files_are_replaced_as_a_whole_and_no_others(self):
        self.begin()
        self.mirror()
        save = (self.place / "follower.save").read_bytes()
        for option, file, begins in (("--prometheus", "a.prom", "# HELP osmrepl_"),
                                     ("--html", "a.html", "<!DOCTYPE html>")):
            for _ in range(2):
                expect("written", self.planet("status", "follower.save", option, file), ("", "", 0))
                expect("begins", (self.place / file).read_text().startswith(begins), True)
            (self.place / file).write_text("")
            expect("over an empty one", self.planet("status", "follower.save", option, file), ("", "", 0))
            expect("over a save", self.planet("status", "follower.save", option, "follower.save"), (
                "", "follower.save: wasn't written by status, so it stays (name another file, or remove it)\n", 3))
            expect_fault("no folder", self.planet("status", "follower.save", option, "none/file"), part="write failed")
        expect("the save", (self.place / "follower.save").read_bytes(), save)
        expect("left", [file.name for file in self.place.glob(".*")], [])
        expect("both, and a line", self.planet("status", "follower.save", "--prometheus", "a.prom", "--html", "a.html",
                                               "--max-age", "99999999")[0].startswith("OSMREPL OK: "), True)

    def test_devices_are_written_to(self):
        self.begin()
        self.mirror()
        (self.place / "null").symlink_to("/dev/null")
        for file in "/dev/null", "null":
            expect(file, self.planet("status", "follower.save", "--html", file, "--prometheus", file), ("", "", 0))
        expect("a device", (os.stat("/dev/null").st_rdev, (self.place / "null").is_symlink()), (os.makedev(1, 3), True))
        expect_fault("a full one", self.planet("status", "follower.save", "--html", "/dev/full"),
                     part="/dev/full: write failed")

    def test_words_that_do_not_go_together(self):
        self.begin()
        for wanted, words in ((3, ["--json", "--max-age", "1"]), (3, ["--max-age", "x"]), (3, ["--max-age=-1"]),
                              (2, ["--prometheus", "--json"]), (2, ["--html", "-", "--prometheus", "-"]),
                              (2, ["--html"])):
            expect_fault(f"{words}", self.planet("status", "follower.save", *words), status=wanted)

    def test_what_cannot_be_read(self):
        """The fault is said, and each form stays what it is."""
        expect("no save", self.planet("status", "none.save"), ("", "none.save: not there\n", 3))
        report = self.report(save="none.save", status=3)
        expect("report", (report["fault"], report["number"], report["state"]),
               ("none.save: not there", None, "unknown"))
        expect("plugin", self.planet("status", "none.save", "--max-age", "60"),
               ("OSMREPL UNKNOWN: none.save: not there\n", "", 3))
        expect("metrics", self.planet("status", "none.save", "--prometheus"), ("", "none.save: not there\n", 3))
        expect("page", self.planet("status", "none.save", "--html", "page.html"), ("", "none.save: not there\n", 3))
        expect("it says so", "none.save: not there" in (self.place / "page.html").read_text(), True)
        long = "x" * 256
        said = f"{long}: file name too long"
        expect("plugin of a name that no file has", self.planet("status", long, "--max-age", "60"),
               (f"OSMREPL UNKNOWN: {said}\n", "", 3))
        self.begin()
        expect("a mirror that no run has seen", self.report()["last_run"], None)
        self.mirror()
        source = self.place / "follower.save.source"
        source.write_text(source.read_text() + "something else\n")
        out, error, status = self.planet("status", "follower.save")
        said = "follower.save.source: line 6: unknown word something\n"
        expect("a spoilt source", (out.splitlines()[8], error, status), ("source none", said, 3))
        expect("is a run of mirror too", (self.mirror(), self.runs()[-1]["fault"]), ((said[:-1], 3), said[:-1]))

    def test_the_dashboard_and_the_alerts_have_names_that_are_there(self):
        self.begin()
        self.mirror()
        (self.place / "map.txt").write_text(state_text(8, self.tree.seconds_of(8)))
        with open(self.place / "follower.save.source", "a", encoding="utf-8") as file:
            file.write("cursor map.txt\n")
        known = set(metrics_of(self.planet("status", "follower.save", "--prometheus")[0]))
        folder = self.installed.place / "planet"
        dashboard, alerts = (folder / "dashboard.json").read_text(), (folder / "alerts.yml").read_text()
        for name, text in ("dashboard", dashboard), ("alerts", alerts):
            found = set(re.findall(r"\bosmrepl_\w+", text))
            expect(f"unknown names of the {name}", sorted(found - known), [])
        expressions = [target["expr"] for panel in json.loads(dashboard)["panels"] for target in panel["targets"]]
        expect("curves", len(expressions) > 8, True)
        shown = (TOP / "docs/OPERATING.md").read_text()
        for expression in re.findall(r"^ +expr: (.*)$", alerts, re.MULTILINE):
            expect(f"{expression} in OPERATING", f"`{expression}`" in shown, True)

    @needs("promtool")
    def test_promtool_takes_the_metrics_and_the_alerts(self):
        self.begin()
        for words in [], ["--tries", "1"]:
            self.mirror(*words)
            with open(self.place / "a.prom", "w+", encoding="utf-8") as file:
                file.write(self.planet("status", "follower.save", "--prometheus")[0])
                file.seek(0)
                done = subprocess.run(["promtool", "check", "metrics"], stdin=file, capture_output=True, text=True,
                                      check=False)
            expect("promtool", (done.stdout, done.stderr, done.returncode), QUIET)
            with open(self.place / "follower.save.source", "a", encoding="utf-8") as source:
                source.write("cursor none.txt\n")
        out, error, status = run(["promtool", "check", "rules", self.installed.place / "planet/alerts.yml"])
        expect(f"rules, {error}", ("3 rules found" in out, status), (True, 0))
        tests = self.place / "tests.yml"
        tests.write_text(f"rule_files: [{self.installed.place / 'planet/alerts.yml'}]\n" + ALERTED)
        out, error, status = run(["promtool", "test", "rules", tests], self.place)
        expect(f"alerts: {out}{error}", status, 0)


# Each alert beside a mirror that it is about, and one that is well. Times of promtool begin at 0.
ALERTED = """\
evaluation_interval: 1m
tests:
  - interval: 1m
    input_series:
      - {series: 'osmrepl_timestamp_seconds{save="old"}', values: '0x200'}
      - {series: 'osmrepl_timestamp_seconds{save="young"}', values: '0+60x200'}
      - {series: 'osmrepl_last_run_status{save="old"}', values: '3x200'}
      - {series: 'osmrepl_last_run_status{save="young"}', values: '0x200'}
      - {series: 'osmrepl_cursor_behind_numbers{save="old",cursor="map"}', values: '61x200'}
      - {series: 'osmrepl_cursor_behind_numbers{save="young",cursor="map"}', values: '60x200'}
      - {series: 'osmrepl_cursor_readable{save="young",cursor="lost"}', values: '0x200'}
    alert_rule_test:
      - {eval_time: 50m, alertname: OsmreplMirrorOld}
      - eval_time: 100m
        alertname: OsmreplMirrorOld
        exp_alerts: [{exp_labels: {save: old}, exp_annotations: {summary: "The mirror old is older than an hour"}}]
      - eval_time: 100m
        alertname: OsmreplRunFailed
        exp_alerts:
          - {exp_labels: {save: old}, exp_annotations: {summary: "The last run of the mirror old asks for a person"}}
      - eval_time: 100m
        alertname: OsmreplConsumerBehind
        exp_alerts:
          - exp_labels: {save: old, cursor: map}
            exp_annotations: {summary: "The consumer map is behind the mirror old"}
          - exp_labels: {save: young, cursor: lost}
            exp_annotations: {summary: "The consumer lost is behind the mirror young"}
"""


class Browsers(Watching):
    def chromium(self, *words):
        """What a browser without a window prints and says."""
        profile = self.place / "profile"
        return run(["chromium", "--headless=new", "--no-sandbox", "--disable-gpu", "--hide-scrollbars",
                    "--enable-logging=stderr", "--v=0", f"--user-data-dir={profile}", *words,
                    f"file://{self.place}/page.html"], self.place, HOME=str(self.place))

    @needs("chromium")
    def test_the_page_in_a_browser(self):
        """It has the numbers of the report, no error is noted, and it is drawn on light and on dark."""
        self.begin()
        self.mirror()
        self.server.always = {"state.txt": Fault(status=401, headers={"X": "<script>"})}
        self.mirror()
        report = self.report("--html", "page.html")
        out, error, status = self.chromium("--dump-dom")
        expect(f"chromium: {error[-500:]}", status, 0)
        expect_values(out, report)
        expect("state", 'class="state failed"' in out, True)
        expect("curves", out.count("<svg class=\"wide\""), 3)
        expect("errors", [line for line in error.splitlines() if "CONSOLE" in line], [])
        drawn = []
        for words in [], ["--blink-settings=preferredColorScheme=0"], ["--window-size=500,900"]:
            picture = self.place / "page.png"
            _, error, status = self.chromium("--window-size=1100,900", *words, f"--screenshot={picture}")
            expect(f"chromium: {error[-500:]}", status, 0)
            expect("errors", [line for line in error.splitlines() if "CONSOLE" in line], [])
            drawn.append(picture.read_bytes())
            height = struct.unpack(">II", drawn[-1][16:24])[1]
            expect("a picture", (drawn[-1][:4], height > 700, len(drawn[-1]) > 20_000), (b"\x89PNG", True, True))
        expect("they differ", len(set(drawn)), 3)


class Histories(Watching):
    """Lines of SAVE.runs that come and stay."""

    def test_each_round_is_a_line(self):
        self.begin()
        self.tree.set_top(9)
        self.server.always = {path_of(10, "osc.gz"): Fault(stall=True)}
        words = "mirror", "follower.save", *self.words, "--every", "1", "--tries", "1"
        with self.running(*words, stderr=subprocess.DEVNULL) as one:
            wait_until("three lines", lambda: (self.place / "follower.save.runs").exists() and len(self.runs()) >= 3)
            self.tree.set_top(11)
            wait_until("a request", lambda: path_of(10, "osc.gz") in self.server.paths())
            one.child.send_signal(signal.SIGTERM)
            expect("status", one.child.wait(15), 0)
        runs = self.runs()
        expect("the first", (runs[0]["first"], runs[0]["last"], runs[0]["status"]), (8, 9, 0))
        expect("the others", {(line["first"], line["status"]) for line in runs[1:-1]}, {(None, 0)})
        expect("the one that was ended", (runs[-1]["status"], runs[-1]["fault"]), (143, None))

    def test_a_mirror_goes_on_without_it(self):
        """A file that can't be written is said, once by a process, and changes nothing else."""
        file = self.place / "follower.save.runs"
        for name, make, cause in (("folder", file.mkdir, "is a directory"),
                                  ("full", lambda: file.symlink_to("/dev/full"), "no space left on device")):
            self.begin()
            self.tree.set_top(9)
            make()
            said = f"follower.save.runs: write failed ({cause})\n"
            words = ["--url", self.server.place, "--dir", f"of {name}"]
            expect(name, self.planet("mirror", "follower.save", *words), ("", said, 0))
            expect("number", self.number(), 9)
            self.tree.set_top(11)
            with open(self.place / "said", "w", encoding="utf-8") as out:
                with self.running("mirror", "follower.save", "--every", "1", stderr=out) as one:
                    self.server.paths()
                    wait_until("three rounds", lambda: sum(one.path == "state.txt" for one in self.server.requests) > 3)
                    one.child.terminate()
                    one.child.wait(30)
            expect("once", self.told((self.place / "said").read_text()), said)
            expect("number", self.number(), 11)
            self.server.always = {"state.txt": Fault(status=403)}
            expect("beside another fault", self.planet("mirror", "follower.save")[1:],
                   (f"URL/state.txt: status 403; {said}", 3))
            self.server.always = {}
            file.rmdir() if name == "folder" else file.unlink()
            expect("once it can be written", (self.mirror(), len(self.runs())), (("", 0), 1))
            (self.place / "follower.save.source").unlink()
            file.unlink()

    def test_a_run_of_no_mirror_leaves_no_line(self):
        """A word that isn't a mirror, one that has no SAVE.source yet, and a run that finds another at work."""
        (self.place / "notes.txt").write_text("something\n")
        for save in "none.save", "notes.txt":
            expect(save, self.mirror(save=save)[1], 3)
        self.begin()
        expect("no source", self.planet("mirror", "follower.save")[2], 3)
        expect("files", [file.name for file in self.place.glob("*.runs")], [])
        self.mirror()
        with open(self.folder() / ".fetch/lock", "rb") as lock:
            fcntl.flock(lock, fcntl.LOCK_EX)
            expect("busy", self.mirror(), ("", 4))
        expect("lines", len(self.runs()), 1)

    def test_it_stands_beside_the_file_that_save_leads_to(self):
        (self.place / "else").mkdir()
        self.begin("else/real.save")
        (self.place / "follower.save").symlink_to("else/real.save")
        expect("mirror", self.mirror("--url", self.server.place, "--dir", "folder"), ("", 0))
        expect("its place", sorted(file.name for file in (self.place / "else").glob("*.runs")), ["real.save.runs"])
        expect("read there", self.report()["last_run"]["last"], 11)

    def test_many_at_once_lose_no_line(self):
        """Eight runs that fail before they take a lock, over a file that is full again and again."""
        self.begin()
        self.mirror()
        source = self.place / "follower.save.source"
        source.write_text(source.read_text() + "something else\n")
        command = self.with_settings(["runs.MOST, runs.KEPT, runs.LEAST_LINE = 4, 3, 1"])
        children = [subprocess.Popen([*command, "mirror", "follower.save"], cwd=self.place, env={"PATH": PATH},
                                     stdin=subprocess.DEVNULL, stderr=subprocess.PIPE, text=True) for _ in range(8)]
        for child in children:
            expect("a fault", (self.told(child.communicate(timeout=60)[1]), child.returncode),
                   ("follower.save.source: line 6: unknown word something\n", 3))
        runs = self.runs()
        expect("all are counted", (runs[-1]["runs"], runs[-1]["faults"], len(runs) <= 4), (9, 8, True))
        expect("in order", [line["runs"] for line in runs], list(range(10 - len(runs), 10)))


class KilledRuns(Killing):
    settings = []

    def command(self):
        return self.with_settings(self.settings) if self.settings else super().command()

    def lines(self, room):
        return (room / "follower.save.runs").read_bytes().split(b"\n")

    def kill(self, count):
        """A run that finds nothing new is killed before each step from the first that names SAVE.runs on, over so many
        lines. None of them is lost, except those that a full file drops."""
        self.begin("before/follower.save")
        words = ["mirror", "follower.save", *self.words]
        for _ in range(count):
            expect("mirror", self.run_in(self.before, words), (0, "", ""))
        old = self.lines(self.before)

        def whole(room):
            lines = self.lines(room)
            numbers = [json.loads(line)["runs"] for line in lines[:-1]]
            expect("the last line ends", lines[-1], b"")
            expect("numbers", numbers, list(range(numbers[0], numbers[-1] + 1)))
            return lines, numbers

        def check(room, _unharmed):
            lines, numbers = whole(room)
            expect("the old file or a new one", lines == old or numbers[-1] == count + 1, True)
            done = self.run_in(room, ["status", "follower.save", "--json"])
            expect("status", (done[0], done[2], json.loads(done[1])["last_run"]["runs"]), (0, "", numbers[-1]))

        def finish(room, _unharmed, done):
            before_ = json.loads(self.lines(room)[-2])["runs"]
            expect("again", (done, before_ in (count + 1, count + 2)), ((0, "", ""), True))
            whole(room)
            expect("left", [file.name for file in room.glob(".*")], [])

        return self.kill_each(self.before, words, check, finish, since=".runs")

    def test_before_each_step_of_a_line(self):
        expect("steps", self.kill(3) >= 2, True)

    def test_before_each_step_of_a_full_file(self):
        self.settings = ["runs.MOST, runs.KEPT, runs.LEAST_LINE = 4, 3, 1"]
        expect("steps", self.kill(4) >= 4, True)

    def test_a_line_that_was_cut(self):
        """Cut anywhere, it is left out by status, and the next run's line is whole."""
        self.begin()
        self.mirror()
        file = self.place / "follower.save.runs"
        text = file.read_bytes()
        for size in 1, len(text) // 2, len(text) - 2:
            file.write_bytes(text + text[:size])
            done = self.run_in(self.place, ["status", "follower.save", "--json"])
            expect("status", (done[0], done[2], json.loads(done[1])["day"]["runs"]), (0, "", 1))
            expect("mirror", self.mirror(), ("", 0))
            lines = file.read_bytes().split(b"\n")
            expect("lines", (lines[0] + b"\n", lines[1], json.loads(lines[2])["runs"], lines[3:]),
                   (text, text[:size], 2, [b""]))
