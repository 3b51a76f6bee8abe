"""A day of minutes of which the server fails for an hour, and what status says of it then and in the end. It takes
longest, and so it stands in the first file."""

import json
import re
import shutil
import subprocess
import time

from planet_cases.watching import Watching, expect_values, metrics_of
from planet_place import PATH, PYTHON, Child, expect, time_text
from planet_server import Fault, Server, path_of, state_text

# Runs of osmrepl-planet in one process, each at the time that its line says first.
AT_TIMES = """\
import contextlib, io, json, sys, time

sys.path.insert(0, sys.argv[1])
sys.argv = [sys.argv[1] + "/osmrepl-planet"]
from osmrepl_planet import command_line

moment = 0
time.time = lambda: moment
for line in sys.stdin:
    moment, *words = json.loads(line)
    out, said = io.StringIO(), io.StringIO()
    with contextlib.redirect_stdout(out), contextlib.redirect_stderr(said):
        status = command_line.run(words)
    print(json.dumps([out.getvalue(), said.getvalue(), status]), flush=True)
"""
MINUTES, LOST = 1440, range(600, 660)


class AtTimes:
    """Runs words at times that are made up."""

    def __init__(self, case):
        self.case = case
        self.child = case.enter(Child([PYTHON, "-c", AT_TIMES, case.installed.planet.parent], cwd=case.place, text=True,
                                      env={"PATH": PATH}, stdin=subprocess.PIPE, stdout=subprocess.PIPE)).child

    def __call__(self, moment, *words):
        print(json.dumps([moment, *map(str, words)]), file=self.child.stdin, flush=True)
        out, said, status = json.loads(self.child.stdout.readline())
        return self.case.told(out), self.case.told(said), status


class Days(Watching):
    def test_a_day_of_minutes_of_which_the_server_fails_for_an_hour(self):
        """A run each minute by a clock that is made up, over a server's folder of .opl files."""
        begin = (int(time.time()) // 86400 - 2) * 86400
        folder = self.place / "minutes"
        for number in range(1000, 1000 + MINUTES + 1):
            file = folder / path_of(number, "opl")
            file.parent.mkdir(parents=True, exist_ok=True)
            moment = begin + 60 * (number - 1000)
            file.write_text(f"n{number} v1 dV c{number} t{time_text(moment - 30)} i5 uann T x1 y2\n")
            file.with_name(file.name.replace("opl", "state.txt")).write_text(state_text(number, moment))
        self.program("begin", self.tree.extract, folder / path_of(1000, "state.txt"), "follower.save")
        server, at = self.enter(Server(folder, most=MINUTES * 10)), AtTimes(self)
        words = ["mirror", "follower.save", "--url", server.place, "--dir", "folder", "--tries", "1"]
        said = {}
        for minute in range(1, MINUTES + 1):
            shutil.copy(folder / path_of(1000 + minute, "state.txt"), folder / "state.txt")
            server.always = {"state.txt": Fault(status=503)} if minute in LOST else {}
            out, error, status = at(begin + 60 * minute + 5, *words)
            expect("printed", out, "")
            if (error, status) != ("", 0):
                said[minute] = error, status
            if minute == LOST[30]:
                self.in_the_hour(at, begin + 60 * minute + 10, server.place)
            if minute == LOST[-1]:
                expect("late", at(begin + 60 * minute + 10, "status", "follower.save", "--max-age", "3600")[::2], (
                    "OSMREPL CRITICAL: number 1599, 1 h old; the last run: "
                    f"{server.place}/state.txt: status 503 | age=3610s;;3600;0 behind=0;;;0 faults=60;;;0\n", 2))
        expect("what was said", said, {LOST[-1]: (
            f"{server.place}/state.txt: status 503; the mirror is 3605 seconds old, at number 1599\n", 3)})
        self.expect_runs(begin, server.place)
        self.expect_forms(at, begin + 60 * MINUTES + 35, server.place)

    def in_the_hour(self, at, moment, url):
        out, error, status = at(moment, "status", "follower.save")
        lines = out.splitlines()
        expect("in the hour", (len(lines), error, status), (10, "", 0))
        expect("age", lines[1], "age 1870 s (31 min 10 s)")
        expect("behind", lines[2], f"behind 0 (the server was at 1599 at {time_text(moment - 31 * 60 - 5)})")
        expect("the last run", lines[5].endswith(f", nothing new, status 0, {url}/state.txt: status 503"), True)
        expect("faults", lines[6].startswith("faults 31 in 630 runs of the last day, last at "), True)
        expect("young enough", at(moment, "status", "follower.save", "--max-age", "3600")[2], 0)

    def expect_runs(self, begin, url):
        runs = self.runs()
        expect("lines", len(runs), MINUTES)
        expect("counts", [one["runs"] for one in runs], list(range(1, MINUTES + 1)))
        for minute, one in enumerate(runs, 1):
            lost = minute in LOST
            first = 1600 if minute == LOST[-1] + 1 else 1000 + minute
            words = "at", "first", "last", "lag", "server", "status", "fault"
            expect(f"of minute {minute}", {word: one[word] for word in words}, {
                "at": time_text(begin + 60 * minute + 5), "first": None if lost else first,
                "last": None if lost else 1000 + minute, "lag": 60 * (minute - LOST[0] + 1) + 5 if lost else 5,
                "server": None if lost else 1000 + minute, "status": 3 if minute == LOST[-1] else 0,
                "fault": f"{url}/state.txt: status 503" if lost else None})
        expect("faults", runs[-1]["faults"], len(LOST))

    def expect_forms(self, at, moment, url):
        """Each form of status says the same, which is what happened."""
        last = 1000 + MINUTES
        out, error, status = at(moment, "status", "follower.save")
        report = json.loads(at(moment, "status", "follower.save", "--json", "--html", "page.html")[0])
        objects = self.program("show", "follower.save")
        save = report["save"]
        expect("status", (error, status), ("", 0))
        lines = out.splitlines()
        seconds = report["last_run"]["seconds"]
        more = f" (in SAVE; the journal has {last - save['number']} numbers more)" if last != save["number"] else ""
        expect("lines", lines, [
            f"number {last} of {time_text(moment - 35)}", "age 35 s", f"behind 0 (the server is at {last})",
            f"objects {save['objects']}{more}", f"edits {save['edits']} after number 1000{more}",
            f"last run {time_text(moment - 30)}, {seconds:.1f} s, {last}..{last}, status 0",
            f"faults 60 in 1440 runs of the last day, last at {time_text(moment - 30 - 60 * (MINUTES - LOST[-1]))}: "
            f"{url}/state.txt: status 503",
            "journal none" if not more else lines[7], f"source {url}", "cursors none"])
        expect("all edits are counted", save["edits"] + report["journal"]["numbers"], MINUTES)
        expect("the program's number", objects.splitlines()[0], f"number {last}")
        expect("the report", {name: report[name] for name in ("age", "number", "behind", "server", "state", "day")}, {
            "age": 35, "number": last, "behind": 0, "server": last, "state": "ok", "day": {"faults": 60, "runs": 1440}})
        found = metrics_of(at(moment, "status", "follower.save", "--prometheus")[0])
        expect("metrics", {name: found[f"osmrepl_{name}"] for name in (
            "number", "timestamp_seconds", "runs_total", "faulty_runs_total", "last_run_timestamp_seconds")}, {
            "number": last, "timestamp_seconds": moment - 35, "runs_total": 1440, "faulty_runs_total": 60,
            "last_run_timestamp_seconds": moment - 30})
        page = (self.place / "page.html").read_text()
        expect_values(page, report)
        expect("one fault that stayed", page.count("✕ state.txt: status 503"), 1)
        expect("for an hour", re.search(r">59 min( [0-9]+ s)?</td><td data-head=\"Runs\">60<", page) is not None, True)
