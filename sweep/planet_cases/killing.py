"""Runs of osmrepl-planet that are killed, with all that they started or alone, before each step of theirs: before each
file is opened for writing, renamed or removed, each folder made or removed, each lock taken, each program started and
each group of statements of SQL. And runs whose converter, osmium or osmrepl is killed. Each file is then whole, and the
same words again do their work.
"""

import os
import shutil
import signal
import subprocess
import time
from pathlib import Path

from planet_place import (LONGEST_COMMAND, PATH, TOP, Case, expect, expect_among, expect_fault, expect_files, files_of,
                          nodes, numbered, opl_of, run, wait_until)
from planet_server import Fault, path_of

# Loaded by each Python of a run: the parent is the first of them, and its child the converter.
HOOK = '''\
import os, signal, sys

who = os.environ.setdefault("STEP_WHO", "parent")
os.environ["STEP_WHO"] = "converter"
wanted, number, whom = (os.environ.get("STEP_KILL") or "nobody 0 alone").split()
once, at = os.environ.get("STEP_ONCE"), os.environ.get("STEP_AT", "")
count, before = 0, []


def text_of(event, words):
    """What a step does, as `os.rename a b`; only those that have STEP_AT in it count."""
    named = words[1] if event == "subprocess.Popen" else words[:2] if event == "os.rename" else words[:1]
    return " ".join(map(str, (event, *named)))


def is_step(event, words):
    if who == "converter":
        # it opens each diff, and what the library made of it
        return event == "open" and ".fetch" in str(words[0])
    if event == "open":
        path, is_written = str(words[0]), bool(words[2] & (os.O_WRONLY | os.O_RDWR))
        return is_written and not path.isdigit() and "/dev/" not in path
    return event in ("sqlite", "os.rename", "os.remove", "os.mkdir", "os.rmdir", "os.link", "os.truncate",
                     "subprocess.Popen", "fcntl.flock")


def statement(text):
    """The first of some statements of SQL that begin alike is a step, if they change what was there."""
    global before
    if before != (before := text.split()[:3]) and before[0] in ("BEGIN", "INSERT", "DELETE", "UPDATE", "COMMIT"):
        hook("sqlite", (" ".join(before),))


def hook(event, words):
    global count
    if not is_step(event, words) or at not in text_of(event, words):
        return
    count += 1
    if "STEP_LOG" in os.environ:
        os.write(log, f"{who} {count} {text_of(event, words)[:200]}\\n".encode())
    if who == wanted and count == int(number):
        if once:
            # two converters may come here at the same time
            try:
                os.mkdir(once)
            except FileExistsError:
                return
        os.kill(0 if whom == "all" else os.getpid(), signal.SIGKILL)


if "STEP_LOG" in os.environ:
    log = os.open(os.environ["STEP_LOG"], os.O_WRONLY | os.O_APPEND | os.O_CREAT, 0o600)
if "STEP_SQL" in os.environ:
    import sqlite3

    def connect(*words, real=sqlite3.connect, **more):
        connection = real(*words, **more)
        connection.set_trace_callback(statement)
        return connection

    sqlite3.connect = connect
sys.addaudithook(hook)
'''
# Loaded in its place: notes what is opened for writing, synced and renamed, and which programs are started, in order.
NOTES = '''\
import ctypes, os, sys

log = os.open(os.environ["STEP_LOG"], os.O_WRONLY | os.O_APPEND | os.O_CREAT, 0o600)
is_parent = os.environ.setdefault("STEP_WHO", "parent") == "parent"
os.environ["STEP_WHO"] = "converter"


def note(*words):
    if is_parent:
        os.write(log, ("\\t".join(map(str, words)) + "\\n").encode())


def hook(event, words):
    if event == "open" and words[2] & (os.O_WRONLY | os.O_RDWR) and not str(words[0]).isdigit():
        note("open", os.path.abspath(words[0]))
    elif event == "os.rename":
        note("rename", os.path.abspath(words[0]), os.path.abspath(words[1]))
    elif event == "subprocess.Popen":
        note("start", *words[1])


def path_of(descriptor):
    return os.readlink(f"/proc/self/fd/{descriptor}")


class Library(ctypes.CDLL):
    def __getitem__(self, name):
        function = super().__getitem__(name)
        if name != "syncfs":
            return function
        return lambda descriptor: (function(descriptor), note("sync all", path_of(descriptor)))[0]


def fsync(descriptor, real=os.fsync):
    real(descriptor)
    note("sync", path_of(descriptor))


os.fsync, ctypes.CDLL = fsync, Library
sys.addaudithook(hook)
'''
KILLED = -signal.SIGKILL


def noted(case, *words, settings=()):
    """The notes of a run that says nothing, each as its words."""
    log = case.place / "notes"
    log.unlink(missing_ok=True)
    command = case.with_settings(settings) if settings else [case.installed.planet]
    done = run([*command, *words], case.place, STEP_LOG=str(log), **case.hooked(NOTES))
    expect(f"{words[0]}: {done}", done[1:], ("", 0))
    return [line.split("\t") for line in log.read_text().splitlines()]


class Killing(Case):
    """Runs that are killed before their steps, in copies of a place that is laid out before them."""

    hook_text = HOOK

    def setUp(self):
        super().setUp()
        self.hook = self.hooked(self.hook_text)
        self.before = self.place / "before"
        self.before.mkdir()

    def started(self):
        """A mirror that is begun in that place, and brought up to the server's newest number."""
        words = ["start", self.tree.pbf(self.server.place), "follower.save"]
        expect("start", self.run_in(self.before, words)[0], 0)
        expect("mirror", self.run_in(self.before, ["mirror", "follower.save"]), (0, "", ""))
        return self.before

    def command(self):
        return [self.installed.planet]

    def run_in(self, room, words, **environment):
        """The status of a run in a group of its own, and what it printed and said."""
        child = subprocess.Popen([*self.command(), *words], cwd=room, stdin=subprocess.DEVNULL, text=True,
                                 stdout=subprocess.PIPE, stderr=subprocess.PIPE, start_new_session=True,
                                 env={"PATH": PATH, **self.hook, **environment})
        try:
            out, error = child.communicate(timeout=LONGEST_COMMAND)
        except subprocess.TimeoutExpired:
            os.killpg(child.pid, signal.SIGKILL)
            raise
        return child.returncode, out, self.told(error)

    def steps(self, before, words):
        """How many steps an unharmed run of the parent has, and the place that it leaves."""
        room, log = self.place / "unharmed", self.place / "steps"
        for left in self.place.glob("unharmed"):
            shutil.rmtree(left)
        log.unlink(missing_ok=True)
        shutil.copytree(before, room, symlinks=True)
        done = self.run_in(room, words, STEP_LOG=str(log))
        expect("unharmed", (done[0], done[2]), (0, ""))
        lines = [line for line in log.read_text().splitlines() if line.startswith("parent ")]
        return lines, room

    def again(self, room, words):
        """The same words, as often as another run is still at work."""
        for _ in range(200):
            done = self.run_in(room, words)
            if done[0] != 4:
                return done
            time.sleep(0.1)
        return done

    def kill_each(self, before, words, check, finish, alone=3, since=""):
        """Kills a run before each of its steps, with all that it started, and before each third one alone; before none
        that comes before the first with the words `since`. `check` is given the place after the kill, and `finish` what
        the same words did then."""
        lines, unharmed = self.steps(before, words)
        first = next(place for place, line in enumerate(lines) if since in line)
        for number, line in list(enumerate(lines, 1))[first:]:
            for whom in ("all", "alone") if number % alone == 0 else ("all",):
                name = f"{whom} before {line}"
                room = self.place / f"{whom}-{number}"
                shutil.copytree(before, room, symlinks=True)
                status, _, error = self.run_in(room, words, STEP_KILL=f"parent {number} {whom}")
                expect(f"killed, {name}: {error}", status, KILLED)
                try:
                    check(room, unharmed)
                    finish(room, unharmed, self.again(room, words))
                except AssertionError as fault:
                    raise AssertionError(f"killed, {name}: {fault}") from None
                shutil.rmtree(room)
        return len(lines) - first

    def check_numbers(self, folder, whole, forms=("opl",)):
        """Each file of the folder is whole, no state is without changes, and state.txt comes last."""
        found = files_of(folder)
        expect_among(found, whole)
        states = [name for name in found if name.endswith(".state.txt")]
        for state in states:
            for form in forms:
                expect(f"changes of {state}", state.replace("state.txt", form) in found, True)
        if "state.txt" in found:
            expect("state.txt is last", found, whole)


class Kills(Killing):
    def test_a_mirror_before_each_step(self):
        self.tree.set_top(9)
        self.begin("before/follower.save")
        words = ["mirror", "follower.save", *self.words]
        begun = (self.before / "follower.save").read_bytes()

        def check(room, unharmed):
            self.check_numbers(room / "folder", files_of(unharmed / "folder"))
            save = (room / "follower.save").read_bytes()
            expect("the save is old or new", save in (begun, (unharmed / "follower.save").read_bytes()), True)
            source = room / "follower.save.source"
            if source.exists():
                expect("the source", dict(line.split(" ", 1) for line in source.read_text().splitlines()
                                          if line and line[0] != "#")["url"], self.server.place)

        def finish(room, unharmed, done):
            expect("again", done, (0, "", ""))
            expect_files(room, unharmed)
            expect("left behind", self.left_behind(room / "folder"), [])

        expect("steps", self.kill_each(self.before, words, check, finish) > 10, True)

    def test_a_start_before_each_step(self):
        words = ["start", self.tree.pbf(self.server.place), "follower.save"]

        def check(room, unharmed):
            expect_among(files_of(room), files_of(unharmed))

        def finish(room, unharmed, done):
            expect("again", (done[0], done[2]), (0, ""))
            expect("files", files_of(room), files_of(unharmed))
            expect("rooms", [name for name in os.listdir(room) if name.startswith(".")], [])

        expect("steps", self.kill_each(self.before, words, check, finish) > 5, True)

    def test_a_publication_before_each_step(self):
        before = self.before
        (before / "changes.opl").write_text(nodes(1, 1))
        done = self.run_in(before, ["publish", "folder", "changes.opl", "--now", "2024-01-01T01:00:00Z"])
        expect("publish", done, (0, "published 1\n", ""))
        first = files_of(before / "folder")
        (before / "changes.opl").write_text(nodes(2, 2))
        words = ["publish", "folder", "changes.opl", "--now", "2024-01-01T02:00:00Z"]

        def check(room, unharmed):
            found, wanted = files_of(room / "folder"), files_of(unharmed / "folder")
            for name, content in found.items():
                if name == "state.txt":
                    expect(name, content in (first[name], wanted[name]), True)
                elif name.endswith("osc.gz"):
                    expect(name, opl_of(room / "folder" / name), opl_of(unharmed / "folder" / name))
                else:
                    expect(name, content, wanted.get(name))
            for name in first:
                expect(f"{name} is there", name in found, True)
            if found["state.txt"] == wanted["state.txt"]:
                expect("all of number 2 is there", set(found), set(wanted))

        def finish(room, unharmed, done):
            if (room / "changes.opl").exists() or done[0] == 0:
                expect("again", done, (0, "published 2\n", ""))
            else:
                expect("again", (done[0], done[2]), (3, "changes.opl: not there\n"))
            expect("files", set(files_of(room)), set(files_of(unharmed)))
            check(room, unharmed)
            expect("state.txt", (room / "folder/state.txt").read_bytes(), (unharmed / "folder/state.txt").read_bytes())
            left = [file.name for file in room.rglob(".*") if file.name != ".osmrepl-lock"]
            expect("left behind", left, [])

        expect("steps", self.kill_each(before, words, check, finish) > 5, True)

    def test_an_export_before_each_step(self):
        before = self.started()
        (before / "out.osm.pbf").write_text("old")
        kept = files_of(before)
        words = ["export", "follower.save", "out.osm.pbf"]

        def check(room, unharmed):
            found = files_of(room)
            for name, content in found.items():
                if name != "out.osm.pbf":
                    expect(name, content, kept[name])
                elif content != b"old":
                    expect(name, opl_of(room / name), opl_of(unharmed / name))

        def finish(room, unharmed, done):
            expect("again", (done[0], done[2]), (0, ""))
            expect("objects", opl_of(room / "out.osm.pbf"), opl_of(unharmed / "out.osm.pbf"))
            expect("rooms", [name for name in os.listdir(room) if name.startswith(".")], [])

        expect("steps", self.kill_each(before, words, check, finish) > 3, True)

    @numbered(8, 12)
    def test_a_converter_is_killed(self):
        """Once: another is started. Each time: the diff is named, and nothing else is lost."""
        for number in 1, 2, 5:
            save = f"{number}.save"
            self.begin(save)
            done = self.run_in(self.place, ["mirror", save, "--url", self.server.place, "--dir", f"folder{number}"],
                               STEP_KILL=f"converter {number} alone", STEP_ONCE=str(self.place / f"once{number}"))
            expect("killed once", (done, (self.place / f"once{number}").exists()), ((0, "", ""), True))
            self.expect_result(save)
        self.begin()
        status, out, error = self.run_in(self.place, ["mirror", "follower.save", *self.words],
                                         STEP_KILL="converter 1 alone")
        expect_fault("killed each time", (out, error, status),
                     part=f"URL/{path_of(8, 'osc.gz')}: the converter ended: ")
        expect("number", self.number(), 7)
        expect("again", self.mirror(), ("", 0))
        self.expect_result()

    def test_osmrepl_is_killed(self):
        """Before and after it did its work, alone and with all the others; the next run makes up for it."""
        self.begin("base.save")
        for whom in "0", "$$":
            program = self.script("osmrepl", f'word=$1\n[ "$KILL" != "before $word" ] || kill -9 {whom}\n'
                                             f'if [ -z "$KILL" ]; then exec {self.installed.program} "$@"; fi\n'
                                             f'{self.installed.program} "$@"\nstatus=$?\n'
                                             f'[ "$KILL" != "after $word" ] || kill -9 {whom}\nexit $status')
            for kill in "before follow", "after follow":
                name = f"{kill} {'all' if whom == '0' else 'alone'}"
                save, words = f"{name}.save", ["--url", self.server.place, "--dir", f"folder {name}"]
                shutil.copy(self.place / "base.save", self.place / save)
                status, out, error = self.run_in(self.place, ["mirror", save, *words], KILL=kill, OSMREPL=str(program))
                if whom == "0":
                    expect(f"killed {name}", status, KILLED)
                else:
                    expect_fault(f"killed {name}", (out, error, status), part="osmrepl: ")
                expect("again", self.again(self.place, ["mirror", save, *words]), (0, "", ""))
                self.expect_result(save)

    def test_osmium_is_killed(self):
        """During a start, a publication and an export: the fault names it, and the same words again do their work."""
        tools = self.script("tools/osmium", "kill -9 $$").parent
        self.begin()
        (self.place / "changes.opl").write_text(nodes(1, 1))
        for words in (["start", self.tree.pbf(self.server.place), "own.save"], ["publish", "folder", "changes.opl"],
                      ["export", "follower.save", "out.osm.pbf"]):
            before = set(files_of(self.place))
            status, _, error = self.run_in(self.place, words, PATH=f"{tools}:{PATH}")
            expect_fault(words[0], (error, status), part="osmium")
            found = set(files_of(self.place)) - before
            expect("files", [name for name in found if not name.endswith((".lock", ".publish.opl"))], [])
            expect("again", self.run_in(self.place, words)[::2], (0, ""))

    def test_a_parent_is_killed_alone_while_osmrepl_writes(self):
        """While osmrepl begin or publish still works for a run that was killed, no other run works there."""
        program = self.script("osmrepl", f'[ -n "$SLOW" ] || exec {self.installed.program} "$@"\n'
                                         f'touch "at-work-$1"\nsleep 2\n{self.installed.program} "$@"\n'
                                         'status=$?\ntouch "done-$1"\nexit $status')
        (self.place / "1.opl").write_text(nodes(1, 1))
        (self.place / "2.opl").write_text(nodes(2, 2))
        file = self.tree.pbf(self.server.place)
        for word, first, second in [
                ("begin", ["start", file, "own.save"], ["start", file, "own.save"]),
                ("publish", ["publish", "folder", "1.opl"], ["publish", "folder", "2.opl"])]:
            child = self.killed_alone(program, first, (self.place / f"at-work-{word}").exists)
            status, _, error = self.again(self.place, second)
            # it has done its work, or was ended with its parent
            is_over = (self.place / f"done-{word}").exists() or is_nobody_left(child)
            expect(f"{word}: {error}", (status, is_over), (0, True))
        expect("audit", self.program("audit", "folder").startswith("ok 1.."), True)
        for file in self.folder().rglob("*.osc.gz"):
            expect(f"{file.name}: the same changes", opl_of(file),
                   opl_of(file.with_name(file.name.replace("osc.gz", "opl"))))

    def killed_alone(self, program, words, is_so):
        """A run over a slow program that is killed once something is so, without those that it started."""
        with self.running(*words, environment={"OSMREPL": str(program), "SLOW": "1"}, stdout=subprocess.DEVNULL,
                          stderr=subprocess.DEVNULL, start_new_session=True) as one:
            wait_until(f"{words} are at work", is_so)
            one.child.kill()
            one.child.wait()
        return one.child

    def test_a_parent_is_killed_alone(self):
        """While a server is silent, while a diff is converted, and while what was fetched is followed."""
        self.begin("base.save")
        program = self.script("osmrepl", f'[ "$1" != follow ] || [ -z "$SLOW" ] || {{ touch following; sleep 1; }}\n'
                                         f'exec {self.installed.program} "$@"')
        silent = path_of(10, "osc.gz")
        phases = {"silent": lambda: silent in [one.path for one in self.server.requests],
                  "following": (self.place / "following").exists}
        for phase, is_so in phases.items():
            save, folder = f"{phase}.save", f"folder-{phase}"
            shutil.copy(self.place / "base.save", self.place / save)
            words = ["mirror", save, "--url", self.server.place, "--dir", folder]
            self.server.always = {silent: Fault(stall=True)} if phase == "silent" else {}
            child = self.killed_alone(program, words, is_so)
            self.server.always = {}
            expect("again", self.again(self.place, words), (0, "", ""))
            self.expect_result(save)
            wait_until(f"nobody is left of {phase}", lambda child=child: is_nobody_left(child), 10)


class Syncs(Case):
    @numbered(8, 12)
    def test_files_are_on_the_disk_before_they_have_their_names(self):
        """Each file that is renamed was synced since it was written, by itself or with its file system; the changes of
        a number come before its state, and state.txt last; a .osc.gz before the program publishes its number."""
        (self.place / "next.osc").write_text((TOP / "examples/diff.osc").read_text())
        notes = {}
        for words in (["start", self.tree.pbf(self.server.place), "own.save"], ["mirror", "own.save"],
                      ["publish", "shared", "next.osc"], ["export", "own.save", "out.osm.pbf"]):
            lines = notes[words[0]] = noted(self, *words)
            for place, line in enumerate(lines):
                if line[0] == "rename" and Path(line[2]).suffix != "":
                    before = lines[:place]
                    written = max((at for at, one in enumerate(before) if one[:2] == ["open", line[1]]), default=0)
                    synced = [one for one in before[written:] if one[0] == "sync all" or one == ["sync", line[1]]]
                    expect(f"{line} is synced, of {words[0]}", synced != [], True)
        moved = [Path(line[2]) for line in notes["mirror"] if line[0] == "rename" and "own.save.diffs" in line[2]]
        names = [str(path.relative_to(self.place / "own.save.diffs")) for path in moved if ".fetch" not in path.parts]
        # a rename into a folder that isn't there is tried again
        expect("order", list(dict.fromkeys(names)), [
            path_of(number, suffix) for number in range(8, 20) for suffix in ("opl", "state.txt")] + ["state.txt"])
        diff = self.place / "shared" / path_of(1, "osc.gz")
        shared = [line[0] for line in notes["publish"] if line[-1] == str(diff) or line[1:3] == [
            str(self.installed.program), "publish"]]
        expect("a diff before its number", shared, ["rename", "start"])
        source = str(self.place / "own.save.source")
        expect("a source", [line[0] for line in notes["start"] if source in line][-1:], ["rename"])


def is_nobody_left(child):
    """Whether no process of its group is there."""
    return run(["pgrep", "-g", str(child.pid)])[0] == ""
