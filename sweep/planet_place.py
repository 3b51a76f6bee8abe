"""What the cases of sweep/planet share, and bench/planet with them: made-up objects, the tree of a replication server,
a place to try things in with its server, and the servers of others."""

import contextlib
import os
import random
import re
import shutil
import signal
import socket
import subprocess
import tempfile
import time
import unittest
from pathlib import Path

from osm.program import built
from planet_server import Fault, Server, path_of, publish, state_text

TOP = Path(__file__).resolve().parent.parent
# Debian's, which the program of planet/ names
PYTHON = "/usr/bin/python3"
# what it can't do without
NEEDED = ["osmium", "python3-pyosmium", "python3-urllib3"]
# the changes of the largest diff, which is cut into parts of 100,000
CHANGES = int(os.environ.get("RENUMBERED_CHANGES") or 250_000)
# in seconds: all cases, and a command
LONGEST, LONGEST_COMMAND = (1800, 60) if CHANGES <= 250_000 else (7200, 600)
# where the tools are, and what cron gives besides
FOLDERS = [str(Path(found).parent) for found in map(shutil.which, ["osmium", "osmconvert"]) if found]
PATH = ":".join(dict.fromkeys(["/usr/bin", "/bin", *FOLDERS]))
QUIET = ("", "", 0)
# given to objects without authors: the greatest that the tools of the field take
NOBODY = 2147483647


def found(tool):
    """The path of a tool, also of one that is for the system's manager alone."""
    return shutil.which(tool, path=os.environ.get("PATH", "") + ":/usr/sbin:/sbin")


def postgres_folder():
    """Where PostgreSQL's own programs are, if PostGIS is there too."""
    for folder in sorted(Path("/usr/lib/postgresql").glob("*/bin")):
        if Path(f"/usr/share/postgresql/{folder.parent.name}/extension/postgis.control").exists():
            return folder
    return None


def lacking(needs):
    """Those of the needs that aren't there: tools, packages of Debian's Python, PostGIS, and the user root."""
    lacks = []
    for need in needs:
        if need.startswith("python3-"):
            word = {"python3-pyosmium": "osmium"}.get(need, need.removeprefix("python3-"))
            done = subprocess.run([PYTHON, "-c", f"import {word}"], capture_output=True, check=False)
            is_there = done.returncode == 0
        elif need == "postgis":
            is_there = postgres_folder() is not None
        elif need == "root":
            is_there = os.getuid() == 0
        else:
            is_there = found(need)
        if not is_there:
            lacks.append(need)
    return lacks


def run(words, cwd=None, **environment):
    """What a command prints on both streams, and its status."""
    done = subprocess.run([str(word) for word in words], cwd=cwd, env={"PATH": PATH, **environment},
                          stdin=subprocess.DEVNULL, capture_output=True, text=True, timeout=LONGEST_COMMAND,
                          check=False)
    return done.stdout, done.stderr, done.returncode


def must(words, cwd=None, **environment):
    out, error, status = run(words, cwd, **environment)
    expect(words, (error, status), ("", 0))
    return out


def opl_of(*files, cwd=None):
    """The objects or changes of files as OPL, as osmium reads them."""
    return must(["osmium", "cat", "--no-progress", *files, "-f", "opl"], cwd)


def expect(what, found_, wanted):
    if found_ != wanted:
        raise AssertionError(f"{what}:\n  wanted {shown(wanted)}\n  found  {shown(found_)}")


def expect_fault(what, found_, begins="", part="", status=3, printed=""):
    """A run that ends with that status, or one of these, says one line, which begins so and has that part. `found_` is
    what it printed, what it said and its status, or the latter two of a run of mirror, which prints nothing."""
    *out, said, ended = found_
    line = said.removesuffix("\n")
    is_line = line != "" and "\n" not in line and (not out or line != said)
    is_status = ended in (status if isinstance(status, tuple) else (status,))
    expect(f"{what}, status {ended}: {said[:500]}",
           ("".join(out), said.startswith(begins), part in said, "Traceback" in said, is_line, is_status),
           (printed, True, True, False, True, True))


def expect_started(found_, number, save):
    """A start that is done says last at which number the mirror is, and how it goes on."""
    out, error, status = found_
    expect(f"start: {error}", (out.splitlines()[-2:], error, status),
           ([f"number {number}", f"next: osmrepl-planet mirror {save}"], "", 0))


def shown(value):
    text = repr(value)
    return text if len(text) <= 1000 else f"{text[:1000]} .. ({len(text)} letters)"


# what has to be ended if the cases don't end by themselves: programs, small file systems and folders elsewhere
CHILDREN, DISKS, FOLDERS_ELSEWHERE = set(), set(), set()


@contextlib.contextmanager
def disk(place, size):
    """A small file system, which is gone after the block."""
    place.mkdir(exist_ok=True)
    must(["mount", "-t", "tmpfs", "-o", f"size={size}k", "tmpfs", place])
    DISKS.add(place)
    try:
        yield place
    finally:
        must(["umount", "-l", place])
        DISKS.discard(place)


def end_all():
    """Ends what the cases under way have begun."""
    for child in list(CHILDREN):
        child.kill()
    for place in list(DISKS):
        run(["umount", "-l", place])
    for place in list(FOLDERS_ELSEWHERE):
        shutil.rmtree(place, ignore_errors=True)


@contextlib.contextmanager
def locked(file):
    """Another program holds the lock of a file until the block ends."""
    with Child(["flock", file, "sleep", "60"], start_new_session=True) as one:
        wait_until("a lock", lambda: run(["flock", "-n", file, "true"])[2] != 0)
        try:
            yield
        finally:
            os.killpg(one.child.pid, signal.SIGTERM)


def wait_until(what, is_so, seconds=30):
    end = time.monotonic() + seconds
    while not is_so():
        if time.monotonic() > end:
            raise AssertionError(f"{what}: not within {seconds} seconds")
        time.sleep(0.02)


def files_of(folder):
    """The files of a folder, without those whose name, or whose folder's, begins with a point."""
    names = (file.relative_to(folder) for file in sorted(folder.rglob("*")) if file.is_file())
    return {str(name): (folder / name).read_bytes() for name in names if not any(part[0] == "." for part in name.parts)}


def expect_among(found_, wanted):
    """Each of the files that are found is one that is wanted."""
    for name, content in found_.items():
        expect(name, content, wanted.get(name))


def expect_files(room, unharmed):
    """Two folders have the same files, except for the times of runs."""
    found_, wanted = files_of(room), files_of(unharmed)
    expect("files", set(found_), set(wanted))
    for name, content in found_.items():
        if not name.endswith(".runs"):
            expect(name, content, wanted[name])


def numbers(first, last, *forms):
    suffixes = *(forms or ("opl",)), "state.txt"
    return {path_of(number, suffix) for number in range(first, last + 1) for suffix in suffixes}


def number_in(cursor):
    """The number of a cursor's file, which its first line has."""
    return int(re.match("sequenceNumber=([0-9]+)\n", cursor.read_text())[1])


def nodes(first, last, tags=""):
    """The changes that make the nodes from one to another."""
    return "".join(f"n{number} v1 dV c7 t2024-01-01T00:10:00Z i5 uann T{tags} x1 y2\n"
                   for number in range(first, last + 1))


def time_text(seconds):
    return time.strftime("%Y-%m-%dT%H:%M:%SZ", time.gmtime(seconds))


class Objects:
    """Made-up objects, and changes of them."""

    USERS = ["ann", "bob", "Zo%eb%%20%M%fc%ller", "%1f600%"]
    TAGS = ["", "highway=footway", "name=Alte%20%Br%fc%cke,ref=A%2c%1", "note=" + "long%20%" * 40]

    def __init__(self, seed, seconds):
        self.random, self.seconds = random.Random(seed), seconds
        # the versions of each kind by id, counted from 1
        self.versions = {kind: [0] for kind in "nwr"}
        self.visible, self.changeset = {}, 1000

    def line(self, kind, number, is_visible):
        user = self.random.randrange(len(self.USERS))
        versions = self.versions[kind]
        versions[number] += 1
        moment = time_text(self.seconds - self.random.randrange(60))
        head = f"{kind}{number} v{versions[number]} d{'V' if is_visible else 'D'} c{self.changeset} t{moment} " \
               f"i{user + 5} u{self.USERS[user]} T"
        if not is_visible:
            self.visible.pop((kind, number), None)
            return head + {"n": " x y", "w": " N", "r": " M"}[kind]
        text = self.visible[kind, number] = head + self.random.choice(self.TAGS) + self.body(kind)
        return text

    def body(self, kind):
        if kind == "n":
            east, north = self.random.randrange(-18 * 10**7, 18 * 10**7), self.random.randrange(-9 * 10**7, 9 * 10**7)
            return f" x{east / 1e6} y{north / 1e6}"
        chosen = [self.random.randrange(1, 400) for _ in range(self.random.randrange(2, 9))]
        if kind == "w":
            return " N" + ",".join(f"n{number}" for number in chosen)
        return " M" + ",".join(f"{'nw'[number % 2]}{number}@{'stop' * (number % 3)}" for number in chosen)

    def change(self):
        """A change of a new object, or of one that was there: another version, a deletion, or back again."""
        self.changeset += self.random.randrange(2)
        kind = self.random.choice("nnnnwwr")
        versions = self.versions[kind]
        if len(versions) == 1 or self.random.random() < 0.3:
            versions.append(0)
            return self.line(kind, len(versions) - 1, True)
        return self.line(kind, self.random.randrange(1, len(versions)), self.random.random() < 0.75)

    def changes(self, count):
        """The changes of a diff, in the order of planet servers: by kind, id and version."""
        self.seconds += 60
        return joined(self.change() for _ in range(count))

    def extract(self):
        return joined(self.visible.values())


def joined(lines):
    return "".join(line + "\n" for line in sorted(lines, key=order))


def order(line):
    first, version, *_ = line.split(" ")
    return "nwr".index(first[0]), int(first[1:]), int(version[1:])


class Tree:
    """A server's folder of the numbers from `first` on, a minute apart up to now, over an extract of the number before
    them."""

    def __init__(self, place, first, count, seed=1):
        self.place, self.folder, self.first, self.last = place, place / "server", first, first + count - 1
        place.mkdir()
        self.begin = int(time.time()) - 60 * (count + 1)
        objects = Objects(seed, self.begin)
        for _ in range(150):
            objects.change()
        self.extract, self.state = place / "extract.opl", place / "extract.state.txt"
        self.extract.write_text(objects.extract())
        self.state.write_text(state_text(first - 1, self.begin))
        for number in range(first, first + count):
            self.publish(number, objects.changes(objects.random.randrange(12)))
        # the extract's own number is there too, as on any server
        (self.folder / path_of(first - 1, "state.txt")).parent.mkdir(parents=True, exist_ok=True)
        shutil.copy(self.state, self.folder / path_of(first - 1, "state.txt"))

    def seconds_of(self, number):
        return self.begin + 60 * (number - self.first + 1)

    def publish(self, number, text, later=0, is_top=True):
        """Puts a number with these changes there, so many seconds after its time."""
        changes = self.place / "changes.opl"
        changes.write_text(text)
        publish(self.folder, number, self.seconds_of(number) + later, changes, is_top)

    def write_diff(self, number, text):
        """Has other changes at a number, whose state stays."""
        changes = self.place / "changes.opl"
        changes.write_text(text)
        must(["osmium", "cat", "-O", changes, "-o", self.folder / path_of(number, "osc.gz")])

    def set_top(self, number):
        shutil.copy(self.folder / path_of(number, "state.txt"), self.folder / "state.txt")

    def diffs(self):
        return [self.folder / path_of(number, "osc.gz") for number in range(self.first, self.last + 1)]

    def result(self):
        """The objects after all diffs, as osmium makes them."""
        return must(["osmium", "apply-changes", "--no-progress", "-f", "opl", self.extract, *self.diffs()])

    def missing(self, number):
        """A number that isn't there."""
        return {path_of(number, suffix): Fault(status=404) for suffix in ("state.txt", "osc.gz")}

    def convert(self, name, *options):
        """The extract in another form, by osmium."""
        file = self.place / name
        must(["osmium", "cat", "--no-progress", "-O", self.extract, "-o", file, *options])
        return file

    def pbf(self, url, name="extract.osm.pbf", number=None, seconds=None):
        """The extract as a file that says in its header where its diffs are."""
        header = {"base_url": url, "sequence_number": self.first - 1 if number is None else number,
                  "timestamp": time_text(self.begin if seconds is None else seconds)}
        return self.convert(name, *(f"--output-header=osmosis_replication_{key}={value}"
                                    for key, value in header.items() if value != ""))


def free_port():
    with socket.socket() as one:
        one.bind(("127.0.0.1", 0))
        return one.getsockname()[1]


class Child:
    """A program that runs until the block ends."""

    def __init__(self, words, **more):
        self.words, self.more = [str(word) for word in words], more

    def __enter__(self):
        self.child = subprocess.Popen(self.words, **{"stdin": subprocess.DEVNULL, **self.more})
        CHILDREN.add(self.child)
        return self

    def __exit__(self, *_):
        CHILDREN.discard(self.child)
        if self.child.poll() is None:
            self.child.terminate()
            try:
                self.child.wait(10)
            except subprocess.TimeoutExpired:
                self.child.kill()
                self.child.wait()


class Nginx(Child):
    """Serves a folder, in the foreground and with all its files in a folder of its own."""

    def __init__(self, place, folder):
        self.port, self.log = free_port(), place / "access.log"
        place.mkdir(exist_ok=True)
        rooms = "".join(f"{name}_temp_path {place}/{name};\n"
                        for name in ("client_body", "proxy", "fastcgi", "uwsgi", "scgi"))
        (place / "nginx.conf").write_text(
            f"daemon off;\nmaster_process off;\npid {place}/pid;\nerror_log {place}/error.log;\nevents {{}}\n"
            f"http {{\nlog_format one '$connection $status $request_uri $http_user_agent';\n"
            f"access_log {self.log} one;\nkeepalive_requests 1000000;\n{rooms}"
            f"server {{ listen 127.0.0.1:{self.port}; root {folder}; }}\n}}\n")
        super().__init__([found("nginx"), "-p", place, "-c", place / "nginx.conf", "-e", place / "error.log"],
                         stderr=subprocess.DEVNULL)
        self.place = f"http://127.0.0.1:{self.port}"

    def __enter__(self):
        super().__enter__()
        wait_until("nginx", self.answers)
        return self

    def answers(self):
        with socket.socket() as one:
            return one.connect_ex(("127.0.0.1", self.port)) == 0

    def requests(self):
        """For each request its connection, status, path and agent."""
        return [line.split(" ", 3) for line in self.log.read_text().splitlines()]


class Postgres(Child):
    """A database server of its own, which only a socket in its folder leads to."""

    def __init__(self, place):
        self.folder = postgres_folder()
        # the server doesn't run as root, and a path to a socket has to be short
        self.place = Path(tempfile.mkdtemp(prefix="pg", dir="/tmp"))
        FOLDERS_ELSEWHERE.add(self.place)
        self.as_user = []
        if os.getuid() == 0:
            shutil.chown(self.place, "postgres")
            self.as_user = ["setpriv", "--reuid=postgres", "--regid=postgres", "--init-groups"]
        self.environment = {"PATH": PATH, "PGHOST": str(self.place), "PGUSER": "osm", "PGDATABASE": "osm",
                            "HOME": str(place)}
        must([*self.as_user, self.folder / "initdb", "-D", self.place / "data", "-U", "osm", "-A", "trust", "--no-sync",
              "-E", "UTF8", "--locale=C"])
        settings = {"listen_addresses": "", "fsync": "off", "shared_buffers": "16MB"}
        super().__init__([*self.as_user, self.folder / "postgres", "-D", self.place / "data", "-k", self.place,
                          *(f"-c{key}={value}" for key, value in settings.items())],
                         stdout=subprocess.DEVNULL, stderr=subprocess.DEVNULL)

    def __enter__(self):
        super().__enter__()
        wait_until("postgres", lambda: run([self.folder / "pg_isready"], **self.environment)[2] == 0)
        self.ask("CREATE DATABASE osm", "postgres")
        self.ask("CREATE EXTENSION postgis")
        return self

    def __exit__(self, *_):
        super().__exit__()
        shutil.rmtree(self.place, ignore_errors=True)
        FOLDERS_ELSEWHERE.discard(self.place)

    def ask(self, query, name="osm"):
        return must(["psql", "-d", name, "-qAt", "-v", "ON_ERROR_STOP=1", "-c", query], **self.environment)


class Installed:
    """The program and its package as ./install leaves them, away from the repository."""

    def __init__(self, place):
        self.place = place
        out, error, status = run([TOP / "install", place], HOME=os.environ.get("HOME", "/"),
                                 OSMREPL_PROGRAMS=str(Path(built()).parent))
        expect("install", (out.startswith("osmrepl "), error, status), (True, "", 0))
        self.program, self.planet = place / "bin/osmrepl", place / "planet/osmrepl-planet"


def needs(*names):
    """A case that is skipped without these."""
    def mark(case):
        case.needs = names
        return case
    return mark


def numbered(first, count):
    """A case whose tree has these numbers."""
    def mark(case):
        case.tree = first, count
        return case
    return mark


class Case(unittest.TestCase):
    """A place to try things in, a tree of the numbers 8 to 11 or as many as the case says, and its server. The program
    runs with the environment that cron gives."""

    installed = root = None

    def setUp(self):
        case = getattr(self, self._testMethodName)
        lacks = lacking(getattr(case, "needs", ()))
        if lacks:
            self.skipTest(f"these aren't installed: {' '.join(lacks)}" if lacks != ["root"] else "it needs root")
        self.place = self.root / self.id().split(".", 2)[2]
        self.place.mkdir()
        first, count = getattr(case, "tree", (8, 4))
        self.tree = Tree(self.place / "tree", first, count)
        self.server = self.enter(Server(self.tree.folder))
        # what names the server and the folder that is filled
        self.words = "--url", self.server.place, "--dir", "folder"

    def enter(self, context):
        """Enters a block that ends with the case."""
        value = context.__enter__()
        self.addCleanup(context.__exit__, None, None, None)
        return value

    def program(self, *words):
        return must([self.installed.program, *words], self.place)

    def script(self, name, text):
        """A program of the shell that stands in for another one."""
        file = self.place / name
        file.parent.mkdir(exist_ok=True)
        file.write_text(f"#!/bin/sh\n{text}\n")
        file.chmod(0o755)
        return file

    def hooked(self, text):
        """The environment of a run of which each Python runs that text first."""
        folder = self.place / "hook"
        folder.mkdir(exist_ok=True)
        (folder / "sitecustomize.py").write_text(text)
        return {"PYTHONPATH": str(folder), "PYTHONDONTWRITEBYTECODE": "1"}

    def planet(self, *words, **environment):
        """What a run of osmrepl-planet prints, what it says without its own name and with URL for that of the server,
        and its status."""
        out, error, status = run([self.installed.planet, *words], self.place, **environment)
        return self.told(out), self.told(error), status

    def running(self, *words, environment=(), **more):
        """A run of osmrepl-planet that goes on until the block ends."""
        return Child([self.installed.planet, *words], cwd=self.place, env={"PATH": PATH, **dict(environment)}, **more)

    def with_settings(self, settings):
        """The command with other constants, as `client.FIRST_SECONDS = 2`."""
        modules = ", ".join(sorted({line.split(".")[0] for line in settings}))
        lines = ["import sys", f"sys.path.insert(0, {str(self.installed.planet.parent)!r})",
                 f"sys.argv[0] = {str(self.installed.planet)!r}", f"from osmrepl_planet import {modules}", *settings,
                 "from osmrepl_planet.command_line import main", "main(sys.argv[1:])"]
        return [PYTHON, "-c", "\n".join(lines)]

    def tuned(self, settings, *words):
        """The same with other constants."""
        out, error, status = run([*self.with_settings(settings), *words], self.place)
        return self.told(out), self.told(error), status

    def told(self, text):
        return "".join(line.removeprefix("osmrepl-planet: ") for line in text.splitlines(True)).replace(
            self.server.place, "URL")

    def fetch(self, *words, name="folder", first=8, **environment):
        """What a run of fetch without a SAVE prints and says."""
        return self.planet("fetch", "--url", self.server.place, "--dir", name, "--from", str(first), *words,
                           **environment)

    def begin(self, save="follower.save", *words):
        self.program("begin", self.tree.extract, self.tree.state, save, *words)

    def start(self, save="follower.save", *words):
        """Begins with a file whose header says where it goes on."""
        return self.planet("start", self.tree.pbf(self.server.place), save, *words)

    def mirror(self, *words, save="follower.save", **environment):
        """What a run of mirror says, which names the server if nothing else does. It prints nothing, and says a line
        exactly if its status isn't 0 or 4."""
        if not (self.place / f"{save}.source").exists():
            words = *self.words, *words
        out, error, status = self.planet("mirror", save, *words, **environment)
        expect(f"output of a mirror, {error!r}", (out, error.count("\n")), ("", 0 if status in (0, 4) else 1))
        return error.rstrip("\n"), status

    def up_to(self, number, *words, save="follower.save"):
        """The server gets to that number, and the mirror with it, without a word."""
        self.tree.set_top(number)
        expect(f"mirror to {number}", self.mirror(*words, save=save), ("", 0))

    def header(self, file, *keys):
        """What the header of a data file says of these."""
        names = [f"header.option.osmosis_replication_{key}" for key in keys]
        return [run(["osmium", "fileinfo", "-g", name, self.place / file])[0].rstrip("\n") for name in names]

    def wait_for_request(self, path):
        """Waits until the server was asked for a file since its requests were taken last."""
        wait_until("a request", lambda: path in [one.path for one in self.server.requests])

    def number(self, save="follower.save"):
        return int(self.program("show", save).split("\n", 1)[0].removeprefix("number "))

    def source(self, save="follower.save"):
        """What SAVE.source says, as pairs."""
        lines = (self.place / f"{save}.source").read_text().splitlines()
        return [tuple(line.split(" ", 1)) for line in lines if line and line[0] != "#"]

    def folder(self, name="folder"):
        return self.place / name

    def left_behind(self, name="folder"):
        return [file.name for file in (self.folder(name) / ".fetch").rglob("*") if file.name not in ("lock", "server")]

    def expect_result(self, save="follower.save", picked=()):
        """The mirror has the objects that osmium makes of the same extract and diffs, or those that it picks out of
        them."""
        self.program("export", save, f"{save}.opl")
        found_, wanted = opl_of(f"{save}.opl", cwd=self.place), self.tree.result()
        if picked:
            whole = self.place / "whole.opl"
            whole.write_text(wanted)
            wanted = must(["osmium", "tags-filter", "--no-progress", "-R", "-f", "opl", whole, *picked])
            expect("there are some", wanted.count("\n") > 2, True)
        different = set(found_.splitlines()) ^ set(wanted.splitlines())
        expect("objects in which the mirror and osmium differ", sorted(different)[:4], [])
        expect("the mirror is osmium's result", found_ == wanted, True)
