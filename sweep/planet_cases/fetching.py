"""fetch: which numbers it brings, in which form, and what it says of each fault of a server and of a diff."""

import calendar
import gzip
import json
import os
import re
import shutil
import signal
import subprocess
import time

from planet_place import (NOBODY, PATH, PYTHON, TOP, Case, Child, expect, expect_fault, files_of, must, needs,
                          numbered, numbers, opl_of, run, wait_until)
from planet_server import Fault, Server, path_of, state_text

# the attributes of an object with all metadata; what a fetch prints that brings number 8 and no more
WHOLE = 'version="1" timestamp="2024-01-01T00:00:00Z" uid="5" user="ann" changeset="7"'
ONE = "fetched 8..8\nnumber 8\n"
# that of number 9, which many cases spoil
DIFF = path_of(9, "osc.gz")


def write_diff(path, small, large):
    """Writes a diff of nodes, of which the large ones have 3 MB of tags."""
    tags = "".join(f'<tag k="{tag:04}" v="{"a" * 1000}"/>' for tag in range(3200))
    with gzip.open(path, "wt", compresslevel=1, encoding="ascii") as file:
        file.write('<osmChange version="0.6"><create>')
        for number in range(1, small + large + 1):
            file.write(f'<node id="{number}" {WHOLE} lat="2" lon="1">{tags if number > small else ""}</node>\n')
        file.write("</create></osmChange>\n")


def diff_of(*objects):
    """A diff of these objects, each the text of an element."""
    return gzip.compress(f'<osmChange version="0.6"><create>{"".join(objects)}</create></osmChange>'.encode())


def way_out(folder, save="SAVE"):
    return (f"osmrepl-planet mirror {save} --renumber takes it in parts; or export the mirror of 8, apply "
            f"{folder}/{DIFF} to it by osmium apply-changes, and begin with the result and "
            f"{folder}/{path_of(9, 'state.txt')}")


class Fetches(Case):
    def test_a_folder_is_filled_from_a_number_or_from_its_lowest(self):
        expect("from 9", self.fetch(first=9), ("fetched 9..11\nnumber 11\n", "", 0))
        expect("files", set(files_of(self.folder())), numbers(9, 11) | {"state.txt"})
        whole = files_of(self.folder())
        for suffix in "opl", "state.txt":
            (self.folder() / path_of(10, suffix)).unlink()
            self.server.paths()
            expect(f"{suffix} of 10 is lost", self.planet("fetch", "--url", self.server.place + "/", "--dir", "folder"),
                   ("fetched 10..10\nnumber 11\n", "", 0))
            wanted = {"state.txt", path_of(10, "state.txt")} | ({path_of(10, "osc.gz")} if suffix == "opl" else set())
            # the form is looked for at the newest number
            expect("requests", set(self.server.paths()) - {path_of(11, "osc.gz")}, wanted)
            expect("files", files_of(self.folder()), whole)
        expect("from 8", self.fetch(first="08"), ("fetched 8..8\nnumber 11\n", "", 0))
        expect("beyond the newest", self.fetch(first=12, name="new"), ("number 11\n", "", 0))
        expect("files", set(files_of(self.folder("new"))), {"state.txt"})
        self.tree.set_top(9)
        expect("an older state.txt", self.fetch(), ("number 11\n", "", 0))

    def test_the_words_are_refused(self):
        url = self.server.place
        self.begin()
        for words in ([], ["none"], ["fetch"], ["fetch", "--url", url], ["fetch", "--dir", "a"],
                      ["fetch", "--url", url, "--dir", "a", "--of"], ["fetch", "--url", url, "--dir", "a", "--from"],
                      ["fetch", "--url", url, "--dir", "a", "--from", "0"],
                      ["fetch", "--url", url, "--dir", "a", "--from", "x"],
                      ["fetch", "--url", url, "--dir", "a", "--from", "1234567890"],
                      ["fetch", "--url", url, "--dir", "a", "--from", "8", "--tries", "0"],
                      ["fetch", "--url", url, "--dir", "a", "--from", "8", "--timeout", "-1"],
                      ["fetch", "--url", "file:///a", "--dir", "a", "--from", "8"],
                      ["fetch", "--url", "ftp://127.0.0.1/a", "--dir", "a", "--from", "8"],
                      ["fetch", "--url", url, "--dir", "a"],
                      ["mirror"], ["mirror", "follower.save", "--from", "8"], ["mirror", "follower.save", "--lag"],
                      ["mirror", "follower.save", "--max-age", "5"],
                      ["mirror", "follower.save", "--url", url, "--lag", "1h"],
                      ["mirror", "follower.save", "--url", url, "--every", "0"],
                      ["start"], ["start", "a"], ["start", self.tree.extract, "a.save", "--kinds", "x"],
                      ["start", self.tree.extract, "a.save", "--url", url, "--sequence", "x"],
                      ["publish"], ["publish", "a"], ["publish", "a", "b", "--now", "today"], ["export"],
                      ["export", "follower.save"]):
            out, error, status = self.planet(*words)
            expect(f"{words}: {error}", (out if words else "", error != "" or not words, "Traceback" in error, status),
                   ("", True, False, 2))
        expect("requests", self.server.paths(), [])
        expect("files", set(files_of(self.place)) - {f"tree/{name}" for name in files_of(self.tree.place)},
               {"follower.save", "follower.save.lock"})

    def test_an_empty_word_is_refused(self):
        """It is said which one, and nothing is read or written."""
        (self.place / "1.opl").write_text("")
        before, url = set(files_of(self.place)), ["--url", self.server.place]
        for name, words in (("FILE", ["start", "", "a.save"]), ("SAVE", ["start", self.tree.extract, "", *url]),
                            ("KEY", ["start", self.tree.extract, "a.save", "", *url]), ("SAVE", ["fetch", "", *url]),
                            ("--dir", ["fetch", *url, "--dir", "", "--from", "8"]), ("SAVE", ["mirror", "", *url]),
                            ("--cookies", ["mirror", "a.save", "--empty", *url, "--cookies="]),
                            ("--then", ["mirror", "a.save", "--empty", *url, "--then", "", "--", "true"]),
                            ("--url", ["mirror", "a.save", "--empty", "--url", ""]), ("SAVE", ["status", ""]),
                            ("--html", ["status", "a.save", "--html", ""]),
                            ("--prometheus", ["status", "a.save", "--prometheus="]), ("DIR", ["publish", "", "1.opl"]),
                            ("CHANGES", ["publish", "a", ""]), ("SAVE", ["export", "", "a.opl"]),
                            ("OUT", ["export", "a.save", ""]), ("SAVE", ["hand-on", "", "a", "--", "true"]),
                            ("CURSOR", ["hand-on", "a.save", "", "--", "true"]),
                            ("--start", ["hand-on", "a.save", "a", "--start", ""]),
                            ("--lots", ["hand-on", "a.save", "a", "--lots", ""]), ("DB", ["sqlite", "a.save", ""])):
            expect(words, self.planet(*words), ("", f"{name}: an empty word\n", 2))
        expect("requests", self.server.paths(), [])
        expect("files", set(files_of(self.place)), before)

    def test_texts(self):
        """The tests of what is read and written, without a server."""
        done = run([PYTHON, "-m", "unittest", "discover", "-s", TOP / "planet/tests"], PYTHONDONTWRITEBYTECODE="1")
        expect(f"unittest: {done[1]}", (done[1].rstrip().endswith("OK"), done[2]), (True, 0))

    def test_help_and_version(self):
        for words in ["--help"], *([word, "--help"] for word in ("start", "fetch", "mirror", "publish", "export")):
            out, error, status = self.planet(*words)
            expect(f"{words}", ("usage: osmrepl-planet" in out, error, status), (True, "", 0))
        out, error, status = self.planet("--version")
        expect("version", (out.startswith("osmrepl-planet "), error, status), (True, "", 0))
        for closed in "<&-", "2>&-":
            words = ["bash", "-c", f'exec "$0" --version {closed}', self.installed.planet]
            expect(f"a stream that is closed, {closed}", run(words), (out, "", 0))
        expect("install", run([TOP / "install"]), ("", "install: one word is needed, the folder PREFIX\n", 2))

    def test_what_the_first_fetch_of_a_mirror_is_given_stays(self):
        """Also the lag, by which fetch itself does nothing."""
        self.begin()
        out = self.planet("fetch", "follower.save", "--url", self.server.place, "--lag", "7", "--tries", "2")
        expect("fetch", out, ("fetched 8..11\nnumber 11\n", "", 0))
        kept = [pair for pair in self.source() if pair[0] in ("lag", "tries")]
        expect("source", kept, [("tries", "2"), ("lag", "7")])
        expect("status", json.loads(self.planet("status", "follower.save", "--json")[0])["most_age"], 7)

    def test_usage(self):
        """Options stand before the command, and each form of hand-on is there."""
        for word, wanted in (("hand-on", "SAVE CURSOR [options] (-- COMMAND .. | --start OUT | --lots DIR)"),
                             ("mirror", "SAVE [options] [--then CURSOR -- COMMAND ..]")):
            line = self.planet(word, "--help")[0].split("\n")[0]
            expect(word, line, f"usage: osmrepl-planet {word} {wanted}")

    def test_help_that_cannot_be_written(self):
        """The fault names the output. Of a pipe that is closed early nothing is said, as by osmrepl."""
        said, cut = "output: write failed ({})\n", 'exec 3> >(exec true) && wait $! && "$0" {} >&3'
        for words in "--version", "--help", "fetch --help":
            for script, wanted in ((f'"$0" {words} >&-', said.format("bad file descriptor")),
                                   (f'"$0" {words} >/dev/full', said.format("no space left on device")),
                                   (cut.format(words), "")):
                out, error, status = run(["bash", "-c", script, self.installed.planet])
                expect(script, (out, self.told(error), status), ("", wanted, 3))

    def test_changes_in_another_form_are_left(self):
        """A number that is there as o5c isn't fetched again."""
        self.tree.set_top(9)
        expect("opl", self.fetch(), ("fetched 8..9\nnumber 9\n", "", 0))
        self.program("convert", self.folder() / path_of(9, "opl"), self.folder() / path_of(9, "o5c"))
        (self.folder() / path_of(9, "opl")).unlink()
        (self.folder() / path_of(9, "state.txt")).unlink()
        self.tree.set_top(11)
        self.server.paths()
        expect("the others", self.fetch(), ("fetched 9..11\nnumber 11\n", "", 0))
        expect("requests", DIFF in self.server.paths(), False)
        expect("files", set(files_of(self.folder())),
               numbers(8, 8) | numbers(9, 9, "o5c") | numbers(10, 11) | {"state.txt"})

    def test_a_folder_that_publish_wrote_is_fetched_as_it_is(self):
        """Without .osc.gz its .o5c and .opl files are taken, and the form is found by the first run."""
        for form in "o5c", "opl":
            server = self.place / f"served-{form}"
            shutil.copytree(TOP / "examples/server", server)
            for file in server.rglob(f"*.{'opl' if form == 'o5c' else 'o5c'}"):
                if form == "opl":
                    file.unlink()
            with Server(server) as one:
                out = self.planet("fetch", "--url", one.place, "--dir", form, "--from", "8")
                expect(form, out, ("fetched 8..10\nnumber 10\n", "", 0))
                asked = one.paths()
                expect("requests", len(asked) <= 2 + 2 * 3 + 3, True)
            expect("files", set(files_of(self.folder(form))), numbers(8, 10, form) | {"state.txt"})
            for number in 8, 9, 10:
                expect("changes", (self.folder(form) / path_of(number, form)).read_bytes(),
                       (server / path_of(number, form)).read_bytes())

    def test_a_number_that_the_server_lacks_is_named_and_fetched_later(self):
        for suffix in "state.txt", "osc.gz":
            self.server.always = {path_of(9, suffix): Fault(status=404)}
            expect(suffix, self.fetch(name=suffix), ("fetched 8..8\nfetched 10..11\nmissing 9\nnumber 11\n", "", 1))
            expect("again", self.fetch(name=suffix), ("missing 9\nnumber 11\n", "", 1))
            expect("files", set(files_of(self.folder(suffix))), numbers(8, 8) | numbers(10, 11) | {"state.txt"})
            self.server.always = {}
            expect("later", self.fetch(name=suffix), ("fetched 9..9\nnumber 11\n", "", 0))
        self.server.always = {"state.txt": Fault(status=404)}
        expect("state.txt", self.fetch(), ("", "URL/state.txt: not there\n", 3))
        self.server.always = {"state.txt": Fault(body=state_text(500, 1700000000).encode())}
        out, error, status = self.fetch("--tries", "1", name="many")
        found = re.fullmatch(r"URL: the numbers 12 to [0-9]+ aren't there[^\n]*\n", error)
        expect(f"too many: {error}", ("missing 12\n" in out, found is not None, status), (True, True, 3))
        expect("files", set(files_of(self.folder("many"))), numbers(8, 11) | {"state.txt"})

    def test_errors_are_tried_again_and_then_end_the_run(self):
        server, page = self.server, b"<html>Please log in</html>\n"
        diff = (self.tree.folder / DIFF).read_bytes()
        state = (self.tree.folder / path_of(9, "state.txt")).read_bytes()
        for name, path, fault, said, tries in [
                ("500", DIFF, Fault(status=500), "status 500", 2),
                ("403", path_of(9, "state.txt"), Fault(status=403), "status 403", 1),
                ("401", path_of(9, "state.txt"), Fault(status=401), "status 401", 1),
                ("cut", DIFF, Fault(cut=True), "cut off: ", 2),
                ("long", DIFF, Fault(length=len(diff) + 7), "cut off: ", 2),
                ("a negative chunk", DIFF, Fault(
                    headers={"Transfer-Encoding": "chunked"}, body=b"-5\r\nhello\r\n0\r\n\r\n", length=0),
                 "no answer: ", 2),
                ("stall", path_of(9, "state.txt"), Fault(stall=True), "timed out", 2),
                ("number", path_of(9, "state.txt"), Fault(body=state_text(8, 1700000000).encode()), "doesn't name 9",
                 2),
                ("page", path_of(9, "state.txt"), Fault(body=page), "", 2),
                ("half a state", path_of(9, "state.txt"), Fault(body=state[:len(state) // 2]), "", 2),
                ("a large state", path_of(9, "state.txt"), Fault(body=state + b"#" * (1 << 17)), "bad state", None),
                ("diff", DIFF, Fault(body=page), "", None),
                ("half", DIFF, Fault(body=diff[:-20]), "cut gzip data", None),
                ("zipped page", DIFF, Fault(body=gzip.compress(page)), "osmium: ", None),
                ("nothing", DIFF, Fault(body=b""), "", None),
                ("changed", DIFF, Fault(body=diff[:40] + b"?" + diff[41:]), "", None)]:
            server.always = {path: fault}
            server.paths()
            done = self.fetch("--tries", "2", "--timeout", "1" if name == "stall" else "30", name=name)
            expect_fault(name, done, f"URL/{path}: {said}", printed=ONE)
            if tries:
                expect(f"requests, {name}", server.paths().count(path), tries)
            expect(f"files, {name}", set(files_of(self.folder(name))), numbers(8, 8) | {"state.txt"})
            server.always = {}
            expect(f"mended, {name}", self.fetch(name=name), ("fetched 9..11\nnumber 11\n", "", 0))
            expect("left behind", self.left_behind(name), [])
        for fault, said in (Fault(body=b"<html>"), "bad state"), (Fault(status=500), "status 500"):
            server.always = {"state.txt": fault}
            expect("state.txt", self.fetch("--tries", "1", name="none"), ("", f"URL/state.txt: {said}\n", 3))
        expect("files", files_of(self.folder("none")), {})
        # before its socket is closed: a thread that waits at the socket would keep it open for a while
        server.shutdown()
        server.server_close()
        expect_fault("no server", self.fetch("--tries", "1", name="none"), "URL/state.txt: no answer: ")

    def test_a_server_that_drips_bytes_is_left_in_time(self):
        """Each byte comes in time, but all of them don't: a file has a minute and a second for each 8 KiB, here two
        seconds for the minute."""
        for path in DIFF, path_of(9, "state.txt"):
            self.server.always = {path: Fault(drip=0.4)}
            begin = time.monotonic()
            words = "fetch", "--url", self.server.place, "--dir", path.replace("/", "-"), "--from", "8"
            done = self.tuned(["client.FIRST_SECONDS = 2"], *words, "--tries", "1", "--timeout", "1")
            expect_fault(path, done, f"URL/{path}: timed out", printed=ONE)
            expect("seconds", time.monotonic() - begin < 15, True)

    def test_what_is_not_asked_for_is_not_taken(self):
        """A body that says that it is zipped once more, and more bytes than the head names."""
        diff = (self.tree.folder / DIFF).read_bytes()
        zipped = Fault(body=gzip.compress(diff), headers={"Content-Encoding": "gzip"})
        self.server.always = {DIFF: zipped}
        done = self.fetch("--tries", "1", name="zipped")
        if done[2]:
            expect_fault("zipped", done, f"URL/{DIFF}: ", printed=ONE)
        else:
            expect("changes", (self.folder("zipped") / path_of(9, "opl")).read_text(), opl_of(self.tree.folder / DIFF))
        self.server.always = {DIFF: Fault(length=len(diff) - 5)}
        expect_fault("more", self.fetch("--tries", "1", name="more"), f"URL/{DIFF}: ", printed=ONE)
        # without a length its end is that of the connection, and a whole gzip file is whole
        self.server.always = {DIFF: Fault(length=0)}
        expect("no length", self.fetch("--tries", "1", name="no length"), ("fetched 8..11\nnumber 11\n", "", 0))
        data = gzip.compress(f'<osm version="0.6"><node id="1" {WHOLE} lat="2" lon="1"/></osm>'.encode())
        self.server.always = {DIFF: Fault(body=data)}
        expect("a data file", self.fetch(name="data"), (ONE, f"URL/{DIFF}: osmium: a data file, and no changes\n", 3))
        self.server.always = {DIFF: Fault(length=0, cut=True)}
        expect_fault("half", self.fetch("--tries", "1", name="half"), f"URL/{DIFF}: ", printed=ONE)

    def test_what_unzips_to_too_much_is_refused(self):
        """A value of 300 MB in 0.3 MB: it is unzipped in blocks, and no parser sees it."""
        value = f'<osmChange version="0.6"><create><node id="1" {WHOLE} lat="2" lon="1"><tag k="a" v="'
        packed = gzip.compress(value.encode() + b"a" * (300 << 20), 1)
        self.server.always = {DIFF: Fault(body=packed)}
        begin = time.monotonic()
        expect("a bomb", self.fetch("--tries", "1"), (ONE, f"URL/{DIFF}: more than 256 MiB unzipped\n", 3))
        expect("seconds", time.monotonic() - begin < 30, True)

    def test_a_diff_that_takes_too_long_or_too_much_is_refused(self):
        """60 s are left for a diff, here none; and a process of its own reads it, with a bound on its memory."""
        expect("too long", self.tuned(["converter.LONGEST = 0"], "fetch", *self.words, "--from", "8"),
               ("", f"URL/{path_of(8, 'osc.gz')}: more than 0 s to convert\n", 3))
        expect("mended", self.fetch(), ("fetched 8..11\nnumber 11\n", "", 0))
        expect("left behind", self.left_behind(), [])

    def test_entities_are_not_unfolded(self):
        """A few names of ten times one another, and one of a file."""
        names = "".join(f'<!ENTITY a{place} "{f"&a{place - 1};" * 10}">' for place in range(1, 12))
        for name, entities, value in ("unfolded", f'<!ENTITY a0 "a">{names}', "&a11;"), (
                "a file", f'<!ENTITY a SYSTEM "file://{self.tree.extract}">', "&a;"):
            body = (f'<?xml version="1.0"?><!DOCTYPE osmChange [{entities}]><osmChange version="0.6"><create>'
                    f'<node id="1" {WHOLE} lat="2" lon="1"><tag k="a" v="{value}"/></node></create></osmChange>')
            self.server.always = {DIFF: Fault(body=gzip.compress(body.encode()))}
            begin = time.monotonic()
            expect_fault(name, self.fetch("--tries", "1", name=name), f"URL/{DIFF}: osmium: ", printed=ONE)
            expect("seconds", time.monotonic() - begin < 20, True)

    def test_what_the_program_refuses_is_said_by_a_mirror(self):
        """A diff that osmium reads and osmrepl doesn't: the wrong file is named, and nothing of it is applied."""
        self.begin()
        for name, element in [("no place", f'<node id="5" {WHOLE}/>'),
                              ("a long name", f'<node id="5" {WHOLE.replace("ann", "a" * 1100)} lat="2" lon="1"/>')]:
            self.server.always = {DIFF: Fault(body=diff_of(element))}
            said, status = self.mirror("--lag", "999999999")
            if status == 0:
                expect(f"{name}: number", self.number(), 11)
            else:
                expect(f"{name}: {said}", ("000/000/009" in said or "sequence 9" in said, status, self.number()),
                       (True, 3, 8))
            self.server.always = {}
            for file in self.folder().rglob("009.*"):
                file.unlink()
            expect("mended", self.mirror(), ("", 0))
            self.begin()
            shutil.rmtree(self.folder())

    def test_a_wish_for_years_is_obeyed_for_a_day(self):
        for after in "999999999", "-5", "soon", "0":
            self.server.faults = {"state.txt": [Fault(status=503, headers={"Retry-After": after})]}
            name = f"after {after}"
            expect_fault(name, self.fetch("--tries", "1", name=name), "URL/state.txt: status 503")
            kept = self.folder(name) / ".fetch/not-before"
            if after == "999999999":
                seconds = int(kept.read_text().split(" ")[0]) - time.time()
                expect(f"{name}: {seconds}", 86000 < seconds < 86500, True)
            else:
                expect(name, self.fetch(name=name)[1:], ("", 0))

    def test_redirects_are_followed_to_other_hosts_and_not_to_other_schemes(self):
        elsewhere = {"Location": self.server.place + "/" + path_of(8, "state.txt")}
        self.server.always["state.txt"] = Fault(status=302, headers=elsewhere)
        expect("a state", self.fetch(name="moved"), ("fetched 8..8\nnumber 8\n", "", 0))
        with Server(self.tree.folder) as other:
            for path in ("state.txt", *sorted(numbers(8, 11, "osc.gz"))):
                self.server.always[path] = Fault(status=301, headers={
                    "Location": other.place.replace("127.0.0.1", "localhost") + "/" + path})
            self.server.paths()
            expect("another host", self.fetch(name="host"), ("fetched 8..11\nnumber 11\n", "", 0))
            expect("only once", self.server.paths(), ["state.txt"])
        self.server.always = {"state.txt": Fault(status=302, headers={"Location": "/newest/state.txt"})}
        (self.tree.folder / "newest").mkdir()
        (self.tree.folder / "newest/state.txt").write_bytes((self.tree.folder / "state.txt").read_bytes())
        expect("the newest state alone", self.fetch(name="newest"), ("fetched 8..11\nnumber 11\n", "", 0))
        for scheme in "file:///etc/passwd", "ftp://127.0.0.1/a", "gopher://127.0.0.1/a":
            self.server.always = {DIFF: Fault(status=302, headers={"Location": scheme})}
            expect_fault(scheme, self.fetch("--tries", "1", name=scheme.split(":")[0]),
                         f"URL/{DIFF}: leads to {scheme}", printed=ONE)
        self.server.always = {DIFF: Fault(status=302, headers={"Location": "/" + DIFF})}
        expect_fault("round", self.fetch("--tries", "1", name="round"), f"URL/{DIFF}: ", printed=ONE)

    @needs("openssl")
    def test_from_http_to_https_and_not_back(self):
        def certificate(name, of):
            key, signed = self.place / f"{name}.key", self.place / f"{name}.pem"
            subprocess.run(["openssl", "req", "-x509", "-newkey", "rsa:2048", "-nodes", "-days", "2", "-subj", "/CN=a",
                            "-addext", f"subjectAltName={of}", "-keyout", key, "-out", signed], check=True,
                           capture_output=True)
            signed.write_text(signed.read_text() + key.read_text())
            return signed

        right, wrong = certificate("right", "IP:127.0.0.1,DNS:localhost"), certificate("wrong", "DNS:diffs.example")
        known = {"SSL_CERT_FILE": str(right)}
        with Server(self.tree.folder, certificate=wrong) as other:
            words = "fetch", "--url", other.place, "--dir", "wrong", "--from", "8", "--tries", "1"
            expect_fault("another name", self.planet(*words, SSL_CERT_FILE=str(wrong)), part="certificate")
        with Server(self.tree.folder, certificate=right) as safe:
            by_name = safe.place.replace("127.0.0.1", "localhost")
            expect("by name", self.planet("fetch", "--url", by_name, "--dir", "named", "--from", "8", **known),
                   ("fetched 8..11\nnumber 11\n", "", 0))

            def to(place):
                return {path: Fault(status=301, headers={"Location": f"{place}/{path}"})
                        for path in ("state.txt", *numbers(8, 11, "osc.gz"))}

            self.server.always = to(safe.place)
            expect("http to https", self.fetch(name="safe", **known), ("fetched 8..11\nnumber 11\n", "", 0))
            expect_fault("unknown", self.fetch("--tries", "1", name="unknown"), part="certificate")
            self.server.always = {}
            self.server.paths()
            expect("by a proxy", self.planet("fetch", "--url", by_name, "--dir", "tunnel", "--from", "8", **known,
                                             https_proxy=self.server.place), ("fetched 8..11\nnumber 11\n", "", 0))
            expect("the proxy", (set(self.server.paths()), {one.host for one in safe.requests}),
                   ({"CONNECT"}, {by_name.removeprefix("https://"), safe.place.removeprefix("https://")}))
            safe.always = to(self.server.place)
            self.server.always = {}
            expect("https to http", self.planet("fetch", "--url", safe.place, "--dir", "back", "--from", "8", **known),
                   ("", f"{safe.place}/state.txt: leads to URL/state.txt, which is refused\n", 3))
            expect("files", files_of(self.folder("back")), {})

    def test_a_server_that_wants_no_requests_gets_none(self):
        later = int(time.time()) + 3600
        for status, after in (429, "3600"), (503, time.strftime("%a, %d %b %Y %H:%M:%S GMT", time.gmtime(later))):
            name = str(status)
            self.server.faults = {path_of(10, "osc.gz"): [Fault(status=status, headers={"Retry-After": after})]}
            begin = time.monotonic()
            expect_fault("told to stay away", self.fetch(name=name), f"URL/{path_of(10, 'osc.gz')}: status {status}",
                         printed="fetched 8..9\nnumber 9\n")
            expect("seconds", time.monotonic() - begin < 20, True)
            self.server.paths()
            out, error, ended = self.fetch(name=name)
            told, _, moment = error.rstrip("\n").rpartition(" ")
            expect("later", (out, told, ended), ("", "URL: asked for no request before", 3))
            moment = calendar.timegm(time.strptime(moment, "%Y-%m-%dT%H:%M:%SZ"))
            expect(f"the moment, {moment - later}", abs(moment - later) < 60, True)
            expect("requests", self.server.paths(), [])
            # over, and later than a server may say: the clock was ahead when it was written
            moment = int(time.time()) + (-1 if status == 429 else 90000)
            (self.folder(name) / ".fetch/not-before").write_text(f"{moment}\n")
            expect("after that", self.fetch(name=name), ("fetched 10..11\nnumber 11\n", "", 0))
            expect("left behind", self.left_behind(name), [])

    def test_what_no_follower_takes_is_kept_and_named_with_the_way_out(self):
        for name, small, large, reason in [
                ("both", 100001, 22, "more than 100,000 changes"), ("long", 1, 22, "more than 64 MiB"),
                ("big", 100001, 0, "more than 100,000 changes")]:
            write_diff(self.tree.folder / DIFF, small, large)
            out, error, status = self.fetch(name=name)
            said = f"sequence 9 has {reason} and can't be followed: {way_out(name)}\n"
            if name == "both":
                said = error if error.startswith("sequence 9 has more than ") else said
            expect(name, (out, error, status), ("fetched 8..8\nfetched 10..11\nnumber 11\n", said, 3))
            self.server.paths()
            expect("again", self.fetch(name=name), ("number 11\n", said, 3))
            expect("requests", self.server.paths(), ["state.txt"])
            expect("files", set(files_of(self.folder(name))), numbers(8, 8) | numbers(10, 11) | {"state.txt"} | {
                path_of(9, suffix) for suffix in ("osc.gz", "state.txt", "refused")})
        # the way out of the last
        self.begin()
        expect_fault("a mirror", self.mirror(), "sequence 9 has more than 100,000 changes and can't be followed: "
                     f"{way_out('folder', 'follower.save')}")
        diff, state = f"folder/{DIFF}", f"folder/{path_of(9, 'state.txt')}"
        self.program("export", "follower.save", "before.opl")
        must(["osmium", "apply-changes", "--no-progress", "before.opl", diff, "-o", "after.opl"], self.place)
        self.program("begin", "after.opl", state, "follower.save")
        expect("a mirror", self.mirror(), ("", 0))
        self.expect_result()

    def test_objects_without_authors_get_a_number(self):
        bare = '<node id="{}" version="1" timestamp="2024-01-01T00:00:00Z" lat="2" lon="1"{}/>'
        whole = ' changeset="7" uid="5" user="ann"'
        body = diff_of(bare.format(1, whole), bare.format(2, ""), bare.format(3, ' changeset="7"'),
                       bare.format(4, ' uid="5" user="ann"'))
        self.server.always = {DIFF: Fault(body=body)}
        expect("fetch", self.fetch(), ("fetched 8..11\nwithout user 2, without changeset 2\nnumber 11\n", "", 0))
        fields = [line.split(" ")[3:7] for line in (self.folder() / path_of(9, "opl")).read_text().splitlines()]
        expect("fields", [[one[0], one[2], one[3]] for one in fields], [
            ["c7", "i5", "uann"], [f"c{NOBODY}", f"i{NOBODY}", "u"], ["c7", f"i{NOBODY}", "u"],
            [f"c{NOBODY}", "i5", "uann"]])
        expect_fault("strict", self.fetch("--strict", name="strict"), "sequence 9 has ",
                     printed="fetched 8..8\nfetched 10..11\nnumber 11\n")
        self.begin()
        expect("a mirror", self.mirror(), ("", 0))
        shown = self.program("show", "follower.save")
        expect("counted under the number", str(NOBODY) in shown, True)

    def test_objects_without_version_or_time_are_refused(self):
        for name, attributes, reason in [
                ("version", 'timestamp="2024-01-01T00:00:00Z" changeset="7" uid="5" user="ann" lat="2" lon="1"',
                 "version"),
                ("time", 'version="1" changeset="7" uid="5" user="ann" lat="2" lon="1"', "time")]:
            body = diff_of(f'<node id="77" {attributes}/>')
            self.server.always = {DIFF: Fault(body=body)}
            out, error, status = self.fetch(name=name)
            expect(f"{name}: {error}", (out, "sequence 9 has " in error, reason in error, "n77" in error, status),
                   ("fetched 8..8\nfetched 10..11\nnumber 11\n", True, True, True, 3))

    def test_a_blank_or_a_sign_in_a_name_is_no_field(self):
        """Names and tags that look like fields of OPL."""
        lines = 'n5 v1 dV c7 t2024-01-01T00:00:00Z i5 uc0%20%t%20%i0%20%u Tc0%20%t=i0%20%u,a=%20%c0%20%t x1 y2\n'
        self.tree.publish(9, lines, is_top=False)
        expect("fetch", self.fetch(), ("fetched 8..11\nnumber 11\n", "", 0))
        expect("changes", (self.folder() / path_of(9, "opl")).read_text(), lines)

    def test_the_order_of_a_diff_is_kept(self):
        lines = "w9 v1 dV c7 t2024-01-01T00:00:00Z i5 uann T Nn5\n" + "".join(
            f"n5 v{version} dV c7 t2024-01-01T00:00:00Z i5 uann T x1 y{version}\n" for version in (3, 1, 2))
        self.tree.publish(9, lines, is_top=False)
        expect("fetch", self.fetch(), ("fetched 8..11\nnumber 11\n", "", 0))
        expect("changes", (self.folder() / path_of(9, "opl")).read_text(), lines)

    def test_only_one_run_is_in_a_folder(self):
        self.begin()
        server = self.server
        server.faults = {DIFF: [Fault(stall=True)]}
        with self.running("fetch", *self.words, "--from", "8", stdout=subprocess.DEVNULL) as first:
            self.wait_for_request(DIFF)
            expect("a second run", self.fetch(), ("", "folder: another run is fetching into it\n", 4))
            expect("a mirror", self.mirror(), ("", 4))
            # what a killed run leaves running doesn't keep others out
            first.child.kill()
            first.child.wait()
        out, error, status = self.fetch()
        expect("after a kill", (out.splitlines()[-1], error, status), ("number 11", "", 0))
        expect("a mirror", self.mirror(), ("", 0))

    def test_what_cannot_be_written_is_named(self):
        (self.place / "file").write_text("")
        expect_fault("a file", self.fetch(name="file"), "file", ": write failed (")
        (self.folder() / "000").mkdir(parents=True)
        (self.folder() / "000/000").write_text("")
        expect_fault("a file in it", self.fetch()[1:], "folder/000/000", ": write failed (")
        with open("/dev/full", "w", encoding="ascii") as full:
            words = [self.installed.planet, "fetch", "--url", self.server.place, "--dir", "new", "--from", "8"]
            done = subprocess.run(words, cwd=self.place, stdout=full, env={"PATH": PATH}, stderr=subprocess.PIPE,
                                  text=True, check=False)
        expect(f"a full output: {done.stderr}", (done.stderr.startswith("osmrepl-planet: output: write failed"),
                                                 done.stderr.count("\n"), done.returncode), (True, 1, 3))
        expect("files", set(files_of(self.folder("new"))), numbers(8, 11) | {"state.txt"})

    def test_cookies_are_sent_and_never_kept(self):
        cookies = self.place / "cookies"
        cookies.write_text("# Netscape HTTP Cookie File\n127.0.0.1\tFALSE\t/\tFALSE\t0\tkey\tsecret\n")
        expect("cookies", self.fetch("--cookies", "cookies"), ("fetched 8..11\nnumber 11\n", "", 0))
        expect("cookies", {one.cookie for one in self.server.requests}, {"key=secret"})
        self.begin()
        self.server.paths()
        expect("mirror", self.mirror("--cookies", "cookies"), ("", 0))
        expect("source", [value for word, value in self.source() if word == "cookies"], [str(cookies)])
        for name, content in files_of(self.place).items():
            expect(f"the secret in {name}", b"secret" in content, name == "cookies")
        expect("mirror", self.mirror(), ("", 0))
        expect("cookies", {one.cookie for one in self.server.requests}, {"key=secret"})
        cookies.unlink()
        expect_fault("no cookies", self.fetch("--cookies", "cookies", name="none"), part="cookies: not there")

    def test_the_proxies_of_the_environment_are_asked(self):
        words = ["fetch", "--url", "http://diffs.example/minute", "--dir", "folder", "--from", "8", "--tries", "1"]
        shutil.move(self.tree.folder, self.place / "minute")
        self.tree.folder.mkdir()
        shutil.move(self.place / "minute", self.tree.folder / "minute")
        expect("by a proxy", self.planet(*words, http_proxy=self.server.place),
               ("fetched 8..11\nnumber 11\n", "", 0))
        expect("hosts", {one.host for one in self.server.requests}, {"diffs.example"})
        self.server.paths()
        expect_fault("by none", self.planet(*words, http_proxy=self.server.place, no_proxy="diffs.example"),
                     "http://diffs.example/minute/state.txt: ")
        expect("requests", self.server.paths(), [])

    @numbered(995, 40)
    def test_few_connections_and_one_name(self):
        expect("fetch", self.fetch(first=995), ("fetched 995..1034\nnumber 1034\n", "", 0))
        expect("files", set(files_of(self.folder())), numbers(995, 1034) | {"state.txt"})
        expect("connections", self.server.connections <= 4, True)
        agents = {one.agent for one in self.server.requests}
        version = self.planet("--version")[0].split()[1]
        expect("agents", agents, {f"osmrepl-planet/{version}"})
        asked = self.server.paths()
        expect("nothing is asked for twice", len(asked) - len(set(asked)) <= 1, True)

    def test_a_run_is_ended_by_a_signal(self):
        for number, wanted, stalls in (signal.SIGTERM, 143, path_of(10, "osc.gz")), (signal.SIGINT, 130, "state.txt"):
            self.server.always = {stalls: Fault(stall=True)}
            words = "fetch", "--url", self.server.place, "--dir", str(wanted), "--from", "8"
            self.server.paths()
            with self.running(*words, stdout=subprocess.DEVNULL, stderr=subprocess.DEVNULL,
                              start_new_session=True) as one:
                self.wait_for_request(stalls)
                one.child.send_signal(number)
                expect("status", one.child.wait(20), wanted)
                wait_until("its children end", lambda: not is_group(one.child.pid))
            expect("left behind", [name for name in self.left_behind(str(wanted)) if name != "not-before"], [])

    def test_a_signal_that_is_ignored_stays_so(self):
        """As SIGHUP is under nohup, and SIGINT in the background of a shell."""
        self.server.always = {path_of(10, "osc.gz"): Fault(stall=True)}
        words = ["bash", "-c", 'trap "" HUP INT && exec "$0" "$@"', self.installed.planet, "fetch", "--url",
                 self.server.place, "--dir", "folder", "--from", "8"]
        with Child(words, cwd=self.place, env={"PATH": PATH}, stderr=subprocess.DEVNULL) as one:
            self.wait_for_request(path_of(10, "osc.gz"))
            for number in signal.SIGHUP, signal.SIGINT, signal.SIGTERM:
                one.child.send_signal(number)
            expect("status", one.child.wait(20), 143)


def is_group(leader):
    """Whether a group of processes is still there."""
    try:
        os.killpg(leader, 0)
    except ProcessLookupError:
        return False
    return True
