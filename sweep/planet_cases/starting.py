"""start: which mirror it begins with which file, and what it refuses."""

import os
import re
import shutil

from planet_place import (NOBODY, TOP, Case, disk, expect, expect_fault, expect_started, files_of, locked, must, needs,
                          numbered, opl_of, run, time_text)
from planet_server import Fault, path_of, state_text


class Starts(Case):
    def expect_begun(self, said, save="follower.save", number=None):
        """The save is that of a begin with the same objects and state."""
        number = self.tree.first - 1 if number is None else number
        expect_started(said, number, save)
        self.program("begin", self.tree.extract, self.tree.folder / path_of(number, "state.txt"), "wanted.save")
        expect("the save", (self.place / save).read_bytes(), (self.place / "wanted.save").read_bytes())
        expect("files beside it", [name for name in os.listdir(self.place) if name.startswith(f".{save}")], [])

    def expect_refused(self, said, *parts, save="follower.save"):
        out, *fault = said
        for part in parts or ("",):
            expect_fault("refused", fault, part=part)
        expect(f"no save, {out!r}", self.made(save), [])

    def made(self, save):
        """What there is of a save, other than its lock."""
        return [name for name in os.listdir(self.place) if save in name and not name.endswith(".lock")]

    def number_words(self, number=7):
        return "--url", self.server.place, "--sequence", str(number)

    def test_from_a_header_to_the_top(self):
        said = self.start()
        expect("lines", said[0].splitlines()[:2], ["source URL", f"state 7 {time_text(self.tree.begin)}"])
        self.expect_begun(said)
        expect("source", dict(self.source())["url"], self.server.place)
        expect("mirror", self.mirror(), ("", 0))
        self.expect_result()
        expect("its form", dict(self.source())["form"], "osc.gz")
        folder = dict(self.source())["folder"]
        expect("its folder", (self.place / folder / "state.txt").exists(), True)

    def test_the_words_stay_with_the_mirror(self):
        """Neither kinds, keys, folder nor options are said again."""
        file = self.tree.pbf(self.server.place + "/")
        words = "highway", "--kinds", "w", "--dir", "numbers", "--timeout", "7", "--lag", "100000"
        expect_started(self.planet("start", file, "roads.save", *words), 7, "roads.save")
        found = self.source("roads.save")
        for pair in ("kinds", "w"), ("key", "highway"), ("folder", "numbers"), ("timeout", "7"), ("lag", "100000"):
            expect(f"{pair} in {found}", pair in found, True)
        expect("mirror", self.mirror(save="roads.save"), ("", 0))
        self.expect_result("roads.save", picked=["w/highway"])
        expect("files", (self.place / "numbers/state.txt").exists(), True)

    def test_from_each_form_by_number(self):
        forms = [".opl", ".osm.bz2", ".osm.gz", ".osm", ".pbf", ".opl.gz", ".o5m"]
        for form in forms:
            if form == ".o5m":
                if not shutil.which("osmconvert"):
                    continue
                must(["osmium", "cat", self.tree.extract, "-o", "o5m.osm"], self.place)
                must(["osmconvert", "o5m.osm", "--out-o5m", "-o=base.o5m"], self.place)
                file = self.place / "base.o5m"
            else:
                file = self.tree.convert(f"base{form}")
            save = f"of{form}.save"
            self.expect_begun(self.planet("start", file, save, *self.number_words()), save)
        expect("mirror", self.mirror(save="of.osm.bz2.save"), ("", 0))
        self.expect_result("of.osm.bz2.save")

    def test_changesets_of_a_file_are_no_objects(self):
        """As in a full file of the field, where they come first."""
        must(["osmium", "cat", self.tree.extract, "-o", "base.osm"], self.place)
        head, node, rest = (self.place / "base.osm").read_text().partition("  <node")
        set_ = '  <changeset id="7" created_at="2024-01-01T00:00:00Z" open="false" user="ann" uid="5"/>\n'
        (self.place / "sets.osm").write_text(head + set_ + node + rest)
        expect("osmium reads them", must(["osmium", "cat", "sets.osm", "-f", "opl"], self.place)[:3], "c7 ")
        self.expect_begun(self.planet("start", "sets.osm", "follower.save", *self.number_words()))

    @needs("osmconvert")
    def test_an_o5m_file_that_osmium_misreads(self):
        """One with a role of 250 bytes, which osmium alone has in its table of strings. The file of the way out is
        read right. A long text that isn't 250 bytes is no role of them."""
        meta = "v1 dV c7 t2024-01-01T00:00:00Z"
        for size in 249, 250, 251:
            text = (f"n1 {meta} i5 uann Tnote=1{'x' * (size + 2)} x1 y2\nr1 {meta} i5 uann Tname=North Mn1@a\n"
                    f"r2 {meta} i6 ubob Tname=South Mn1@b\nr3 {meta} i5 uann T Mn1@{'x' * size}\n"
                    f"r4 {meta} i5 uann Tname=North Mn1@a\n")
            self.tree.extract.write_text(text)
            self.program("begin", self.tree.extract, self.tree.state, "own.save")
            self.program("export", "own.save", "base.o5m")
            found = self.planet("start", "base.o5m", f"{size}.save", *self.number_words())
            if size == 250:
                self.expect_refused(found, "base.o5m: a role of 250 bytes, at which osmium misreads this form; ",
                                    "osmconvert base.o5m -o=FILE.osm.pbf makes a file that it reads\n", save="250.save")
                must(["osmconvert", "base.o5m", "-o=base.osm.pbf"], self.place)
                found = self.planet("start", "base.osm.pbf", "250.save", *self.number_words())
            self.expect_begun(found, f"{size}.save")

    @numbered(100, 80)
    def test_the_number_is_found_by_time(self):
        """From a header's time its number, and from the newest object's the one an hour before."""
        url = self.server.place
        file = self.tree.pbf(url, "timed.osm.pbf", number="", seconds=self.tree.begin)
        self.expect_begun(self.planet("start", file, "timed.save", "--url", url), "timed.save")
        # the objects after number 170, without a header
        must(["osmium", "apply-changes", "--no-progress", self.tree.extract, *self.tree.diffs()[:71],
              "-o", "later.opl"], self.place)
        expect("start", self.planet("start", "later.opl", "later.save", "--url", url)[1:], ("", 0))
        begun = self.number("later.save")
        expect(f"an hour before 170, {begun}", 105 <= begun <= 111, True)
        expect("mirror", self.mirror(save="later.save"), ("", 0))
        self.expect_result("later.save")

    def test_a_server_that_begins_too_late_is_refused(self):
        for name, file in ("header", self.tree.pbf(self.server.place, "early.osm.pbf", number="",
                                                   seconds=self.tree.begin - 86400)), ("object", self.tree.extract):
            self.expect_refused(self.planet("start", file, f"{name}.save", "--url", self.server.place),
                                f"URL: goes back to {time_text(self.tree.begin)} only; take a newer extract",
                                save=f"{name}.save")

    def test_a_number_after_the_time_of_the_header_is_refused(self):
        file = self.tree.pbf(self.server.place, "timed.osm.pbf", number="")
        self.expect_refused(self.planet("start", file, "late.save", *self.number_words(9)), "9", save="late.save")
        self.expect_begun(self.planet("start", file, "right.save", *self.number_words(7)), "right.save")
        # the header itself says a number that is after its time
        file = self.tree.pbf(self.server.place, "wrong.osm.pbf", number=9)
        self.expect_refused(self.planet("start", file, "wrong.save"), "9", save="wrong.save")
        # without a time one line says that nothing was compared
        out, error, status = self.planet("start", self.tree.extract, "bare.save", *self.number_words(9))
        expect(f"start: {error}", (error, status), ("", 0))
        expect(f"a line in {out}", [line for line in out.splitlines() if "compared" in line] != [], True)
        expect("the others", "compared" in self.planet("start", file, "right.save", *self.number_words(7))[0], False)

    def test_a_number_that_the_server_lacks_is_refused(self):
        self.expect_refused(self.planet("start", self.tree.extract, "a.save", *self.number_words(6)),
                            f"URL/{path_of(6, 'state.txt')}: not there", save="a.save")
        self.server.always = {path_of(7, "state.txt"): Fault(body=state_text(8, self.tree.begin).encode())}
        self.expect_refused(self.planet("start", self.tree.extract, "a.save", *self.number_words(), "--tries", "1"),
                            f"URL/{path_of(7, 'state.txt')}: doesn't name 7", save="a.save")

    def test_a_file_without_a_server_needs_a_url(self):
        for more in [], ["--sequence", "7"]:
            done = self.planet("start", self.tree.extract, "a.save", *more)
            expect_fault(f"{more}", done, part="--url", status=(2, 3))
            expect("no save", self.made("a.save"), [])

    def without(self, name, *attributes):
        """The extract without some of the metadata."""
        kept = [one for one in ("version", "timestamp", "changeset", "uid", "user") if one not in attributes]
        form = name.split(".", 1)[1].replace("osm.", "")
        return self.tree.convert(name, "-f", f"{form},add_metadata={'+'.join(kept)}")

    def test_a_file_without_times_or_versions_is_refused(self):
        first = self.tree.extract.read_text().split(" ", 1)[0]
        for name, attribute in ("bare.osm.pbf", "timestamp"), ("bare.osm", "version"):
            file = self.without(name, attribute)
            said = self.planet("start", file, "a.save", *self.number_words())
            self.expect_refused(said, first, "time" if attribute == "timestamp" else "version", save="a.save")
        file = self.without("timeless.osm.pbf", "timestamp")
        said = self.planet("start", file, "b.save", "--url", self.server.place)
        self.expect_refused(said, "time", save="b.save")

    def test_objects_without_authors_get_a_number(self):
        count = len(self.tree.extract.read_text().splitlines())
        file = self.without("bare.osm.pbf", "changeset", "uid", "user")
        out, error, status = self.planet("start", file, "bare.save", *self.number_words())
        expect(f"start: {error}", (error, status), ("", 0))
        expect(f"counts in {out}", f"without user {count}, without changeset {count}" in out, True)
        self.program("export", "bare.save", "bare.opl")
        fields = {tuple(line.split(" ")[place] for place in (3, 5, 6))
                  for line in (self.place / "bare.opl").read_text().splitlines()}
        expect("fields", fields, {(f"c{NOBODY}", f"i{NOBODY}", "u")})
        expect("mirror", self.mirror(save="bare.save"), ("", 0))
        self.expect_refused(self.planet("start", file, "strict.save", *self.number_words(), "--strict"),
                            save="strict.save")

    def test_one_object_without_an_author_gets_a_number(self):
        """As in an extract of 2013, with one anonymous object among many."""
        lines = self.tree.extract.read_text().splitlines(True)
        name = lines[3].split(" ")[6]
        lines[3] = re.sub(r" c[0-9]+ (t[^ ]*) i[0-9]+ u[^ ]* ", r" c77 \1 i0 u ", lines[3])
        self.tree.extract.write_text("".join(lines))
        file = self.tree.convert("one.osm.bz2")
        out, error, status = self.planet("start", file, "one.save", *self.number_words())
        expect(f"start: {error}", ("without user 1, without changeset 0" in out, error, status), (True, "", 0))
        self.program("export", "one.save", "one.opl")
        found = (self.place / "one.opl").read_text().splitlines()[3].split(" ")
        expect(f"once {name}", found[3:4] + found[5:7], ["c77", f"i{NOBODY}", "u"])

    def test_what_no_mirror_begins_with_is_refused_with_the_command_that_mends_it(self):
        lines = self.tree.extract.read_text().splitlines(True)
        key = lines[5].split(" ")[0]
        for name, text, part in [
                ("two versions", "".join(lines[:5]) + lines[5].replace(" v", " v9", 1) + "".join(lines[5:]),
                 "osmium time-filter"),
                ("a deletion", "".join(lines[:5]) + f"{key} v99 dD c7 t2024-01-01T00:00:00Z i5 uann T x y\n"
                 + "".join(lines[6:]), "osmium time-filter"),
                ("unsorted", "".join(lines[:4] + [lines[5], lines[4]] + lines[6:]), "osmium sort")]:
            file = self.place / f"{name}.opl"
            file.write_text(text)
            pbf = self.place / f"{name}.osm.pbf"
            must(["osmium", "cat", "--no-progress", file, "-o", pbf,
                  *(["-f", "pbf,history=true"] if part != "osmium sort" else [])])
            for one in file, pbf:
                save = f"{one.name}.save"
                self.expect_refused(self.planet("start", one, save, *self.number_words()), part, str(one), save=save)

    def test_the_commands_that_are_said_run_as_they_are(self):
        """Also with names that have blanks or begin with `-`."""
        text = self.tree.extract.read_text()
        first, second, rest = text.split("\n", 2)
        for name, part, unsorted in (("my rev.opl", "osmium sort", True), ("-rev.opl", "osmium sort", True),
                                     ("my two.opl", "osmium time-filter", False),
                                     ("-two.opl", "osmium time-filter", False)):
            lines = [second, first] if unsorted else [first, first.replace(" v", " v9", 1), second]
            (self.place / name).write_text("\n".join([*lines, rest]))
            out, error, status = self.planet("start", f"./{name}", "a.save", *self.number_words())
            command = re.search(rf"{part} .* -o (\w+.osm.pbf)", error)
            expect(f"{name}: {error}", (out, command is not None, status), ("", True, 3))
            must(["bash", "-c", command[0]], self.place)
            out, error, status = self.planet("start", command[1], f"./{name}.save", *self.number_words())
            expect(f"{name}: {error}", (error, status), ("", 0))
            next_ = out.splitlines()[-1].removeprefix("next: ")
            must(["bash", "-c", f'osmrepl-planet() {{ "$0" "$@"; }}; {next_}', self.installed.planet], self.place)
            (self.place / f"{name}.save.source").unlink()
            out, error, status = self.planet("sqlite", f"./{name}.save", "a.db")
            said = re.search(r"osmrepl-planet (mirror .*) --url", error)
            expect(f"{name}: {error}", said and said[1], next_.removeprefix("osmrepl-planet "))
            (self.place / command[1]).unlink()

    def test_places_on_ways_are_dropped_and_said(self):
        must(["osmium", "add-locations-to-ways", "-n", "--ignore-missing-nodes", "--no-progress", self.tree.extract,
              "-o", "placed.osm.pbf"], self.place)
        said = self.planet("start", "placed.osm.pbf", "placed.save", *self.number_words())
        expect(f"a line in {said[0]}", "location" in said[0].lower(), True)
        self.expect_begun(said, "placed.save")

    def test_files_that_cannot_be_read_are_named(self):
        whole = self.tree.pbf(self.server.place)
        cut, page = self.place / "cut.osm.pbf", self.place / "page.osm.pbf"
        cut.write_bytes(whole.read_bytes()[:-200])
        page.write_text("<html>Please log in</html>\n")
        (self.place / "folder.osm.pbf").mkdir()
        (self.place / "base.csv").write_text("a,b\n")
        for name in "none.osm.pbf", "cut.osm.pbf", "page.osm.pbf", "folder.osm.pbf", "base.csv":
            done = self.planet("start", name, "a.save", *self.number_words())
            expect_fault(name, done[1:], f"{name}: ", status=(2, 3))
            expect("no save", self.made("a.save"), [])
        done = self.planet("start", self.tree.extract, "none/a.save", *self.number_words())
        expect_fault("no folder", done[1:], "none")

    def test_a_save_that_is_locked_is_left(self):
        self.begin()
        before = (self.place / "follower.save").read_bytes()
        with locked(self.place / "follower.save.lock"):
            expect_fault("start", self.start(), part="in use", status=4)
        expect("the save", (self.place / "follower.save").read_bytes(), before)
        expect("no source", (self.place / "follower.save.source").exists(), False)

    def test_a_save_that_is_a_link_has_its_source_where_it_leads(self):
        (self.place / "far").mkdir()
        (self.place / "follower.save").symlink_to("far/real.save")
        expect("start", self.start()[1:], ("", 0))
        expect("files", {"far/real.save", "far/real.save.source"} <= set(files_of(self.place)), True)
        expect("a link", (self.place / "follower.save").is_symlink(), True)
        for name in "follower.save", "far/real.save":
            expect("mirror", self.planet("mirror", name), ("", "", 0))
        self.expect_result()

    def test_nothing_is_written_elsewhere(self):
        """Only beside SAVE, in DIR, and beside what is handed on: not where a run is started, nor where others put
        temporary files."""
        empty, there = self.place / "empty", self.place / "there"
        for name in "cwd", "tmp", "home":
            (empty / name).mkdir(parents=True)
        there.mkdir()
        environment = {"TMPDIR": str(empty / "tmp"), "HOME": str(empty / "home")}
        (there / "changes.osc").write_text((TOP / "examples/diff.osc").read_text())
        before = files_of(self.tree.place)
        file = self.tree.pbf(self.server.place)
        for words in (["start", file, there / "own.save"], ["mirror", there / "own.save"],
                      ["export", there / "own.save", there / "out.osm.pbf"],
                      ["publish", there / "shared", there / "changes.osc"],
                      ["fetch", "--url", self.server.place, "--dir", there / "folder", "--from", "8"]):
            out, error, status = run([self.installed.planet, *words], empty / "cwd", **environment)
            expect(f"{words[0]}: {error}", status, 0)
        expect("elsewhere", [one for one in empty.rglob("*") if one.is_file()], [])
        expect("the server's files", {name: files_of(self.tree.place).get(name) for name in before}, before)
        expect("what is there", {name.split("/")[0] for name in files_of(there)}, {
            "own.save", "own.save.lock", "own.save.runs", "own.save.source", "own.save.diffs", "out.osm.pbf", "shared",
            "folder"})

    def test_odd_files_are_refused_in_one_line(self):
        """Folders, devices, empty files and bytes that are no text where a word wants a file or a folder."""
        self.start()
        (self.place / "folder").mkdir()
        (self.place / "empty.save").write_text("")
        (self.place / "bytes.save").write_bytes(bytes(range(256)) * 100)
        (self.place / "empty.osm.pbf").write_text("")
        (self.place / "file").write_text("")
        (self.place / "bytes.osc").write_bytes(bytes(range(256)) * 100)
        (self.place / "loop.save").symlink_to("loop.save")
        url = "--url", self.server.place
        for words in (["mirror", "folder", *url], ["mirror", "empty.save", *url], ["mirror", "bytes.save", *url],
                      ["mirror", "loop.save", *url], ["mirror", "/dev/null", *url], ["mirror", "follower.save/a", *url],
                      ["mirror", "follower.save", "--dir", "file"], ["mirror", "follower.save", "--dir", "/dev/null"],
                      ["start", "folder", "a.save", *url], ["start", "/dev/null", "a.save", *url],
                      ["start", "empty.osm.pbf", "a.save", *url], ["start", self.tree.extract, "folder", *url],
                      ["start", self.tree.extract, "loop.save", *url, "--sequence", "7"],
                      ["start", self.tree.extract, "file/a.save", *url, "--sequence", "7"],
                      ["publish", "file", "bytes.osc"], ["publish", "shared", "folder"],
                      ["publish", "shared", "bytes.osc"], ["publish", "shared", "/dev/null"],
                      ["publish", "/dev/null/shared", "bytes.osc"], ["export", "folder", "out.opl"],
                      ["export", "bytes.save", "out.opl"], ["export", "follower.save", "folder"],
                      ["export", "follower.save", "/dev/full"], ["export", "follower.save", "file/out.opl"],
                      ["fetch", *url, "--dir", "file", "--from", "8"], ["fetch", "folder"], ["fetch", "bytes.save"]):
            expect_fault(f"{words}", self.planet(*words)[1:], status=(2, 3))
        expect("mirror", self.mirror(), ("", 0))
        self.expect_result()

    def test_a_folder_without_a_name_is_no_file(self):
        """Nothing can lie beside it."""
        self.start()
        (self.place / "top").symlink_to("/")
        before, url = set(files_of(self.place)), ["--url", self.server.place]
        for words in (["start", self.tree.pbf(self.server.place), "@"], ["fetch", "@", *url], ["mirror", "@", *url],
                      ["status", "@"], ["sqlite", "follower.save", "@"], ["sqlite", "@", "a.db"],
                      ["hand-on", "follower.save", "@", "--", "true"], ["hand-on", "@", "a", "--lots", "a"],
                      ["hand-on", "follower.save", "@", "--start", "a.opl"], ["publish", "a", "@"],
                      ["status", "follower.save", "--html", "@"],
                      ["mirror", "follower.save", "--then", "@", "--", "true"]):
            # a link is no file of changes in any case
            for path in (".", "/") if words[0] == "publish" else (".", "/", "top"):
                found = [path if word == "@" else word for word in words]
                expect(found, self.planet(*found), ("", f"{path}: a folder\n", 3))
        new = {name for name in set(files_of(self.place)) - before if "follower.save." not in name}
        expect("files", new, {"a.db.state.txt.lock", "a.lock"})

    def test_another_begin_takes_the_place_of_the_first(self):
        self.start()
        expect("mirror", self.mirror(), ("", 0))
        self.expect_begun(self.start())
        expect("mirror", self.mirror(), ("", 0))
        self.expect_result()

    @needs("root")
    def test_a_full_disk(self):
        """Of each size: what is converted, SAVE or its source has no room, and only what was there is left."""
        file, failed = self.tree.pbf(self.server.place), 0
        for pages in range(1, 20):
            with disk(self.place / "disk", 4 * pages) as small:
                _, error, status = self.planet("start", file, "disk/a.save")
                if status == 0:
                    break
                failed += 1
                for part in "write failed", "o space left":
                    expect_fault("start", (error, status), part=part)
                left = {name for name in files_of(small) if not name.endswith(".lock")}
                expect("files", left in (set(), {"a.save"}), True)
                expect("rooms", [name for name in os.listdir(small) if name.startswith(".a.save.start")], [])
        expect(f"sizes, {failed}, {error}", (failed >= 3, status), (True, 0))

    def test_what_a_killed_start_left_is_removed_by_the_next(self):
        room = self.place / ".follower.save.start.abcdefgh"
        room.mkdir()
        (room / "objects.opl").write_text("a")
        other = self.place / ".other.save.start.abcdefgh"
        other.mkdir()
        self.expect_begun(self.start())
        expect("another's room", other.exists(), True)

    def test_the_extract_and_the_diffs_of_the_examples(self):
        """Begun with the extract, mirrored to the top, and equal to what osmium makes of the same files."""
        examples, numbers = TOP / "examples", [8, 9, 10]
        shutil.rmtree(self.tree.folder)
        shutil.copytree(examples / "server", self.tree.folder)
        shutil.copy(examples / "server/state-of-extract.txt", self.tree.folder / path_of(7, "state.txt"))
        for number in numbers:
            diff = self.tree.folder / path_of(number, "opl")
            must(["osmium", "cat", diff, "-o", diff.with_suffix(".osc.gz")])
            diff.unlink()
            diff.with_suffix(".o5c").unlink()
        must(["osmium", "cat", examples / "extract.osm", "-o", "extract.osm.pbf",
              f"--output-header=osmosis_replication_base_url={self.server.place}",
              "--output-header=osmosis_replication_sequence_number=7",
              "--output-header=osmosis_replication_timestamp=2024-01-01T07:00:00Z"], self.place)
        expect_started(self.planet("start", "extract.osm.pbf", "real.save"), 7, "real.save")
        expect("mirror", self.mirror("--lag", "999999999", save="real.save"), ("", 0))
        self.program("export", "real.save", "real.opl")
        wanted = must(["osmium", "apply-changes", "--no-progress", "-f", "opl", examples / "extract.osm",
                       *(self.tree.folder / path_of(number, "osc.gz") for number in numbers)])
        expect("objects", opl_of(self.place / "real.opl"), wanted)
