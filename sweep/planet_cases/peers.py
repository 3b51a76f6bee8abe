"""A folder that was published here is followed over nginx, by us and by the programs of the field: each reaches the
top, with the objects that osmium makes of the same changes."""

from planet_place import NOBODY, Case, Nginx, Postgres, expect, must, needs, opl_of, run, time_text
from planet_server import path_of

LINES = """\
n1 v1 dV c7 t{0} i5 uann T x8.25 y47.5
n2 v1 dV c7 t{0} i5 uann Tname=Br%fc%cke x8.251 y47.501
n3 v1 dV c7 t{0} i6 ubob T x8.252 y47.502
w10 v1 dV c7 t{0} i5 uann Thighway=footway Nn1,n2,n3
""", """\
n2 v2 dV c8 t{0} i6 ubob Tname=Old%20%Bridge,bridge=yes x8.2512 y47.501
n4 v1 dV c2147483647 t{0} i2147483647 u T x8.253 y47.503
r20 v1 dV c8 t{0} i6 ubob Ttype=route Mw10@,n1@stop
""", "", """\
n1 v2 dD c9 t{0} i5 uann T x y
n3 v2 dV c9 t{0} i5 uann T x8.2522 y47.502
w10 v2 dV c9 t{0} i5 uann Thighway=path Nn2,n3,n4
"""
FIRST, LAST = 1, len(LINES)


class Peers(Case):
    """The folder has four numbers, with an object of nobody, and one number without changes."""

    def setUp(self):
        super().setUp()
        for number, lines in enumerate(LINES, FIRST):
            text = lines.format(time_text(self.tree.begin + 60 * number))
            (self.place / f"{number}.opl").write_text(text)
            (self.place / "next.opl").write_text(text)
            # osmosis goes by times, and doesn't ask for a last number whose time is that of the one before
            moment = time_text(self.tree.begin + 60 * number)
            expect(f"publish {number}", self.planet("publish", "folder", "next.opl", "--now", moment)[1:], ("", 0))
        self.folder = self.place / "folder"
        self.nginx = self.enter(Nginx(self.place / "nginx", self.folder))
        self.states = [(self.folder / path_of(number, "state.txt")).read_text() for number in range(FIRST, LAST + 1)]

    def base(self):
        """A data file of the first number, which says where it goes on."""
        moment = [line for line in self.states[0].splitlines() if line.startswith("timestamp=")][0]
        header = {"base_url": self.nginx.place, "sequence_number": FIRST,
                  "timestamp": moment.removeprefix("timestamp=").replace("\\", "")}
        words = [f"--output-header=osmosis_replication_{key}={value}" for key, value in header.items()]
        must(["osmium", "cat", "-O", "1.opl", "-o", "base.osm.pbf", *words], self.place)
        return self.place / "base.osm.pbf"

    def wanted(self):
        """Of each object that there is in the end, its last line, with an author or without."""
        last = {line.split(" ")[0]: line for lines in LINES for line in lines.splitlines()}
        return [line.format(*[time_text(self.tree.begin + 60 * number)]) for number, lines in enumerate(LINES, FIRST)
                for line in lines.splitlines() if last[line.split(" ")[0]] == line and " dV " in line]

    def expect_objects(self, file, is_named=False):
        wanted = sorted(self.wanted())
        if not is_named:
            wanted = [line.replace(f" c{NOBODY} ", " c0 ").replace(f" i{NOBODY} ", " i0 ") for line in wanted]
        expect("objects", sorted(opl_of(self.place / file).splitlines()), wanted)

    @needs("nginx")
    def test_a_mirror_of_ours(self):
        self.base()
        expect("start", self.planet("start", "base.osm.pbf", "own.save")[1:], ("", 0))
        expect("mirror", self.planet("mirror", "own.save")[1:], ("", 0))
        self.program("export", "own.save", "own.opl")
        self.expect_objects("own.opl", is_named=True)

    @needs("nginx", "pyosmium-get-changes")
    def test_pyosmium_get_changes(self):
        out, error, status = run(["pyosmium-get-changes", "--server", self.nginx.place, "-I", str(FIRST), "-o",
                                  "got.osc.gz", "--no-deduplicate"], self.place)
        expect("get-changes", (out, error, status), (f"{LAST}\n", "", 0))
        found = opl_of(self.place / "got.osc.gz")
        lines = [line for number in range(FIRST + 1, LAST + 1)
                 for line in (self.place / f"{number}.opl").read_text().splitlines()]
        expect("changes", sorted(line.replace(" c0 ", f" c{NOBODY} ").replace(" i0 ", f" i{NOBODY} ")
                                 for line in found.splitlines()), sorted(lines))

    @needs("nginx", "pyosmium-up-to-date")
    def test_pyosmium_up_to_date(self):
        file = self.base()
        expect("up-to-date", run(["pyosmium-up-to-date", file], self.place), ("", "", 0))
        key = "header.option.osmosis_replication_sequence_number"
        expect("number", must(["osmium", "fileinfo", "-g", key, file]), f"{LAST}\n")
        self.expect_objects(file)

    @needs("nginx", "osmosis")
    def test_osmosis(self):
        self.base()
        work = self.place / "osmosis"
        work.mkdir()
        must(["osmosis", "-q", "--read-replication-interval-init", f"workingDirectory={work}"], HOME=str(self.place))
        (work / "configuration.txt").write_text(f"baseUrl={self.nginx.place}\nmaxInterval = 0\n")
        (work / "state.txt").write_text(self.states[0])
        must(["osmosis", "-q", "--read-replication-interval", f"workingDirectory={work}", "--simplify-change",
              "--write-xml-change", "file=got.osc"], self.place, HOME=str(self.place))
        state = dict(line.split("=") for line in (work / "state.txt").read_text().splitlines() if "=" in line)
        expect("number", state["sequenceNumber"], str(LAST))
        found = opl_of(self.place / "got.osc")
        must(["osmium", "apply-changes", "base.osm.pbf", "got.osc", "-o", "got.opl"], self.place)
        expect("a deletion", [line.split(" ")[:3] for line in found.splitlines() if " dD " in line],
               [["n1", "v2", "dD"]])
        self.expect_objects("got.opl")

    @needs("nginx", "osm2pgsql", "osm2pgsql-replication", "postgis")
    def test_osm2pgsql_replication(self):
        file = self.base()
        database = self.enter(Postgres(self.place))

        def tool(*words):
            out, error, status = run(words, self.place, **database.environment)
            expect(f"{words}: {out}{error}", status, 0)
            return out

        tool("osm2pgsql", "--slim", "-x", "-d", "osm", file)
        tool("osm2pgsql-replication", "init", "-d", "osm", "--osm-file", file)
        tool("osm2pgsql-replication", "update", "-d", "osm", "--", "-x")
        said = tool("osm2pgsql-replication", "status", "-d", "osm", "--json")
        expect(f"number in {said}", f'"local": {{"sequence": {LAST},' in said, True)
        found = database.ask("SELECT 'n' || id FROM planet_osm_nodes UNION SELECT 'w' || id FROM planet_osm_ways "
                             "UNION SELECT 'r' || id FROM planet_osm_rels")
        expect("objects", set(found.splitlines()), {line.split(" ")[0] for line in self.wanted()})
        expect("nodes of the way", database.ask("SELECT nodes FROM planet_osm_ways WHERE id = 10"), "{2,3,4}\n")
        expect("place of a node", database.ask("SELECT lon, lat FROM planet_osm_nodes WHERE id = 2"),
               "82512000|475010000\n")
