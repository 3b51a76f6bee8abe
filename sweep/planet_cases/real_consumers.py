"""What osm2pgsql makes of a mirror that is handed on by the commands of docs/OPERATING.md, and killed in between: the
tables that it makes new of the last export."""

import random

from pages import TOP
from planet_place import Case, Postgres, expect, needs, number_in, numbered, run, time_text

FIRST, LAST = 8, 39
TABLES = [f"planet_osm_{name}" for name in ("point", "line", "polygon", "roads", "nodes", "ways", "rels")]
PLACES = ["", "", "", "amenity=pub,name=Zum%20%Löwen", "highway=crossing"]
ROADS = ["highway=residential,name=Gasse", "highway=primary"]
AREAS = ["building=yes", "landuse=forest"]
GROUPS = ["type=route,route=bus,ref=7", "type=multipolygon,landuse=grass", "type=site,name=Hof"]
DELETED = {"n": " x y", "w": " N", "r": " M"}


def order(key):
    return "nwr".index(key[0]), int(key[1:])


class Town:
    """Made-up objects as real ones are: what a way or a relation names is there. `lines` has what changed."""

    def __init__(self, seed):
        self.random, self.moment = random.Random(seed), ""
        # the objects that are there, each with what it names; and all versions
        self.named, self.versions, self.changed = {}, {}, {}

    def chosen(self, kind):
        """One of a kind that is there."""
        return self.random.choice([key for key in self.named if key[0] == kind])

    def write(self, key, named, tags, body, shown="V"):
        self.versions[key] = self.versions.get(key, 0) + 1
        self.named[key] = named
        head = f"{key} v{self.versions[key]} d{shown} c7 t{self.moment} i5 uann T{tags}"
        self.changed[key] = f"{head}{body}"

    def new(self, kind):
        return f"{kind}{len(self.versions) + 1}"

    def node(self, key=None, place=None):
        """A new node, or one that moves and gets other tags."""
        key = key or self.new("n")
        east, north = place or (self.random.randrange(10**6), self.random.randrange(10**6))
        self.write(key, [], self.random.choice(PLACES), f" x{8 + east / 1e7} y{47 + north / 1e7}")
        return key

    def way(self, key=None):
        """A square of new nodes, which is an area or a road."""
        east, north = self.random.randrange(10**6), self.random.randrange(10**6)
        nodes = [self.node(place=(east + x, north + y)) for x, y in ((0, 0), (500, 0), (500, 500), (0, 500))]
        tags = self.random.choice(ROADS + AREAS)
        self.write(key or self.new("w"), nodes, tags, f" N{','.join(nodes + nodes[:tags in AREAS])}")

    def relation(self, key=None):
        ways = self.random.sample([key for key in self.named if key[0] == "w"], 3)
        body = f" M{','.join(f'{way}@outer' for way in ways)}"
        self.write(key or self.new("r"), ways, self.random.choice(GROUPS), body)

    def remove(self):
        """Takes away one of the newest objects that no other one names."""
        used = {one for named in self.named.values() for one in named}
        key = self.random.choice([key for key in self.named if key not in used][-20:])
        self.write(key, [], "", DELETED[key[0]], "D")
        del self.named[key]

    def remove_unknown(self, number):
        """A deletion of each kind that nobody ever had."""
        for kind, body in DELETED.items():
            self.write(f"{kind}{number + 10**6}", [], "", body, "D")
            del self.named[f"{kind}{number + 10**6}"]

    def begin(self):
        for act in [self.node, self.way] * 25 + [self.relation] * 6:
            act()
        return self.lines()

    def change(self):
        acts = [self.node, self.node, self.way, self.relation, self.remove, self.remove,
                lambda: self.node(self.chosen("n")), lambda: self.node(self.chosen("n")),
                lambda: self.way(self.chosen("w")), lambda: self.relation(self.chosen("r"))]
        for act in self.random.choices(acts, k=8):
            act()
        return self.lines()

    def lines(self):
        lines, self.changed = self.changed, {}
        return "".join(f"{lines[key]}\n" for key in sorted(lines, key=order))


def commands():
    """The commands that the page has for osm2pgsql."""
    lines = (TOP / "docs/OPERATING.md").read_text().splitlines()
    begin = lines.index("    createdb map")
    return [line.strip() for line in lines[begin:lines.index("", begin)]]


class RealConsumers(Case):
    def setUp(self):
        super().setUp()
        town = Town(5)
        town.moment, self.tree.extract = time_text(self.tree.begin - 60), self.place / "town.opl"
        self.tree.extract.write_text(town.begin())
        for number in range(FIRST, LAST + 1):
            town.moment = time_text(self.tree.seconds_of(number))
            town.remove_unknown(number)
            self.tree.publish(number, town.change())
        self.database = self.enter(Postgres(self.place))
        self.environment = {**self.database.environment, "PGDATABASE": "postgres"}
        self.environment["PATH"] = f"{self.installed.planet.parent}:{self.database.folder}:{self.environment['PATH']}"

    def shell(self, line, **more):
        """The status of a command of the page, and what it said."""
        out, error, status = run(["sh", "-c", line], self.place, **{**self.environment, **more})
        return status, out + error

    def must(self, line):
        status, said = self.shell(line)
        expect(f"{line}: {said}", status, 0)

    def tables(self, name):
        """Of each table the number of its rows, and a sum of them with their geometry."""
        query = "SELECT count(*), md5(string_agg(t::text, ' ' ORDER BY t::text)) FROM {} t"
        return {table: self.database.ask(query.format(table), name) for table in TABLES}

    def rows(self, table, name):
        return set(self.database.ask(f"SELECT t FROM {table} t", name).splitlines())

    def cursor(self):
        return number_in(self.place / "map.txt")

    def hand_on(self, cron, chance, way, seconds):
        """The command for cron, which hands on a few numbers, by a stand-in for osm2pgsql that kills it or whoever runs
        it."""
        real = f'/usr/bin/osm2pgsql "$@" >>{self.place}/said 2>&1'
        tool = self.script("bin/osm2pgsql", {
            "killed at work": f"exec timeout -s KILL {seconds:.3f} {real}", "done": real,
            "killed after it": f"{real} && kill -9 $PPID"}[way])
        line = cron.replace("--then", f"--lot {chance.randrange(1, 7)} --then")
        return self.shell(f"exec {line}", PATH=f"{tool.parent}:{self.environment['PATH']}")[0]

    @needs("osm2pgsql", "psql", "createdb", "postgis")
    @numbered(FIRST, LAST - FIRST + 1)
    def test_osm2pgsql(self):
        chance, (*begin, cron) = random.Random(3), commands()
        self.tree.set_top(FIRST)
        expect("start", self.start("my.save")[1:], ("", 0))
        self.up_to(FIRST, save="my.save")
        for line in begin:
            self.must(line)
        self.tree.set_top(LAST)
        ended, allowed = {"killed at work": 0, "killed after it": 0, "done": 0}, {
            "killed at work": (0, 3), "killed after it": (-9,), "done": (0,)}
        while self.cursor() < LAST:
            # each way once at least
            way = next((way for way in ended if not ended[way]), chance.choice(list(ended)))
            before, seconds = self.cursor(), chance.random() / 3 if ended["killed at work"] else 0.02
            status = self.hand_on(cron, chance, way, seconds)
            expect(f"{way}, {status}", status in allowed[way], True)
            expect("the cursor moves with status 0", self.cursor() > before, status == 0)
            ended[way] += status != 0 or way == "done"
        expect("export", self.planet("export", "my.save", "new.osm.pbf"), ("", "", 0))
        for line in begin[0], begin[1], begin[3]:
            self.must(line.replace("map", "new"))
        for table in TABLES:
            found, wanted = self.rows(table, "map"), self.rows(table, "new")
            expect(f"rows of {table}", len(wanted) > 0, True)
            expect(f"{table}: rows in one alone", (sorted(found - wanted)[:3], sorted(wanted - found)[:3]), ([], []))
        expect("tables", self.tables("map"), self.tables("new"))
