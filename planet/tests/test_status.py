"""SAVE.runs and what is known of a mirror: lines, rotation, gaps and faults, counts of a save, metrics, the page."""

import json
import re
import sys
import tempfile
import unittest
from dataclasses import replace
from datetime import datetime, timedelta, timezone
from html.parser import HTMLParser
from pathlib import Path
from unittest import mock

sys.path.insert(0, str(Path(__file__).resolve().parent.parent))

from osmrepl_planet import chart, history, known, metrics, page, runs, save, source, state, status  # noqa: E402
from osmrepl_planet.faults import Fault  # noqa: E402
from osmrepl_planet.known import Cursor, Status  # noqa: E402
from osmrepl_planet.runs import Run  # noqa: E402

MOMENT = datetime(2024, 1, 1, 2, 3, 4, tzinfo=timezone.utc)
FULL = Run(MOMENT, 1.25, 8, 9, 9, MOMENT - timedelta(seconds=61), 61, 3600, 11, 3, "URL: \"no\" \x1b é", 7, 2)
HEAD = b"osmrepl-save 3\nbase 7\nkinds nwr\nkeys 0\nsequence 8\ntime 2024-01-01T02:00:04Z\nobjects 1\n"
SAVE = HEAD + b"n1 v1 dV c1 t2024-01-01T00:00:00Z i1 uann T x1 y1\nusers 2\n1 5\n7 40\nchangesets 1\n1 45\nend\n"


class InFolder(unittest.TestCase):
    def setUp(self):
        folder = tempfile.TemporaryDirectory()
        self.addCleanup(folder.cleanup)
        self.save = Path(folder.name) / "a.save"
        self.file = Path(folder.name) / "a.save.runs"


def minute(later, **more):
    return Run(MOMENT + timedelta(minutes=later), 1.5, **more)


class Runs(InFolder):
    def limits(self, most, kept, tail=1 << 16):
        for name, value in (("MOST", most), ("KEPT", kept), ("LEAST_LINE", 1), ("TAIL", tail)):
            patch = mock.patch.object(runs, name, value)
            patch.start()
            self.addCleanup(patch.stop)

    def test_what_is_written_is_read(self):
        for run in FULL, Run(MOMENT, 0.0), replace(FULL, time=None, lag=None, number=0):
            self.assertEqual(runs.read_line(run.line), run)
            self.assertGreaterEqual(len(run.line), runs.LEAST_LINE)

    def test_what_is_no_line(self):
        line = FULL.line.rstrip(b"\n")
        for size in range(len(line)):
            self.assertIsNone(runs.read_line(line[:size]), line[:size])
        values = json.loads(line)
        for word, value in (("at", "noon"), ("at", None), ("at", 5), ("seconds", "1"), ("seconds", float("nan")),
                            ("seconds", -1), ("seconds", float("inf")), ("first", -1), ("last", 1.5), ("runs", True),
                            ("runs", None), ("number", 1 << 60), ("fault", 5), ("time", 7), ("more", 1)):
            self.assertIsNone(runs.read_line(json.dumps({**values, word: value}).encode()), word)
        for text in (b"", b"null", b"[]", b"7", b"\xff", b"\0" * 99, b"[" * 100_000):
            self.assertIsNone(runs.read_line(text))

    def test_lines_are_added_and_counted(self):
        for number in range(5):
            runs.append(self.save, minute(number, fault="no" if number % 2 else None))
        found = runs.read(self.save)
        self.assertEqual([(run.runs, run.faults) for run in found], [(1, 0), (2, 1), (3, 1), (4, 2), (5, 2)])
        self.assertEqual(runs.read(self.save, MOMENT + timedelta(minutes=3)), found[3:])
        self.assertEqual(runs.read(self.save, MOMENT + timedelta(days=3)), found[-1:])
        self.assertEqual(runs.read(self.save.with_name("none")), [])

    def test_a_long_fault_is_cut(self):
        runs.append(self.save, minute(1, fault="é" * 5000))
        self.assertEqual(runs.read(self.save)[0].fault, "é" * runs.MOST_FAULT)

    def test_a_line_that_was_cut_is_left_out_and_harms_no_other(self):
        runs.append(self.save, minute(1))
        whole = self.file.read_bytes()
        for size in range(len(whole) + 1):
            self.file.write_bytes(whole + whole[:size])
            runs.append(self.save, minute(2))
            found = runs.read(self.save)
            # without its line feed alone a line is whole
            is_whole = size >= len(whole) - 1
            self.assertEqual([run.at.minute for run in found], [4, 4, 5] if is_whole else [4, 5], size)
            self.assertEqual(found[-1].runs, 2)

    def test_it_is_found_in_the_end_of_a_long_file(self):
        self.limits(10_000, 5000, tail=300)
        self.file.write_bytes(b"".join(minute(number, runs=number + 1).line for number in range(1500)))
        for since in 0, 1, 700, 1498, 1499:
            found = runs.read(self.save, MOMENT + timedelta(minutes=since))
            self.assertEqual([run.runs for run in found], list(range(since + 1, 1501)))

    def test_it_never_has_more_lines_than_it_may(self):
        self.limits(20, 15)
        for number in range(1, 60):
            runs.append(self.save, minute(number))
            lines = self.file.read_bytes().splitlines()
            self.assertLessEqual(len(lines), 20)
            found = [run.runs for run in runs.read(self.save)]
            self.assertEqual(found, list(range(number + 1 - len(lines), number + 1)))
            self.assertGreaterEqual(len(lines), min(number, 15))

    def test_the_limit_of_the_program(self):
        lines = [b"%s\n" % (b"x" * 120)] * (runs.MOST - 1)
        self.file.write_bytes(b"".join(lines) + b"torn")
        runs.append(self.save, minute(1))
        self.assertEqual(self.file.read_bytes().count(b"\n"), runs.KEPT)
        self.assertEqual([run.runs for run in runs.read(self.save)], [1])

    def test_a_file_that_cannot_be_written(self):
        self.file.mkdir()
        with self.assertRaisesRegex(Fault, "a.save.runs: write failed \\(is a directory\\)"):
            runs.append(self.save, minute(1))
        self.assertEqual(runs.read(self.save), [])
        self.file.rmdir()
        self.file.symlink_to("/dev/full")
        with self.assertRaisesRegex(Fault, "a.save.runs: write failed \\(no space left on device\\)"):
            runs.append(self.save, minute(1))


class Histories(unittest.TestCase):
    def found(self, *many, now=0):
        return history.history_of(list(many), MOMENT + timedelta(minutes=now))

    def test_gaps(self):
        self.assertEqual(self.found().gaps, [])
        found = self.found(*map(minute, (0, 1, 2, 9, 10)), now=12)
        self.assertEqual([len(part) for part in found.parts], [3, 2])
        self.assertEqual([(gap.begin, gap.end) for gap in found.gaps],
                         [(minute(2).at.timestamp() + 1.5, minute(9).at.timestamp())])
        self.assertFalse(found.is_quiet)
        self.assertEqual(len(self.found(*map(minute, (0, 1, 2)), now=30).gaps), 1)
        self.assertTrue(self.found(*map(minute, (0, 1, 2)), now=30).is_quiet)

    def test_runs_each_hour_and_a_long_one_are_no_gaps(self):
        self.assertEqual(self.found(*(minute(60 * hour) for hour in range(9)), now=600).gaps, [])
        self.assertEqual(self.found(minute(0), minute(1), replace(minute(2), seconds=900), minute(17), now=18).gaps, [])

    def test_faults_that_stay_are_one(self):
        found = self.found(*(minute(number, fault=fault) for number, fault in enumerate(
            [None, "a", "a", "b", None, "b"])), now=6).faults
        self.assertEqual([(fault.fault, fault.runs) for fault in found], [("a", 2), ("b", 1), ("b", 1)])
        self.assertEqual(found[0].end - found[0].begin, 61.5)


class Saves(InFolder):
    def test_what_a_save_holds(self):
        self.save.write_bytes(SAVE)
        found = save.holding_of(self.save)
        self.assertEqual((found.saved, found.position.base, found.objects, found.edits), (8, 7, 1, 45))
        self.assertEqual((found.journal, found.waiting, found.other), (0, 0, None))

    def test_a_journal_of_its_own_and_of_another_save(self):
        self.save.write_bytes(SAVE)
        journal = self.save.with_name("a.save.journal")
        rest = b"sequence 12\ntime 2024-01-01T02:02:03Z\nbatches 4\n"
        journal.write_bytes(b"osmrepl-journal 1\n" + HEAD + rest)
        found = save.holding_of(self.save)
        self.assertEqual((found.position.number, found.saved, found.waiting, found.journal, found.other),
                         (12, 8, 4, journal.stat().st_size, None))
        other = HEAD.replace(b"base 7", b"base 6")
        for end, wanted in ((b"12", 12), (b"8", None)):
            journal.write_bytes(b"osmrepl-journal 1\n" + other + rest.replace(b"12", end, 1))
            found = save.holding_of(self.save)
            self.assertEqual((found.position.number, found.journal, found.other), (8, 0, wanted))
        for text in b"", b"something", b"osmrepl-journal 1\n":
            journal.write_bytes(text)
            self.assertEqual(save.holding_of(self.save).other, None)

    def test_a_merge_between_the_two_reads_gives_no_old_number(self):
        """The save has the numbers of its journal then, and another journal is beside it."""
        journal = self.save.with_name("a.save.journal")

        def journal_of(number, head):
            return b"osmrepl-journal 1\n" + head + b"sequence %d\ntime 2024-01-01T02:02:03Z\nbatches 1\n" % number

        def put(*contents):
            for file, content in zip((self.save, journal), contents):
                new = file.with_name("new")
                new.write_bytes(content)
                new.replace(file)

        merged = SAVE.replace(b"sequence 8", b"sequence 9")
        for read in (lambda: save.position_of(self.save)), (lambda: save.holding_of(self.save).position):
            put(SAVE, journal_of(9, HEAD))
            merge = [lambda: None, lambda: put(merged, journal_of(10, HEAD.replace(b"sequence 8", b"sequence 9")))]

            def opened(*words):
                merge.pop(0)()
                return open(*words)

            with mock.patch.object(save, "open", opened, create=True):
                self.assertEqual(read().number, 9)

    def test_counts_are_found_before_many_changesets(self):
        many = b"".join(b"%d 1\n" % number for number in range(1, 30_001))
        text = HEAD + b"n1 v1 dV c1 t2024-01-01T00:00:00Z i1 uann T x1 y1\n"
        for users, wanted in ((b"users 0\n", 0), (b"users 1\n9 30000\n", 30000)):
            self.save.write_bytes(text + users + b"changesets 30000\n" + many + b"end\n")
            self.assertEqual(save.holding_of(self.save).edits, wanted)
        self.save.write_bytes(text + users + b"changesets 90000\n" + many * 3 + b"end\n")
        with mock.patch.object(save, "MOST_COUNTS", 1 << 17):
            self.assertIsNone(save.holding_of(self.save).edits)

    def test_versions_and_what_is_no_save(self):
        self.save.write_bytes(b"osmrepl-save 1\nsequence 0\ntime none\nobjects 0\nusers 0\nchangesets 0\nend\n")
        found = save.holding_of(self.save)
        self.assertEqual((found.position.number, found.position.base, found.objects, found.edits), (0, 0, 0, 0))
        self.save.write_bytes(b"something")
        with self.assertRaisesRegex(Fault, "no save"):
            save.holding_of(self.save)


class Sources(unittest.TestCase):
    def test_cursors_are_kept(self):
        wanted = source.Source("http://a", Path("/srv/b"), cursors=(Path("/srv/one two"), Path("/else/three")))
        text = source.text_of(wanted, Path("/srv"))
        self.assertIn("\ncursor one two\ncursor /else/three\n", text)
        self.assertEqual(source.read_text(text, Path("/srv")), wanted)
        with self.assertRaisesRegex(ValueError, "bad cursor"):
            source.read_text("cursor \n", Path("/"))


class Values(HTMLParser):
    """The `data` elements of a page, and what would be a script or a fetch."""

    def __init__(self, text):
        super().__init__()
        self.values, self.others = {}, []
        self.feed(text)

    def handle_starttag(self, tag, attrs):
        words = dict(attrs)
        if tag == "data":
            self.values[words["id"]] = words["value"]
        is_handled = any(word.startswith("on") for word in words)
        if tag in ("script", "iframe", "img", "object") or "src" in words or is_handled:
            self.others.append((tag, attrs))
        if "href" in words and words["href"] != "data:,":
            self.others.append((tag, attrs))


class Forms(unittest.TestCase):
    EVIL = "<script>alert(1)</script>\" onload='x' \x1b[2J \udcff & | \\"

    def status(self, **more):
        position = save.Position(12, MOMENT, base=7)
        holding = save.Holding(position, 8, 123, 45, 600)
        known_ = Status(Path("a.save"), MOMENT + timedelta(seconds=65), None, holding,
                        source.Source("http://a", Path("b")), [minute(-1, number=12, lag=5, server=14)], 14, 12, MOMENT)
        return replace(known_, **more)

    def test_ten_lines(self):
        lines = status.lines_of(self.status())
        self.assertEqual(lines, [
            "number 12 of 2024-01-01T02:03:04Z", "age 65 s (1 min 5 s)", "behind 2 (the server is at 14)",
            "objects 123 (in SAVE; the journal has 4 numbers more)",
            "edits 45 after number 7 (in SAVE; the journal has 4 numbers more)",
            "last run 2024-01-01T02:02:04Z, 1.5 s, nothing new, status 0", "faults 0 in 1 run of the last day",
            "journal 4 numbers, 600 bytes", "source http://a", "cursors none"])

    def test_ten_lines_of_little(self):
        holding = save.Holding(save.Position(0, None), 0, 0, None)
        little = self.status(holding=holding, source=None, history=[], server=None, reached=None, seen=None)
        self.assertEqual(status.lines_of(little), [
            "number 0", "age unknown (number 0 has no time)", "behind unknown", "objects 0",
            "edits unknown (too many changesets to read)", "last run none", "faults 0 in 0 runs of the last day",
            "journal none", "source none", "cursors none"])

    def test_a_server_that_the_last_run_did_not_see(self):
        self.assertEqual(status.lines_of(self.status(history=[minute(-1)]))[2],
                         "behind 2 (the server was at 14 at 2024-01-01T02:03:04Z)")

    def test_how_old_it_may_be(self):
        for wanted, more in ((3600, {"history": [], "source": None}), (7200, {"history": [minute(0, most_lag=7200)]}),
                             (7200, {"history": [minute(0, most_lag=7200), minute(1)]}), (5, {"most_age": 5}),
                             (9, {"source": source.Source("http://a", Path("b"), lag=9)})):
            self.assertEqual(self.status(**more).most, wanted)

    def test_states(self):
        failed, killed = (minute(-1, status=number, fault="no") for number in (3, 143))
        for wanted, more in (("ok", {}), ("late", {"most_age": 64}), ("ok", {"most_age": 65}),
                             ("failed", {"history": [failed]}), ("ok", {"history": [killed]}),
                             ("failed", {"fault": "no"}), ("unknown", {"holding": None})):
            self.assertEqual(self.status(**more).state, wanted)

    def test_the_line_of_a_plugin(self):
        self.assertEqual(status.plugin_line(self.status(most_age=100)),
                         "OSMREPL OK: number 12, 1 min 5 s old | age=65s;;100;0 behind=2;;;0 faults=0;;;0")
        self.assertTrue(status.plugin_line(self.status(most_age=60)).startswith("OSMREPL CRITICAL: number 12, "))
        self.assertEqual(status.plugin_line(self.status(holding=None, fault="a|b\nc")), "OSMREPL UNKNOWN: a/b c")
        evil = status.plugin_line(self.status(history=[minute(-1, fault=self.EVIL)]))
        self.assertEqual((evil.count("|"), evil.isprintable()), (1, True))

    def test_metrics(self):
        cursors = [Cursor(Path('/a "b"\\'), state.State(9, MOMENT, b"")), Cursor(Path("/lost"), None, "not there")]
        text = metrics.text_of(self.status(cursors=cursors))
        found = dict(line.rsplit(" ", 1) for line in text.splitlines() if line[0] != "#")
        at = f'save="{Path("a.save").absolute()}"'
        for name, value in (("number", "12"), ("timestamp_seconds", str(int(MOMENT.timestamp()))),
                            ("behind_numbers", "2"), ("save_objects", "123"), ("last_run_status", "0"),
                            ("runs_total", "1")):
            self.assertEqual(found[f"osmrepl_{name}{{{at}}}"], value)
        self.assertEqual(found[f'osmrepl_cursor_behind_numbers{{cursor="/a \\"b\\"\\\\",{at}}}'], "3")
        self.assertEqual(found[f'osmrepl_cursor_readable{{cursor="/lost",{at}}}'], "0")
        names = [line.split(" ")[2] for line in text.splitlines() if line.startswith("# TYPE ")]
        self.assertEqual(names, [name for name, _, _ in metrics.METRICS])
        self.assertNotIn("age_seconds{", text.replace("most_age_seconds{", ""))

    def test_metrics_of_little(self):
        holding = save.Holding(save.Position(0, None), 0, 0, None)
        text = metrics.text_of(self.status(holding=holding, history=[], server=None, reached=None))
        self.assertNotIn("None", text)
        self.assertNotIn("osmrepl_timestamp_seconds", text)

    def page(self, found):
        text = page.page_of(found, known.report_of(found))
        self.assertEqual(text[:len(page.BEGIN)], page.BEGIN)
        text.encode()
        values = Values(text)
        self.assertEqual(values.others, [])
        self.assertEqual(re.findall(r"@import|url\((?!#)", text), [])
        return text, values.values

    def test_the_page_has_the_numbers(self):
        _, values = self.page(self.status())
        for name, value in (("age", "65"), ("number", "12"), ("behind", "2"), ("server", "14"), ("objects", "123"),
                            ("edits", "45"), ("day-runs", "1"), ("day-faults", "0"), ("journal-numbers", "4")):
            self.assertEqual(values[name], value)

    def test_what_comes_from_outside_is_escaped(self):
        cursors = [Cursor(Path(self.EVIL), None, self.EVIL), Cursor(Path(self.EVIL), state.State(9, MOMENT, b""))]
        runs_ = [minute(-2, fault=self.EVIL, status=3), minute(-1, fault=self.EVIL)]
        evil = self.status(save=Path(self.EVIL), cursors=cursors, history=runs_, fault=self.EVIL,
                           source=source.Source("http://" + self.EVIL, Path(self.EVIL)))
        text, _ = self.page(evil)
        self.assertNotIn("<script", text)
        self.assertNotIn("\x1b", text)

    def test_pages_of_little(self):
        little = self.status(holding=None, source=None, history=[], server=None, fault="a.save: not there")
        text, values = self.page(little)
        self.assertIn("a.save: not there", text)
        self.assertEqual(values["number"], "")
        self.page(self.status(history=[minute(-5000), minute(-4000, fault="a"), minute(-1)]))
        self.page(self.status(history=[minute(5000), minute(-1)]))

    def test_lengths(self):
        for seconds, text in ((-5, "0 s"), (0, "0 s"), (59.4, "59 s"), (60, "1 min"), (65, "1 min 5 s"), (3600, "1 h"),
                              (5400, "1 h 30 min"), (86400 * 2 + 3600, "2 d 1 h"), (86400 + 5, "1 d")):
            self.assertEqual(known.length_text(seconds), text)


class Charts(unittest.TestCase):
    def test_the_peaks_and_the_last_pair_stay(self):
        pairs = [(float(number), float(number % 10)) for number in range(100)]
        pairs[37] = 37.0, 50.0
        found = chart.highest(pairs, 0, 100, 5)
        self.assertIn((37.0, 50.0), found)
        self.assertEqual(found[-1], pairs[-1])
        self.assertLessEqual(len(found), 6)
        self.assertEqual(chart.highest([], 0, 100, 5), [])

    def test_labels_are_apart_and_inside(self):
        for length in 3600, 86400, 30 * 86400:
            for width, height in page.WIDE, page.NARROW:
                end = MOMENT.timestamp()
                text = chart.svg(chart.Chart("lag", end - length, end, [[(end - length, 5.0), (end, 4000.0)]]), width,
                                 height, "wide")
                places = [float(x) for x in re.findall(r'x="([\d.]+)" y="%d"' % (height - 6), text)]
                self.assertTrue(all(after - before >= chart.LABEL - 1 for before, after in zip(places, places[1:])))
                self.assertTrue(all(chart.LEFT <= x <= width for x in places))

    def test_the_greatest_value_is_on_the_scale(self):
        for most in 0, 0.3, 1, 59, 61, 3599, 3601, 86400 * 9, 1e12:
            frame = chart.Frame(chart.Chart("lag", 0, 10, [[(0, most), (10, 0)]]), 900, 200)
            self.assertGreaterEqual(frame.most, most)
            self.assertLessEqual(frame.most / frame.step, 5.001)


if __name__ == "__main__":
    unittest.main()
