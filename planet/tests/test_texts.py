"""Texts that are read and written: states, SAVE.source, the first lines of a save, OPL, faults of a server."""

import contextlib
import gzip
import io
import re
import sys
import tempfile
import unittest
from datetime import datetime, timezone
from pathlib import Path
from unittest import mock

sys.path.insert(0, str(Path(__file__).resolve().parent.parent))

from osmrepl_planet import (client, convert, fetch, files, numbering, opl, output, progress, publish,  # noqa: E402
                            renumber, save, source, state)
from osmrepl_planet.faults import Fault, Refused, one_line  # noqa: E402
from osmrepl_planet.mirror import Round  # noqa: E402

MOMENT = datetime(2024, 1, 1, 2, 3, 4, tzinfo=timezone.utc)


class States(unittest.TestCase):
    def test_texts_of_servers(self):
        for text in (b"#Mon\nsequenceNumber=7\ntxnMax=9\ntimestamp=2024-01-01T02\\:03\\:04Z\n",
                     b"timestamp=2024-01-01T02:03:04Z\r\nsequenceNumber=7",
                     b"sequenceNumber=1\nsequenceNumber=7\ntimestamp=2024-01-01T02\\:03\\:04Z",
                     b" sequenceNumber = 7\ntimestamp = 2024-01-01T02\\:03\\:04Z\n"):
            with self.subTest(text):
                found = state.read_state(text)
                self.assertEqual((found.number, found.time, found.text), (7, MOMENT, text))

    def test_what_is_no_state(self):
        for text in (b"", b"<html>sequenceNumber=7</html>", b"sequenceNumber=7\n", b"timestamp=2024-01-01T02:03:04Z\n",
                     b"sequenceNumber=x\ntimestamp=2024-01-01T02:03:04Z",
                     b"sequenceNumber=7\ntimestamp=2024-13-01T02:03:04Z",
                     b"sequenceNumber=1234567890\ntimestamp=2024-01-01T02:03:04Z",
                     b"sequenceNumber=7\ntimestamp=2024-01-01T02:03:04.5Z", b"\xff\xfe=\n",
                     b"sequenceNumber=7\ntimestamp=1970-01-01T00:00:00Z",
                     b"sequenceNumber=7\ntimestamp=2106-02-07T06:28:16Z",
                     b"sequenceNumber=7\x0c\ntimestamp=2024-01-01T02:03:04Z",
                     "sequenceNumber=7\ntimestamp=\u0662\u0660\u0662\u0664-01-01T02:03:04Z".encode()):
            with self.subTest(text):
                self.assertIsNone(state.read_state(text))

    def test_what_is_written_is_read(self):
        self.assertEqual(state.read_state(state.state_text(7, MOMENT)).time, MOMENT)

    def test_paths(self):
        self.assertEqual(state.path_of(6001234, "osc.gz"), "006/001/234.osc.gz")
        self.assertEqual(state.number_of("006/001/234.state.txt"), 6001234)
        self.assertIsNone(state.number_of("state.txt"))


class Files(unittest.TestCase):
    def setUp(self):
        room = tempfile.TemporaryDirectory()
        self.addCleanup(room.cleanup)
        self.place = Path(room.name)
        self.one, self.other = self.place / "one", self.place / "other"
        self.one.write_text("one")

    def test_a_fault_leaves_no_new_file(self):
        (self.place / "folder").mkdir()
        with self.assertRaisesRegex(Fault, "folder: write failed"):
            files.replace(self.place / "folder", b"text")
        with self.assertRaisesRegex(Fault, "folder: write failed"):
            files.put(self.one, self.place / "folder")
        self.assertEqual([file.name for file in self.place.iterdir()], ["folder"])

    def test_another_name_that_is_new(self):
        for library in (files.ctypes.CDLL, lambda *_, **__: object()):
            with self.subTest(library), mock.patch.object(files.ctypes, "CDLL", library):
                files.rename_new(self.one, self.other)
                self.assertEqual([file.name for file in self.place.iterdir()], ["other"])
                self.one.write_text("new")
                with self.assertRaises(FileExistsError):
                    files.rename_new(self.other, self.one)
                self.assertEqual((self.one.read_text(), self.other.read_text()), ("new", "one"))
                self.other.rename(self.one)


class Sources(unittest.TestCase):
    FULL = source.Source("https://diffs.example/minute", Path("/srv/osm/diffs"), "osc.gz", "w", ("highway", "a b,%\n"),
                         "/srv/cookies", 5, 2, 0, True)

    def test_what_is_written_is_read(self):
        small = source.Source("http://a", Path("/b"))
        for wanted in self.FULL, small:
            self.assertEqual(source.read_text(source.text_of(wanted, Path("/srv")), Path("/srv")), wanted)

    def test_a_folder_beside_it_is_relative(self):
        self.assertIn("\nfolder osm/diffs\n", source.text_of(self.FULL, Path("/srv")))

    def test_lines_of_a_person(self):
        """A slash at the end of an address and a cursor that is listed again say nothing."""
        found = source.read_text("url http://a/b/\nfolder c\ncursor d\ncursor ./d\n", Path("/"))
        self.assertEqual((found.url, found.cursors), ("http://a/b", (Path("/d"),)))

    def test_faults_name_the_line(self):
        for text, said in (("url x\n", "line 1: bad url"), ("# a\n\nurls http://a\n", "line 3: unknown word urls"),
                           ("url http://a\nurl http://b\n", "line 2: a second url"),
                           ("url http://a\n", "it has no line"), ("lag -1\n", "line 1: bad lag"),
                           ("kinds wn\n", "line 1: bad kinds"), ("kinds\n", "line 1: bad kinds"),
                           ("\x1b" + "a" * 99, "line 1: unknown word \\x1b" + "a" * 63 + "..")):
            with self.subTest(text), self.assertRaisesRegex(ValueError, "^" + re.escape(said)):
                source.read_text(text, Path("/"))

    def test_addresses(self):
        self.assertEqual(source.url_of("https://a/b//"), "https://a/b")
        self.assertEqual(source.url_of("HTTP://a/B"), "http://a/B")
        for text, said in (("a", "doesn't begin with http"), ("file:///a", "doesn't begin with http"),
                           ("http://", "names no server"), ("http:// a", "or has blanks"),
                           ("http://a b/", "or has blanks"), ("https://ann:secret@a/b", "a name or password"),
                           ("http://a/\x1b[31m", "or has blanks")):
            with self.subTest(text), self.assertRaisesRegex(Refused, said):
                source.url_of(text)


class Lines(unittest.TestCase):
    def test_what_is_said_does_nothing_to_a_terminal(self):
        with contextlib.redirect_stderr(io.StringIO()) as said:
            output.say("http://a/\x1b[31m: not  there\n\u202e")
        self.assertEqual(said.getvalue(), "osmrepl-planet: http://a/\\x1b[31m: not  there\\x0a\\x202e\n")


class Saves(unittest.TestCase):
    HEAD = (b"osmrepl-save 3\nbase 7\nkinds nw\nkeys 2\na%20%b\nhighway\n"
            b"sequence 8\ntime 2024-01-01T02:03:04Z\nobjects 5\n")

    def test_first_lines(self):
        self.assertEqual(save.head_of(self.HEAD + b"n1 ..\nobjects 9\n"), self.HEAD)
        self.assertEqual(save.read_head(self.HEAD), save.Position(8, MOMENT, "nw", ("a b", "highway"), 7))
        old = b"osmrepl-save 1\nsequence 0\ntime none\nobjects 0\n"
        self.assertEqual(save.read_head(save.head_of(old)), save.Position(0, None))

    def test_keys_that_look_like_lines(self):
        head = (b"osmrepl-save 3\nbase 1\nkinds nwr\nkeys 2\nkinds\nsequence\n"
                b"sequence 3\ntime 2024-01-01T02:03:04Z\nobjects 0\n")
        self.assertEqual(save.read_head(head), save.Position(3, MOMENT, "nwr", ("kinds", "sequence"), 1))

    def test_what_is_no_save(self):
        for text in (b"", b"something\n", self.HEAD[:-10], b"x" + self.HEAD):
            self.assertIsNone(save.head_of(text))

    def test_a_journal_counts_for_its_own_save(self):
        journal = b"osmrepl-journal 1\n" + self.HEAD + b"sequence 9\ntime 2024-01-01T02:03:04Z\nbatches 1\n"
        self.assertEqual(save.read_journal(journal, self.HEAD), (9, MOMENT))
        self.assertIsNone(save.read_journal(journal, self.HEAD.replace(b"base 7", b"base 6")))
        self.assertIsNone(save.read_journal(b"", self.HEAD))


class Opl(unittest.TestCase):
    BARE = (b"n1 v1 dV c0 t2024-01-01T00:00:00Z i0 u Ta=c0%20%t x1 y2\n"
            b"n2 v1 dV c7 t2024-01-01T00:00:00Z i0 uann T x1 y2\n")

    def test_nobody_is_counted_and_gets_a_number_and_loses_it_again(self):
        tally = opl.Tally()
        tally.take(self.BARE)
        self.assertEqual((tally.lines, tally.no_user, tally.no_changeset, tally.lacks), (2, 2, 1, {}))
        given = opl.with_nobody(self.BARE)
        self.assertEqual(given.count(b"2147483647"), 3)
        self.assertEqual(opl.without_nobody(given), self.BARE)

    def test_the_first_that_lacks_a_field_is_named(self):
        tally = opl.Tally()
        tally.take(self.BARE)
        tally.take(b"n3 v1 dV c7 t2024-01-01T00:00:00Z i5 u T x y\nw4 v0 dV c7 t i5 u T N\nw5 v0 dV c7 t i5 u T N\n")
        self.assertEqual(tally.lacks, {"version": "w4", "time": "w4"})

    def test_blocks_are_of_whole_lines(self):
        text = b"".join(b"%d\n" % number * (number % 7) for number in range(300)) + b"end"
        for size in (1, 2, 7, 4096):
            blocks = list(opl.blocks_of(io.BytesIO(text), size))
            self.assertEqual(b"".join(blocks), text)
            self.assertTrue(all(block.endswith(b"\n") for block in blocks[:-1]))

    LINE = b"n1 v1 dV c7 t2024-01-01T00:00:00Z i5 uann Ta=TEXT x1 y2\n"

    def test_characters_that_xml_cannot_hold(self):
        """However they are written. A percent sign may end one escape and begin no other; comments hold anything."""
        own = [b"%01%%20%", b"b%2c%c%0b%", b"%1f%", b"%20%%10%", b"%fffe%", b"%ffff%"]
        for text in own + [b"%1%", b"b%2c%c%00000b%", b"%1F%", b"%0FfFf%", b"\x01", b"%20%%1%", b"\xef\xbf\xbf"]:
            with self.subTest(text):
                line = self.LINE.replace(b"TEXT", text)
                opl.check(line, "PBF", "file", "way")
                for is_own in {text in own, False}:
                    with self.assertRaisesRegex(Fault, r"^file: n1: a character that XML can't hold \(%.*%\); way$"):
                        opl.check(self.BARE + line, "XML", "file", "way", is_own)
        for text in (b"%9%%a%%d%%09%%0a%%0d%%20%", b"%20%1%20%b", b"%20%10%20%fffe%20%", b"%fffd%%7f%%1fffe%", b"\x7f",
                     b"\xef\xbf\xbd"):
            with self.subTest(text):
                for is_own in True, False:
                    opl.check(b"# %01% and \x01\n" + self.LINE.replace(b"TEXT", text), "XML", "file", "way", is_own)

    def test_numbers_that_a_form_cannot_hold(self):
        """The greatest that each form holds, and the next."""
        line, least, greatest = "n1 v%d dV c%d t2024-01-01T00:00:00Z i%d uann T x1 y2\n", (1 << 31) - 1, (1 << 32) - 1
        for form, most in (("XML", (least, greatest - 1, greatest - 1)), ("PBF", (least, greatest - 1, least)),
                           ("OPL", (least, greatest, greatest))):
            opl.check((line % most).encode(), form, "file", "way")
            for place, name in enumerate(("version", "changeset", "user id")):
                more = tuple(number + (at == place) for at, number in enumerate(most))
                if more[place] > greatest:
                    continue
                said = rf"^file: n1: a {name} that {form} can't hold \({more[place]}\); way$"
                with self.subTest(said), self.assertRaisesRegex(Fault, said):
                    opl.check((line % more).encode(), form, "file", "way")

    def test_escapes(self):
        for text in ("a b", "%", "\n", "Zoë", "\U0001f600"):
            self.assertEqual(opl.unescape(opl.escape(text)), text)
        self.assertNotIn("\n", opl.escape("a\nb"))


class Lists(unittest.TestCase):
    """SAVE.numbers, and where a diff is cut."""

    TEXT = (b"7 7 7 2024-01-01T02:03:04Z\n8 8 10 2024-01-01T02:04:04Z\n9 11 11 2024-01-01T02:04:04Z\n"
            b"10 12 15 2024-01-01T02:05:04Z\n")

    def numbers(self, text):
        folder = tempfile.TemporaryDirectory()
        self.addCleanup(folder.cleanup)
        found = numbering.Numbers(Path(folder.name) / "a.save")
        found.path.write_bytes(text)
        return found

    def test_the_line_at_or_below_a_number_and_those_after_it(self):
        for torn in b"", b"1", b"11 16 16 2024-01-01T02:05:04Z":
            numbers = self.numbers(self.TEXT + torn)
            for tail in 1, 20, 40, 1000:
                numbering.TAIL = tail
                for number, wanted in ((6, []), (7, [7, 8, 9, 10]), (9, [7, 8, 9, 10]), (10, [8, 9, 10]), (11, [9, 10]),
                                       (14, [9, 10]), (15, [10]), (99, [10])):
                    with self.subTest(torn=torn, tail=tail, number=number):
                        self.assertEqual([line.source for line in numbers.lines_from(number)], wanted)

    def test_a_line_is_written_after_another_one(self):
        numbers = self.numbers(self.TEXT + b"torn")
        numbers.cut(numbers.lines_from(99)[-1])
        self.assertEqual(numbers.path.read_bytes(), self.TEXT)
        numbers.append(numbering.Line(11, 16, 17, MOMENT))
        self.assertEqual(numbers.path.read_bytes(), self.TEXT + b"11 16 17 2024-01-01T02:03:04Z\n")

    def test_what_is_no_list(self):
        for text, said in ((b"", "no whole line"), (b"7 7 7 2024", "no whole line"), (b"7 7 7\n", "at byte 0: 7 7 7"),
                           (b"7 7 7 2024-13-01T02:03:04Z\n", "at byte 0"), (self.TEXT + b"\n", "at byte 114: "),
                           (self.TEXT + b"11 17 17 2024-01-01T02:05:04Z\n", "at byte 114: 11 17"),
                           (self.TEXT + b"12 16 17 2024-01-01T02:05:04Z\n", "at byte 114: 12 16"),
                           (self.TEXT + b"11 16 15 2024-01-01T02:05:04Z\n", "at byte 114: 11 16")):
            with self.subTest(text), self.assertRaisesRegex(Fault, said):
                numbering.TAIL = 1000
                self.numbers(text).lines_from(99)

    def test_where_a_diff_is_cut(self):
        lines = [b"%d\n" % number for number in range(1000, 1010)]
        with tempfile.NamedTemporaryFile() as file:
            for count, most, size, wanted in ((0, 3, 99, [0]), (1, 3, 99, [5]), (3, 3, 99, [15]), (4, 3, 99, [15, 20]),
                                              (6, 3, 99, [15, 30]), (7, 3, 99, [15, 30, 35]), (4, 9, 10, [10, 20]),
                                              (4, 9, 14, [10, 20]), (4, 9, 15, [15, 20]), (3, 9, 4, [5, 10, 15])):
                file.seek(0)
                file.truncate()
                file.write(b"".join(lines[:count]))
                file.flush()
                renumber.MOST_CHANGES, renumber.MOST_BYTES = most, size
                with self.subTest(count=count, most=most, size=size):
                    self.assertEqual(renumber.ends_of(Path(file.name)), wanted)


class Diffs(unittest.TestCase):
    def fault(self, content, most=1 << 20):
        with tempfile.NamedTemporaryFile() as file:
            file.write(content)
            file.flush()
            try:
                convert.check_gzip(file.name, most)
            except convert.NoDiff as error:
                return error.cause, error.is_cut
        return None

    def test_gzip_data(self):
        whole = gzip.compress(b"a" * 5000)
        self.assertIsNone(self.fault(whole))
        self.assertIsNone(self.fault(whole + whole))
        self.assertEqual(self.fault(whole[:-3]), ("cut gzip data", True))
        self.assertEqual(self.fault(whole + whole[:9]), ("cut gzip data", True))
        # a part that ends with a block, or just before
        for size in len(whole), len(whole) + 1:
            with mock.patch.object(opl, "BLOCK", size):
                self.assertEqual(self.fault(whole + whole[:9]), ("cut gzip data", True))
                self.assertIsNone(self.fault(whole + whole + b"\0" * size))
        self.assertEqual(self.fault(b""), ("no gzip data", False))
        self.assertEqual(self.fault(b"<html>"), ("no gzip data", False))
        self.assertEqual(self.fault(whole[:12] + b"zzzz" + whole[16:])[1], False)

    def test_a_small_file_that_becomes_a_large_one(self):
        self.assertIsNone(self.fault(gzip.compress(bytes(1 << 20))))
        self.assertEqual(self.fault(gzip.compress(bytes((1 << 20) + 1))), ("more than 1 MiB unzipped", False))

    def test_reasons(self):
        for tally, size, strict, wanted in [
                (opl.Tally(lines=100_000), 64 << 20, True, None),
                (opl.Tally(lines=100_001), 1, False, "more than 100,000 changes"),
                (opl.Tally(lines=1), (64 << 20) + 1, False, "more than 64 MiB"), (opl.Tally(no_user=1), 1, False, None),
                (opl.Tally(no_user=1), 1, True, "objects without user or changeset"),
                (opl.Tally(lacks={"time": "n1"}), 1, False, "objects without time (first n1)")]:
            self.assertEqual(convert.reason_of(tally, size, strict), wanted)


class Servers(unittest.TestCase):
    def test_redirections(self):
        self.assertEqual(client.led_to("http://a/b/c", "https://d/e"), "https://d/e")
        self.assertEqual(client.led_to("https://a/b/c", "../x"), "https://a/x")
        for url, to in (("https://a/b", "http://a/b"), ("http://a/b", "file:///etc/passwd"),
                        ("http://a/b", "ftp://a/b"),
                        ("http://a/b", "http://[::x/\xe4"), ("http://a/b", "x:" + "y" * 100_000)):
            with self.subTest(to[:99]), self.assertRaises(Fault) as raised:
                client.led_to(url, to)
            self.assertLess(len(raised.exception.text), 300)

    def test_retry_after(self):
        for text, wanted in ((None, None), ("", None), ("x", None), ("120", 1120), ("999999999", 87400), ("-5", None),
                             ("Thu, 01 Jan 1970 00:20:00 GMT", 1200), ("Fri, 01 Jan 2100 00:00:00 GMT", 87400)):
            with self.subTest(text):
                self.assertEqual(client.moment_of(text, 1000), wanted)

    def test_a_slow_server_is_late_and_a_steady_one_is_not(self):
        watch = client.Watch(start=0)
        self.assertFalse(watch.is_over(59))
        self.assertTrue(watch.is_over(61))
        watch.received = 1 << 20
        self.assertFalse(watch.is_over(180))
        self.assertTrue(watch.is_over(601))


class Said(unittest.TestCase):
    def test_faults_that_mend_are_quiet_until_the_mirror_is_old(self):
        mends, lasts = Fault("status 503", mends=True), Fault("status 403")
        self.assertEqual(Round([mends]).told(10, 60, 7).line, "")
        self.assertEqual(Round([mends, lasts]).told(10, 60, 7).line, "status 403")
        told = Round([mends]).told(99, 60, 7)
        self.assertEqual((told.line, told.status), ("status 503; the mirror is 99 seconds old, at number 7", 3))

    def test_the_newest_numbers_may_be_late(self):
        round_ = Round(missing={3, 9, 10}, top=10)
        self.assertEqual(round_.missing_for_long(), [3])
        self.assertEqual(round_.told(10, 60, 2).line, "number 3 is missing")
        self.assertEqual(round_.told(99, 60, 2).line,
                         "number 3 and 2 more are missing; the mirror is 99 seconds old, at number 2")

    def test_ranges(self):
        self.assertEqual(fetch.ranges([1, 2, 3, 7, 9, 10]), [(1, 3), (7, 7), (9, 10)])
        self.assertEqual(fetch.ranges([]), [])

    def test_lines(self):
        self.assertEqual(one_line("a\n b\x1b[2J"), "a b\\x1b[2J")
        self.assertEqual(progress.line_of("fetched", 50, 2000, "", 2), "fetched 50 of 2,000, 25 a second, 78 s left")

    def test_marks_of_a_publication(self):
        self.assertTrue(publish.MARK.match(b"# published as 7 at 2024-01-01T00:00:00Z\nn1"))
        self.assertFalse(publish.MARK.match(b"# published as 7 at noon\n"))


if __name__ == "__main__":
    unittest.main()
