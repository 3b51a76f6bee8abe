"""What a SAVE and its journal keep together, by a plain reader that shares nothing with the program. It reads the lines
of a journal and the o5c files of its batches, and applies their changes to SAVE one after the other. Its rules for a
journal are those of docs/FORMATS.md, read by hand."""

import calendar
import re
import time
from typing import NamedTuple

from osm import judge
from osm.judge import degrees, written

MAGIC = b"osmrepl-journal 1"
MOST_NUMBER, MOST_BYTES, MOST_OBJECTS = 999_999_999, 64 << 20, 10**18 - 1
TIME = re.compile(rb"[0-9]{4}-[0-9]{2}-[0-9]{2}T[0-9]{2}:[0-9]{2}:[0-9]{2}Z")
NUMBER = re.compile(rb"0|[1-9][0-9]*")
KINDS = "nwr"
WHAT = {"n": "T x y", "w": "T N", "r": "T M"}
# Strings of an o5c file are entered up to that many bytes, and the last so many can be named.
MOST_ENTERED, MOST_NAMED = 250, 15_000


class BadJournal(Exception):
    """A journal that says nothing because a line of it is wrong: that with this number."""

    def __init__(self, line):
        super().__init__(f"line {line}")
        self.line = line


class BadBatch(Exception):
    """Bytes that are no change file."""


class Start(NamedTuple):
    """What a save begins with, and how many lines that are."""

    number: int
    base: int
    time: bytes
    kinds: str
    keys: list
    objects: int
    lines: int


class Journal(NamedTuple):
    """The first lines of its save, as bytes; and of each batch the number, the time and the bytes."""

    start: Start
    opening: bytes
    batches: list


class Lines:
    """The lines of a text, which are counted from 1."""

    def __init__(self, data):
        self.data, self.place, self.line = data, 0, 0

    def fail(self):
        raise BadJournal(self.line)

    def next(self):
        self.line += 1
        end = self.data.find(b"\n", self.place)
        if end < 0:
            self.fail()
        text, self.place = self.data[self.place:end], end + 1
        return text

    def fixed(self, text):
        if self.next() != text:
            self.fail()

    def number(self, word, least, most):
        """The number in a line with that word."""
        text = self.next()
        if not text.startswith(word + b" "):
            self.fail()
        return self.number_in(text[len(word) + 1:], least, most)

    def number_in(self, digits, least, most):
        if not NUMBER.fullmatch(digits) or not least <= int(digits) <= most:
            self.fail()
        return int(digits)

    def time(self):
        text = self.next()
        if not text.startswith(b"time ") or not is_time(text[5:]):
            self.fail()
        return text[5:]

    def bytes(self, count):
        """So many bytes and a line feed, which are no line."""
        found = self.data[self.place:self.place + count]
        self.place += count
        if len(found) < count or self.data[self.place:self.place + 1] != b"\n":
            self.fail()
        self.place += 1
        return found


def is_time(text):
    if not TIME.fullmatch(text):
        return False
    try:
        seconds = calendar.timegm(time.strptime(text.decode(), "%Y-%m-%dT%H:%M:%SZ"))
    except ValueError:
        return False
    return time.gmtime(seconds)[5] == int(text[17:19]) and 0 < seconds < 2**32


def is_spelled(key):
    """Whether a key is spelled as one is written."""
    text = meant(key)
    return text is not None and len(text.encode()) <= 1020 and written(text).encode() == key


def read_start(lines):
    """What a save begins with."""
    first = lines.next()
    if not re.fullmatch(rb"osmrepl-save [123]", first):
        lines.fail()
    version, kinds, keys = int(first[-1:]), KINDS, []
    base = lines.number(b"base", 0, MOST_NUMBER) if version > 1 else 0
    if version > 2:
        text = lines.next().decode(errors="replace")
        kinds = text.removeprefix("kinds ")
        if not text.startswith("kinds ") or not kinds or kinds not in ("n", "w", "r", "nw", "nr", "wr", "nwr"):
            lines.fail()
        for _ in range(lines.number(b"keys", 0, 100)):
            key = lines.next()
            if not is_spelled(key) or keys and meant(key).encode() <= keys[-1].encode():
                lines.fail()
            keys.append(meant(key))
    number = lines.number(b"sequence", base, MOST_NUMBER)
    text = lines.next()
    if not (text == b"time none" if number == 0 else text.startswith(b"time ") and is_time(text[5:])):
        lines.fail()
    objects = lines.number(b"objects", 0, 100_000 * number if version == 1 else MOST_OBJECTS)
    return Start(number, base, text[5:], kinds, keys, objects, lines.line)


def read_opening(lines):
    """What a journal says before its batches: the start of its save, that as bytes, and the last number and its time."""
    lines.fixed(MAGIC)
    begin = lines.place
    start = read_start(lines)
    opening = lines.data[begin:lines.place]
    last = lines.number(b"sequence", start.number + 1, MOST_NUMBER)
    last_time = lines.time()
    lines.number(b"batches", last - start.number, last - start.number)
    return start, opening, last, last_time


def read_journal(data):
    """The journal that the bytes spell."""
    lines = Lines(data)
    start, opening, last, last_time = read_opening(lines)
    batches = []
    for number in range(start.number + 1, last + 1):
        words = lines.next().split(b" ")
        if len(words) != 4 or words[0] != b"batch" or not is_time(words[2]):
            lines.fail()
        lines.number_in(words[1], number, number)
        if number == last and words[2] != last_time:
            lines.fail()
        batches.append((number, words[2], lines.bytes(lines.number_in(words[3], 0, MOST_BYTES))))
    lines.fixed(b"end")
    if lines.place != len(data):
        raise BadJournal(lines.line + 1)
    return Journal(start, opening, batches)


def journal_text(save, batches):
    """The text of the journal with these batches after that save."""
    lines = Lines(save)
    read_start(lines)
    number, last_time, _ = batches[-1]
    head = MAGIC + b"\n" + save[:lines.place] + b"sequence %d\ntime %b\nbatches %d\n" % (number, last_time, len(batches))
    return head + b"".join(b"batch %d %b %d\n%b\n" % (*words, len(data), data) for *words, data in batches) + b"end\n"


def says(save, journal):
    """The journal, if it says something of the save: None if one isn't there, if it is empty, or if it is of another
    save."""
    if not journal:
        return None
    found = read_journal(journal)
    return found if save is not None and save.startswith(found.opening) else None


# ---- what the objects are, and how they are written


def meant(text):
    """What a text of OPL says; None if it says nothing."""
    try:
        return judge.meant(text.decode())
    except (ValueError, OverflowError, judge.NoScript):
        return None


class Change(NamedTuple):
    key: tuple
    user: int
    changeset: int
    # none for a deletion
    tags: list | None
    line: bytes


class O5c:
    """Reads an o5c change file, as the OSM wiki describes it."""

    def __init__(self, data):
        if data[:7] != b"\xff\xe0\x04o5c2" or data[-1:] != b"\xfe":
            raise BadBatch
        self.data, self.place, self.end = data, 7, len(data) - 1
        self.reset()

    def reset(self):
        self.sums, self.strings = {}, []

    def changes(self):
        found = []
        while self.place < self.end:
            kind = self.data[self.place]
            self.place += 1
            if kind == 0xff:
                self.reset()
            elif kind < 0xf0:
                length = self.unsigned()
                whole, self.end = self.end, self.place + length
                if self.end > whole:
                    raise BadBatch
                if 0x10 <= kind <= 0x12:
                    found.append(self.change(KINDS[kind - 0x10]))
                self.place, self.end = self.end, whole
        return found

    def unsigned(self):
        value = shift = 0
        while True:
            if self.place >= self.end:
                raise BadBatch
            byte = self.data[self.place]
            self.place += 1
            value |= (byte & 127) << shift
            shift += 7
            if byte < 128:
                return value

    def sum(self, name):
        """The next difference, added to those before it."""
        return self.add(name, self.unsigned())

    def add(self, name, value):
        """A signed difference that is spelled as that value, added to those before it."""
        self.sums[name] = self.sums.get(name, 0) + (value >> 1 if value % 2 == 0 else -(value + 1 >> 1))
        return self.sums[name]

    def degrees(self, name):
        """A sum in 32 bits."""
        return degrees((self.sum(name) + 2**31) % 2**32 - 2**31)

    def until_nul(self):
        end = self.data.index(b"\0", self.place, self.end)
        text, self.place = self.data[self.place:end], end + 1
        return text

    def string(self, parts):
        """A string of one part, or a pair."""
        number = self.unsigned()
        if number:
            return self.strings[-number]
        found = tuple(self.until_nul() for _ in range(parts))
        if sum(map(len, found)) <= MOST_ENTERED:
            self.strings = self.strings[1 - MOST_NAMED:] + [found]
        return found

    def user(self):
        # the number of a user may hold a byte of 0 nowhere but at its end
        digits, name = self.string(2)
        return sum((byte & 127) << 7 * index for index, byte in enumerate(digits)), name.decode()

    def change(self, kind):
        number, version = self.sum("id"), self.unsigned()
        moment, changeset = self.sum("time"), self.sum("changeset")
        user, name = self.user()
        tags, what = (None, WHAT[kind]) if self.place == self.end else self.what(kind)
        moment = time.strftime("%Y-%m-%dT%H:%M:%SZ", time.gmtime(moment))
        line = (f"{kind}{number} v{version} d{'D' if tags is None else 'V'} c{changeset} t{moment} i{user} "
                f"u{written(name)} {what}")
        return Change((KINDS.index(kind), number), user, changeset, tags, line.encode())

    def what(self, kind):
        """The tags of an object, and the last fields of its line."""
        if kind == "n":
            rest = f"x{self.degrees('lon')} y{self.degrees('lat')}"
        else:
            end = self.unsigned() + self.place
            refs = []
            while self.place < end:
                refs.append(f"n{self.sum('node')}" if kind == "w" else self.member())
            rest = ("N" if kind == "w" else "M") + ",".join(refs)
        tags = []
        while self.place < self.end:
            tags.append(tuple(part.decode() for part in self.string(2)))
        return tags, "T" + ",".join(f"{written(key)}={written(value)}" for key, value in tags) + " " + rest

    def member(self):
        value = self.unsigned()
        text, = self.string(1)
        kind = KINDS[int(text[:1])]
        return f"{kind}{self.add(kind, value)}@{written(text[1:].decode())}"


def changes_of(data):
    try:
        return O5c(data).changes()
    except (IndexError, ValueError, OverflowError, OSError):
        raise BadBatch from None


# ---- what both files keep


KEY = re.compile(rb"([nwr])(-?[0-9]+) ")


def key_of(line):
    kind, number = KEY.match(line).groups()
    return KINDS.index(kind.decode()), int(number)


def counts_of(lines, word):
    return {number: count for number, count in
            (map(int, lines.next().split(b" ")) for _ in range(lines.number(word, 0, 10**18)))}


def keeps(start, change):
    """Whether a filter keeps what a change leaves."""
    return (change.tags is not None and KINDS[change.key[0]] in start.kinds
            and (not start.keys or any(key in start.keys for key, _ in change.tags)))


def kept(save, journal):
    """The text of the save that has what a save and its journal keep; None if there is no save."""
    if save is None:
        return None
    found = says(save, journal)
    if found is None and save.startswith(b"osmrepl-save 3\n"):
        return save
    lines = Lines(save)
    start = read_start(lines)
    objects = {key_of(line): line for line in (lines.next() for _ in range(start.objects))}
    users, changesets = counts_of(lines, b"users"), counts_of(lines, b"changesets")
    number, last_time, first = start.number, start.time, len(start_lines(found)) + 1
    for index, (number, last_time, data) in enumerate(found.batches if found else []):
        try:
            changes = changes_of(data)
        except BadBatch:
            raise BadJournal(first + index) from None
        for change in changes:
            users[change.user] = users.get(change.user, 0) + 1
            changesets[change.changeset] = changesets.get(change.changeset, 0) + 1
            objects.pop(change.key, None)
            if keeps(start, change):
                objects[change.key] = change.line
    return save_text(start, number, last_time, objects, users, changesets)


def start_lines(journal):
    """The lines of a journal before its batches."""
    return [] if journal is None else range(journal.start.lines + 3)


def save_text(start, number, moment, objects, users, changesets):
    keys = b"".join(written(key).encode() + b"\n" for key in start.keys)
    text = b"osmrepl-save 3\nbase %d\nkinds %b\nkeys %d\n%bsequence %d\ntime %b\nobjects %d\n" % (
        start.base, start.kinds.encode(), len(start.keys), keys, number, moment, len(objects))
    text += b"".join(objects[key] + b"\n" for key in sorted(objects))
    for word, counts in ((b"users", users), (b"changesets", changesets)):
        text += b"%b %d\n" % (word, len(counts)) + b"".join(b"%d %d\n" % each for each in sorted(counts.items()))
    return text + b"end\n"


def number_said(save, journal):
    """The number that a save and its journal come to by their first lines."""
    start = read_start(Lines(save))
    if journal:
        _, opening, last, _ = read_opening(Lines(journal))
        return last if save.startswith(opening) else start.number
    return start.number


def other_end(save, journal):
    """The number at which a journal ends by its first lines, if it is another save's and ends above this one, or if there
    is no save: runs are refused beside it. Else None."""
    number = 0 if save is None else read_start(Lines(save)).number
    _, opening, last, _ = read_opening(Lines(journal)) if journal else (None, b"", 0, None)
    return last if last > number and not (save or b"").startswith(opening) else None


def shown(save):
    """What is shown of a save of version 3."""
    start, lists = read_start(Lines(save)), save.partition(b"\nobjects ")[2]
    base = b"base %d\n" % start.base if start.base else b""
    return b"number %d\n%btime %b\nobjects %bheld 0\n" % (start.number, base, start.time, lists.removesuffix(b"end\n"))


def kept_in(files, name="save"):
    """The same of files by their names."""
    return kept(files.get(name), files.get(f"{name}.journal"))
