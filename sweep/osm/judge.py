#!/usr/bin/env python3
"""A second, unproved judge of reply texts: which replies may answer a script, if memory may be refused at any growth?
It shares only the language of scripts with the program and its definitions, and reads the replies one by one, as a
person would. As a program it reads a script, a line `--` and a text, as the proved judge does. It says `allowed`,
`forbidden` or `not judged`, once for each file if files are named. A first line `# filter: w highway` names the filter
of the world: the kinds that are kept, and the keys as lines spell them. It takes any spelling of a line, and leaves the
limits to the program.

The sizes of o5c files are those of files that write a string as a number whenever a number names it."""

import datetime
import functools
import re
import sys
from pathlib import Path
from typing import NamedTuple

MOST_CHANGES = 100_000
MOST_SEQUENCES = 999_999_999
MOST_BYTES = 64 * 1024 * 1024
# A follower at n takes numbers n + 1 to n + WINDOW, and holds those above n + 1.
WINDOW = 64


class NoScript(Exception):
    """A line that is no event."""


class Forbidden(Exception):
    """A reply that is not allowed after those before it."""


def lines_of(text):
    """The pieces between line feeds, each without one carriage return at its end."""
    pieces = text.split(b"\n")
    if not pieces[-1]:
        pieces.pop()
    return [piece[:-1] if piece.endswith(b"\r") else piece for piece in pieces]


# An object's line: any spelling is read, and one is written.

BARE = r"[^\0\t\n\r %,=@]"
PART = re.compile(BARE + r"|%([0-9a-fA-F]{1,8})%")
TEXT = re.compile(rf"(?:{BARE}|%[0-9a-fA-F]{{1,8}}%)*")
ID, DIGITS, COORDINATE = r"(-?[0-9]{1,20})", r"([0-9]{1,20})", r"(-?[0-9]{1,3}(?:\.[0-9]{1,7})?)?"
LISTS = {"n": f"x{COORDINATE} y{COORDINATE}", "w": "N([^ ]*)", "r": "M([^ ]*)"}
LINE = {kind: re.compile(rf"{kind}{ID} v{DIGITS} d([VD]) c{DIGITS} t([^ ]{{20}}) i{DIGITS} u([^ ]*) "
                         rf"T([^ ]*) {fields}") for kind, fields in LISTS.items()}
TAG, REFERENCE = re.compile("([^=]*)=([^=]*)"), re.compile(f"n{ID}")
MEMBER = re.compile(f"([nwr]){ID}@([^@]*)")


@functools.cache
def meant(text):
    """What a text says, each escape as its character."""
    def character(part):
        code = int(part[1], 16) if part[1] else ord(part[0])
        if code == 0 or 0xD800 <= code <= 0xDFFF:
            raise NoScript(text)
        return chr(code)

    if not TEXT.fullmatch(text):
        raise NoScript(text)
    return PART.sub(character, text)


@functools.cache
def written(text):
    """A text as a show writes it: characters that aren't bare ASCII as escapes in lower-case digits."""
    return "".join(c if "!" <= c <= "~" and c not in "%,=@" else f"%{ord(c):02x}%" for c in text)


def parts_of(pattern, text):
    """The values of the parts between commas; no part if the text is empty."""
    matches = [pattern.fullmatch(part) for part in text.split(",")] if text else []
    if None in matches:
        raise NoScript(text)
    return [match.groups() for match in matches]


def units(text):
    """A coordinate in units of 10^-7 degree."""
    whole, _, decimals = text.lstrip("-").partition(".")
    value = int(whole) * 10**7 + int(decimals.ljust(7, "0"))
    return -value if text.startswith("-") else value


def degrees(value):
    """A coordinate as a show writes it, with no needless zeros."""
    digits = f"{abs(value) // 10**7}.{abs(value) % 10**7:07d}".rstrip("0").rstrip(".")
    return "-" + digits if value < 0 else digits


class Change:
    """A change of an object, from its line."""

    def __init__(self, line):
        line = line.decode()
        match = LINE[line[0]].fullmatch(line)
        if not match:
            raise NoScript(line)
        key, version, status, changeset, self.time, user, name, tags, *others = match.groups()
        self.kind, self.is_deletion = line[0], status == "D"
        self.key = ("nwr".index(self.kind), int(key))
        self.version, self.changeset, self.user = int(version), int(changeset), int(user)
        self.name = meant(name)
        if not self.is_deletion:
            self.tags = [(meant(k), meant(v)) for k, v in parts_of(TAG, tags)]
            self.read_others(others)

    def read_others(self, others):
        if self.kind == "n":
            self.location = [units(text) for text in others]
        elif self.kind == "w":
            self.references = [int(key) for key, in parts_of(REFERENCE, others[0])]
        else:
            self.members = [(kind, int(key), meant(role))
                            for kind, key, role in parts_of(MEMBER, others[0])]

    def line(self):
        """The line as a show writes it."""
        status = "D" if self.is_deletion else "V"
        begin = (f"{self.kind}{self.key[1]} v{self.version} d{status} c{self.changeset} "
                 f"t{self.time} i{self.user} u{written(self.name)} T")
        if self.is_deletion:
            return begin + {"n": " x y", "w": " N", "r": " M"}[self.kind]
        return begin + ",".join(f"{written(k)}={written(v)}" for k, v in self.tags) + self.others()

    def others(self):
        if self.kind == "n":
            return " x{} y{}".format(*map(degrees, self.location))
        if self.kind == "w":
            return " N" + ",".join(f"n{key}" for key in self.references)
        return " M" + ",".join(f"{kind}{key}@{written(role)}" for kind, key, role in self.members)


class Filter(NamedTuple):
    """The kinds that are kept, and the keys of which an object has to have one, if there are any."""
    kinds: str = "nwr"
    keys: frozenset[str] = frozenset()

    def keeps(self, change):
        """Whether the change leaves an object that is kept."""
        if change.is_deletion or change.kind not in self.kinds:
            return False
        return not self.keys or any(key in self.keys for key, _ in change.tags)


EVERYTHING = Filter()
NAMED = re.compile(rb"# filter: (.*)\n")


def filter_of(words):
    """The filter that words name: the kinds, and the keys as lines spell them."""
    return Filter(words[0], frozenset(map(meant, words[1:]))) if words else EVERYTHING


# Events: each line of a script is one of these.

EVENT = re.compile(
    rb"(?P<edit>edit) (?P<line>[nwr].*)|(?P<close>close) (?P<time>[^ ]{20})"
    rb"|(?P<deliver>deliver) (?P<number>[0-9]{1,9}) (?:opl|o5c)"
    rb"|(?P<save>save)|(?P<restart>restart)|(?P<begin>begin) (?P<first>[0-9]{1,9})|(?P<show>show)",
    re.DOTALL,
)


def events_of(script):
    """The word of each event, and what follows it."""
    for line in lines_of(script):
        if not line or line.startswith(b"#"):
            continue
        match = EVENT.fullmatch(line)
        if not match:
            raise NoScript(line)
        word = line.split(b" ")[0].decode()
        try:
            yield word, {"edit": lambda: Change(match["line"]), "close": lambda: match["time"],
                         "deliver": lambda: int(match["number"]),
                         "begin": lambda: int(match["first"])}.get(word, lambda: None)()
        except (ValueError, IndexError, KeyError, AttributeError):
            raise NoScript(line) from None


class World:
    """What the replies so far say. An event's method gives the replies that are allowed now: a dictionary from
    a reply's text to what the reply does, or to None if it changes nothing."""

    def __init__(self, kept_by):
        self.kept_by = kept_by
        self.pending, self.published = [], []
        self.saved, self.saved_base = None, 0
        self.restart_at(0, 0)

    def restart_at(self, number, base):
        self.number, self.base = number, base
        self.held, self.broken = set(), False

    def edit(self, change):
        if len(self.pending) == MOST_CHANGES:
            return {"batch full": None}
        return {"edited": lambda: self.pending.append(change), "no memory": None}

    def close(self, time):
        if len(self.published) == MOST_SEQUENCES:
            return {"sequence full": None}
        if self.published and time < self.published[-1][1]:
            return {"time back": None}
        if max(opl_size(self.pending), o5c_size(self.pending)) > MOST_BYTES:
            return {"too large": None, "no memory": None}
        return {f"closed {len(self.published) + 1}": lambda: self.publish(time), "no memory": None}

    def publish(self, time):
        self.published.append((self.pending, time))
        self.pending = []

    def deliver(self, number):
        if not 1 <= number <= len(self.published):
            return {"not published": None}
        if self.broken:
            return {"broken": None}
        if number <= self.number:
            return {"old": None}
        if number in self.held:
            return {"again": None}
        if number > self.number + WINDOW:
            return {"too early": None}
        if number > self.number + 1:
            replies = {"held": lambda: self.held.add(number)}
        else:
            replies = self.apply(number)
        if self.published[number - 1][0]:
            replies["no memory"] = None
        return replies

    def apply(self, low):
        """The replies if that sequence and the held ones after it are applied."""
        high = low
        while high + 1 in self.held:
            high += 1
        replies = {f"applied {low}..{high}": lambda: self.apply_to(high)}
        if self.needs_new_entry(high):
            replies["broke"] = self.break_off
        return replies

    def apply_to(self, high):
        self.number = high
        self.held = {number for number in self.held if number > high}

    def break_off(self):
        self.broken = True

    def needs_new_entry(self, high):
        """Whether a change up to that number is the first one of its user or changeset, or brings an
        object to keep whose key has none: nothing else takes memory once an application has begun."""
        objects, users, changesets = self.content()
        for change in self.changes_up_to(high)[len(self.changes_up_to(self.number)):]:
            if change.user not in users or change.changeset not in changesets:
                return True
            is_kept = self.kept_by.keeps(change)
            if is_kept and change.key not in objects:
                return True
            if not is_kept:
                objects.pop(change.key, None)
        return False

    def save(self, _):
        if self.broken:
            return {"broken": None}
        return {f"saved {self.number}": self.keep_number, "no memory": None}

    def keep_number(self):
        self.saved, self.saved_base = self.number, self.base

    def restart(self, _):
        start, base = self.saved or 0, self.saved_base
        replies = {f"restarted {start}": lambda: self.restart_at(start, base)}
        if self.saved is not None:
            replies["no memory"] = self.break_off
        return replies

    def begin(self, number):
        if not 1 <= number <= len(self.published):
            return {"not published": None}
        return {f"begun {number}": lambda: self.restart_at(number, number), "no memory": None}

    def show(self, _):
        if self.broken:
            return {"broken": None}
        return {self.view(): None, "no memory": None}

    def changes_up_to(self, number):
        return [change for changes, _ in self.published[:number] for change in changes]

    def content(self):
        """The objects of the follower, and its counts: all those of the sequences after its base."""
        changes = self.changes_up_to(self.number)
        after = changes[len(self.changes_up_to(self.base)):]
        left = content(changes)[0]
        return {key: left[key] for key in left if self.kept_by.keeps(left[key])}, *content(after)[1:]

    def view(self):
        objects, users, changesets = self.content()
        time = self.published[self.number - 1][1].decode() if self.number else "none"
        lines = [f"number {self.number}"] + [f"base {self.base}"] * (self.base > 0)
        lines += [f"time {time}", f"objects {len(objects)}"]
        lines += [objects[key].line() for key in sorted(objects)]
        for name, counts in (("users", users), ("changesets", changesets)):
            lines += [f"{name} {len(counts)}"] + [f"{n} {counts[n]}" for n in sorted(counts)]
        lines += [f"held {len(self.held)}"] + [str(number) for number in sorted(self.held)]
        return "\n".join(lines)


def content(changes):
    """The objects that the changes leave, and how many edits each user and each changeset has."""
    objects, users, changesets = {}, {}, {}
    for change in changes:
        objects.pop(change.key, None)
        if not change.is_deletion:
            objects[change.key] = change
        users[change.user] = users.get(change.user, 0) + 1
        changesets[change.changeset] = changesets.get(change.changeset, 0) + 1
    return objects, users, changesets


# The sizes of the two change files of a batch.

def opl_size(changes):
    return sum(len(change.line()) + 1 for change in changes)


def varint_size(value):
    """How many bytes an unsigned number takes."""
    return max(1, -(-value.bit_length() // 7))


def zigzag_size(value):
    """How many bytes a signed number takes."""
    return varint_size(2 * value if value >= 0 else -2 * value - 1)


class Counters(dict):
    """The last value of each field; a number is written as its difference to it."""

    def step(self, name, value):
        difference = value - self.get(name, 0)
        self[name] = value
        return zigzag_size(difference)


class Strings:
    """The strings that were entered, each with the count at its last entry; one that a number up to 15,000
    names is written as that number, and any other in line."""

    def __init__(self):
        self.count, self.places = 0, {}

    def step(self, *parts):
        place = self.places.get(parts)
        if place is not None and self.count - place <= 15_000:
            return varint_size(self.count - place)
        if sum(map(len, parts)) <= 250:
            self.places[parts] = self.count
            self.count += 1
        return 1 + sum(len(part) + 1 for part in parts)


def varint_bytes(value):
    """An unsigned number, the least significant seven bits first."""
    return bytes([value % 128 + 128]) + varint_bytes(value // 128) if value > 127 else bytes([value])


def o5c_size(changes):
    """The beginning, the objects with their types and lengths, a reset between kinds, the end."""
    size, counters, strings, kind = 7 + 1, Counters(), Strings(), None
    for change in changes:
        if kind not in (None, change.kind):
            size, counters, strings = size + 1, Counters(), Strings()
        kind = change.kind
        content = content_size(change, counters, strings)
        size += 1 + varint_size(content) + content
    return size


def content_size(change, counters, strings):
    seconds = datetime.datetime.fromisoformat(change.time[:-1] + "+00:00").timestamp()
    size = counters.step("id", change.key[1]) + varint_size(change.version)
    size += counters.step("time", int(seconds)) + counters.step("changeset", change.changeset)
    size += strings.step(varint_bytes(change.user), change.name.encode())
    if change.is_deletion:
        return size
    if change.kind == "n":
        longitude, latitude = change.location
        size += counters.step("longitude", longitude) + counters.step("latitude", latitude)
    else:
        part = part_size(change, counters, strings)
        size += varint_size(part) + part
    return size + sum(strings.step(k.encode(), v.encode()) for k, v in change.tags)


def part_size(change, counters, strings):
    if change.kind == "w":
        return sum(counters.step("reference", key) for key in change.references)
    return sum(counters.step(kind, key) + strings.step((kind + role).encode())
               for kind, key, role in change.members)


def judge(script, text, kept_by=EVERYTHING):
    """Raises Forbidden if a reply isn't allowed after those before it."""
    world, rest = World(kept_by), text
    for word, value in list(events_of(script)):
        replies = getattr(world, word)(value)
        for reply, effect in replies.items():
            line = reply.encode() + b"\n"
            if rest.startswith(line):
                break
        else:
            raise Forbidden(f"{rest[:80]!r} to {word} {value!r}, not one of {list(replies)!r}")
        if effect:
            effect()
        rest = rest[len(line):]
    if rest:
        raise Forbidden(f"{rest[:80]!r} to no event")


def judged(answer):
    script, text = re.split(rb"^--\n", answer, maxsplit=1, flags=re.MULTILINE)
    named = NAMED.match(script)
    try:
        judge(script, text, filter_of(named[1].decode().split(" ") if named else []))
        return "allowed"
    except Forbidden:
        return "forbidden"
    except NoScript:
        return "not judged"


def main():
    for path in sys.argv[1:]:
        print(f"{path} {judged(Path(path).read_bytes())}")
    if not sys.argv[1:]:
        print(judged(sys.stdin.buffer.read()))


if __name__ == "__main__":
    main()
