"""OPL text, looked at in blocks of whole lines and never line by line: who has no author, what can't be followed, and
what another form can't hold.

osmium writes the fields of a line in one order and escapes each blank in them, so ` c0 t` is a changeset of nobody and
nothing else."""

import re
from collections.abc import Iterator
from dataclasses import dataclass, field
from typing import BinaryIO

from .faults import Fault

# The number of whoever has none: the greatest that osmium, osmosis and an integer column take.
NOBODY = 2147483647
BLOCK = 1 << 20

NO_CHANGESET, NO_USER = b" c0 t", b" i0 u"
BY_NOBODY, BY_NO_USER = b" c%d t" % NOBODY, b" i%d u" % NOBODY
# what no follower takes, and how it is called
FIELDS = {"version": b" v0 d", "time": b" t i"}

# the least number of a field that osmium writes wrong into a form, or as no reader of it takes it
LEAST = {"XML": {"version": 1 << 31, "changeset": (1 << 32) - 1, "user id": (1 << 32) - 1},
         "PBF": {"version": 1 << 31, "changeset": (1 << 32) - 1, "user id": 1 << 31},
         "OPL": {"version": 1 << 31}}
NUMBERED = {b"v": "version", b"c": "changeset", b"i": "user id"}
LARGE = re.compile(rb" ([vci])([2-4][0-9]{9}) [dtu]")
# the characters that XML hasn't: escaped as osmrepl writes them, as it reads them, and bare
WRITTEN = re.compile(rb"%(?:0[1-8bcef]|1[0-9a-f]|fff[ef])(?=%)")
ESCAPED = re.compile(rb"%0*(?:[1-8bcefBCEF]|1[0-9a-fA-F]|[fF]{3}[eEfF])(?=%)")
BARE = re.compile(rb"[\x01-\x08\x0b\x0c\x0e-\x1f]|\xef\xbf[\xbe\xbf]")
PACKED = r"(\.(gz|bz2))?$"


@dataclass
class Tally:
    """What was found in a text."""

    lines: int = 0
    no_user: int = 0
    no_changeset: int = 0
    # the first object that lacks a field, as `version` and `n12`
    lacks: dict[str, str] = field(default_factory=dict)

    def take(self, text: bytes) -> None:
        """Takes note of all of a text."""
        self.lines += text.count(b"\n")
        self.take_authors(text)
        for name, mark in FIELDS.items():
            self.note(name, mark, text)

    def take_authors(self, text: bytes) -> bool:
        """Takes note of who has no author. Gives whether somebody hasn't."""
        no_user, no_changeset = text.count(NO_USER), text.count(NO_CHANGESET)
        self.no_user += no_user
        self.no_changeset += no_changeset
        return no_user > 0 or no_changeset > 0

    def note(self, name: str, mark: bytes, text: bytes) -> None:
        if name not in self.lacks and mark in text:
            self.lacks[name] = object_at(text, text.index(mark))

    @property
    def has_nobody(self) -> bool:
        return self.no_user > 0 or self.no_changeset > 0


def lacks_of(line: bytes) -> str | None:
    """The first field that a line lacks: `version`."""
    return next((name for name, mark in FIELDS.items() if mark in line), None)


def object_at(text: bytes, place: int) -> str:
    """The object of the line of a place: `n12`."""
    start = text.rfind(b"\n", 0, place) + 1
    return text[start:place].split(b" ", 1)[0].decode("ascii", "replace")


def form_of(name: str) -> str:
    """The form that a name says to osmium, as far as it matters to what that can hold."""
    return "PBF" if name.endswith(".pbf") else "OPL" if re.search(rf"\.opl{PACKED}", name) else "XML"


def check(text: bytes, form: str, file: object, way: str, is_own: bool = True) -> None:
    """Refuses what a form can't hold as osmium writes it, with the file that has it and a way out. A text that osmrepl
    wrote, which escapes in one way alone, is looked at in less time."""
    for place, what, value in unheld(text, form, is_own):
        name = object_at(text, place)
        if not name.startswith("#"):
            raise Fault(f"{file}: {name}: a {what} that {form} can't hold ({value}); {way}")


def unheld(text: bytes, form: str, is_own: bool) -> Iterator[tuple[int, str, str]]:
    """The numbers and characters that a form can't hold: the place of each, what it is, and its value."""
    for found in LARGE.finditer(text):
        name = NUMBERED[found[1]]
        if int(found[2]) >= LEAST[form].get(name, 1 << 32):
            yield found.start(), name, found[2].decode()
    if form != "XML":
        return
    for found in (WRITTEN if is_own else ESCAPED).finditer(text):
        if begins_escape(text, found.start()):
            yield found.start(), "character", f"{found[0].decode()}%"
    if not is_own:
        for found in BARE.finditer(text):
            yield found.start(), "character", escape(found[0].decode())


def begins_escape(text: bytes, place: int) -> bool:
    """Whether a percent sign begins an escape: that of `a%1%`, and not the second one of `%20%1%20%`."""
    start = max(text.rfind(b" ", 0, place), text.rfind(b"\n", 0, place)) + 1
    return text.count(b"%", start, place) % 2 == 0


def with_nobody(text: bytes) -> bytes:
    """A text whose objects have the number of nobody in place of none."""
    return text.replace(NO_CHANGESET, BY_NOBODY).replace(NO_USER, BY_NO_USER)


def without_nobody(text: bytes) -> bytes:
    """The opposite: what others are given."""
    return text.replace(BY_NOBODY, NO_CHANGESET).replace(BY_NO_USER, NO_USER)


def blocks_of(file: BinaryIO, size: int = BLOCK) -> Iterator[bytes]:
    """The blocks of a file, each of whole lines; the last line may have no line feed."""
    rest = b""
    while block := file.read(size):
        end = block.rfind(b"\n") + 1
        if end == 0:
            rest += block
            continue
        yield rest + block[:end]
        rest = block[end:]
    if rest:
        yield rest


def unescape(text: str) -> str:
    """A text as it is: `a b` of `a%20%b`."""
    return re.sub(r"%([0-9a-fA-F]{1,6})%", lambda found: chr(int(found[1], 16)), text)


def escape(text: str) -> str:
    """A text for a line of its own, as OPL escapes it."""
    return "".join(letter if is_bare(letter) else f"%{ord(letter):02x}%" for letter in text)


def is_bare(letter: str) -> bool:
    return letter.isprintable() and letter not in " %,=@#"
