"""Begins a mirror with a data file and its server: finds the number of the file, makes an OPL file of it, has osmrepl
begin with that, and writes SAVE.source."""

import argparse
import contextlib
import os
from collections.abc import Iterator
from dataclasses import dataclass
from datetime import datetime, timedelta
from pathlib import Path

from . import files, locks, opl, program
from . import source as sources
from . import state
from .client import Client
from .converter import Converter
from .faults import DONE, Fault, one_line
from .folder import Folder
from .numbering import Numbers
from .options import add_renumber, add_server_options, address, folder, kinds, options_of, sequence
from .output import LOG, print_lines
from .progress import Progress
from .renumber import Renumbering
from .server import Server
from .source import Source
from .state import State, time_text
from .stop import Stop

# a state's time says that all edits up to it are in; an edit's own time may be that of its upload's start
BACK = timedelta(hours=1)

HELP = """\
FILE is whatever osmium reads: .osm.pbf, .osm.bz2, .o5m, .opl and others. Its server and its number
are those of the header of an .osm.pbf file. If it says none, --url names the server, and the number
is the last one whose time isn't after that of the header, or, if that says none, an hour before the
newest object. --sequence says the number.

The diffs of the server have to be of the area of FILE. SAVE is written as osmrepl begin writes it,
with the filter of KEY .. and --kinds, and SAVE.source beside it, from which fetch, mirror and
export take what they need.

With --renumber the numbers of the folder are its own, so that diffs of any size can be followed.

An object without user or changeset gets the number 2147483647 in its place, unless --strict refuses
it. One without version or time is refused. Locations on ways are dropped, and changesets.

As in
  osmrepl-planet start extract.osm.pbf follower.save
  osmrepl-planet start extract.osm.bz2 roads.save highway --kinds w --url https://diffs.example/minute

Status 0: done; 2: the words are refused; 3: any other fault; 4: another run is at work on SAVE."""


@dataclass(frozen=True)
class Header:
    """What the header of a data file says."""

    url: str | None
    sequence: int | None
    time: datetime | None
    is_history: bool
    has_locations: bool


def add_words(parser: argparse.ArgumentParser) -> None:
    parser.add_argument("file", metavar="FILE", type=Path, help="the data file")
    parser.add_argument("save", metavar="SAVE", type=Path,
                        help="the mirror that is written; what it held before is replaced")
    parser.add_argument("keys", metavar="KEY", nargs="*",
                        help="keeps the objects that have a tag with one of these keys")
    parser.add_argument("--kinds", metavar="KINDS", type=kinds, default=sources.DEFAULT_KINDS,
                        help="keeps the objects of these kinds: some of n, w and r, in this order (nwr)")
    parser.add_argument("--url", metavar="URL", type=address, help="the server: the folder of its state.txt")
    parser.add_argument("--sequence", metavar="N", type=sequence, help="the number that FILE is of")
    parser.add_argument("--dir", metavar="DIR", type=folder, help="the folder for the numbers (SAVE.diffs)")
    add_renumber(parser)
    add_server_options(parser)


def run(words: argparse.Namespace, stop: Stop) -> int:
    return Start(words, stop).run()


class Start:
    """The steps of a start, in their order."""

    def __init__(self, words: argparse.Namespace, stop: Stop) -> None:
        self.words, self.stop, self.file, self.save = words, stop, words.file, words.save
        self.options = options_of(words)
        self.program = program.Program()
        program.need_osmium()
        self.said: list[str] = []

    def run(self) -> int:
        with files.reading(self.file), files.open_file(self.file):
            pass
        lead = files.lead_of(self.save)
        with locks.held(locks.of_save(self.save), locks.save_in_use(self.save)) as lock:
            with files.Room(lead.parent, f".{lead.name}.start.") as room:
                with Converter() as converter:
                    with Progress(f"looking at {self.file}"):
                        header = self.header(converter)
                    source = self.source(header)
                    found = self.state(source, header, converter)
                base = self.base(room, header)
                with self.renumbering(source) as renumbering:
                    if source.renumber:
                        renumbering.check_folder(found.number)
                    self.begin(room, base, found, source, lock)
                    if renumbering:
                        self.restart(source, found, renumbering)
                    sources.write(self.save, source)
        return self.report()

    def header(self, converter: Converter) -> Header:
        found = converter.about("header", self.file)
        time = state.read_time(found["time"]) if found["time"] else None
        header = Header(found["url"], found["sequence"], time, found["is_history"], found["has_locations"])
        if header.is_history:
            raise self.is_history()
        if program.is_misread(self.file):
            raise Fault(f"{self.file}: a role of 250 bytes, at which osmium misreads this form; osmconvert {self.file} "
                        "-o=FILE.osm.pbf makes a file that it reads")
        return header

    def source(self, header: Header) -> Source:
        """The source that SAVE.source will have."""
        url = self.words.url
        if url is None and header.url is None:
            raise Fault(f"{self.file}: its header names no server (--url URL names it)")
        try:
            url = url or address(header.url)
        except argparse.ArgumentTypeError as error:
            cause = one_line(str(error))
            raise Fault(f"{self.file}: the server of its header: {cause} (--url URL names another)") from error
        source = Source(url, sources.usual_folder(self.save), kinds=self.words.kinds, keys=tuple(self.words.keys))
        source = source.over(self.options)
        sources.check(self.save, source)
        self.check_folder(source)
        self.said.append(f"source {url}")
        return source

    def check_folder(self, source: Source) -> None:
        """The numbers of another server in the folder would be followed like the right ones."""
        before, place = self.before(), Folder(source.folder)
        known = place.server
        if before is None or before.folder != source.folder:
            place.check_numbers()
        elif place.newest():
            known = known or before.url
        if known not in (None, source.url):
            raise Fault(f"{place.path}: has numbers of {known}, not of {source.url}; remove it, or name another folder "
                        "by --dir")

    def before(self) -> Source | None:
        """The source that SAVE had, if it can be read."""
        try:
            return sources.read(self.save)
        except Fault:
            return None

    @contextlib.contextmanager
    def renumbering(self, source: Source) -> Iterator[Renumbering | None]:
        """Keeps others out of the folder, if there are numbers of its own or are to be."""
        place, numbers = Folder(source.folder), Numbers(self.save)
        if not (source.renumber or place.is_renumbered or numbers.is_there):
            yield None
            return
        with place.entered(), locks.folder_held(place.path) as lock:
            yield Renumbering(numbers, place, lock)

    @staticmethod
    def restart(source: Source, found: State, renumbering: Renumbering) -> None:
        """Has the folder and the list say where the new mirror begins. The list of the old one goes last: until then
        it is known not to belong to the new one."""
        if source.renumber:
            renumbering.switch_on(found.number, found.time)
            return
        if renumbering.folder.is_renumbered:
            renumbering.folder.restart(found.number, found.time, is_renumbered=False)
        files.remove(renumbering.numbers.path)

    def state(self, source: Source, header: Header, converter: Converter) -> State:
        """The state that the mirror begins at. It isn't after the time of the file."""
        with Client(source.settings(), self.stop) as client, Progress(f"asking {source.url}"):
            server = Server(source.url, client)
            number = self.words.sequence
            if number is None and header.url and header.url.rstrip("/") == source.url:
                number = header.sequence
            if number is not None:
                found = self.state_of(server, number, header)
            else:
                found = self.stop.apart(server.find, self.time(header, converter))
        if found.number == 0:
            raise Fault(f"{source.url}: number 0 is no number to begin at; take a newer extract")
        self.said.append(f"state {found.number} {time_text(found.time)}")
        LOG.info("%s is of number %d", self.file, found.number)
        return found

    def state_of(self, server: Server, number: int, header: Header) -> State:
        """The state of a number that was named."""
        self.stop.apart(server.newest)
        found = self.stop.apart(server.state, number)
        if found is None:
            raise Fault(f"{server.base}/{state.path_of(number, 'state.txt')}: not there (the server no longer has the "
                        "number of the file; take a newer extract)")
        if header.time is None:
            self.said.append("the time of the state wasn't compared: the file's header has none")
        elif found.time > header.time:
            out = "without --sequence it is found by the time" if self.words.sequence else "--sequence N says another"
            raise Fault(f"{server.url}: number {number} is of {time_text(found.time)}, after the file, which is of "
                        f"{time_text(header.time)} ({out})")
        return found

    def time(self, header: Header, converter: Converter) -> datetime:
        """The time by which the number is looked for."""
        if header.time:
            return header.time
        text = converter.about("newest", self.file)["time"]
        time = state.read_time(text) if text else None
        if time is None:
            raise Fault(f"{self.file}: its objects have no times, so no number can be found (--sequence N says it)")
        return time - BACK

    def base(self, room: Path, header: Header) -> Path:
        """Makes the OPL file of the data file, in which each object has an author."""
        base, tally, size = room / "base.opl", opl.Tally(), 0
        # changesets are no objects
        kinds = ("-t", "node", "-t", "way", "-t", "relation")
        with program.osmium_cat(os.path.abspath(self.file), *kinds, "-f", "opl", "-o", "-", of=self.file) as text:
            with files.writing(base), open(base, "wb") as out, Progress("read", unit=" MiB") as progress:
                for block in opl.blocks_of(text):
                    self.stop.check()
                    out.write(self.with_authors(block, tally))
                    size += len(block)
                    progress.show(size >> 20)
        LOG.info("converted %d MiB", size >> 20)
        self.note(tally, header)
        return base

    def with_authors(self, block: bytes, tally: opl.Tally) -> bytes:
        if not tally.take_authors(block):
            return block
        if self.words.strict:
            raise Fault(f"{self.file}: objects without user or changeset, which --strict refuses")
        return opl.with_nobody(block)

    def note(self, tally: opl.Tally, header: Header) -> None:
        if tally.has_nobody:
            self.said.append(f"without user {tally.no_user}, without changeset {tally.no_changeset}: "
                             f"they have the number {opl.NOBODY}")
        if header.has_locations:
            self.said.append("the locations on ways are dropped")

    def is_history(self) -> Fault:
        return Fault(f"{self.file}: a file with history; osmium time-filter {files.word_of(self.file)} -o "
                     "current.osm.pbf makes one without it")

    def begin(self, room: Path, base: Path, found: State, source: Source, lock: int) -> None:
        text = room / "state.txt"
        with files.writing(text):
            text.write_bytes(found.text)
        self.forget(source)
        self.stop.check()
        # if this run is killed alone, the program still writes: nobody may enter before it ends
        words = ["begin", "--no-lock", "--kinds", source.kinds, "--", base, text, self.save, *source.keys]
        with Progress("osmrepl begin"):
            done = self.program.run(*words, kept=(lock,), stop=self.stop)
        if done.status != 0:
            raise self.fault_of(done, base)
        self.said += done.output.splitlines()

    def forget(self, source: Source) -> None:
        """A source of another server isn't left beside a new save, whatever happens next."""
        path, before = sources.path_of(self.save), self.before()
        if path.exists() and (before is None or before.url != source.url):
            files.remove(path)

    def fault_of(self, done: program.Run, base: Path) -> Fault:
        """The fault of `osmrepl begin`, said of the file that the person knows."""
        text = "; ".join(done.faults())
        if "base: at " not in text:
            return Fault(text.replace(str(base), str(self.file)), done.status)
        place, _, cause = text.partition("base: at ")[2].partition(": ")
        return self.fault_at(base, place, cause.split(" (", 1)[0])

    def fault_at(self, base: Path, place: str, cause: str) -> Fault:
        """The fault of an object, with the command that mends it."""
        before, line = lines_at(base, int(place)) if place.isdigit() else (b"", b"")
        name, lacks = object_of(line), opl.lacks_of(line)
        if cause == "Deleted" or (cause == "OutOfOrder" and object_of(before) == name):
            return self.is_history()
        if cause == "OutOfOrder":
            return Fault(f"{self.file}: not sorted ({name} is after {object_of(before)}); osmium sort "
                         f"{files.word_of(self.file)} -o sorted.osm.pbf sorts it")
        if lacks:
            return Fault(f"{self.file}: objects without {lacks} (the first is {name}); take an extract with metadata")
        return Fault(f"{self.file}: {name}: {cause}")

    def report(self) -> int:
        print_lines([*self.said, f"next: osmrepl-planet mirror {files.word_of(self.save)}"])
        return DONE


def object_of(line: bytes) -> str:
    return line.split(b" ", 1)[0].decode("ascii", "replace")


def lines_at(base: Path, place: int) -> tuple[bytes, bytes]:
    """The line before a place, and that at it."""
    before = line = b""
    with open(base, "rb") as file:
        for number, found in enumerate(file, 1):
            before, line = line, found
            if number >= place:
                break
    return before, line
