"""Brings the numbers that a folder lacks from a replication server: downloads some numbers ahead, over a few
connections, has each diff converted, and puts the files in their places lot by lot."""

import queue
import threading
from collections import deque
from concurrent.futures import Future, wait
from dataclasses import dataclass, field
from pathlib import Path

from . import files, program
from . import source as sources
from .client import CONNECTIONS, KeptAway
from .converter import Converted, Converter
from .faults import Fault, Stopped
from .folder import Folder, Lot
from .output import LOG, ranges_text
from .progress import Progress
from .server import Server
from .source import FORMS, Source
from .state import State
from .stop import Stop
from .threads import Threads

AHEAD = 8
# how many diffs are converted at the same time
CONVERTERS = 2
# how long a wait is before anything else is looked at
TICK = 0.2
# how long the end of a run waits for what is under way
PATIENCE = 2
# how many numbers in a row the server may lack
MOST_MISSING = 64
OTHER_SERVER = "follow a server that hands it on"


class Missing(Exception):
    """The server has no changes of a number."""


@dataclass
class Download:
    """What came of the requests for a number: its state and its changes in a file, or that it isn't there; and of their
    conversion."""

    number: int
    state: State | None = None
    file: Path | None = None
    form: str = ""
    size: int = 0
    converted: Converted | None = None


@dataclass
class Outcome:
    """What a run brought, as which numbers if the folder has its own, what the server lacks, and what went wrong."""

    fetched: list[int] = field(default_factory=list)
    published: list[int] = field(default_factory=list)
    missing: list[int] = field(default_factory=list)
    faults: list[Fault] = field(default_factory=list)
    top: State | None = None
    no_user: int = 0
    no_changeset: int = 0
    is_stopped: bool = False


@dataclass(frozen=True)
class Job:
    """What a run works for: a source, its folder, a room there, and the save, if the folder is that of one."""

    source: Source
    folder: Folder
    room: Path
    stop: Stop
    save: Path | None = None


class Listener:
    """Whoever wants to know what is put in the folder, and is asked now and then while nothing is."""

    def placed(self, number: int, size: int) -> None:
        """A lot is there, up to a number, with so many bytes of changes."""

    def tick(self) -> None:
        """Some time went by."""


class Fetcher:
    """A run over the numbers `first` to the server's newest."""

    # whether diffs of any size are taken
    is_cut = False

    def __init__(self, job: Job, server: Server, listener: Listener) -> None:
        self.job, self.server, self.listener = job, server, listener
        self.folder, self.room, self.stop = job.folder, job.room, job.stop
        self.form, self.strict = job.source.form or FORMS[0], job.source.strict
        self.outcome = Outcome()
        self.lot = Lot(self.folder, self.room)
        self.slots: queue.SimpleQueue[Path] = queue.SimpleQueue()
        for place in range(AHEAD + 1):
            self.slots.put(self.room / f"diff-{place}")
        self.downloading, self.converting = Threads(CONNECTIONS), Threads(CONVERTERS)
        # the one that was used last is used first: a short run needs no other
        self.converters = [Converter() for _ in range(CONVERTERS)]
        self.idle: queue.LifoQueue[Converter] = queue.LifoQueue()
        for converter in self.converters:
            self.idle.put(converter)
        # the numbers that are under way, in their order
        self.waiting: deque[tuple[int, Future | None]] = deque()
        # the last number that is there, and whether all were asked for
        self.last: int | None = None
        self.is_through = self.is_over = self.is_form_kept = self.is_form_known = False
        # while no form is known, one number at a time looks for it
        self.form_lock = threading.Lock()

    def run(self, first: int, top: State) -> Outcome:
        """Brings the numbers. What was brought before a fault or a signal is put in its place."""
        self.outcome.top = top
        try:
            self.bring_all(first, top.number)
        except Stopped:
            self.outcome.is_stopped = True
        except Fault as fault:
            self.note(fault)
        finally:
            self.end()
        try:
            self.put()
        except Fault as fault:
            self.note(fault)
        return self.outcome

    def end(self) -> None:
        """Ends what is still under way, so that nothing is written into the room any more."""
        for threads in self.downloading, self.converting:
            threads.shutdown(wait=False, cancel_futures=True)
        self.server.client.end()
        for converter in self.converters:
            converter.kill()
        left = {future for _, future in self.waiting if future and not future.cancelled()}
        wait(left, PATIENCE)

    def note(self, fault: Fault) -> None:
        self.outcome.faults.append(fault)
        if isinstance(fault, KeptAway):
            self.folder.keep_away(self.job.source.url, fault)

    def bring_all(self, first: int, top: int) -> None:
        waiting, following, under_way = self.waiting, first, 0
        with Progress("fetched", top - first + 1) as progress:
            progress.show(0)
            while not self.is_over and (waiting or following <= top):
                while following <= top and under_way < AHEAD and len(waiting) < 4096:
                    future = self.begin(following)
                    under_way += future is not None
                    waiting.append((following, future))
                    following += 1
                number, future = waiting[0]
                self.stop.check()
                if future:
                    self.take(self.wait_for(self.wait_for(future)))
                    under_way -= 1
                waiting.popleft()
                if number not in self.outcome.missing[-1:]:
                    self.last = number
                if self.lot.is_full:
                    self.put()
                progress.show(number - first + 1)
        self.is_through = True

    def wait_for(self, future: Future) -> Future | Download:
        """Waits for some work. Meanwhile what is there gets its place now and then, and a signal ends the wait."""
        while not future.done():
            wait({future}, TICK)
            self.stop.check()
            if self.lot.is_full:
                self.put()
            self.listener.tick()
        return future.result()

    def begin(self, number: int) -> Future | None:
        """Begins the download of a number, unless the folder has it. What comes of it is its conversion."""
        has_changes = self.folder.has_changes(number)
        if has_changes and self.folder.has(number, "state.txt"):
            return None
        said = None if has_changes else self.folder.refusal(number)
        if said is not None:
            self.outcome.faults.append(Fault(said))
            return None
        return self.downloading.submit(self.download_and_convert, number, not has_changes)

    def download_and_convert(self, number: int, with_changes: bool) -> Future:
        return self.converting.submit(self.convert, self.download(number, with_changes))

    def download(self, number: int, with_changes: bool) -> Download:
        found = self.server.state(number)
        if found is None or not with_changes:
            return Download(number, found)
        # a few files are written over again and again: new ones for each diff are slow on some file systems
        slot = self.slots.get()
        try:
            if self.job.source.form or self.is_form_known:
                return self.bring(found, slot)
            with self.form_lock:
                return self.bring(found, slot)
        except Missing:
            self.slots.put(slot)
            return Download(number)

    def bring(self, state: State, slot: Path) -> Download:
        """Brings the changes of a number, in the form of the others or in another."""
        for form in (self.form, *(form for form in FORMS if form != self.form)):
            file = slot.with_name(f"{slot.name}.{form}")
            size = self.server.changes(state.number, form, file)
            if size is not None:
                self.form, self.is_form_known = form, True
                return Download(state.number, state, file, form, size)
        raise Missing

    def convert(self, download: Download) -> Download:
        """Makes the changes of a number that was downloaded what a folder has."""
        if download.file is None:
            return download
        url = self.server.changes_url(download.number, download.form)
        if download.form != "osc.gz":
            check_published(url, download.file, self.room)
            return download
        converter = self.idle.get()
        try:
            text = self.room / f"{download.number}.opl"
            download.converted = converter.convert(url, download.file, text, self.strict, self.is_cut)
        finally:
            self.idle.put(converter)
        return download

    def take(self, download: Download) -> None:
        """Adds a number that was downloaded to the lot."""
        if download.state is None:
            self.lack(download.number)
            return
        if download.file is None:
            self.lot.add(download.state, None, "", 0)
            self.outcome.fetched.append(download.number)
            return
        self.keep_form(download.form)
        if download.converted:
            self.take_diff(download, download.converted)
        else:
            self.take_published(download)
        self.slots.put(download.file.with_name(download.file.name.removesuffix(f".{download.form}")))

    def keep_form(self, form: str) -> None:
        """Notes the form of the first changes that came: the others are asked for in that form first."""
        if self.job.source.form is None and not self.is_form_kept and self.job.save:
            sources.keep_form(self.job.save, form)
        self.is_form_kept = True

    def take_diff(self, download: Download, found: Converted) -> None:
        if found.reason:
            self.refuse(download.state, download.file, found.reason)
            return
        self.outcome.no_user += found.no_user
        self.outcome.no_changeset += found.no_changeset
        self.lot.converted += found.changes
        self.add(download.state, self.room / f"{download.number}.opl", "opl", download.size, found.bytes)

    def take_published(self, download: Download) -> None:
        """Takes a file that `osmrepl publish` wrote as it is."""
        state = download.state
        changes = self.room / f"{state.number}.{download.form}"
        with files.writing(changes):
            download.file.rename(changes)
        self.add(state, changes, download.form, download.size, download.size)

    def add(self, state: State, changes: Path, form: str, size: int, length: int) -> None:
        self.lot.add(state, changes, form, size)
        self.lot.changes += length
        self.outcome.fetched.append(state.number)

    def refuse(self, state: State, slot: Path, reason: str) -> None:
        """Keeps a diff that no follower can take, for the way out, and what is said of it now and by later runs."""
        out = way_out(self.job, state.number, reason)
        said = f"sequence {state.number} has {reason} and can't be followed: {out}"
        diff = self.room / f"{state.number}.osc.gz"
        with files.writing(diff):
            slot.rename(diff)
        self.lot.refuse(state, diff, said)
        self.outcome.faults.append(Fault(said))

    def lack(self, number: int) -> None:
        missing = self.outcome.missing
        missing.append(number)
        first = number - MOST_MISSING + 1
        if len(missing) >= MOST_MISSING and missing[-MOST_MISSING] == first:
            raise Fault(f"{self.server.url}: the numbers {first} to {number} aren't there; begin with a newer extract")

    def put(self) -> None:
        """Puts the lot in its place. `state.txt` is the server's once all numbers were asked for, else that of the last
        number before."""
        lot, self.lot = self.lot, Lot(self.folder, self.room)
        lot.put(self.outcome.top if self.is_through else self.last_state(lot), self.is_through)
        if lot.numbers:
            note_converted(ranges_text(lot.numbers), lot.converted)
            if not self.stop.is_set:
                self.listener.placed(lot.numbers[-1], lot.changes)

    def last_state(self, lot: Lot) -> State | None:
        """The state of the last number that was asked for without a fault and is there."""
        if lot.newest and lot.newest.number == self.last:
            return lot.newest
        return self.folder.state(self.last) if self.last else None


def note_converted(numbers: str, changes: int) -> None:
    LOG.info("fetched %s", numbers)
    if changes:
        LOG.info("converted %d changes", changes)


def check_published(url: str, file: Path, room: Path) -> None:
    """A file that `osmrepl publish` wrote is one that the program reads."""
    done = program.Program().run("convert", file, room / f"{file.name}.opl")
    if done.status != 0:
        cause = "; ".join(done.faults()).removeprefix("osmrepl: ")
        raise Fault(f"{url}: {cause}")


def way_out(job: Job, number: int, reason: str) -> str:
    """How a mirror gets past a diff that can't be followed."""
    if reason.startswith("objects without"):
        return OTHER_SERVER
    diff, state = job.folder.place(number, "osc.gz"), job.folder.place(number, "state.txt")
    save = files.word_of(job.save) if job.save else "SAVE"
    return (f"osmrepl-planet mirror {save} --renumber takes it in parts; or export the mirror of {number - 1}, apply "
            f"{diff} to it by osmium apply-changes, and begin with the result and {state}")
