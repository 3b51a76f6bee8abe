"""Brings a mirror up to date: fetches what SAVE lacks, and follows it beside that. It is made for cron, so it says
something if and only if a person is needed."""

import argparse
import time
from dataclasses import dataclass, field, replace
from datetime import datetime, timedelta, timezone
from pathlib import Path

from . import handing, renumber, rotation, runs
from . import save as saves
from . import source as sources
from .bring import bring, is_kept, source_for
from .client import KeptAway
from .faults import BUSY, DONE, FAULTY, INCOMPLETE, Busy, Fault, OtherSource, Refused, Stopped, fault_of
from .fetcher import Job
from .folder import Folder
from .follow import Follower
from .hand_on import add_lot_options
from .lots import FORMS
from .options import above_zero, add_renumber, add_server_options, address, days, folder, options_of, plain_path
from .output import LOG, say
from .program import Program
from .renumber import Renumbering
from .source import Source
from .state import MOST_AHEAD
from .stop import Stop


@dataclass
class Told:
    """What a person has to be told, the status that says how bad it is, and what SAVE.runs has of it: also the faults
    that the next run mends, the server's newest number, and how old the mirror may be."""

    parts: list[str] = field(default_factory=list)
    status: int = DONE
    noted: list[str] = field(default_factory=list)
    server: int | None = None
    most_lag: int | None = None

    def tell(self, text: str, status: int) -> None:
        if text not in self.parts:
            self.parts.append(text)
        self.status = max(self.status, status)

    def note(self, text: str) -> None:
        if text not in self.noted:
            self.noted.append(text)

    @property
    def fault(self) -> str | None:
        """What SAVE.runs says, without the age, which it has in any case."""
        return "; ".join(self.noted) or None

    @property
    def line(self) -> str:
        return "; ".join(self.parts)


@dataclass
class Round:
    """What came of one run: what is told at once, what only if the mirror is too old, and the numbers that are
    missing."""

    faults: list[Fault] = field(default_factory=list)
    followed: list[str] = field(default_factory=list)
    missing: set[int] = field(default_factory=set)
    top: int = 0
    server: int | None = None

    def missing_for_long(self) -> list[int]:
        """The missing numbers, without the newest ones, which may not be there yet."""
        first = self.top + 1
        while first - 1 in self.missing:
            first -= 1
        return sorted(number for number in self.missing if number < first)

    def told(self, age: float | None, lag: int, number: int) -> Told:
        """What is said after the run, of a mirror of that age. One at number 0 has none, and that of one which is far
        ahead of the clock says nothing: then nothing is kept back."""
        told = Told(server=self.server, most_lag=lag)
        is_ahead = age is not None and age < -MOST_AHEAD.total_seconds()
        is_old = age is None or age > lag or is_ahead
        for fault in self.faults:
            if is_old or not fault.mends:
                told.tell(fault.text, FAULTY)
            told.note(fault.text)
        for text in self.followed:
            told.tell(text, FAULTY)
        tell_missing(told, sorted(self.missing) if is_old else self.missing_for_long())
        for text in told.parts:
            told.note(text)
        if is_ahead:
            told.tell(f"the mirror is {-age:.0f} seconds ahead of the clock, at number {number}", INCOMPLETE)
            told.note("more than a day ahead of the clock")
        elif is_old and age is not None:
            told.tell(f"the mirror is {age:.0f} seconds old, at number {number}", INCOMPLETE)
            if not told.noted:
                told.note(f"older than {lag} seconds")
        return told


def tell_missing(told: Told, numbers: list[int]) -> None:
    if len(numbers) == 1:
        told.tell(f"number {numbers[0]} is missing", INCOMPLETE)
    elif numbers:
        told.tell(f"number {numbers[0]} and {len(numbers) - 1} more are missing", INCOMPLETE)


@dataclass
class Mirror:
    """A save, where its numbers come from, the program that follows them, how many days their files are kept, if they
    aren't kept for ever, and whether the folder's server may be at another address now."""

    save: Path
    source: Source
    stop: Stop
    program: Program
    keep: int | None = None
    is_moved: bool = False

    def run(self) -> Told:
        """One run. Nothing is told if all is well."""
        folder, round_ = Folder(self.source.folder), Round()
        with folder.entered() as room:
            folder.check_server(self.source.url, self.is_moved)
            position = self.position()
            with renumber.entered(self.save, folder, self.source, position) as renumbering:
                job = Job(self.source, folder, room, self.stop, self.save)
                self.bring_and_follow(job, round_, position, renumbering)
            told = self.tell(round_)
            if self.keep is not None:
                self.rotate(folder, told, self.keep)
        return told

    def bring_and_follow(self, job: Job, round_: Round, position: saves.Position,
                         renumbering: Renumbering | None) -> None:
        follower = Follower(self.program, self.source, self.save, job.room, position.number)
        try:
            self.fetch(job, round_, follower, position, renumbering)
        except Fault as fault:
            # the next run has other words, if this one's aren't kept
            fault.mends = fault.mends and is_kept(job.save, replace(self.source, renumber=renumbering is not None))
            self.note(job, round_, fault)
        if self.stop.is_set:
            follower.end()
            raise Stopped
        self.follow(job.folder, round_, follower, renumbering)

    @staticmethod
    def note(job: Job, round_: Round, fault: Fault) -> None:
        if fault.status == BUSY:
            raise fault
        if isinstance(fault, KeptAway):
            job.folder.keep_away(job.source.url, fault)
        round_.faults.append(fault)

    def position(self) -> saves.Position:
        if not self.save.exists():
            return saves.Position(0, None)
        return saves.position_of(self.save)

    @staticmethod
    def fetch(job: Job, round_: Round, follower: Follower, position: saves.Position,
              renumbering: Renumbering | None) -> None:
        outcome = bring(job, follower, position.number + 1, position, renumbering)
        round_.top = round_.server = outcome.top.number
        round_.faults += outcome.faults
        round_.missing.update(outcome.missing)

    @staticmethod
    def follow(folder: Folder, round_: Round, follower: Follower, renumbering: Renumbering | None) -> None:
        """Follows all that the folder has, up to the end of a diff."""
        newest = folder.newest()
        # after a fault before any number was ever fetched there is nothing to follow
        if newest is not None and not any(isinstance(fault, OtherSource) for fault in round_.faults):
            most = renumbering.most(newest.number) if renumbering else None
            follower.last(most)
        if follower.is_busy:
            raise Busy("")
        round_.followed = follower.faults
        if not renumbering:
            round_.missing.update(follower.missing)
            round_.top = max(round_.top, newest.number if newest else 0)

    def rotate(self, folder: Folder, told: Told, days: int) -> None:
        """Removes old files, as the cursors are that SAVE.source lists now."""
        since, source = now() - timedelta(days=days), sources.read(self.save)
        try:
            if source:
                rotation.rotate(folder, source, self.position().number, since)
        except Fault as fault:
            told.tell(fault.text, FAULTY)
            told.note(fault.text)

    def tell(self, round_: Round) -> Told:
        position = self.position()
        age = time.time() - position.time.timestamp() if position.time else None
        return round_.told(age, self.source.most_lag, position.number)


def mirror_of(words: argparse.Namespace, stop: Stop, program: Program) -> Mirror:
    """The mirror that the words name, with what its SAVE.source says now."""
    if not words.save.exists() and not words.empty:
        raise Fault(f"{words.save}: not there (osmrepl-planet start FILE SAVE begins one; --empty begins at number 1)")
    position = saves.position_of(words.save) if words.save.exists() else saves.Position(0, None)
    source = source_for(words.save, options_of(words), words.url, words.moved, position)
    return Mirror(words.save, source, stop, program, words.keep, words.moved)


def hand_on(words: argparse.Namespace, stop: Stop, told: Told) -> int:
    """Hands on what the mirror has, whatever came of its run. Gives the status: another run that does so is no
    fault."""
    try:
        with handing.entered(words.save, words.then, stop) as found:
            command = handing.Command(words.then, words.command, is_quiet=not words.verbose)
            found.run(command, words.lot, words.form or FORMS[0])
            stop.check()
    except Busy:
        return told.status or BUSY
    except Fault as fault:
        told.tell(fault.text, FAULTY)
        told.note(fault.text)
    return told.status


class History:
    """SAVE.runs of a mirror, over the runs of this process."""

    def __init__(self, save: Path) -> None:
        self.save, self.said = save, ""

    def note(self, begun: datetime, seconds: float, before: saves.Position | None, told: Told) -> None:
        """Adds a run of a mirror that is known by its SAVE.source. If that fails, it is said once, and changes nothing
        else."""
        said = ""
        try:
            if sources.path_of(self.save).exists():
                runs.append(self.save, run_of(begun, seconds, before, position_or_none(self.save), told))
        except (Fault, OSError) as error:
            said = fault_of(error, self.save).text
            if said != self.said:
                told.tell(said, told.status)
        self.said = said


def position_or_none(save: Path) -> saves.Position | None:
    try:
        return saves.position_of(save)
    except (Fault, OSError):
        return None


def run_of(begun: datetime, seconds: float, before: saves.Position | None, after: saves.Position | None,
           told: Told) -> runs.Run:
    """The line of a run, between these positions of its save."""
    run = runs.Run(begun, seconds, most_lag=told.most_lag, server=told.server, status=told.status, fault=told.fault)
    if after is None:
        return run
    # a save that wasn't there was at number 0
    first = before.number + 1 if before else 1
    if first <= after.number:
        run = replace(run, first=first, last=after.number)
    is_aged = after.time is not None and after.time - now() <= MOST_AHEAD
    age = max(0, round(time.time() - after.time.timestamp())) if is_aged else None
    return replace(run, number=after.number, time=after.time, lag=age)


def now() -> datetime:
    return datetime.fromtimestamp(time.time(), timezone.utc)


def run_once(words: argparse.Namespace, stop: Stop, program: Program, history: History) -> int:
    begun, start = now(), time.monotonic()
    before, told, is_stopped, status = position_or_none(words.save), Told(), False, None
    try:
        told = mirror_of(words, stop, program).run()
        if words.then:
            status = hand_on(words, stop, told)
    except Busy:
        return BUSY
    except Stopped:
        told.status, is_stopped = 128 + stop.number, True
    except (Fault, OSError) as error:
        fault = fault_of(error, words.save)
        told.tell(fault.text, fault.status)
        told.note(fault.text)
    history.note(begun, time.monotonic() - start, before, told)
    if told.line:
        say(told.line)
    if is_stopped:
        raise Stopped
    return told.status if status is None else status


def run_again_and_again(words: argparse.Namespace, stop: Stop, program: Program, history: History) -> int:
    """Runs every so many seconds until a signal comes, after faults too."""
    while not stop.is_set:
        begun = time.monotonic()
        try:
            run_once(words, stop, program, history)
        except Stopped:
            break
        left = max(0.0, begun + words.every - time.monotonic())
        LOG.info("next in %.0f s", left)
        stop.wait(left)
    return DONE


HELP = """\
Fetches the numbers after that of SAVE from its server into its folder, follows them, and prints
nothing if all is well. A person is needed if there is a fault that the next run won't mend, if a
number is missing, or if the mirror is older than the lag, or more than a day ahead of the clock:
then there is one line on standard error.

The server, the folder and the filter are those of SAVE.source, which start wrote. For a SAVE that
osmrepl begin wrote, name the server once by --url: SAVE.source is written then.

With --renumber, once, the numbers of the folder are its own from then on: each diff becomes as many
of them as it needs, so diffs of any size are taken, and SAVE.numbers, beside SAVE, says which. The
mirror goes on as it is, with its counts.

--keep removes the files of numbers of earlier times than DAYS days ago, which SAVE has, and each
consumer whose cursor SAVE.source lists. The folder then has to be that of SAVE alone.

--then CURSOR hands on what is new, as hand-on does. What COMMAND prints is said if it fails.

Said at once: a status as 401 or 403, a full disk, a diff that can't be followed, another source.
Said only once the mirror is older than the lag, since the next run mends it: no answer, a status
408 or from 500 on, a cut file, a newest number that isn't there yet, a server that wants no
request now.

Status 0: the mirror is up to date; 1: numbers are missing, or the mirror is too old or far ahead of
the clock; 2: the words are refused; 3: any other fault; 4: another run is at work, and nothing is
said."""


def add_words(parser: argparse.ArgumentParser) -> None:
    parser.add_argument("save", metavar="SAVE", type=Path, help="the mirror")
    parser.add_argument("--url", metavar="URL", type=address, help="the server: the folder of its state.txt")
    parser.add_argument("--dir", metavar="DIR", type=folder, help="the folder for the numbers (SAVE.diffs)")
    parser.add_argument("--moved", action="store_true",
                        help="takes URL in place of that of SAVE.source and of DIR from now on")
    parser.add_argument("--empty", action="store_true",
                        help="SAVE needn't be there: the mirror begins at the server's number 1, without objects")
    parser.add_argument("--every", metavar="SECONDS", type=above_zero,
                        help="runs again and again, after faults too, until SIGTERM ends it with 0")
    parser.add_argument("--keep", metavar="DAYS", type=days, help="removes old files of the folder")
    parser.add_argument("--then", metavar="CURSOR", type=plain_path,
                        help="hands on what is new to a consumer, by the COMMAND after --")
    add_lot_options(parser)
    add_renumber(parser)
    add_server_options(parser)


def takes_command(words: list[str]) -> bool:
    return any(word.partition("=")[0] == "--then" for word in words)


def run(words: argparse.Namespace, stop: Stop) -> int:
    if words.then and not words.command:
        raise Refused("--then needs -- COMMAND")
    if not words.then and (words.lot or words.form):
        raise Refused("--lot and --form are for --then")
    run_words = run_once if words.every is None else run_again_and_again
    return run_words(words, stop, Program(), History(words.save))
