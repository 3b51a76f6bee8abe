"""Brings the numbers that a folder lacks, and says which."""

import argparse
from pathlib import Path

from . import renumber
from . import save as saves
from .bring import bring, source_for
from .client import KeptAway
from .faults import DONE, FAULTY, INCOMPLETE, Refused, Stopped
from .fetcher import Job, Listener, Outcome
from .folder import Folder
from .options import add_server_options, address, folder, options_of, sequence
from .output import print_lines, ranges, say
from .renumber import Renumbering
from .source import Source
from .stop import Stop

HELP = """\
Brings each number that the folder lacks into it, up to the newest of the server: its state text,
and its changes as .opl, or as .o5c or .opl if the server's folder is one that osmrepl publish
wrote. With SAVE, the folder and the server are those of SAVE.source, and the numbers those after
SAVE's. Without it, --url and --dir name them, and the numbers begin with that of --from, or with
the lowest that the folder has. Changes that the folder has in either form aren't fetched again.
Each file is replaced as a whole, the state of a number after its changes, state.txt last.

Prints `fetched A..B`, `missing N` for each number that the server lacks, which the next run asks
for again, `without user N, without changeset M` if objects got the number of nobody, and `number
N`, that of state.txt. Of a SAVE with --renumber it also prints `published C..D`, the folder's own
numbers, and goes on after the last diff of SAVE.numbers.

Status 0: done; 1: done, but numbers are missing; 2: the words are refused; 3: any other fault, with
a line of its own on standard error; 4: another run is fetching into the folder."""


def add_words(parser: argparse.ArgumentParser) -> None:
    parser.add_argument("save", metavar="SAVE", type=Path, nargs="?", help="the mirror whose numbers are fetched")
    parser.add_argument("--url", metavar="URL", type=address, help="the server: the folder of its state.txt")
    parser.add_argument("--dir", metavar="DIR", type=folder, help="the folder")
    parser.add_argument("--from", metavar="N", type=sequence, dest="first", help="the first number to fetch")
    parser.add_argument("--moved", action="store_true",
                        help="takes URL in place of that of SAVE.source and of DIR from now on")
    add_server_options(parser)


def run(words: argparse.Namespace, stop: Stop) -> int:
    if words.save is None:
        if words.url is None or words.dir is None:
            raise Refused("SAVE is needed, or --url and --dir")
        source, position = Source(words.url, words.dir).over(options_of(words)), None
    else:
        position = saves.position_of(words.save)
        source = source_for(words.save, options_of(words), words.url, words.moved, position)
    place = Folder(source.folder)
    with place.entered() as room:
        place.check_server(source.url, words.moved)
        job = Job(source, place, room, stop, words.save)
        if position is None:
            place.check_numbers()
            return fetch(job, words.first, None, None)
        with renumber.entered(words.save, place, source, position) as renumbering:
            if renumbering and words.first:
                raise Refused(f"--from isn't taken: the numbers of {place.path} are its own")
            return fetch(job, words.first, position, renumbering)


def fetch(job: Job, first: int | None, position: saves.Position | None, renumbering: Renumbering | None) -> int:
    """Brings the numbers, says what came of it, and gives the status."""
    first = first or (position.number + 1 if position else job.folder.lowest())
    if first is None:
        raise Refused(f"{job.folder.path} has no number to go on from: --from N says the first")
    try:
        return report(bring(job, Listener(), first, position, renumbering), job.folder)
    except KeptAway as fault:
        job.folder.keep_away(job.source.url, fault)
        raise


def report(outcome: Outcome, place: Folder) -> int:
    """Says what was brought, what is missing and what went wrong. Gives the status."""
    for fault in outcome.faults:
        say(fault.text)
    lines = [f"fetched {first}..{last}" for first, last in ranges(outcome.fetched)]
    lines += [f"published {first}..{last}" for first, last in ranges(outcome.published)]
    lines += [f"missing {number}" for number in outcome.missing]
    if outcome.no_user or outcome.no_changeset:
        lines.append(f"without user {outcome.no_user}, without changeset {outcome.no_changeset}")
    newest = place.newest()
    if newest:
        lines.append(f"number {newest.number}")
    print_lines(lines)
    if outcome.is_stopped:
        raise Stopped
    if outcome.faults:
        return FAULTY
    return INCOMPLETE if outcome.missing else DONE
