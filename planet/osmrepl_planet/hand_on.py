"""Hands on to a consumer what it hasn't taken of a mirror yet."""

import argparse
import os
from pathlib import Path

from . import cursors, export, files, handing, locks, manifest
from .faults import DONE, Fault, Refused
from .handing import Command, Handing
from .lots import FORMS
from .options import VERBOSE, above_zero, folder, plain_path
from .output import print_lines
from .stop import Stop

# how long --start waits for a run that writes SAVE, in seconds
PATIENCE = 60

HELP = """\
CURSOR is a state text: the number up to which a consumer has taken the mirror. --start makes the
first one: it exports the mirror to OUT, for the consumer to begin with, and lists CURSOR in
SAVE.source, so that mirror --keep keeps what the consumer lacks.

Then each run writes the numbers after CURSOR's up to SAVE's into one change file, under the filter
of SAVE.source: the last change of each object, deletions too. COMMAND gets its path in place of {},
and OSMREPL_FROM and OSMREPL_TO in its environment. CURSOR moves only after its status 0. Until then
the file, FROM-TO.osc.gz in CURSOR.pending, stays as it is, so a consumer that was killed gets the
same one again. A consumer that in one transaction compares its own number with OSMREPL_FROM - 1,
does nothing if it is OSMREPL_TO already, and writes OSMREPL_TO, takes each number exactly once, any
other one at least once. If there is nothing new COMMAND isn't run.

An object that the filter doesn't keep comes as a deletion, also one that the consumer never had.

With --lots the file stays in DIR as FROM-TO.osc.gz, and DIR/manifest names it with its SHA-256.
Repeated, it has the same bytes.

As in
  osmrepl-planet hand-on follower.save map.txt --start map.osm.pbf
  osm2pgsql --create --slim -d map map.osm.pbf
  osmrepl-planet hand-on follower.save map.txt -- osm2pgsql --append --slim -d map {}

Status 0: done, or nothing new; 2: the words are refused; 3: any other fault, and COMMAND's, with
CURSOR where it was; 4: another run hands on to CURSOR."""


def add_words(parser: argparse.ArgumentParser) -> None:
    parser.add_argument("save", metavar="SAVE", type=Path, help="the mirror")
    parser.add_argument("cursor", metavar="CURSOR", type=plain_path, help="the state text of the consumer")
    parser.add_argument("--start", metavar="OUT", type=Path, help="begins CURSOR with the data file OUT")
    parser.add_argument("--lots", metavar="DIR", type=folder, help="puts the file into DIR")
    add_lot_options(parser)
    parser.add_argument("-v", "--verbose", action="store_true", help=VERBOSE)


def add_lot_options(parser: argparse.ArgumentParser) -> None:
    parser.add_argument("--lot", metavar="N", type=above_zero, help="hands on at most N numbers")
    parser.add_argument("--form", metavar="FORM", choices=FORMS, help="the form of the file: osc.gz or opl (osc.gz)")


def takes_command(_words: list[str]) -> bool:
    return True


def run(words: argparse.Namespace, stop: Stop) -> int:
    ways = bool(words.command) + (words.start is not None) + (words.lots is not None)
    if ways != 1:
        raise Refused("one of -- COMMAND, --start OUT and --lots DIR is needed")
    if words.start and (words.lot or words.form):
        raise Refused("--lot and --form aren't for --start")
    if words.start:
        return start(words.save, words.cursor, words.start, stop)
    with handing.entered(words.save, words.cursor, stop) as found:
        if words.lots:
            with manifest.entered(words.lots) as lots:
                return report(found, lots, words)
        return report(found, Command(words.cursor, words.command, is_quiet=False), words)


def report(found: Handing, taker: handing.Taker, words: argparse.Namespace) -> int:
    lot = found.run(taker, words.lot, words.form or FORMS[0])
    if lot:
        print_lines([f"handed on {lot}"])
    found.stop.check()
    return DONE


def start(save: Path, cursor: Path, out: Path, stop: Stop) -> int:
    """Begins a cursor at the number of what is exported. It is listed before it is there: a rotation removes nothing
    then."""
    if os.path.realpath(out) in map(os.path.realpath, (save, cursor)):
        raise Refused(f"{out}: is SAVE or CURSOR too")
    with cursors.held(save, cursor):
        refuse_cursor(cursor)
        with locks.held(locks.of_save(save), locks.save_in_use(save), PATIENCE, stop):
            position = cursors.mirrored(save).to_begin_at()
            Command(cursor, [], is_quiet=True).end()
            export.export(save, out, stop)
            cursors.add(save, cursor)
            cursors.move(cursor, position.number, position.time)
    print_lines([f"number {position.number}"])
    return DONE


def refuse_cursor(cursor: Path) -> None:
    if files.lead_of(cursor).exists():
        known = cursors.cursor_of(cursor).state
        at = f", at {known.number}" if known else ""
        raise Fault(f"{cursor}: there already{at} (remove it to begin anew)")
