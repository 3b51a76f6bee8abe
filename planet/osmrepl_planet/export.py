"""Writes a mirror as a data file, with the number and the time in its header, so that others go on from it."""

import argparse
import contextlib
import re
from collections.abc import Iterator
from pathlib import Path
from typing import BinaryIO

from . import files, opl, program
from . import source as sources
from .faults import DONE, Fault, Stopped
from .numbering import Numbers
from .options import VERBOSE
from .output import LOG
from .progress import Progress
from .source import Source
from .state import time_text
from .stop import Stop

HELP = """\
OUT is written in the form that its name says to osmium, as .osm.pbf, .osm.bz2 or .opl, and replaced
as a whole. In the header of an .osm.pbf file stand the server of SAVE.source, the number and its
time, so that osmrepl-planet start, pyosmium-up-to-date and others go on from it. Objects that have
the number 2147483647 because they had no user or no changeset are written without it. An object
with what the form can't hold, as a control character in XML, is refused.

Status 0: done; 2: the words are refused; 3: any other fault. It takes no lock, and may run beside a
mirror."""

# a mirror that was begun without a data file has no base
HEAD = re.compile(rb"number (\d+)\n(?:base \d+\n)?time (\S+)\nobjects (\d+)\n")


def add_words(parser: argparse.ArgumentParser) -> None:
    parser.add_argument("save", metavar="SAVE", type=Path, help="the mirror")
    parser.add_argument("out", metavar="OUT", type=Path, help="the data file that is written")
    parser.add_argument("-v", "--verbose", action="store_true", help=VERBOSE)


def run(words: argparse.Namespace, stop: Stop) -> int:
    export(words.save, words.out, stop)
    return DONE


def export(save: Path, out: Path, stop: Stop) -> None:
    program.need_osmium()
    with files.Room(out.parent, f".{out.name}.export.") as room:
        with shown(save) as objects:
            write(objects, save, sources.read(save), room, out, stop)
        files.put(room / out.name, out, keeps_mode=True)


@contextlib.contextmanager
def shown(save: Path) -> Iterator[BinaryIO]:
    """What `osmrepl show` prints of a save. If it ended with a fault, that is said, whatever became of what it
    printed."""
    osmrepl = program.Program()
    if not save.exists():
        raise Fault(f"{save}: not there")
    show = osmrepl.begin("show", "--", save)
    program.widen(show.stdout)
    is_over = False
    try:
        yield show.stdout
        is_over = True
    except Stopped:
        raise
    except Exception:
        # a show that goes on only says that nobody reads any more
        is_over = not show.stdout.read(1)
        raise
    finally:
        show.stdout.close()
        said = show.stderr.read().decode("utf-8", "replace")
        status = show.wait()
        if is_over and status != 0:
            raise Fault("; ".join(program.Run(status, "", said).faults()))


def write(shown: BinaryIO, save: Path, source: Source | None, room: Path, out: Path, stop: Stop) -> None:
    """Has osmium write the objects of what `osmrepl show` prints. If that printed nothing, it says why itself."""
    with Progress("wrote", unit=" objects") as progress:
        start = shown.read(1)
        if not start:
            return
        head, rest = read_head(shown, start)
        progress.total = int(head[3])
        words = ["-F", "opl", "-", "-o", str(room / out.name), "--generator=osmrepl-planet"]
        words += [f"--output-header={name}={value}" for name, value in headers_of(head, source, Numbers(save))]
        with program.osmium_cat(*words, of=out, is_fed=True) as to:
            objects = objects_of(shown, rest, progress.total)
            hand_on(checked(objects, save, out), to, progress, stop)


def checked(objects: Iterator[bytes], save: Path, out: Path) -> Iterator[bytes]:
    """The objects, with no author in place of nobody. One that the form of a file can't hold is refused."""
    for block in map(opl.without_nobody, objects):
        opl.check(block, opl.form_of(out.name), save, f"osmrepl export {save} OUT.opl holds it")
        yield block


def hand_on(objects: Iterator[bytes], to: BinaryIO, progress: Progress, stop: Stop) -> None:
    """Hands on the objects."""
    done = 0
    for block in objects:
        stop.check()
        to.write(block)
        done += block.count(b"\n")
        progress.show(done)
    to.close()
    LOG.info("wrote %d objects", done)


def read_head(shown: BinaryIO, start: bytes) -> tuple[re.Match, bytes]:
    """What comes before the objects, and what was read after it."""
    while not (found := HEAD.match(start)):
        more = shown.read(opl.BLOCK)
        if not more or len(start) > opl.BLOCK:
            raise Fault("osmrepl show: printed no mirror")
        start += more
    return found, start[found.end():]


def headers_of(head: re.Match, source: Source | None, numbers: Numbers) -> list[tuple[str, str]]:
    """The header of a mirror: without a server there is no sense in a number, and number 0 has no time. If the numbers
    are the folder's own, it names the last diff that the mirror has whole; if their list is lost, the time alone."""
    number, time = int(head[1]), head[2].decode()
    lines = numbers.lines_from(number) if numbers.is_there else []
    if lines:
        number, time = lines[0].source, time_text(lines[0].time)
    if number == 0:
        return []
    pairs = [("osmosis_replication_timestamp", time)]
    if source:
        pairs.append(("osmosis_replication_base_url", source.url))
    if source and (numbers.is_there or not source.renumber):
        pairs.append(("osmosis_replication_sequence_number", str(number)))
    return pairs


def objects_of(shown: BinaryIO, rest: bytes, count: int) -> Iterator[bytes]:
    """The lines of the objects, so many; what comes after them is read and dropped."""
    for block in joined(shown, rest):
        lines = block.count(b"\n")
        if lines > count:
            block = b"\n".join(block.split(b"\n", count)[:count]) + b"\n" if count else b""
            lines = count
        count -= lines
        if block:
            yield block


def joined(shown: BinaryIO, rest: bytes) -> Iterator[bytes]:
    """Blocks of whole lines, the first of which begins with what was read before."""
    end = rest.rfind(b"\n") + 1
    if end:
        yield rest[:end]
    first = rest[end:]
    for block in opl.blocks_of(shown):
        yield first + block
        first = b""
    if first:
        yield first
