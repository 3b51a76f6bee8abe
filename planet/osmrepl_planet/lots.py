"""What a range of numbers comes to for a consumer, in one file: the last change of each object, cut as the mirror is.
And the edits of the range, counted."""

import os
import re
from collections.abc import Callable
from dataclasses import dataclass
from pathlib import Path

from . import files, opl, program
from .cursors import Mirrored
from .faults import Fault
from .output import LOG
from .progress import Progress
from .stop import Stop

FORMS = ("osc.gz", "opl")
NAME = re.compile(r"(\d{1,9})-(\d{1,9})\.(osc\.gz|opl)")


@dataclass(frozen=True)
class Lot:
    """The numbers of a change file, and its form."""

    first: int
    last: int
    form: str

    @property
    def name(self) -> str:
        return f"{self.first}-{self.last}.{self.form}"

    def __str__(self) -> str:
        return f"{self.first}..{self.last}"


def lot_of(name: str) -> Lot | None:
    found = NAME.fullmatch(name)
    return Lot(int(found[1]), int(found[2]), found[3]) if found else None


def lots_in(folder: Path) -> list[Lot]:
    """The lots that a folder has, in their order."""
    if not folder.exists():
        return []
    with files.reading(folder):
        found = [lot_of(name) for name in os.listdir(folder)]
    return sorted((lot for lot in found if lot), key=lambda lot: (lot.first, lot.last, lot.form))


def write(mirrored: Mirrored, lot: Lot, room: Path, stop: Stop, anew: str) -> Path:
    """Writes the file of a lot into a room. `anew` says how a consumer begins again."""
    text = write_text(mirrored, lot, room, stop, anew)
    made = room / lot.name
    if lot.form == "opl":
        with files.writing(made), open(text, "rb") as file, open(made, "wb") as out:
            for block in opl.blocks_of(file):
                out.write(opl.without_nobody(block))
    else:
        write_diff(text, made, made, lambda block: opl.check(block, "XML", mirrored.source.folder,
                                                             "--form opl holds it"))
    files.remove(text)
    return made


def write_text(mirrored: Mirrored, lot: Lot, room: Path, stop: Stop, anew: str) -> Path:
    """Has the program write what the numbers of a lot come to, as OPL."""
    text, source = room / "changes.opl", mirrored.source
    newest = mirrored.folder.newest()
    if newest is None or newest.number < lot.last:
        raise Fault(f"{source.folder}: doesn't go up to {lot.last}, as {mirrored.save} does (bring it back, or {anew})")
    with Progress(f"reading {lot}"):
        done = program.Program().run("changes", "--kinds", source.kinds, "--from", lot.first, "--to", lot.last, "--",
                                     source.folder, text, *source.keys, stop=stop)
    check(source.folder, done, anew)
    found = re.search(r"^changes \d+\.\.(\d+): (\d+) objects?$", done.output, re.MULTILINE)
    if found is None or int(found[1]) != lot.last:
        raise Fault(f"{source.folder}: doesn't go up to {lot.last}, as {mirrored.save} does (bring it back, or {anew})")
    LOG.info("%s changes %s objects", lot, found[2])
    return text


def write_edits(mirrored: Mirrored, lot: Lot, room: Path, stop: Stop, anew: str) -> Path:
    """Has the program count the edits of the numbers of a lot by day, user and changeset, as CSV. A folder that ends
    before the lot does isn't seen here, so their changes are written first."""
    edits, folder = room / "edits.csv", mirrored.source.folder
    with Progress(f"counting {lot}"), files.writing(edits), open(edits, "wb") as out:
        child = program.Program().begin("tally", "--by", "day,user,changeset", "--from", lot.first, "--to", lot.last,
                                        "--", folder, output=out)
        done = program.finish(child, stop)
    check(folder, done, anew)
    return edits


def check(folder: Path, done: program.Run, anew: str) -> None:
    """Refuses what the program wrote of some numbers of a folder if it couldn't read them all."""
    missing = done.missing()
    if missing:
        raise Fault(f"{folder}: number {missing[0]} isn't there any more (bring it back, or {anew})")
    if done.status != 0:
        raise Fault("; ".join(done.faults()) or f"osmrepl: status {done.status}")


def write_diff(text: Path, diff: Path, said: Path, refuse: Callable[[bytes], None]) -> None:
    """Writes changes as others read them: .osc.gz, without the number of nobody. `said` is the file that a fault
    names, and `refuse` raises that of a block which XML can't hold."""
    words = ["-F", "opl", "-", "-f", "osc.gz", "-O", "-o", os.path.abspath(diff), "--generator=osmrepl-planet"]
    try:
        with Progress(f"writing {said.name}"), files.reading(text), open(text, "rb") as file:
            with program.osmium_cat(*words, of=said, is_fed=True) as to:
                for block in map(opl.without_nobody, opl.blocks_of(file)):
                    refuse(block)
                    to.write(block)
    except Fault:
        files.remove(diff)
        raise
