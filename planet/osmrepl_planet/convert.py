"""The process that reads what comes from elsewhere, by libosmium: out of the way of the downloads, under a limit of
memory, and alone if a file makes the library give up. A line of JSON comes in for each piece of work, and one goes out.

The parent is in `converter`."""

import ctypes
import json
import os
import resource
import signal
import sys
import zlib

from . import opl

# what a number may have
MOST_CHANGES = 100_000
MOST_BYTES = 64 << 20
MOST_UNZIPPED = 256 << 20
# the most of a diff that is cut into parts, unzipped and as OPL
MOST_WHOLE = 4 << 30
MEMORY = 1 << 30
BUFFER = 4 << 20
# a text up to this size is changed in its place: a new file for each is slow on some file systems
IN_PLACE = 8 << 20
DIES_WITH_PARENT = 1


class NoDiff(Exception):
    """Why a file is no diff; `is_cut` if it is only a part of one."""

    def __init__(self, cause: str, is_cut: bool = False) -> None:
        super().__init__(cause)
        self.cause, self.is_cut = cause, is_cut


def check_gzip(path: str, most: int = MOST_UNZIPPED) -> None:
    """Unzips a file without keeping anything, so that no reader has to take what it would become."""
    size, reader = 0, zlib.decompressobj(31)
    with open(path, "rb") as file:
        data = file.read(opl.BLOCK)
        if not data.startswith(b"\x1f\x8b"):
            raise NoDiff("no gzip data")
        while data:
            try:
                size += len(reader.decompress(data, opl.BLOCK))
            except zlib.error as error:
                raise NoDiff(f"gzip: {str(error).rpartition(': ')[2]}") from error
            if size > most:
                raise NoDiff(f"more than {most >> 20} MiB unzipped")
            if not reader.eof:
                data = reader.unconsumed_tail or file.read(opl.BLOCK)
                continue
            data = reader.unused_data
            if len(data) < 2:
                data += file.read(opl.BLOCK)
            if not data.startswith(b"\x1f\x8b"):
                return
            reader = zlib.decompressobj(31)
    raise NoDiff("cut gzip data", is_cut=True)


def write_opl(diff: str, text: str) -> None:
    """The changes of a diff as OPL, in the order of the file."""
    import osmium  # here, so that the checks of this file can be tested without it

    reader = osmium.io.Reader(diff)
    try:
        if not reader.header().has_multiple_object_versions:
            raise NoDiff("a data file, and no changes")
        writer = osmium.WriteHandler(text, BUFFER, "opl")
        osmium.apply(reader, writer)
        writer.close()
    finally:
        reader.close()


def tally_of(text: str) -> opl.Tally:
    tally = opl.Tally()
    with open(text, "rb") as file:
        for block in opl.blocks_of(file):
            tally.take(block)
    return tally


def give_numbers(text: str) -> None:
    """Gives the number of nobody to the objects of a file without user or changeset."""
    if os.path.getsize(text) <= IN_PLACE:
        with open(text, "r+b") as file:
            changed = opl.with_nobody(file.read())
            file.seek(0)
            file.write(changed)
        return
    new = f"{text}.new"
    with open(text, "rb") as file, open(new, "wb") as out:
        for block in opl.blocks_of(file):
            out.write(opl.with_nobody(block))
    os.replace(new, text)


def reason_of(tally: opl.Tally, size: int, strict: bool, is_cut: bool = False) -> str | None:
    """Why a follower can't take the changes, if it can't. If they are cut into parts, their size doesn't matter."""
    if tally.lines > MOST_CHANGES and not is_cut:
        return "more than 100,000 changes"
    if size > MOST_BYTES and not is_cut:
        return "more than 64 MiB"
    for name, first in tally.lacks.items():
        return f"objects without {name} (first {first})"
    if strict and tally.has_nobody:
        return "objects without user or changeset"
    return None


def convert(diff: str, text: str, strict: bool, is_cut: bool) -> dict:
    """Makes the OPL file of a diff. Its answer says what was found, why it can't be followed, or the fault."""
    bound(resource.RLIMIT_FSIZE, (MOST_WHOLE if is_cut else MOST_BYTES) + 1, MOST_WHOLE + 1)
    check_gzip(diff, MOST_WHOLE if is_cut else MOST_UNZIPPED)
    write_opl(diff, text)
    tally = tally_of(text)
    if tally.has_nobody and not strict:
        give_numbers(text)
    size = os.path.getsize(text)
    reason = reason_of(tally, size, strict, is_cut)
    return {"changes": tally.lines, "bytes": size, "no_user": tally.no_user, "no_changeset": tally.no_changeset,
            "reason": reason}


def header(file: str) -> dict:
    """What the header of a data file says."""
    import osmium
    from osmium.replication.utils import get_replication_header

    found = get_replication_header(file)
    head = osmium.io.Reader(file, osmium.osm.NOTHING).header()
    features = [head.get(f"pbf_optional_feature_{number}") for number in range(8)]
    time = found.timestamp and found.timestamp.strftime("%Y-%m-%dT%H:%M:%SZ")
    return {"url": found.url, "sequence": found.sequence, "time": time or head.get("timestamp") or None,
            "is_history": head.has_multiple_object_versions, "has_locations": "LocationsOnWays" in features}


def newest(file: str) -> dict:
    """The time of the newest object of a data file, or none if there is none."""
    from osmium.replication import newest_change_from_file

    time = newest_change_from_file(file)
    return {"time": time.strftime("%Y-%m-%dT%H:%M:%SZ") if time and time.timestamp() > 0 else None}


WORK = {"convert": convert, "header": header, "newest": newest}


def answer_to(line: str) -> None:
    word, *words = json.loads(line)
    try:
        say(WORK[word](*words))
    except NoDiff as error:
        say({"fault": error.cause, "is_cut": error.is_cut})
    except ModuleNotFoundError as error:
        say({"fault": f"{error.name}: not there (Debian: python3-pyosmium)", "is_lacking": True})
    except OSError as error:
        say({"fault": error.strerror or str(error), "is_write": True})
    except Exception as error:
        # whatever the library has: its faults of places are no RuntimeError
        say(of_library(str(error) or type(error).__name__))
        # after a fault of a write the library ends the process as soon as its object goes, so it doesn't go
        os._exit(0)


def say(answer: dict) -> None:
    sys.stdout.write(json.dumps(answer) + "\n")
    sys.stdout.flush()


def of_library(text: str) -> dict:
    """A fault that libosmium said. It tells faults of the disk by their text alone. A limit that is lower than ours says
    nothing of the file."""
    most = resource.getrlimit(resource.RLIMIT_FSIZE)[0]
    if "File too large" in text and most in (MOST_BYTES + 1, MOST_WHOLE + 1):
        return {"changes": 0, "bytes": 0, "no_user": 0, "no_changeset": 0, "reason": f"more than {most >> 20} MiB",
                "ends": True}
    is_write = text.startswith(("Write failed", "Open failed", "Fsync failed", "Close failed")) or "No space" in text
    return {"fault": text.rpartition(": ")[2] if is_write else text, "is_write": is_write, "ends": True}


def protect() -> None:
    """Bounds this process, and has it end with its parent. Signals are the parent's business."""
    ctypes.CDLL(None).prctl(DIES_WITH_PARENT, signal.SIGKILL)
    for number in (signal.SIGINT, signal.SIGTERM, signal.SIGHUP):
        signal.signal(number, signal.SIG_IGN)
    bound(resource.RLIMIT_AS, MEMORY, MEMORY)
    bound(resource.RLIMIT_CORE, 0, 0)
    bound(resource.RLIMIT_FSIZE, MOST_BYTES + 1, MOST_WHOLE + 1)


def bound(kind: int, soft: int, hard: int) -> None:
    """Sets a limit, or leaves the hard one that there is if that is lower."""
    most = resource.getrlimit(kind)[1]
    if most != resource.RLIM_INFINITY:
        soft, hard = min(soft, most), min(hard, most)
    resource.setrlimit(kind, (soft, hard))


def main() -> None:
    protect()
    for line in sys.stdin:
        answer_to(line)
    os._exit(0)


if __name__ == "__main__":
    main()
