"""What fetch and mirror do alike: they find the source of a save, see that the server is the one that it came from, and
bring what comes after it."""

from dataclasses import replace
from datetime import datetime
from pathlib import Path

from . import save as saves
from . import source as sources
from .client import Client
from .faults import Fault, OtherSource
from .fetcher import Fetcher, Job, Listener, Outcome
from .folder import OTHER_FOLDER, Folder
from .output import LOG
from .progress import Progress
from .renumber import Parts, Renumbering
from .server import Server
from .source import Source
from .state import State, time_text


def source_for(save: Path, options: dict, url: str | None, is_moved: bool, position: saves.Position) -> Source:
    """The source of a save: what its file and the words say. Of a save without such a file the server is named now."""
    found, path = sources.read(save), sources.path_of(save)
    if found is None and url is None:
        raise Fault(f"{path}: not there (name the server once by --url)")
    if found is None:
        folder = options.get("folder") or sources.usual_folder(save)
        return Source(url, folder, kinds=position.kinds, keys=position.keys).over(options)
    if url is not None and url != found.url and not is_moved:
        raise Fault(f"{path}: its server is {found.url} (--moved takes the other from now on)")
    if url is not None and url != found.url:
        found = replace(found, url=url, form=None)
    return found.over(options)


def keep(save: Path, source: Source) -> None:
    """Notes a source that is known to be the right one: all of it for the first time, later a server that moved, and
    whether the numbers are the folder's own."""
    if is_kept(save, source):
        return
    with sources.held(save):
        found = sources.read(save) or source
        form = found.form if found.url == source.url else None
        sources.write(save, replace(found, url=source.url, form=form, renumber=source.renumber))


def is_kept(save: Path, source: Source) -> bool:
    found = sources.read(save)
    return found is not None and (found.url, found.renumber) == (source.url, source.renumber)


def check_source(server: Server, top: State, number: int, time: datetime | None, where: str) -> None:
    """The server has to be at a number at least, and its state of that has to have the time that it has here, if the
    server still has it."""
    if top.number < number:
        raise Fault(f"{server.url}: its newest number is {top.number}", mends=True)
    if number == 0 or time is None:
        return
    found = top if top.number == number else server.client.stop.apart(server.state, number)
    if found and found.time != time:
        raise OtherSource(f"{server.url}: number {number} is of {time_text(found.time)} there, and of "
                          f"{time_text(time)} in {where}: another source (--url URL --moved names the right one)")


def check_highest(server: Server, top: State, folder: Folder, position: saves.Position | None) -> None:
    """The highest number that the folder has already has to have the time that the server gives it, if the server
    still has it. A server that is below it, and hasn't it, was set back."""
    number = folder.highest()
    here = folder.state(number) if number else None
    if here is None:
        return
    # SAVE's own time was compared with the server's
    known = {top.number: top.time, **({position.number: position.time} if position else {})}
    time = known.get(number) or time_of(server, number)
    out = f"remove {folder.path}, or {OTHER_FOLDER}"
    if time is None and top.number < number:
        raise OtherSource(f"{folder.path}: has number {number}, which {server.url} hasn't: its newest number is "
                          f"{top.number} (if that stays, {out})", mends=True)
    if time and time != here.time:
        raise OtherSource(f"{folder.path}: its number {number} has another time than {server.url}'s "
                          f"({time_text(here.time)}, {time_text(time)}): numbers of another server, or of before it "
                          f"was set back ({out})")


def time_of(server: Server, number: int) -> datetime | None:
    found = server.client.stop.apart(server.state, number)
    return found and found.time


def bring(job: Job, listener: Listener, first: int, position: saves.Position | None,
          renumbering: Renumbering | None) -> Outcome:
    """Brings what the server has from a number on, or after the last diff of the list."""
    job.folder.stay_away(job.source.url)
    with Client(job.source.settings(), job.stop) as client:
        server = Server(job.source.url, client)
        with Progress(f"asking {server.url}"):
            top = job.stop.apart(server.newest)
            LOG.info("%s is at %d of %s", server.url, top.number, time_text(top.time))
            agree(server, top, job, position, renumbering)
        if renumbering:
            return Parts(job, server, listener, renumbering).run(renumbering.line.source + 1, top)
        return Fetcher(job, server, listener).run(first, top)


def agree(server: Server, top: State, job: Job, position: saves.Position | None,
          renumbering: Renumbering | None) -> None:
    """Sees that the server is the one that the save and the folder came from, and notes what is to be kept of this
    run's words."""
    if renumbering and renumbering.is_on:
        line = renumbering.line
        check_source(server, top, line.source, line.time, str(renumbering.numbers.path))
    elif position:
        check_source(server, top, position.number, position.time, "SAVE")
    if renumbering is None:
        check_highest(server, top, job.folder, position)
    elif not renumbering.is_on:
        renumbering.switch_on(position.number, position.time)
    job.folder.note_server(job.source.url)
    if position:
        keep(job.save, replace(job.source, renumber=renumbering is not None))
