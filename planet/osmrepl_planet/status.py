"""Says how a mirror is, in several forms. It writes nothing but the files that it is given."""

import argparse
import json
from datetime import timedelta
from pathlib import Path

from . import files, metrics, page
from .faults import DONE, FAULTY, Fault, Refused
from .known import DAY, Cursor, Status, counted, length_text, report_of, server_text, shown, status_of
from .options import seconds
from .output import print_lines, say
from .runs import Run
from .save import Holding
from .state import time_text

MONTH = timedelta(days=30)
OUTPUT = "-"
# what a monitoring plugin says, and its statuses
PLUGIN = {"ok": ("OK", 0), "failed": ("OK", 0), "late": ("CRITICAL", 2), "unknown": ("UNKNOWN", 3)}


def json_of(status: Status) -> str:
    return json.dumps(report_of(status), separators=(",", ":"), sort_keys=True)


def lines_of(status: Status) -> list[str]:
    """The ten lines for a person."""
    holding = status.holding
    position, time_ = holding.position, status.time
    return [
        f"number {position.number}" + (f" of {time_text(time_)}" if time_ else ""),
        age_text(status),
        "behind unknown" if status.behind is None else f"behind {status.behind} ({server_text(status, status.server)})",
        f"objects {holding.objects}{of_what(holding)}",
        "edits unknown (too many changesets to read)" if holding.edits is None else
        f"edits {holding.edits} after number {holding.position.base}{of_what(holding)}",
        f"last run {run_text(status.last_run)}",
        faults_text(status),
        f"journal {counted(holding.waiting, 'number')}, {holding.journal} bytes" if holding.journal else "journal none",
        f"source {shown(status.source.url)}" if status.source else "source none",
        "cursors " + ("; ".join(cursor_text(status, cursor) for cursor in status.cursors) or "none")]


def age_text(status: Status) -> str:
    if status.age is None:
        return f"age unknown ({status.no_age})"
    return f"age {status.age} s" + (f" ({length_text(status.age)})" if status.age >= 60 else "")


def of_what(holding: Holding) -> str:
    """Of what a count is, if it isn't of all."""
    return f" (in SAVE; the journal has {counted(holding.waiting, 'number')} more)" if holding.waiting else ""


def run_text(run: Run | None) -> str:
    if run is None:
        return "none"
    numbers = "nothing new" if run.first is None else f"{run.first}..{run.last}"
    fault = f", {shown(run.fault)}" if run.fault is not None else ""
    return f"{time_text(run.at)}, {run.seconds:.1f} s, {numbers}, status {run.status}{fault}"


def faults_text(status: Status) -> str:
    faulty = [run for run in status.day if run.fault is not None]
    last = f", last at {time_text(faulty[-1].at)}: {shown(faulty[-1].fault)}" if faulty else ""
    return f"faults {len(faulty)} in {counted(len(status.day), 'run')} of the last day{last}"


def cursor_text(status: Status, cursor: Cursor) -> str:
    if cursor.state is None:
        return f"{shown(cursor.path)}: {shown(cursor.fault)}"
    return f"{shown(cursor.path)} at {cursor.state.number}, {status.behind_of(cursor)} behind"


def plugin_line(status: Status) -> str:
    """The line of a monitoring plugin: its word, what it says, and its measurements after a bar."""
    word, _ = PLUGIN[status.state]
    if status.age is None:
        return f"OSMREPL {word}: " + shown(status.fault or status.no_age).replace("|", "/")
    said = f"OSMREPL {word}: number {status.number}, {length_text(status.age)} old"
    if status.fault:
        said += f"; {shown(status.fault)}"
    elif status.last_run and status.last_run.fault is not None:
        said += f"; the last run: {shown(status.last_run.fault)}"
    behind = "U" if status.behind is None else status.behind
    faults = sum(run.fault is not None for run in status.day)
    return f"{said.replace('|', '/')} | age={status.age}s;;{status.most};0 behind={behind};;;0 faults={faults};;;0"


def write(file: str, text: str, begin: str) -> None:
    """Prints a text, or replaces a file of the same sort as a whole: no other one, as a SAVE that was named in its
    place. A device or a pipe is written to."""
    path, content = files.lead_of(Path(file)), text.encode("utf-8", "replace")
    if file == OUTPUT:
        print_lines(text.splitlines())
    elif path.exists() and not path.is_file():
        with files.writing(path), open(path, "wb") as out:
            out.write(content)
    else:
        check_own(path, begin)
        files.replace(path, content)


def check_own(path: Path, begin: str) -> None:
    if path.exists() and path.stat().st_size:
        with files.reading(path), open(path, "rb") as old:
            if old.read(len(begin)) != begin.encode():
                raise Fault(f"{path}: wasn't written by status, so it stays (name another file, or remove it)")


HELP = """\
Prints in ten lines the number, its age by the clock, how many numbers of the server are still to
come, the objects and the edits that SAVE itself has, the last run, the faults of the last day, the
journal, the server, and how far the consumers are that SAVE.source names as cursors. It reads the
first and the last lines of SAVE, whatever its size, and SAVE.runs, which mirror writes. It asks no
server and takes no lock.

--prometheus gives times as Unix seconds and no ages, so a file that nobody rewrites grows old.
--html gives a page with the history of a day and of a month that needs no other file. Both files
are replaced as a whole, and only if status wrote them or they are empty; then nothing is printed,
unless --json or --max-age is given. FILE `-` is standard output.

Status 0: done; 2: the words are refused; 3: any other fault, with a line on standard error. With
--max-age it is that of a monitoring plugin, 0: OK; 2: CRITICAL, the mirror is older; 3: UNKNOWN, also
if the words are refused."""


def add_words(parser: argparse.ArgumentParser) -> None:
    parser.add_argument("save", metavar="SAVE", type=Path, help="the mirror")
    parser.add_argument("--json", action="store_true", help="prints one line of JSON")
    parser.add_argument("--max-age", metavar="SECONDS", type=seconds,
                        help="prints the line of a monitoring plugin: the mirror may be so old")
    parser.add_argument("--prometheus", metavar="FILE", nargs="?", const=OUTPUT,
                        help="writes metrics for the textfile collector of node_exporter")
    parser.add_argument("--html", metavar="FILE", help="writes a page for a browser")


def run(words: argparse.Namespace, _stop: object) -> int:
    if words.json + (words.max_age is not None) + (words.prometheus == OUTPUT) + (words.html == OUTPUT) > 1:
        raise Refused("only one of --json, --max-age and FILE - is printed")
    status = status_of(words.save, words.max_age, MONTH if words.html else DAY)
    if words.html:
        write(words.html, page.page_of(status, report_of(status)), page.BEGIN)
    if words.max_age is not None:
        print_lines([plugin_line(status)])
    if words.json:
        print_lines([json_of(status)])
    if status.holding and words.prometheus:
        write(words.prometheus, metrics.text_of(status), metrics.BEGIN)
    elif status.holding and not (words.html or words.json or words.max_age is not None):
        print_lines(lines_of(status))
    if status.fault and words.max_age is None:
        say(status.fault)
    return ended(words, status)


def ended(words: argparse.Namespace, status: Status) -> int:
    if words.max_age is not None:
        return PLUGIN[status.state][1]
    return FAULTY if status.fault else DONE
