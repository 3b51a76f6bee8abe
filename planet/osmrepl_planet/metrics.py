"""The status of a mirror as metrics for Prometheus, in its text form. Times are Unix seconds and never ages, so a file
that nobody rewrites doesn't look young."""

from datetime import datetime

from .known import Cursor, Status
from .runs import Run

# each metric: its name, its type, and what it is
METRICS = [
    ("osmrepl_number", "gauge", "Number of the mirror."),
    ("osmrepl_timestamp_seconds", "gauge", "Time of that number, as Unix seconds."),
    ("osmrepl_server_number", "gauge", "Newest number of the server, as a run saw it last."),
    ("osmrepl_server_seen_timestamp_seconds", "gauge", "When that run began, as Unix seconds."),
    ("osmrepl_behind_numbers", "gauge", "Numbers up to that one that the mirror hasn't taken."),
    ("osmrepl_most_age_seconds", "gauge", "Age by the clock from which on the mirror is late."),
    ("osmrepl_save_number", "gauge", "Number of the file SAVE, without its journal."),
    ("osmrepl_save_objects", "gauge", "Objects in the file SAVE, without its journal."),
    ("osmrepl_save_edits_total", "counter", "Edits that the file SAVE has counted, without its journal."),
    ("osmrepl_journal_bytes", "gauge", "Size of the journal of SAVE."),
    ("osmrepl_journal_numbers", "gauge", "Numbers in the journal of SAVE."),
    ("osmrepl_last_run_timestamp_seconds", "gauge", "When the last run of mirror began, as Unix seconds."),
    ("osmrepl_last_run_duration_seconds", "gauge", "How long the last run of mirror took."),
    ("osmrepl_last_run_status", "gauge", "Status of the last run of mirror: 0 if no person is needed."),
    ("osmrepl_last_run_faulty", "gauge", "1 if the last run of mirror met a fault, said or not; 0 otherwise."),
    ("osmrepl_runs_total", "counter", "Runs of mirror."),
    ("osmrepl_faulty_runs_total", "counter", "Runs of mirror that met a fault, said or not."),
    ("osmrepl_cursor_readable", "gauge", "1 if the state text of a consumer can be read; 0 otherwise."),
    ("osmrepl_cursor_number", "gauge", "Number that a consumer has taken."),
    ("osmrepl_cursor_timestamp_seconds", "gauge", "Time of that number, as Unix seconds."),
    ("osmrepl_cursor_behind_numbers", "gauge", "Numbers of the mirror that a consumer hasn't taken."),
]
BEGIN = "# HELP osmrepl_"


def text_of(status: Status) -> str:
    """The metrics that are known, each with its help and its type."""
    save = label("save", status.save.absolute())
    samples = {name: [(save, value)] for name, value in values_of(status).items() if value is not None}
    for cursor in status.cursors:
        labels = f"{label('cursor', cursor.path.absolute())},{save}"
        for name, value in values_of_cursor(status, cursor).items():
            samples.setdefault(name, []).extend([(labels, value)] if value is not None else [])
    return "".join(text_of_metric(*metric, samples.get(metric[0], [])) for metric in METRICS)


def text_of_metric(name: str, kind: str, about: str, samples: list[tuple[str, float]]) -> str:
    head = f"# HELP {name} {about}\n# TYPE {name} {kind}\n"
    return head + "".join(f"{name}{{{labels}}} {value}\n" for labels, value in samples) if samples else ""


def label(name: str, value: object) -> str:
    text = str(value).encode("utf-8", "replace").decode().replace("\\", r"\\").replace("\n", r"\n").replace('"', r"\"")
    return f'{name}="{text}"'


def unix(time: datetime | None) -> int | None:
    return int(time.timestamp()) if time else None


def values_of(status: Status) -> dict:
    holding = status.holding
    return {
        "osmrepl_number": status.number, "osmrepl_timestamp_seconds": unix(status.time),
        "osmrepl_server_number": status.server, "osmrepl_server_seen_timestamp_seconds": unix(status.seen),
        "osmrepl_behind_numbers": status.behind,
        "osmrepl_most_age_seconds": status.most, "osmrepl_save_number": holding.saved,
        "osmrepl_save_objects": holding.objects, "osmrepl_save_edits_total": holding.edits,
        "osmrepl_journal_bytes": holding.journal, "osmrepl_journal_numbers": holding.waiting,
        **(values_of_run(status.last_run) if status.last_run else {})}


def values_of_run(run: Run) -> dict:
    return {"osmrepl_last_run_timestamp_seconds": unix(run.at),
            "osmrepl_last_run_duration_seconds": round(run.seconds, 3), "osmrepl_last_run_status": run.status,
            "osmrepl_last_run_faulty": int(run.fault is not None), "osmrepl_runs_total": run.runs,
            "osmrepl_faulty_runs_total": run.faults}


def values_of_cursor(status: Status, cursor: Cursor) -> dict:
    state = cursor.state
    return {"osmrepl_cursor_readable": int(state is not None), "osmrepl_cursor_number": state and state.number,
            "osmrepl_cursor_timestamp_seconds": unix(state and state.time),
            "osmrepl_cursor_behind_numbers": status.behind_of(cursor)}
