"""The status of a mirror and its history as one page, without a script and without a file from elsewhere. All that
comes from outside is escaped."""

from dataclasses import replace
from datetime import datetime, timezone
from html import escape

from . import VERSION
from .chart import Chart, Mark, highest, svg
from .faults import one_line
from .history import History, history_of
from .known import Status, counted, length_text, server_text
from .runs import Run

BEGIN = "<!DOCTYPE html>\n<!-- osmrepl-planet status -->\n"
# what a state is called, its sign, and what it means
STATES = {"ok": ("Up to date", "✓"), "late": ("Late", "✕"), "failed": ("A person is needed", "!"),
          "unknown": ("Unknown", "?")}
WIDE, NARROW = (960, 250), (380, 230)
# the most parts of the time that a picture shows, and the most rows of a table
PARTS, ROWS, LAST_RUNS = 480, 20, 10

STYLE = """
:root { color-scheme: light dark; --page: #f4f5f7; --card: #ffffff; --ink: #1b1f24; --soft: #57606a; --line: #d8dee4;
  --blue: #0757b5; --hatch: #9aa4ae; --ok: #11632a; --ok-back: #d9f2df; --late: #a40e26; --late-back: #ffe0e2;
  --failed: #7a4a00; --failed-back: #ffedc7; --unknown: #424a53; --unknown-back: #e4e8ec; }
@media (prefers-color-scheme: dark) { :root { --page: #0d1117; --card: #161b22; --ink: #e6edf3; --soft: #9da7b1;
  --line: #30363d; --blue: #6cb0ff; --hatch: #6b7580; --ok: #7ee29a; --ok-back: #12331d; --late: #ff9ea4; 
  --late-back: #4a1218; --failed: #f5c66b; --failed-back: #3f2d06; --unknown: #b7c0c9; --unknown-back: #2a3038; } }
* { box-sizing: border-box; }
body { margin: 0; background: var(--page); color: var(--ink); font: 16px/1.5 system-ui, "Liberation Sans", sans-serif; }
main { max-width: 1060px; margin: 0 auto; padding: 24px 20px 40px; }
header { display: flex; flex-wrap: wrap; gap: 6px 16px; align-items: center; justify-content: space-between; }
h1 { font-size: 22px; margin: 0; overflow-wrap: anywhere; }
h2 { font-size: 17px; margin: 0 0 2px; }
p { margin: 0; }
.soft { color: var(--soft); font-size: 14px; }
.state { display: flex; flex-wrap: wrap; gap: 4px 12px; align-items: baseline; margin: 16px 0; padding: 12px 16px;
  border-radius: 10px; border-left: 6px solid; }
.state strong { font-size: 20px; }
.state span { color: var(--ink); overflow-wrap: anywhere; }
.ok { color: var(--ok); background: var(--ok-back); }
.late { color: var(--late); background: var(--late-back); }
.failed { color: var(--failed); background: var(--failed-back); }
.unknown { color: var(--unknown); background: var(--unknown-back); }
.cards { display: grid; grid-template-columns: repeat(auto-fit, minmax(200px, 1fr)); gap: 14px; }
section, .card { background: var(--card); border: 1px solid var(--line); border-radius: 10px; padding: 14px 16px; }
section { margin-top: 14px; }
.card .big { font-size: 32px; font-weight: 650; line-height: 1.25; font-variant-numeric: tabular-nums; }
svg { display: block; width: 100%; height: auto; margin-top: 8px; }
svg.narrow, svg.signs { display: none; }
svg.signs { display: block; position: absolute; width: 0; height: 0; }
.label { font-size: 12px; fill: var(--soft); font-variant-numeric: tabular-nums; }
.limit-label { fill: var(--late); }
.grid, .tick { stroke: var(--line); fill: none; }
.tick { stroke: var(--soft); }
.curve { stroke: var(--blue); stroke-width: 2; fill: none; stroke-linejoin: round; stroke-linecap: round; }
.area { fill: var(--blue); opacity: .14; }
.bars { stroke: var(--blue); stroke-width: 1.6; fill: none; }
.limit { stroke: var(--late); stroke-dasharray: 6 4; fill: none; }
rect.gap, rect.unknown { fill: url(#hatched); }
rect.run { fill: var(--soft); }
rect.fault { fill: var(--late); }
.on-gap, .limit-label { paint-order: stroke; stroke: var(--card); stroke-width: 5px; }
.on-gap { fill: var(--ink); }
.key { display: inline-block; width: 18px; margin: 0 6px 0 14px; vertical-align: middle; }
.key:first-child { margin-left: 0; }
.key.run { height: 2px; background: var(--soft); }
.key.fault { height: 12px; background: var(--late); }
.key.gap { height: 12px; border: 1px solid var(--hatch);
  background: repeating-linear-gradient(135deg, var(--hatch) 0 2px, transparent 2px 6px); }
table { border-collapse: collapse; width: 100%; font-size: 14px; margin-top: 8px; }
th, td { text-align: left; vertical-align: top; padding: 5px 14px 5px 0; border-top: 1px solid var(--line); }
thead th { border-top: 0; color: var(--soft); font-weight: 600; white-space: nowrap; }
td { font-variant-numeric: tabular-nums; white-space: nowrap; }
td:last-child { white-space: normal; overflow-wrap: anywhere; width: 50%; padding-right: 0; }
td.faulty { color: var(--late); }
dl { display: grid; grid-template-columns: max-content 1fr; gap: 4px 18px; margin: 8px 0 0; font-size: 15px; }
dt { color: var(--soft); }
dd { margin: 0; overflow-wrap: anywhere; }
footer { margin-top: 18px; }
@media (max-width: 640px) { main { padding: 14px 10px 28px; } svg.wide { display: none; } svg.narrow { display: block; }
  .cards { grid-template-columns: 1fr 1fr; gap: 8px; } .card { padding: 10px 12px; } .card .big { font-size: 23px; }
  section { padding: 12px 10px; } thead { display: none; } table, tbody { display: block; }
  tr { display: flex; flex-wrap: wrap; gap: 0 14px; padding: 6px 0; border-top: 1px solid var(--line); }
  td, td:last-child { border: 0; padding: 0; width: auto; } td.faulty { flex-basis: 100%; }
  td:not(:first-child, :last-child)::before { content: attr(data-head) " "; color: var(--soft); } }
"""
SIGNS = ('<svg class="signs" aria-hidden="true"><defs><pattern id="hatched" width="7" height="7" '
         'patternTransform="rotate(45)" patternUnits="userSpaceOnUse"><rect width="2" height="7" '
         'style="fill: var(--hatch)"/></pattern></defs></svg>')
KEYS = ('<p class="soft"><span class="key run"></span>runs<span class="key fault"></span>runs with a fault'
        '<span class="key gap"></span>no runs</p>')
NO_HISTORY = ('<section><h2>History</h2><p>No run is known yet. Each run of <code>osmrepl-planet mirror</code> is '
              'noted from now on, and shown here.</p></section>')


def page_of(status: Status, report: dict) -> str:
    """The page. Its numbers are those of the report, each as a `data` element that has its name."""
    name, history = escaped(status.save.name.removesuffix(".save")), history_of(status.history, status.now)
    return BEGIN + f"""<html lang="en">
<head>
<meta charset="utf-8">
<meta name="viewport" content="width=device-width, initial-scale=1">
<meta http-equiv="refresh" content="60">
<meta http-equiv="Content-Security-Policy" content="default-src 'none'; style-src 'unsafe-inline'; img-src data:">
<link rel="icon" href="data:,">
<title>{STATES[status.state][0]}: mirror {name}</title>
<style>{STYLE}</style>
</head>
<body>
{SIGNS}
<main>
<header><h1>Mirror {name}</h1><p class="soft">as of {moment(status.now)}</p></header>
{state_of(status)}
{cards_of(status, report)}
{history_sections(status, history) if status.history else NO_HISTORY}
{facts_of(status, report)}
<footer class="soft">Made by osmrepl-planet {escaped(VERSION)}. All times are UTC. The page loads itself again each
minute, and shows what is new once status has written it again.</footer>
</main>
</body>
</html>
"""


def escaped(value: object) -> str:
    return escape(one_line(str(value)).encode("utf-8", "replace").decode())


def moment(time: datetime | float | None) -> str:
    if time is None:
        return "unknown"
    time = time if isinstance(time, datetime) else datetime.fromtimestamp(time, timezone.utc)
    return f"{time:%Y-%m-%d %H:%M:%S} UTC"


def data(name: str, value: int | None, said: str | None = None) -> str:
    """A number of the report by its name, as a person reads it."""
    if value is None:
        return f'<data id="{name}" value="">unknown</data>'
    return f'<data id="{name}" value="{value}">{f"{value:,}" if said is None else escaped(said)}</data>'


def state_of(status: Status) -> str:
    name, sign = STATES[status.state]
    return (f'<div class="state {status.state}"><strong>{sign} {name}</strong>'
            f'<span>{escaped(meaning(status))}</span></div>')


def meaning(status: Status) -> str:
    """What the state says, in a sentence or two."""
    run = status.last_run
    if status.fault:
        return status.fault
    if status.state == "unknown":
        return f"The age of the mirror isn't known: {status.no_age}."
    said = f"It is older than {length_text(status.most)}. " if status.state == "late" else ""
    if run is None:
        return said + "No run is known yet."
    if run.fault is not None:
        return f"{said}The last run, at {run.at:%H:%M:%S} UTC: {local(status, run.fault)}"
    return f"{said}The last run began at {moment(run.at)}, took {run.seconds:.1f} s and met no fault."


def local(status: Status, fault: str) -> str:
    """A fault, with paths on the server alone."""
    return fault.replace(f"{status.source.url}/", "") if status.source else fault


def cards_of(status: Status, report: dict) -> str:
    day = report["day"]
    age = data("age", status.age, None if status.age is None else length_text(status.age))
    behind = data("behind", status.behind)
    return '<div class="cards">' + "".join(
        f'<div class="card"><h2>{head}</h2><p class="big">{big}</p><p class="soft">{small}</p></div>'
        for head, big, small in [
            ("Age", age, f"by the clock; late after {length_text(status.most)}"),
            ("Number", data("number", status.number), f"of {moment(status.time)}"),
            ("Behind", behind, f"numbers; {server_text(status, data('server', status.server))}"
             if status.server is not None else "no run has seen the server"),
            ("Faults", data("day-faults", day["faults"]),
             f"in {data('day-runs', day['runs'])} runs of the last day")]) + "</div>"


def history_sections(status: Status, history: History) -> str:
    return charts_of(status, history) + events_of(status, history) + runs_of(status)


def charts_of(status: Status, history: History) -> str:
    now = status.now.timestamp()
    lags = [[(one.end, one.run.lag) for one in part if one.run.lag is not None] for part in history.parts]
    lengths = [[(one.begin, one.run.seconds) for one in part] for part in history.parts]
    if lags and lags[-1] and status.age is not None and not history.is_quiet:
        lags[-1].append((now, status.age))
    day, month = now - 86400, now - 30 * 86400
    return "".join(section(name, f"{about}; times in UTC", charted(Chart(
        name, start, now, parts, marks_of(status, history, start), most, most is None)))
        for name, about, start, parts, most in [
            ("Lag over the last day", "Age by the clock at the end of each run", day, lags, status.most),
            ("Lag over the last 30 days", "Age by the clock, with each peak", month, lags, status.most),
            ("Runs over the last day", "How long each run took", day, lengths, None)])


def section(head: str, about: str, body: str) -> str:
    return f'<section><h2>{head}</h2><p class="soft">{about}</p>{body}</section>'


def charted(chart: Chart) -> str:
    """The chart for wide screens and the one for narrow ones, of which a screen shows one."""
    kept = [[pair for pair in part if chart.start <= pair[0] <= chart.end] for part in chart.parts]
    drawn = ""
    for kind, (width, height), count in ("wide", WIDE, PARTS), ("narrow", NARROW, PARTS // 3):
        best = [highest(part, chart.start, chart.end, count) for part in kept if part]
        drawn += svg(replace(chart, parts=best), width, height, kind)
    return drawn + KEYS


def marks_of(status: Status, history: History, start: float) -> list[Mark]:
    """What the band shows from a moment on."""
    marks = [Mark(part[0].begin, part[-1].end, "run", "") for part in history.parts]
    marks += [Mark(gap.begin, gap.end, "gap", f"no runs for {length_text(gap.end - gap.begin)}")
              for gap in history.gaps]
    marks += [Mark(fault.begin, fault.end, "fault", f"{moment(fault.begin)}: {one_line(local(status, fault.fault))}")
              for fault in history.faults]
    if history.begin - start > history.pause:
        marks.append(Mark(start, history.begin, "unknown", "no run is known"))
    return [mark for mark in marks if mark.end > start]


def events_of(status: Status, history: History) -> str:
    """The faults and gaps, the newest first."""
    events = sorted(history.faults + history.gaps, key=lambda event: event.begin, reverse=True)
    if not events:
        return section("Faults and gaps", "None in the last 30 days", "")
    rows = [[moment(event.begin), length_text(event.end - event.begin), f"{event.runs:,}" if event.runs else "none",
             "no runs" if event.fault is None else f"✕ {escaped(local(status, event.fault))}"]
            for event in events[:ROWS]]
    more = f'<p class="soft">{counted(len(events) - ROWS, "earlier one", ",")} in the last 30 days</p>'
    return section("Faults and gaps", "Of the last 30 days, the newest first", table(
        ["Since", "For", "Runs", "What"], rows) + (more if len(events) > ROWS else ""))


def table(heads: list[str], rows: list[list[str]]) -> str:
    """A table whose last column may have a long text. On a narrow screen each cell says its head itself."""
    head = "".join(f'<th scope="col">{name}</th>' for name in heads)
    body = "".join("<tr>" + "".join(cell(*pair) for pair in zip(heads, row)) + "</tr>" for row in rows)
    return f"<table><thead><tr>{head}</tr></thead><tbody>{body}</tbody></table>"


def cell(head: str, text: str) -> str:
    kind = ' class="faulty"' if text.startswith("✕") else ""
    return f'<td{kind} data-head="{head}">{text}</td>'


def runs_of(status: Status) -> str:
    runs = status.history[-LAST_RUNS:][::-1]
    return section("The last runs", "The newest first", table(["Began", "Took", "Numbers", "Lag", "Came to"], [
        [moment(run.at), f"{run.seconds:.1f} s", numbers_of(run),
         "unknown" if run.lag is None else length_text(run.lag), outcome_of(status, run)] for run in runs]))


def numbers_of(run: Run) -> str:
    if run.first is None:
        return "none"
    return f"{run.first:,}" if run.first == run.last else f"{run.first:,} to {run.last:,}"


def outcome_of(status: Status, run: Run) -> str:
    if run.fault is not None:
        return f"✕ {escaped(local(status, run.fault))}"
    return "done" if run.status == 0 else "ended by a signal" if run.status > 128 else f"✕ status {run.status}"


def facts_of(status: Status, report: dict) -> str:
    """What SAVE and the files beside it say."""
    save, journal, source = (report[name] or {} for name in ("save", "journal", "source"))
    of_save = f" in SAVE, which is at number {data('save-number', save.get('number'))}"
    rows = [("Objects", data("objects", save.get("objects")) + of_save),
            ("Edits", data("edits", save.get("edits")) + f" in SAVE, after number {data('base', save.get('base'))}"),
            ("Journal", f"{data('journal-numbers', journal.get('numbers'))} numbers more, "
                        f"{data('journal-bytes', journal.get('bytes'))} bytes"),
            ("Server", escaped(source.get("url", "unknown"))), ("Folder", escaped(source.get("folder", "unknown")))]
    rows += [("Consumer", consumer(place, cursor)) for place, cursor in enumerate(report["cursors"])]
    rows += [] if report["cursors"] else [("Consumers", "none")]
    return section("The mirror", escaped(status.save), "<dl>" + "".join(
        f"<dt>{name}</dt><dd>{value}</dd>" for name, value in rows) + "</dl>")


def consumer(place: int, cursor: dict) -> str:
    if cursor["fault"] is not None:
        return f"✕ {escaped(cursor['path'])}: {escaped(cursor['fault'])}"
    return (f"{escaped(cursor['path'])} at number {data(f'cursor-{place}-number', cursor['number'])}, "
            f"{data(f'cursor-{place}-behind', cursor['behind'])} behind")
