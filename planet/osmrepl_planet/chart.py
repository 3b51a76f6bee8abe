"""Curves and bars as inline SVG: measurements over time, with axes in UTC, a limit, and a band below them that shows
runs, faults and gaps."""

import math
from dataclasses import dataclass, field
from datetime import datetime, timezone
from html import escape

from .known import length_text

HOUR, DAY = 3600, 86400
TIME_STEPS = (HOUR, 2 * HOUR, 3 * HOUR, 6 * HOUR, 12 * HOUR, DAY, 2 * DAY, 5 * DAY, 10 * DAY)
LENGTH_STEPS = (0.1, 0.2, 0.5, 1, 2, 5, 10, 15, 30, 60, 120, 300, 600, 900, 1800, HOUR, 2 * HOUR, 3 * HOUR, 6 * HOUR,
                12 * HOUR, DAY, 2 * DAY, 5 * DAY, 10 * DAY, 30 * DAY, 100 * DAY, 365 * DAY)
# in the units of the picture: the least room of a label, and what stands around the plot
LABEL, LEFT, RIGHT, TOP, BOTTOM, BAND = 62, 74, 14, 12, 46, 12
MONTHS = "Jan Feb Mar Apr May Jun Jul Aug Sep Oct Nov Dec".split()


@dataclass(frozen=True)
class Mark:
    """A part of the band: `run`, `fault`, `gap` or `unknown`, and what is said of it."""

    start: float
    end: float
    kind: str
    about: str


@dataclass(frozen=True)
class Chart:
    """What is drawn: a name, the moments between which it is, parts of curves as pairs of a moment and a length in
    seconds, and from which length on it is late."""

    name: str
    start: float
    end: float
    parts: list[list[tuple[float, float]]]
    marks: list[Mark] = field(default_factory=list)
    limit: float | None = None
    is_bars: bool = False


@dataclass(frozen=True)
class Frame:
    """A picture of a size, and where moments and lengths are in it."""

    chart: Chart
    width: int
    height: int

    @property
    def bottom(self) -> int:
        return self.height - BOTTOM

    @property
    def step(self) -> float:
        """Between two lines across, of which there are at most five above zero."""
        most = max((value for part in self.chart.parts for _, value in part), default=0) or 1
        return next((step for step in LENGTH_STEPS if most <= 5 * step), most / 5)

    @property
    def most(self) -> float:
        values = [value for part in self.chart.parts for _, value in part]
        return self.step * max(1, math.ceil(max(values, default=0) / self.step))

    def x(self, moment: float) -> float:
        share = (moment - self.chart.start) / (self.chart.end - self.chart.start)
        return LEFT + min(1, max(0, share)) * (self.width - LEFT - RIGHT)

    def y(self, value: float) -> float:
        return self.bottom - min(1, value / self.most) * (self.bottom - TOP)


def svg(chart: Chart, width: int, height: int, kind: str) -> str:
    """The picture, for one class of screens."""
    frame = Frame(chart, width, height)
    draw = bars if chart.is_bars else curve
    return (f'<svg class="{kind}" viewBox="0 0 {width} {height}" role="img" aria-label="{escape(chart.name)}">'
            f'{lines_across(frame)}{times(frame)}{gaps(frame)}{"".join(draw(frame, part) for part in chart.parts)}'
            f'{limit(frame)}{band(frame)}</svg>')


def place(value: float) -> str:
    return f"{value:.1f}".removesuffix(".0")


def text(x: float, y: float, said: str, anchor: str, kind: str = "label") -> str:
    return f'<text class="{kind}" x="{place(x)}" y="{place(y)}" text-anchor="{anchor}">{escape(said)}</text>'


def line(kind: str, x1: float, y1: float, x2: float, y2: float) -> str:
    return f'<path class="{kind}" d="M{place(x1)} {place(y1)}L{place(x2)} {place(y2)}"/>'


def box(kind: str, x1: float, y1: float, x2: float, y2: float, about: str = "") -> str:
    title = f"<title>{escape(about)}</title>" if about else ""
    return (f'<rect class="{kind}" x="{place(x1)}" y="{place(y1)}" width="{place(max(x2 - x1, 1))}" '
            f'height="{place(y2 - y1)}">{title}</rect>')


def lines_across(frame: Frame) -> str:
    drawn = ""
    for place_ in range(round(frame.most / frame.step) + 1):
        value = place_ * frame.step
        drawn += line("grid", LEFT, frame.y(value), frame.width - RIGHT, frame.y(value))
        drawn += text(LEFT - 6, frame.y(value) + 4, length_label(value), "end")
    return drawn


def length_label(value: float) -> str:
    return f"{value:.1f} s" if 0 < value < 1 else length_text(value)


def times(frame: Frame) -> str:
    """The times below, as many as have room."""
    chart = frame.chart
    room = (chart.end - chart.start) * LABEL / (frame.width - LEFT - RIGHT)
    step = next((step for step in TIME_STEPS if step >= room), TIME_STEPS[-1])
    drawn, moment = "", math.ceil(chart.start / step) * step
    while moment <= chart.end:
        x = frame.x(moment)
        drawn += line("tick", x, frame.bottom, x, frame.bottom + 4)
        # a label at the edge would be cut off
        if LEFT + 8 <= x <= frame.width - RIGHT - 8:
            drawn += text(x, frame.height - 6, time_label(moment, step), "middle")
        moment += step
    return drawn


def time_label(moment: float, step: float) -> str:
    time = datetime.fromtimestamp(moment, timezone.utc)
    if step < DAY and moment % DAY:
        return f"{time:%H:%M}"
    return f"{time.day} {MONTHS[time.month - 1]}"


def curve(frame: Frame, part: list[tuple[float, float]]) -> str:
    """A curve, and the area below it. One point is drawn as a short line."""
    points = [f"{place(frame.x(moment))} {place(frame.y(value))}" for moment, value in part]
    path = "M" + "L".join(points if len(points) > 1 else points * 2)
    first, last = frame.x(part[0][0]), frame.x(part[-1][0])
    return (f'<path class="area" d="{path}L{place(last)} {frame.bottom}L{place(first)} {frame.bottom}Z"/>'
            f'<path class="curve" d="{path}"/>')


def bars(frame: Frame, part: list[tuple[float, float]]) -> str:
    """Each length as a line from below."""
    return '<path class="bars" d="' + "".join(
        f"M{place(frame.x(moment))} {frame.bottom}V{place(min(frame.y(value), frame.bottom - 1))}"
        for moment, value in part) + '"/>'


def limit(frame: Frame) -> str:
    if frame.chart.limit is None or not 0 < frame.chart.limit <= frame.most:
        return ""
    y = frame.y(frame.chart.limit)
    said = text(LEFT + 6, y - 5 if y > TOP + 14 else y + 14, f"late after {length_text(frame.chart.limit)}", "start",
                "label limit-label")
    return line("limit", LEFT, y, frame.width - RIGHT, y) + said


def gaps(frame: Frame) -> str:
    """Times without runs are hatched, with a word if there is room."""
    drawn = ""
    for mark in frame.chart.marks:
        if mark.kind not in ("gap", "unknown"):
            continue
        start, end = frame.x(mark.start), frame.x(mark.end)
        drawn += box(mark.kind, start, TOP, end, frame.bottom, mark.about)
        said = "no runs" if mark.kind == "gap" else "no run is known"
        if end - start > 7 * len(said):
            drawn += text((start + end) / 2, (TOP + frame.bottom) / 2 + 4, said, "middle", "label on-gap")
    return drawn


def band(frame: Frame) -> str:
    """Runs as a thin line, faults as blocks, below the times' ticks."""
    top, drawn = frame.bottom + 8, ""
    for mark in frame.chart.marks:
        start, end = frame.x(mark.start), frame.x(mark.end)
        if mark.kind == "run":
            drawn += box("run", start, top + BAND / 2 - 1, end, top + BAND / 2 + 1)
        elif mark.kind == "fault":
            drawn += box("fault", start, top, max(end, start + 2), top + BAND, mark.about)
    return drawn


def highest(pairs: list[tuple[float, float]], start: float, end: float, count: int) -> list[tuple[float, float]]:
    """Of each of so many equal parts of the time the pair with the greatest value, and the last pair in any case."""
    found: dict[int, tuple[float, float]] = {}
    for moment, value in pairs:
        part = int((moment - start) / (end - start) * count)
        if part not in found or value >= found[part][1]:
            found[part] = moment, value
    best = [found[part] for part in sorted(found)]
    return best if not pairs or best[-1] == pairs[-1] else [*best, pairs[-1]]
