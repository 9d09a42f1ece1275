"""What was, as one SVG: a row for each instrument and each station, time to the right. No styles and no scripts, so that it looks the same on paper."""

from __future__ import annotations

import time
from html import escape
from typing import Iterable, NamedTuple

from .sessions import ENDS, HOLDS, TRIED, UNKNOWN, Session, first, spans_waited_for

LEFT, WIDTH, ROW, BAR = 150, 1050, 24, 18
LETTER = 6.1  # the width of a letter, at this size
STEPS = [0.1, 0.2, 0.5, 1, 2, 5, 10, 15, 30, 60, 120, 300, 600, 900, 1800, 3600, 7200, 10800, 14400, 21600, 43200, 86400, 172800, 604800, 2592000]

WAIT, FREE, GONE, GAVE_UP = "wait", "free", "gone", ENDS["gave_up"]
FILLS = {
    "done": 'fill="#56b4e9" stroke="#1f6f9f"',
    "failed": 'fill="#f2a58f" stroke="#b3240f" stroke-width="1.5"',
    "taken away": 'fill="#ffd166" stroke="#8a5a00" stroke-width="1.5"',
    # (of a session over several bays: what it had in this one when it gave up)
    GAVE_UP: 'fill="#e3d5f2" stroke="#6a3d9a" stroke-dasharray="3 2"',
    HOLDS: 'fill="#b8f0c4" stroke="#1b7a35"',
    UNKNOWN: 'fill="#ddd" stroke="#777" stroke-dasharray="1 2"',
    WAIT: 'fill="#fff4d9" stroke="#c77f00" stroke-dasharray="3 2"',
    TRIED: 'fill="#eee" stroke="#999"',
    FREE: 'fill="#f7c6c6"',
    GONE: 'fill="#d00000"',
}
# that waited, and gave up
WAITED = "waited"
LEGEND = [
    ("done", "holds, done"), (HOLDS, "still holds"), ("failed", "failed"), ("taken away", "taken away"), (WAIT, "waits"), (WAITED, "gave up"),
    (GAVE_UP, "held, gave up"),
    (FREE, "waited for, in use by nobody"), (GONE, "client gone"), (UNKNOWN, "end unknown"),
]  # fmt: skip


class Bar(NamedTuple):
    begun: float
    ended: float
    kind: str
    label: str = ""
    about: str = ""


class Scale(NamedTuple):
    since: float
    until: float

    def x(self, t: float) -> float:
        return min(1.0, max(0.0, (t - self.since) / (self.until - self.since))) * WIDTH


def gantt(sessions: list[Session], instruments: list[str], stations: list[str], since: float, until: float) -> str:
    scale = Scale(since, max(until, since + 1))
    rows = [(name, bars_of_instrument(name, sessions, until), "") for name in instruments]
    rows += [("", [], "")]
    for name in stations:
        own = [it for it in sessions if it.station == name]
        rows.append((name, bars_of_station(own, until), "".join(marks_of(it, scale) for it in own)))
    height = 92 + ROW * len(rows)
    parts = [
        f'<svg xmlns="http://www.w3.org/2000/svg" width="{LEFT + WIDTH + 30}" height="{height + 14}"'
        f' viewBox="0 0 {LEFT + WIDTH + 30} {height + 14}" font-family="sans-serif" font-size="11">\n'
        '<title>What was in the bay</title>\n<rect width="100%" height="100%" fill="#fff"/>\n',
        legend(),
        f'<g transform="translate({LEFT} 90)">\n{axis(scale, ROW * len(rows))}',
    ]
    for at, (name, bars, marks) in enumerate(rows):
        parts.append(row(at * ROW, name, bars, marks, scale))
    return "".join(parts) + "</g>\n</svg>\n"


def bars_of_instrument(name: str, sessions: list[Session], until: float) -> list[Bar]:
    own = [it for it in sessions if name in it.instruments]
    bars = [Bar(t, after, FREE) for t, after in spans_waited_for(own, name, until)]
    for it in own:
        if it.held is not None:
            bars.append(Bar(it.held, first(it.ended, until), it.how, it.station, about(it)))
            bars += [Bar(t, first(back, until), GONE) for t, back in it.gone]
    return sorted(bars, key=lambda it: (it.kind == GONE, it.begun))


def bars_of_station(sessions: list[Session], until: float) -> list[Bar]:
    bars = []
    for it in sessions:
        label = " ".join(it.instruments)
        if it.held is None or it.held > it.asked:
            bars.append(Bar(it.asked, first(it.held, it.ended, until), WAIT, label if it.held is None else "", about(it)))
        if it.held is not None:
            bars.append(Bar(it.held, first(it.ended, until), it.how, label, about(it)))
            bars += [Bar(t, first(back, until), GONE) for t, back in it.gone]
    return sorted(bars, key=lambda it: (it.kind == GONE, it.begun))


def about(it: Session) -> str:
    """What is shown where a mouse rests."""
    number = "" if it.number is None else f" {it.number}"
    told = f"{it.station}{number}: {' '.join(it.instruments)}\nasked {clock(it.asked)}"
    told += "" if it.held is None else f", held {clock(it.held)}"
    told += f", {it.how}" + ("" if it.ended is None else f" {clock(it.ended)}") + (f": {it.why}" if it.why else "")
    return "\n".join([told, *([f"by {it.by}"] if it.by else []), *(text for _, text in it.notes)])


def marks_of(it: Session, scale: Scale) -> str:
    """A point for each note, a cross where a session failed or gave up, a bar where it was taken away."""
    parts = [mark(scale.x(t), "M0 1l3 3-3 3-3-3z", 'fill="#222"', text) for t, text in it.notes if scale.since <= t <= scale.until]
    if it.ended is not None and it.ended >= scale.since:
        parts.append(end_of(it.how, scale.x(it.ended)))
    return "".join(parts)


def end_of(how: str, x: float) -> str:
    if how in (GAVE_UP, WAITED, "failed"):
        return mark(x, "M-4 5l8 8m0-8l-8 8", 'fill="none" stroke="#b3240f" stroke-width="2"', "")
    if how == "taken away":
        return mark(x, "M0-1v20M0 4l-6 5 6 5z", 'fill="#8a5a00" stroke="#8a5a00" stroke-width="2"', "")
    return ""


def mark(x: float, path: str, how: str, text: str) -> str:
    return f'<path transform="translate({x:.1f} 0)" d="{path}" {how}>{title(text)}</path>\n'


def title(text: str) -> str:
    return f"<title>{shown(text)}</title>" if text else ""


def shown(text: str) -> str:
    """A text of somebody else, as XML may have it."""
    return escape("".join(it if it.isprintable() or it == "\n" else "\ufffd" for it in text))


def row(y: float, name: str, bars: list[Bar], marks: str, scale: Scale) -> str:
    if not name:
        return ""
    parts = [f'<g transform="translate(0 {y})"><path d="M0 {ROW - 2}H{WIDTH}" stroke="#eee"/>']
    parts.append(f'<text x="-8" y="13" text-anchor="end">{shown(cut(name, 23))}</text>\n')
    for it in merged(bars, scale):
        x, width = scale.x(it.begun), max(scale.x(it.ended) - scale.x(it.begun), 0.8)
        shape = f'y="{BAR - 4}" height="4"' if it.kind == GONE else f'y="1" height="{BAR - 2}"'
        parts.append(f'<rect x="{x:.1f}" width="{width:.1f}" {shape} {FILLS[it.kind]}>{title(it.about)}</rect>\n')
        label = cut(it.label, int((width - 6) / LETTER))
        if label:
            parts.append(f'<text x="{x + 4:.1f}" y="13" pointer-events="none">{shown(label)}</text>\n')
    return "".join(parts) + marks + "</g>\n"


def merged(bars: Iterable[Bar], scale: Scale) -> list[Bar]:
    """As they are, but neighbours too narrow to be told apart are one."""
    found: list[Bar] = []
    narrow = (scale.until - scale.since) / WIDTH
    for it in bars:
        if it.ended < scale.since or it.begun > scale.until:
            continue
        last = found[-1] if found else None
        if last and last.kind == it.kind and it.ended - it.begun < narrow and it.begun - last.ended < narrow / 2 and not last.label:
            found[-1] = last._replace(ended=max(last.ended, it.ended), about="")
        else:
            found.append(it._replace(label="") if it.ended - it.begun < narrow else it)
    return found


def cut(text: str, most: int) -> str:
    if len(text) <= most:
        return text
    return f"{text[: most - 1]}\u2026" if most > 3 else ""


def clock(t: float) -> str:
    return time.strftime("%Y-%m-%d %H:%M:%S", time.localtime(t))


def axis(scale: Scale, height: float) -> str:
    span = scale.until - scale.since
    step = next((it for it in STEPS if span / it <= 10), span)
    zone = time.localtime(scale.since).tm_gmtoff
    form = "%H:%M:%S" if step < 60 else "%H:%M" if step < 86400 else "%m-%d"
    at = ((scale.since + zone) // step + 1) * step - zone
    parts = [f'<text x="0" y="-22" fill="#555">{clock(scale.since)} to {clock(scale.until)}</text>\n']
    while at < scale.until:
        x = scale.x(at)
        text = time.strftime(form, time.localtime(at + 1e-6)) + (f"{at % 1:.1f}"[1:] if step < 1 else "")
        parts.append(f'<path d="M{x:.1f} 0V{height}" stroke="#ddd"/><text x="{x:.1f}" y="-6" text-anchor="middle" fill="#555">{text}</text>\n')
        at += step
    return "".join(parts)


def legend() -> str:
    parts, x = [], 10.0
    for kind, text in LEGEND:
        of = WAIT if kind == WAITED else kind
        y, height = (20, 4) if kind == GONE else (10, 14)
        parts.append(f'<rect x="{x:.0f}" y="{y}" width="26" height="{height}" {FILLS[of]}/><text x="{x + 32:.0f}" y="21">{text}</text>\n')
        parts.append(f'<g transform="translate({x + 21:.0f} 8)">{end_of(kind, 0)}</g>\n')
        x += 50 + LETTER * len(text)
    return "".join(parts) + '<path transform="translate(13 38)" d="M0 1l3 3-3 3-3-3z" fill="#222"/><text x="22" y="46">a note</text>\n'
