"""A picture of a run, as SVG: a row for each instrument and for each worker, by the clock."""

from __future__ import annotations

import html
import math
import re
from typing import Sequence

from .past import Held, told

_LEFT, _RIGHT, _ROW, _HEAD, _WIDE = 150, 20, 26, 30, 1200
_COLOURS = ("#9ecae1", "#a1d99b", "#fdd0a2", "#bcbddc", "#c7e9c0", "#fee391", "#d9d9d9", "#80cdc1")
_STYLE = """
svg { background: #ffffff; font: 12px sans-serif }
text { fill: #222222 }
.row { stroke: #dddddd }
.box { stroke: #222222; stroke-width: 0.6 }
.gone { stroke-dasharray: 4 2; stroke: #cc3311; stroke-width: 1.6 }
.wait { fill: #cc3311; fill-opacity: 0.25; stroke: #cc3311; stroke-width: 0.6 }
.kept { fill: #cc3311 }
.small { font-size: 10px }
"""


# what XML can't have, not even by its number
_NO_XML = re.compile("[^\t\n\r\x20-\ud7ff\ue000-\ufffd\U00010000-\U0010ffff]")


def escape(text: str) -> str:
    return html.escape(_NO_XML.sub(lambda it: it[0].encode("unicode_escape").decode(), text))


def gantt(sessions: Sequence[Held]) -> str:
    """Boxes are sessions, coloured by worker. Red is waiting: pale in the worker's row, and a line below the instrument that is waited for."""
    return _Picture(sessions).text()


class _Picture:
    def __init__(self, sessions: Sequence[Held]) -> None:
        self.sessions = [it for it in sessions if it.instruments or it.waited]
        self.instruments = sorted({name for it in self.sessions for name in (*it.instruments, *it.kept)})
        self.workers = sorted({it.worker for it in self.sessions}, key=lambda name: (len(name), name))
        self.begin = min((it.asked for it in self.sessions), default=0.0)
        self.end = max((self._until(it) for it in self.sessions), default=self.begin)
        self.scale = (_WIDE - _LEFT - _RIGHT) / max(self.end - self.begin, 0.001)
        self.top = {name: _HEAD + _ROW * at for at, name in enumerate(self.instruments)}
        gap = _HEAD + _ROW * len(self.instruments) + 16
        self.top_of_worker = {name: gap + _ROW * at for at, name in enumerate(self.workers)}
        self.high = gap + _ROW * len(self.workers) + 30

    @staticmethod
    def _until(it: Held) -> float:
        return max(it.asked, it.held or 0.0, it.let_go or 0.0)

    def text(self) -> str:
        parts = [
            f'<svg xmlns="http://www.w3.org/2000/svg" viewBox="0 0 {_WIDE} {self.high}" width="{_WIDE}" height="{self.high}">',
            f"<style>{_STYLE}</style>",
            *self._rows(),
            *self._ticks(),
        ]
        for it in self.sessions:
            parts += self._session(it)
        return "\n".join([*parts, "</svg>", ""])

    def _x(self, at: float) -> float:
        return _LEFT + (at - self.begin) * self.scale

    def _rows(self) -> list[str]:
        found = []
        for name, top in [*self.top.items(), *self.top_of_worker.items()]:
            found.append(f'<line class="row" x1="{_LEFT}" x2="{_WIDE - _RIGHT}" y1="{top + _ROW}" y2="{top + _ROW}"/>')
            found.append(f'<text x="{_LEFT - 8}" y="{top + 17}" text-anchor="end">{escape(name)}</text>')
        return found

    def _ticks(self) -> list[str]:
        span = max(self.end - self.begin, 0.001)
        rough = span / 10
        unit = 10.0 ** math.floor(math.log10(rough))
        step = next(unit * it for it in (1, 2, 5, 10) if unit * it >= rough)
        found = []
        for number in range(int(span / step) + 1):
            x = self._x(self.begin + number * step)
            found.append(f'<line class="row" x1="{x:.1f}" x2="{x:.1f}" y1="{_HEAD - 6}" y2="{self.high - 22}"/>')
            found.append(f'<text class="small" x="{x:.1f}" y="{self.high - 8}" text-anchor="middle">{number * step:g} s</text>')
        return found

    def _session(self, it: Held) -> list[str]:
        title = f"<title>{escape(self._told(it))}</title>"
        found = []
        row = self.top_of_worker[it.worker]
        began = it.held if it.held is not None else self._until(it)
        if it.waited > 0.001:
            found.append(self._box(it.asked, began, row + 3, _ROW - 6, "wait", "", title))
            for name in it.kept:
                found.append(self._box(it.asked, began, self.top[name] + _ROW - 3, 3, "kept", "", title))
        if it.held is None:
            return found
        colour = _COLOURS[self.workers.index(it.worker) % len(_COLOURS)]
        look = "box" if it.end == "done" else "box gone"
        for top in (*(self.top[name] for name in it.instruments), row):
            found.append(self._box(it.held, self._until(it), top + 3, _ROW - 7, look, colour, title))
            found += self._name(it, top)
        return found

    def _box(self, begin: float, end: float, top: float, high: float, look: str, colour: str, title: str) -> str:
        fill = f' fill="{colour}"' if colour else ""
        wide = max((end - begin) * self.scale, 1)
        return f'<rect class="{look}" x="{self._x(begin):.1f}" y="{top}" width="{wide:.1f}" height="{high}"{fill}>{title}</rect>'

    def _name(self, it: Held, top: float) -> list[str]:
        assert it.held is not None
        room, name = int((self._until(it) - it.held) * self.scale / 6), it.test.rsplit("::", 1)[-1]
        if room < 4:
            return []
        shown = name if len(name) <= room else name[: room - 1] + "…"
        return [f'<text class="small" x="{self._x(it.held) + 3:.1f}" y="{top + 16}" pointer-events="none">{escape(shown)}</text>']

    def _told(self, it: Held) -> str:
        ends = {"done": "", "late": ", and gave up", "gone": ", and its worker crashed or was interrupted", "taken": ", and it was taken away"}
        lines = [f"{told(it.test, it.worker)}: {' '.join(it.instruments)}", f"waited {it.waited:.2f} s, held {it.took:.2f} s{ends.get(it.end, '')}"]
        lines += [f"for {name}, at which was {by}" for name, by in it.kept.items()]
        return "\n".join([*lines, *it.notes])
