#!/usr/bin/env python3
"""A picture of a bay by two ways, one above the other, as SVG on standard output.

usage: checks/late/picture.py FILE BAY WAY WAY [MILLISECONDS]     FILE is of `late.py --json`; the middle 50 ms of each run, or so many

Each instrument has a row, and a box is a session that holds it, in the colour of its station; the station that needs the most instruments is
the dark one. Red: it stands free, and somebody waits who needs it and could work at once, since all that it needs is free. Pale red: it is free,
and whoever needs it waits for another one, too. Point at a box for its station."""

import json
import sys

LEFT, WIDTH, ROW, HEAD = 92, 900, 20, 30
TINTS = ("#9ecae1", "#6baed6", "#a1d99b", "#74c476", "#fdd0a2", "#fdae6b", "#bcbddc", "#9e9ac8", "#d9d9d9", "#bdbdbd", "#c7e9c0", "#c6dbef")


def spans(told, instruments, begin, end):
    """For each instrument: when it was held, each as its begin, end and station; and when it was free though wanted, each as its begin, end and
    whether somebody could have worked."""
    held = [[] for _ in range(instruments)]
    for at, _, began, ended, needs in told:
        for it in needs if began < end and ended > begin else ():
            held[it].append((max(began, begin), min(ended, end), at))
    marks = sorted({begin, end} | {it for one in told for it in one[1:4] if begin < it < end})
    wanted = [[] for _ in range(instruments)]
    for since, until in zip(marks, marks[1:]):
        middle = (since + until) / 2
        is_free = [not any(one[0] <= middle < one[1] for one in row) for row in held]
        waiting = [needs for _, asked, began, _, needs in told if asked <= middle < began]
        for it in range(instruments):
            needed = [needs for needs in waiting if it in needs]
            if not (is_free[it] and needed):
                continue
            could = any(all(is_free[one] for one in needs) for needs in needed)
            if wanted[it] and wanted[it][-1][1:] == (since, could):
                since_before = wanted[it].pop()[0]
                wanted[it].append((since_before, until, could))
            else:
                wanted[it].append((since, until, could))
    return held, wanted


def panel(way, run, top, span):
    told = run["told"]
    last = max(one[3] for one in told)
    begin = last / 2 - span / 2
    near = [one for one in told if one[1] < begin + span and one[3] > begin]
    instruments = 1 + max(max(one[4]) for one in told)
    most = max(told, key=lambda one: len(one[4]))[0]

    def x(when):
        return LEFT + (when - begin) / span * WIDTH

    held, wanted = spans(near, instruments, begin, begin + span)
    idle = f"somebody waits who could work: {100 * run['idle']:.0f} % of the time"
    title = f"{way.replace('labrun ', 'overtakes=')}: {run['rate']:.0f} sessions a second, longest wait {run['longest']:.0f} ms; {idle}"
    parts = [f'<text x="{LEFT}" y="{top - 10}" class="head">{title}</text>']
    for instrument in range(instruments):
        y = top + instrument * ROW
        parts.append(f'<text x="{LEFT - 8}" y="{y + 14}" text-anchor="end">instrument {instrument + 1}</text>')
        parts.append(f'<rect x="{LEFT}" y="{y + 2}" width="{WIDTH}" height="{ROW - 4}" fill="#f7f7f7"/>')
        for since, until, could in wanted[instrument]:
            red = "#e31a1c" if could else "#fde0dd"
            parts.append(f'<rect x="{x(since):.1f}" y="{y + 2}" width="{x(until) - x(since):.1f}" height="{ROW - 4}" fill="{red}"/>')
        for since, until, at in held[instrument]:
            colour = "#253494" if at == most else TINTS[at % len(TINTS)]
            box = f'<rect x="{x(since):.1f}" y="{y + 2}" width="{x(until) - x(since):.1f}" height="{ROW - 4}" fill="{colour}" stroke="#fff" stroke-width=".5">'
            parts.append(f"{box}<title>station {at + 1}</title></rect>")
    below = top + instruments * ROW
    for at in range(0, int(span * 1000) + 1, 10):
        parts.append(f'<text x="{LEFT + at / span / 1000 * WIDTH:.1f}" y="{below + 12}" text-anchor="middle">{at} ms</text>')
    return parts, below + 28


def main():
    if len(sys.argv) not in (5, 6):
        sys.exit(__doc__)
    file, bay, *ways = sys.argv[1:5]
    span = float(sys.argv[5] if len(sys.argv) == 6 else 50) / 1000
    with open(file, encoding="ascii") as opened:
        runs = json.load(opened)["bays"][bay]
    parts, top = [], HEAD
    for way in ways:
        more, below = panel(way, runs[way], top, span)
        parts += more
        top = below + HEAD
    height = top - HEAD + 6
    print(f'<svg xmlns="http://www.w3.org/2000/svg" width="{LEFT + WIDTH + 20}" height="{height}" viewBox="0 0 {LEFT + WIDTH + 20} {height}">')
    print("<style>text{font:11px sans-serif;fill:#333}.head{font-size:13px;font-weight:bold}</style>")
    print(f'<rect width="{LEFT + WIDTH + 20}" height="{height}" fill="#fff"/>')
    print("\n".join(parts))
    print("</svg>")


if __name__ == "__main__":
    main()
