#!/usr/bin/env python3
"""What `labview gantt N` draws for a script, reckoned by checks/simulate.py's rounds and docs/labview.md alone.

Usage: checks/reckon_gantt.py N < SCRIPT
"""
import os
import sys

sys.dont_write_bytecode = True
sys.path.insert(0, os.path.dirname(os.path.abspath(__file__)))
import reckon_blocks
import simulate

SESSION_ENDS = {"drink": "drinks", "quit": "done", "withdraw": "given up"}
MEAL_ENDS = {"sit": "sits", "leave": "leaves"}


class Keeping(reckon_blocks.Watched):
    """A run that counts for each session of a job by itself which bottles it waits for."""

    def count(self, table, job, other, instruments):
        for instrument in range(len(self.plan.instrument_names)):
            if instruments >> instrument & 1:
                table.setdefault((job.number, job.session), {}).setdefault((other.number, instrument), 0)
                table[job.number, job.session][other.number, instrument] += 1


def run_of(plan, limit, run=None):
    """For each job its sessions and its meals, as dicts of rounds; the rounds done; whether all jobs are retired."""
    run = run or simulate.Run(plan, True)
    jobs = [([], []) for _ in plan.job_names]
    seen, done = 0, 0

    def take(number):
        nonlocal seen
        for event in run.events[seen:]:
            kind = event[0]
            if kind not in ("thirst", "hunger") and kind not in SESSION_ENDS and kind not in MEAL_ENDS:
                continue
            sessions, meals = jobs[event[1]]
            if kind == "thirst":
                sessions.append({"thirsty": number})
            elif kind == "hunger":
                meals.append({"hungry": number})
            elif kind in SESSION_ENDS:
                sessions[-1][SESSION_ENDS[kind]] = number
            else:
                meals[-1][MEAL_ENDS[kind]] = number
        seen = len(run.events)

    def after_round(_):
        nonlocal done
        done += 1
        take(done)

    run.drive_rounds(limit, after_round)
    take(run.rounds)
    return jobs, run.rounds, run.all_retired()


class Picture:
    def __init__(self, plan, limit):
        self.plan = plan
        self.run = Keeping(plan, True)
        self.jobs, self.last, self.retired = run_of(plan, limit, self.run)
        self.lines = []

    def at(self, k):
        if self.last > 4000:
            return k * 4000 // self.last
        each = 24
        while each > 1 and each * self.last > 1200:
            each -= 1
        return k * each

    def wide(self, a, b):
        return max(1, self.at(b) - self.at(a))

    def step(self):
        ten = 1
        while True:
            for step in (ten, 2 * ten, 5 * ten):
                if self.last <= 20 * step:
                    return step
            ten *= 10

    def outcome(self, x):
        if "drinks" in x:
            end = " done %d" % x["done"] if "done" in x else ""
            return " drinks %d%s waited %d" % (x["drinks"], end, x["drinks"] - x["thirsty"])
        return " given up %d" % x["given up"] if "given up" in x else " waits"

    def box(self, a, b, look):
        return '<rect x="%d" y="4" width="%d" height="16" %s/>' % (self.at(a), self.wide(a, b), look)

    def keepers(self, j, s):
        """Who kept the session waiting for the most rounds: three at most."""
        blocked, held = self.run.blocked.get((j, s), {}), self.run.held.get((j, s), {})
        most = sorted(blocked, key=lambda it: (-blocked[it], it))[:3]
        told = [
            "by %s (%s) %d round%s, used %d"
            % (self.plan.job_names[it[0]], self.plan.instrument_names[it[1]], blocked[it], "" if blocked[it] == 1 else "s", held.get(it, 0))
            for it in most
        ]
        return "; kept waiting " + "; ".join(told) if told else ""

    def session(self, j, s, x):
        commands = self.plan.sessions[j][s - 1].commands
        names = [self.plan.instrument_names[i] for i in sorted({command[0] for command in commands})]
        title = "%s session %d: %s; thirsty %d%s" % (self.plan.job_names[j], s, " ".join(names), x["thirsty"], self.outcome(x) + self.keepers(j, s))
        thirsty_to = x.get("drinks", x.get("given up", self.last))
        text = "<g><title>%s</title>" % title
        text += self.box(x["thirsty"], thirsty_to, 'fill="#fff4d9" stroke="#c77f00" stroke-dasharray="3 2"')
        box = x["thirsty"], thirsty_to
        if "drinks" in x:
            box = x["drinks"], x.get("done", self.last)
            text += self.box(*box, 'fill="#56b4e9" stroke="#222"')
        if self.wide(*box) >= 6 * len(str(s)) + 6:
            text += '<text x="%d" y="16">%d</text>' % (self.at(box[0]) + 3, s)
        if "drinks" not in x and "given up" in x:
            text += '<path d="M%d 12m-5-5l10 10m0-10l-10 10" fill="none" stroke="#d00000" stroke-width="2"/>' % self.at(x["given up"])
        return text + "</g>\n"

    def meal(self, x):
        look = '<path d="M%d 28h%d" stroke="#777" stroke-width="2" stroke-dasharray="2 3"/>'
        text = look % (self.at(x["hungry"]), self.wide(x["hungry"], x.get("sits", self.last)))
        if "sits" in x:
            text += '<path d="M%d 28h%d" stroke="#222" stroke-width="5"/>' % (self.at(x["sits"]), self.wide(x["sits"], x.get("leaves", self.last)))
        return text + "\n"

    def head(self):
        width, height = max(720, self.at(self.last) + 180), 100 + 40 * len(self.jobs)
        return (
            '<?xml version="1.0" encoding="UTF-8"?>\n<svg xmlns="http://www.w3.org/2000/svg" version="1.1" width="%d" height="%d" viewBox="0 0 %d %d" '
            'font-family="monospace" font-size="10">\n' % (width, height, width, height)
            + LEGEND
            + '<text x="10" y="50" font-size="13">rounds %d %s\n</text>\n' % (self.last, "finished" if self.retired else "unfinished")
            + '<g transform="translate(150 90)"%s>\n' % ("" if self.last <= 300 else ' stroke-width="0.4"')
        )

    def draw(self):
        text = self.head()
        for k in range(0, self.last + 1, self.step()):
            text += '<path d="M%d 0V%d" stroke="#ddd"/>' % (self.at(k), 40 * len(self.jobs))
            text += '<text x="%d" y="-6" text-anchor="middle" fill="#555">%d</text>\n' % (self.at(k), k)
        for j, (sessions, meals) in enumerate(self.jobs):
            text += '<g transform="translate(0 %d)"><path d="M-140 38H%d" stroke="#bbb"/>' % (40 * j, self.at(self.last))
            text += '<text x="-140" y="18" font-size="12">%s</text>\n' % self.plan.job_names[j]
            text += "".join(self.session(j, s, x) for s, x in enumerate(sessions, 1))
            text += "".join(self.meal(x) for x in meals) + "</g>\n"
        return text + "</g>\n</svg>\n"


DASHED = '<rect width="30" height="16" fill="#fff4d9" stroke="#c77f00" stroke-dasharray="3 2"/><text x="36" y="12">thirsty</text>'
FILLED = (
    '<rect x="100" width="30" height="16" fill="#56b4e9" stroke="#222"/><text x="136" y="12">session S holds its instruments</text>'
    '<text x="103" y="12">S</text>'
)
CROSS = '<path d="M350 8m-5-5l10 10m0-10l-10 10" fill="none" stroke="#d00000" stroke-width="2"/><text x="362" y="12">given up</text>'
DOTTED = '<path d="M440 8h30" stroke="#777" stroke-width="2" stroke-dasharray="2 3"/><text x="476" y="12">hungry</text>'
THICK = '<path d="M540 8h30" stroke="#222" stroke-width="5"/><text x="576" y="12">eats</text>'
WORDS = "thirsty: waits for its instruments; hungry: waits for its forks, which settle who gives way; eats: has all of them"
LEGEND = (
    '<title>A run by rounds</title>\n<rect width="100%" height="100%" fill="#fff"/>\n<g transform="translate(10 10)">'
    + DASHED + FILLED + CROSS + DOTTED + THICK + '</g>\n<text x="10" y="36" fill="#555">' + WORDS + '</text>\n'
    + '<text x="10" y="84" fill="#555">round</text>\n'
)

if __name__ == "__main__":
    sys.stdout.write(Picture(*simulate.given_run(__doc__)).draw())
