#!/usr/bin/env python3
"""Checks a report of `labrun rounds` or `labrun threads` against its script, by what must be true of every run.

Usage: checks/check_report.py SCRIPT REPORT [status=S] [turns=N]
       checks/check_report.py --check [RUNS]

REPORT may be - for standard input. `status` is the program's exit status, `turns` the number of rounds, or of turns a desk,
that the run was given; both may be left out. One line goes out for each problem that is found; the status is 1 where there
is one, else 0. With --check it is itself checked: by reports of checks/simulate.py, which must pass, and by wrong ones, made
of them by one change each, which must be found (1000 scripts unless said; the kinds of change are `WRONGS`). On 2026-11-22
`--check 4000` found no problem.

The check of a report shares nothing with the program and nothing with checks/simulate.py, and knows no forks and no bottles but these facts:
a session holds all its instruments from its first command to its end; a turn does one act at most. So it asks:

- The lines: header by version, each instrument with as many entries as it says, each job, `finished` exactly where every
  job is retired; each line ends with LF; the status is 0 or 3 accordingly.
- Each log is whole sessions one after another, save at most one unfinished last; the sessions of each job ascend in it;
  each entry is the command that the script has there; each value follows from the dial before.
- Each job: the sessions that are in the logs, with those that were withdrawn, are the first ones of the script; every
  session that is done is in each of its logs with every command; of at most one more there is a beginning, the same in
  all logs; a retired job has ended all its sessions.
- A session was withdrawn only where it has a patience, left no entry, and shares an instrument with another job.
- All logs together: the order of sessions that they show, with each job's own order, has no cycle. Whoever is still in a
  session is last in the log of each instrument that it used, and no two of them share an instrument.
- A job has at most one meal for each session begun that shares an instrument; a job that shares none has no meal.
- With `turns`: nobody did more than that many turns allow, and a job that shares no instrument did exactly what they give.
"""
import os
import random
import re
import sys

ENTRY = re.compile(r"(\S+) (\d+) (\d+)/(\d+) (set \d+|add \d+|read) = (\d+)")
INSTRUMENT = re.compile(r"instrument (\S+) (\d+)")
JOB = {
    1: re.compile(r"job (\S+) sessions (\d+) of (\d+)() meals (\d+) (retired|waiting)"),
    2: re.compile(r"job (\S+) sessions (\d+) of (\d+) withdrawn (\d+) meals (\d+) (retired|waiting)"),
}
LEADING_ZERO = re.compile(r"(?<![\w-])0\d")


class Script:
    """A good script: jobs in order, each with its sessions; a session is (patience, commands of (instrument, verb))."""

    def __init__(self, text):
        self.version, self.jobs, self.instruments, self.parts = None, {}, [], {}
        sessions, known = None, set()
        for line in text.split("\n"):
            fields = line.split()
            if not fields or fields[0].startswith("#"):
                continue
            if fields[0] == "lab":
                self.version = int(fields[1])
            elif fields[0] == "job":
                sessions = self.jobs[fields[1]] = []
            elif fields[0] == "session":
                sessions.append((int(fields[2]) if len(fields) == 3 else None, []))
            elif fields[0] != "end":
                sessions[-1][1].append((fields[0], " ".join(fields[1:])))
                if fields[0] not in known:
                    known.add(fields[0])
                    self.instruments.append(fields[0])
        users = {name: set() for name in self.instruments}
        for job, own in self.jobs.items():
            for _, commands in own:
                for instrument, _ in commands:
                    users[instrument].add(job)
        self.shared = {name for name, jobs in users.items() if len(jobs) > 1}

    def commands(self, job, session):
        return self.jobs[job][session - 1][1]

    def named(self, job, session):
        return {instrument for instrument, _ in self.commands(job, session)}

    def part(self, job, session, instrument):
        """The verbs of a session on an instrument, in order."""
        if (job, session) not in self.parts:
            found = self.parts[job, session] = {}
            for name, verb in self.commands(job, session):
                found.setdefault(name, []).append(verb)
        return self.parts[job, session].get(instrument, [])

    def shares(self, job, session):
        return bool(self.named(job, session) & self.shared)

    def is_lone(self, job):
        return not any(self.shares(job, s + 1) for s in range(len(self.jobs[job])))


class Shown:
    """What a report shows: logs by instrument, a line for each job, and the last line."""

    def __init__(self, script, text, problems):
        self.logs, self.jobs, self.last = {}, {}, None
        lines = text.split("\n")
        if lines.pop() != "":
            problems.append("the last line has no end")
        self.lines, self.at = lines, 0
        if self.next() != "lab %s" % script.version:
            problems.append("the first line isn't the header of version %s" % script.version)
        for name in script.instruments:
            self.read_log(script, name, problems)
        for name, sessions in script.jobs.items():
            self.read_job(script, name, len(sessions), problems)
        self.last = self.next()
        if self.at < len(self.lines):
            problems.append("line %d: more than there should be" % (self.at + 1))
        for number, line in enumerate(lines, 1):
            if LEADING_ZERO.search(line):
                problems.append("line %d: a number with a leading zero" % number)

    def next(self):
        self.at += 1
        return self.lines[self.at - 1] if self.at <= len(self.lines) else ""

    def read_log(self, script, name, problems):
        found = INSTRUMENT.fullmatch(self.next())
        if not found or found[1] != name:
            raise Unreadable("line %d: not the line of instrument %s" % (self.at, name))
        log = self.logs[name] = []
        for _ in range(int(found[2])):
            entry = ENTRY.fullmatch(self.next())
            if not entry or entry[1] not in script.jobs:
                raise Unreadable("line %d: not an entry of a job" % self.at)
            log.append((self.at, entry[1], int(entry[2]), int(entry[3]), int(entry[4]), entry[5], int(entry[6])))

    def read_job(self, script, name, sessions, problems):
        found = JOB[script.version].fullmatch(self.next())
        if not found or found[1] != name:
            raise Unreadable("line %d: not the line of job %s" % (self.at, name))
        if int(found[3]) != sessions:
            problems.append("line %d: the script has %d sessions" % (self.at, sessions))
        self.jobs[name] = (int(found[2]), int(found[4] or 0), int(found[5]), found[6])


class Unreadable(Exception):
    pass


def dial_after(dial, verb):
    word, *number = verb.split()
    if word == "set":
        return int(number[0])
    return (dial + int(number[0])) % 1000000 if word == "add" else dial


def check_log(script, name, log, problems):
    """One log; answers its sessions in order, each once, as (job, session, how many entries)."""
    dial, parts, last_of = 0, [], {}
    for line, job, session, place, length, verb, value in log:
        where = "line %d: " % line
        open_part = parts and parts[-1][2] < parts[-1][3]
        if open_part:
            if (job, session, place, length) != (parts[-1][0], parts[-1][1], parts[-1][2] + 1, parts[-1][3]):
                problems.append(where + "cuts session %d of %s, which isn't over" % (parts[-1][1], parts[-1][0]))
        elif place != 1:
            problems.append(where + "begins at place %d" % place)
        if not 1 <= session <= len(script.jobs[job]):
            problems.append(where + "%s has no session %d" % (job, session))
            return parts
        own = script.part(job, session, name)
        if length != len(own) or not 1 <= place <= len(own) or verb != own[place - 1]:
            problems.append(where + "isn't what the script says")
        if place == 1:
            if session <= last_of.get(job, 0):
                problems.append(where + "session %d of %s comes after session %d" % (session, job, last_of[job]))
            last_of[job] = session
            parts.append([job, session, 1, length])
        elif open_part:
            parts[-1][2] = place
        dial = dial_after(dial, verb)
        if value != dial:
            problems.append(where + "the dial is at %d" % dial)
            dial = value
    return parts


def check_job(script, job, counts, used, problems):
    """One job, by its counts and by how many entries each of its sessions has in each log. Answers the session that it is
    in, where the logs show one, and whether the lines fit at all."""
    done, withdrawn, meals, state = counts
    total, where = len(script.jobs[job]), "job %s: " % job
    sessions = sorted(used)
    if len(sessions) not in (done, done + 1):
        problems.append(where + "%d sessions are done, and %d are in the logs" % (done, len(sessions)))
        return None
    current = sessions[-1] if len(sessions) == done + 1 else None
    for session in sessions:
        commands = script.commands(job, session)
        count = sum(used[session].values()) if session == current else len(commands)
        begun = {}
        for instrument, _ in commands[:count]:
            begun[instrument] = begun.get(instrument, 0) + 1
        if used[session] != begun:
            problems.append(where + "session %d has %s in the logs, in place of %s" % (session, used[session], begun))
    ended = current - 1 if current else done + withdrawn
    if ended != done + withdrawn or ended > total:
        problems.append(where + "%d sessions done and %d withdrawn, but %d have ended" % (done, withdrawn, ended))
        return current
    if not current and sessions and sessions[-1] > ended:
        problems.append(where + "session %d is in the logs, but only %d have ended" % (sessions[-1], ended))
    for session in range(1, ended + 1):
        patience = script.jobs[job][session - 1][0]
        if session not in used and (patience is None or not script.shares(job, session)):
            problems.append(where + "session %d can't have been withdrawn" % session)
    if state == "retired" and (current or ended != total):
        problems.append(where + "retired before its sessions have ended")
    begun = current or min(ended + (state == "waiting"), total)
    most = sum(script.shares(job, s) for s in range(1, begun + 1))
    if meals > most:
        problems.append(where + "%d meals, and %d are possible" % (meals, most))
    return current


def check_turns(script, job, counts, used, current, turns, problems):
    """What a job did took no more turns than it had; a job that shares nothing did just what its turns give."""
    done, withdrawn, meals, state = counts
    where = "job %s: " % job
    entries = sum(used[current].values()) if current else 0
    if script.is_lone(job):
        acts = []
        for session in range(1, len(script.jobs[job]) + 1):
            acts += ["thirst", "drink"] + ["command"] * len(script.commands(job, session)) + ["quit"]
        acts = (acts + ["retire"])[:turns]
        commands = sum(sum(by_log.values()) for by_log in used.values())
        wanted = (acts.count("quit"), acts.count("command"), "retired" if "retire" in acts else "waiting")
        if (done, commands, state) != wanted:
            problems.append(where + "%s of sessions, commands, state in place of %s" % ((done, commands, state), wanted))
        return
    least, waits = state == "retired", 0
    for session in range(1, done + withdrawn + 1):
        if session in used:
            least += 3 + len(script.commands(job, session))
        else:
            patience = script.jobs[job][session - 1][0] or 0
            least += 2 + patience
            waits += min(patience, 2)
    least += 2 + entries if current else 0
    # a meal has three acts; the last may not have left yet, and becoming hungry and sitting down may fall into the turns
    # in which a patience ran out
    least += max(0, 2 * meals - waits) + (meals if state == "retired" else max(0, meals - 1))
    if least > turns:
        problems.append(where + "what it did takes %d turns, and it had %d" % (least, turns))


def check_order(script, parts, current, problems):
    """The order of sessions that all logs show, with each job's own order, has no cycle."""
    after = {}
    for name, own in parts.items():
        ordered = [(part[0], part[1]) for part in own]
        for job, session in current.items():
            if name in script.named(job, session) and (job, session) not in ordered:
                ordered.append((job, session))
        for first, second in zip(ordered, ordered[1:]):
            after.setdefault(first, set()).add(second)
    nodes = {(part[0], part[1]) for own in parts.values() for part in own}
    of_job = {}
    for job, session in sorted(nodes):
        if job in of_job:
            after.setdefault((job, of_job[job]), set()).add((job, session))
        of_job[job] = session
    before = {node: 0 for node in nodes}
    for later in after.values():
        for node in later:
            before[node] = before.get(node, 0) + 1
    ready, seen = [node for node, count in before.items() if count == 0], 0
    while ready:
        seen += 1
        for node in after.get(ready.pop(), ()):
            before[node] -= 1
            if before[node] == 0:
                ready.append(node)
    if seen != len(before):
        problems.append("the order of sessions over all logs has a cycle: " + ", ".join(
            "session %d of %s" % (session, job) for (job, session), count in sorted(before.items()) if count))


def check_holders(script, parts, current, problems):
    """Who is in a session is last wherever it has entries, and shares no instrument with another who is."""
    holder = {}
    for job, session in current.items():
        for name in script.named(job, session):
            if name in holder:
                problems.append("%s and %s both hold %s" % (holder[name], job, name))
            holder[name] = job
            own = [(part[0], part[1]) for part in parts[name]]
            if (job, session) in own and own[-1] != (job, session):
                problems.append("%s: an entry after session %d of %s, which isn't over" % (name, session, job))
    for name, own in parts.items():
        for part in own:
            if part[2] < part[3] and current.get(part[0]) != part[1]:
                problems.append("%s: session %d of %s is cut" % (name, part[1], part[0]))


def problems_of(script_text, report_text, status=None, turns=None):
    """The list of what is wrong with a report; empty where nothing is."""
    problems = []
    script = Script(script_text)
    try:
        shown = Shown(script, report_text, problems)
    except Unreadable as unreadable:
        return problems + [str(unreadable)]
    parts = {name: check_log(script, name, log, problems) for name, log in shown.logs.items()}
    if problems:
        return problems
    used = {job: {} for job in script.jobs}
    for name, own in parts.items():
        for job, session, count, _ in own:
            used[job].setdefault(session, {})[name] = count
    current = {}
    for job, counts in shown.jobs.items():
        session = check_job(script, job, counts, used[job], problems)
        if session:
            current[job] = session
        if turns is not None and not problems:
            check_turns(script, job, counts, used[job], session, turns, problems)
    check_order(script, parts, current, problems)
    check_holders(script, parts, current, problems)
    finished = all(counts[3] == "retired" for counts in shown.jobs.values())
    if shown.last != ("finished" if finished else "unfinished"):
        problems.append("the last line is '%s'" % shown.last)
    if status is not None and status != (0 if finished else 3):
        problems.append("the status is %d" % status)
    return problems


# ------------------------------------------------------------------------------------------- checks of itself


def logs_of(lines):
    """The places of each log's entries in the lines of a report."""
    found, at = [], 1
    while lines[at].startswith("instrument "):
        count = int(lines[at].split()[2])
        found.append(list(range(at + 1, at + 1 + count)))
        at += 1 + count
    return found


def with_dials(lines, places):
    """The same lines, with the values of one log made to follow the dial."""
    dial = 0
    for at in places:
        left, _ = lines[at].split(" = ")
        dial = dial_after(dial, left.split(" ", 3)[3])
        lines[at] = "%s = %d" % (left, dial)
    return lines


def sessions_in(lines, places):
    """The sessions of a log, each as the list of its places."""
    found = []
    for at in places:
        if lines[at].split()[2].startswith("1/"):
            found.append([])
        found[-1].append(at)
    return found


def who(lines, at):
    return tuple(lines[at].split()[:2])


def wrong_value(lines, chance):
    at = chance.choice([at for places in logs_of(lines) for at in places])
    left, value = lines[at].split(" = ")
    return lines[:at] + ["%s = %d" % (left, (int(value) + 1) % 1000000)] + lines[at + 1:]


def entry_twice(lines, chance):
    places = chance.choice([places for places in logs_of(lines) if places])
    at = chance.choice(places)
    head = lines[places[0] - 1].split()
    again = lines[:places[0] - 1] + ["%s %s %d" % (head[0], head[1], int(head[2]) + 1)] + lines[places[0]:at + 1] + lines[at:]
    return with_dials(again, range(places[0], places[-1] + 2))


def wrong_count(lines, chance):
    places = chance.choice([places for places in logs_of(lines) if places])
    head = lines[places[0] - 1].split()
    head[2] = str(int(head[2]) - 1)
    return lines[:places[0] - 1] + [" ".join(head)] + lines[places[0]:]


def part_left_out(lines, chance):
    """A whole session of a retired job isn't in one log."""
    retired = {line.split()[1] for line in lines if line.startswith("job ") and line.endswith("retired")}
    found = [(places, own) for places in logs_of(lines) for own in sessions_in(lines, places) if who(lines, own[0])[0] in retired]
    places, own = chance.choice(found)
    head = lines[places[0] - 1].split()
    left = lines[:places[0] - 1] + ["%s %s %d" % (head[0], head[1], len(places) - len(own))] + lines[places[0]:]
    left = left[:own[0]] + left[own[-1] + 1:]
    return with_dials(left, range(places[0], places[-1] + 1 - len(own)))


def cut_session(lines, chance):
    """Another session's first entry stands before the last entry of a session."""
    found = []
    for places in logs_of(lines):
        own = sessions_in(lines, places)
        found += [(places, first, second) for first, second in zip(own, own[1:]) if len(first) > 1]
    places, first, second = chance.choice(found)
    lines = list(lines)
    lines[first[-1]], lines[second[0]] = lines[second[0]], lines[first[-1]]
    return with_dials(lines, places)


def swapped_sessions(lines, chance):
    """Two sessions next to each other in one log change places, and in another log they don't."""
    found, logs = [], [(places, sessions_in(lines, places)) for places in logs_of(lines)]
    for places, own in logs:
        for first, second in zip(own, own[1:]):
            pair = {who(lines, first[0]), who(lines, second[0])}
            others = [{who(lines, part[0]) for part in other} for at, other in logs if at is not places]
            if any(pair <= other for other in others) or who(lines, first[0])[0] == who(lines, second[0])[0]:
                found.append((places, first, second))
    places, first, second = chance.choice(found)
    swapped = [lines[at] for at in second + first]
    return with_dials(lines[:first[0]] + swapped + lines[second[-1] + 1:], places)


def of_a_job(change):
    def wrong(lines, chance):
        at = chance.choice([at for at, line in enumerate(lines) if line.startswith("job ")])
        return lines[:at] + [change(lines[at])] + lines[at + 1:]
    return wrong


def raised(word, by):
    def change(line):
        fields = line.split()
        at = fields.index(word, 2) + 1
        fields[at] = str(int(fields[at]) + by)
        return " ".join(fields)
    return of_a_job(change)


def other_state(line):
    return line[:-7] + ("waiting" if line.endswith("retired") else "retired")


def other_end(lines, _):
    return lines[:-1] + ["finished" if lines[-1] == "unfinished" else "unfinished"]


def verb_changed(lines, chance):
    places = chance.choice([places for places in logs_of(lines) if places])
    at = chance.choice(places)
    fields = lines[at].split(" ")
    fields[3:-2] = ["read"] if fields[3] != "read" else ["set", "77"]
    return with_dials(lines[:at] + [" ".join(fields)] + lines[at + 1:], places)


# What is wrong in each, and whether it can be right by chance where a run wasn't finished
WRONGS = {
    "a wrong value": (wrong_value, False), "an entry twice": (entry_twice, False), "a wrong number of entries": (wrong_count, False),
    "a session's part left out": (part_left_out, True), "a session cut": (cut_session, False),
    "two sessions in another order": (swapped_sessions, False), "too many meals": (raised("meals", 1001), False),
    "one session less": (raised("sessions", -1), True), "one session more": (raised("sessions", 1), True),
    "the other state": (of_a_job(other_state), True), "the other end": (other_end, False), "another verb": (verb_changed, False),
}


def check(runs):
    sys.path.insert(0, os.path.dirname(os.path.abspath(__file__)))
    import make_scripts
    import simulate
    chance, problems, made = random.Random(2), 0, {name: 0 for name in WRONGS}
    for number in range(runs):
        script = make_scripts.small(chance)
        run = simulate.Run(simulate.read_script(script.encode()))
        turns, workers = chance.choice((0, 3, 8, 15, 30, 80, 1000)), chance.randint(0, 5)
        if workers:
            run.drive_threads(workers, turns, chance)
        else:
            run.drive_rounds(turns)
        report = run.report()
        found = problems_of(script, report, run.status(), turns)
        if found:
            problems += 1
            print("%s\n%s%d turns, %d workers: %s\n" % (script, report, turns, workers, "\n".join(found)))
        lines = report.split("\n")[:-1]
        for name, (wrong, by_chance) in WRONGS.items():
            if by_chance and run.status() == 3:
                continue
            try:
                changed = wrong(lines, chance)
            except IndexError:
                continue  # nothing there to be changed
            made[name] += 1
            if not problems_of(script, "".join(line + "\n" for line in changed), run.status(), turns):
                problems += 1
                print("%s isn't found:\n%s%s\n" % (name, script, "\n".join(changed)))
    print("%d reports; wrong ones: %s; %d problems" % (runs, ", ".join("%s %d" % pair for pair in made.items()), problems))
    return 1 if problems else 0


def main(words):
    if words and words[0] == "--check":
        return check(int(words[1]) if len(words) > 1 else 1000)
    if len(words) < 2:
        print(__doc__, end="")
        return 0 if words == ["--help"] else 2
    with open(words[0]) as source:
        script = source.read()
    report = sys.stdin.read() if words[1] == "-" else open(words[1]).read()
    keys = dict(word.split("=") for word in words[2:])
    problems = problems_of(script, report, **{key: int(value) for key, value in keys.items()})
    for problem in problems:
        print(problem)
    return 1 if problems else 0


if __name__ == "__main__":
    sys.exit(main(sys.argv[1:]))
