#!/usr/bin/env python3
"""What `labrun` prints for a script, reckoned by the definitions alone. It shares nothing with the program.

Usage:
  checks/simulate.py rounds N < SCRIPT            what `labrun rounds N` prints, and its status
  checks/simulate.py < SCRIPT                     the same as rounds 10000
  checks/simulate.py threads W N [SEED] < SCRIPT  one of the runs that `labrun threads W N` may have: what each of the W
                                                 workers does next is picked by chance, one atomic step at a time
  checks/simulate.py --trace N < SCRIPT           a table: what each job does in each round, and the edge words after it
  checks/simulate.py --check [RUNS]               compares itself with worked runs that were reckoned by hand, and with a
                                                 second form of the rules (200 runs unless said)

How the checks ran: `checks/simulate.py --check 4000` on 2026-11-22, on Python 3.11: no problem. Its worked runs are those
of the documentation: two jobs that take turns, with every edge word and the phase words of the second job; a second
session, stopped after each of 0 to 14 rounds; set and then read in 9 and in 8 rounds; a patience of 0, 1 and 3; a lone
job; a stop in the midst of a session; no rounds; faults of scripts. Each random run, by rounds and by threads, is done
again event by event by `Table`, which has the rules as sets of triples (edge, thing, job) and asks of each event whether it
is legal where it stands; and in each state it is asked that no two jobs hold one instrument and that precedence has no
cycle, of each request that it is overtaken by one meal at most, and of each turn that it did all that was due.
"""
import os
import random
import sys
from collections import namedtuple

# ---------------------------------------------------------------------------------------------------- scripts

RESERVED = {b"lab", b"job", b"session", b"end", b"steps", b"patience"}
LOWER = frozenset(b"abcdefghijklmnopqrstuvwxyz")
IN_NAMES = frozenset(b"abcdefghijklmnopqrstuvwxyz0123456789-")
FAULTS = {
    "S1": "S1 no lab header", "S2": "S2 unknown word", "S3": "S3 bad name", "S4": "S4 bad number",
    "S5": "S5 job twice", "S6": "S6 not in a session", "S7": "S7 not in a job", "S8": "S8 empty session",
    "S9": "S9 session not closed", "S10": "S10 limit passed", "S11": "S11 more than 28 instruments in common",
}

Session = namedtuple("Session", "patience commands")  # commands: (instrument, verb, number)


class Fault(Exception):
    def __init__(self, line, cause):
        super().__init__("line %d: %s" % (line, FAULTS[cause]))


class Plan:
    """A script's meaning. Instruments are numbered by their first naming; a set of them is a number with a bit for each."""

    def __init__(self, version):
        self.version = version
        self.job_names, self.instrument_names = [], []
        self.sessions = []  # for each job a list of Session
        self.edges = []     # (lower job, higher job, set of instruments in common), in ascending order
        self.edges_of = []  # for each job the numbers of its edges, in ascending order

    def make_edges(self):
        """Jobs with an instrument in common have an edge. Answers False where two jobs have more than 28."""
        named = []
        for sessions in self.sessions:
            all_of_it = 0
            for session in sessions:
                for instrument, _, _ in session.commands:
                    all_of_it |= 1 << instrument
            named.append(all_of_it)
        jobs = range(len(named))
        self.edges = [(a, b, named[a] & named[b]) for a in jobs for b in jobs if a < b and named[a] & named[b]]
        self.edges_of = [[e for e, (a, b, _) in enumerate(self.edges) if j in (a, b)] for j in jobs]
        return all(bin(common).count("1") <= 28 for _, _, common in self.edges)

    def needs(self, job, session):
        """The set of instruments that a session names. Sessions count from 1."""
        found = 0
        for instrument, _, _ in self.sessions[job][session - 1].commands:
            found |= 1 << instrument
        return found


def is_name(field):
    return 1 <= len(field) <= 16 and field[0] in LOWER and all(b in IN_NAMES for b in field) and field not in RESERVED


def number_of(field):
    """The number that a field spells, or None."""
    plain = field.isdigit() and (field == b"0" or field[0:1] != b"0")
    return int(field) if plain and len(field) <= 6 else None


def lines_of(data):
    """The lines of a text: a CR belongs to a line's end only right before an LF."""
    pieces = data.split(b"\n")
    last = pieces.pop()
    lines = [piece[:-1] if piece.endswith(b"\r") else piece for piece in pieces]
    return lines + [last] if last else lines


def read_script(data):
    """The plan of a text, or its first fault."""
    lines = lines_of(data)
    plan, opened, numbers, commands = None, None, {}, 0
    for at, line in enumerate(lines, 1):
        fields = line.replace(b"\t", b" ").split(b" ")
        fields = [f for f in fields if f]
        if not fields or fields[0].startswith(b"#"):
            continue

        def refuse_if(wrong, cause):
            if wrong:
                raise Fault(at, cause)

        if plan is None:
            refuse_if(fields not in ([b"lab", b"1"], [b"lab", b"2"]), "S1")
            plan = Plan(int(fields[1]))
        elif fields[0] == b"job":
            refuse_if(len(fields) != 2, "S2")
            refuse_if(opened is not None, "S9")
            refuse_if(not is_name(fields[1]), "S3")
            name = fields[1].decode()
            refuse_if(name in plan.job_names, "S5")
            refuse_if(len(plan.job_names) == 32, "S10")
            plan.job_names.append(name)
            plan.sessions.append([])
        elif fields[0] == b"session":
            patient = plan.version == 2 and len(fields) == 3 and fields[1] == b"patience"
            refuse_if(not patient and len(fields) != 1, "S2")
            refuse_if(opened is not None, "S9")
            refuse_if(not plan.job_names, "S7")
            refuse_if(patient and number_of(fields[2]) is None, "S4")
            refuse_if(len(plan.sessions[-1]) == 1000, "S10")
            opened = Session(number_of(fields[2]) if patient else None, [])
        elif fields[0] == b"end":
            refuse_if(len(fields) != 1, "S2")
            refuse_if(opened is None, "S6")
            refuse_if(not opened.commands, "S8")
            plan.sessions[-1].append(opened)
            opened = None
        elif fields[0] in RESERVED:
            refuse_if(True, "S2")
        else:
            reads = len(fields) == 2 and fields[1] == b"read"
            writes = len(fields) == 3 and fields[1] in (b"set", b"add")
            refuse_if(not reads and not writes, "S2")
            refuse_if(opened is None, "S6")
            refuse_if(not is_name(fields[0]), "S3")
            refuse_if(writes and number_of(fields[2]) is None, "S4")
            name = fields[0].decode()
            refuse_if(name not in numbers and len(numbers) == 56, "S10")
            refuse_if(commands == 100000, "S10")
            if name not in numbers:
                numbers[name] = len(numbers)
                plan.instrument_names.append(name)
            commands += 1
            opened.commands.append((numbers[name], fields[1].decode(), number_of(fields[2]) if writes else 0))
    if plan is None:
        raise Fault(len(lines) + 1, "S1")
    if opened is not None:
        raise Fault(len(lines) + 1, "S9")
    if not plan.make_edges():
        raise Fault(len(lines) + 1, "S11")
    return plan


# ------------------------------------------------------------------------------------------------------- runs

THINKING, HUNGRY, EATING = "thinking", "hungry", "eating"
TRANQUIL, THIRSTY, DRINKING, REACHING, RETIRED = "tranquil", "thirsty", "drinking", "reaching", "retired"

# What is seen of an edge. fork and token are ends, 0 for the lower job and 1 for the higher; bottles and tokens are the
# sets of instruments whose bottle, or whose bottle's token, is at end 1.
EdgeState = namedtuple("EdgeState", "fork dirty token bottles tokens")


class Job:
    def __init__(self, plan, number):
        self.number = number
        self.edges = plan.edges_of[number]
        self.dining, self.drinking, self.session, self.position = THINKING, TRANQUIL, 0, 0
        self.fork_marks = set()
        self.bottle_marks = {e: 0 for e in self.edges}
        self.meals = self.done = self.withdrawn = self.turns = self.waited = 0
        self.total = len(plan.sessions[number])

    def is_retired(self):
        return self.drinking == RETIRED


class Run:
    """A run from the opening: every fork and every bottle at the lower job, each fork dirty, each token at the other end."""

    def __init__(self, plan, recording=False):
        self.plan = plan
        self.jobs = [Job(plan, j) for j in range(len(plan.job_names))]
        self.edges = [EdgeState(0, True, 1, 0, common) for _, _, common in plan.edges]
        self.logs = [[] for _ in plan.instrument_names]  # (job, session, place, length, verb, number, value)
        self.dials = [0] * len(plan.instrument_names)
        self.rounds = 0
        self.events = [] if recording else None
        self.needs = [[plan.needs(j, s + 1) for s in range(len(sessions))] for j, sessions in enumerate(plan.sessions)]

    def note(self, *event):
        if self.events is not None:
            self.events.append(event)

    # ------------------------------------------------------------------------------------------------ one turn

    def needed(self, job):
        if job.drinking in (THIRSTY, DRINKING, REACHING):
            return self.needs[job.number][job.session - 1]
        return 0

    def look(self, job, e):
        """The look at an edge: the job's marks there become what is seen."""
        seen = self.edges[e]
        low, _, common = self.plan.edges[e]
        here = 0 if job.number == low else 1
        if job.dining == EATING:
            marked = seen.fork == here and seen.dirty
        else:
            marked = seen.fork == here and (not seen.dirty or seen.token != here)
        if marked:
            job.fork_marks.add(e)
        else:
            job.fork_marks.discard(e)
        job.bottle_marks[e] = seen.bottles if here == 1 else common & ~seen.bottles
        self.note("look", job.number, e)
        return seen

    def due(self, job, e, seen):
        """What is due on an edge that looks like this: events, each legal after the ones before it, and the edge after."""
        low, _, common = self.plan.edges[e]
        here = 0 if job.number == low else 1
        there = 1 - here
        needed = self.needed(job)
        fork, dirty, token, bottles, tokens = seen
        events = []
        if job.dining != EATING and fork == here and dirty and token == here:
            events.append(("givefork", job.number, e))
            fork, dirty = there, False
        mine = bottles if here == 1 else common & ~bottles
        asked = tokens if here == 1 else common & ~tokens
        keeps = job.drinking in (DRINKING, REACHING) or fork == here
        given = mine & asked & ~(needed if keeps else 0)
        if given:
            events.append(("givebottles", job.number, e, given))
            bottles ^= given
            mine &= ~given
        if job.dining == HUNGRY and fork == there and token == here:
            events.append(("askfork", job.number, e))
            token = there
        wanted = common & needed & ~mine & asked if job.drinking == THIRSTY else 0
        if wanted:
            events.append(("askbottles", job.number, e, wanted))
            tokens ^= wanted
        if job.dining == EATING and fork == here and not dirty:
            events.append(("soil", job.number, e))
            dirty = True
        return events, EdgeState(fork, dirty, token, bottles, tokens)

    def exchange(self, job, e, events, after):
        """The events of one exchange: the edge is then `after`, and the marks of what was given are cleared."""
        self.edges[e] = after
        for event in events:
            if event[0] == "givefork":
                job.fork_marks.discard(e)
            elif event[0] == "givebottles":
                job.bottle_marks[e] &= ~event[3]
            elif event[0] == "soil":
                job.fork_marks.add(e)
            self.note(*event)

    def may_drink(self, job):
        needed = self.needed(job)
        return all(self.plan.edges[e][2] & needed & ~job.bottle_marks[e] == 0 for e in job.edges)

    def phase_act(self, job, waited):
        """The name of the first act that is legal, or None. Patience is due by the count of the turn's start."""
        all_forks = len(job.fork_marks) == len(job.edges)
        if job.drinking == DRINKING:
            commands = self.plan.sessions[job.number][job.session - 1].commands
            return "quit" if job.position == len(commands) else "command"
        if job.drinking == THIRSTY:
            if self.may_drink(job):
                return "drink"
            patience = self.plan.sessions[job.number][job.session - 1].patience
            if patience is not None and waited >= patience:
                return "withdraw"
        elif job.dining == EATING and all_forks:
            return "leave"
        if job.dining == HUNGRY and all_forks:
            return "sit"
        if job.drinking == TRANQUIL and job.dining != EATING and job.session < job.total:
            return "thirst"
        if job.drinking == THIRSTY and job.dining == THINKING:
            return "hunger"
        if job.drinking == TRANQUIL and job.dining == THINKING and job.session == job.total:
            return "retire"
        return None

    def store(self, job, act):
        """A phase act of one store."""
        if act == "quit":
            job.drinking, job.position = TRANQUIL, 0
            job.done += 1
        elif act == "drink":
            job.drinking = DRINKING
        elif act == "withdraw":
            job.drinking, job.position = TRANQUIL, 0
            job.withdrawn += 1
        elif act == "leave":
            job.dining = THINKING
            job.fork_marks.clear()
        elif act == "sit":
            job.dining = EATING
            job.fork_marks.clear()
            job.meals += 1
        elif act == "thirst":
            job.drinking, job.position = THIRSTY, 0
            job.session += 1
            job.waited = 0
        elif act == "hunger":
            job.dining = HUNGRY
        elif act == "retire":
            job.drinking = RETIRED
        elif act == "reach":
            job.drinking = REACHING
        elif act == "act":
            self.do_command(job)
            job.position += 1
            job.drinking = DRINKING
        self.note(act, job.number)

    def do_command(self, job):
        commands = self.plan.sessions[job.number][job.session - 1].commands
        instrument, verb, number = commands[job.position]
        places = [p for p, command in enumerate(commands) if command[0] == instrument]
        if verb == "set":
            self.dials[instrument] = number
        elif verb == "add":
            self.dials[instrument] = (self.dials[instrument] + number) % 1000000
        place = places.index(job.position) + 1
        entry = (job.number, job.session, place, len(places), verb, number, self.dials[instrument])
        self.logs[instrument].append(entry)

    def turn(self, job):
        """One turn of a job, atomic step by atomic step: it stops before each. Answers what was done, and whether an
        exchange was lost."""
        thirsty, waited = job.drinking == THIRSTY, job.waited
        done, lost = [], False
        for e in job.edges:
            yield
            seen = self.look(job, e)
            events, after = self.due(job, e, seen)
            if events:
                yield
                if self.edges[e] == seen:
                    self.exchange(job, e, events, after)
                    done += events
                else:
                    lost = True
        act = self.phase_act(job, waited)
        if act is not None:
            for step in ("reach", "act") if act == "command" else (act,):
                yield
                self.store(job, step)
            done.append((act, job.number))
        job.turns += 1
        if thirsty and job.drinking == THIRSTY:
            job.waited += 1
        return done, lost

    def whole_turn(self, job):
        """One turn without a stop."""
        steps = self.turn(job)
        while True:
            try:
                next(steps)
            except StopIteration as stop:
                return stop.value

    # -------------------------------------------------------------------------------------- rounds and threads

    def all_retired(self):
        return all(job.is_retired() for job in self.jobs)

    def drive_rounds(self, limit, after_round=None):
        """Rounds, each one turn of every job in order; why they ended."""
        quiet = False
        while True:
            if self.all_retired():
                return "all retired"
            if quiet:
                return "quiet"
            if self.rounds == limit:
                return "limit"
            before = list(self.edges)
            done = [self.whole_turn(job)[0] for job in self.jobs]
            self.rounds += 1
            # both ends of every edge saw the same where nothing was done
            quiet = not any(done) and before == self.edges
            if after_round:
                after_round(done)

    def worker(self, desks, turns):
        """What one worker does: a turn of each of its jobs in order, round by round, until its turns are used or every job
        is retired."""
        for _ in range(turns):
            for job in desks:
                yield from self.turn(job)
            own = desks[0]
            if own.is_retired():
                seen = []
                for other in self.jobs:
                    if other is not own:
                        yield
                        self.note("glance", own.number, other.number)
                        seen.append(other.is_retired())
                if all(seen):
                    return

    def drive_threads(self, workers, turns, chance):
        """The workers' steps in an order that is picked by chance: now one step each, now many of one worker."""
        running = []
        for w in range(workers):
            desks = [job for job in self.jobs if job.number % workers == w]
            if desks:
                running.append(self.worker(desks, turns))
        longest = chance.choice((1, 2, 5, 20, 100))
        while running:
            who = chance.randrange(len(running))
            for _ in range(chance.randint(1, longest)):
                try:
                    next(running[who])
                except StopIteration:
                    running.pop(who)
                    break
        return "all retired" if self.all_retired() else "limit"

    # -------------------------------------------------------------------------------------------------- shown

    def report(self):
        plan = self.plan
        out = ["lab %d" % plan.version]
        for name, log in zip(plan.instrument_names, self.logs):
            out.append("instrument %s %d" % (name, len(log)))
            for job, session, place, length, verb, number, value in log:
                what = "read" if verb == "read" else "%s %d" % (verb, number)
                out.append("%s %d %d/%d %s = %d" % (plan.job_names[job], session, place, length, what, value))
        for job in self.jobs:
            gone = " withdrawn %d" % job.withdrawn if plan.version == 2 else ""
            state = "retired" if job.is_retired() else "waiting"
            out.append("job %s sessions %d of %d%s meals %d %s" % (
                plan.job_names[job.number], job.done, job.total, gone, job.meals, state))
        out.append("finished" if self.all_retired() else "unfinished")
        return "".join(line + "\n" for line in out)

    def status(self):
        return 0 if self.all_retired() else 3

    def edge_word(self, e):
        """The edge as a word of 64 bits."""
        state, common = self.edges[e], self.plan.edges[e][2]
        word, k = state.fork + 2 * state.dirty + 4 * state.token, 0
        for instrument in range(56):
            if common >> instrument & 1:
                word += (state.bottles >> instrument & 1) << 4 + k
                word += (state.tokens >> instrument & 1) << 32 + k
                k += 1
        return word

    def phase_word(self, job):
        dining = (THINKING, HUNGRY, EATING).index(job.dining)
        drinking = (TRANQUIL, THIRSTY, DRINKING, REACHING, RETIRED).index(job.drinking)
        return dining + 4 * drinking + 256 * job.session + 2**32 * job.position


def simulate(data, limit):
    """The report of `rounds` with this limit, and its status, for a text that is a script."""
    run = Run(read_script(data))
    run.drive_rounds(limit)
    return run.report(), run.status()


# ------------------------------------------------------------------------------------------- checks of itself


class Table:
    """The rules once more, as a table of events over a set of triples (edge, thing, job). A thing is "fork", "token",
    ("bottle", i) or ("token", i). `may` says whether an event is legal, `do` what it changes."""

    def __init__(self, plan):
        self.plan = plan
        self.stand = {}
        self.dirty = set(range(len(plan.edges)))
        for e, (low, high, common) in enumerate(plan.edges):
            self.stand[e, "fork"], self.stand[e, "token"] = low, high
            for i in self.members(common):
                self.stand[e, ("bottle", i)], self.stand[e, ("token", i)] = low, high
        jobs = range(len(plan.job_names))
        self.dining, self.drinking = [THINKING for _ in jobs], [TRANQUIL for _ in jobs]
        self.session, self.position = [0 for _ in jobs], [0 for _ in jobs]
        self.fork_marks, self.bottle_marks = set(), set()
        self.entries = [[] for _ in plan.instrument_names]

    @staticmethod
    def members(numbers):
        return [i for i in range(56) if numbers >> i & 1]

    def other(self, j, e):
        low, high, _ = self.plan.edges[e]
        return high if j == low else low

    def commands(self, j):
        return self.plan.sessions[j][self.session[j] - 1].commands

    def needs(self, j):
        if self.drinking[j] in (THIRSTY, DRINKING, REACHING):
            return {command[0] for command in self.commands(j)}
        return set()

    def holds(self, j):
        return self.needs(j) if self.drinking[j] in (DRINKING, REACHING) else set()

    def may(self, event, forgiving_patience=True):
        kind, j = event[0], event[1]
        dining, drinking = self.dining[j], self.drinking[j]
        edges = self.plan.edges_of[j]
        if kind in ("look", "askfork", "givefork", "soil", "askbottles", "givebottles"):
            e = event[2]
            if e not in edges:
                return False
            fork, token = self.stand[e, "fork"], self.stand[e, "token"]
        if kind in ("look", "glance"):
            return True
        if kind == "askfork":
            return dining == HUNGRY and fork != j and token == j
        if kind == "givefork":
            return dining != EATING and fork == j and e in self.dirty and token == j
        if kind == "soil":
            return dining == EATING and fork == j and e not in self.dirty
        if kind == "askbottles":
            return drinking == THIRSTY and event[3] != 0 and all(
                i in self.needs(j) and self.stand.get((e, ("bottle", i))) == self.other(j, e)
                and self.stand.get((e, ("token", i))) == j for i in self.members(event[3]))
        if kind == "givebottles":
            firm = drinking in (DRINKING, REACHING) or fork == j
            return event[3] != 0 and all(
                self.stand.get((e, ("bottle", i))) == j and self.stand.get((e, ("token", i))) == j
                and not (i in self.needs(j) and firm) for i in self.members(event[3]))
        if kind == "thirst":
            return drinking == TRANQUIL and dining != EATING and self.session[j] < len(self.plan.sessions[j])
        if kind == "hunger":
            return dining == THINKING and drinking == THIRSTY
        if kind == "sit":
            return dining == HUNGRY and all((j, e) in self.fork_marks for e in edges)
        if kind == "leave":
            return dining == EATING and drinking != THIRSTY and all((j, e) in self.fork_marks for e in edges)
        if kind == "drink":
            return drinking == THIRSTY and all(
                (j, e, i) in self.bottle_marks for e in edges for i in self.needs(j)
                if (e, ("bottle", i)) in self.stand)
        if kind == "reach":
            return drinking == DRINKING and self.position[j] < len(self.commands(j))
        if kind == "act":
            return drinking == REACHING
        if kind == "quit":
            return drinking == DRINKING and self.position[j] == len(self.commands(j))
        if kind == "retire":
            return dining == THINKING and drinking == TRANQUIL and self.session[j] == len(self.plan.sessions[j])
        assert kind == "withdraw"
        return drinking == THIRSTY and self.plan.sessions[j][self.session[j] - 1].patience is not None

    def do(self, event):
        kind, j = event[0], event[1]
        if kind == "look":
            e = event[2]
            here, clean = self.stand[e, "fork"] == j, e not in self.dirty
            marked = here and (not clean if self.dining[j] == EATING else clean or self.stand[e, "token"] != j)
            (self.fork_marks.add if marked else self.fork_marks.discard)((j, e))
            for i in self.members(self.plan.edges[e][2]):
                there = self.stand[e, ("bottle", i)] == j
                (self.bottle_marks.add if there else self.bottle_marks.discard)((j, e, i))
        elif kind == "askfork":
            self.stand[event[2], "token"] = self.other(j, event[2])
        elif kind == "givefork":
            self.stand[event[2], "fork"] = self.other(j, event[2])
            self.dirty.discard(event[2])
            self.fork_marks.discard((j, event[2]))
        elif kind == "soil":
            self.dirty.add(event[2])
            self.fork_marks.add((j, event[2]))
        elif kind == "askbottles":
            for i in self.members(event[3]):
                self.stand[event[2], ("token", i)] = self.other(j, event[2])
        elif kind == "givebottles":
            for i in self.members(event[3]):
                self.stand[event[2], ("bottle", i)] = self.other(j, event[2])
                self.bottle_marks.discard((j, event[2], i))
        elif kind == "thirst":
            self.drinking[j], self.position[j] = THIRSTY, 0
            self.session[j] += 1
        elif kind == "hunger":
            self.dining[j] = HUNGRY
        elif kind in ("sit", "leave"):
            self.dining[j] = EATING if kind == "sit" else THINKING
            self.fork_marks -= {(j, e) for e in self.plan.edges_of[j]}
        elif kind == "drink":
            self.drinking[j] = DRINKING
        elif kind == "reach":
            self.drinking[j] = REACHING
        elif kind == "act":
            self.entries[self.commands(j)[self.position[j]][0]].append((j, self.session[j], self.position[j]))
            self.position[j] += 1
            self.drinking[j] = DRINKING
        elif kind in ("quit", "withdraw"):
            self.drinking[j], self.position[j] = TRANQUIL, 0
        elif kind == "retire":
            self.drinking[j] = RETIRED

    def two_holders(self):
        held = set()
        for j in range(len(self.dining)):
            if held & self.holds(j):
                return True
            held |= self.holds(j)
        return False

    def has_cycle(self):
        """Whether precedence has a cycle: take away, again and again, who precedes nobody that is left."""
        before = {}
        for e in range(len(self.plan.edges)):
            x = self.stand[e, "fork"]
            y = self.other(x, e)
            first, second = (y, x) if self.dining[x] == EATING or e in self.dirty else (x, y)
            before.setdefault(first, set()).add(second)
        left = set(range(len(self.dining)))
        while True:
            ends = {j for j in left if not before.get(j, set()) & left}
            if not ends:
                return bool(left)
            left -= ends

    def same_as(self, run):
        """Whether a run stands in this state."""
        for e, (low, high, common) in enumerate(self.plan.edges):
            state = run.edges[e]
            ends = (low, high)
            if self.stand[e, "fork"] != ends[state.fork] or self.stand[e, "token"] != ends[state.token]:
                return False
            if (e in self.dirty) != state.dirty:
                return False
            for i in self.members(common):
                if self.stand[e, ("bottle", i)] != ends[state.bottles >> i & 1]:
                    return False
                if self.stand[e, ("token", i)] != ends[state.tokens >> i & 1]:
                    return False
        for j, job in enumerate(run.jobs):
            own = (self.dining[j], self.drinking[j], self.session[j], self.position[j])
            if own != (job.dining, job.drinking, job.session, job.position):
                return False
            if {e for k, e in self.fork_marks if k == j} != job.fork_marks:
                return False
            for e in job.edges:
                if {i for k, f, i in self.bottle_marks if (k, f) == (j, e)} != set(self.members(job.bottle_marks[e])):
                    return False
        logs = [[(j, s) for j, s, _ in log] for log in self.entries]
        return logs == [[entry[:2] for entry in log] for log in run.logs]


def overtakings(plan, events):
    """For each request for a fork, how many meals its other end began before the asker's next."""
    waiting, counts = {}, []
    for kind, j, *rest in events:
        if kind == "askfork":
            low, high, _ = plan.edges[rest[0]]
            waiting.setdefault(j, []).append([high if j == low else low, 0])
        elif kind == "sit":
            counts += [count for _, count in waiting.pop(j, [])]
            for asked in waiting.values():
                for pair in asked:
                    pair[1] += pair[0] == j
    return counts + [count for asked in waiting.values() for _, count in asked]


def check_run(run):
    """Does the events of a run again by the table; answers what is wrong, or None."""
    table = Table(run.plan)
    for event in run.events:
        if not table.may(event):
            return "%s isn't legal" % (event,)
        table.do(event)
        if table.two_holders():
            return "two jobs hold one instrument after %s" % (event,)
        if table.has_cycle():
            return "precedence has a cycle after %s" % (event,)
    if not table.same_as(run):
        return "the table ends in another state"
    if max(overtakings(run.plan, run.events), default=0) > 1:
        return "a request is overtaken twice"
    return None


def check_turns(plan, limit):
    """Does rounds one turn at a time beside the table, and asks of each turn that it left nothing on its edges that is
    due, and that its act is the first legal one of the list. Answers what is wrong, or None."""
    run, table = Run(plan, True), Table(plan)
    order = ("quit", "reach", "drink", "withdraw", "leave", "sit", "thirst", "hunger", "retire")
    for _ in range(limit):
        if run.all_retired():
            break
        for job in run.jobs:
            j, at, waited = job.number, len(run.events), job.waited
            run.whole_turn(job)
            events = run.events[at:]
            acts = [event for event in events if event[0] in order or event[0] == "act"]
            for event in events[:len(events) - len(acts)]:
                table.do(event)
            for e in job.edges:
                common = plan.edges[e][2]
                single = [(kind, j, e, 1 << i) for kind in ("givebottles", "askbottles") for i in table.members(common)]
                for event in [("givefork", j, e), ("askfork", j, e), ("soil", j, e)] + single:
                    if table.may(event):
                        return "job %d left out %s" % (j, event)
            due = []
            for kind in order:
                patience = plan.sessions[j][job.session - 1].patience if kind == "withdraw" and table.may((kind, j)) else None
                if table.may((kind, j)) and (kind != "withdraw" or waited >= patience):
                    due = [(kind, j), ("act", j)] if kind == "reach" else [(kind, j)]
                    break
            if acts != due:
                return "job %d did %s in place of %s" % (j, acts, due)
            for event in acts:
                table.do(event)
    return None if table.same_as(run) else "the table ends in another state"


PAIR = ["lab 1", "job a", "session", "scale add 1", "end", "job b", "session", "scale add 1", "end"]
AGAIN = PAIR[:5] + ["session", "scale add 1", "end"] + PAIR[5:]


def text(lines, end="\n"):
    return "".join(line + end for line in lines).encode()


class Checks:
    """Comparisons with what was reckoned by hand."""

    def __init__(self):
        self.problems = self.count = 0

    def same(self, what, got, wanted):
        self.count += 1
        if got != wanted:
            self.problems += 1
            print("%s: %r in place of %r" % (what, got, wanted))

    def ends(self, what, lines, limit, wanted, status, rounds=None):
        run = Run(read_script(text(lines)))
        run.drive_rounds(limit)
        self.same(what, run.report(), text(wanted).decode())
        self.same(what + ": status", run.status(), status)
        if rounds is not None:
            self.same(what + ": rounds", run.rounds, rounds)
        return run

    def fault(self, what, lines, wanted, end="\n"):
        try:
            read_script(text(lines, end))
            got = None
        except Fault as fault:
            got = str(fault)
        self.same(what, got, wanted)


def trace(data, limit):
    """For each round what each job did, and the edge words and phase words after it."""
    run, rows = Run(read_script(data)), []

    def after_round(done):
        acts = [[event[0] for event in events] for events in done]
        rows.append((acts, [run.edge_word(e) for e in range(len(run.edges))], [run.phase_word(job) for job in run.jobs]))

    run.drive_rounds(limit, after_round)
    return run, rows


def check_pair(checks):
    log = ["lab 1", "instrument scale 2", "a 1 1/1 add 1 = 1", "b 1 1/1 add 1 = 2"]
    after = log + ["job a sessions 1 of 1 meals 0 retired", "job b sessions 1 of 1 meals 1 retired", "finished"]
    checks.ends("two jobs take turns", PAIR, 10000, after, 0, 9)
    run, rows = trace(text(PAIR), 0)
    checks.same("two jobs: opening word", run.edge_word(0), 4294967302)
    run, rows = trace(text(PAIR), 10000)
    checks.same("two jobs: what they do", [acts for acts, _, _ in rows], [
        [["thirst"], ["thirst"]],
        [["drink"], ["askbottles", "hunger"]],
        [["command"], ["askfork"]],
        [["givefork", "quit"], ["sit"]],
        [["givebottles", "retire"], ["soil", "drink"]],
        [[], ["command"]],
        [[], ["quit"]],
        [[], ["leave"]],
        [[], ["retire"]],
    ])
    checks.same("two jobs: edge words", [words[0] for _, words, _ in rows], [4294967302, 6, 2, 1, 19, 19, 19, 19, 19])
    phases = [words[1] for _, _, words in rows]
    checks.same("two jobs: phase words of b", [phases[4], phases[5], phases[8]], [266, 4294967562, 272])
    # line ends of another system, a blank line, a comment, and no end of the last line
    lines = PAIR[:1] + ["", "# bench"] + PAIR[1:]
    report, status = simulate(text(lines, "\r\n")[:-2], 10000)
    checks.same("line ends and comments", (report, status), (text(after).decode(), 0))
    dials = [line.replace("add 1", "set 7") for line in PAIR[:5]] + [line.replace("add 1", "read") for line in PAIR[5:]]
    log = ["lab 1", "instrument scale 2", "a 1 1/1 set 7 = 7", "b 1 1/1 read = 7"]
    checks.ends("set then read, 9 rounds", dials, 9, log + after[4:], 0, 9)
    checks.ends("set then read, 8 rounds", dials, 8, log + [
        "job a sessions 1 of 1 meals 0 retired", "job b sessions 1 of 1 meals 1 waiting", "unfinished"], 3)
    waiting = ["job a sessions 0 of 1 meals 0 waiting", "job b sessions 0 of 1 meals 0 waiting", "unfinished"]
    twice = [line for line in PAIR for line in ([line, line] if line.startswith("scale") else [line])]
    checks.ends("stopped in a session", twice, 3, ["lab 1", "instrument scale 1", "a 1 1/2 add 1 = 1"] + waiting, 3, 3)
    checks.ends("no rounds", PAIR, 0, ["lab 1", "instrument scale 0"] + waiting, 3, 0)


def check_second_session(checks):
    run, rows = trace(text(AGAIN), 10000)
    checks.same("second session: rounds", run.rounds, 14)
    checks.same("second session: edge word", run.edge_word(0), 4294967302)
    acts = [done for done, _, _ in rows]
    when = {(name, j): [r for r, done in enumerate(acts, 1) if name in done[j]] for name in (
        "drink", "sit", "soil", "leave", "retire", "givebottles", "givefork") for j in (0, 1)}
    checks.same("second session: a", [when["drink", 0][1:], when["sit", 0], when["soil", 0], when["leave", 0], when["retire", 0]],
                [[9], [12], [13], [13], [14]])
    checks.same("second session: b", [when["givebottles", 1], when["leave", 1], when["givefork", 1], when["retire", 1]],
                [[8], [8], [9], [9]])
    log = ["a 1 1/1 add 1 = 1", "b 1 1/1 add 1 = 2", "a 2 1/1 add 1 = 3"]
    table = [(range(0, 3), 0, 0, 0, 0, 0), (range(3, 4), 1, 0, 0, 0, 0), (range(4, 6), 1, 1, 0, 0, 1),
             (range(6, 7), 2, 1, 0, 0, 1), (range(7, 10), 2, 1, 0, 1, 1), (range(10, 11), 3, 1, 0, 1, 1),
             (range(11, 12), 3, 2, 0, 1, 1), (range(12, 14), 3, 2, 1, 1, 1), (range(14, 15), 3, 2, 1, 1, 1)]
    for limits, entries, done_a, meals_a, done_b, meals_b in table:
        for limit in limits:
            run = Run(read_script(text(AGAIN)))
            run.drive_rounds(limit)
            shown = run.report().split("\n")
            checks.same("second session, %d rounds" % limit, shown[:2 + entries],
                        ["lab 1", "instrument scale %d" % entries] + log[:entries])
            counts = [(job.done, job.meals) for job in run.jobs]
            checks.same("second session, %d rounds: counts" % limit, counts, [(done_a, meals_a), (done_b, meals_b)])
            checks.same("second session, %d rounds: status" % limit, run.status(), 0 if limit == 14 else 3)


def check_patience(checks):
    for patience, rounds, line in (
            (0, 5, "sessions 0 of 1 withdrawn 1 meals 0 retired"),
            (1, 6, "sessions 0 of 1 withdrawn 1 meals 1 retired"),
            (3, 9, "sessions 1 of 1 withdrawn 0 meals 1 retired")):
        lines = ["lab 2"] + PAIR[1:6] + ["session patience %d" % patience] + PAIR[7:]
        log = ["instrument scale 1", "a 1 1/1 add 1 = 1"]
        if patience == 3:
            log = ["instrument scale 2", "a 1 1/1 add 1 = 1", "b 1 1/1 add 1 = 2"]
        wanted = ["lab 2"] + log + ["job a sessions 1 of 1 withdrawn 0 meals 0 retired", "job b " + line, "finished"]
        checks.ends("patience %d" % patience, lines, 10000, wanted, 0, rounds)
        run, rows = trace(text(lines), 10000)
        does = [done[1] for done, _, _ in rows]
        if patience == 0:
            checks.same("patience 0: edge word", run.edge_word(0), 22)
            checks.same("patience 0: b", ["withdraw" in does[1], "retire" in does[2]], [True, True])
            of_a = [done[0] for done, _, _ in rows]
            checks.same("patience 0: a", ["quit" in of_a[3], of_a[4]], [True, ["givebottles", "retire"]])
        if patience == 1:
            checks.same("patience 1: b", does, [
                ["thirst"], ["askbottles", "hunger"], ["askfork", "withdraw"], ["sit"], ["soil", "leave"], ["retire"]])
    upgraded = ["lab 2"] + PAIR[1:]
    checks.ends("upgraded", upgraded, 10000, [
        "lab 2", "instrument scale 2", "a 1 1/1 add 1 = 1", "b 1 1/1 add 1 = 2",
        "job a sessions 1 of 1 withdrawn 0 meals 0 retired", "job b sessions 1 of 1 withdrawn 0 meals 1 retired",
        "finished"], 0, 9)


def check_small(checks):
    lone = ["lab 1", "job a", "session", "scale set 5", "scale read", "end"]
    checks.ends("one job alone", lone, 10000, [
        "lab 1", "instrument scale 2", "a 1 1/2 set 5 = 5", "a 1 2/2 read = 5",
        "job a sessions 1 of 1 meals 0 retired", "finished"], 0, 6)
    _, rows = trace(text(lone), 10000)
    checks.same("one job alone: acts", [done[0] for done, _, _ in rows],
                [["thirst"], ["drink"], ["command"], ["command"], ["quit"], ["retire"]])
    for limit in (0, 10000):
        checks.ends("header alone", ["lab 1"], limit, ["lab 1", "finished"], 0, 0)
    run = Run(read_script(text(["lab 1", "job a", "session", "scale set 999999", "scale add 1", "end"])))
    run.drive_rounds(10000)
    checks.same("the dial goes round", run.report().split("\n")[3], "a 1 2/2 add 1 = 0")


def check_one_exchange(checks):
    """One exchange for all that an edge needs: fork and bottle at once, and both asked for again."""
    run = Run(read_script(text(PAIR)), True)
    a, b = run.jobs
    for _ in range(3):
        run.whole_turn(b)
    at = len(run.events)
    done, _ = run.whole_turn(a)
    checks.same("fork and bottle at once", (run.edge_word(0), [event[0] for event in run.events[at:]], len(done)),
                (17, ["look", "givefork", "givebottles", "thirst"], 3))
    run = Run(read_script(text(PAIR)), True)
    a, b = run.jobs
    for job in (a, b):
        run.store(job, "thirst")
        run.store(job, "hunger")
    words = []
    for job in (b, a):
        events, after = run.due(job, 0, run.look(job, 0))
        run.exchange(job, 0, events, after)
        words.append((len(events), run.edge_word(0)))
    checks.same("given and asked for again", words, [(2, 2), (4, 4294967317)])


def check_faults(checks):
    checks.fault("empty input", [], "line 1: S1 no lab header")
    for lines, wanted in (
            ("lab 1/job a/job a", "line 3: S5"), ("lab 1/job A", "line 2: S3"), ("lab 1/job a b", "line 2: S2"),
            ("lab 1/session", "line 2: S7"), ("lab 1/job a/Scale read", "line 3: S6"),
            ("lab 1/job a/session/end", "line 4: S8"), ("lab 1/job a/session/job a", "line 4: S9"),
            ("lab 1/job a/session/scale read", "line 5: S9"), ("lab 1/job a/session/scale sub 1", "line 4: S2"),
            ("lab 1/job a/session/Scale set 007", "line 4: S3"), ("lab 1/steps", "line 2: S2"),
            ("lab 1/job a/session/scale set 1000000", "line 4: S4"), ("lab 1/job a/session/scale set 007", "line 4: S4"),
            ("lab 1/job a/session patience 3", "line 3: S2"), ("lab 2/job a/session patience 03", "line 3: S4"),
            ("lab 2/session patience 03", "line 2: S7"), ("lab 3", "line 1: S1"), ("job a", "line 1: S1")):
        cause = wanted.split()[-1]
        checks.fault(lines, lines.split("/"), wanted.replace(cause, FAULTS[cause]))
    jobs = ["lab 1"] + ["job j%d" % k for k in range(33)]
    checks.fault("33 jobs", jobs, "line 34: S10 limit passed")
    both = ["session"] + ["i%d read" % k for k in range(29)] + ["end"]
    checks.fault("29 in common", ["lab 1", "job a"] + both + ["job b"] + both, "line 66: S11 more than 28 instruments in common")
    checks.fault("lone CR", ["lab 1\r"], None)
    checks.same("lone CR at the end", fault_of(b"lab 1\r"), "line 1: S1 no lab header")


def fault_of(data):
    try:
        read_script(data)
    except Fault as fault:
        return str(fault)
    return None


def check_random(checks, runs):
    sys.path.insert(0, os.path.dirname(os.path.abspath(__file__)))
    import make_scripts
    chance = random.Random(1)
    finished = lost = 0
    for number in range(runs):
        data = make_scripts.small(chance).encode()
        plan = read_script(data)
        limit = chance.choice((0, 1, 5, 20, 60, 1000))
        workers = chance.randint(0, 5)
        run = Run(plan, True)
        if workers:
            run.drive_threads(workers, limit, chance)
        else:
            checks.same("run %d: quiet" % number, run.drive_rounds(limit) == "quiet", False)
            checks.same("run %d: turns" % number, check_turns(plan, limit), None)
        finished += run.all_retired()
        wrong = check_run(run)
        checks.same("run %d" % number, wrong, None)
        if wrong:
            print(data.decode())
    print("%d random runs, of which %d finished" % (runs, finished))


def check(runs):
    checks = Checks()
    check_pair(checks)
    check_second_session(checks)
    check_patience(checks)
    check_small(checks)
    check_one_exchange(checks)
    check_faults(checks)
    check_random(checks, runs)
    print("%d comparisons, %d problems" % (checks.count, checks.problems))
    return 1 if checks.problems else 0


# ---------------------------------------------------------------------------------------------------- program


def show_trace(data, limit):
    run, rows = trace(data, limit)
    names = run.plan.job_names
    for number, (acts, words, _) in enumerate(rows, 1):
        does = "; ".join("%s %s" % (name, " ".join(done)) for name, done in zip(names, acts) if done) or "idle"
        print("%4d  %s  [%s]" % (number, does, " ".join(str(word) for word in words)))


def number_word(word):
    if not (word.isascii() and word.isdigit()):
        sys.exit(refused())
    return int(word)


LONGEST = 16777216


def told(text, status):
    sys.stderr.write("labrun: %s\n" % text)
    return status


def refused():
    return told("command line refused", 2)


def given_run(usage):
    """What a reckoner is given: the plan on standard input, and the number that is its one word. With other words it ends, and says its usage."""
    if len(sys.argv) != 2 or sys.argv[1] == "--help":
        print(usage, end="")
        sys.exit(0 if sys.argv[1:] == ["--help"] else 2)
    return read_script(sys.stdin.buffer.read()), int(sys.argv[1])


def main(words):
    if words and words[0] == "--check":
        return check(int(words[1]) if len(words) > 1 else 200)
    if words and words[0] == "--help":
        print(__doc__, end="")
        return 0
    words = words or ["rounds", "10000"]
    numbers = [number_word(word) for word in words[1:]]
    known = {"rounds": (1,), "threads": (2, 3), "--trace": (1,)}
    if len(numbers) not in known.get(words[0], ()) or any(n > 1000000000 for n in numbers[:2]):
        return refused()
    if words[0] == "threads" and not 1 <= numbers[0] <= 32:
        return refused()
    try:
        data = sys.stdin.buffer.read(LONGEST + 1)
        if len(data) > LONGEST:
            return told("input longer than %d bytes" % LONGEST, 4)
        plan = read_script(data)
    except OSError:
        return told("read fault", 4)
    except Fault as fault:
        return told(str(fault), 1)
    if words[0] == "--trace":
        show_trace(data, numbers[0])
        return 0
    run = Run(plan)
    if words[0] == "rounds":
        run.drive_rounds(numbers[0])
    else:
        run.drive_threads(numbers[0], numbers[1], random.Random(numbers[2] if len(numbers) > 2 else None))
    try:
        left = run.report().encode()
        while left:
            left = left[os.write(1, left):]
    except OSError:
        return told("write fault", 4)
    return run.status()


if __name__ == "__main__":
    sys.exit(main(sys.argv[1:]))
