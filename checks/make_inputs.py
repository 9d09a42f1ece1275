#!/usr/bin/env python3
"""Writes large inputs of labrun into a folder (the first argument):

sessions.lab 32 jobs, one instrument, 32000 sessions of one command, the most that there can be: for check
script.lab   32 jobs, 56 instruments, 3200 sessions, 100000 commands: for check and upgrade
acts.lab     the same size with each job on instruments of its own, and steps that do every command: for replay
long.lab     32 jobs that share one instrument, and 400000 looks of 39 bytes: for replay
glances.lab  the same jobs, and 400000 glances of 41 bytes: for replay
short.lab    the same jobs by shorter names, and 1000000 looks of 15 bytes: for replay
"""
import os
import sys

JOBS = 32
INSTRUMENTS = 56
SESSIONS = 100
COMMANDS = 100_000
LIMIT = 16_777_216


def command(instrument, number):
    verb = ("set %d" % (number % 1_000_000), "add %d" % (number * 7919 % 1_000_000), "read")[number % 3]
    return "instrument-%05d %s" % (instrument, verb)


def script(instruments_of):
    """The lines of a script; the commands of a session go round the instruments of its job."""
    lines, done = ["lab 1"], 0
    for job in range(JOBS):
        lines.append("job job-%012d" % job)
        own = instruments_of(job)
        for session in range(SESSIONS):
            lines.append("session")
            last = COMMANDS * (job * SESSIONS + session + 1) // (JOBS * SESSIONS)
            while done < last:
                lines.append(command(own[done % len(own)], done))
                done += 1
            lines.append("end")
    return lines


def acts():
    """Each job's sessions one after another: no edge joins two jobs, so every step is legal at once."""
    lines = script(lambda job: [i for i in range(INSTRUMENTS) if i % JOBS == job])
    steps, job, commands = ["steps"], None, 0
    for line in lines:
        if line.startswith("job "):
            if job:
                steps.append("retire " + job)
            job = line[4:]
        elif line == "session":
            commands = 0
        elif line == "end":
            steps += ["thirst " + job, "drink " + job] + ["reach " + job, "act " + job] * commands + ["quit " + job]
        elif job:
            commands += 1
    return lines + steps + ["retire " + job]


def shared(name):
    lines = ["lab 1"]
    for job in range(JOBS):
        lines += ["job " + name(job), "session", "scale read", "end"]
    return lines + ["steps"]


def sessions():
    """Every job with as many sessions as it may have, each of one command."""
    lines = ["lab 1"]
    for job in range(JOBS):
        lines += ["job job-%012d" % job] + ["session", "scale read", "end"] * 1000
    return lines


def steps(word, name, count):
    """So many steps of one word, over every pair of jobs; each is legal wherever it stands."""
    lines = []
    for step in range(count):
        job = step % JOBS
        other = (job + 1 + step // JOBS % (JOBS - 1)) % JOBS
        lines.append("%s %s %s" % (word, name(job), name(other)))
    return lines


def main():
    if len(sys.argv) != 2 or sys.argv[1] == "--help":
        print(__doc__, end="")
        sys.exit(0 if sys.argv[1:] == ["--help"] else 2)
    folder = sys.argv[1]
    os.makedirs(folder, exist_ok=True)

    def long_name(job):
        return "laboratory-job%02d" % job

    def short_name(job):
        return "j%03d" % job

    texts = {
        "sessions": sessions(),
        "script": script(lambda job: [(job * 7 + k) % INSTRUMENTS for k in range(28)]),
        "acts": acts(),
        "long": shared(long_name) + steps("look", long_name, 400_000),
        "glances": shared(long_name) + steps("glance", long_name, 400_000),
        "short": shared(short_name) + steps("look", short_name, 1_000_000),
    }
    for name, lines in texts.items():
        text = "\n".join(lines) + "\n"
        assert len(text) <= LIMIT, (name, len(text))
        with open(os.path.join(folder, name + ".lab"), "w") as file:
            file.write(text)


main()
