#!/usr/bin/env python3
"""A broker with a journal whose sessions come one by one (`labrun.Lab`), to be killed (checks/journal/kills).

usage: hold_broker.py SCRIPT JOURNAL WORK SYNC NAME=PORT ..      the instruments are those of examples/broker/instruments.py

It writes lines to standard output, `opens` and `open`; and to WORK, as it comes: `begin J N` or `resume J N` once session N of job J holds,
`end J N` before it lets go, `over J N` behind that. Of the script it takes what each job is to hold, in what order. Each job is a station. N of
WORK says which of these a session is, not its number in the journal; its first note says the same."""

import os
import sys
import threading
from contextlib import ExitStack

sys.path.insert(0, os.path.join(os.path.dirname(os.path.realpath(__file__)), "..", "..", "examples", "broker"))
from instruments import Talk  # noqa: E402

import labrun  # noqa: E402


def wishes(script):
    """What each job is to hold: the instruments of each of its sessions."""
    jobs = {}
    for words in map(str.split, script.splitlines()):
        if words[0] == "job":
            jobs[words[1]] = []
        elif words[0] == "session":
            jobs[list(jobs)[-1]].append({})
        elif words[0] not in ("lab", "end"):
            jobs[list(jobs)[-1]][-1][words[0]] = None
    return jobs


def begun(work):
    """How far each job was, by what was told: its last session that held."""
    far = {}
    if os.path.exists(work):
        with open(work, encoding="ascii") as file:
            for line in file:
                _, job, number = line.split()
                far[job] = int(number)
    return far


def main(script, journal, work, sync, *ports):
    at = dict(it.split("=") for it in ports)
    with open(script, encoding="ascii") as file:
        jobs = wishes(file.read())
    far = begun(work)
    told = os.open(work, os.O_WRONLY | os.O_CREAT | os.O_APPEND)

    def tell(what, job, number):
        os.write(told, f"{what} {job} {number}\n".encode())

    def works(held, job, number):
        with ExitStack() as talks:
            for talk in [talks.enter_context(Talk(int(at[name]))) for name in held.instruments]:
                talk.ask("ADD 1")
        tell("end", job, number)

    def station(job):
        number, held = far.get(job, 0), back.get(job)
        if held:
            # (without a note it came to hold before anybody was told, and so the one before it was over)
            number = int(held.notes[0]) if held.notes else number + 1
            if not held.notes:
                held.note(str(number))
            tell("resume", job, number)
            works(held, job, number)
            held.release()
            tell("over", job, number)
        for instruments in jobs[job][number:]:
            number += 1
            with lab.station(job).hold(*instruments) as held:
                held.note(str(number))
                tell("begin", job, number)
                works(held, job, number)
            tell("over", job, number)

    print("opens", flush=True)
    uses = {job: list(dict.fromkeys(name for session in those for name in session)) for job, those in jobs.items()}
    with labrun.Lab(list(at), stations=uses, journal=journal, sync=sync) as lab:
        print("open", flush=True)
        back = {held.station: held for held in lab.resumed}
        threads = [threading.Thread(target=station, args=(job,)) for job in jobs]
        for thread in threads:
            thread.start()
        for thread in threads:
            thread.join()


if __name__ == "__main__":
    main(*sys.argv[1:])
