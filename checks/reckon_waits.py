#!/usr/bin/env python3
"""What `labview waits N` writes for a script, reckoned by checks/simulate.py's rounds and docs/labview.md alone.

Usage: checks/reckon_waits.py N < SCRIPT
"""
import os
import sys

sys.dont_write_bytecode = True
sys.path.insert(0, os.path.dirname(os.path.abspath(__file__)))
import reckon_gantt
import simulate


def waited(session, last):
    """The rounds from a session's Thirst to its Drink, to its Withdraw, or to the last round."""
    return session.get("drinks", session.get("given up", last)) - session["thirsty"]


def line_of(name, number, session, last):
    start = f"session {name} {number} thirsty {session['thirsty']}"
    if "given up" in session:
        return f"{start} given up {session['given up']}"
    if "drinks" not in session:
        return f"{start} waits"
    done = f" done {session['done']}" if "done" in session else ""
    return f"{start} drinks {session['drinks']}{done} waited {waited(session, last)}"


def longest_chain(plan):
    """One of the longest: at the opening the job that comes later in the script precedes."""
    chains = []
    for job in range(len(plan.job_names)):
        before = [chains[low] for low, high, _ in plan.edges if high == job]
        chains.append([job, *max(before, key=len, default=[])])
    return max(chains, key=len, default=[])


def reckon(plan, limit):
    jobs, last, retired = reckon_gantt.run_of(plan, limit)
    yield f"rounds {last} {'finished' if retired else 'unfinished'}"
    all_waits = []
    for name, (sessions, _) in zip(plan.job_names, jobs):
        for number, session in enumerate(sessions, 1):
            yield line_of(name, number, session, last)
            all_waits.append((waited(session, last), name, number))
    for name, (sessions, _) in zip(plan.job_names, jobs):
        waits = [waited(it, last) for it in sessions]
        yield f"job {name} waited {sum(waits)} longest {max(waits, default=0)}"
    longest = max(all_waits, key=lambda it: it[0], default=(0,))
    yield "longest wait " + (" ".join(map(str, longest)) if longest[0] else "0")
    chain = longest_chain(plan)
    yield " ".join(["chain", str(len(chain)), *(plan.job_names[it] for it in chain)])


if __name__ == "__main__":
    for line in reckon(*simulate.given_run(__doc__)):
        print(line)
