#!/usr/bin/env python3
"""What `labview blocks N` writes for a script, reckoned by checks/simulate.py's rounds and docs/labview.md alone.

Usage: checks/reckon_blocks.py N < SCRIPT
"""
import collections
import os
import sys

sys.dont_write_bytecode = True
sys.path.insert(0, os.path.dirname(os.path.abspath(__file__)))
import simulate


class Watched(simulate.Run):
    """A run that counts, after each turn, the bottles that a thirsty job needs and knows to be at its neighbours."""

    def __init__(self, plan, recording=False):
        super().__init__(plan, recording)
        self.blocked, self.held = collections.Counter(), collections.Counter()

    def whole_turn(self, job):
        done = super().whole_turn(job)
        if job.drinking == simulate.THIRSTY:
            # nobody else acts in a turn, so the job's edges are as it knows them
            for edge in job.edges:
                low, high, common = self.plan.edges[edge]
                other = self.jobs[high if job.number == low else low]
                there = self.edges[edge].bottles ^ (common if other.number == low else 0)
                kept = common & there & self.needed(job)
                used = kept & self.needed(other) if other.drinking in (simulate.DRINKING, simulate.REACHING) else 0
                self.count(self.blocked, job, other, kept)
                self.count(self.held, job, other, used)
        return done

    def count(self, table, job, other, instruments):
        for instrument in range(len(self.plan.instrument_names)):
            if instruments >> instrument & 1:
                table[job.number, other.number, instrument] += 1


def reckon(plan, limit):
    run = Watched(plan)
    run.drive_rounds(limit)
    yield f"rounds {run.rounds} {'finished' if run.all_retired() else 'unfinished'}"
    blocked, held = collections.Counter(), collections.Counter()
    for key in sorted(run.blocked, key=lambda it: (-run.blocked[it], it)):
        job, other, instrument = key
        blocked[instrument] += run.blocked[key]
        held[instrument] += run.held[key]
        names = f"{plan.job_names[job]} by {plan.job_names[other]} on {plan.instrument_names[instrument]}"
        yield f"blocked {names} rounds {run.blocked[key]} held {run.held[key]}"
    for instrument in sorted(blocked, key=lambda it: (-blocked[it], it)):
        yield f"instrument {plan.instrument_names[instrument]} blocked {blocked[instrument]} held {held[instrument]}"


if __name__ == "__main__":
    for line in reckon(*simulate.given_run(__doc__)):
        print(line)
