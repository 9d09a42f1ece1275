"""Every short list of steps of a small plan: what each step does, and what is legal behind it, by the rules as `checks/simulate.py` has them.

From the opening these are the lists of three steps, and from each stage of the stale mark those of two. In each state before the last step
of a list, each step is tried once: one that changes the state, those that are legal and change nothing all in one run, and each that isn't
legal, which is refused, and its job is as it was. The states that they lead to are 188."""

import copy

import explained
import simulate
import simulated
from case import Case
from stale_mark import STEPS, TWICE, text_of

PLAN = simulate.read_script(TWICE.removesuffix("steps\n").encode())
EVERY = [it for job in (0, 1) for it in (*explained.events_of(PLAN, job), *explained.sights_of(PLAN, job))]
LINES = {it: simulated.line_of(PLAN, it).rstrip("\n") for it in EVERY}
STALE_MARK = [next(it for it in EVERY if LINES[it] == line) for line in STEPS]


def key(table):
    """What makes a state this one."""
    parts = dict(vars(table), plan=None)
    return repr([sorted(it.items(), key=repr) if isinstance(it, dict) else sorted(it, key=repr) if isinstance(it, set) else it for it in parts.values()])


def after(table, event):
    done = copy.copy(table)
    for name, it in vars(table).items():
        if name != "plan":
            setattr(done, name, copy.deepcopy(it))
    done.do(event)
    return done


def told(name, path, table):
    """The explanation of the state that these steps lead to."""
    return Case(name, "explain", text_of(TWICE, [LINES[it] for it in path]), explained.of_state(table, len(path)), slow=True)


def refused(name, path, event, table):
    """The step is refused behind these; why is tested in `explanations.py`."""
    text = text_of(TWICE, [LINES[it] for it in [*path, event]])
    line = text.count("\n")
    rest = explained.job_of(table, event[1]) + explained.legal_part(table)

    def judge(out):
        first, _, came = out.decode().partition("\n")
        is_so = first.startswith(f"line {line}: `{LINES[event]}` is not legal: ") and came == rest
        return None if is_so else f"it should refuse line {line}, and then tell\n{rest}"

    return Case(name, "explain", text, judge, slow=True)


class Lists:
    """All that is asked, once each."""

    def __init__(self):
        self.seen, self.cases = set(), []

    def is_new(self, *asked):
        if asked in self.seen:
            return False
        self.seen.add(asked)
        return True

    def add(self, case, *about):
        self.cases.append(case(f"{len(self.cases):04}", *about))

    def try_all(self, path, table, steps):
        """Every list of so many steps from the state that these steps lead to."""
        if not steps:
            return
        here, idle = key(table), []
        for event in EVERY:
            if not table.may(event):
                continue
            there = after(table, event)
            if key(there) == here:
                idle.append(event)
            elif self.is_new(here, event):
                self.add(told, [*path, event], there)
            if key(there) != here:
                self.try_all([*path, event], there, steps - 1)
        if self.is_new(here, "idle"):
            self.add(told, [*path, *idle], table)
            self.refuse_all(path, table)

    def refuse_all(self, path, table):
        """Each step that isn't legal in the state that these steps lead to."""
        for event in EVERY:
            if not table.may(event) and self.is_new(key(table), event):
                self.add(refused, path, event, table)


def cases():
    lists, table = Lists(), simulate.Table(PLAN)
    lists.try_all([], table, 3)
    for place, event in enumerate(STALE_MARK[:28], 1):
        if not table.may(event):
            raise ValueError(f"step {place} of the stale mark isn't legal")
        table = after(table, event)
        lists.try_all(STALE_MARK[:place], table, 2)
    return lists.cases


CASES = cases()
