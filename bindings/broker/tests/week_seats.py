"""Who asks in the lab's week (week.py): one after another, with programs of every kind, and what each of them may come to."""

from __future__ import annotations

import json
import math
import os
import queue
import random
import re
import signal
import subprocess
import threading
import time
from typing import Any, Optional

from tests.brokers import COMMAND
from tests.machines import ip, until
from tests.week_plans import Plan, is_loads, planned
from tests.week_world import LONG, OPERATORS, SHELL, Lab, uid_of

OF_STATUS = {0: "done", 1: "no", 2: "NoInstrument", 3: "failed", 69: "Unreachable", 74: "JournalError", 75: "TimeoutError", 76: "TakenAway", 77: "MayNotUse"}
# what a test that didn't pass says, and what that is
OF_TESTS = {f"{it}: ": it for it in ("OutOfOrder", "NoInstrument", "MayNotUse", "JournalError", "Unreachable", "NotHeld", "TakenAway")}
OF_TESTS |= {"the fuse of": "failed", r"waited [\d.]+ s for ": "TimeoutError", "unknown instrument": "NoInstrument", "can't be reached": "Unreachable"}


class Seat:
    """One after another asks, with a program of any kind. Each program is a group of processes, of the user whose it is."""

    def __init__(self, lab: Lab, at: int) -> None:
        self.lab, self.at, self.is_home = lab, at, True
        self.chance = random.Random(f"{lab.args.seed} {at}")
        # the program that asks in Python or by HTTP, how many sessions it did, and what it told; and one of a command
        self.person, self.did, self.kept = "", 0, list[str]()
        self.worker: Optional[subprocess.Popen[Any]] = None
        self.command: Optional[subprocess.Popen[Any]] = None
        self.events = queue.Queue[Plan]()
        self._thread = threading.Thread(target=self._runs, daemon=True)
        self._thread.start()

    def _runs(self) -> None:
        while not self.lab.is_done:
            with self.lab.lock:
                self.is_home = self.lab.is_evening or self.lab.given >= self.lab.given_upto
                if not self.is_home:
                    self.lab.given += 1
                    number = self.lab.given
            if self.is_home:
                time.sleep(0.05)
                continue
            try:
                self._asks(number)
            except Exception as fault:
                self.lab.fault(f"the test itself: {type(fault).__name__}: {fault}")
                self._leaves()

    def ends(self, how_soon: float) -> None:
        """What it has begun is over then, however it stands."""
        self._thread.join(how_soon)
        for it in [one for one in (self.worker, self.command) if one is not None]:
            self._kills(it)
        self._thread.join(LONG)

    def _asks(self, number: int) -> None:
        if self.worker is None or self.person not in self.lab.model.people:
            self._leaves()
            self.person = self.chance.choice(self.lab.model.people)
        plan, begun = planned(self.chance, self.lab.model, self.person, number), time.monotonic()
        outcome, text = self._by_worker(plan) if plan["kind"] in ("python", "http") else self._by_command(plan)
        self._judges(plan, outcome, text, begun)

    def _judges(self, plan: Plan, outcome: str, text: str, begun: float) -> None:
        lab, names = self.lab, plan["names"]
        outcome = outcome if outcome != "no" else "OutOfOrder" if "out of order" in text else "BadWish"
        may = set(plan["expected"])
        if "kill" in plan["fate"]:
            may.add("killed")
        words = {name for word in names for name in lab.model.matching([re.sub(r"^\d+ of ", "", word)]) or [word]}
        if words & lab.model.was_out:
            may.add("OutOfOrder")
        if words & lab.model.past:
            may |= {"NoInstrument", "OutOfOrder"}
        if words & lab.model.untagged and "tag:precise" in lab.model.words_of(self.person):
            may.add("MayNotUse")
        if self.person in lab.model.revoked:
            # (AnswerLost is a kind of Unreachable: of one that had waited at a broker that is gone)
            may |= {"Unreachable", "AnswerLost", "TakenAway", "NotAllowed"}
        if self._was_slow(plan, outcome, begun):
            may.add(outcome)
        with lab.lock:
            lab.outcomes[f"{plan['kind']}: {outcome}" + (f" ({plan['fate']})" if plan["fate"] else "")] += 1
        lab.said.add(f"{plan['kind']}, {outcome}", text if plan["kind"] in ("python", "http") else "")
        if outcome not in may:
            shown = {key: it for key, it in plan.items() if key in ("id", "kind", "words", "any_of", "station", "timeout", "limit", "fate", "span")}
            lab.fault(f"{self.person}: {outcome}, and not one of {sorted(may)} after {time.monotonic() - begun:.1f} s: {text.strip()[-400:]!r} of {shown}")
        if outcome in ("Unreachable", "AnswerLost"):
            self._leaves()

    def _was_slow(self, plan: Plan, outcome: str, begun: float) -> bool:
        """Whether it is so because no broker listened for a while, or another seat's program of this person was cut off: a new client tries for 20 s
        to reach a broker, and one that was there before for 60; who has a time limit no longer than that, also if the broker only doesn't answer;
        labrun-hold asks at one machine alone; and a note waits for ten seconds until it is written."""
        silent = self.lab.listening.silent_since(begun)
        was_away = silent > 0.0 or self.lab.cut.get(self.person, 0.0) > begun
        if outcome in ("Unreachable", "AnswerLost", "JournalError", "nobody answers"):
            is_soon = plan["kind"] == "labrun-hold" or outcome == "JournalError"
            return plan["timeout"] is not None or (was_away if is_soon else silent > 15.0)
        return outcome == "TakenAway" and is_loads(plan) and was_away

    def _reads(self, one: subprocess.Popen[Any], events: queue.Queue[Plan], out: Optional[list[str]] = None) -> None:
        """What a program tells by JSON or in words; what people read is kept in `out`, if it writes that here, too."""
        assert one.stdout is not None
        for line in one.stdout:
            text = line.decode(errors="replace")
            if text.startswith("{"):
                events.put(json.loads(text))
            elif out is None:
                events.put({"what": "line", "text": text})
            else:
                out.append(text)
                self.lab.said.add("pytest", text)
        events.put({"what": "eof"})

    def _hears(self, one: subprocess.Popen[Any], err: str, events: queue.Queue[Plan], kept: list[str]) -> None:
        assert one.stderr is not None
        for line in one.stderr:
            text = line.decode(errors="replace")
            kept.append(text)
            self.lab.said.add(err, text)
            if " waits: " in text:
                events.put({"what": "waits", "text": ""})

    def _by_worker(self, plan: Plan) -> tuple[str, str]:
        lab = self.lab
        self.did += 1
        if self.worker is None or self.did > 60:
            self._leaves()
            words = ["/usr/bin/python3", "-m", "tests.week_client", lab.addresses, lab.by_web, lab.folder, self.person]
            self.worker = lab.began(self.person, words, stdin=subprocess.PIPE, stdout=subprocess.PIPE, stderr=subprocess.PIPE)
            self.events, self.kept, self.did = queue.Queue(), [], 0
            threading.Thread(target=self._reads, args=(self.worker, self.events), daemon=True).start()
            threading.Thread(target=self._hears, args=(self.worker, "a program", self.events, self.kept), daemon=True).start()
        one = self.worker
        assert one.stdin is not None
        given = {key: it for key, it in plan.items() if key not in ("expected", "names", "fate", "span")}
        one.stdin.write(json.dumps(given).encode() + b"\n")
        one.stdin.flush()
        return self._follows(plan, one, self.events)

    def _command(self, plan: Plan) -> tuple[list[str], str]:
        """Its words, and at which socket it asks if it doesn't ask at all machines."""
        lab = self.lab
        if plan["kind"] == "pytest":
            given = {key: plan[key] for key in ("id", "words", "work", "idle", "note", "fails", "is_away")} | {"any_of": [it for it, in plan["any_of"]]}
            words = ["env", "PYTHONPATH=.:../python:../pytest", f"LABRUN_BROKER_CERTIFICATE_FILE={lab.folder}/certificate", f"WEEK_FOLDER={lab.folder}"]
            words += [f"WEEK_PLAN={json.dumps(given)}", "/usr/bin/python3", "-m", "pytest", "-q", "-s", "-p", "no:cacheprovider", "-p", "pytest_labrun.plugin"]
            words += ["--lab-broker", lab.addresses, *([] if plan["timeout"] is None else ["--lab-timeout", str(plan["timeout"])]), "tests/week_test.py"]
            return words, ""
        words = ["--any", *(",".join(it) for it in plan["any_of"])] if plan["any_of"] else list(plan["words"])
        for key in ("timeout", "station", "limit"):
            if plan[key] not in (None, ""):
                words += [f"--{key}", str(plan[key])]
        words += ["--", "bash", "-c", SHELL, "measure", lab.folder, f"{plan['work']:.3f}", f"{plan['idle']:g}", "3" if plan["fails"] else "0", str(int(plan["is_away"]))]
        if plan["kind"] == "hold":
            return ["/usr/bin/python3", *COMMAND[1:], "hold", "--certificate", f"{lab.folder}/certificate", *words], ""
        at = until(lab.leader, "somebody leads")
        return [f"{lab.folder}/labrun-hold", *words], f"unix:{lab.folder}/bay-{at.at}.sock"

    def _by_command(self, plan: Plan) -> tuple[str, str]:
        lab = self.lab
        words, where = self._command(plan)
        one = lab.began(self.person, words, where, stdin=subprocess.PIPE, stdout=subprocess.PIPE, stderr=subprocess.PIPE)
        self.command, events, kept = one, queue.Queue[Plan](), list[str]()
        readers = [threading.Thread(target=self._reads, args=(one, events, kept if plan["kind"] == "pytest" else None), daemon=True)]
        readers.append(threading.Thread(target=self._hears, args=(one, f"{plan['kind']}", events, kept), daemon=True))
        for it in readers:
            it.start()
        outcome, text = self._follows(plan, one, events)
        if outcome == "eof":
            try:
                status = one.wait(LONG)
            except subprocess.TimeoutExpired:
                self._kills(one)
                return "hangs", "".join(kept)
            readers[1].join(5)
            text = "".join(kept)
            outcome = OF_STATUS.get(status, f"status {status}")
            if plan["kind"] == "pytest" and status:
                outcome = next((it for words, it in OF_TESTS.items() if re.search(words, text)), f"status {status}")
        assert one.stdin is not None
        one.stdin.close()
        return outcome, text

    def _follows(self, plan: Plan, one: subprocess.Popen[Any], events: queue.Queue[Plan]) -> tuple[str, str]:
        lab, fate, number, station, said = self.lab, plan["fate"], 0, "", f"{plan['kind']}, it is told"
        while True:
            try:
                it = events.get(timeout=LONG + 60)
            except queue.Empty:
                self._kills(one)
                return "hangs", f"its last fate was {fate}"
            what = it["what"]
            if what == "line":
                what, *words = it["text"].split() or [""]
                if what == "held":
                    station = words[1]
                elif what in ("busy", "late"):
                    it = {"name": words[0]}
            if what in ("waits", "warned", "taken", "told"):
                lab.said.add(f"{said}: {what}", it["text"])
            if what == "busy":
                lab.fault(f"{it['name']} is busy for {self.person}, {plan['kind']}, station {station}, session {number or '?'}")
            if what == "late":
                lab.fault(f"{it['name']} has seen a larger token than that of {self.person}, {plan['kind']}, station {station}, session {number or '?'}")
            if what == "waits" and fate == "kill in line":
                self._kills(one)
                return "killed", ""
            if what == "held":
                number, station = it.get("number", 0), it.get("station", station)
                if number:
                    with lab.lock:
                        if number in lab.told:
                            lab.faults.append(f"session {number} was told to two: {lab.told[number]} and {self.person}")
                        lab.told[number], lab.at[one.pid] = f"{self.person}, {plan['kind']}", number
                if self._has_fate(plan, one):
                    return "killed", ""
            if what == "idle" and fate == "released":
                self._is_released(station, number)
            if what in ("end", "eof"):
                if number:
                    with lab.lock:
                        lab.over.add(number)
                        lab.at.pop(one.pid, None)
                if what == "eof" and plan["kind"] in ("python", "http"):
                    kept = "".join(self.kept)
                    self._leaves()
                    return "died", kept
                return it.get("outcome", "eof"), it.get("text", "")

    def _has_fate(self, plan: Plan, one: subprocess.Popen[Any]) -> bool:
        """Whether that was its end."""
        fate, span = plan["fate"], plan["span"]
        if fate == "kill":
            time.sleep(self.chance.random() * plan["work"])
            self._kills(one)
            return True
        if fate == "stop":
            os.killpg(one.pid, signal.SIGSTOP)
            time.sleep(min(span, 2.0) if is_loads(plan) else span)
            os.killpg(one.pid, signal.SIGCONT)
        elif fate == "cut":
            rule = ["uidrange", f"{uid_of(self.person)}-{uid_of(self.person)}", "unreachable", "priority", str(100 + self.at)]
            self.lab.cut[self.person] = math.inf
            ip("rule", "add", *rule)
            time.sleep(span)
            ip("rule", "del", *rule)
            self.lab.cut[self.person] = time.monotonic()
        return False

    def _is_released(self, station: str, number: int) -> None:
        """Whoever tries again names the session, because another may have begun there; it may be over by then."""
        lab, words = self.lab, ["release", station]
        who = self.chance.choice([*OPERATORS, *([self.person] if self.person in lab.model.people else [])])
        number = number or next(it["session"] for it in lab.status()["stations"] if it["name"] == station)
        if is_named := self.chance.random() < 0.5:
            words += ["--session", str(number)]
        status, text = lab.does(who, *words) if is_named else lab.command(who, *words)
        if not is_named and status in (69, 74):
            status, text = lab.does(who, *words, "--session", str(number))
            status = 0 if status == 1 else status
        if status:
            self.lab.fault(f"{' '.join(words)} by {who}: {status}, {text}")

    def _kills(self, one: subprocess.Popen[Any]) -> None:
        try:
            os.killpg(one.pid, signal.SIGKILL)
        except ProcessLookupError:
            pass
        one.wait()
        if one is self.worker:
            self.worker = None

    def _leaves(self) -> None:
        if self.worker is not None:
            one, self.worker = self.worker, None
            assert one.stdin is not None
            one.stdin.close()
            try:
                one.wait(20)
            except subprocess.TimeoutExpired:
                self._kills(one)
