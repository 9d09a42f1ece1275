"""What an operator does in the lab's week (week.py), who sees to what is gone, and the changes of each morning."""

from __future__ import annotations

import copy
import json
import os
import random
import re
import threading
import time
from typing import Any, Callable, Optional

from tests.machines import until
from tests.week_world import LONG, OPERATORS, RENAMED, Lab, Model, left_in

AWAY = 75.0  # seconds, and a client tries for 60
# what a morning takes out, and what anybody may call mended
LEFT_ALONE = {*RENAMED.values(), "camera-4", "probe-4"}
WHYS = ["calibration until Friday", "its display is dark", "lent to bay south", "the fan is loud", "ask Ana first", ""]


class Operator:
    """Sees to sessions whose clients are gone, puts instruments out of order, and looks how all stands."""

    def __init__(self, lab: Lab) -> None:
        self.lab, self.chance = lab, random.Random(f"{lab.args.seed} operator")
        self._out, self._at, self._seen = lab.out, 0, dict[int, float]()
        self._is_over = threading.Event()
        loops = (self._sees_to_what_is_gone, self._changes_what_is_out)
        self._threads = [threading.Thread(target=self._goes_on, args=(it,), daemon=True) for it in loops]

    def __enter__(self) -> None:
        for it in self._threads:
            it.start()

    def __exit__(self, *_: object) -> None:
        self._is_over.set()
        for it in self._threads:
            it.join(LONG)
        for name in list(self._out):
            self._does("enable", name)

    def _goes_on(self, loop: Callable[[], None]) -> None:
        while not self._is_over.wait(1.0):
            try:
                loop()
            except Exception as fault:
                self.lab.fault(f"the operator: {type(fault).__name__}: {fault}")

    def _sees_to_what_is_gone(self) -> None:
        lab = self.lab
        for one in lab.status()["stations"]:
            for keeper in one["waits_for"]:
                lab.said.add("the status, waits_for", keeper["text"])
            if one["state"] == "gone" and self._is_seen_to(one):
                self._releases(one["name"], one["session"])

    def _releases(self, station: str, session: int) -> None:
        """By a command, or by HTTP. (It may have come back, or be over, by now.)"""
        lab, who = self.lab, self.chance.choice(OPERATORS)
        if self.chance.random() < 0.2:
            status, text = lab.does(who, "release", station, "--session", str(session))
            if status not in (0, 1):
                lab.fault(f"release {station} --session {session}: {status}, {text}")
            return
        told = until(lambda: lab.asks(who, "POST", "/v1/release", {"station": station, "session": session}), "a broker answers")
        lab.said.add("POST /v1/release", told.get("text") or json.dumps(told))
        if told.get("kind") not in (None, "NotHeld", "BadWish", "JournalError"):
            lab.fault(f"POST /v1/release of {station}, {session}: {told}")

    def _changes_what_is_out(self) -> None:
        lab = self.lab
        self._at += 1
        if self._at % 10 == 0:
            lab.command(self.chance.choice(lab.model.people), "status")
        if self._at % 7 == 0:
            self._tries(lab.status())
        for name, until_then in list(self._out.items()):
            if time.monotonic() > until_then or lab.is_evening:
                self._does("enable", name)
                with lab.lock:
                    del self._out[name]
        if not lab.is_evening and self._at % 4 == 0 and len(self._out) < 3:
            name = self.chance.choice([it for it in lab.model.instruments if it not in LEFT_ALONE and it not in self._out])
            with lab.lock:
                lab.model.was_out.add(name)
                self._out[name] = time.monotonic() + 2 + self.chance.random() * 6
            self._does("disable", name, *filter(None, [self.chance.choice(WHYS)]))

    def _does(self, *words: str) -> None:
        status, text = self.lab.does(self.chance.choice(OPERATORS), *words)
        if status:
            self.lab.fault(f"{' '.join(words)}: {status}, {text}")

    def _is_seen_to(self, one: dict[str, Any]) -> bool:
        """Whether nobody is at its instruments: its programs have ended, or it was told that it doesn't hold; or it isn't told that it does for
        longer than a client tries to come back, because it has a time limit, and the broker that heard it was killed."""
        since = time.monotonic() - self._seen.setdefault(one["session"], time.monotonic())
        found = re.search(r"@\S+ (\d+) ", f"{one['by']} ")
        if since < 1 or not found:
            return False
        if one["session"] in self.lab.over or not left_in(int(found[1])):
            return True
        # (the other kinds don't say which session they are in)
        tells = one["by"].endswith(("week_client.py", "urllib"))
        return tells and since > AWAY and self.lab.at.get(int(found[1])) != one["session"]

    def _tries(self, status: dict[str, Any]) -> None:
        """What only operators may, by somebody else; and what nobody can."""
        lab = self.lab
        others = [it for it in lab.model.people if it not in OPERATORS]
        held = [it for it in status["stations"] if it["state"] == "holding" and it["by"].partition(":")[0] in OPERATORS]
        tries: list[tuple[str, list[str], set[int]]] = [
            (self.chance.choice(others), ["disable", "scope-1", "mine"], {77}),
            (self.chance.choice(others), ["bay", "apply", f"{lab.folder}/bay.toml"], {77}),
            ("ana", ["disable", "scop-1", "mine"], {2}),
            ("ana", ["enable", "probe-4"], {0, 1}),
            ("ana", ["release", "guest-99"], {1}),
            ("ana", ["release", "lathe"], {1}),
        ]
        if held:
            tries.append((self.chance.choice(others), ["release", held[0]["name"], "--session", str(held[0]["session"])], {77, 1}))
        who, words, may = self.chance.choice(tries)
        found, text = lab.command(who, *words)
        # (69, 74: no broker leads just now)
        if found not in may | {69, 74}:
            lab.fault(f"{' '.join(words)} by {who}: {found} and not {may}: {text}")


class Mornings:
    """The bay is another one each morning."""

    def __init__(self, lab: Lab) -> None:
        self.lab = lab

    def comes(self, day: int) -> None:
        with self.lab.lock:
            self.lab.model.was_out &= set(self.lab.out)
        getattr(self, f"_day_{day}")()

    def _applies(self, changes: Callable[[Model], None], may_fail: bool = False) -> bool:
        """Whether it came to be: somebody may be in the way for a while."""
        lab, end = self.lab, time.monotonic() + 4 * LONG
        while True:
            after = copy.deepcopy(lab.model)
            after.was_out, after.past, after.revoked, after.untagged = lab.model.was_out, lab.model.past, lab.model.revoked, lab.model.untagged
            changes(after)
            path = f"{lab.folder}/candidate.toml"
            with open(path, "w", encoding="ascii") as file:
                file.write(after.text())
            os.chmod(path, 0o644)
            status, text = lab.command("ana", "bay", "apply", path, "--check")
            if not status:
                lab.writes(after.text())
                os.chmod(f"{lab.folder}/bay.toml", 0o644)
                status, text = lab.command("ana", "bay", "apply", f"{lab.folder}/bay.toml")
            if not status:
                lab.model = after
                return True
            lab.writes(lab.model.text())
            os.chmod(f"{lab.folder}/bay.toml", 0o644)
            if may_fail or time.monotonic() > end:
                if not may_fail:
                    lab.fault(f"the bay isn't another one: {status}, {text}")
                return False
            time.sleep(1)

    def _is_new(self, name: str) -> None:
        self._applies(lambda it: it.instruments.append(name))

    def _is_out(self, name: str, why: str, new: Optional[str] = None) -> None:
        """Taken out, or called otherwise, once nobody has it."""
        lab = self.lab
        lab.model.was_out.add(name)
        lab.does("bob", "disable", name, why)
        until(lambda: next(it for it in lab.status()["instruments"] if it["name"] == name)["holder"] is None, f"nobody holds {name}")

        def changes(it: Model) -> None:
            it.past.add(name)
            it.instruments[it.instruments.index(name) :] = [*([new] if new else []), *it.instruments[it.instruments.index(name) + 1 :]]

        self._applies(changes)

    def _person(self, name: str) -> None:
        self._applies(lambda it: it.people.append(name))

    def _day_1(self) -> None:
        self._is_new("laser-1")
        self._person("zoe")

    def _day_2(self) -> None:
        self._is_out("meter-10", "it is called dmm-10 from this morning on", "dmm-10")

    def _day_3(self) -> None:
        self._is_out("camera-4", "it goes to the workshop")
        self._applies(lambda it: setattr(it, "guests_limit", "1h"))
        self.lab.model.revoked.add("wim")
        self._applies(lambda it: it.people.remove("wim"))

    def _day_4(self) -> None:
        """A token is changed as the page says: the new one beside the old, and then that one goes."""
        lab, new = self.lab, "dan"
        token, digest = lab.model.new_token()
        self._applies(lambda it: it.tokens[new].append(digest))
        lab.model.revoked.add(new)
        lab.model.has_token(new, token)
        self._applies(lambda it: it.tokens[new].pop(0))
        self.lab.model.untagged |= {"scope-2", "meter-2"}
        self._applies(lambda it: it.tags.update(precise=["scope-1", "scope-3", "meter-1", "meter-3"]))

    def _day_5(self) -> None:
        self._is_new("radio-1")
        self._applies(lambda it: it.may.update(kurt=["camera-*", "probe-*", "radio-1"]))

    def _day_6(self) -> None:
        self._is_out("switch-6", "it is called relay-6 from this morning on", "relay-6")

    def _day_7(self) -> None:
        if self._applies(lambda it: it.instruments.append("laser-2"), may_fail=True):
            self.lab.fault("a folder has more than 64 places")
        self._applies(lambda it: setattr(it, "guests", 12))
        self._person("nora")
