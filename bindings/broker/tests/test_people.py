"""Who may: people by name, what each may ask for, and those who aren't let in any more."""

from __future__ import annotations

import asyncio
import contextlib
import io
import json
import os
import re
import subprocess
import sys
import threading
import unittest
from importlib.util import find_spec
from typing import Any, Optional
from unittest import mock

import grpc
import labrun
import labrun_broker
from labrun_broker import broker_pb2 as pb
from labrun_broker import people, quick
from labrun_broker.applying import apply
from labrun_broker.bay import BadAddress, BayFault, bay_of
from labrun_broker.client import methods_of
from labrun_broker.command import main
from labrun_broker.door import Door
from labrun_broker.entrance import Entrance, NotLetIn
from labrun_broker.errors import CantChange, NoInstrument, NotAllowed, OutOfOrder, Unreachable
from labrun_broker.front import Fronts
from labrun_broker.keeping import Keeping
from labrun_broker.outage import disable
from labrun_broker.people import digest_of
from labrun_broker.service import Service
from labrun_broker.telling import lines_of
from labrun_broker.users import Users
from labrun_broker.wishes import Wish, resolved
from tests.asking import Asking
from tests.brokers import BAY, LIMIT, Broker, OnBroker, free_port, station, until
from tests.test_keeping import TICKET, OnQuiet, Owner, how

ANA, BOB, BOBS_NEW, EVE = "a" * 64, "b" * 64, "c" * 64, "e" * 64


def hash_of(token: str) -> str:
    return f'"sha256:{digest_of(token)}"'


PEOPLE = f"""
operators = ["ana"]
{BAY}
[tags]
precise = ["scope", "load-1"]
[people]
ana = {{token = {hash_of(ANA)}}}
bob = {{token = [{hash_of(BOB)}, {hash_of(BOBS_NEW)}], may = ["load-*"]}}
cat = {{unix = {os.getuid()}, may = ["tag:precise"]}}
dan = {{token = {hash_of("d" * 64)}, may = []}}
[groups.students]
people = ["bob", "dan"]
may = ["supply"]
"""
WITHOUT_BOB = PEOPLE.replace(f"bob = {{token = [{hash_of(BOB)}, {hash_of(BOBS_NEW)}], may = [\"load-*\"]}}\n", "").replace('"bob", ', "")
WITHOUT_HIS_OLD = PEOPLE.replace(f"{hash_of(BOB)}, ", "")


class OfMany(unittest.TestCase):
    def test_more_than_one_may(self) -> None:
        """It is said that the person may not, and not that the bay has fewer of them."""
        names = ", ".join(f'"meter-{it}"' for it in range(10))
        people = f'[people]\nana = {{token = {hash_of(ANA)}, may = ["meter-1", "meter-2"]}}\n'
        bay = bay_of(f'bay = "north"\noperators = ["ana"]\ninstruments = [{names}]\n[guests]\ncount = 4\n{people}')
        # (4 of 10 are more ways than can be asked for)
        for words in ("3 of meter-*", "4 of meter-*"):
            with self.assertRaisesRegex(labrun.MayNotUse, rf"^ana may not have {words[0]} of meter-\*, but only meter-1, meter-2; operators: ana$"):
                resolved(Wish((words,), person="ana"), bay)


class Files(unittest.TestCase):
    def faults(self, text: str) -> list[str]:
        with self.assertRaises(BayFault) as caught:
            bay_of(text)
        return caught.exception.faults

    def test_what_they_say(self) -> None:
        its = bay_of(PEOPLE).people
        self.assertEqual((list(its.of), its.operators), (["ana", "bob", "cat", "dan"], ("ana",)))
        self.assertEqual([it.may for it in its.of.values()], [None, ("load-*", "supply"), ("tag:precise",), ("supply",)])
        self.assertEqual((its.of["bob"].tokens, its.of["cat"].unix), ((digest_of(BOB), digest_of(BOBS_NEW)), (str(os.getuid()),)))
        self.assertFalse(bay_of(BAY).people)

    def test_faults(self) -> None:
        """Each is named with its key, and none says what may be a token."""
        same = hash_of(ANA)
        text = f"""operators = ["zoe"]\n{BAY}[people]\nana = {{token = {same}}}\nbob = {{token = {same}}}\ncat = {{token = "{BOB}"}}
dan = {{unix = true, toke = 1}}\neve = {{}}\n"f g" = {{token = {hash_of(EVE)}}}\nhal = "{EVE}"\nida = {{unix = "nobody"}}
jon = {{unix = "ana", may = ["load-9*", "tag:small", "2 of load-*"]}}\nkim = {{unix = "ana", may = "scope"}}
[groups.students]\npeople = ["zoe"]\nmay = ["scop"]\n[groups.others]\npeople = ["ana"]\n"""
        found = self.faults(text)
        for key, what in (
            ("people.bob.token", "ana has the same one"), ("people.cat.token", "this is no hash of a token"), ("people.dan.toke", "no such key"),
            ("people.dan.unix", "a user of this machine"), ("people.eve", "nobody could come as eve"), ("people.f g", "is no name"),
            ("people.hal", "a table is wanted"), ("people.ida.unix", "no single user"), ("people.jon.may", "no instrument is like load-9*"),
            ("people.jon.may", "small is no tag"), ("people.jon.may", "2 of load-*"), ("people.kim.may", "a list of words is wanted"),
            ("people.kim.unix", "jon has the same one"), ("operators", "zoe is none of the people: there are ana"),
            ("groups.students.people", "zoe is none of the people"), ("groups.students.may", "did you mean scope?"), ("groups.others", "a table of both"),
        ):  # fmt: skip
            self.assertTrue(any(it.startswith(f"{key}: ") and what in it for it in found), (key, what, found))
        self.assertFalse([it for it in found if BOB in it or EVE in it])

    def test_the_word_token(self) -> None:
        """What it writes is the token, and the line that it says lets in who has it."""
        token, line = io.StringIO(), io.StringIO()
        with contextlib.redirect_stdout(token), contextlib.redirect_stderr(line):
            self.assertEqual(main(["token", "ana.b"]), 0)
        its = bay_of(f"{BAY}[people]\n{line.getvalue()}").people
        self.assertRegex(token.getvalue(), r"^[0-9a-f]{64}\n$")
        self.assertEqual(its.with_token(digest_of(token.getvalue().strip())), "ana.b")
        self.assertNotIn(token.getvalue().strip(), line.getvalue())
        with contextlib.redirect_stderr(io.StringIO()), contextlib.redirect_stdout(io.StringIO()) as said:
            self.assertEqual((main(["token", "a b"]), said.getvalue()), (2, ""))
        with contextlib.redirect_stderr(io.StringIO()) as said:
            self.assertEqual(main(["token", ""]), 2)
            self.assertRegex(said.getvalue(), "^labrun-broker: an empty name is no name: ")

    def test_another_file(self) -> None:
        """What changes is told, and no hash."""
        before, after = bay_of(PEOPLE).people, bay_of(WITHOUT_HIS_OLD.replace("dan = ", "fay = ").replace('"dan"', '"fay"').replace('["ana"]', '["bob"]')).people
        self.assertEqual(list(people.changes(before, after)), ["person fay: new", "person bob: a token is taken out", "person dan: taken out", "operators: bob, instead of ana"])
        after = bay_of(PEOPLE.replace('may = ["load-*"]', f'unix = "ben", may = ["scope"]').replace(hash_of(BOB), hash_of(EVE))).people
        told = ["person bob: a token is taken out", "person bob: a token is new", "person bob: is ben at the socket, instead of nobody"]
        self.assertEqual(list(people.changes(before, after)), [*told, "person bob: may ask for scope supply, instead of load-* supply (for whoever asks from now on)"])


class Rights(OnQuiet):
    async def test_who_may_ask_for_what(self) -> None:
        keeping, owner = await self.keeping(self.folder(), PEOPLE), Owner()
        held = await keeping.hold(Wish(("load-1", "supply"), person="bob", by="bob@bench-3 4711 sh"), owner)
        self.assertEqual((held.by, how(keeping, "guest-1")["by"]), ("bob: bob@bench-3 4711 sh",) * 2)
        for wish, why in (
            (Wish(("scope",), person="bob"), "bob may not have scope; operators: ana"),
            (Wish(("scope",), station="board", person="bob"), "bob may not have scope; operators: ana"),
            (Wish(("sco*",), person="bob"), "bob may not have sco*; operators: ana"),
            (Wish(("tag:precise", "load-2"), person="dan"), "dan may not have load-2; operators: ana"),
            (Wish(("load-1",), station="board", person="ana"), "board may not use load-1: it may use scope, supply"),
            (Wish(("scope",), person="zoe"), "zoe may not have scope; operators: ana"),
            (Wish(("scope",)), "nobody may not have scope; operators: ana"),
        ):
            with self.subTest(why):
                with self.assertRaises(labrun.MayNotUse) as caught:
                    await keeping.hold(wish, owner)
                self.assertEqual(str(caught.exception), why)
        # (which there are is said of the whole bay, and not of what bob may have)
        for words, why in (
            (("laser-*",), "no instrument is like laser-*: there are scope, supply, load-1, load-2"),
            (("9 of *",), "9 of * are wanted; there are 4: scope, supply, load-1, load-2"),
        ):
            with self.subTest(why), self.assertRaises(NoInstrument) as none:
                await keeping.hold(Wish(words, person="bob"), owner)
            self.assertEqual(str(none.exception), why)
        self.assertEqual((await keeping.hold(Wish(("tag:precise",), person="cat", by="cat"), owner)).instruments, ("scope",))
        # (of its words only what is for cat)
        with self.assertRaisesRegex(labrun_broker.TimeoutError, "load-1 has been held by guest-1 for .* \\(bob: bob@bench-3 4711 sh\\)"):
            await keeping.hold(Wish(("load-*",), person="cat", timeout=0.05), owner)
        self.assertEqual((how(keeping, "guest-2")["by"], (await keeping.hold(Wish(("load-2",), person="ana"), owner)).by), ("cat", "ana"))

    async def test_who_is_told_how_to_enable(self) -> None:
        """The command is for whoever may give it; everybody else is told whom to ask, also who waits as it goes out of order."""
        command, ask = "once it is mended: labrun-broker enable load-1", "once it is mended, ask an operator to enable it: ana"
        nobody = "nobody may enable it: there are no operators"
        two = 'operators = ["ana", "dan"]'
        for bay, its in (
            (PEOPLE, {"ana": command, "bob": ask}),
            (PEOPLE.replace('operators = ["ana"]', two), {"ana": command, "bob": f"{ask}, dan"}),
            (PEOPLE.replace('operators = ["ana"]', ""), {"ana": nobody, "bob": nobody}),
            (BAY, {"": command}),
        ):
            keeping = Keeping(bay_of(bay))
            await keeping.open()
            self.addAsyncCleanup(keeping.close)
            await keeping.hold(Wish(("load-1",), person=next(iter(its))), Owner())
            waits = {who: asyncio.create_task(keeping.hold(Wish(("load-1",), person=who), Owner())) for who in its}
            await asyncio.sleep(0.02)
            await disable(keeping, "load-1", "no fuse", "eve")
            for who, told in its.items():
                text = rf"load-1 has been out of order for \d+\.?\d* s: no fuse \(says eve; {re.escape(told)}\)$"
                with self.subTest(bay=bay, who=who):
                    with self.assertRaisesRegex(OutOfOrder, text):
                        await waits[who]
                    with self.assertRaisesRegex(OutOfOrder, text):
                        await keeping.hold(Wish(("load-1",), person=who), Owner())
                    its_status = {it["name"]: it["to_enable"] for it in keeping.status(who)["instruments"]}
                    self.assertEqual(its_status, {"scope": "", "supply": "", "load-1": told, "load-2": ""})
                    said = "\n".join(lines_of(keeping.status(who)))
                    self.assertRegex(said, rf"\nload-1 has been out of order for \d+ s: no fuse \(says eve; {re.escape(told)}\)\n")

    async def test_another_s_session(self) -> None:
        """Only who it is of comes with its ticket, and ends it; or an operator. So it is over a restart."""
        folder, owner = self.folder(), Owner()
        keeping = await self.keeping(folder, PEOPLE)
        await keeping.hold(Wish(("load-1",), person="bob", ticket=TICKET, by="ana"), owner)
        for _ in range(2):
            with self.assertRaisesRegex(NotAllowed, "cat may not come with this ticket: it is of a session of bob; operators: ana"):
                await keeping.hold(Wish(ticket=TICKET, comes_back=True, person="cat"), owner)
            for who, name in (("cat", "cat"), ("", "nobody")):
                with self.assertRaises(NotAllowed) as caught:
                    await keeping.release("guest-1", "bob", person=who)
                self.assertEqual(str(caught.exception), f"{name} may not end the session of guest-1, which is of bob; operators: ana")
            self.assertEqual((await keeping.hold(Wish(ticket=TICKET, comes_back=True, person="bob"), owner)).by, "bob: ana")
            await keeping.close()
            keeping = await self.keeping(folder, PEOPLE)
        await keeping.release("guest-1", "bob@bench-3", person="bob")
        self.assertIn("by bob: bob@bench-3", [it["text"] for it in keeping.history if it["what"] == "taken"])
        held = await keeping.hold(Wish(("load-1",), person="bob"), owner)
        await keeping.release(held.name, "", person="ana")
        self.assertEqual([it["text"] for it in keeping.history if it["what"] == "taken"][-1], "by ana")
        # (the journal says it, too, and not only what the client says of itself)
        await keeping.close()
        os.remove(f"{folder}/records.jsonl")
        keeping = await self.keeping(folder, PEOPLE)
        texts = [it["text"] for it in keeping.history if it["what"] == "taken"]
        self.assertEqual(texts, ["by bob: bob@bench-3, as the journal has it", "by ana, as the journal has it"])

    async def test_people_come_later(self) -> None:
        """What was held before is of whoever has its ticket."""
        keeping, owner = await self.keeping(self.folder(), BAY), Owner()
        await keeping.hold(Wish(("load-1",), ticket=TICKET, by="ana: sh"), owner)
        await apply(keeping, PEOPLE, "eve", False)
        with self.assertRaisesRegex(NotAllowed, "which is of nobody in particular"):
            await keeping.release("guest-1", "", person="bob")
        held = await keeping.hold(Wish(ticket=TICKET, comes_back=True, person="bob"), owner)
        self.assertEqual((held.person, held.by), ("bob", "bob: ana: sh"))


class Doors(OnQuiet):
    async def entrance(self, bay: str, token: Optional[str] = None, seen: Optional[str] = None) -> Entrance:
        return Entrance(await self.keeping(self.folder(), bay), () if token is None else (token,), seen)

    def why(self, entrance: Entrance, *given: Any, **more: Any) -> str:
        with self.assertRaises(NotLetIn) as caught:
            entrance.caller(*given, **more)
        return str(caught.exception)

    async def test_who_comes(self) -> None:
        entrance = await self.entrance(PEOPLE, "t" * 64)
        uid = os.getuid()
        self.assertEqual(entrance.caller(f"Bearer {ANA}", False).person, "ana")
        self.assertEqual([entrance.caller(f"Bearer {it}", False).person for it in (BOB, BOBS_NEW)], ["bob", "bob"])
        self.assertEqual((entrance.caller("", True, uid).person, entrance.caller(f"Bearer {ANA}", True, uid).person), ("cat", "ana"))
        # who only looks; but not from elsewhere
        self.assertEqual([entrance.caller("", True, it, looks=True).person for it in (None, uid + 1, uid)], ["", "", "cat"])
        ask = "give the file of your token by --token-file, or by LABRUN_BROKER_TOKEN_FILE; operators: ana"
        self.assertEqual(self.why(entrance, "", False, looks=True), f"say who you are: {ask}")
        self.assertEqual((self.why(entrance, "", True), self.why(entrance, "", False, uid)), (f"say who you are: {ask}",) * 2)
        self.assertRegex(self.why(entrance, "", True, uid + 1), rf"^the user .*{uid + 1}.* of this machine is none of the bay's people: {ask}$")
        # by HTTP nobody has that option but labrun-hold, which comes by a socket
        send = "send your token as `Authorization: Bearer TOKEN`"
        self.assertEqual(self.why(entrance, "", False, by_http=True), f"say who you are: {send}; operators: ana")
        self.assertEqual(self.why(entrance, BOB, False, by_http=True), "a token is sent as `Authorization: Bearer TOKEN`; operators: ana")
        why = self.why(entrance, "", True, uid + 1, by_http=True)
        self.assertRegex(why, f"none of the bay's people: give labrun-hold the file of your token by --token-file, or {send}; operators: ana$")
        # a token that isn't known is no word of the user's; nor is that of the bay, once it names people
        for given in (f"Bearer {EVE}", f"Bearer {'t' * 64}", "Bearer ", BOB, f"Bearer {digest_of(ANA)}"):
            for is_socket in (False, True):
                self.assertEqual(self.why(entrance, given, is_socket, uid), "this is nobody's token, or not any more; operators: ana")
        self.assertIn("the token of --token-file lets nobody in", entrance.complaints()[0])
        for given in (f"Bearer {ANA}", ""):
            self.assertEqual((await self.entrance(BAY)).caller(given, False).person, "")
        without = await self.entrance(BAY, "t" * 64)
        self.assertEqual((without.caller(f"Bearer {'t' * 64}", False).person, self.why(without, f"Bearer {ANA}", False)), ("", "this isn't its token"))

    async def test_who_is_here(self) -> None:
        """Each is cut off the moment that the file has it so; others are not."""
        entrance = await self.entrance(PEOPLE)
        keeping, said, ends = entrance.keeping, list[str](), dict[str, str]()
        keeping.says = said.append

        async def comes(token: str) -> None:
            try:
                with entrance.present(entrance.caller(f"Bearer {token}", False)):
                    await asyncio.sleep(10 * LIMIT)
            except NotLetIn as fault:
                ends[token] = str(fault)

        tasks = [asyncio.create_task(comes(it)) for it in (ANA, BOB, BOBS_NEW)]
        await asyncio.sleep(0.01)
        await apply(keeping, WITHOUT_HIS_OLD, "ana", False)
        await asyncio.wait({tasks[1]}, timeout=LIMIT)
        why = "this is nobody's token, or not any more; operators: ana"
        self.assertEqual((ends, [it.done() for it in tasks]), ({BOB: why}, [False, True, False]))
        await apply(keeping, WITHOUT_BOB, "ana", False)
        await asyncio.wait({tasks[2]}, timeout=LIMIT)
        self.assertEqual((ends, [it.done() for it in tasks]), ({BOB: why, BOBS_NEW: why}, [False, True, True]))
        self.assertEqual([it for it in said if "isn't let in" in it], ["bob isn't let in any more: 1 connection is closed"] * 2)
        tasks[0].cancel()
        with self.assertRaises(asyncio.CancelledError):
            await tasks[0]

    async def test_nobody_is_left(self) -> None:
        """Without people and a token other machines would all be let in."""
        at = "0.0.0.0:7443"
        with self.assertRaisesRegex(BadAddress, "is seen by other machines"):
            Door((at,), "certificate", "key").check()
        with self.assertRaisesRegex(BadAddress, "is seen by other machines: that takes a certificate, --tls-certificate FILE --tls-key FILE$"):
            Door((at,), has_people=True).check()
        door = Door((at,), "certificate", "key", has_people=True)
        door.check()
        entrance = await self.entrance(PEOPLE, None, door.seen_without_token(Door(())))
        with self.assertRaisesRegex(CantChange, f"other machines see {at}, and without \\[people\\]"):
            await apply(entrance.keeping, BAY, "ana", False)
        self.assertTrue(entrance.keeping.bay.people)
        self.assertEqual(Door((at,), token_file="token").seen_without_token(door), None)

    async def test_a_user_of_two(self) -> None:
        its = bay_of(f'{BAY}[people]\nana = {{unix = 0}}\nbob = {{unix = "root"}}\ncat = {{unix = "no-such-user"}}\n').people
        users = Users(its)
        self.assertEqual((users.person(its, 0), len(users.complaints)), (None, 2))
        self.assertIn("people.cat.unix: this machine has no user no-such-user", users.complaints)


HTTP = ("--http", "unix:FOLDER/bay.sock.http")
# a command that minds SIGTERM in its own way
SAYS_THREE = "trap 'exit 3' TERM; echo holds $LABRUN_HELD; while :; do sleep 0.1; done"


class OnPeople(OnBroker):
    def at(self, bay: str = PEOPLE, *words: str) -> Broker:
        broker = self.broker(bay, *words)
        for name, token in (("ana", ANA), ("bob", BOB), ("new", BOBS_NEW), ("eve", EVE)):
            with open(f"{broker.folder}/{name}", "w", encoding="ascii") as file:
                file.write(f"{token}\n")
        return broker

    def by(self, broker: Broker, name: str) -> labrun_broker.Lab:
        lab = labrun_broker.connect(broker.address, token_file=f"{broker.folder}/{name}", by="tester")
        self.addCleanup(lab.close, lets_go=False)
        return lab

    def applied(self, broker: Broker, bay: str) -> None:
        self.by(broker, "ana").apply(bay)


class Brokers(OnPeople):
    def test_the_socket(self) -> None:
        """Whoever connects is whose process it is, by the kernel; with a token, whose that is."""
        broker = self.at()
        ran = broker.ran("hold", "scope", "--by", "ana", "--", *broker_status(broker))
        row = next(it for it in json.loads(ran.stdout)["stations"] if it["state"] == "holding")
        self.assertEqual((row["by"], row["instruments"]), ("cat: ana", ["scope"]))
        ran = broker.ran("hold", "supply", "--", "true")
        self.assertEqual((ran.returncode, ran.stderr), (77, "labrun-broker: cat may not have supply; operators: ana\n"))
        for words, does in ((("disable", "scope"), "disable scope"), (("enable", "scope"), "enable scope"), (("bay", "apply", f"{broker.folder}/bay.toml"), "change the bay")):
            ran = broker.ran(*words)
            self.assertEqual((ran.returncode, ran.stderr), (77, f"labrun-broker: cat may not {does}; operators: ana\n"))
        token = ("--token-file", f"{broker.folder}/ana")
        self.assertEqual(broker.ran("disable", "scope", "no trigger", *token).returncode, 0)
        out = r"scope has been out of order for \d+ s: no trigger \(says ana: .*@.*; "
        # (of a shell's user, of an operator, and of whoever only looks)
        for words, told in (((), "once it is mended, ask an operator to enable it: ana"), (token, "once it is mended: labrun-broker enable scope")):
            self.assertRegex(broker.ran("status", *words).stdout, rf"\n{out}{told}\)\n")
        self.assertRegex(broker.ran("hold", "scope", "--", "true").stderr, rf"{out}once it is mended, ask an operator to enable it: ana\)\n$")
        ran = broker.ran("hold", "supply", "--by", "night", *token, "--", *broker_status(broker))
        self.assertIn("ana: night", ran.stdout)
        with quick.Quick(f"{broker.folder}/bay.sock", quick.Wish(("load-1",), (), "", "", None), None, self.fail, lambda: None, ANA) as held:
            self.assertIn('"by": "ana"', broker.ran("status", "--json").stdout)
            held.release(None)
        ran = broker.ran("hold", "supply", "--token-file", f"{broker.folder}/eve", "--", "true")
        self.assertEqual(ran.returncode, 69)
        self.assertIn("doesn't let this client in: this is nobody's token, or not any more; operators: ana", ran.stderr)
        with self.by(broker, "bob") as lab, lab.hold("load-1"):
            ran = broker.ran("release", "guest-1")
            self.assertEqual((ran.returncode, ran.stderr), (77, "labrun-broker: cat may not end the session of guest-1, which is of bob; operators: ana\n"))
        # gRPC's own socket is behind the one that tells who comes
        with grpc.insecure_channel(f"{broker.address}.in") as channel, self.assertRaises(grpc.RpcError) as caught:
            methods_of(channel)["Status"](pb.StatusWish())
        self.assertIn("the broker's own", str(caught.exception.details()))
        self.assertEqual((os.stat(f"{broker.folder}/bay.sock").st_mode & 0o777, os.stat(f"{broker.folder}/bay.sock.in").st_mode & 0o777), (0o660, 0o600))
        self.assertEqual(broker.end(), 0)
        self.assertIn("labrun-broker: a client of the Unix socket isn't let in, and is told: this is nobody's token, or not any more; operators: ana\n", broker.said)
        self.assertFalse([it for it in os.listdir(broker.folder) if ".sock" in it])

    def test_who_has_gone_already(self) -> None:
        """As a client that gave up while the broker was stopped: it didn't come to the broker's own socket."""
        fronts, context = Fronts(), mock.Mock()
        context.invocation_metadata.return_value = ()
        service = Service(mock.Mock(), mock.Mock(), fronts)
        for peer, why in ((f"unix-abstract:labrun-{fronts._secret}-7", "its connection is over"), ("unix:", "this socket is the broker's own")):
            context.peer.return_value = peer
            with self.assertRaisesRegex(NotLetIn, f"^{why}$"):
                service._caller(context, False)

    def test_one_that_listens_already(self) -> None:
        """Another is told of the socket that people know, also while the first one ends, and only its own is left."""
        broker = self.at()
        for ends in (False, True):
            if ends:
                os.unlink(f"{broker.folder}/bay.sock")
            ran = broker.ran("serve", f"{broker.folder}/bay.toml", "--listen", broker.address)
            self.assertEqual((ran.returncode, ran.stderr), (78, f"labrun-broker: {broker.address}: another broker listens there\n"))

    def test_a_user_who_is_nobody(self) -> None:
        """May look, and nothing else."""
        broker = self.at(PEOPLE.replace(f"unix = {os.getuid()}", "unix = 4242"))
        self.assertEqual(broker.ran("status").returncode, 0)
        ran = broker.ran("hold", "scope", "--", "true")
        self.assertEqual(ran.returncode, 69)
        self.assertRegex(ran.stderr, r"doesn't let this client in: the user .* of this machine is none of the bay's people: give the file of your token by")
        self.assertNotIn("may hold", ran.stderr)
        environment = {**os.environ, "LABRUN_BROKER": broker.address, "LABRUN_BROKER_TOKEN_FILE": f"{broker.folder}/bob"}
        words = [sys.executable, "-c", "import labrun_broker\nwith labrun_broker.connect() as lab, lab.hold('load-1') as held: print(held.instruments)"]
        self.assertEqual(subprocess.run(words, env=environment, capture_output=True, text=True).stdout, "('load-1',)\n")

    def test_taken_out(self) -> None:
        """His stream is closed at once: what he holds is gone, what he waits for isn't waited for, and he is told why. Others go on."""
        broker = self.at()
        ana, bob = self.by(broker, "ana"), self.by(broker, "bob")
        told, waits = list[Any](), list[Any]()
        held, hers = bob.hold("load-1"), ana.hold("load-2")
        held.acquire()
        hers.acquire()
        held.on_taken = told.append

        def waiting() -> None:
            try:
                bob.hold("load-2").acquire()
            except labrun.LabrunError as fault:
                waits.append(fault)

        thread = self.enterContext(running(waiting))
        until(lambda: any(it["state"] == "waiting" for it in ana.status()["stations"]), "he waits")
        self.applied(broker, WITHOUT_BOB)
        thread.join(LIMIT)
        until(lambda: told, "he is told")
        for fault in (*told, *waits):
            self.assertIsInstance(fault, Unreachable)
            self.assertIn("doesn't let this client in: this is nobody's token, or not any more; operators: ana", str(fault))
        self.assertEqual((len(waits), held.held, hers.held), (1, False, True))
        until(lambda: station(ana, held.station)["state"] == "gone", "it is gone")
        row = station(ana, held.station)
        self.assertEqual((row["state"], row["by"], row["instruments"]), ("gone", "bob: tester", ["load-1"]))
        # (who waits for it is told who may end it)
        see = f"see to load-1, and then run labrun-broker release {held.station} --session {held.number}; operators: ana"
        with self.assertRaisesRegex(labrun.TimeoutError, see):
            ana.hold("load-1", timeout=0.1).acquire()
        self.assertFalse([it for it in ana.status()["stations"] if it["state"] == "waiting"])
        hers.note("on")
        with self.assertRaisesRegex(Unreachable, "nobody's token"):
            self.by(broker, "new").hold("load-2").acquire()
        self.assertEqual(ana.release(held.station), ("load-1",))
        with self.assertRaisesRegex(labrun_broker.NotAllowed, "nobody may not|cat may not"):
            broker.lab().release(hers.station)

    def test_taken_out_while_a_command_runs(self) -> None:
        """The command's status is said, and how long what he holds is kept. Nobody took the session away."""
        for gone, until_when in (("keep", "it is released by {}"), ("release", 'the broker releases it (gone = "release"), or {} does')):
            with self.subTest(gone):
                port, says = free_port(), f'gone = "{gone}"\n'
                broker = self.at(says + PEOPLE, "--listen", f"127.0.0.1:{port}")
                its = []
                for address, instrument in ((broker.address, "load-1"), (f"127.0.0.1:{port}", "load-2")):
                    words = ("hold", instrument, "--broker", address, "--token-file", f"{broker.folder}/bob", "--", "sh", "-c", SAYS_THREE)
                    its.append((broker.started(*words), instrument))
                for one, instrument in its:
                    assert one.stdout is not None
                    self.assertEqual(one.stdout.readline(), f"holds {instrument}\n")
                # (the socket's is that of LABRUN_BROKER)
                at = {"load-1": "", "load-2": f" --broker 127.0.0.1:{port}"}
                rows = [it for it in self.by(broker, "ana").status()["stations"] if it["instruments"]]
                by = {it["instruments"][0]: f"`labrun-broker release {it['name']} --session {it['session']}{at[it['instruments'][0]]}`" for it in rows}
                self.applied(broker, says + WITHOUT_BOB)
                for one, instrument in its:
                    said = one.communicate(timeout=LIMIT)[1]
                    stays = f"the session may go on holding, as `labrun-broker status{at[instrument]}` says"
                    kept = f"labrun-broker: {stays}, until {until_when.format(by[instrument])}\n"
                    why = r"labrun-broker: the broker at .* doesn't let this client in: this is nobody's token, or not any more; operators: ana"
                    self.assertRegex(said, rf"{why}; the command is being ended\n(.*\n)*labrun-broker: the command ran, and ended with status 3, but:\n{re.escape(kept)}$")
                    self.assertEqual(said.count("doesn't let this client in"), 1)
                    self.assertEqual(one.returncode, 69, said)
                rows = self.by(broker, "ana").status()["stations"]
                self.assertEqual(sorted((it["state"], *it["instruments"]) for it in rows if it["state"] != "idle"), [("gone", "load-1"), ("gone", "load-2")])

    def test_the_first_people(self) -> None:
        """Whoever is here without a name is cut off when the bay names people."""
        broker = self.at(BAY)
        lab = labrun_broker.connect(broker.address)
        self.addCleanup(lab.close, lets_go=False)
        held = lab.hold("scope")
        held.acquire()
        lab.apply(PEOPLE.replace(f"unix = {os.getuid()}", "unix = 4242"))
        until(lambda: not held.held, "it is cut off")
        until(lambda: station(lab, held.station)["state"] == "gone", "it is gone")


@unittest.skipUnless(find_spec("aiohttp"), "there is no aiohttp")
class ByHttp(OnPeople):
    def test_requests(self) -> None:
        broker = self.at(PEOPLE.replace(f"unix = {os.getuid()}", "unix = 4242"), *HTTP)
        at = f"{broker.folder}/bay.sock.http"
        nobody, his, hers, new = Asking(at), Asking(at, BOB), Asking(at, ANA), Asking(at, BOBS_NEW)
        self.assertEqual([nobody.ask("GET", path)[0] for path in ("/v1/status", "/v1/openapi.json", "/v1/sessions/x")], [200, 200, 401])
        ticket = his.holds("load-1", by="me")
        self.assertEqual(nobody.status("guest-1")["by"], "bob: me")
        self.assertEqual(his.asks("scope"), (403, {"kind": "MayNotUse", "text": "bob may not have scope; operators: ana"}))
        self.by(broker, "ana").disable("supply")
        said = [next(it["to_enable"] for it in one.ask("GET", "/v1/status")[1]["instruments"] if it["name"] == "supply") for one in (nobody, his, hers)]
        self.assertEqual(said, [*["once it is mended, ask an operator to enable it: ana"] * 2, "once it is mended: labrun-broker enable supply"])
        status, told = hers.of(ticket, "/ping", "POST")
        self.assertEqual((status, told["kind"]), (403, "NotAllowed"))
        self.assertEqual(hers.asks("load-2", ticket=ticket)[0], 403)
        status, told = his.ask("POST", "/v1/release", {"station": "guest-1", "session": 7})
        self.assertEqual((status, told["kind"]), (409, "NotHeld"))
        self.assertEqual(new.of(ticket, "/ping", "POST")[0], 200)
        # his old token is taken out: his next ping with it is refused, and with the new one it goes on
        self.applied(broker, WITHOUT_HIS_OLD)
        self.assertEqual((his.of(ticket, "/ping", "POST")[0], new.of(ticket, "/ping", "POST")[0]), (401, 200))
        answers, waiting = list[Any](), new.asks("load-1", by="waits")[1]["ticket"]
        thread = self.enterContext(running(lambda: answers.append(new.of(ticket, wait=60, **{"while": "holding"}))))
        self.applied(broker, WITHOUT_BOB)
        thread.join(LIMIT)
        self.assertEqual((answers[0][0], answers[0][1]["kind"]), (401, "Unreachable"))
        self.assertEqual((nobody.status("guest-1")["state"], new.of(ticket, "/ping", "POST")[0], new.of(waiting)[0]), ("gone", 401, 401))
        until(lambda: not [it for it in nobody.ask("GET", "/v1/status")[1]["stations"] if it["state"] == "waiting"], "nobody waits")
        self.assertEqual(hers.ask("POST", "/v1/release", {"station": "guest-1"})[0], 200)


    def test_the_first_people(self) -> None:
        """Users of the machine are known by HTTP at once, and at the broker's own socket once it begins again."""
        broker = self.at(BAY, *HTTP)
        with broker.lab() as lab:
            lab.apply(PEOPLE)
        Asking(f"{broker.folder}/bay.sock.http").holds("scope")
        with open(f"{broker.folder}/bay.toml", "w", encoding="utf-8") as file:
            file.write(PEOPLE)
        ran = broker.ran("hold", "load-1", "--", "true")
        self.assertEqual((ran.returncode, "say who you are" in ran.stderr), (69, True), ran.stderr)
        broker.end()
        broker.begin()
        self.assertEqual(broker.ran("hold", "load-1", "--", "true").returncode, 0)


def broker_status(broker: Broker) -> list[str]:
    return [*broker.command, "status", "--json"]


@contextlib.contextmanager
def running(work: Any) -> Any:
    thread = threading.Thread(target=work)
    thread.start()
    yield thread
    thread.join(LIMIT)


if __name__ == "__main__":
    unittest.main()
