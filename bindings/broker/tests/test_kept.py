"""What becomes of the session of a client that is gone, by its instruments and its station."""

import asyncio
import itertools
import json
import math
import signal
import tempfile
import unittest
from dataclasses import replace
from typing import Any, Optional
from unittest import mock

from labrun import JournalError
from labrun_broker import applying
from labrun_broker.applying import apply
from labrun_broker.bay import BayFault, bay_of
from labrun_broker.keeping import Keeping
from labrun_broker.kept import Gone, Told
from labrun_broker.places import Places, places_of
from labrun_broker.standing import Standings
from labrun_broker.wishes import Ended, Wish
from tests.brokers import BAY, LIMIT, OnBroker, until
from tests.test_keeping import TICKET, OnQuiet, Owner, eventually, how

# of a bay that keeps: both loads, and whoever is the radio, let go
MIXED = BAY + 'gone = "keep"\n[instrument_gone]\nload-1 = "release"\nload-2 = "release"\n[station_gone]\nradio = "release"\n'

# of a bay that keeps all else
LOADS = BAY + '[instrument_gone]\nload-1 = "release"\nload-2 = "release"\n'
KEPT = "who holds now may have been told that a session whose client is gone is kept until somebody releases it. That goes for those sessions until they have ended"


class Words(unittest.TestCase):
    def test_whose_word_counts(self) -> None:
        """Of the own words of a session's station and instruments `keep` is enough; an instrument without one has its station's, or the bay's."""
        bay = Gone("keep", {"radio": "release", "board": "keep"}, {"load": "release", "oven": "keep"})
        for station, instruments, kept in (
            ("", ("scope",), True),  # as the bay
            ("", ("load",), False),
            ("", ("load", "scope"), True),
            ("radio", ("scope",), False),
            ("radio", ("scope", "load"), False),
            ("radio", ("scope", "oven"), True),
            ("board", ("load",), True),
        ):
            self.assertEqual(bay.keeps(station, instruments), kept, (station, instruments))
        other = Gone("release", {"": "keep"}, {"oven": "keep"})
        found = [other.keeps(station, its) for station, its in (("", ("scope",)), ("radio", ("scope",)), ("radio", ("scope", "oven")))]
        self.assertEqual(found, [True, False, True])

    def test_by_which_somebody_was_told(self) -> None:
        """Whose token is in its span. A part of a session over several bays goes by the words of others, too: so any count."""
        keeps, frees, load = Gone(), Gone("keep", {}, {"load": "release"}), ("", ["load"])
        before = Places(grace=None).with_words(keeps, (), {}, True)
        self.assertEqual((before.gone, before.words), ((), (Told(keeps),)))
        # (of the tokens up to 4 somebody holds by 2 and 4)
        its = replace(before, grace=200).with_words(frees, before.words, {2: False, 4: False}, False)
        self.assertEqual(its.gone, (Told(keeps, 0, 5), Told(frees, 5)))
        self.assertEqual([its.told(*load, token) for token in (2, 4, 5, 9, None)], [{True}, {True}, {False}, {False}, {True, False}])
        self.assertEqual(places_of(its.text()), its)
        # a third word, once nobody holds any more who was told by the first; or a part does
        self.assertEqual(its.with_words(keeps, its.words, {7: False}, False).gone, (Told(frees, 5, 8), Told(keeps, 8)))
        self.assertEqual(its.with_words(keeps, its.words, {7: True}, False).gone, (Told(keeps, 0, 5), Told(frees, 5, 8), Told(keeps, 8)))
        # a broker that begins tells those that hold, too, as they come back
        begun = replace(its, grace=None).with_words(keeps, its.words, {4: False, 7: False}, True)
        self.assertEqual((begun.gone, begun.told(*load, 7)), ((Told(frees, 5, 8), Told(keeps)), {True, False}))
        self.assertEqual(its.with_words(frees, its.words, {}, True).gone, (Told(frees),))

    def test_what_isnt_so_in_the_file(self) -> None:
        for more in ({"from": "2"}, {"until": True}, {"from": None}):
            text = json.dumps({"instruments": [], "stations": [], "grace": 0, "gone": [{**vars(Gone()), **more}]})
            with self.subTest(more), self.assertRaisesRegex(ValueError, "^of which tokens somebody was told"):
                places_of(text)

    def test_read(self) -> None:
        bay = bay_of(MIXED)
        self.assertEqual(bay.its_gone, Gone("keep", {"radio": "release", "": "keep"}, {"load-1": "release", "load-2": "release"}))
        self.assertEqual(bay.its_gone.told(), "keep (release: load-1, load-2, station radio)")
        for text, why in (
            (BAY + 'gone = "kept"\n', 'guests.gone: "keep" or "release" is wanted'),
            (BAY + '[station_gone]\nlamp = "keep"\n', "station_gone.lamp: there is no such station"),
            (BAY + "[station_gone]\nradio = true\n", 'station_gone.radio: "keep" or "release" is wanted'),
            (BAY + '[instrument_gone]\nlamp = "keep"\n', "instrument_gone.lamp: lamp is none of the bay's instruments"),
            (BAY + '[instrument_gone]\nscope = ""\n', 'instrument_gone.scope: "keep" or "release" is wanted'),
            ('instrument_gone = "keep"\n' + BAY, r"instrument_gone: a table is wanted: \[instrument_gone\]"),
        ):
            with self.subTest(text), self.assertRaisesRegex(BayFault, why):
                bay_of(text)


class Sessions(OnQuiet):
    async def opened(self, bay: str, folder: Optional[str] = None, grace: float = 0.2) -> Keeping:
        keeping = Keeping(bay_of(bay), folder, grace)
        await keeping.open()
        self.addAsyncCleanup(keeping.close)
        return keeping

    async def test_nobody_was_told_by_words_of_before(self) -> None:
        """Nobody held as the bay changed and changed back: the next broker releases whoever was told so since then."""
        folder, releases = self.enterContext(tempfile.TemporaryDirectory()), BAY + 'gone = "release"\n'
        keeping, owner = await self.opened(releases, folder), Owner()
        for text in (MIXED, releases):
            await apply(keeping, text, "eve", False)
        load = await keeping.hold(Wish(("load-1",)), owner)
        self.assertEqual(keeping.lease_of(load), 0.2 * 0.75)
        await keeping.close()
        again = await self.opened(releases, folder)
        self.assertEqual((again.complaints, again.grace), ([], 0.2))

    async def test_each_as_its_words_say(self) -> None:
        """Who waits is told what is to be done, or that it is released; its client has a lease only then."""
        keeping, owner = await self.opened(MIXED.replace('gone = "keep"\n', "")), Owner()
        radio = await keeping.hold(Wish(("scope",), station="radio"), owner)
        load, both = await keeping.hold(Wish(("load-1",)), owner), await keeping.hold(Wish(("load-2", "supply")), owner)
        self.assertEqual([keeping.lease_of(it) for it in (radio, load, both)], [0.2 * 0.75, 0.2 * 0.75, None])
        waits = [asyncio.create_task(keeping.hold(Wish((name,), timeout=9), owner)) for name in ("scope", "load-1", "load-2")]
        await asyncio.sleep(0.02)
        for session in (radio, load, both):
            keeping.gone(session, owner)
        texts = [Standings(keeping).why(it) for it in keeping.by_number.values() if it.state == "waiting"]
        self.assertRegex(texts[0], r"gone for \d\.\d s: its session is released once that is 0\.2 s\)$")
        self.assertRegex(texts[1], r"its session is released once that is 0\.2 s\)$")
        self.assertRegex(texts[2], rf"see to load-2, supply, and then run labrun-broker release {both.name} --session {both.number}\)$")
        self.assertEqual([it.instruments for it in await asyncio.gather(*waits[:2])], [("scope",), ("load-1",)])
        await asyncio.sleep(0.4)
        self.assertEqual((both.state, waits[2].done()), ("gone", False))
        await keeping.release(both.name, "eve")
        await waits[2]

    async def test_over_a_restart(self) -> None:
        """Those that are kept are, and since when their clients are gone is known; the others' grace begins anew."""
        folder, owner = self.folder(), Owner()
        keeping = await self.opened(MIXED, folder)
        await keeping.hold(Wish(("scope",), station="board", ticket=TICKET), owner)
        load = await keeping.hold(Wish(("load-1",), station="", ticket="the ticket of one that goes"), owner)
        self.assertEqual((load.is_kept, keeping.keeps(load)), (True, True), "guests are kept by their own word")
        await keeping.close()
        free = MIXED.replace('gone = "keep"\n', "")
        again = await self.opened(free, folder)
        await asyncio.sleep(0.5)
        self.assertEqual((how(again, "board")["state"], how(again, "guest-1")["state"]), ("gone", "gone"))
        [complaint] = again.complaints
        self.assertEqual(complaint, KEPT)
        await again.release("guest-1", "eve")
        await again.close()
        third = await self.opened(free, folder)
        back = await third.hold(Wish(ticket=TICKET, comes_back=True), owner)
        await third.let_go(back, owner)
        await third.close()
        last = await self.opened(free, folder)
        self.assertEqual(last.complaints, [])
        gone = await last.hold(Wish(("load-1",), ticket=TICKET), owner)
        kept = await last.hold(Wish(("supply",), ticket="the ticket of one that is kept"), owner)
        await last.close()
        last = await self.opened(free, folder)
        await asyncio.sleep(0.5)
        self.assertEqual((how(last, gone.name)["state"], how(last, kept.name)["state"], last.complaints), ("idle", "gone", []))
        with self.assertRaisesRegex(Ended, "its client was gone for 0.2 s"):
            await last.hold(Wish(ticket=TICKET, comes_back=True), owner)

    async def test_applied(self) -> None:
        """Other words count for who comes to hold from then on, also in a bay that kept all before; and a restart keeps what was told."""
        folder, owner = self.folder(), Owner()
        for before, after in ((BAY, BAY + '[instrument_gone]\nscope = "release"\n'), ('gone = "release"\n' + BAY, 'gone = "release"\n' + BAY + '[instrument_gone]\nscope = "keep"\n')):
            with self.subTest(before):
                folder = self.folder()
                keeping = await self.opened(before, folder)
                first = await keeping.hold(Wish(("scope",), station="radio", ticket=TICKET), owner)
                was = first.is_kept
                new, old = ("release", "what it is without a line") if was else ("keep", "what it is without a line")
                self.assertEqual(await apply(keeping, after, "eve", False), [f"instrument_gone.scope (for whoever comes to hold from now on): {new}, instead of {old}"])
                keeping.gone(first, owner)
                await asyncio.sleep(0.4)
                self.assertEqual((first.state, was), ("gone" if was else "over", was))
                if was:
                    await keeping.release("radio", "eve")
                second = await keeping.hold(Wish(("scope",), station="board", ticket="the ticket of the second"), owner)
                keeping.gone(second, owner)
                await asyncio.sleep(0.4)
                self.assertEqual(second.state, "over" if was else "gone")
                with open(f"{folder}/bay.json", encoding="utf-8") as file:
                    # (the first one, of the token 1, held as the bay changed)
                    self.assertIn({"bay": "keep" if was else "release", "stations": {}, "instruments": {"scope": new}, "from": 2}, json.load(file)["gone"])
                await keeping.close()
                again = await self.opened(before, folder)
                await asyncio.sleep(0.4)
                self.assertEqual((how(again, "board")["state"], again.complaints), ("idle", []) if was else ("gone", [KEPT]))
                self.assertEqual(again.grace, math.inf if was else 0.2)
                await again.close()

    async def both(self, folder: str) -> Keeping:
        """A bay that kept all, and then not the loads: guest-1 with load-1 came to hold before, and the board with the supply; guest-2 with load-2
        since."""
        keeping, owner = await self.opened(BAY, folder), Owner()
        first = [await keeping.hold(Wish(("supply",), station="board"), owner), await keeping.hold(Wish(("load-1",)), owner)]
        await apply(keeping, LOADS, "eve", False)
        second = await keeping.hold(Wish(("load-2",)), owner)
        self.assertEqual([keeping.lease_of(it) for it in (*first, second)], [None, None, 0.2 * 0.75])
        await keeping.close()
        return keeping

    async def test_a_change_and_then_a_restart(self) -> None:
        """Who came to hold before the change is kept, as he was told; who did since then isn't, and of him alone nothing is said."""
        folder, owner = self.folder(), Owner()
        await self.both(folder)
        for _ in range(2):
            again = await self.opened(LOADS, folder)
            self.assertEqual((again.complaints, again.grace), ([KEPT], 0.2))
            await eventually(lambda: how(again, "load-2")["holder"] is None, "load-2 is let go")
            third = await again.hold(Wish(("load-2",)), owner)
            self.assertEqual(again.lease_of(third), 0.2 * 0.75)
            await asyncio.sleep(0.4)
            self.assertEqual([how(again, name)["state"] for name in ("guest-1", "board")], ["gone", "gone"])
            await again.close()
        again = await self.opened(LOADS, folder)
        await again.release("guest-1", "eve")
        await again.close()
        again = await self.opened(LOADS, folder)
        await eventually(lambda: how(again, "load-2")["holder"] is None, "load-2 is let go")
        self.assertEqual((again.complaints, how(again, "board")["state"]), ([], "gone"))

    async def test_where_it_isnt_known(self) -> None:
        """An older broker's file says of no word whose it was: the careful one counts. So it does if the broker couldn't write it down."""
        one, other = self.folder(), self.folder()
        await self.both(one)
        with open(f"{one}/bay.json", encoding="utf-8") as file:
            its = json.load(file)
        for it in its["gone"]:
            it.pop("from", 0), it.pop("until", 0)
        with open(f"{one}/bay.json", "w", encoding="utf-8") as file:
            json.dump(its, file)
        writes, count = applying.keeps, itertools.count()

        async def once(*given: Any) -> None:
            if next(count):
                raise JournalError("bay.json", "the disk is full")
            await writes(*given)

        with mock.patch.object(applying, "keeps", once):
            await self.both(other)
        for folder in (one, other):
            again = await self.opened(LOADS, folder)
            await asyncio.sleep(0.4)
            self.assertEqual([how(again, name)["state"] for name in ("guest-1", "guest-2", "board")], ["gone"] * 3)
            self.assertEqual(again.complaints, [KEPT])

    async def test_a_change_that_fails(self) -> None:
        """Nobody is told by its words, and so no broker goes by them."""
        folder = self.folder()
        keeping = await self.opened(LOADS, folder)
        await keeping.hold(Wish(("load-1",)), Owner())
        fails = mock.patch.object(keeping._shell.turns, "turn", side_effect=JournalError("bay.journal", "nothing has changed; try again"))
        with fails, self.assertRaisesRegex(JournalError, "nothing has changed; try again"):
            await apply(keeping, BAY, "eve", False)
        await keeping.close()
        again = await self.opened(LOADS, folder)
        await eventually(lambda: how(again, "load-1")["holder"] is None, "load-1 is let go")
        self.assertEqual(again.complaints, [])

    async def test_all_are_kept_since_a_change(self) -> None:
        """The next broker knows it, also if nobody held as the bay changed."""
        folder = self.folder()
        keeping = await self.opened(LOADS, folder)
        await apply(keeping, BAY, "eve", False)
        load = await keeping.hold(Wish(("load-1",)), Owner())
        self.assertEqual(keeping.lease_of(load), None)
        await keeping.close()
        again = await self.opened(LOADS, folder)
        await asyncio.sleep(0.4)
        self.assertEqual((how(again, "guest-1")["state"], again.complaints), ("gone", [KEPT]))


class Commands(OnBroker):
    def test_a_broker_that_is_killed_after_a_change(self) -> None:
        broker = self.broker(BAY, "--state", "FOLDER/state", "--grace", "2")
        path = f"{broker.folder}/bay.toml"
        with open(path, "w", encoding="utf-8") as file:
            file.write(LOADS)

        def is_changed() -> bool:
            # (on a busy machine the disk may not be quiet within a second)
            return broker.ran("bay", "apply", path).returncode == 0

        until(is_changed, "the change")
        holds = broker.started("hold", "load-1", "--quiet", "--", "sleep", "600")
        with broker.lab() as lab:
            until(lambda: lab.status()["instruments"][2]["holder"], "it holds")
        holds.send_signal(signal.SIGKILL)
        broker.kill()
        holds.communicate(timeout=LIMIT)
        broker.begin()
        with broker.lab() as lab:
            until(lambda: lab.status()["instruments"][2]["holder"] is None, "load-1 is let go")
        broker.end()
        self.assertNotIn("may have been told", broker.first + broker.said)

    def test_short_graces_and_the_check(self) -> None:
        broker = self.broker()
        with open(f"{broker.folder}/mixed.toml", "w", encoding="utf-8") as file:
            file.write(MIXED)
        self.assertIn("gone = keep (release: load-1, load-2, station radio)\n", broker.ran("bay", "check", f"{broker.folder}/mixed.toml").stdout)
        done = broker.ran("serve", f"{broker.folder}/mixed.toml", "--listen", "127.0.0.1:0", "--grace", "0.5")
        self.assertEqual(done.returncode, 2)
        self.assertIn("--grace 0.5: ", done.stderr)


if __name__ == "__main__":
    unittest.main()
