"""For how long a session may hold while others wait."""

import asyncio
import shutil
import threading
import time
import unittest
from typing import Any, Optional
from unittest import mock

import labrun
from labrun_broker import lasting
from labrun_broker.bay import BayFault, bay_of
from labrun_broker.errors import BadWish
from labrun_broker.keeping import Keeping
from labrun_broker.wishes import Ended, Wish
from tests.brokers import BAY, LIMIT, OnBroker, free_port, until
from tests.test_bays import LAB, NORTH, SOUTH
from tests.test_crossing import OnCrossings
from tests.test_keeping import TICKET, OnFolder, Owner

LIMITED = "limit = \"2h\"\n" + BAY + "limit = \"30min\"\n[station_limits]\nradio = 90\n"
# of a span that a test can wait for
SHORT = "limit = \"0.4s\"\n" + BAY


class Warned(Owner):
    def __init__(self) -> None:
        super().__init__()
        self.warnings: list[tuple[str, float]] = []

    def warned(self, text: str, seconds: float) -> None:
        self.warnings.append((text, seconds))


class Files(unittest.TestCase):
    def test_whose_limit(self) -> None:
        bay = bay_of(LIMITED)
        self.assertEqual((bay.limit, bay.guests_limit, bay.station_limits), (7200, 1800, {"radio": 90}))
        for station, wished, wanted in (("board", None, 7200), ("", None, 1800), ("radio", None, 90), ("board", 60.0, 60), ("radio", 100.0, 90)):
            self.assertEqual(lasting.limit_of(bay, Wish(station=station, limit=wished)), wanted, (station, wished))
        self.assertEqual([lasting.limit_of(bay_of(BAY), Wish(limit=it)) for it in (None, 5.0)], [None, 5])

    def test_faults(self) -> None:
        for text, why in (
            ("limit = true\n" + BAY, 'limit: a span is wanted, as "30min", "2h" or "3d", or so many seconds'),
            ("limit = 0\n" + BAY, "limit: a span is wanted"),
            ("limit = \"soon\"\n" + BAY, "limit: a span is wanted"),
            (BAY + "limit = -1\n", "guests.limit: a span is wanted"),
            (BAY + "[station_limits]\noven = 5\n", "station_limits.oven: there is no such station"),
        ):
            with self.subTest(text), self.assertRaisesRegex(BayFault, why):
                bay_of(text)


class Limits(OnFolder):
    async def opened(self, folder: Optional[str], bay: str = SHORT) -> Keeping:
        keeping = Keeping(bay_of(bay), folder)
        await keeping.open()
        self.addAsyncCleanup(keeping.close)
        return keeping

    async def test_taken_away(self) -> None:
        """Once it is over, and not before somebody waits; its client is warned, and then told why. Who comes back hears the same."""
        keeping, owner, other = await self.opened(self.folder()), Warned(), Owner()
        held = await keeping.hold(Wish(("scope",), station="board", ticket=TICKET, wants_warning=True), owner)
        quiet = await keeping.hold(Wish(("supply",), ticket="the ticket of one more"), silent := Warned())
        await asyncio.sleep(0.5)
        self.assertTrue(held.holds and quiet.holds, "nobody waits")
        [(text, seconds)] = owner.warnings
        # (a busy machine may say it late)
        self.assertRegex(text, "^board may hold scope for 0.4 s, which is over(:| in 0.0 s: after that) its session is taken away as soon as somebody waits for what it has$")
        self.assertEqual(silent.warnings, [])
        self.assertTrue(0 <= seconds <= 0.04 + 0.001)
        # whoever comes back, or asks by HTTP, by then is told that it is over, and not that some is left
        over = "board may hold scope for 0.4 s, which is over: its session is taken away as soon as somebody waits for what it has"
        self.assertEqual(lasting.told(keeping, held), (over, 0.0))
        new = await keeping.hold(Wish(("scope",), timeout=LIMIT), other)
        why = "by the broker, because it held for longer than its limit of 0.4 s, and somebody waits for what it had"
        self.assertEqual((new.instruments, owner.told), (("scope",), [f"board: the session with scope was taken away {why}"]))
        with self.assertRaisesRegex(Ended, "because it held for longer than its limit"):
            await keeping.hold(Wish(ticket=TICKET, comes_back=True), owner)
        self.assertEqual([it["text"] for it in keeping.history if it["what"] == "taken"], [why])

    async def test_not_before(self) -> None:
        keeping, owner = await self.opened(None, "limit = 1\n" + BAY), Owner()
        await keeping.hold(Wish(("scope",)), owner)
        begun = time.monotonic()
        await keeping.hold(Wish(("scope",), timeout=LIMIT), owner)
        self.assertGreater(time.monotonic() - begun, 0.9)

    async def test_over_a_restart(self) -> None:
        """It goes on, from when it came to hold; and who comes back late is warned at once."""
        folder, owner = self.folder(), Warned()
        keeping = await self.opened(folder, "limit = 3\n" + BAY)
        held = await keeping.hold(Wish(("scope",), ticket=TICKET), owner)
        await keeping.close()
        again = await self.opened(folder, BAY)
        with mock.patch.object(lasting, "SHARE", 1.0):
            await again.hold(Wish(ticket=TICKET, comes_back=True, wants_warning=True), owner)
            await asyncio.sleep(0.05)
        self.assertRegex(owner.warnings[0][0], "^guest-1 may hold scope for 3 s, which is over(| in [0-3].[0-9] s):")
        new = await again.hold(Wish(("scope",), timeout=LIMIT), Owner())
        self.assertGreater(new.number, held.number)
        self.assertRegex(owner.told[0], "longer than its limit of 3 s")

    async def test_one_that_is_gone(self) -> None:
        """It is kept whatever its client does, but not from its limit; also where something is made safe."""
        for more in ("", '[on_release]\nscope = "true"\n'):
            with self.subTest(more):
                keeping, owner = await self.opened(None, SHORT + more), Owner()
                held = await keeping.hold(Wish(("scope",), ticket=TICKET), owner)
                keeping.gone(held, owner)
                await asyncio.sleep(0.5)
                self.assertEqual((held.state, held.is_kept), ("gone", True))
                new = await keeping.hold(Wish(("scope",), timeout=LIMIT), Owner())
                self.assertGreater(new.number, held.number)

    async def test_who_wants_its_place(self) -> None:
        """The place of a station is what one waits for, too, and that of a guest if there is no other; also where something is made safe."""
        for more in ("", '[on_release]\nscope = "true"\n'):
            for station, guests in (("board", 4), ("", 1), ("", 2)):
                with self.subTest(more, station=station, guests=guests):
                    keeping, owner = await self.opened(None, BAY.replace("count = 4", f"count = {guests}") + more), Owner()
                    held = await keeping.hold(Wish(("scope",), station=station, ticket=TICKET, limit=0.4), owner)
                    if guests == 2:
                        other = await keeping.hold(Wish(("load-1",)), Owner())
                        self.assertEqual(other.name, "guest-2")
                    new = await keeping.hold(Wish(("supply",), station=station, timeout=LIMIT), Owner())
                    self.assertEqual((new.instruments, held.holds), (("supply",), False))
                    self.assertRegex(owner.told[0], "longer than its limit of 0.4 s")

    async def test_bad_wishes(self) -> None:
        keeping, owner = await self.opened(None), Owner()
        for limit in (0.0, -1.0, 1e9, float("nan")):
            with self.subTest(limit), self.assertRaisesRegex(BadWish, "a limit of"):
                await keeping.hold(Wish(("scope",), limit=limit), owner)


class OverBays(OnCrossings):
    """Of sessions over several bays; test_crossing_ends has a limit that the client wished."""

    async def test_the_limit_of_one_bay_counts_in_all(self) -> None:
        """Whichever bay has it, and in whichever somebody waits; and what the client wishes, or another bay has, is longer or not there."""
        short, long = 'limit = "0.4s"\n', 'limit = "1h"\n'
        for north, south, wished in ((short, "", None), ("", short, None), (short, "", 3600.0), (long, short, 7200.0)):
            for waits_for in ("scope", "oven"):
                with self.subTest(north=north, south=south, wished=wished, waits_for=waits_for):
                    bays, owner = await self.bays(LAB, north + NORTH, south + SOUTH, state=False), Owner()
                    it = await self.crosses(bays, "scope", "oven", limit=wished, owner=owner)
                    self.assertEqual(it.limit, 0.4)
                    await asyncio.sleep(0.5)
                    self.assertTrue(it.holds, "nobody waits")
                    new = await asyncio.wait_for(bays.hold(Wish((waits_for,), timeout=LIMIT), self.owner), LIMIT)
                    self.assertEqual(new.instruments, (waits_for,))
                    await self.eventually(lambda: list(self.stands(bays)) == [waits_for], "the other is let go of, too")
                    why = "by the broker, because it held for longer than its limit of 0.4 s, and somebody waits for what it had"
                    self.assertEqual(owner.told, [f"guest-1: the session with scope, oven was taken away {why}"])
                    # (each bay's records say why)
                    for home in bays.peers:
                        self.assertEqual([one["text"] for one in home.history if one["what"] == "taken"], [why])

    async def test_who_waits_before_the_limit_of_another_bay_is_over(self) -> None:
        for north, south, waits_for in (("limit = 1\n", "", "oven"), ("", "limit = 1\n", "scope")):
            with self.subTest(waits_for):
                bays = await self.bays(LAB, north + NORTH, south + SOUTH, state=False)
                begun = asyncio.get_running_loop().time()
                await self.crosses(bays, "scope", "oven")
                await asyncio.wait_for(bays.hold(Wish((waits_for,), timeout=LIMIT), self.owner), LIMIT)
                self.assertGreater(asyncio.get_running_loop().time() - begun, 0.9)

    async def test_the_limit_of_one_bay_counts_in_all_over_a_restart(self) -> None:
        for north, south, waits_for in (("limit = 1\n", "", "oven"), ("", "limit = 1\n", "scope")):
            with self.subTest(waits_for):
                bays = await self.bays(LAB, north + NORTH, south + SOUTH)
                await self.crosses(bays, "scope", "oven", ticket=TICKET)
                await bays.close()
                again = await self.bays()
                new = await asyncio.wait_for(again.hold(Wish((waits_for,), timeout=LIMIT), self.owner), LIMIT)
                self.assertEqual(new.instruments, (waits_for,))
                with self.assertRaisesRegex(Ended, "because it held for longer than its limit of 1 s"):
                    await self.crosses(again, ticket=TICKET, comes_back=True)
                await self.eventually(lambda: list(self.stands(again)) == [waits_for], "the other is let go of, too")
                await again.close()
                shutil.rmtree(self.state)

    async def test_a_limit_counts_from_when_it_was_told_over_a_restart(self) -> None:
        # (how long the disk takes would count)
        self.enterContext(mock.patch("os.fdatasync", lambda file: None))
        bays = await self.bays()
        oven = await self.holds(bays, "oven", station="heat")
        task, _ = await self.waits(bays, "south", "scope", "oven", ticket=TICKET, limit=2.0)
        await asyncio.sleep(2.2)
        begun = asyncio.get_running_loop().time()
        await bays.let_go(oven, self.owner)
        await asyncio.wait_for(task, LIMIT)
        await bays.close()
        again = await self.bays()
        await asyncio.wait_for(again.hold(Wish(("scope",), timeout=LIMIT), self.owner), LIMIT)
        self.assertGreater(asyncio.get_running_loop().time() - begun, 1.9)


class Clients(OnBroker):
    def test_a_program(self) -> None:
        broker = self.broker()
        lab, other = self.lab(broker, "board"), self.lab(broker)
        warnings, is_warned, taken = list[str](), threading.Event(), list[Any]()
        held = lab.hold("scope", limit=1.0, warns=lambda text: (warnings.append(text), is_warned.set())[0])
        held.on_taken = taken.append
        held.acquire()
        self.assertTrue(is_warned.wait(LIMIT))
        self.assertRegex(warnings[0], "^board may hold scope for 1 s, which is over(:| in 0.[01] s: after that) its session is taken away as soon as somebody waits for what it has$")
        with other.hold("scope", timeout=LIMIT):
            until(lambda: taken, "it is told")
            with self.assertRaisesRegex(labrun.TakenAway, "longer than its limit of 1 s"):
                held.release()
        self.assertEqual(len(taken), 1)

    def test_a_command(self) -> None:
        """It says so before, and ends its command then; with a lease, too, where the whole client speaks for it."""
        for words in ((), ("--grace", "20")):
            bay = BAY if not words else BAY.replace('"north"', '"north"\ngone = "release"')
            with self.subTest(words):
                broker = self.broker(bay, *words)
                holds = broker.started("hold", "scope", "--limit", "12s", "--", "sleep", "60")
                other = self.lab(broker)
                with other.hold("supply"):
                    pass
                until(lambda: other.status()["instruments"][0]["holder"], "it holds")
                with other.hold("scope", timeout=LIMIT):
                    pass
                _, said = holds.communicate(timeout=LIMIT)
                self.assertEqual(holds.returncode, 76)
                self.assertRegex(said, r"labrun-broker: guest-1 may hold scope for 12 s, which is over(:| in [01].[0-9] s)")
                self.assertRegex(said, r"taken away by the broker, because it held for longer than its limit of 12 s, .*; the command is being ended")


class Shorter(OnBroker):
    def test_a_hold_is_told_as_it_begins(self) -> None:
        """That the bay's limit is shorter than its own, by each of its ways; and nothing if its own counts, or the bay has none."""
        port = free_port()
        limited = self.broker(f'limit = "90s"\ngone = "release"\n{BAY}', "--listen", f"127.0.0.1:{port}")
        free = self.broker()
        told = "labrun-broker: the bay's limit counts, which is shorter: 1 min 30 s, and not 1 h 0 min\n"
        for at, limit, said in (
            (limited.address, ["--limit", "1h"], told),
            (limited.address.replace("unix:", "unix://"), ["--limit", "1h"], told),
            (f"127.0.0.1:{port}", ["--limit", "1h"], told),
            (limited.address, ["--limit", "80"], ""),
            (limited.address, [], ""),
            (free.address, ["--limit", "1h"], ""),
        ):
            with self.subTest(at, limit=limit):
                done = limited.ran("hold", "scope", "--broker", at, *limit, "--", "true")
                self.assertEqual((done.returncode, done.stderr), (0, said))


if __name__ == "__main__":
    unittest.main()
