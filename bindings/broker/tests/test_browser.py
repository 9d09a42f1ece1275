"""The page on the wall in a real browser, without a window. Left out where there is no chromium, chromedriver or selenium."""

from __future__ import annotations

import asyncio
import re
import shutil
import tempfile
import time
import unittest
from typing import Any, Callable
from unittest import mock

from labrun_broker.bays import Bays
from labrun_broker.labs import Lab, read_any
from labrun_broker.standing import Session
from labrun_broker.wishes import Wish

from .brokers import LIMIT
from .fake import Keeping
from .test_bays import Owner, written
from .webs import Web

try:
    from labrun_broker import page
    from labrun_broker.page import serve_page
except ImportError as lacking:
    raise unittest.SkipTest(str(lacking)) from None

try:
    from selenium import webdriver
    from selenium.webdriver import ActionChains, Keys
    from selenium.webdriver.chrome.service import Service
except ImportError:
    webdriver = None

BAY = {"board": ["scope", "supply"], "radio": ["scope", "oven"], "drive": ["supply"], "night": ["oven"]}
LACKS = "selenium" if webdriver is None else next((it for it in ("chromium", "chromedriver") if not shutil.which(it)), None)


def started() -> Any:
    options = webdriver.ChromeOptions()
    for it in ("--headless=new", "--no-sandbox", "--disable-gpu", "--disable-dev-shm-usage"):
        options.add_argument(it)
    options.binary_location = shutil.which("chromium")
    options.set_capability("goog:loggingPrefs", {"browser": "ALL"})
    browser = webdriver.Chrome(service=Service(shutil.which("chromedriver")), options=options)
    browser.set_script_timeout(2 * LIMIT)
    return browser


@unittest.skipIf(LACKS, f"there is no {LACKS}")
class OnBrowser(unittest.TestCase):
    web: Web

    @classmethod
    def setUpClass(cls) -> None:
        cls.browser = started()
        cls.addClassCleanup(cls.browser.quit)

    def opens(self, where: str, bay: str) -> None:
        self.browser.get(f"http://127.0.0.1:{self.web.port}/{where}")
        self.seen("h1", lambda text: text == bay)

    def text(self, where: str) -> str:
        return str(self.browser.execute_script("const it = document.querySelector(arguments[0]); return it ? it.innerText ?? it.textContent : ''", where))

    def seen(self, where: str, is_so: Callable[[str], bool], within: float = LIMIT) -> float:
        """How long it took until a text was there."""
        begun = time.monotonic()
        while time.monotonic() < begun + within:
            if is_so(self.text(where)):
                return time.monotonic() - begun
            time.sleep(0.02)
        self.fail(f"{where} is, after {within} s: {self.text(where)!r}")

    def row(self, name: str) -> str:
        return f'[data-instrument="{name}"]'


class Browser(OnBrowser):
    def setUp(self) -> None:
        self.web = Web(serve_page, lambda: Keeping(BAY))
        self.addCleanup(self.close)
        self.is_open = True
        self.opens("", "bay-3")

    def close(self) -> None:
        if self.is_open:
            self.is_open = False
            self.web.close()

    def do(self, name: str, *given: Any, **more: Any) -> None:
        self.web.do(lambda: getattr(self.web.keeping, name)(*given, **more))

    def at(self, ago: float) -> None:
        self.web.keeping.now = None if not ago else time.time() - ago

    @mock.patch.object(page, "BEAT", 4 * LIMIT)
    def test_a_session_is_seen_within_a_second(self) -> None:
        # (of several, because the machine may do something else)
        held, free, looks = list[float](), list[float](), list[float]()
        for _ in range(5):
            self.do("hold", "board", "scope", "supply", by="ana")
            held.append(self.seen(self.row("scope"), lambda text: "board by ana" in text))
            self.do("end", "board")
            free.append(self.seen(self.row("scope"), lambda text: "free" in text))
            looks.append(self.seen("h1", bool))
        self.assertIn("board let go of scope, supply", self.text("#records"))
        for took in (held, free):
            # (a look takes some milliseconds, where the machine does nothing else)
            self.assertLess(min(took), 1 + 10 * min(looks), took)
        # in the picture, too: a bar at each of the two, with its times (if not, it would come with the next message, which is late here)
        self.seen("#gantt rect.bar title", lambda text: text.startswith("board: ") and text.endswith(", done"))

    def test_what_is_stuck_stands_out(self) -> None:
        self.assertEqual(self.text("#stuck"), "Nothing is stuck.")
        self.at(7200)
        self.do("hold", "night", "oven")  # longest, but nobody waits
        self.at(5400)
        self.do("hold", "board", "scope", "supply", by="ana")
        self.at(600)
        self.do("hold", "drive", "supply")
        self.at(540)
        self.do("gone", "drive")
        self.at(300)
        self.do("ask", "radio", "scope")
        self.at(0)
        self.do("tell", "note", "board")
        self.seen("#stuck", lambda text: "board has held for 1 h 30 min: scope, supply" in text)
        self.assertIn("radio waits for it · begun by ana", self.text("#stuck"))
        self.assertIn("drive has been gone for 9 min, and still holds supply", self.text("#stuck"))
        self.assertNotIn("night", self.text("#stuck"))
        self.assertIn("worst", self.browser.execute_script("return document.querySelector(arguments[0]).className", self.row("scope")))
        self.assertEqual(self.text("#about").split(" · ")[0], "2 hold, 1 wait, 1 gone")

    def test_a_chain_to_who_holds(self) -> None:
        self.at(120)
        self.do("hold", "night", "oven")
        self.at(60)
        self.do("ask", "radio", "scope", "oven")
        self.at(30)
        self.do("ask", "board", "scope", "supply")
        self.at(0)
        self.do("tell", "note", "night")
        self.seen("#waits", lambda text: "board → scope: radio → oven: night has held for 2 min" in text)

    def test_a_chain_over_two_bays(self) -> None:
        """Whoever holds in one bay waits in another."""
        bays = {"scope": "north", "supply": "north", "oven": "south"}

        def of_two(status: Any) -> Any:
            its = [{**it, "bay": bays[(it["instruments"] or ["scope"])[0]]} for it in status["stations"]]
            waits = {"instrument": "oven", "station": "night", "holds": True, "since": time.time() - 120, "text": "oven has been held by night for 120 s"}
            its.append({**next(it for it in its if it["name"] == "drive"), "state": "waiting", "instruments": ["oven"], "bay": "south", "waits_for": [waits]})
            return {**status, "stations": its, "instruments": [{**it, "bay": bays[it["name"]]} for it in status["instruments"]]}

        keeping = self.web.keeping
        keeping.status = lambda does=keeping.status: of_two(does())
        self.do("hold", "night", "oven")
        self.at(60)
        self.do("hold", "drive", "supply")
        self.at(30)
        self.do("ask", "board", "scope", "supply")
        self.at(0)
        self.do("tell", "note", "night")
        self.seen("#waits", lambda text: "board → supply: drive has held for 1 min, and waits in the bay south → oven: night has held for 2 min" in " ".join(text.split()))

    def test_which_of_a_station_waits_for_which(self) -> None:
        """Of two that wait as one station; the broker says so of the second, and nothing else contradicts that."""
        self.at(60)
        self.do("hold", "night", "oven")
        self.at(30)
        self.do("ask", "radio", "oven", by="ann@bench-3 4711 sh")
        self.at(0)
        keeping, night = self.web.keeping, self.web.keeping.stations["night"]
        keeping.stations["radio"]["session"] = 2
        waits = {"instrument": "oven", "station": "night", "session": 1, "holds": True, "since": night["since"], "text": "oven is held by night"}
        row = {"station": "radio", "session": 3, "instruments": ["oven"], "by": "cem@bench-4 815 python", "since": time.time(), "place": 2, "passed": 1}
        text = "session 2 of radio (ann@bench-3 4711 sh) waits before this one: a station is in one session at a time"
        row |= {"urgent": False, "keeps_place": False, "waits_for": [waits], "text": text}
        does, more = keeping.status, dict[str, Any]()

        def status() -> Any:
            it = does()
            rows = [{**one, "waiting": [*one["waiting"], "radio"] if one["name"] == "oven" else one["waiting"]} for one in it["instruments"]]
            return {**it, "overtakes": 4, "instruments": rows, "in_line": [{**row, **more}]}

        keeping.status = status
        self.do("note", "night", "now")
        words = lambda: " ".join(self.text("#waits").split())
        self.seen("#waits", lambda text: "cem@bench-4" in text)
        self.assertRegex(words(), r"^radio \(session 2, ann@bench-3 4711 sh\) waits for oven: [345]\d s radio → oven: night has held for 1 min cem@bench-4 815 python \(session 3\) waits as radio for oven: \d+ s, ")
        self.assertIn(f", number 2 in line; 1 went before it since it asked, and after 4 what it needs is kept for it radio → oven: night has held for 1 min {text}", words())
        self.assertIn("2 wait: radio (2 sessions)", self.text(self.row("oven")))
        taken = "radio has been in session 2 for 3.0 s (ann@bench-3 4711 sh), and a station is in one at a time"
        more |= {"waits_for": [], "text": taken}
        self.do("note", "night", "later")
        self.seen("#waits", lambda text: taken in text)
        self.assertRegex(words(), rf"cem@bench-4 815 python \(session 3\) waits for radio to be idle, and then for oven: \d+ s, number 2 in line {re.escape(taken)}$")

    def test_hostile_text_is_shown_as_text(self) -> None:
        evil = "<img src=x onerror=\"document.title='evil'\"><script>document.title='evil'</script>\u202e" + "m" * 400
        self.do("hold", "board", "scope", by=evil)
        self.do("note", "board", evil)
        self.do("end", "board", "failed", evil)
        self.do("hold", "radio", "scope", by=evil)
        self.do("note", "radio", evil)
        self.seen("#records", lambda text: text.count("<img src=x") >= 3)
        self.seen(self.row("scope"), lambda text: text.count("<img src=x") == 2)
        made = self.browser.execute_script("return [document.querySelectorAll('img').length, document.querySelectorAll('script').length, document.title]")
        self.assertEqual(made, [0, 1, "bay-3"])
        for width in (1920, 1280, 390, 320):
            self.assertLessEqual(self.width_at(width), width)

    def width_at(self, width: int, height: int = 900) -> int:
        about = {"width": width, "height": height, "deviceScaleFactor": 1, "mobile": False}
        self.browser.execute_cdp_cmd("Emulation.setDeviceMetricsOverride", about)
        self.addCleanup(self.browser.execute_cdp_cmd, "Emulation.clearDeviceMetricsOverride", {})
        time.sleep(0.3)
        return int(self.browser.execute_script("return document.documentElement.scrollWidth"))

    def test_a_wall_shows_all_of_a_large_bay(self) -> None:
        """Of 56 instruments and 32 stations, of which each waits or holds, nothing is below the screen, and nothing has to be scrolled."""
        self.close()
        names = [f"instrument-{at:02}" for at in range(56)]
        self.is_open, self.web = True, Web(serve_page, lambda: Keeping({f"station-{at:02}": names for at in range(32)}))
        self.at(900)
        for at in range(32):
            by = "nightly_regression.py of somebody with a long name"
            self.do("hold" if at < 20 else "ask", f"station-{at:02}", *(names[2 * at : 2 * at + 2] if at < 20 else names[:2]), by=by)
            if at < 4:
                self.do("gone", f"station-{at:02}")
        self.at(0)
        self.do("note", "station-05", "V = 5.000 " * 20)
        for scheme in ("light", "dark"):
            self.browser.execute_cdp_cmd("Emulation.setEmulatedMedia", {"features": [{"name": "prefers-color-scheme", "value": scheme}]})
            self.width_at(1920, 1080)
            self.browser.get(f"http://127.0.0.1:{self.web.port}/?wall")
            self.seen("#waits", lambda text: "station-20" in text)
            self.seen("#gantt", lambda text: ":" in text)
            found = self.browser.execute_script(
                "const all = [...document.querySelectorAll('.row')].map(it => it.getBoundingClientRect());"
                "const root = document.documentElement, names = [...document.querySelectorAll('.row .name')];"
                "return [root.scrollHeight, root.scrollWidth, all.length, Math.max(...all.map(it => it.bottom)), Math.min(...all.map(it => it.height)),"
                " names.filter(it => it.scrollWidth > it.clientWidth).length, document.querySelector('#gantt svg').getBoundingClientRect().bottom]"
            )
            self.assertEqual((found[0], found[1], found[2], found[5]), (1080, 1920, 56, 0))
            self.assertLess(max(found[3], found[6]), 1080)
            self.assertGreaterEqual(found[4], 12)
            self.assertNotIn("notes", self.text("#records"))
        # on a smaller screen all is there, too, and below its edge
        self.width_at(1280, 800)
        self.seen("body", lambda _: "tall" in self.browser.execute_script("return document.body.className"))
        self.assertGreater(self.browser.execute_script("return document.documentElement.scrollHeight"), 800)

    def test_a_wall_says_who_is_urgent(self) -> None:
        self.do("hold", "board", "scope")
        self.do("ask", "radio", "scope")
        self.web.do(lambda it: it.stations["radio"].update(urgent=True), self.web.keeping)
        self.width_at(1280, 800)
        self.browser.get(f"http://127.0.0.1:{self.web.port}/?wall")
        self.seen("#waits", lambda text: "radio, urgent, " in text)

    def test_a_wall_shows_what_its_colours_mean(self) -> None:
        """All of it, and where the picture and the rows beside it go on."""
        keys = ["done", "holds now", "failed", "taken away", "client gone", "somebody waits", "gave up"]
        for width, height in ((1920, 1080), (1280, 800), (900, 700)):
            self.width_at(width, height)
            self.browser.get(f"http://127.0.0.1:{self.web.port}/?wall")
            self.seen("#gantt", lambda text: ":" in text)
            found, over, rows = self.browser.execute_script(
                "const box = document.querySelector('#over').getBoundingClientRect(), root = document.documentElement;"
                "const inside = it => [it, ...(function* () { for (let on = it.parentElement; on; on = on.parentElement) yield on; })()].every(on => {"
                "  const is = it.getBoundingClientRect(), of = on.getBoundingClientRect();"
                "  return is.left >= of.left - .5 && is.right <= of.right + .5 && is.top >= of.top - .5 && is.bottom <= of.bottom + .5; });"
                "const top = it => document.querySelector(it).getBoundingClientRect().top;"
                "return [[...document.querySelectorAll('.keys span')].filter(inside).map(it => it.innerText), root.scrollWidth,"
                " top('#gantt svg') + 18 - top('.row')]"
            )
            self.assertEqual((found, over), (keys, width))
            self.assertLess(abs(rows), 1)

    def test_the_focus_stays(self) -> None:
        self.browser.execute_script("document.querySelector('#spans button:nth-of-type(3)').focus()")
        ActionChains(self.browser).send_keys(Keys.ENTER).perform()
        for number in range(3):
            self.do("hold", "board", "scope", by=f"ana {number}")
            self.seen(self.row("scope"), lambda text: f"board by ana {number}" in text)
            self.do("end", "board")
            time.sleep(0.9)
            found = self.browser.execute_script("const it = document.activeElement; return [it.tagName, it.innerText, it.getAttribute('aria-pressed')]")
            self.assertEqual(found, ["BUTTON", "4 h", "true"])

    def test_who_listens_to_the_page_hears_what_changes_alone(self) -> None:
        self.do("hold", "board", "scope")
        self.do("gone", "board")
        self.seen("#told", lambda text: text == "board is gone, and still holds scope")
        self.browser.execute_script(
            "window.heard = 0; new MutationObserver(all => window.heard += all.length)"
            ".observe(document.querySelector('[role=status]'), {childList: true, characterData: true, subtree: true})"
        )
        first = self.text("#stuck")
        self.seen("#stuck", lambda text: text != first)  # it ticks
        self.do("note", "board", "V = 5")
        self.seen(self.row("scope"), lambda text: "V = 5" in text)
        self.assertEqual(self.browser.execute_script("return [window.heard, document.querySelectorAll('[role=status] .ticks, [aria-live] .ticks').length]"), [0, 0])
        self.do("end", "board")
        self.seen("#told", lambda text: text == "Nothing is stuck.")

    def test_what_happened_reads_as_english(self) -> None:
        its = ["scope", "supply"]
        told = [
            ("asked", "board", its, "", "board asks for scope, supply"),
            ("held", "board", its, "", "board holds scope, supply"),
            ("note", "board", its, "5 V", "board notes: 5 V"),
            ("let_go", "board", its, "", "board let go of scope, supply"),
            ("failed", "board", its, "status 1", "board failed with scope, supply: status 1"),
            ("gave_up", "board", its, "its time was over", "board gave up on scope, supply: its time was over"),
            ("taken", "board", its, "by ann", "board’s session with scope, supply was ended: by ann"),
            ("gone", "board", its, "", "board’s client is gone; it holds scope, supply"),
            ("back", "board", its, "", "board’s client is back; it holds scope, supply"),
            ("made_safe", "board", ["supply"], "off.sh ended well after 0.5 s", "supply was made safe after board: off.sh ended well after 0.5 s"),
            ("disabled", None, ["scope"], "scope: no signal, by ann", "scope is out of order: no signal, by ann"),
            ("enabled", None, ["scope"], "scope, by ann", "scope is in order again: by ann"),
            ("changed", None, [], "by ann: oven is new", "the bay was changed: by ann: oven is new"),
            ("opened", None, its, "", "the broker opened the bay"),
            ("closed", None, its, "", "the broker closed the bay"),
            ("asked", "board", [], "", "board asks for its instruments"),
            ("else", "board", its, "new", "board: else: new"),
        ]
        about = [{"t": 0, "what": what, "station": station, "instruments": names, "text": text} for what, station, names, text, _ in told]
        said = self.browser.execute_script("return arguments[0].map(it => recordOf(it).lastChild.textContent)", about)
        self.assertEqual(said, [it[-1] for it in told])

    def test_no_line_of_the_wall_is_cut(self) -> None:
        """As many lines of what happened last as there is room for, each whole; also when others wait, and there is less."""
        for number in range(80):
            self.do("hold", "board", "scope", by=f"ana {number}")
        self.width_at(1920, 1080)
        self.browser.get(f"http://127.0.0.1:{self.web.port}/?wall")
        counts = list[int]()
        for waits, width, height in (("", 1920, 1080), ("radio", 1920, 1080), ("", 1920, 1075), ("night", 1920, 1075), ("", 1280, 800), ("", 1920, 1080)):
            with self.subTest(waits, width=width, height=height):
                self.width_at(width, height)
                if waits:
                    self.do("ask", waits, "scope")
                self.seen("#waits", lambda text: waits in text)
                counts.append(self.whole_lines(height))
        self.assertTrue(counts[0] > counts[4] < counts[5], counts)

    def whole_lines(self, height: int) -> int:
        """How many there are, once each is whole and there is no room for another."""
        lines = (
            "const of = document.querySelector('#records'), its = [...of.children].map(it => it.getBoundingClientRect());"
            "return [its.length, Math.max(...its.map(it => it.bottom)), Math.min(...its.map(it => it.height)), of.parentElement.getBoundingClientRect().bottom]"
        )
        end = time.monotonic() + LIMIT
        while time.monotonic() < end:
            count, last, high, bottom = self.browser.execute_script(lines)
            if last <= bottom < height and bottom < last + 2 * high:
                return int(count)
            time.sleep(0.05)
        self.fail(f"of {count} lines of {high} the last ends at {last}, and the box at {bottom} of {height}")

    def test_notes_drive_nothing_out(self) -> None:
        self.do("hold", "board", "scope")
        for number in range(200):
            self.do("note", "board", f"V = {number}")
        for _ in range(2):
            self.seen("#records", lambda text: "V = 199" in text and "board holds scope" in text and "asks for" in text)
            self.assertEqual(self.text("#records").count("notes"), 4)
            self.browser.refresh()

    def test_a_disk_that_is_full(self) -> None:
        self.web.keeping.disk = "a write failed (No space left on device)"
        self.do("hold", "board", "scope")
        self.seen("#disk", lambda text: text == "The broker can't write: a write failed (No space left on device). Nobody comes to hold until it can.")
        self.do("ask", "drive", "supply")
        self.do("untold", "drive")
        self.do("ask", "night", "supply")
        self.seen("#waits", lambda text: "drive waits for supply" in text and "it waits for the disk" in text)
        self.seen("#waits", lambda text: "night → supply: drive waits for the disk" in text)
        for name in ("night", "drive"):
            self.do("end", name, "gave_up")
        self.seen("#waits", lambda text: "drive" not in text)
        # and nothing beside it says that all is well
        self.assertEqual((self.text("#stuck"), self.text("#told"), self.text("#waits")), ("", "", "Nobody waits for another."))
        self.do("gone", "board")
        self.seen("#stuck", lambda text: "board has been gone for" in text)
        self.do("back", "board")
        self.seen("#stuck", lambda text: text == "")
        self.web.keeping.disk = ""
        self.seen("#disk", lambda text: text == "")
        self.assertEqual((self.text("#stuck"), self.text("#told"), self.text("#waits")), ("Nothing is stuck.", "Nothing is stuck.", "Nobody waits."))
        self.assertFalse(self.browser.execute_script("return document.querySelector('#disk').checkVisibility()"))

    def test_what_is_simulated_says_so(self) -> None:
        self.assertEqual(self.text("#notice"), "")
        self.web.keeping.notice = "Simulated: it isn't the proved one"
        self.do("hold", "board", "scope")
        self.seen("header", lambda text: "Simulated: it isn't the proved one" in text)

    def test_each_of_several_bays_has_its_head(self) -> None:
        bays = {"scope": "north", "supply": "north", "oven": "south"}

        class OfLab(Keeping):
            def status(self) -> Any:
                it = super().status()
                rows = [{**row, "bay": bays[row["name"]]} for row in it["instruments"]]
                return {**it, "instruments": rows, "overtakes": 9, "bays": [{"bay": "north", "overtakes": 7}, {"bay": "south", "overtakes": 8}]}

        web = Web(serve_page, lambda: OfLab(BAY))
        self.addCleanup(web.close)
        self.browser.get(f"http://127.0.0.1:{web.port}/")
        self.seen("#instruments", lambda text: "oven" in text)
        order = "return [...document.querySelectorAll('#instruments > *')].map(it => it.dataset.instrument || it.textContent)"
        self.assertEqual(self.browser.execute_script(order), ["north", "scope", "supply", "south", "oven"])
        # (a disk that fails in one bay is nothing to the others)
        web.keeping.disk = "north: a write failed (No space left on device)"
        web.do(lambda: web.keeping.hold("board", "scope"))
        self.seen("#disk", lambda text: text == f"The broker can't write: {web.keeping.disk}. Nobody comes to hold there until it can.")
        passed = "return [{bay: 'south', place: 1, passed: 2}, {bay: '', place: 1, passed: 2}].map(lineOf)"
        self.assertEqual([it.split("; ")[1] for it in self.browser.execute_script(passed)], [f"2 went before it since it asked, and after {most} what it needs is kept for it" for most in (8, 9)])
        keeps = "return [[1, false, true], [2, true, true], [3, true, false]].map(([place, urgent, keeps_place]) => lineOf({place, urgent, keeps_place}))"
        said = [", number 1 in line, and an urgent one asked after it", ", number 2 in line, urgent", ", number 3 in line, urgent"]
        self.assertEqual(self.browser.execute_script(keeps), [*(f"{it}: nobody who asks later goes before it" for it in said[:2]), said[2]])

    def test_light_and_dark(self) -> None:
        colours = []
        for it in ("light", "dark"):
            self.browser.execute_cdp_cmd("Emulation.setEmulatedMedia", {"features": [{"name": "prefers-color-scheme", "value": it}]})
            style = "const it = getComputedStyle(document.body); return [it.backgroundColor, it.color].map(c => c.match(/\\d+/g).reduce((a, b) => a + +b, 0))"
            colours.append(self.browser.execute_script(style))
        (light, on_light), (dark, on_dark) = colours
        self.assertTrue(light > 600 > 300 > on_light and dark < 150 < 600 < on_dark, colours)

    def test_a_broker_that_is_gone(self) -> None:
        self.do("hold", "board", "scope")
        self.seen(self.row("scope"), lambda text: "board" in text)
        self.close()
        self.seen("#lost", lambda text: "What is shown is old." in text)

    @mock.patch.object(page, "BEAT", 4 * LIMIT)
    def test_since_when_there_is_no_answer(self) -> None:
        """Since the last one, if the broker only says nothing, or did so for long before it ended the connection; else since that end."""
        at = int(time.time()) - 7200
        # (for how many seconds nothing was said, whether it ends then, and how many after the last answer it is said to be)
        for where in ("", "?wall"):
            for silent, ends, more in ((16, False, 0), (16, True, 0), (8, True, 0), (3, True, 3)):
                with self.subTest(where, silent=silent, ends=ends):
                    self.close()
                    self.is_open, self.web = True, Web(serve_page, lambda: Keeping(BAY, now=at + 0.5))
                    self.opens(where, "bay-3")
                    self.browser.execute_script("const at = heard + 1000 * arguments[0]; Date.now = () => at;", silent)
                    if ends:
                        self.close()
                    self.seen("#lost", bool)
                    since = time.strftime("%H:%M:%S", time.localtime(at + more))
                    self.assertEqual(self.text("#lost"), f"No answer from the broker since {since}. What is shown is old.")

    @mock.patch.object(page, "BEAT", 4 * LIMIT)
    def test_what_is_shown_is_as_old_as_the_last_answer(self) -> None:
        self.close()
        at = time.time() - 7200
        self.is_open, self.web = True, Web(serve_page, lambda: Keeping(BAY, now=at))
        self.do("hold", "board", "scope")
        self.web.keeping.now = at + 50
        self.opens("", "bay-3")
        for silent, is_lost, span in ((0, False, "50 s"), (14, False, "1 min"), (16, True, "50 s")):
            self.browser.execute_script("Date.now = () => heard + 1000 * arguments[0];", silent)
            self.seen(f"{self.row('scope')} .since", lambda text: text == span)
            self.assertEqual(bool(self.text("#lost")), is_lost)

    def test_nothing_is_complained_of(self) -> None:
        self.browser.get_log("browser")
        self.browser.refresh()
        self.do("hold", "board", "scope")
        self.seen(self.row("scope"), lambda text: "board" in text)
        self.assertEqual([it for it in self.browser.get_log("browser") if "ERR_" not in it["message"]], [])


def without_spans(text: str) -> str:
    return re.sub(r"\b\d+ (s|min)\b", "a while", " ".join(text.split()))


async def serve_lab(bays: Bays, address: str) -> Any:
    await bays.open()
    return await serve_page(bays, address)


class OfALab(OnBrowser):
    """Two bays as they are: a session over both of them has a part in each."""

    def setUp(self) -> None:
        lab = read_any(written(self.enterContext(tempfile.TemporaryDirectory())))
        assert isinstance(lab, Lab)
        self.web, self.owner = Web(serve_lab, lambda: Bays(lab)), Owner()
        self.addCleanup(self.web.close)
        self.addCleanup(lambda: self.web.waits_for(self.web.keeping.close()))
        self.opens("", "physics")

    def holds(self, *instruments: str, **more: Any) -> Session:
        it: Session = self.web.waits_for(self.web.keeping.hold(Wish(instruments, **more), self.owner))
        return it

    def asks(self, *instruments: str, **more: Any) -> None:
        task = self.web.do(lambda: asyncio.ensure_future(self.web.keeping.hold(Wish(instruments, **more), self.owner)))
        self.addCleanup(self.web.do, lambda: task.cancel() and None)

    def bars(self) -> set[tuple[str, str]]:
        """Those of who is stuck, without their seconds; and what stands below."""
        its = self.browser.execute_script("return [...document.querySelectorAll('.alarm:not(.fine)')].map(it => [it.textContent, it.querySelector('small').textContent])")
        return {(without_spans(text.removesuffix(small)), small) for text, small in its}

    def test_who_waits_for_one_part_of_a_session(self) -> None:
        """Nobody waits for the other one."""
        held = self.holds("scope", "oven", by="ana")
        self.asks("oven", by="bob")
        for where in ("", "?wall"):
            self.opens(where, "physics")
            self.seen("#stuck", lambda text: "has held for" in text)
            self.assertEqual(self.bars(), {("guest-1 has held for a while: oven", "guest-2 waits for it · begun by ana")})
            self.assertEqual(self.text("#told"), "guest-1 holds for long, and is waited for: oven")
            self.assertEqual(self.browser.execute_script("return [...document.querySelectorAll('.row.worst')].map(it => it.dataset.instrument)"), ["oven"])
            self.assertRegex(self.text("#about"), "^1 hold, 1 wait · since ")
        self.web.do(self.web.keeping.gone, held, self.owner)
        of_scope = ("guest-1 has been gone for a while, and still holds scope", "nobody waits for it · begun by ana")
        of_oven = ("guest-1 has been gone for a while, and still holds oven", "guest-2 waits for it · begun by ana")
        for where in ("?wall", ""):
            self.opens(where, "physics")
            self.seen("#stuck", lambda text: "scope" in text and "oven" in text)
            self.assertEqual(self.bars(), {of_scope, of_oven})
            self.assertRegex(self.text("#about"), "^0 hold, 1 wait, 1 gone · since ")

    def test_who_is_waited_for_in_one_bay_and_waits_in_the_other(self) -> None:
        self.holds("oven", by="ana")
        self.asks("scope", "oven", by="bob")
        self.seen(self.row("scope"), lambda text: "guest-2" in text)
        self.asks("scope", by="cem")
        self.seen("#waits", lambda text: "guest-3" in text)
        # (the longest that is waited for)
        self.seen("#told", lambda text: text == "guest-1 holds for long, and is waited for: oven")
        self.assertEqual(self.bars(), {("guest-1 has held for a while: oven", "guest-2 waits for it · begun by ana")})
        self.assertRegex(self.text("#about"), "^2 hold, 2 wait · since ")
        chain = "guest-3 → scope: guest-2 has held for a while, and waits in the bay south → oven: guest-1 has held for a while"
        self.assertIn(chain, without_spans(self.text("#waits")))

    def test_a_chain_goes_on_in_its_bay(self) -> None:
        """To one for whom something is kept there, though that one holds in another bay."""
        self.holds("oven", by="ana")
        self.asks("scope", "oven", "load-2", by="bob", urgent=True)
        self.seen("#waits", lambda text: "oven: guest-1" in text)
        self.asks("load-2", by="cem")
        self.seen("#waits", lambda text: "guest-3" in text)
        self.assertIn("guest-3 → load-2: guest-2 → oven: guest-1 has held for a while", without_spans(self.text("#waits")))

    def rows(self, **north_and_south: Any) -> Any:
        """How scope and oven are shown, which are held by a guest-1 in each bay: each way, its words, and its note."""
        usual = {"name": "guest-1", "since": 0, "by": "ana", "note": None, "gone_since": None, "state": "holding"}
        stations = [{**usual, "bay": bay, **its} for bay, its in north_and_south.items()]
        instruments = [{"name": name, "bay": bay, "holder": "guest-1", "since": 0, "waiting": []} for name, bay in (("scope", "north"), ("oven", "south"))]
        return self.browser.execute_script(
            "status = {...status, stations: arguments[0], instruments: arguments[1]};"
            "return status.instruments.map(it => rowOf(it)).map(it => [it.className, it.querySelector('.state').textContent, it.querySelector('.of-note')?.textContent ?? ''])",
            stations, instruments,
        )  # fmt: skip

    def test_rows_of_one_name_in_two_bays(self) -> None:
        """What is said of an instrument is that of its own bay; but a note, which stands in the first one, is that of the whole session."""
        use = lambda said, note="": ["row use held", said, note]
        self.assertEqual(self.rows(north={"note": "V = 5"}, south={}), [use("guest-1 by ana", "V = 5")] * 2)
        # (the disk of one bay is slow)
        self.assertEqual(self.rows(north={"state": "waiting"}, south={}), [use("guest-1, once that is written by ana"), use("guest-1 by ana")])
        self.assertEqual(self.rows(north={"state": "ending"}, south={}), [use("free soon, after guest-1 by ana"), use("guest-1 by ana")])
        # (two guests, who have one name of two brokers)
        of_two = self.rows(north={"note": "V = 5"}, south={"state": "gone", "gone_since": 0, "by": "bob"})
        self.assertEqual(of_two, [use("guest-1 by ana", "V = 5"), ["row gone held", "guest-1 is gone by bob", ""]])

    def test_the_disk_of_one_bay(self) -> None:
        """Who waits in another doesn't wait for it."""
        waits = [{"name": "guest-1", "bay": bay, "instruments": [], "since": 0, "waits_for": []} for bay in ("north", "south")]
        said = self.browser.execute_script(
            "status = {...status, disk: 'north: full', bays: [{bay: 'north', disk: 'full'}, {bay: 'south', disk: ''}]};"
            "return arguments[0].map(it => chainOf(it).querySelector('.links').textContent)", waits
        )  # fmt: skip
        self.assertEqual(said, ["it waits for the disk", "nobody keeps it waiting at this moment"])


if __name__ == "__main__":
    unittest.main()
