"""The guide's lines of plain JavaScript, in a page of another server, in a real browser without a window."""

from __future__ import annotations

import functools
import http.server
import os
import tempfile
import threading
import time
import unittest

from tests.asking import Asking
from tests.brokers import BAY, TOP, OnBroker, free_port, until
from tests.test_browser import LACKS, started

PAGE = """<!doctype html><title>waits</title><script>
const [broker, token] = location.hash.slice(1).split(",");
async function measure(instruments) {
    document.title = "holds " + instruments.join(" ");
    await new Promise(done => window.go = done);
}
async function main() {
CODE
    document.title = "over";
}
main().catch(it => document.title = `${it}`);
</script>"""


class Quiet(http.server.SimpleHTTPRequestHandler):
    def log_message(self, *_: object) -> None:
        pass


def code_of_the_guide() -> str:
    with open(f"{TOP}/docs/broker.md", encoding="utf-8") as file:
        return file.read().split("```js\n")[1].split("```")[0]


@unittest.skipIf(LACKS, f"there is no {LACKS}")
class Page(OnBroker):
    def setUp(self) -> None:
        self.folder, self.port, of_page = self.enterContext(tempfile.TemporaryDirectory()), free_port(), free_port()
        with open(f"{self.folder}/index.html", "w", encoding="utf-8") as page:
            page.write(PAGE.replace("CODE", code_of_the_guide()))
        with open(f"{self.folder}/token", "w", encoding="ascii") as token:
            os.fchmod(token.fileno(), 0o600)
            token.write("a-token-for-the-tests\n")
        # (the standard library's server of files)
        server = http.server.ThreadingHTTPServer(("127.0.0.1", of_page), functools.partial(Quiet, directory=self.folder))
        self.addCleanup(server.server_close)
        self.addCleanup(server.shutdown)
        threading.Thread(target=server.serve_forever, daemon=True).start()
        self.page = f"http://127.0.0.1:{of_page}"
        self.browser = started()
        self.addCleanup(self.browser.quit)

    def opens(self, *words: str) -> Asking:
        grace = ("--token-file", f"{self.folder}/token", "--grace", "6")
        self.broker(f'gone = "release"\n{BAY}', "--http", f"127.0.0.1:{self.port}", *grace, *words)
        return Asking(self.port, "a-token-for-the-tests")

    def shows(self) -> None:
        self.browser.get(f"{self.page}/index.html#http://127.0.0.1:{self.port},a-token-for-the-tests")

    def test_it_waits_holds_and_lets_go(self) -> None:
        one = self.opens("--http-origin", self.page)
        # (so that it waits at first)
        ticket = one.holds("scope", station="board")
        self.shows()
        until(lambda: one.of(ticket)[0] == 200 and one.status("guest-1")["state"] == "waiting")
        self.assertEqual((self.browser.title, one.status("guest-1")["by"]), ("waits", "a page"))
        one.lets_go(ticket)
        until(lambda: self.browser.title == "holds scope", "it holds")
        # its pings keep the session for longer than the grace
        time.sleep(9)
        # (one that is late once is gone for a moment)
        until(lambda: one.status("guest-1")["state"] == "holding")
        self.assertEqual(self.browser.title, "holds scope")
        self.browser.execute_script("go()")
        until(lambda: self.browser.title == "over", "it has let go")
        self.assertEqual(one.status("guest-1")["state"], "idle")

    def test_a_page_that_isnt_named_may_not(self) -> None:
        one = self.opens()
        self.shows()
        until(lambda: self.browser.title != "waits")
        self.assertIn("TypeError: Failed to fetch", self.browser.title)
        self.assertEqual(one.status("guest-1")["state"], "idle")


if __name__ == "__main__":
    unittest.main()
