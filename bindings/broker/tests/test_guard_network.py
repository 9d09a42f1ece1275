"""A guard that is seen by other machines: an address of a network namespace of its own, with TLS, where those can be made."""

from __future__ import annotations

import os
import shutil
import subprocess
import sys
import tempfile
import unittest
from typing import Any

from tests.brokers import BAY, COMMAND, LIMIT, TOP, certificate
from tests.test_two_machines import ip

NAME, HOST = f"labrun-guard-{os.getpid()}", "10.78.0.1"
ASKS = "import os, sys; sys.path.insert(0, sys.argv[1]); from instruments import Talk\nwith Talk(int(os.environ['LABRUN_SCOPE'].rpartition(':')[2])) as it: print(it.ask('*IDN?'))"


class Beyond(unittest.TestCase):
    def setUp(self) -> None:
        if os.geteuid() != 0 or not shutil.which("ip"):
            self.skipTest("network namespaces need root and iproute2")
        try:
            ip("netns", "add", NAME)
            self.addCleanup(ip, "netns", "del", NAME)
            ip("-n", NAME, "link", "set", "lo", "up")
            ip("-n", NAME, "link", "add", "v0", "type", "veth", "peer", "name", "v1")
            ip("-n", NAME, "address", "add", f"{HOST}/24", "dev", "v0")
            for link in ("v0", "v1"):
                ip("-n", NAME, "link", "set", link, "up")
        except subprocess.CalledProcessError as fault:
            self.skipTest(f"no network namespaces here: {fault.stderr.decode().strip()}")
        self.folder = self.enterContext(tempfile.TemporaryDirectory())

    def begins(self, first: str, *words: str, stream: str = "stderr") -> Any:
        more: dict[str, Any] = {"stdin": subprocess.PIPE} if stream == "stdout" else {}
        process = subprocess.Popen(["ip", "netns", "exec", NAME, *words], text=True, **{stream: subprocess.PIPE}, **more)
        self.addCleanup(process.communicate)
        self.addCleanup(process.kill)
        line = getattr(process, stream).readline()
        self.assertIn(first, line)
        return line

    def test_with_tls(self) -> None:
        folder = self.folder
        for name in ("guard", "other"):
            certificate(folder, f"{name}.crt", f"{name}.key", f"IP:{HOST}")
        port = self.begins("scope ", sys.executable, f"{TOP}/examples/broker/instruments.py", "scope", stream="stdout").split()[1]
        for path, text in (
            ("bay.toml", f'{BAY}[guards]\nscope = "{HOST}:5025"\n'),
            ("guards.toml", f'[scope]\nlisten = "{HOST}:5025"\ninstrument = "127.0.0.1:{port}"\n'),
        ):
            with open(f"{folder}/{path}", "w", encoding="ascii") as file:
                file.write(text)
        at = f"unix:{folder}/bay.sock"
        self.begins(": bay ", *COMMAND, "serve", f"{folder}/bay.toml", "--state", f"{folder}/state", "--listen", at)
        tls = ("--tls-certificate", f"{folder}/guard.crt", "--tls-key", f"{folder}/guard.key")
        self.begins(f"clients come to {HOST}:5025", *COMMAND, "guard", f"{folder}/guards.toml", "--broker", at, *tls)
        for name, out, fault in (("guard", "scope\n", ""), ("other", "", "no certificate that is known here")):
            known = f"{folder}/{name}.crt"
            for given, more in ((("--certificate", known), {}), ((), {"LABRUN_BROKER_CERTIFICATE_FILE": known})):
                words = [*COMMAND, "hold", "scope", "--broker", at, *given, "--", sys.executable, "-c", ASKS, f"{TOP}/examples/broker"]
                how = {"env": {**os.environ, **more}, "timeout": 3 * LIMIT}
                done = subprocess.run(["ip", "netns", "exec", NAME, *words], capture_output=True, text=True, **how)
                self.assertEqual(done.stdout, out, done.stderr)
                self.assertIn(fault, done.stderr)


if __name__ == "__main__":
    unittest.main()
