"""Two machines: two network namespaces, where those can be made. The broker is on one, a program on the other."""

import os
import shutil
import subprocess
import sys
import tempfile
import unittest

from tests.brokers import BAY, COMMAND, LIMIT

HERE, THERE = f"labrun-a-{os.getpid()}", f"labrun-b-{os.getpid()}"


def ip(*words: str) -> None:
    subprocess.run(["ip", *words], check=True, capture_output=True, timeout=LIMIT)


class TwoMachines(unittest.TestCase):
    def setUp(self) -> None:
        if os.geteuid() != 0 or not shutil.which("ip"):
            self.skipTest("network namespaces need root and iproute2")
        try:
            for name in (HERE, THERE):
                ip("netns", "add", name)
                self.addCleanup(ip, "netns", "del", name)
            a, b = f"va{os.getpid()}", f"vb{os.getpid()}"
            ip("link", "add", a, "netns", HERE, "type", "veth", "peer", "name", b, "netns", THERE)
            for name, link, address in ((HERE, a, "10.77.0.1/24"), (THERE, b, "10.77.0.2/24")):
                ip("-n", name, "address", "add", address, "dev", link)
                ip("-n", name, "link", "set", link, "up")
                ip("-n", name, "link", "set", "lo", "up")
        except subprocess.CalledProcessError as fault:
            self.skipTest(f"no network namespaces here: {fault.stderr.decode().strip()}")

    def test_a_program_on_the_other_machine(self) -> None:
        folder = self.enterContext(tempfile.TemporaryDirectory())
        certificate, key, token = (f"{folder}/{name}" for name in ("certificate", "key", "token"))
        words = ["openssl", "req", "-x509", "-newkey", "ec", "-pkeyopt", "ec_paramgen_curve:prime256v1", "-nodes", "-days", "2", "-subj", "/CN=10.77.0.1"]
        subprocess.run([*words, "-addext", "subjectAltName=IP:10.77.0.1", "-keyout", key, "-out", certificate], check=True, capture_output=True)
        for path, text in ((f"{folder}/bay.toml", BAY), (token, "a token that nobody knows\n")):
            with open(path, "w", encoding="ascii") as file:
                file.write(text)
        os.chmod(token, 0o600)
        serve = [*COMMAND, "serve", f"{folder}/bay.toml", "--listen", "10.77.0.1:7443", "--tls-certificate", certificate, "--tls-key", key]
        broker = subprocess.Popen(["ip", "netns", "exec", HERE, *serve, "--token-file", token], stderr=subprocess.PIPE, text=True)
        try:
            assert broker.stderr is not None
            self.assertIn("4 instruments, at 10.77.0.1:7443", broker.stderr.readline())
            there = ["--broker", "10.77.0.1:7443", "--certificate", certificate]
            hold = ["ip", "netns", "exec", THERE, *COMMAND, "hold", "scope", *there]
            done = subprocess.run([*hold, "--token-file", token, "--", "echo", "held"], capture_output=True, text=True, timeout=LIMIT)
            self.assertEqual((done.returncode, done.stdout), (0, "held\n"), done.stderr)
            done = subprocess.run([*hold, "--", "echo", "held"], capture_output=True, text=True, timeout=LIMIT)
            self.assertEqual((done.returncode, done.stdout), (69, ""))
            self.assertIn("asks for its token", done.stderr)
        finally:
            broker.terminate()
            broker.communicate(timeout=LIMIT)


if __name__ == "__main__":
    sys.exit(unittest.main())
