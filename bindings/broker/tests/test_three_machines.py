"""Three members of etcd, as docs/broker.md says to set them up, on machines of their own (network namespaces), where those can be made."""

from __future__ import annotations

import json
import os
import re
import shutil
import subprocess
import tempfile
import time
import unittest
from typing import Optional

from tests.brokers import LIMIT, TOP, until
from tests.test_two_machines import ip

NET, MACHINES = "10.0.0", (1, 2, 3)
# seconds; a member that hears nothing asks to be voted for after two at most
CUT = 6.0


def recipe(at: int) -> dict[str, str]:
    """What the page puts into /etc/default/etcd of this machine; it says it of the first."""
    with open(f"{TOP}/docs/broker.md", encoding="utf-8") as file:
        part = file.read().partition("\n## Three machines\n")[2].partition("\nDebian starts")[0]
    found = dict(re.findall(r"^    (ETCD_\w+)=(\S+)$", part, re.M))
    return {name: it if name == "ETCD_INITIAL_CLUSTER" else it.replace(f"{NET}.1", f"{NET}.{at}").replace("bench-1", f"bench-{at}") for name, it in found.items()}


@unittest.skipUnless(os.geteuid() == 0 and all(map(shutil.which, ("ip", "etcd", "etcdctl"))), "that takes root, iproute2, etcd and etcdctl")
class Members(unittest.TestCase):
    def setUp(self) -> None:
        self.names = [f"labrun-etcd-{at}-{os.getpid()}" for at in (0, *MACHINES)]
        try:
            for at, name in enumerate(self.names):
                ip("netns", "add", name)
                self.addCleanup(ip, "netns", "del", name)
                ip("-n", name, "link", "set", "lo", "up")
                if not at:
                    ip("-n", name, "link", "add", "bridge", "type", "bridge")
                    ip("-n", name, "link", "set", "bridge", "up")
                    continue
                ip("-n", self.names[0], "link", "add", f"to{at}", "type", "veth", "peer", "name", "eth", "netns", name)
                ip("-n", self.names[0], "link", "set", f"to{at}", "master", "bridge", "up")
                ip("-n", name, "address", "add", f"{NET}.{at}/24", "dev", "eth")
                ip("-n", name, "link", "set", "eth", "up")
        except subprocess.CalledProcessError as fault:
            self.skipTest(f"no network namespaces here: {fault.stderr.decode().strip()}")
        folder = self.enterContext(tempfile.TemporaryDirectory())
        for at in MACHINES:
            environment = {**os.environ, **recipe(at), "ETCD_DATA_DIR": f"{folder}/{at}"}
            process = subprocess.Popen(["ip", "netns", "exec", self.names[at], "etcd"], env=environment, stdout=subprocess.DEVNULL, stderr=subprocess.DEVNULL)
            self.addCleanup(process.wait)
            self.addCleanup(process.kill)

    def term(self) -> Optional[int]:
        """That of all three; None: they don't agree, or don't all answer."""
        words = ["etcdctl", "--endpoints", ",".join(f"{NET}.{at}:2379" for at in MACHINES), "--command-timeout", "2s", "endpoint", "status", "-w", "json"]
        done = subprocess.run(["ip", "netns", "exec", self.names[1], *words], capture_output=True, env={**os.environ, "ETCDCTL_API": "3"}, timeout=LIMIT)
        found = [it["Status"] for it in json.loads(done.stdout or "[]") or []]
        terms = {it["header"]["raft_term"] for it in found if it.get("leader")}
        return terms.pop() if len(found) == len(MACHINES) and len(terms) == 1 and all(it.get("leader") for it in found) else None

    def test_a_machine_that_comes_back(self) -> None:
        """It takes the lead from nobody. One that asks to be voted for all the time that it is away has raised the term by three or more; one that
        is cut off while it leads, or a busy machine, by one."""
        terms = []
        for at in MACHINES:
            before = until(self.term, "all three agree")
            ip("-n", self.names[0], "link", "set", f"to{at}", "down")
            time.sleep(CUT)
            ip("-n", self.names[0], "link", "set", f"to{at}", "up")
            terms.append((before, until(self.term, "all three agree again")))
        self.assertLessEqual(min(after - before for before, after in terms), 1, terms)


if __name__ == "__main__":
    unittest.main()
