"""The command of a `hold` whose session is released if its client is gone: it ends with the hold."""

import os
import signal
import subprocess
import tempfile
import unittest
from unittest import mock

from labrun_broker.run import Signals, ending_too
from tests.brokers import BAY, LIMIT, OnBroker, until


class EndsToo(OnBroker):
    def test_of_one_that_is_released_if_it_is_gone(self) -> None:
        """Its command has all that another's has; and it ends with the hold, however that ends."""
        broker = self.broker(f'gone = "release"\n{BAY}')
        script = 'echo "$0 $* $LABRUN_HELD $PPID"; trap'
        for words, wanted in (
            (["sh", "-c", script, "-a", "b  c"], (0, r"^-a b  c scope \d+\n$", "")),
            (["sh", "-c", "kill -PIPE $$"], (128 + signal.SIGPIPE, "^$", "")),
            (["sh", "-c", "exit 7"], (7, "^$", "")),
            (["./nothing"], (127, "^$", "labrun-broker: ./nothing: No such file or directory\n")),
            (["there-is-no-such-program"], (127, "^$", "labrun-broker: there-is-no-such-program: No such file or directory\n")),
            ([f"{broker.folder}/bay.toml"], (126, "^$", f"labrun-broker: {broker.folder}/bay.toml: Permission denied\n")),
            (["/"], (126, "^$", "labrun-broker: /: Permission denied\n")),
        ):
            with self.subTest(words):
                done = broker.ran("hold", "scope", "--", *words)
                self.assertEqual((done.returncode, done.stderr), (wanted[0], wanted[2]))
                self.assertRegex(done.stdout, wanted[1])
        with tempfile.TemporaryDirectory() as folder:
            leaves = f"trap 'touch {folder}/left; exit' TERM; echo $PPID; while :; do sleep 0.1; done"
            runs = broker.started("hold", "load-1", "--", "sh", "-c", leaves)
            assert runs.stdout is not None
            self.assertEqual(runs.stdout.readline(), f"{runs.pid}\n")
            runs.kill()
            until(lambda: os.path.exists(f"{folder}/left"), "the command has SIGTERM")
            runs.communicate(timeout=LIMIT)

    def test_a_hold_that_is_dead_before_its_command_begins(self) -> None:
        """(The process that it is to end with is another one by then.)"""
        its = ending_too(["echo", "ran"], dict(os.environ))
        self.assertEqual(its[-3:], [str(os.getpid()), "echo", "ran"])
        for parent, wanted in ((os.getpid(), (0, b"ran\n")), (1, (-signal.SIGTERM, b""))):
            done = subprocess.run([*its[:-3], str(parent), *its[-2:]], stdout=subprocess.PIPE, timeout=LIMIT)
            self.assertEqual((done.returncode, done.stdout), wanted)

    def test_no_command_is_begun_by_python_in_a_fork(self) -> None:
        """gRPC's threads may crash of one: this process goes on with them, and the child doesn't."""
        for ends_too in (False, True):
            signals, forked = Signals(), list[str]()
            with mock.patch("os.fork", lambda: forked.append("fork")), mock.patch("subprocess._fork_exec", wraps=subprocess._fork_exec) as begun:  # type: ignore[attr-defined]
                signals.starts(["true"], dict(os.environ), ends_too)
            self.assertEqual((signals.wait(), forked), (0, []))
            # (the last but one is what it would call in the child, and the last whether it may be a vfork)
            self.assertEqual(begun.call_args.args[-2:], (None, True))


if __name__ == "__main__":
    unittest.main()
