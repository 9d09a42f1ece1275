"""Runs that hold at a labrun-broker, which others use, too."""

from __future__ import annotations

import contextlib
import json
import os
import re
import signal
import socket
import subprocess
import sys
import threading
import time
from pathlib import Path
from types import SimpleNamespace
from typing import Any, Iterator

import labrun
import pytest

from pytest_labrun.desk import SocketDesk
from pytest_labrun.labs import BrokerLab, OwnLab
from pytest_labrun.past import Past
from pytest_labrun.server import Server

from .conftest import BINDINGS, NAMES, Run
from .test_parts import sleeps_until
from .test_workers import SHARED, read

pytest.importorskip("xdist")
pytest.importorskip("grpc")
if not (BINDINGS / "broker").is_dir() and "BROKER" not in os.environ:
    pytest.skip("there is no broker beside the plugin", allow_module_level=True)

BROKER = os.environ.get("BROKER", str(BINDINGS / "broker"))


@pytest.fixture
def broker(run: Run, tmp_path_factory: pytest.TempPathFactory, monkeypatch: pytest.MonkeyPatch) -> Iterator[str]:
    """The address of a broker that keeps the bay, for guests."""
    folder = tmp_path_factory.mktemp("b")
    monkeypatch.setenv("PYTHONPATH", os.pathsep.join([os.environ["PYTHONPATH"], BROKER]))
    names = ", ".join(f'"{name}"' for name in NAMES)
    (folder / "bay.toml").write_text(f"instruments = [{names}]\n[guests]\ncount = 24\n")
    address = f"unix:{folder}/bay.sock"
    with serves(folder, "--listen", address):
        yield address


@contextlib.contextmanager
def serves(folder: Path, *words: str) -> Iterator[subprocess.Popen[bytes]]:
    """A broker in a folder with its bay."""
    words = (sys.executable, "-m", "labrun_broker", "serve", "bay.toml", *words)
    with open(folder / "log", "w", encoding="utf-8") as log:
        process = subprocess.Popen(words, cwd=folder, stdout=log, stderr=log)
    try:
        for _ in range(1200):
            if (folder / "bay.sock").exists() or process.poll() is not None:
                break
            time.sleep(0.05)
        assert process.poll() is None, (folder / "log").read_text()
        yield process
    finally:
        process.terminate()
        process.wait(60)


def test_alone(pytester: pytest.Pytester, run: Run, broker: str) -> None:
    pytester.makepyfile(SHARED)
    run("--lab-broker", broker, "--lab-report", "it.csv").assert_outcomes(passed=33)
    assert {it["end"] for it in read(pytester.path / "it.csv")} == {"done"}


def test_two_runs_at_once(pytester: pytest.Pytester, run: Run, broker: str) -> None:
    """With three workers each, and somebody who holds by hand meanwhile. (The instruments refused nobody: the fixture `bay`.)"""
    pytester.makepyfile(SHARED)
    words = [sys.executable, "-m", "pytest", "-q", "-p", "pytest_labrun.plugin", "-p", "no:cacheprovider", "--lab-broker", broker, "-n", "3"]
    rooms = [pytester.mkdir(name) for name in ("one", "other")]
    runs = [subprocess.Popen([*words, f"--basetemp={room}/t"], cwd=pytester.path, stdout=subprocess.PIPE, text=True) for room in rooms]
    hand = [sys.executable, "-m", "labrun_broker", "hold", "--broker", broker, "scope", "--", "sleep", "0.5"]
    time.sleep(2)
    assert subprocess.run(hand, timeout=300).returncode == 0
    for one in runs:
        told = one.communicate(timeout=300)[0]
        assert one.returncode == 0 and "33 passed" in told, told


@pytest.mark.parametrize("words", [(), ("-n", "1")], ids=["alone", "workers"])
@pytest.mark.parametrize(("is_there", "gone"), [(True, "keep"), (False, "keep"), (False, "release")], ids=["there", "gone", "released"])
def test_control_c(
    pytester: pytest.Pytester, run: Run, tmp_path: Path, monkeypatch: pytest.MonkeyPatch, is_there: bool, gone: str, words: tuple[str, ...]
) -> None:
    """What is held is let go behind the tear-down; a broker that is gone by then is waited for once, for ten seconds here, or for as long as a
    session is held without a word of it; and that is told."""
    pytester.makeconftest("from pytest_labrun import holding, server\nholding.PATIENCE = server.PATIENCE = 10.0\n")
    pytester.makepyfile(
        """
        import os, time
        import labrun_broker
        import pytest
        @pytest.fixture
        def scope():
            yield
            try:
                with labrun_broker.connect(os.environ["AT"]) as lab:
                    held = [it["name"] for it in lab.status()["instruments"] if it["holder"]]
            except labrun_broker.Unreachable:
                held = "nobody answers"
            with open("torn_down", "w") as file:
                file.write(str(held))
        @pytest.mark.instruments("scope")
        def test_long(scope):
            with open("runs", "w"):
                pass
            time.sleep(100)
        """
    )
    monkeypatch.setenv("PYTHONPATH", os.pathsep.join([os.environ["PYTHONPATH"], BROKER]))
    monkeypatch.setenv("AT", address := f"unix:{tmp_path}/bay.sock")
    (tmp_path / "bay.toml").write_text(f'gone = "{gone}"\ninstruments = ["scope"]\n[guests]\ncount = 2\n')
    with serves(tmp_path, "--listen", address, "--grace", "4") as broker:
        line = [sys.executable, "-m", "pytest", "-p", "pytest_labrun.plugin", "-p", "no:cacheprovider", "--lab-broker", address, *words]
        # (a terminal tells all processes of the run)
        process = subprocess.Popen(line, cwd=pytester.path, stdout=subprocess.PIPE, stderr=subprocess.STDOUT, text=True, start_new_session=True)
        sleeps_until((pytester.path / "runs").exists)
        if not is_there:
            broker.kill()
            broker.wait()
        begun = time.monotonic()
        os.killpg(process.pid, signal.SIGINT)
        told = process.communicate(timeout=120)[0]
        assert process.returncode == pytest.ExitCode.INTERRUPTED and "KeyboardInterrupt" in told, told
        assert (pytester.path / "torn_down").read_text() == ("['scope']" if is_there else "nobody answers")
        if is_there:
            assert "Warning" not in told, told
            status = subprocess.check_output([sys.executable, "-m", "labrun_broker", "status", "--broker", address, "--json"], timeout=60)
            assert [it["holder"] for it in json.loads(status)["instruments"]] == [None]
        else:
            why = "the broker hasn't answered for 10 s, and may show them as gone" if gone == "keep" else "TakenAway: .* for more than 3 s, so the session is over"
            assert re.search(("instruments of an interrupted test: " if words else "its instruments were no longer held at its end: ") + why, told), told
            # (and not twice ten; a busy machine takes some seconds more)
            assert time.monotonic() - begun < 19


def test_a_killed_worker_lets_go(pytester: pytest.Pytester, run: Run, broker: str) -> None:
    pytester.makepyfile(
        """
        import os, signal
        import pytest
        pytestmark = pytest.mark.instruments("scope")

        @pytest.mark.parametrize("number", range(5))
        def test_it(number, talk, instruments):
            instruments.note("here")
            if number == 2:
                os.kill(os.getpid(), signal.SIGKILL)
        """
    )
    run("-n", "2", "--lab-broker", broker, "--lab-timeout", "20").assert_outcomes(passed=4, failed=1)


def test_others_hold_what_a_test_needs(pytester: pytest.Pytester, run: Run, broker: str) -> None:
    """It says whom it waits for, and the others run meanwhile."""
    hand = [sys.executable, "-m", "labrun_broker", "hold", "--broker", broker, "scope", "--", "sh", "-c", "echo held; exec cat"]
    process = subprocess.Popen(hand, stdin=subprocess.PIPE, stdout=subprocess.PIPE, text=True)
    assert process.stdout is not None and process.stdout.readline() == "held\n"
    pytester.makepyfile(SHARED)
    done = run("-n", "2", "--lab-broker", broker, "--lab-timeout", "1", "-k", "test_any_load or test_without or number")
    process.communicate(timeout=60)
    outcomes = done.parseoutcomes()
    assert outcomes["passed"] >= 1 and outcomes["errors"] >= 8
    done.stdout.fnmatch_lines(["waited ?.? s for *scope*: *scope*held by guest-*"])
    done.stdout.no_fnmatch_line("*doesn't wait*")


def test_its_time_was_over_before_it_asked(pytester: pytest.Pytester, run: Run, broker: str) -> None:
    """The second is sent to a worker that has been idle for as long as a test may wait."""
    hand = [sys.executable, "-m", "labrun_broker", "hold", "--broker", broker, "scope", "--", "sh", "-c", "echo held; exec cat"]
    process = subprocess.Popen(hand, stdin=subprocess.PIPE, stdout=subprocess.PIPE, text=True)
    assert process.stdout is not None and process.stdout.readline() == "held\n"
    pytester.makepyfile("import pytest\n@pytest.mark.instruments('scope')\n@pytest.mark.parametrize('at', range(2))\ndef test_it(at): pass\n")
    done = run("-n", "2", "--lab-broker", broker, "--lab-timeout", "3")
    process.communicate(timeout=60)
    done.assert_outcomes(errors=2)
    done.stdout.fnmatch_lines(["waited *.? s for scope: its time limit of 3 s was over: scope has been held by guest-*"])
    done.stdout.no_fnmatch_line("*doesn't wait*")


TAKEN = """
    import json, os, subprocess, sys, time
    import labrun_broker, pytest

    @pytest.mark.instruments("scope")
    def test_it(instruments):
        began = time.monotonic()
        instruments.note("before")
        with labrun_broker.connect(os.environ["BROKER"]) as lab:
            [station] = [it["holder"] for it in lab.status()["instruments"] if it["name"] == "scope"]
        subprocess.run([sys.executable, "-m", "labrun_broker", "release", "--broker", os.environ["BROKER"], station], check=True)
        time.sleep(float(os.environ["SLEEPS"]))
        for _ in range(int(os.environ["NOTES"])):
            instruments.note("after")
        with open("took", "w") as file:
            file.write(str(time.monotonic() - began))
"""


@pytest.mark.parametrize("words", [(), ("-n", "2")], ids=["alone", "workers"])
@pytest.mark.parametrize(("sleeps", "notes"), [(0, 1), (4, 2), (4, 0)])
def test_taken_away(
    pytester: pytest.Pytester, run: Run, broker: str, monkeypatch: pytest.MonkeyPatch, words: tuple[str, ...], sleeps: int, notes: int
) -> None:
    """Whether it notes something behind that, or not. It held until then."""
    for name, value in (("BROKER", broker), ("SLEEPS", str(sleeps)), ("NOTES", str(notes))):
        monkeypatch.setenv(name, value)
    pytester.makepyfile(TAKEN)
    done = run(*words, "--lab-broker", broker, "--lab-report", "it.csv")
    done.assert_outcomes(passed=1)
    done.stderr.fnmatch_lines(["*PytestWarning: its instruments were no longer held at its end: TakenAway: *"])
    [row] = read(pytester.path / "it.csv")
    assert (row["end"], row["instruments"], row["notes"]) == ("taken", "scope", "before")
    if sleeps:
        took = float((pytester.path / "took").read_text())
        assert 0 <= float(row["held"]) < took - sleeps / 2


NOTES = """
    import labrun_broker, pytest
    pytestmark = pytest.mark.instruments("scope")

    @pytest.mark.parametrize("note", ["M" * 500, 3.3, None, "", "two\\nlines"], ids=["500", "number", "none", "empty", "lines"])
    def test_it(instruments, note):
        instruments.note(note)

    def test_long(instruments):
        instruments.note("L" * 501)

    def test_half(instruments):
        instruments.note("caf\\udce9")

    def test_again(instruments):
        with pytest.raises(labrun_broker.BadWish, match="^a note of 501 characters; 500 are the most$"):
            instruments.note("L" * 501)
        instruments.note("a short one")
"""


@pytest.mark.parametrize("words", [(), ("-n", "2")], ids=["alone", "workers"])
def test_a_note_that_the_broker_refuses(pytester: pytest.Pytester, run: Run, broker: str, tmp_path: Path, words: tuple[str, ...]) -> None:
    """The test that wrote it is told why. Each other note is in the broker's records and in the report."""
    (tmp_path / "bay.toml").write_text('instruments = ["scope"]\n[guests]\ncount = 3\n')
    at = f"unix:{tmp_path}/bay.sock"
    pytester.makepyfile(NOTES)
    with serves(tmp_path, "--state", "state", "--listen", at):
        done = run(*words, "--lab-broker", at, "--lab-report", "it.csv")
    done.assert_outcomes(passed=6, failed=2)
    told = [line for line in done.outlines if line.startswith("E  ")]
    refused = ["a note of 501 characters; 500 are the most", "'caf\\udce9' has half of a character, which can't be sent"]
    assert sorted(told) == sorted(f"E       labrun_broker.errors.BadWish: {why}" for why in refused)
    # (the line of the test is shown, and none of the plugin's)
    done.stdout.fnmatch_lines(['>       instruments.note("L" * 501)'])
    done.stdout.no_fnmatch_line("*pytest_labrun*: *")
    noted = ["", "", "", "3.3", "M" * 500, "None", "a short one", "two\nlines"]
    assert sorted(row["notes"] for row in read(pytester.path / "it.csv")) == noted
    with open(tmp_path / "state" / "records.jsonl", encoding="utf-8") as file:
        records = [json.loads(line) for line in file]
    notes = [it.get("text") or "" for it in records if it.get("what") == "note"]
    assert sorted(it for it in notes if "::test_" not in it) == sorted(["", "3.3", "M" * 500, "None", "a short one", "two\nlines"])


def test_what_a_note_raises(monkeypatch: pytest.MonkeyPatch) -> None:
    """What the broker says, as its own client would raise it; the session holds on, and its other notes are kept."""
    monkeypatch.syspath_prepend(BROKER)
    import labrun_broker

    class Full(OwnLab):
        async def note(self, session: Any, text: str) -> None:
            if text == "the disk is full":
                raise labrun_broker.JournalError(text)
            if text == "it is gone":
                raise labrun_broker.Unreachable(text)

    server = Server(Full, Past())
    server.start()
    try:
        desk = SocketDesk(server.path, "gw0")
        desk.collected([((0,), (("scope",),))])
        desk.hold("test_it", [("scope",)], None)
        assert desk.note("one") is None
        with pytest.raises(labrun_broker.JournalError, match="^the disk is full$"):
            desk.note("the disk is full")
        with pytest.raises(labrun_broker.Unreachable, match="^it is gone$"):
            desk.note("it is gone")
        assert desk.note("two") is None and desk.let_go() is None
    finally:
        server.stop()
    [held] = server.past.sessions
    assert (held.notes, held.end) == (["one", "two"], "done")


def test_a_broker_that_begins_again(monkeypatch: pytest.MonkeyPatch) -> None:
    """Who is at the instruments is seen again, until the lab is closed."""
    closed, watches = threading.Event(), iter(["guest-1", "guest-2"])

    class Client:
        by = "ann"

        def status(self) -> Any:
            return {"instruments": [{"name": "scope", "tags": []}]}

        def watch(self) -> Iterator[Any]:
            holder = next(watches)
            yield {"instruments": [{"name": "scope", "holder": holder}]}
            if holder == "guest-1":
                raise ConnectionError
            closed.wait(60)
            raise labrun.Closed("the lab is closed")

        def close(self, patience: float) -> None:
            closed.set()

    def is_watched() -> bool:
        return any(it.name == "labrun-watch" for it in threading.enumerate())

    monkeypatch.setitem(sys.modules, "labrun_broker", SimpleNamespace(connect=lambda address: Client()))
    lab = BrokerLab("unix:none")
    sleeps_until(lambda: lab.in_use() == {"scope": "guest-2"})
    lab.close(1.0)
    sleeps_until(lambda: not is_watched())


def test_unknown_instruments_and_no_broker(pytester: pytest.Pytester, run: Run, broker: str, tmp_path: Path) -> None:
    pytester.makepyfile("import pytest\n@pytest.mark.instruments('oven')\ndef test_it(): pass\n")
    run("--lab-broker", broker).stdout.fnmatch_lines([f"*:2: unknown instrument 'oven': there are {', '.join(NAMES)}"])
    run("--lab-broker", broker, "-n", "2").stdout.fnmatch_lines(["*:2: unknown instrument 'oven'*"])
    for words in ((), ("-n", "2")):
        done = run("--lab-broker", f"unix:{tmp_path}/none.sock", *words)
        assert done.ret == pytest.ExitCode.USAGE_ERROR
        done.stderr.fnmatch_lines([f"ERROR: --lab-broker unix:{tmp_path}/none.sock: *can't be reached*"])


def test_a_broker_with_tls(pytester: pytest.Pytester, run: Run, broker: str, monkeypatch: pytest.MonkeyPatch, tmp_path: Path) -> None:
    """Its certificate and the token are in the files that the environment names."""
    its = "openssl req -x509 -newkey ec -pkeyopt ec_paramgen_curve:prime256v1 -nodes -days 2 -subj /CN=localhost -addext subjectAltName=DNS:localhost"
    subprocess.run([*its.split(), "-keyout", tmp_path / "key", "-out", tmp_path / "certificate"], check=True, capture_output=True)
    (tmp_path / "bay.toml").write_text('instruments = ["scope"]\n[guests]\ncount = 2\n')
    (tmp_path / "token").write_text("a token of a test's\n")
    (tmp_path / "token").chmod(0o600)
    with socket.create_server(("127.0.0.1", 0)) as free:
        at = f"localhost:{free.getsockname()[1]}"
    pytester.makepyfile("import pytest\n@pytest.mark.instruments('scope')\ndef test_it():\n    pass\n")
    words = ("--tls-certificate", "certificate", "--tls-key", "key", "--token-file", "token")
    with serves(tmp_path, "--listen", f"unix:{tmp_path}/bay.sock", "--listen", at, *words):
        monkeypatch.setenv("LABRUN_BROKER_TOKEN_FILE", str(tmp_path / "token"))
        assert run("--lab-broker", at).ret == pytest.ExitCode.USAGE_ERROR
        monkeypatch.setenv("LABRUN_BROKER_CERTIFICATE_FILE", str(tmp_path / "certificate"))
        run("--lab-broker", at).assert_outcomes(passed=1)


def test_by(pytester: pytest.Pytester, run: Run, broker: str, monkeypatch: pytest.MonkeyPatch) -> None:
    """Others see whose run it is, and in which folder."""
    monkeypatch.setenv("BROKER", broker)
    pytester.makepyfile(
        """
        import os
        import labrun_broker, pytest

        @pytest.mark.instruments("scope")
        def test_it(instruments):
            with labrun_broker.connect(os.environ["BROKER"]) as lab:
                [by] = [it["by"] for it in lab.status()["stations"] if it["instruments"] == ["scope"]]
            assert "@" in by and (len(by) == 64 or by.endswith(" in " + os.path.basename(os.getcwd()))), by
        """
    )
    run("--lab-broker", broker).assert_outcomes(passed=1)


@pytest.mark.parametrize(("words", "worker"), [((), "pytest without workers"), (("-n", "1"), "gw0")], ids=["alone", "workers"])
def test_which_test_it_is(pytester: pytest.Pytester, run: Run, broker: str, monkeypatch: pytest.MonkeyPatch, words: tuple[str, ...], worker: str) -> None:
    """Others see the test that holds, and in which process of the run, in words for those who don't know pytest."""
    monkeypatch.setenv("BROKER", broker)
    monkeypatch.setenv("WORKER", worker)
    pytester.makepyfile(
        """
        import os
        import labrun_broker, pytest

        @pytest.mark.instruments("scope")
        def test_it(instruments):
            with labrun_broker.connect(os.environ["BROKER"]) as lab:
                [note] = [it["note"] for it in lab.status()["stations"] if it["instruments"] == ["scope"]]
            assert note.endswith("::test_it (" + os.environ["WORKER"] + ")"), note
        """
    )
    run("--lab-broker", broker, *words).assert_outcomes(passed=1)


def test_a_long_name(pytester: pytest.Pytester, run: Run, broker: str, monkeypatch: pytest.MonkeyPatch, tmp_path: Path) -> None:
    """Others see its beginning and its end, as far as the bay takes it; and the test holds all the same."""
    pytester.makepyfile(
        """
        import os
        import labrun_broker, pytest

        @pytest.mark.parametrize("at", ["x" * 700, "y" * 70, "z"], ids=["x" * 700, "y" * 70, "z"])
        @pytest.mark.instruments("scope")
        def test_it(at, instruments):
            with labrun_broker.connect(os.environ["BROKER"]) as lab:
                [note] = [it["note"] for it in lab.status()["stations"] if it["instruments"] == ["scope"]]
            whole, most = f"test_a_long_name.py::test_it[{at}] (gw0)", int(os.environ["MOST"])
            assert note.startswith("test_a_long") and note.endswith("(gw0)"), note
            assert note == whole if len(whole) <= most else ".." in note and most // 2 <= len(note) <= most, note
        """
    )
    names = ", ".join(f'"{name}"' for name in NAMES)
    (tmp_path / "bay.toml").write_text(f"instruments = [{names}]\n[guests]\ncount = 24\n[limits]\nnote = 62\n")
    with serves(tmp_path, "--listen", f"unix:{tmp_path}/bay.sock"):
        for at, most in (broker, 500), (f"unix:{tmp_path}/bay.sock", 62):
            monkeypatch.setenv("BROKER", at)
            monkeypatch.setenv("MOST", str(most))
            run("--lab-broker", at, "-n", "1").assert_outcomes(passed=3)
