"""A lab with a journal: what is in it, and what comes back."""

from __future__ import annotations

import gc
import itertools
import os
import signal
import subprocess
import sys
import threading
import time
import unittest
from typing import Any, Callable
from unittest import mock

import labrun
from labrun.store import FileStore
from tests.labs import NAMES, STATIONS, OnFile, are_gone, full, threads_since
from tests.benches import LIMIT, back, child, in_thread, until

# holds, notes and lets go, and says so once it was told; of another process its calls for the file are counted, and at one it is killed
KILLED = """
import itertools, os, signal, sys, threading
import labrun

# (two threads may call at once, and each number is one's own)
count, at, path = itertools.count(1), int(sys.argv[2]), sys.argv[1]

def dies(name, is_before):
    real = getattr(os, name)
    def call(*given):
        is_it = next(count) == at
        if is_it and is_before:
            os.kill(os.getpid(), signal.SIGKILL)
        if is_it and name == "pwrite":
            # half of it gets there
            real(given[0], given[1][: len(given[1]) // 2], given[2])
            os.kill(os.getpid(), signal.SIGKILL)
        told = real(*given)
        if is_it:
            os.kill(os.getpid(), signal.SIGKILL)
        return told
    setattr(os, name, call)

for name in ("pwrite", "fdatasync", "fsync", "ftruncate"):
    dies(name, sys.argv[3] == "before")

def told(text):
    os.write(1, text.encode())

lab = labrun.Lab(["scope", "supply", "load-1", "load-2"], journal=path)
for it in lab.resumed:
    it.release()
    told(f"-{it.number} ")
def work(name):
    for _ in range(4):
        with lab.hold(name) as held:
            told(f"+{held.number} ")
            held.note("n")
            told(f"n{held.number} ")
            told(f"~{held.number} ")
        told(f"-{held.number} ")
threads = [threading.Thread(target=work, args=(name,)) for name in ("scope", "supply")]
for it in threads: it.start()
for it in threads: it.join()
lab.close()
"""


class InTheFile(OnFile):
    def test_lines(self) -> None:
        """What a call told is there before it returns."""
        lab = self.opened("data")
        self.assertEqual([it[0] for it in self.words()], ["bay"])
        held = self.held(lab, "board", "scope", note="ripple")
        hold, note = self.words()[1:]
        self.assertEqual((hold[:2], hold[6], note), (["hold", f"{1:016x}"], "-" * 16, ["note", f"{1:016x}", "ripple"]))
        held.note("3.3 V")
        self.assertEqual(self.words()[-1], ["note", f"{1:016x}", "3.3", "V"])
        held.release()
        self.assertEqual(self.words()[-1][:3], ["end", f"{1:016x}", "let_go"])
        held = self.held(lab, "", "load-1")
        lab.take_away(held)
        self.assertEqual(self.words()[-1][:3], ["end", f"{2:016x}", "taken_away"])
        with self.assertRaises(labrun.TakenAway):
            held.release()

    def test_owner(self) -> None:
        """The owner of an ask is 1 and its number: so it comes back."""
        self.held(self.opened(), "", "scope")
        self.assertEqual(self.words()[1][4], f"{1:016x}{1:016x}")

    def test_tokens_rise_over_a_restart(self) -> None:
        """Whoever comes back has its own, and all that come later have larger ones, also than those of sessions that are over."""
        lab = self.opened()
        held = self.held(lab, "", "scope")
        self.held(lab, "", "load-1").release()
        lab.close()
        self.assertEqual([it[8] for it in self.words() if it[0] == "hold"], [f"{1:016x}", f"{2:016x}"])
        lab = self.opened()
        (it,) = lab.resumed
        self.assertEqual((held.token, it.token, self.held(lab, "", "load-1").token), (1, 1, 3))

    def test_nothing_that_nobody_did(self) -> None:
        """Of one that leaves while it waits, also just as it is let in, no line says that it held."""
        for is_first in (True, False):
            lab = self.opened()
            number = lab.hold("scope")
            first, second = self.held(lab, "", "scope"), lab.hold("scope")
            thread = self.waits(second, [])
            shell: Any = lab._shell
            if is_first:
                shell.leave(second)
            else:
                # (the writer can't come between)
                with shell.mutex:
                    shell.lets_go(first)
                    shell.leave(second)
                until(lambda: first.state == "finished")
            self.assertNotIn(["hold", f"{second.number:016x}"], [it[:2] for it in self.words()])
            if first.held:
                first.release()
            self.is_empty(lab)
            shell.wakes(second)
            back(thread)
            lab.close()
            os.remove(self.path)
            self.assertEqual(number.state, "new")

    def test_found_is_written_again(self) -> None:
        """A sync that failed before the process was killed may leave bytes that the system takes for written, and that no later sync brings to
        the disk: so whoever opens the file writes all of them again, and then syncs."""
        lab = self.opened()
        self.held(lab, "", "scope")
        kept, calls = self.text(), list[tuple[str, int, bytes]]()
        path = self.path + "-copy"
        with open(path, "wb") as copy:
            copy.write(kept)
        real = os.pwrite, os.fsync

        def writes(file: int, text: bytes, place: int) -> int:
            calls.append(("write", place, bytes(text)))
            return real[0](file, text, place)

        def syncs(file: int) -> None:
            calls.append(("sync", 0, b""))
            real[1](file)

        with mock.patch("os.pwrite", writes), mock.patch("os.fsync", syncs):
            store = FileStore(path)
            store.cut(len(kept) - 1)
            # (a cut after a write that failed has nothing to find)
            store.cut(len(kept) - 2)
            store.close()
        self.assertEqual(calls[:2], [("write", 0, kept[:-1]), ("sync", 0, b"")])
        self.assertEqual([it[0] for it in calls], ["write", "sync", "sync", "sync", "sync"])
        with mock.patch("os.pwrite", writes):
            calls.clear()
            store = FileStore(path, syncs=False)
            store.cut(len(kept) - 2)
            store.close()
        self.assertEqual(calls, [])

    def test_folder(self) -> None:
        """A new file's folder is synced before the open returns; and what is read is synced before anybody is told."""
        for sync, wanted in (("data", True), ("none", False)):
            for is_new in (True, False):
                synced: list[bool] = []
                real = os.fsync

                def fsync(file: int) -> None:
                    synced.append(os.path.isdir(f"/proc/self/fd/{file}"))
                    real(file)

                with mock.patch.object(os, "fsync", fsync):
                    self.opened(sync).close()
                self.assertEqual((synced.count(True), synced.count(False)), (1, 1) if wanted else (0, 0), is_new)
            os.remove(self.path)

    def test_group(self) -> None:
        """Those who ask while the disk is busy share the next write."""
        lab, writes, goes_on = self.opened(), [], threading.Event()

        def append(text: bytes, real: Callable[[bytes], None]) -> None:
            writes.append(text)
            goes_on.wait(LIMIT)
            real(text)

        with self.disk(lab, append):
            threads = [in_thread(lambda name=name: self.held(lab, "", name)) for name in NAMES[:1]]
            until(lambda: len(writes) == 1)
            threads += [in_thread(lambda name=name: self.held(lab, "", name)) for name in NAMES[1:]]
            until(lambda: len(lab.sessions()) == 4)
            goes_on.set()
            for thread in threads:
                back(thread)
        self.assertEqual([it.count(b" hold ") for it in writes], [1, 3])


class ComesBack(OnFile):
    def test_resumed(self) -> None:
        lab = self.opened()
        held = self.held(lab, "board", "scope", note="one")
        held.note("two")
        with lab.station("drive").hold("supply"):
            pass
        lab.close()
        self.written(self.text() + b"0123456789abcdef end 00000")
        for _ in range(2):
            # (until somebody releases it, it comes back again and again)
            lab = self.opened()
            (it,) = lab.resumed
            self.assertEqual((it.number, it.station, it.instruments), (1, "board", ("scope",)))
            self.assertEqual((it.resumed, it.state, it.notes), (True, "held", ("one", "two")))
            self.assertEqual([one[:4] for one in lab.sessions()], [(1, "board", ("scope",), True)])
            self.in_vain(lab.hold("scope", timeout=0), r"scope has been held by session 1 of board \(two\)")
            lab.close()
        lab = self.opened()
        (it,) = lab.resumed
        it.note("three")
        with it as entered:
            self.assertIs(entered, it)
        self.assertEqual(it.state, "finished")
        with lab.hold("scope", timeout=0) as held:
            # (numbers go on)
            self.assertGreater(held.number, 2)
        self.assertEqual([it[3:] for it in self.words() if it[0] == "note"], [[], [], []])
        lab.close()
        self.assertEqual(self.opened().resumed, ())

    def test_resumed_is_taken_away(self) -> None:
        lab = self.opened()
        self.held(lab, "", "scope")
        lab.close()
        lab = self.opened()
        thread = self.waits(lab.hold("scope"))
        self.assertEqual(lab.take_away(lab.resumed[0]), ("scope",))
        back(thread)

    def test_resumed_is_entered_once(self) -> None:
        """Whoever comes again, from another thread or once it has let go, is told, and so is whoever comes to one that was taken away."""
        lab = self.opened()
        numbers = [self.held(lab, "", name).number for name in ("scope", "supply")]
        lab.close()
        lab = self.opened()
        first, second = lab.resumed
        with first:
            with self.assertRaisesRegex(labrun.NotHeld, "session 1 of a guest is held: it is entered once"), first:
                self.fail("it was entered")
            self.assertTrue(first.held)
        with self.assertRaisesRegex(labrun.NotHeld, "session 1 of a guest is finished"), first:
            self.fail("it was entered")
        lab.take_away(numbers[1])
        with self.assertRaises(labrun.TakenAway), second:
            self.fail("it was entered")
        self.is_empty(lab)

    def test_since(self) -> None:
        """How long it holds goes on over a restart, also if somebody sets the clock back meanwhile."""
        lab = self.opened()
        self.held(lab, "", "scope")
        before = lab.sessions()[0].since
        lab.close()
        real = time.time_ns
        for shift in (0, -3600):
            with mock.patch.object(time, "time_ns", lambda: real() + shift * 10**9):
                lab = self.opened()
                begun = time.monotonic()
                self.in_vain(lab.hold("scope", timeout=0.05), r"scope has been held by session 1 of a guest for \d")
                self.assertGreaterEqual(time.monotonic() - begun, 0.05)
                if not shift:
                    self.assertAlmostEqual(lab.sessions()[0].since, before, delta=0.1)
                lab.close()

    def test_every_cut(self) -> None:
        """Cut anywhere, it goes on: just those hold that the whole lines say."""
        lab = self.opened()
        first = self.held(lab, "board", "scope")
        second = self.held(lab, "", "load-1", note="x")
        first.release()
        third = self.held(lab, "radio", "scope")
        lab.close()
        self.assertEqual([it.number for it in (first, second, third)], [1, 2, 3])
        text = self.text()
        ends = [at for at in range(len(text) + 1) if at % 9 == 0 or b"\n" in text[max(0, at - 2) : at + 1]]
        for end in ends:
            self.written(text[:end])
            holds: set[int] = set()
            for line in text[:end].split(b"\n")[:-1]:
                words = line[17:].split(b" ")
                if words[0] == b"hold":
                    holds.add(int(words[1], 16))
                elif words[0] == b"end":
                    holds.discard(int(words[1], 16))
            lab = self.opened()
            self.assertEqual({it.number for it in lab.resumed}, holds, end)
            for it in lab.resumed:
                it.release()
            self.is_empty(lab)
            lab.close()

    def test_the_writer_sleeps(self) -> None:
        """As long as nobody calls, it takes nothing of the processor's time."""
        lab = self.opened()
        self.held(lab, "", "scope").release()
        time.sleep(0.1)
        begun = time.process_time()
        time.sleep(0.4)
        self.assertLess(time.process_time() - begun, 0.1)

    def test_left_behind(self) -> None:
        """A lab that was dropped without `close` leaves no thread. What was told is in its file, which another may have by then."""
        before = set(threading.enumerate())
        for syncs, more in itertools.product(("data", "none"), ({}, {"timeout": LIMIT})):
            # (`opened` would keep it until the end of the test)
            lab = labrun.Lab(NAMES, journal=self.path, sync=syncs)
            with lab.hold("supply", **more), lab.hold("load-1", note="one"):
                self.assertEqual(len(threads_since(before)), 1 + bool(more))
            held = self.held(lab, "", "scope", note="two", **more)
            number = held.number
            del lab, held
            until(lambda: are_gone(before))
            lab = labrun.Lab(NAMES, journal=self.path)
            self.assertEqual([(it.number, it.instruments, it.notes) for it in lab.resumed], [(number, ("scope",), ("two",))])
            lab.close()
            os.remove(self.path)

    def test_left_behind_on_a_full_disk(self) -> None:
        """What whoever let go was told comes as soon as there is room comes, though nobody has the lab by then."""
        before, is_full = set(threading.enumerate()), [True]

        def append(text: bytes, real: Callable[[bytes], None]) -> None:
            if is_full[0]:
                raise full()
            real(text)

        lab = labrun.Lab(NAMES, journal=self.path)
        held = self.held(lab, "", "scope")
        with self.disk(lab, append):
            with self.assertRaises(labrun.JournalError):
                held.release()
            del lab, held
            gc.collect()
            self.assertEqual(len(threads_since(before)), 1)
            is_full[0] = False
            until(lambda: b" end " in self.text())
        until(lambda: are_gone(before))
        self.assertEqual(labrun.Lab(NAMES, journal=self.path).resumed, ())

    def test_changed(self) -> None:
        """A byte that was changed is refused, and the line is told."""
        lab = self.opened()
        self.held(lab, "", "scope", note="x").release()
        lab.close()
        text = self.text()
        for at in range(0, len(text), 7):
            if text[at : at + 1] == b"\n":
                continue
            self.written(text[:at] + bytes([text[at] ^ 1]) + text[at + 1 :])
            with self.assertRaises(labrun.JournalError) as fault:
                self.opened()
            if at > text.index(b"\n"):
                self.assertEqual(fault.exception.line, text[:at].count(b"\n") + 1)
            # (it is as it was)
            self.assertEqual(len(self.text()), len(text))

    def test_another_lab(self) -> None:
        self.opened().close()
        with self.assertRaisesRegex(labrun.JournalError, "bay.journal: it is no journal of a lab with these instruments and stations"):
            labrun.Lab(["scope"], journal=self.path)
        self.written(b"lab 2\njob a\n")
        with self.assertRaises(labrun.JournalError):
            self.opened()

    def test_may_not_use_any_more(self) -> None:
        lab = self.opened()
        self.held(lab, "board", "scope", "supply")
        lab.close()
        with self.assertRaisesRegex(labrun.JournalError, "session 1 holds there what it may not use any more"):
            labrun.Lab(NAMES, stations={**STATIONS, "board": ["scope"]}, journal=self.path)
        # (and nobody has the file)
        self.opened().close()

    def test_second_process(self) -> None:
        lab = self.opened()
        with self.assertRaisesRegex(labrun.JournalError, "another process has it open"):
            self.opened()
        code = "import sys, labrun\ntry: labrun.Lab(['a'], journal=sys.argv[1])\nexcept labrun.JournalError as fault: print(fault)"
        ran = subprocess.run([sys.executable, "-c", code, self.path], env=child(), capture_output=True, text=True, timeout=LIMIT)
        self.assertEqual((ran.stdout, ran.stderr), (f"{self.path}: another process has it open\n", ""))
        lab.close()
        self.opened()

    def test_child_that_lives_on(self) -> None:
        """A fork of the process keeps nobody from the file once the process has closed it."""
        lab = self.opened()
        (out, into), (told, tells) = os.pipe(), os.pipe()
        process = os.fork()
        if not process:
            os.close(into)
            os.write(tells, b"x")
            os.read(out, 1)
            os._exit(0)
        os.close(out)
        try:
            # (it is there by now)
            os.read(told, 1)
            lab.close()
            self.opened().close()
        finally:
            for end in (into, told, tells):
                os.close(end)
            os.waitpid(process, 0)

    def test_wrong_arguments(self) -> None:
        """They leave no file, and no lock."""
        with self.assertRaises(ValueError):
            self.opened(station="kitchen")
        self.assertEqual(os.listdir(self.folder), [])

    def test_cannot_be_opened(self) -> None:
        for path in (f"{self.folder}/none/j", self.folder):
            with self.assertRaisesRegex(labrun.JournalError, "it can't be opened"):
                labrun.Lab(NAMES, journal=path)

    def test_killed(self) -> None:
        """At each call that changes the file, in turn, before it and behind it, or with half of it written: whoever was told holds comes
        back, whoever was told that it let go doesn't, and what was told that it is noted is there."""
        for when in ("before", "after"):
            at, is_over = 1, False
            while not is_over:
                is_over = self.killed(at, when)
                os.remove(self.path)
                at += 1 if at < 12 else 3
            self.assertGreater(at, 12)

    def killed(self, at: int, when: str) -> bool:
        """Whether it came to its end before."""
        ran = subprocess.run([sys.executable, "-c", KILLED, self.path, str(at), when], env=child(), capture_output=True, timeout=LIMIT)
        self.assertIn(ran.returncode, (0, -signal.SIGKILL), ran.stderr)
        told = ran.stdout.decode().split()
        holds = {int(it[1:]) for it in told if it[0] == "+"} - {int(it[1:]) for it in told if it[0] == "~"}
        lab = labrun.Lab(NAMES, journal=self.path)
        found = {it.number: it for it in lab.resumed}
        self.assertLessEqual(holds, set(found))
        self.assertFalse(set(found) & {int(it[1:]) for it in told if it[0] == "-"})
        notes = {int(it[1], 16) for it in self.words() if it[0] == "note"}
        self.assertLessEqual({int(it[1:]) for it in told if it[0] == "n"}, notes)
        for it in found.values():
            it.release()
        self.is_empty(lab)
        lab.close()
        return ran.returncode == 0


if __name__ == "__main__":
    unittest.main()
