"""Parts by themselves: needs, the order of dealing, the talk over the socket, the table."""

from __future__ import annotations

import asyncio
import os
import signal
import threading
import time
from typing import Any, Callable, Iterator

import pytest

from pytest_labrun.desk import NotHeld, SocketDesk
from pytest_labrun.labs import OwnLab
from pytest_labrun.needs import Bay, Fault, Need, Wish, chosen_for, need_of, ways_of
from pytest_labrun.past import Held, Past, Times
from pytest_labrun.seen import rows, table
from pytest_labrun.server import Dealt, Server, UnitTold

LOADS = ("load-1", "load-2", "load-3")
BAY: Bay = {name: () for name in (*LOADS, "scope", "supply")}


def wish(*names: str, any_of: tuple[str, ...] = ()) -> Wish:
    return Wish(names, (), any_of, lambda word: "here")


# ---- needs


def test_wishes_add_up() -> None:
    need = need_of([wish("scope"), wish("supply", "scope"), wish(any_of=("load-*",)), wish(any_of=("load-3", "load-1"))], BAY)
    assert need == Need(("scope", "supply"), (LOADS, ("load-3", "load-1")))
    # load-1 and load-3 is one way, whichever marker gets which
    assert need.ways() == (
        ("scope", "supply", "load-1", "load-3"),
        ("scope", "supply", "load-2", "load-3"),
        ("scope", "supply", "load-2", "load-1"),
    )


def test_a_choice_is_never_a_name() -> None:
    assert need_of([wish("load-1"), wish(any_of=("load-*",))], BAY).ways() == (("load-1", "load-2"), ("load-1", "load-3"))
    with pytest.raises(Fault, match="here: no instrument is left for any_of"):
        need_of([wish("load-1"), wish(any_of=("load-1",))], BAY)


def test_too_many_ways() -> None:
    bay: Bay = {f"load-{at}": () for at in range(11)}
    with pytest.raises(ValueError, match="1331 ways to choose; 1000 is the most"):
        need_of([wish(any_of=("*",))] * 3, bay)


def test_tests_that_hold_as_one_share_a_choice() -> None:
    one, other = Need(("scope",), (LOADS,)), Need(("supply",), (LOADS, LOADS))
    ways = ways_of((one, other))
    assert [set(way) for way in ways] == [{"scope", "supply", *loads} for loads in (("load-1", "load-2"), ("load-1", "load-3"), ("load-2", "load-3"))]
    assert chosen_for(one, ways[2]) == ("scope", "load-2") and chosen_for(other, ways[2]) == ("supply", "load-2", "load-3")


def test_a_choice_of_one_test_may_be_what_another_names() -> None:
    assert ways_of((Need(("load-2",)), Need((), (LOADS,)))) == (("load-2",),)
    # either both at load-1 or at load-2, or each at the only other one
    assert ways_of((Need((), (("load-1", "load-2"),)), Need((), (("load-2", "load-3"),)))) == (("load-2",), ("load-1", "load-3"))


# ---- the order of dealing


def test_the_hottest_goes_first() -> None:
    dealing = pytest.importorskip("pytest_labrun.dealing")
    scope, supply, both, plain = (("scope",),), (("supply",),), (("scope", "supply"),), ((),)
    units = [UnitTold((at,), ways) for at, ways in enumerate([plain, supply, scope, scope, both, plain])]
    undealt = dealing.Undealt(units)
    # of four tests that need something three need the scope, two the supply
    assert undealt.by_need() == [both, scope, supply, plain]
    assert undealt.first(set()) == ((both, ("scope", "supply")), False)
    assert undealt.first({"supply"}) == ((scope, ("scope",)), False)
    assert undealt.first({"scope", "supply"}) == ((plain, ()), False)
    # if the supply is free soon, the scope is kept for who needs both
    assert undealt.first({"supply"}, frozenset({"supply"})) == ((plain, ()), True)
    assert undealt.take(scope) == UnitTold((2,), scope) and undealt.take(scope) == UnitTold((3,), scope)
    assert undealt.by_need() == [both, supply, plain]
    assert undealt.take_plain(4) == [0] and undealt.take_plain(4) == [5]
    undealt.put_back(UnitTold((3,), scope))
    assert [undealt.take(ways).tests for ways in (both, supply, scope)] == [(4,), (1,), (3,)] and not undealt


def test_of_one_kind_the_longest_goes_first_and_counts_most() -> None:
    dealing = pytest.importorskip("pytest_labrun.dealing")
    scope, supply = (("scope",),), (("supply",),)
    took = {0: 1.0, 1: 1.0, 2: 2.0, 3: 5.0}
    undealt = dealing.Undealt([UnitTold((0,), scope), UnitTold((1,), scope), UnitTold((2,), scope), UnitTold((3,), supply)], lambda unit: took[unit.tests[0]])
    assert undealt.by_need() == [supply, scope]
    assert undealt.take(supply).tests == (3,)
    assert [undealt.take(scope).tests for _ in range(3)] == [(2,), (0,), (1,)]


def test_how_long_it_takes() -> None:
    times = Times({"test_a": 2.0})
    assert (times.of("test_a"), times.of("test_b")) == (2.0, None)
    times.note(Held("test_c", "gw0", ("scope",), 0.0, 1.0, 5.0))
    times.note(Held("test_a", "gw0", ("scope",), 0.0, 5.0, 11.0))
    assert (times.of("test_a"), times.of("test_b"), times.of("test_c")) == (6.0, 5.0, 4.0)


def test_plain_tests_go_several_at_a_time() -> None:
    dealing = pytest.importorskip("pytest_labrun.dealing")
    undealt = dealing.Undealt([UnitTold((at,), ((),)) for at in range(1000)])
    taken = []
    while undealt:
        taken.append(len(undealt.take_plain(4)))
    # a sixteenth of those that are left, 50 at most
    assert taken[:4] == [50] * 4 and taken[4] == 50 and taken[5] == 46 and taken[-16:] == [1] * 16 and sum(taken) == 1000


# ---- over the socket


@pytest.fixture
def server() -> Iterator[Server]:
    server = Server(OwnLab, Past())
    server.start()
    yield server
    server.stop()
    assert not os.path.exists(server.path)


def desk_of(server: Server, name: str) -> SocketDesk:
    desk = SocketDesk(server.path, name)
    desk.collected([((0,), (("scope", "supply"),)), ((1,), (("scope", "load-1"), ("scope", "load-2")))])
    return desk


def test_one_waits_for_the_other_or_takes_another(server: Server) -> None:
    one, other = desk_of(server, "gw0"), desk_of(server, "gw1")
    assert one.hold("test_one", [("load-1",), ("load-2",)], None)[0] == ("load-1",)
    assert other.hold("test_other", [("load-1",), ("load-2",)], None)[0] == ("load-2",)
    other.let_go()
    with pytest.raises(NotHeld, match=r"^waited 0\.[12] s for load-1: load-1 has been held by test_one \(gw0\) for 0\.\d s$"):
        other.hold("test_other", [("load-1",)], 0.1)
    threading.Timer(0.2, one.let_go).start()
    way, waited = other.hold("test_other", [("load-1", "scope")], 10)
    assert way == ("load-1", "scope") and 0.1 < waited < 5
    other.let_go()
    assert [it.end for it in server.past.sessions] == ["done", "done", "late", "done"]
    assert server.past.sessions[3].kept == {"load-1": "test_one"}


def test_of_many_ways_some_are_named(server: Server) -> None:
    one, other, loads = desk_of(server, "gw0"), desk_of(server, "gw1"), [("load-1",), ("load-2",), ("scope",), ("supply",), ("scope", "supply")]
    one.hold("test_one", [("load-1", "load-2", "scope", "supply")], None)
    for ways, more in (loads[:4], ""), (loads, " or 1 more"):
        with pytest.raises(NotHeld, match=rf"^waited 0\.\d s for load-1 or load-2 or scope or supply{more}: .*load-1 has been held by test_one \(gw0\)"):
            other.hold("test_other", ways, 0.1)


def sleeps_until(is_so: Callable[[], bool]) -> None:
    for _ in range(6000):
        if is_so():
            return
        time.sleep(0.01)
    raise AssertionError("a minute has passed")


def test_who_kept_it_is_who_had_what_it_got(server: Server) -> None:
    """It waits for the scope alone: one load is in use, the other is free."""
    one, other, third = (desk_of(server, f"gw{at}") for at in range(3))
    one.hold("test_scope", [("scope",)], None)
    other.hold("test_load", [("load-1",)], None)
    waits = threading.Thread(target=third.hold, args=("test_both", [("scope", "load-1"), ("scope", "load-2")], 60), daemon=True)
    waits.start()
    sleeps_until(lambda: len(server.past.sessions) == 3)
    time.sleep(0.2)
    one.let_go()
    waits.join(60)
    held = server.past.sessions[2]
    assert (held.instruments, held.kept) == (("scope", "load-2"), {"scope": "test_scope"})


def test_of_several_the_last_kept_it(server: Server) -> None:
    desks = [desk_of(server, f"gw{at}") for at in range(3)]
    desks[0].hold("test_0", [("scope",)], None)
    threads = [threading.Thread(target=desks[at].hold, args=(f"test_{at}", [("scope",)], 60), daemon=True) for at in (1, 2)]
    for at, thread in enumerate(threads, 1):
        thread.start()
        sleeps_until(lambda: len(server.past.sessions) == at + 1)
        time.sleep(0.2)
    for at, thread in enumerate(threads):
        desks[at].let_go()
        thread.join(60)
    assert [it.kept for it in server.past.sessions] == [{}, {"scope": "test_0"}, {"scope": "test_1"}]


def test_a_worker_that_was_idle_for_something_else_did_not_wait(server: Server) -> None:
    desk = desk_of(server, "gw0")
    for is_before, kept in (True, {"supply": "test_before"}), (False, {}):
        desk.hold("test_before", [("supply",)], None)
        # (since before it was let go, or behind that)
        before = server.past.now()
        desk.let_go()
        since = before if is_before else server.past.now()
        server.dealt["gw0"] = Dealt(since, ("supply", "scope"))
        time.sleep(0.1)
        desk.hold("test_it", [("supply", "scope")], None)
        desk.let_go()
        held = server.past.sessions[-1]
        assert held.kept == kept and (held.asked == since) == is_before and held.asked >= since


def test_a_connection_that_ends_lets_go(server: Server) -> None:
    one, other = desk_of(server, "gw0"), desk_of(server, "gw1")
    one.hold("test_one", [("scope",)], None)
    waits = threading.Thread(target=lambda: pytest.raises(NotHeld, other.hold, "test_other", [("scope",)], None), daemon=True)
    waits.start()
    time.sleep(0.5)
    other._socket.shutdown(2)
    waits.join(60)
    one._socket.shutdown(2)
    desks = [desk_of(server, f"gw{at}") for at in range(3)]
    assert desks[0].hold("test_more", [("scope", "supply")], 10)[0] == ("scope", "supply")
    assert [it.end for it in server.past.sessions] == ["gone", "gone", ""]


def test_many_sessions(server: Server) -> None:
    desk, other = desk_of(server, "gw0"), desk_of(server, "gw1")
    for number in range(1100):
        assert desk.hold("test_it", [("scope", "supply")], None)[0] == ("scope", "supply")
        desk.let_go()
    assert other.hold("test_other", [("supply",)], None)[0] == ("supply",)
    other.let_go()
    server.stop()
    assert len(server.past.sessions) == 1101 and {it.end for it in server.past.sessions} == {"done"}


def test_notes_of_several_threads(server: Server) -> None:
    """They are noted while the test goes on, as far as it holds by then."""
    desk = desk_of(server, "gw0")
    for number in range(5):
        assert desk.hold(f"test_{number}", [("scope",)], None)[0] == ("scope",)
        writers = [threading.Thread(target=lambda: [desk.note(str(at)) for at in range(100)]) for _ in range(4)]
        for one in writers:
            one.start()
        desk.note("by the test")
        for one in writers[:2]:
            one.join()
        assert desk.let_go() is None
        for one in writers:
            one.join()
    for held in server.past.sessions:
        assert held.end == "done" and "by the test" in held.notes
        assert min(held.notes.count(str(at)) for at in range(100)) >= 2


def test_a_note_where_nothing_is_held_waits_for_nobody(server: Server) -> None:
    """A thread of an earlier test may write one while the next waits."""
    one, other = desk_of(server, "gw0"), desk_of(server, "gw1")
    one.hold("test_one", [("scope",)], None)
    waits = threading.Thread(target=other.hold, args=("test_other", [("scope",)], None))
    waits.start()
    assert other.note("late") == "no instrument is held"
    assert waits.is_alive()
    one.let_go()
    waits.join(60)
    assert other.note("in time") is None and other.let_go() is None
    assert other.note("late") == "no instrument is held"
    assert [it.notes for it in server.past.sessions] == [[], ["in time"]]


def test_a_note_that_is_interrupted() -> None:
    """As by a time limit of its test: what is asked next gets its own answer."""
    goes_on = threading.Event()

    class Slow(OwnLab):
        async def note(self, session: Any, text: str) -> None:
            if text == "slow":
                main = threading.main_thread().ident
                assert main is not None
                signal.pthread_kill(main, signal.SIGALRM)
                # (the signal may come a moment before the answer is waited for)
                for _ in range(100):
                    await asyncio.sleep(0.0 if goes_on.is_set() else 0.02)

    def interrupts(*_: object) -> None:
        raise TimeoutError("its time is over")

    server = Server(Slow, Past())
    server.start()
    before = signal.signal(signal.SIGALRM, interrupts)
    try:
        desk = desk_of(server, "gw0")
        desk.hold("test_it", [("scope",)], None)
        with pytest.raises(TimeoutError):
            desk.note("slow")
        goes_on.set()
        assert desk.note("next") is None and desk.let_go() is None
        assert desk.hold("test_other", [("supply",)], None)[0] == ("supply",)
        assert desk.let_go() is None
    finally:
        signal.signal(signal.SIGALRM, before)
        server.stop()
    assert [(it.test, it.end, it.notes) for it in server.past.sessions] == [("test_it", "done", ["slow", "next"]), ("test_other", "done", [])]


def test_the_child_of_a_fork_holds_nothing(server: Server) -> None:
    desk = desk_of(server, "gw0")
    desk.hold("test_it", [("scope",)], None)
    if os.fork() == 0:
        try:
            assert desk.note("by the child") == "this is the child of a fork: instruments are held by its parent"
            desk.let_go()
            desk.hold("test_it", [("supply",)], None)
        except NotHeld:
            os._exit(17)
        os._exit(0)
    assert os.waitstatus_to_exitcode(os.wait()[1]) == 17
    other = desk_of(server, "gw1")
    with pytest.raises(NotHeld, match="scope has been held by test_it"):
        other.hold("test_other", [("scope",)], 0.05)
    # and one that outlives its parent's connection keeps nothing
    child = os.fork()
    if child == 0:
        time.sleep(60)
        os._exit(0)
    desk._close()
    assert other.hold("test_other", [("scope",)], 10)[0] == ("scope",)
    os.kill(child, signal.SIGKILL)
    os.waitpid(child, 0)


# ---- what is seen


def test_the_table() -> None:
    sessions = [
        Held("test_a", "gw0", ("scope", "supply"), 0.0, 0.0, 4.0, end="done"),
        Held("test_b", "gw1", ("scope",), 1.0, 4.0, 10.0, {"scope": "test_a"}, "done", ["it was, quiet"]),
        Held("test_c", "gw2", ("supply",), 3.0, 4.0, 5.0, {"supply": "test_a"}, "done"),
        Held("test_d", "gw2", (), 6.0, None, 7.0, {"scope": "test_b"}, "late"),
    ]
    assert table(sessions) == [
        "scope   in use 10.0 s of 10.0 s (100 %), 2 sessions, waited for 4.0 s",
        "supply  in use 5.0 s of 10.0 s (50 %), 2 sessions, waited for 1.0 s",
        "waited 5.0 s in all, in 3 of 4 sessions; the longest 3.0 s: test_b, for scope (test_a)",
    ]
    assert rows(sessions)[2] == ["test_b", "gw1", "scope", "1.000", "3.000", "6.000", "done", "scope: test_a", "it was, quiet"]
    assert table(sessions[:1])[-1] == "nobody waited"
    assert table(sessions[1:2]) == [
        "scope  in use 6.0 s of 9.0 s (67 %), 1 session, waited for 3.0 s",
        "waited 3.0 s in all, in 1 of 1 session; the longest 3.0 s: test_b, for scope (test_a)",
    ]
    # what the broker took to answer isn't told as a wait for an instrument that nobody had
    assert table([Held("test_f", "gw0", ("scope",), 0.0, 0.03, 1.0, end="done")])[-1] == "nobody waited"
    in_its_way = [Held("test_f", "gw0", ("scope",), 0.0, 0.03, 1.0, {"scope": "guest-1"}, "done")]
    assert table(in_its_way)[-1] == "waited 0.0 s in all, in 1 of 1 session; the longest 0.0 s: test_f, for scope (guest-1)"
    # of one that was dealt it is known only later that it waited
    late = [Held("test_g", "gw0", ("scope",), 2.0, 2.0, 3.0, end="done"), Held("test_h", "gw1", ("scope",), 1.0, 3.0, 4.0, end="done")]
    assert [it[0] for it in rows(late)[1:]] == ["test_h", "test_g"]
    assert table([Held("test_e", "gw0", (), 1.0, None, 3.0, end="late")]) == [
        "waited 2.0 s in all, in 1 of 1 session; the longest 2.0 s: test_e, for one of several"
    ]
