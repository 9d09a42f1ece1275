"""The lab of one handle, from its script to its report, and sessions that come while it is open, with answers that were reckoned by hand.
labs.py FOLDER"""
from handles import Handle, Test, run

# The scale is at job a at first.
SHARED = b"""lab 2
job a
session
scale add 1
scale read
end
job b
session
scale set 5
end
"""

# Job b waits one turn at most.
PATIENT = SHARED.replace(b"job b\nsession\n", b"job b\nsession patience 1\n")

# Job a does its session, and then job b does.
LOGS = b"""lab 2
instrument scale 3
a 1 1/2 add 1 = 1
a 1 2/2 read = 1
b 1 1/1 set 5 = 5
"""
IN_TURN = LOGS + b"""job a sessions 1 of 1 withdrawn 0 meals 0 retired
job b sessions 1 of 1 withdrawn 0 meals 1 retired
finished
"""

# Scale and its fork are at job a at first, lamp and its fork at job b.
OWING = b"""lab 2
job a
session
scale add 1
end
job b
session
scale add 2
end
session
lamp add 3
end
job c
session
lamp add 4
end
"""

IDLE = (0, 0)


class Labs(Test):
    """A lab in which job b has a patience."""

    def both_come(self, bench):
        """Job a becomes thirsty and drinks. Job b becomes thirsty, asks for the bottle, becomes hungry, asks for the fork, gets it, sits and
        soils it."""
        self.same(bench.settle(1), (0, 1, 0, 0, 2))
        self.same(bench.settle(2), (0, 1, 0, 0, 7))

    def test_tells(self):
        bench = self.opened("bench_open", PATIENT)
        self.same(bench.bench_size(), (0, 2, 1))
        self.same(bench.name_of("job_name", 1), (0, 1, b"b"))
        self.same(bench.name_of("instrument_name", 0), (0, 5, b"scale"))
        self.same(bench.session_of(1, 1), (0, 1, 1, 1, 1))
        self.same(bench.planned(0, 1, 1), (0, 0, 2, 0))

    def test_not_zeroed(self):
        """A handle that wasn't zeroed isn't open, and isn't empty: nobody fills it, and nobody frees what it seems to have."""
        for fill in (b"\x01", b"\xa5", b"\xff"):
            bench = Handle.from_buffer_copy(fill * 16)
            self.same(bench.settle(1), (7, 9, 9, 9, 9))
            self.same(bench.closes("bench_close"), (7, b""))
            self.same(bench.bench_free(), 7)
            for name in ("bench_open", "bench_open_kept", "bench_resume"):
                self.same(bench.opens(name, PATIENT), (11, 9, 9, 9))
            self.same(bytes(bench), fill * 16)

    def test_names_the_line(self):
        bench = Handle()
        came = bench.opens("bench_open", b"lab 1\njob a\nnonsense\n")
        self.same((came.status, came.line), (1, 3))
        self.same(bench.bench_free(), 7)

    def both_end(self, bench):
        """Job a reads, quits and gives the bottle; job b drinks and leaves its meal. Then job b sets and quits."""
        self.same(bench.end(0), (0, 2, 6))
        self.same(bench.end(0), (8, 9, 9))
        self.same(bench.settle(1), (0, 2, 0, 1, 0))
        self.same(bench.retire(1, 9), (10, *IDLE))
        self.same(bench.end(1), (0, 2, 3))

    def both_retire(self, bench):
        self.same(bench.retire(0, 0), (8, *IDLE))
        self.same(bench.retire(0, 1), (0, 2, 1))
        self.same(bench.retire(0, 1), (0, *IDLE))
        self.same(bench.retire(1, 1), (0, 2, 1))

    def test_settles_in_turn(self):
        bench = self.opened("bench_open", PATIENT)
        self.same(bench.settle(0), (0, 0, 0, 0, 0))
        self.both_come(bench)
        self.same(bench.keepers(1, 0), (0, 1, 1))
        self.same(bench.keepers(0, 0), (0, 0, 0))
        self.same(bench.command(0), (0, 1, 1, 2, 1, 1, 1))
        self.same(bench.command(1), (8, *[9] * 6))
        self.both_end(bench)
        self.both_retire(bench)
        self.same(bench.closes("bench_close"), (0, IN_TURN))

    def waited(self, bench, turns, waited):
        state = bench.state(1)
        self.same((state.status, state.turns, state.waited), (0, turns, waited))

    def test_patience_is_used_up(self):
        """Job b isn't thirsty when the call begins in which it becomes so. After one more that counts its patience is used up."""
        bench = self.opened("bench_open", PATIENT)
        self.both_come(bench)
        self.waited(bench, 1, 0)
        self.same(bench.settle(0), (0, 1, 0, 0, 0))
        self.waited(bench, 2, 1)
        # It gives up, and ends its meal.
        self.same(bench.settle(2), (0, 1, 2, 2, 2))
        self.waited(bench, 3, 1)
        self.same(bench.withdraw(1), 8)

    def test_settles_for_one_alone(self):
        """Job a ends: it does two commands, quits and gives the bottle, and job b drinks and leaves its meal. So b holds before it is named, and
        then nothing is left to do for either."""
        bench = self.opened("bench_open", PATIENT)
        self.both_come(bench)
        self.same(bench.end(0), (0, 2, 8))
        self.same(bench.settle(1), (0, 2, 0, 1, 0))
        self.same(bench.settle(2), (0, 2, 0, 0, 0))

    def test_gives_up(self):
        """Job a drinks; job b becomes thirsty and gives up. Each was named once."""
        bench = self.opened("bench_open", PATIENT)
        self.both_come(bench)
        self.same(bench.withdraw(1), 0)
        self.same(bench.withdraw(1), 8)
        for job, drinking in ((0, 2), (1, 0)):
            state = bench.state(job)
            self.same((state.status, state.drinking, state.turns), (0, drinking, 1))
        self.same(bench.state(1).withdrawn, 1)

    def test_there_is_no_third(self):
        """No call that names a third job does anything."""
        bench = self.opened("bench_open", PATIENT)
        self.same(bench.end(2), (2, 9, 9))
        self.same(bench.retire(2, 9), (2, 9, 9))
        self.same(bench.planned(2, 1, 0), (2, 9, 9, 9))
        self.same(bench.outside(2), (2, 9, 9))
        self.same(bench.withdraw(2), 2)
        self.same(bench.command(2), (2, *[9] * 6))
        self.same(bench.state(2), (2, *[9] * 10))
        self.same(bench.keepers(2, 0), (2, 9, 9))
        self.same(bench.keepers(0, 1), (2, 9, 9))
        self.same(bench.settle(4294967292), (0, 0, 0, 0, 0))


class Statuses(Test):
    """What a caller is answered on the way, from the open to the free."""

    def settles(self, bench, waiting, *wanted):
        """Who holds, is given up and has nothing left then."""
        self.same(bench.settle(waiting)[:4], (0, *wanted))

    def lets_go(self, bench, job):
        self.same(bench.end(job)[:2], (0, 2))
        self.same(bench.end(job), (8, 9, 9))

    def first_session(self, bench):
        """Job a holds, and job b waits for it."""
        self.settles(bench, 3, 1, 0, 0)
        self.same(bench.keepers(1, 0), (0, 1, 1))
        self.same(bench.keepers(1, 1), (2, 9, 9))
        self.same(bench.retire(0, 5).status, 10)
        self.settles(bench, 2, 1, 0, 0)
        came = bench.command(0)
        self.same((came.status, came.value), (0, 1))
        self.same(bench.command(1).status, 8)
        self.lets_go(bench, 0)
        self.settles(bench, 3, 2, 0, 1)

    def last_session(self, bench):
        """Job b holds, and then both have nothing left."""
        self.settles(bench, 1, 2, 0, 1)
        self.settles(bench, 2, 2, 0, 0)
        self.lets_go(bench, 1)
        self.settles(bench, 7, 0, 0, 3)
        self.same([bench.retire(job, 1).status for job in range(3)], [0, 0, 2])

    def test_settles_in_turn(self):
        bench = self.opened("bench_open", SHARED)
        self.first_session(bench)
        self.last_session(bench)
        # The report is given as often as it is asked for, and no other call acts then.
        self.same(bench.closes("bench_close", 9), (6, b""))
        self.same(bench.settle(1), (7, 9, 9, 9, 9))
        status, report = bench.closes("bench_close", 200)
        self.same((status, report.startswith(LOGS + b"job a sessions 1 of 1 withdrawn 0 meals ")), (0, True))
        self.same(bench.bench_free(), 0)
        self.same(bench.bench_free(), 7)
        self.same(bench.closes("bench_close", 200), (7, b""))

    def test_gives_up_when_patience_is_used_up(self):
        bench = self.opened("bench_open", PATIENT)
        self.settles(bench, 1, 1, 0, 0)
        self.same(bench.withdraw(1), 8)
        self.settles(bench, 2, 1, 0, 0)
        self.settles(bench, 2, 1, 0, 0)
        self.settles(bench, 2, 1, 2, 2)


# The same with a session of one command each.
SHORT = SHARED.replace(b"scale read\n", b"")

ONE_MORE = b"session patience 3\nscale read\nend\n"

# Job a does its session, job b does its own, and job a does the one that came.
WITH_ONE_MORE = b"""lab 2
instrument scale 3
a 1 1/1 add 1 = 1
b 1 1/1 set 5 = 5
a 2 1/1 read = 5
job a sessions 2 of 2 withdrawn 0 meals 1 retired
job b sessions 1 of 1 withdrawn 0 meals 1 retired
finished
"""

# Two sessions on the scale.
TWO_MORE = b"session\nscale add 1\nend\nsession patience 3\nscale read\nend\n"

# The lamp is no instrument of job b.
NOT_ITS_OWN = b"# later\nsession\nlamp read\nend\n"


class Owing(Test):
    """A job that owes a meal."""

    def c_is(self, bench, dining, drinking):
        state = bench.state(2)
        self.same((state.status, state.dining, state.drinking, state.session), (0, dining, drinking, 1))

    def owes_a_meal(self, bench):
        """Job a holds the scale. Job b waits for it, and sits: so it keeps its forks. Job c becomes hungry, for which it lacks b's fork, but gets the lamp,
        which b doesn't need yet. So it does its session, and owes its meal still."""
        self.same(bench.settle(1).holds, 1)
        self.same(bench.settle(2).holds, 1)
        self.same(bench.state(1).dining, 2)
        self.same(bench.settle(4).holds, 5)
        self.same(bench.retire(2, 9), (10, *IDLE))
        self.same(bench.end(2).status, 0)
        self.c_is(bench, 1, 0)

    def test_who_owes_a_meal_may_not_retire(self):
        """Nothing changes as often as it tries. Once a lets go b holds, and gives the fork: then c has its meal, and may retire."""
        bench = self.opened("bench_open", OWING)
        self.owes_a_meal(bench)
        for turns in (1, 9, 0):
            self.same(bench.retire(2, turns), (8, *IDLE))
            self.c_is(bench, 1, 0)
        self.same(bench.end(0).status, 0)
        self.c_is(bench, 0, 0)
        self.same(bench.retire(2, 1), (0, 2, 1))
        self.c_is(bench, 0, 4)


class Additions(Test):
    """Sessions that come while a lab is open."""

    def holds(self, bench, waiting, wanted):
        self.same(bench.settle(waiting).holds, wanted)

    def is_last(self, bench, job, session):
        """The job has this session, and none behind it."""
        self.same([bench.session_of(job, number).status for number in (session, session + 1)], [0, 2])

    def test_a_session_comes(self):
        """It comes to job a while it holds and job b waits. So a has one left when it ends; nobody waits for it until its owner does."""
        bench = self.opened("bench_open", SHORT)
        self.holds(bench, 1, 1)
        self.holds(bench, 3, 1)
        self.same(bench.add(0, ONE_MORE).status, 0)
        self.is_last(bench, 0, 2)
        self.is_last(bench, 1, 1)
        self.same(bench.end(0).status, 0)
        self.holds(bench, 0, 2)
        self.same(bench.retire(0, 1), (10, *IDLE))
        self.same(bench.end(1).status, 0)
        self.holds(bench, 1, 1)
        self.same(bench.end(0).status, 0)
        self.same(bench.end(0).status, 8)
        # after these none is left
        self.same(bench.settle(3).none_left, 3)
        self.same(bench.retire(0, 9), (0, 2, 1))
        self.same(bench.retire(1, 9), (0, 2, 1))
        self.same(bench.closes("bench_close"), (0, WITH_ONE_MORE))

    def test_none_comes_behind_a_retire(self):
        """None comes to a job that has retired, nor to one that isn't there; one comes to a job that had none left."""
        bench = self.opened("bench_open", SHORT)
        self.holds(bench, 1, 1)
        self.same(bench.end(0).status, 0)
        self.same(bench.settle(1).none_left, 1)
        self.same(bench.add(0, ONE_MORE).status, 0)
        self.same(bench.settle(0).none_left, 0)
        self.holds(bench, 1, 1)
        self.same(bench.end(0).status, 0)
        self.same(bench.retire(0, 9), (0, 2, 1))
        self.same(bench.add(0, ONE_MORE), (14, 9, 9, 9))
        self.same(bench.add(2, ONE_MORE), (2, 9, 9, 9))

    def test_sessions_of_a_text_come(self):
        """A text with a fault and one for a job that isn't there change nothing."""
        bench = self.opened("bench_open", SHORT)
        self.same(bench.add(1, TWO_MORE), (0, 9, 9, 9))
        self.is_last(bench, 1, 3)
        came = bench.add(1, NOT_ITS_OWN)
        self.same((came.status, came.line, came.cause), (1, 3, 14))
        self.same(bench.add(2, TWO_MORE), (2, 9, 9, 9))
        self.is_last(bench, 1, 3)
        self.is_last(bench, 0, 1)

    def test_sessions_come_to_a_handle(self):
        """Nothing comes to a handle without a lab. A lab that keeps its steps takes sessions too."""
        bench = self.opened("bench_open", SHORT)
        self.same(bench.add(0, TWO_MORE), (0, 9, 9, 9))
        self.same(bench.bench_free(), 0)
        self.same(bench.add(0, TWO_MORE), (7, 9, 9, 9))
        kept = self.opened("bench_open_kept", SHORT)
        self.same(kept.add(0, TWO_MORE), (0, 9, 9, 9))
        self.same(kept.bench_free(), 0)


run()
