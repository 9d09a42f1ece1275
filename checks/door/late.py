"""Jobs that wait outside, worked by hand.   late.py FOLDER"""
import itertools

from handles import Handle, Test, run

# Radio holds the scope, board waits for scope and supply, and drive works at the supply. The scope is instrument 0, and the supply 1.
CONVOY = b"""lab 2
job radio
session
scope read
end
job board
session
scope read
supply read
end
job drive
session
supply read
end
session
supply read
end
"""

THIRSTY = 1


class Late(Test):
    def lab(self, overtakes, script=CONVOY):
        bench = self.opened("bench_open", script)
        self.same(bench.overtakes(overtakes), 0)
        return bench

    def holds(self, bench, waiting, wanted):
        came = bench.settle(waiting)
        self.same((came.status, came.holds), (0, wanted))

    def outside(self, bench, job, *wanted):
        """How often the job that is outside was passed by; nothing if it isn't."""
        self.same(bench.outside(job), (0, len(wanted), sum(wanted)))

    def ends(self, bench, job):
        self.same(bench.end(job).status, 0)

    def is_thirsty(self, bench, job):
        self.same(bench.state(job).drinking, THIRSTY)


class Convoy(Late):
    def radio_holds(self, overtakes):
        """Radio holds the scope, and then board asks too."""
        bench = self.lab(overtakes)
        self.holds(bench, 1, 1)
        self.holds(bench, 2, 1)
        return bench

    def test_goes_on(self):
        """Board is left outside, since the scope is in use. Nobody is in a session that needs the supply. So drive works at the supply though
        board wants it, and passes board by. After the second time board is in line, and drive has no session left."""
        bench = self.radio_holds(2)
        self.outside(bench, 1, 0)
        self.same(bench.keepers(1, 0), (0, 1, 1))
        self.same(bench.keepers(1, 1), (0, 0, 0))
        self.outside(bench, 0)
        self.same(bench.outside(3), (2, 9, 9))
        self.holds(bench, 6, 5)
        self.outside(bench, 1, 1)
        self.ends(bench, 2)
        self.holds(bench, 6, 5)
        self.outside(bench, 1)
        self.ends(bench, 2)
        came = bench.settle(6)
        self.same((came.status, came.holds, came.none_left), (0, 1, 4))
        self.ends(bench, 0)
        self.holds(bench, 2, 2)

    def test_keeps_its_place(self):
        """One that isn't waited for keeps its place, and is neither let in nor passed by."""
        bench = self.radio_holds(2)
        self.holds(bench, 4, 5)
        self.ends(bench, 0)
        self.ends(bench, 2)
        self.holds(bench, 0, 0)
        self.outside(bench, 1, 0)
        # Board asked first, so it goes before drive.
        self.holds(bench, 6, 2)
        self.outside(bench, 2, 1)

    def test_stops_asking(self):
        bench = self.radio_holds(2)
        self.same(bench.withdraw(1), 0)
        self.outside(bench, 1)
        self.same(bench.withdraw(1), 8)

    def test_is_in_line_at_once(self):
        """With no number of sessions that may pass it by."""
        bench = self.radio_holds(0)
        self.outside(bench, 1)
        self.is_thirsty(bench, 1)

    def test_asks_in_one_call(self):
        """Board and drive ask in the same call."""
        bench = Handle()
        self.same(bench.overtakes(2), 7)
        bench = self.lab(2)
        self.holds(bench, 1, 1)
        self.holds(bench, 6, 5)
        self.outside(bench, 1, 1)
        self.outside(bench, 2)
        self.same(bench.outside(3), (2, 9, 9))


# Four that ask, and one that keeps both instruments meanwhile.
FIVE = b"lab 2\n" + b"".join(
    b"job %s\nsession\n%send\n" % (job, b"".join(b"%s read\n" % it for it in needs))
    for job, needs in (
        (b"all", (b"scope", b"supply")),
        (b"second", (b"supply",)),
        (b"first", (b"scope",)),
        (b"leaves", (b"scope", b"supply")),
        (b"keeps", (b"scope", b"supply")),
    )
)

# Two that ask, and one that keeps the scope meanwhile.
THREE = b"lab 2\njob one\nsession\nscope read\nend\njob both\nsession\nscope read\nsupply read\nend\njob keeps\nsession\nscope read\nend\n"


class Line(Late):
    """The line of those who are outside."""

    def four_ask(self, overtakes):
        """Jobs 0, 1 and 3 ask in one call, and job 2 in the next. Job 3 asks no more."""
        bench = self.lab(overtakes, FIVE)
        self.holds(bench, 0b10000, 0b10000)
        self.holds(bench, 0b1011, 0b10000)
        for job in (0, 1, 3):
            self.outside(bench, job, 0)
        self.same(bench.withdraw(3), 0)
        self.outside(bench, 3)
        self.holds(bench, 0b0100, 0b10000)
        self.outside(bench, 2, 0)
        self.ends(bench, 4)
        for job in (0, 1, 2):
            self.outside(bench, job, 0)
        return bench

    def both_hold(self, bench):
        """Jobs 1 and 2 are in a session and wait for job 0. Once that ends, both hold, and nobody is left."""
        for job in (1, 2):
            self.outside(bench, job)
            self.is_thirsty(bench, job)
        self.ends(bench, 0)
        self.holds(bench, 0b0111, 0b0110)
        self.same(bench.settle(0b0111), (0, 0b0110, 0, 0b0001, 0))

    def test_one_after_another(self):
        """Of those who asked first the one with the lower number goes in, and both others are passed by."""
        bench = self.four_ask(2)
        self.holds(bench, 0b0111, 0b0001)
        self.outside(bench, 0)
        self.outside(bench, 1, 1)
        self.outside(bench, 2, 1)
        # If one session may go before each, they go in together, though what they need is in use.
        self.same(bench.overtakes(1), 0)
        self.holds(bench, 0b0110, 0b0001)
        self.both_hold(bench)

    def test_all_in_one_call(self):
        """The same, where one session may go before each from the start."""
        bench = self.four_ask(1)
        self.holds(bench, 0b0111, 0b0001)
        self.outside(bench, 0)
        self.both_hold(bench)

    def test_left_outside(self):
        """Whoever isn't named is neither let in nor passed by; whoever needs something in use stays outside."""
        bench = self.lab(1, THREE)
        self.holds(bench, 0b100, 0b100)
        self.holds(bench, 0b011, 0b100)
        self.ends(bench, 2)
        self.holds(bench, 0b001, 0b001)
        self.outside(bench, 1, 0)
        self.holds(bench, 0b010, 0b001)
        self.outside(bench, 1, 0)
        self.ends(bench, 0)
        self.holds(bench, 0b010, 0b010)
        self.outside(bench, 1)


# j needs an instrument of each of k and m, which have many short sessions. l eats while it waits for h; so its neighbours k and m can't eat, and keep
# their forks from j.
SESSIONS = 200
OVERLAP = (
    b"lab 2\njob h\nsession\na read\nend\njob l\nsession\na read\nend\nsession\np read\nq read\nend\njob j\nsession\nx read\nz read\nend\n"
    + b"job k\n" + b"session\nx read\nend\n" * SESSIONS + b"session\np read\nend\n"
    + b"job m\n" + b"session\nz read\nend\n" * SESSIONS + b"session\nq read\nend\n"
)  # fmt: skip


class Overtaken(Late):
    """By how many sessions of k and m, which overlap, j is overtaken while h works."""

    def overtaken(self, overtakes):
        """How many went before it, and whether it holds then."""
        bench, l, j = self.lab(overtakes, OVERLAP), 0b10, 0b100
        self.holds(bench, 1, 1)
        self.holds(bench, l, 1)
        self.holds(bench, l | 0b1000, 0b1001)
        self.holds(bench, l | j, 0b1001)
        self.holds(bench, l | j | 0b10000, 0b11001)
        holds, count = 0b11001, 0
        for job in itertools.cycle((3, 4)):
            if holds & j or count == SESSIONS:
                return count, bool(holds & j)
            if holds >> job & 1:
                self.ends(bench, job)
                holds, count = bench.settle(l | j).holds, count + 1
            holds = bench.settle(l | j | 1 << job).holds

    def test_in_line_nobody_counts(self):
        """One in line may be overtaken for as long as somebody works elsewhere."""
        self.same(self.overtaken(0), (SESSIONS, False))

    def test_from_outside(self):
        """It is let in behind so many, and then only those go before it that are in a session already."""
        for overtakes in (1, 4, 16):
            self.same(self.overtaken(overtakes), (overtakes + 1, True))


run()
