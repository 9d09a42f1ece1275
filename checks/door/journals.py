"""Journals of a lab, written by hand, and labs that come back from them, also with sessions that came.   journals.py FOLDER"""
import hashlib

from handles import Handle, Test, run

# The scale is at job a at first.
SCRIPT = b"""lab 2
job a
session
scale add 1
scale read
end
job b
session patience 1
scale set 5
end
"""
HEAD = SCRIPT + b"steps\n"


def summed(lines):
    return b"#steps\n%s#sum %s\n" % (lines, hashlib.sha256(lines).hexdigest()[:16].encode())


# Job a looks, becomes thirsty and drinks.
FIRST = b"#steps\nlook a b\nthirst a\ndrink a\n#sum 4604f7d28fdeb577\n"

# Job b becomes thirsty, asks for the bottle, becomes hungry, asks for the fork, gets it, sits and soils it.
SECOND = b"""#steps
thirst b
askbottles b a scale
hunger b
askfork b a
look a b
givefork a b
look b a
sit b
soil b a
#sum ce94601336c7a604
"""
BOTH = HEAD + FIRST + SECOND

# A line was torn, behind 127 whole bytes.
TORN = HEAD + FIRST[:-19]

# Line 15 isn't legal.
WRONG_STEP = HEAD + FIRST.replace(b"drink a", b"drink b")

# Line 16 is the sum of other lines.
WRONG_SUM = HEAD + FIRST.replace(b"4604f7d28fdeb577", b"ce94601336c7a604")

# Job a has a command in hand.
IN_HAND = HEAD + b"look a b\nthirst a\ndrink a\nreach a\n"

TRANQUIL, THIRSTY, DRINKING = range(3)


class Kept(Test):
    def kept(self, script):
        return self.opened("bench_open_kept", script)

    def resumed(self, journal, length):
        """The lab from these bytes, of which so many are whole lines."""
        bench = Handle()
        self.same(bench.opens("bench_resume", journal), (0, length, 0, 0))
        self.same(bench.opens("bench_resume", journal), (11, 9, 9, 9))
        self.addCleanup(bench.bench_free)
        return bench

    def refused(self, journal, line, cause):
        bench = Handle()
        self.same(bench.opens("bench_resume", journal), (1, 0, line, cause))
        self.same(bench.bench_free(), 7)

    def takes(self, bench, text):
        self.same(bench.journal(), (0, len(text), text))

    def is_so_far(self, bench, job, drinking):
        state = bench.state(job)
        self.same((state.status, state.drinking), (0, drinking))


class Journals(Kept):
    def test_sums(self):
        """By another program, too."""
        for text in (FIRST, SECOND):
            self.same(summed(text[len(b"#steps\n") : text.index(b"#sum")]), text)

    def test_are_taken(self):
        bench = self.kept(SCRIPT)
        self.same(bench.settle(1).status, 0)
        self.takes(bench, FIRST)
        self.same(bench.settle(2).status, 0)
        self.takes(bench, SECOND)
        self.takes(bench, b"")

    def test_are_of_kept_labs(self):
        bench = self.opened("bench_open", SCRIPT)
        self.same(bench.settle(1).status, 0)
        self.same(bench.journal(), (8, 9, b""))
        self.same(bench.more(0, 1), (8, 9, b""))

    def test_stay_without_room(self):
        """What was done so far is in the room, once there is room for it; and the lab comes back from it."""
        bench = self.kept(SCRIPT)
        self.same(bench.settle(1)[:4], (0, 1, 0, 0))
        self.same(bench.journal(0), (6, len(FIRST), b""))
        self.takes(bench, FIRST)
        self.takes(bench, b"")
        again = self.resumed(HEAD + FIRST, 149)
        self.same(again.settle(2)[:4], (0, 1, 0, 0))
        self.same(again.command(0), (0, 1, 1, 2, 1, 1, 1))
        self.same(again.command(1), (8, *[9] * 6))

    def test_are_gone_on_with(self):
        """Job a ends its session, and job b comes to hold, as without a journal."""
        bench = self.resumed(BOTH, 275)
        self.takes(bench, b"")
        self.same(bench.end(0), (0, 2, 8))
        self.same(bench.settle(2), (0, 2, 0, 0, 0))

    def test_may_be_torn(self):
        bench = self.resumed(TORN, 127)
        self.is_so_far(bench, 0, DRINKING)
        self.is_so_far(bench, 1, TRANQUIL)

    def test_finish_a_command_in_hand(self):
        bench = self.resumed(IN_HAND, 128)
        self.is_so_far(bench, 0, DRINKING)
        self.takes(bench, b"#steps\nact a\n#sum 7d71d7b4e5920337\n")

    def test_are_refused_with_their_line(self):
        self.refused(WRONG_STEP, 15, 0)
        self.refused(WRONG_SUM, 16, 13)


# Both jobs use the scale alone.
SHORT = b"lab 2\njob a\nsession\nscale add 1\nend\njob b\nsession\nscale set 5\nend\n"

# What comes for job b.
COMES = b"session patience 7\nscale set 999999\nscale add 20\nscale read\nend\n"

# As the journal gets it.
MORE = b"""#steps
#more b
#+session patience 7
#+scale set 999999
#+scale add 20
#+scale read
#+end
#sum d42a571f1553a8ea
"""

# The first session of job a, as a journal would get it.
FIRST_OF_A = b"#steps\n#more a\n#+session\n#+scale add 1\n#+end\n#sum 62d65e7535eab5d8\n"

# Behind the script a session of job b, one that breaks off, and another of job a behind a step.
WITH_MORE = (
    SHORT
    + b"steps\n"
    + MORE
    + b"""#more a
#+session
#+scale read
look a b
#more a
#+session
#+scale read
#+end
thirst a
"""
)

# There is no job c: line 12.
NO_JOB = SHORT + b"steps\nlook a b\n#more c\n#+session\n#+scale read\n#+end\n"

# Job b has no lamp: line 11.
NO_LAMP = SHORT + b"steps\n#more b\n#+session\n#+lamp read\n#+end\n"


class More(Kept):
    """Sessions that came."""

    def is_text(self, bench, job, session, text):
        self.same(bench.more(job, session), (0, len(text), text))

    def test_sums(self):
        for text in (MORE, FIRST_OF_A):
            self.same(summed(text[len(b"#steps\n") : text.index(b"#sum")]), text)

    def test_have_their_lines(self):
        """The lines of a session are as the journal gets them, also of one that came."""
        bench = self.kept(SHORT)
        self.is_text(bench, 0, 1, FIRST_OF_A)
        self.same(bench.add(1, COMES).status, 0)
        self.is_text(bench, 1, 2, MORE)

    def test_are_told_in_c(self):
        """The lines; their length, if there is no room; no such session; no lab."""
        bench = self.kept(SHORT)
        self.same(bench.add(1, COMES).status, 0)
        self.same(bench.more(1, 2, 100), (6, 111, b""))
        self.same(bench.more(1, 2, 111), (0, 111, MORE))
        self.same(bench.more(1, 3), (2, 9, b""))
        self.same(bench.bench_free(), 0)
        self.same(bench.more(1, 2), (7, 9, b""))

    def test_come_back(self):
        """They are in the lab that comes back, behind the others of their jobs; one that breaks off is none. The steps are those that the
        journal has."""
        bench = self.resumed(WITH_MORE, len(WITH_MORE))
        self.same(bench.bench_size().jobs, 2)
        self.same(bench.session_of(1, 2), (0, 1, 3, 7, 1))
        self.same([bench.session_of(job, 2).status for job in (0, 1)], [0, 0])
        self.same([bench.session_of(job, 3).status for job in (0, 1)], [2, 2])
        self.is_text(bench, 1, 2, MORE)
        self.is_text(bench, 0, 2, summed(b"#more a\n#+session\n#+scale read\n#+end\n"))
        self.takes(bench, b"")
        self.is_so_far(bench, 0, THIRSTY)
        self.is_so_far(bench, 1, TRANQUIL)
        self.same((bench.state(0).session, bench.state(1).session), (1, 0))

    def test_begin_in_their_lines(self):
        """The first in line 12, and the second in line 23: so are they refused, if they are wrong."""
        first, second = WITH_MORE.split(b"look a b\n")
        self.refused(WITH_MORE.replace(b"#more b", b"#more c"), 12, 7)
        self.refused(first + b"look a b\n" + second.replace(b"#more a", b"#more c"), 23, 7)

    def test_bad_ones_are_refused(self):
        """What a job can't take is refused with the line where it begins."""
        self.refused(NO_JOB, 12, 7)
        self.refused(NO_LAMP, 11, 14)


class Room(Kept):
    """Room for the steps."""

    def steps(self, bench):
        """Takes the journal. How many steps it has."""
        status, _, text = bench.journal(100000)
        self.same(status, 0)
        return sum(not line.startswith(b"#") for line in text.splitlines())

    def filled(self, bench):
        """Job b does sessions until there is no room. How many steps are kept then: more than half of the room, as no journal was taken."""
        calls = 0
        while (status := (bench.end(1) if calls % 2 else bench.settle(2)).status) == 0:
            calls += 1
        self.same(status, 12)
        steps = self.steps(bench)
        if calls % 2:
            self.same(bench.end(1).status, 0)
            self.steps(bench)
        return steps

    def test_longer_sessions_get_room(self):
        """Room for a longer session is made only once all steps were taken."""
        bench = self.kept(SHORT + b"session\nscale read\nend\n" * 500)
        self.same((bench.settle(2).holds, bench.end(1).status), (2, 0))
        self.steps(bench)
        before = self.filled(bench)
        self.same(bench.settle(1).holds, 1)
        self.same(bench.add(1, COMES), (12, 9, 9, 9))
        self.same(bench.session_of(1, 502).status, 2)
        self.same(bench.end(0).status, 0)
        self.steps(bench)
        self.same((bench.settle(2).holds, bench.end(1).status), (2, 0))
        self.steps(bench)
        self.same(self.filled(bench), before)
        self.same(bench.add(1, COMES), (0, 9, 9, 9))
        self.same(bench.session_of(1, 502).status, 0)
        self.assertGreater(self.filled(bench), before)


run()
