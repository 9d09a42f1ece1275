"""Texts `bench 1`: what they stand for, and the labs that are opened for them, with answers that were reckoned by hand.   benches.py FOLDER"""
from handles import Handle, Test, run, script_of

# Two jobs, of which one has a session of its own.
BAY = b"# the bay\r\n bench 1\njob board\n\n# what it may use\n\tuses scope  supply \r\njob guest\nuses scope\nsession\nscope set 7\nend\njob idle"

# The script that it stands for.
SCRIPT = b"""# the bay\r
lab 2
job board

# what it may use
session patience 0
scope read
supply read
end
job guest
session patience 0
scope read
end
session
scope set 7
end
job idle"""

# A script, in which `uses` and `bench` are names.
NO_BENCH = b"lab 1\njob uses\nsession\nuses read\nbench read\nend\n"

NO_HEADER, UNKNOWN_WORD, BAD_NAME = 1, 2, 3
JOB_TWICE, NOT_CLOSED, LIMIT_PASSED, TOO_MANY_IN_COMMON = 5, 9, 10, 11

# 57 instruments are one too many for a bench, and 29 for two jobs.
LETTERS = [b"%c" % it for it in range(ord("a"), ord("z") + 1)]
SECONDS = [it + b"1" for it in LETTERS]
TOO_MANY = b"bench 1\njob a\nuses %s\njob b\nuses %s\n" % (b" ".join(LETTERS), b" ".join([*SECONDS, b"a2", b"b2", b"c2", b"d2", b"e2"]))
IN_COMMON = b" ".join([*LETTERS, b"a1", b"b1", b"c1"])

# Both gave up their first session; the board did what came.
REPORT = b"""lab 2
instrument scope 1
board 2 1/1 set 5 = 5
instrument supply 0
job board sessions 1 of 2 withdrawn 1 meals 0 waiting
job guest sessions 0 of 2 withdrawn 1 meals 0 waiting
job idle sessions 0 of 0 withdrawn 0 meals 0 waiting
unfinished
"""


class Benches(Test):
    def stands_for(self, text, script):
        self.same(script_of(text), ((0, len(script), 0, 0), script))

    def stands(self, bench, job, *wanted):
        """How many sessions a job has, in which it is, and how many it gave up."""
        state = bench.state(job)
        self.same((state.status, state.sessions, state.session, state.withdrawn), (0, *wanted))

    def has_fault(self, text, line, cause):
        """Each call that takes the text names the line."""
        self.same(script_of(text), ((1, 0, line, cause), b""))
        for call in ("bench_open", "bench_open_kept"):
            bench = Handle()
            self.same(bench.opens(call, text), (1, 0, line, cause))
            self.same(bench.bench_free(), 7)

    def test_texts_stand_for_scripts(self):
        self.stands_for(BAY, SCRIPT)
        self.stands_for(NO_BENCH, NO_BENCH)
        # A name that is there twice is read twice.
        self.stands_for(b"bench 1\njob a\nuses x x", b"lab 2\njob a\nsession patience 0\nx read\nx read\nend\n")

    def test_first_sessions_are_of_users(self):
        bench = self.opened("bench_open", BAY)
        self.stands(bench, 0, 1, 1, 1)
        self.stands(bench, 1, 2, 1, 1)
        self.stands(bench, 2, 0, 0, 0)
        script = self.opened("bench_open", NO_BENCH)
        self.stands(script, 0, 1, 0, 0)

    def test_texts_for_a_bench_are_known(self):
        """The first line that is neither empty nor a comment says what a text is for."""
        self.has_fault(b"bench 2\njob a\n", 1, NO_HEADER)
        self.has_fault(b"", 1, NO_HEADER)

    def test_lines_come_from_lines(self):
        """A fault in a line of the script is one in the line of the text from which it came: where a line `uses` stands for several, in the
        same one; and at the script's end at the text's."""
        self.has_fault(BAY.replace(b"supply", b"Supply"), 6, BAD_NAME)
        self.has_fault(BAY.replace(b"guest", b"board"), 7, JOB_TWICE)
        self.has_fault(BAY.replace(b"scope\nsession", b" ".join([b"scope", *LETTERS, *SECONDS, b"a2", b"b2", b"c2"]) + b"\nsession"), 8, LIMIT_PASSED)
        self.has_fault(BAY.replace(b"scope\nsession", b"scope #x\nsession"), 8, BAD_NAME)
        self.has_fault(BAY.replace(b"scope set", b"Scope set"), 10, BAD_NAME)
        self.has_fault(BAY.replace(b"scope  supply", IN_COMMON).replace(b"scope\nsession", IN_COMMON + b"\nsession").replace(b"scope set", b"a set"), 13,
                       TOO_MANY_IN_COMMON)
        self.has_fault(NO_BENCH.replace(b"uses read", b"uses reads"), 4, UNKNOWN_WORD)

    def test_uses_has_faults(self):
        """Each at that line."""
        self.has_fault(b"bench 1\nuses x\n", 2, UNKNOWN_WORD)
        self.has_fault(b"bench 1\njob a\nuses\n", 3, UNKNOWN_WORD)
        self.has_fault(b"bench 1\njob a\nuses x\nuses y\n", 4, UNKNOWN_WORD)
        self.has_fault(b"bench 1\njob a\nsession\nuses read\n", 4, UNKNOWN_WORD)
        self.has_fault(b"bench 1\njob a\nuses x end y\n", 3, BAD_NAME)
        self.has_fault(b"bench 1\njob a\nuses #x\n", 3, BAD_NAME)
        self.has_fault(b"bench 1\njob a\nuses Scope\n", 3, BAD_NAME)

    def test_other_faults_keep_their_lines(self):
        """Faults that a script has too, at the lines of the text: behind a line `uses`, which stands for several."""
        self.has_fault(b"job a\nuses x\n", 1, NO_HEADER)
        self.has_fault(b"bench 1\nbench 1\n", 2, UNKNOWN_WORD)
        self.has_fault(b"bench 1\njob a\nuses x y z\njob a\n", 4, JOB_TWICE)
        self.has_fault(b"bench 1\njob a\nuses x\nsession\n", 5, NOT_CLOSED)
        self.has_fault(TOO_MANY, 5, LIMIT_PASSED)
        self.has_fault(b"bench 1\njob a\nuses %s\njob b\nuses %s\n" % (IN_COMMON, IN_COMMON), 6, TOO_MANY_IN_COMMON)

    def test_a_lab_is_opened(self):
        """A session comes right after the open, and holds."""
        bench = self.opened("bench_open", BAY)
        self.same(bench.add(0, b"session\nscope set 5\nend\n").status, 0)
        self.same(bench.settle(1).holds, 1)
        self.same(bench.end(0).status, 0)
        self.same(bench.closes("bench_close"), (3, REPORT))

    def test_a_handle_is_opened(self):
        """The script, how long it is, and the line of a fault. The steps of the open are in the journal."""
        text, script = b"bench 1\njob a\nuses x\n", b"lab 2\njob a\nsession patience 0\nx read\nend\n"
        self.same(script_of(text, 41), ((6, 42, 0, 0), b""))
        self.same(script_of(text, 42), ((0, 42, 0, 0), script))
        bench = self.opened("bench_open_kept", text)
        status, _, journal = bench.journal(49)
        self.same((status, journal[:26]), (0, b"#steps\nthirst a\nwithdraw a"))
        self.same(bench.bench_free(), 0)
        self.same(bench.opens("bench_open", text + b"job a\n"), (1, 0, 4, JOB_TWICE))


run()
