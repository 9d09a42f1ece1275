"""What `labview arrange` writes without a number, worked out by hand: jobs in an order in which chains at the start are short."""

from case import Case


def jobs(order, text_of):
    """A script with the jobs in this order, whose sessions have these commands."""
    return "lab 1\n" + "".join(f"job {it}\nsession\n{text_of[it]}\nend\n" for it in order)


def in_a_ring(names):
    """The commands of jobs in a ring, each of which shares an instrument with the next."""
    pairs = [f"{one}{two} read" for one, two in zip(names, names[1:] + names[:1])]
    return dict(zip(names, map("\n".join, zip(pairs[-1:] + pairs, pairs))))


# Two jobs that share a scale, and one that shares nothing. c has the colour of a, and so comes before b.
SHARED = {"a": "s add 1", "b": "s add 1", "c": "t add 1"}

# The hub shares an instrument with each of the three others, which share nothing. A comment directly above a job is the job's, and what
# stands behind its last session, up to there, is too.
STAR = """\
# about
lab 2

# of a
job a
session patience 3
x set 5
end
  # of b
\t# of b too
 job\tb
session
y add 1
end
# behind b

job hub
session
x read
y read
z read
end
session
z set 0
end
#job no
job c
session
z add 2
end
# behind c
"""

# The hub has the most neighbours, so it gets the first colour, and the others the second.
STAR_ARRANGED = """\
# about
lab 2

job hub
session
x read
y read
z read
end
session
z set 0
end
# of a
job a
session patience 3
x set 5
end
  # of b
\t# of b too
 job\tb
session
y add 1
end
# behind b

#job no
job c
session
z add 2
end
# behind c
"""

# All three share one thing, so each has a colour of its own.
ONE_THING = jobs("abc", dict.fromkeys("abc", "s read"))

# Five in a ring: a and c get the first colour, b and d the second, e the third. Of eight in a ring every second gets the first.
RING = in_a_ring("abcde")

RING_OF_EIGHT = in_a_ring("abcdefgh")


def without_end(script):
    """The script, whose last line has no end."""
    return script.removesuffix("\n")


# A job, and a comment in the last line: as long as an input may be. Its last line has no end; if it got one, the text would be longer than a
# run reads.
MOST_BYTES = 16_777_216

LONGEST = "lab 1\njob a\nsession\ns read\nend\n#".ljust(MOST_BYTES, "-")

AS_IT_WAS = "labview: the script went out as it was: with an end for its last line it would be one byte too long\n"

TOO_LONG = "labview: the trace is whole, but longer than a replay reads (1000000 steps, 16777216 bytes)\n"

STEPS = "steps\nthirst a\ndrink a\nreach a\nact a\nquit a\nretire a\n"

# With CR before each LF: the last line gets its LF alone.
RETURNS = without_end(jobs("abc", SHARED)).replace("\n", "\r\n")

RETURNS_ARRANGED = jobs("acb", SHARED).replace("\n", "\r\n").replace("end\r\njob b", "end\njob b")

CASES = [
    Case("two_share", "arrange", without_end(jobs("abc", SHARED)), jobs("acb", SHARED)),
    Case("returns", "arrange", RETURNS, RETURNS_ARRANGED),
    Case("star", "arrange", without_end(STAR), STAR_ARRANGED),
    Case("one_thing", "arrange", ONE_THING, ONE_THING),
    Case("ring", "arrange", jobs("abcde", RING), jobs("acbde", RING)),
    Case("ring_of_eight", "arrange", jobs("abcdefgh", RING_OF_EIGHT), jobs("acegbdfh", RING_OF_EIGHT)),
    Case("no_jobs", "arrange", "lab 1\n", "lab 1\n"),
    Case("comment", "arrange", "# none\nlab 2", "# none\nlab 2\n"),
    Case("no_script", "arrange", "lab 1\njob a\nsteps\n", err="labview: line 3: S2 unknown word\n", status=1),
    Case("longest", "arrange", LONGEST, LONGEST, AS_IT_WAS, 3),
    Case("second_longest", "arrange", LONGEST[:-1], LONGEST[:-1] + "\n"),
    Case("longest_traced", "trace 9", LONGEST, f"{LONGEST}\n{STEPS}", TOO_LONG, 3),
]
