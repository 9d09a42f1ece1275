"""Each limit of a script at its number and one past it, with the causes that come before it."""

from of_labrun.faults import counted, refused


def repeated(front, before, after, times):
    """A line this many times behind a front; between what stands before and after it stands its number."""
    return front + "".join(f"{before}{number}{after}" for number in range(times))


JOBS = repeated("lab 1\n", "job j", "\n", 32)

SESSIONS = repeated("lab 2\njob a\n", "session\nx set ", "\nend\n", 1000)

# The same in version 1, in which no session has a patience, and one session fewer.
SESSIONS_OF_1 = repeated("lab 1\njob a\n", "session\nx set ", "\nend\n", 1000)
ONE_FEWER = repeated("lab 1\njob a\n", "session\nx set ", "\nend\n", 999)

COMMANDS = repeated("lab 1\njob a\nsession\n", "x set ", "\n", 100_000)

INSTRUMENTS = repeated("lab 1\njob a\nsession\n", "i", " read\n", 56)


def sharing(instruments):
    """Two jobs with this many instruments in common."""
    reads = repeated("session\n", "i", " read\n", instruments)
    return f"lab 1\njob a\n{reads}end\njob b\n{reads}end\n"


CROWDED = sharing(29)
OPEN = "job c\nsession\nx read"

# The text, what stands behind it, the line of the fault, and its cause.
PAST = [
    ("33rd_job", JOBS, "job j32", 34, "S10"),
    ("job_twice_before_33rd", JOBS, "job j5", 34, "S5"),
    ("bad_name_of_33rd_job", JOBS, "job J", 34, "S3"),
    ("33rd_job_in_a_session", JOBS, "session\njob j32", 35, "S9"),
    ("1001st_session", SESSIONS, "session", 3003, "S10"),
    ("1001st_session_with_patience", SESSIONS, "session patience 3", 3003, "S10"),
    ("bad_patience_of_1001st_session", SESSIONS, "session patience x", 3003, "S4"),
    ("1001st_session_with_patience_in_version_1", SESSIONS_OF_1, "session patience 3", 3003, "S2"),
    ("1001st_session_in_a_session", ONE_FEWER, "session\nx read\nsession", 3002, "S9"),
    ("100001st_command", COMMANDS, "x read", 100_004, "S10"),
    ("100001st_command_in_another_session", COMMANDS, "end\nsession\nx read", 100_006, "S10"),
    ("100001st_command_in_no_session", COMMANDS, "end\nx read", 100_005, "S6"),
    ("57th_instrument", INSTRUMENTS, "i56 read", 60, "S10"),
    ("bad_number_of_57th_instrument", INSTRUMENTS, "i56 set 05", 60, "S4"),
    ("bad_name_of_57th_instrument", INSTRUMENTS, "I56 read", 60, "S3"),
    ("29_in_common", CROWDED, "", 66, "S11"),
    ("29_in_common_and_an_open_session", CROWDED, OPEN, 69, "S9"),
]

# What stands behind jobs with too many in common, and the steps behind that.
BEFORE_STEPS = [
    ("29_in_common_without_steps", "", 66, "S11"),
    ("29_in_common_before_steps", "\n\nsteps\nbad", 68, "S11"),
    ("open_session_before_steps", f"{OPEN}\nsteps", 69, "S9"),
]

# The counts of jobs, instruments, edges, sessions and commands.
AT_MOST = [
    ("32_jobs", JOBS, 32, 0, 0, 0, 0),
    ("32_jobs_and_a_session", f"{JOBS}session\nx read\nend\n", 32, 1, 0, 1, 1),
    ("1000_sessions", SESSIONS, 1, 1, 0, 1000, 1000),
    ("1000_sessions_and_one_of_another_job", f"{SESSIONS}job b\nsession\nx read\nend", 2, 1, 1, 1001, 1001),
    ("100000_commands", f"{COMMANDS}end", 1, 1, 0, 1, 100_000),
    ("56_instruments", f"{INSTRUMENTS}i3 set 5\nend", 1, 56, 0, 1, 57),
    ("28_in_common", sharing(28), 2, 28, 1, 2, 56),
]

CASES = [
    *(counted(name, text, *counts) for name, text, *counts in AT_MOST),
    *(refused(name, "check", text + more, line, cause) for name, text, more, line, cause in PAST),
    *(refused(name, "replay", CROWDED + more, line, cause) for name, more, line, cause in BEFORE_STEPS),
]
