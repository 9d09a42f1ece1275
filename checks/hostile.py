#!/usr/bin/env python3
"""The built programs on input, output, words and memory that they can't like: each with its status and its one line.

Usage: checks/hostile.py PROGRAM [labview=PROGRAM] [memory=no] [refused=no]

PROGRAM is the built program (crates/labrun/out/labrun), and that of labview, of which the words are tried, may follow
(labview=crates/labview/out/labview). One line goes out for each case; the status is 1 where one isn't as
it should be. The cases: words that are refused, with a standard input that never ends; every fault of a script; inputs of
16777216 bytes and of one more; a folder as input; outputs that are full, closed, or taken one byte at a time; as many jobs,
sessions and commands as there can be, by rounds and by threads; 32 workers and a thousand million turns; and (where memory
isn't no) less and less memory, down to none: then the whole report, or want of memory, and nothing else. Last, where refused isn't no,
each allocation of each kind of run is refused in turn, and each start of a thread, and each allocation while words are read, by
checks/refuse.c, which needs a C compiler.
"""
import os
import resource
import subprocess
import sys
import tempfile
import time

sys.path.insert(0, os.path.dirname(os.path.abspath(__file__)))
import check_report
import make_scripts
import simulate

PAIR = simulate.text(simulate.PAIR)
LONGEST = 16777216
SECONDS = 300


class Cases:
    def __init__(self, program):
        self.program, self.name, self.problems, self.count = program, os.path.basename(program), 0, 0

    def run(self, words, data=b"", **more):
        """Standard output, standard error and status."""
        if "stdin" not in more:
            more["input"] = data
        more.setdefault("stdout", subprocess.PIPE)
        try:
            done = subprocess.run([self.program] + words, stderr=subprocess.PIPE, timeout=SECONDS, **more)
        except subprocess.TimeoutExpired:
            return None, "no end", None
        return done.stdout, done.stderr.decode(errors="replace"), done.returncode

    def tell(self, what, wrong):
        self.count += 1
        self.problems += bool(wrong)
        print("%s: %s" % (what, wrong or "as it should be"), flush=True)

    def ends(self, what, got, status, errors, out=b""):
        """A run has this status, this line on standard error (none: nothing), and this output (None: not looked at)."""
        line = "%s: %s\n" % (self.name, errors) if errors else ""
        fine = got[2] == status and got[1] == line and (out is None or got[0] == out)
        self.tell(what, None if fine else "status %s, standard error %r, standard output %r" % (
            got[2], got[1][:200], (got[0] or b"")[:200]))

    def report(self, what, words, text, turns):
        """A run of a script of any size, checked by its script."""
        out, errors, status = self.run(words, text.encode())
        problems = [errors] if errors else []
        problems = problems or check_report.problems_of(text, out.decode(), status, turns)
        self.tell(what, "; ".join(problems[:3]))


def check_words(cases):
    """Words are refused before anything is read: this standard input never ends."""
    bad = ("walk", "rounds", "rounds seven", "rounds ++7", "rounds -1", "rounds 7 7", "rounds 1000000001", "rounds 0x7",
           "rounds 99999999999999999999999", "threads", "threads 2", "threads 0 5", "threads 33 5", "threads 2 1000000001",
           "threads 2 -- -- 5", "threads 2 5 5", "check it", "replay 5", "upgrade 2", "-- replay", "--version", "rounds x --help")
    for words in bad:
        with open("/dev/zero", "rb") as endless:
            cases.ends("words: " + words, cases.run(words.split(), stdin=endless), 2, "command line refused")
    for words in (["rounds", ""], ["rounds", " 7"], [""], ["rounds", "٧"]):
        cases.ends("words: %r" % words, cases.run(words, PAIR), 2, "command line refused")
    out, errors, status = cases.run(["--help"], b"")
    cases.tell("--help", None if status == 0 and not errors and b"rounds" in out and b"threads" in out else out)
    whole = simulate.simulate(PAIR, 9)[0].encode()
    for words in ("rounds 9", "rounds 0000000000009", "rounds 1000000000", "threads 1 9", "threads 001 09", "threads 32 1000000000",
                  "rounds +9", "rounds -- 9", "threads 1 9 --"):
        out = whole if words != "threads 32 1000000000" else None
        cases.ends("words: " + words, cases.run(words.split(), PAIR), 0, "", out)
    cases.ends("no words", cases.run([], PAIR), 0, "", whole)


def check_view_words(cases):
    """Those of labview: a word that is refused is named, and so is the help."""
    value = "invalid value '%s' for '<N>': "
    for words, why in (
            ("", "a word is missing"), ("wait 9", "unrecognized subcommand 'wait'"), ("Waits 9", "unrecognized subcommand 'Waits'"),
            ("waits", "the following required arguments were not provided: <N>"), ("gantt 9 9", "unexpected argument '9' found"),
            ("picture --all", "unexpected argument '--all' found"), ("blocks nine", value % "nine" + "invalid digit found in string"),
            ("trace 1000000001", value % "1000000001" + "1000000001 is not in 0..=1000000000")):
        with open("/dev/zero", "rb") as endless:
            cases.ends("words: labview " + words, cases.run(words.split(), stdin=endless), 2,
                       "command line refused: %s; see labview --help" % why)
    for words in ("--help", "-h", "waits --help", "gantt 9 -h"):
        out, errors, status = cases.run(words.split())
        cases.tell("labview " + words, None if status == 0 and not errors and b"Usage: labview" in out else out)
    report = simulate.simulate(PAIR, 9)[0].encode()
    for words in ("picture", "table"):
        cases.ends("a script for labview " + words, cases.run([words], PAIR), 1,
                   "line 2: this is a script; %s reads a report: labrun < script | labview %s" % (words, words))
    for words in ("explain", "arrange", "trace 9", "waits 9", "blocks 9", "gantt 9"):
        cases.ends("a report for labview " + words, cases.run(words.split(), report), 1,
                   "line 2: this is a report; %s reads a script" % words.split()[0])
    for words in ("script", "steps"):
        cases.ends("a report for labview " + words, cases.run([words], report), 1, "line 2: " + simulate.FAULTS["S2"])


def check_faults(cases):
    faults = (
        ("", "line 1: S1"), ("job a", "line 1: S1"), ("lab 1/job a/job a", "line 3: S5"), ("lab 1/job A", "line 2: S3"),
        ("lab 1/job a b", "line 2: S2"), ("lab 1/session", "line 2: S7"), ("lab 1/job a/Scale read", "line 3: S6"),
        ("lab 1/job a/session/end", "line 4: S8"), ("lab 1/job a/session/job a", "line 4: S9"),
        ("lab 1/job a/session/scale read", "line 5: S9"), ("lab 1/job a/session/scale sub 1", "line 4: S2"),
        ("lab 1/job a/session/Scale set 007", "line 4: S3"), ("lab 1/job a/session/scale set 007", "line 4: S4"),
        ("lab 1/steps", "line 2: S2"), ("lab 1/" + "/".join("job j%d" % k for k in range(33)), "line 34: S10"),
        ("lab 1/job a/session patience 3", "line 3: S2"), ("lab 2/job a/session patience 1000000", "line 3: S4"))
    for lines, wanted in faults:
        place, cause = wanted.rsplit(" ", 1)
        data = simulate.text(lines.split("/")) if lines else b""
        for words in (["rounds", "10"], ["threads", "2", "10"], []):
            cases.ends("%s of %s" % (" ".join(words) or "no words", lines[:40] or "nothing"), cases.run(words, data), 1,
                       "%s %s" % (place, simulate.FAULTS[cause]))
    for words in (["rounds", "0"], ["threads", "3", "0"], ["rounds", "10"]):
        cases.ends(" ".join(words) + " of a header alone", cases.run(words, b"lab 1\n"), 0, "", b"lab 1\nfinished\n")


def check_input(cases):
    filler = b"# sixteen bytes\n"
    most = b"lab 2\n" + filler * ((LONGEST - 6) // 16)
    most += b" " * (LONGEST - len(most))
    for words in (["rounds", "5"], ["threads", "4", "5"]):
        cases.ends("16777216 bytes, " + " ".join(words), cases.run(words, most), 0, "", b"lab 2\nfinished\n")
        cases.ends("one byte more, " + " ".join(words), cases.run(words, most + b" "), 4, "input longer than 16777216 bytes")
        cases.ends("a bad line in too much, " + " ".join(words), cases.run(words, b"x\n" + most), 4, "input longer than 16777216 bytes")
        folder = os.open("/", os.O_RDONLY)
        cases.ends("a folder as input, " + " ".join(words), cases.run(words, stdin=folder), 4, "read fault")
        os.close(folder)
        with open("/dev/zero", "rb") as endless:
            cases.ends("endless input, " + " ".join(words), cases.run(words, stdin=endless), 4, "input longer than 16777216 bytes")


def check_output(cases):
    for words in (["rounds", "9"], ["threads", "2", "1000000"], []):
        name = " ".join(words) or "no words"
        with open("/dev/full", "wb") as full:
            cases.ends("a full output, " + name, cases.run(words, PAIR, stdout=full), 4, "write fault", None)
        reading, writing = os.pipe()
        os.close(reading)
        cases.ends("a closed pipe, " + name, cases.run(words, PAIR, stdout=writing), 4, "write fault", None)
        os.close(writing)


def check_sizes(cases):
    """As much as there can be."""
    jobs = "lab 1\n" + "".join("job j%d\n" % k + "session\ni0 add 1\nend\n" * 1000 for k in range(32))
    apart = make_scripts.make("disjoint", make_scripts.random.Random(3), jobs=32, instruments=56, sessions=1000, commands=20)
    long = "lab 1\njob a\nsession\n" + "i0 add 7\n" * 50000 + "end\njob b\nsession\n" + "i0 read\n" * 50000 + "end\n"
    for name, text in (("32 jobs of 1000 sessions on one instrument", jobs), ("32 jobs apart", apart), ("sessions of 50000 commands", long)):
        for words in (["rounds", "1000000000"], ["threads", "1", "1000000000"], ["threads", "4", "1000000000"], ["threads", "32", "1000000000"]):
            cases.report("%s, %s" % (name, " ".join(words)), words, text, int(words[-1]))


# kilobytes: in small steps where a run of this size begins to have enough
MEMORY = tuple(range(1024, 16384, 256)) + (20000, 30000, 50000, 100000, 400000)


def check_memory(cases, runs=(["rounds", "1000000"], ["threads", "4", "100000"]), memory=MEMORY):
    """Less and less memory: the whole report, or want of memory. Where no thread can be made workers take their turns one
    after another, so that all turns may be used before the others of a session had theirs."""
    text = make_scripts.make("ring", make_scripts.random.Random(4), jobs=8, sessions=300, commands=20)
    for words in runs:
        ends = {}
        for size in memory:
            most = size * 1024

            def lessen():
                resource.setrlimit(resource.RLIMIT_AS, (most, most))

            try:
                out, errors, status = cases.run(words, text.encode(), preexec_fn=lessen)
            except (OSError, subprocess.SubprocessError):
                out, errors, status = b"", "not started", None
            if status == 0 or status == 3 and words[0] == "threads":
                wrong = errors or "; ".join(check_report.problems_of(text, out.decode(), status)[:2])
                end = "finished" if status == 0 else "unfinished"
            elif status == 5:
                wrong = out or not (errors == "labrun: no memory\n" or errors.startswith("labrun: line ") and errors.endswith("S12 no memory\n"))
                end = errors.strip()
            else:
                # the system couldn't start it
                wrong, end = errors.startswith("labrun") or status not in (None, 127, -9, -11) or out, "not started (%s)" % status
            if wrong:
                cases.tell("%s with %d KiB" % (" ".join(words), size), "status %s, %r" % (status, errors[:200] or wrong))
            ends.setdefault(end.split(":")[0] if end.startswith("not") else end, []).append(size)
        told = "; ".join("%s with %d to %d KiB" % (end, sizes[0], sizes[-1]) for end, sizes in ends.items())
        cases.tell("%s with less and less memory (%s)" % (" ".join(words), told), None if "finished" in ends else "never finished")


def refusing(folder):
    """The library that refuses allocations, or none if it can't be made."""
    library = os.path.join(folder, "refuse.so")
    source = os.path.join(os.path.dirname(os.path.abspath(__file__)), "refuse.c")
    failed = subprocess.run(["cc", "-shared", "-fPIC", "-O1", "-o", library, source, "-ldl", "-pthread"]).returncode
    return None if failed else library


# Lines of words, by program. Standard input is a folder, so that nothing grows once the words are read.
WORDS = {
    "labrun": ("", "rounds 9", "rounds -- +9", "threads 2 9", "replay --", "check", "--help", "threads -h", "walk", "rounds nine"),
    "labview": ("explain", "table --", "script", "steps --", "arrange", "trace 9", "waits +9", "gantt -- 9", "--help", "blocks -h", "walk",
                "waits nine")}


def check_refused_words(cases):
    """Each allocation while words are read is refused in turn: want of memory is told, and nothing else."""
    folder = tempfile.mkdtemp(prefix="labrun-refused-")
    library, told = refusing(folder), os.path.join(folder, "told")
    if not library:
        return cases.tell("allocations that are refused", "no library that refuses them")

    def refused(words, allocation):
        ways = dict(os.environ, LD_PRELOAD=library, REFUSE_TOLD=told, REFUSE_ALLOCATION=str(allocation), REFUSE_START="0")
        nothing = os.open("/", os.O_RDONLY)
        got = cases.run(words.split(), stdin=nothing, env=ways)
        os.close(nothing)
        with open(told) as numbers:
            return got, int(numbers.read().split()[0])

    for words in WORDS[cases.name]:
        whole, allocations = refused(words, 0)
        wrong = [] if allocations and whole[2] in (0, 2, 4) else ["nothing refused: %r" % (whole,)]
        for number in range(1, allocations + 1):
            got = refused(words, number)[0]
            if got != (b"", "%s: no memory\n" % cases.name, 5):
                wrong.append("allocation %d: %r" % (number, got))
        cases.tell("words: %s %s: each of %d allocations is refused" % (cases.name, words, allocations), "; ".join(wrong)[:600])


def is_no_memory(got):
    """Want of memory: its status, its one line, and no output."""
    out, errors, status = got
    line = errors == "labrun: no memory\n" or errors.startswith("labrun: line ") and errors.endswith("S12 no memory\n")
    return status == 5 and not out and line


def check_refused(cases):
    """Each allocation is refused in turn: want of memory is told, and nothing else; or, where the program can do without, the whole report, as
    where a start of a thread is refused, or each of them."""
    folder = tempfile.mkdtemp(prefix="labrun-refused-")
    library, told = refusing(folder), os.path.join(folder, "told")
    if not library:
        return cases.tell("allocations that are refused", "no library that refuses them")
    # (jobs that share much have no threads: here each has one, and few share)
    script = make_scripts.make("disjoint", make_scripts.random.Random(4), jobs=9, instruments=18, sessions=2, commands=3)
    script += "job j9\nsession\n%s add 1\nend\n" % script.splitlines()[3].split()[0]
    steps = simulate.text(simulate.PAIR).decode() + "steps\nthirst a\nhunger a\nlook a b\nsit a\n"

    def refused(words, text, allocation=0, start=0):
        """What it answers, and how many allocations and starts it asked for."""
        ways = dict(os.environ, LD_PRELOAD=library, REFUSE_TOLD=told, REFUSE_ALLOCATION=str(allocation), REFUSE_START=str(start))
        got = cases.run(words, text.encode(), env=ways)
        with open(told) as numbers:
            return got, [int(number) for number in numbers.read().split()]

    def is_whole(words, text, got, whole):
        if words[0] != "threads":
            return got == whole
        return not got[1] and not check_report.problems_of(text, got[0].decode(), got[2], int(words[2]))

    for name in ("rounds 40", "threads 1 40", "threads 4 40", "threads 9 40", "threads 32 100000", "check", "upgrade", "replay"):
        words, text = name.split(), steps if name == "replay" else script
        whole, (allocations, starts) = refused(words, text)
        wrong = [] if whole[2] in (0, 3) and is_whole(words, text, whole, whole) else ["nothing refused: %r" % (whole,)]
        none = 0
        for number in range(1, allocations + 1):
            got = refused(words, text, allocation=number)[0]
            none += is_no_memory(got)
            if not is_no_memory(got) and not is_whole(words, text, got, whole):
                wrong.append("allocation %d: %r" % (number, got))
        for number in (*range(1, starts + 1), -1):
            got = refused(words, text, start=number)[0]
            if not is_whole(words, text, got, whole):
                wrong.append("start %d: %r" % (number, got))
        cases.tell("%s: each of %d allocations is refused (%d times want of memory is told), and each of %d starts" % (
            name, allocations, none, starts), "; ".join(wrong)[:600])

    # Where a thread can't be made, or none, the jobs still come to their end, and soon.
    for name in ("threads 2 1000000000", "threads 4 1000000000", "threads 9 1000000000", "threads 32 1000000000"):
        words = name.split()
        _, (_, starts) = refused(words, script)
        wrong = []
        for number in (*range(1, starts + 1), -1):
            begun = time.monotonic()
            got = refused(words, script, start=number)[0]
            if got[2] != 0 or not is_whole(words, script, got, None) or time.monotonic() - begun > 10:
                wrong.append("start %d: %r after %d s" % (number, got, time.monotonic() - begun))
        wrong += [] if starts else ["no thread was started"]
        cases.tell("%s: each of %d starts is refused, and all" % (name, starts), "; ".join(wrong)[:600])


def main(words):
    if not words or words[0] == "--help":
        print(__doc__, end="")
        return 0 if words else 2
    cases = Cases(os.path.abspath(words[0]))
    check_words(cases)
    check_faults(cases)
    check_input(cases)
    check_output(cases)
    check_sizes(cases)
    if "memory=no" not in words:
        check_memory(cases)
    if "refused=no" not in words:
        check_refused_words(cases)
        check_refused(cases)
    views = [Cases(os.path.abspath(word.partition("=")[2])) for word in words if word.startswith("labview=")]
    for view in views:
        check_view_words(view)
        if "refused=no" not in words:
            check_refused_words(view)
        cases.count, cases.problems = cases.count + view.count, cases.problems + view.problems
    print("%d cases, %d problems" % (cases.count, cases.problems))
    return 1 if cases.problems else 0


if __name__ == "__main__":
    sys.exit(main(sys.argv[1:]))
