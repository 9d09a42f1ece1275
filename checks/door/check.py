"""Calls liblabrun from Python and from C, and compares: each example with its stored output, each fault, every room, 8 threads,
and, where a built labrun is named, each example by five runs with what that prints.  check.py FOLDER [LABRUN]"""
import ctypes
import glob
import os
import re
import subprocess
import sys
from concurrent.futures import ThreadPoolExecutor

from labrun import Labrun, Refused, Told

FOLDER = os.path.realpath(sys.argv[1])
TOP = os.path.realpath(os.path.dirname(__file__) + "/../..")
lab = Labrun(FOLDER + "/liblabrun.so")
wrong = []
runs = 0

# each cause with a script that has it, the call, and its line; S12 is want of memory, which memory.c tests
JOBS_PAST = b"lab 1\n" + b"".join(b"job j%d\n" % number for number in range(33))
SHARED = b"session\n" + b"".join(b"i%d read\n" % number for number in range(29)) + b"end\n"
FAULTS = [
    (1, "check", 1, b"job a\n"),
    (2, "check", 2, b"lab 1\nfly\n"),
    (3, "check", 2, b"lab 1\njob A\n"),
    (4, "check", 4, b"lab 1\njob a\nsession\nscale set x\nend\n"),
    (5, "check", 3, b"lab 1\njob a\njob a\n"),
    (6, "check", 3, b"lab 1\njob a\nscale read\n"),
    (7, "check", 2, b"lab 1\nsession\n"),
    (8, "check", 4, b"lab 1\njob a\nsession\nend\n"),
    (9, "check", 5, b"lab 1\njob a\nsession\nscale read\njob b\n"),
    (10, "check", 34, JOBS_PAST),
    (11, "check", 66, b"lab 1\njob a\n" + SHARED + b"job b\n" + SHARED),
    (13, "replay", 4, b"lab 1\njob a\nsteps\nfly a\n"),
    (0, "replay", 4, b"lab 1\njob a\nsteps\nquit a\n"),
]


def called(call, *given):
    try:
        return call(*given)
    except Refused as fault:
        return 1, fault


def read(path):
    with open(path, "rb") as file:
        return file.read()


def expect(what, same):
    global runs
    runs += 1
    if not same:
        wrong.append(what)
        print("WRONG", what)


def examples():
    """Each example as its first line says how it is run, against its stored output."""
    for path in sorted(glob.glob(TOP + "/examples/*.lab")):
        script = read(path)
        for words, wanted in re.findall(rb"(?m)^# labrun ([a-z0-9 ]+): status (\d)", script)[:1]:
            words = words.decode().split()
            if words[0] not in ("rounds", "replay", "check", "upgrade"):
                continue
            limit = [int(words[1]) if len(words) > 1 else 10000] if words[0] == "rounds" else []
            status, told = called(getattr(lab, words[0]), script, *limit)
            if status == 1:
                same = wanted == b"1" and read(path[:-4] + ".err").decode().startswith(f"labrun: {told}")
            else:
                same = (status, told) == (int(wanted), read(path[:-4] + ".out"))
            expect((path, words), same)
            if words[0] == "rounds":
                in_c(path, limit[0], int(wanted), read(path[:-4] + ".out"))


def in_c(path, limit, status, out):
    ran = subprocess.run([FOLDER + "/calls", path, str(limit)], capture_output=True)
    expect((path, "in C"), (ran.returncode, ran.stdout) == (status, out))


def faults():
    for cause, word, line, script in FAULTS:
        status, told = called(getattr(lab, word), script)
        expect(("S", cause), status == 1 and told.cause == cause and told.line == line)


def rooms():
    """A report longer than the room is told by its length, and nothing is written; room to spare stays as it was."""
    two = read(TOP + "/examples/two_benches.lab")
    status, report = lab.rounds(two)
    for room in range(len(report) + 3):
        held, told = ctypes.create_string_buffer(b"\xaa" * 400, 400), Told()
        fits = len(report) <= room
        got = lab._lab_rounds(two, len(two), 10000, held, room, ctypes.byref(told))
        front = report if fits else b""
        expect(("room", room), (got, told.written, held.raw) == (status if fits else 6, len(report), front + b"\xaa" * (400 - len(front))))
    try:
        lab.check(b"#" * 16777217)
        expect("too long", False)
    except ValueError:
        pass


def threads():
    scripts = [read(path) for path in sorted(glob.glob(TOP + "/examples/*.lab"))] * 20
    alone = [str(called(lab.rounds, script)) for script in scripts]
    with ThreadPoolExecutor(8) as pool:
        expect("threads", list(pool.map(lambda script: str(called(lab.rounds, script)), scripts)) == alone)


def beside(program):
    for path in sorted(glob.glob(TOP + "/examples/*.lab")):
        script = read(path)
        for words in (["rounds", "10000"], ["rounds", "3"], ["replay"], ["check"], ["upgrade"]):
            run = subprocess.run([program, *words], input=script, capture_output=True)
            status, told = called(getattr(lab, words[0]), script, *map(int, words[1:]))
            if status == 1:
                same = run.returncode == 1 and run.stderr.decode().startswith(f"labrun: {told}")
            else:
                same = (status, told) == (run.returncode, run.stdout)
            expect((path, words), same)


examples()
faults()
rooms()
threads()
if len(sys.argv) > 2:
    beside(sys.argv[2])
print(runs, "compared,", len(wrong), "wrong")
sys.exit(bool(wrong))
