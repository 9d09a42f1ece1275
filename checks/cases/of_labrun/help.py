"""Lines that ask for help: the text, which goes out whatever stands behind the word."""

from case import Case

HELP = r"""Runs command scripts on the simulated instruments of a shared laboratory

Usage: labrun [COMMAND]

Commands:
  rounds   run a script on one thread, one turn of each job a round, at most N rounds, print the report
  threads  run a script by up to W worker threads, at most N turns of each job, print the report
  replay   read a script and its steps, take each step where it is legal, print the report
  check    read a script and print its counts
  upgrade  read a script of either version and print it in version 2

Options:
  -h, --help  Print help

The values: `rounds N`, `threads W N`. Without a command it runs as `rounds 10000`. N is a number
from 0 to 1000000000, W one from 1 to 32, in digits.

The script comes from standard input, at most 16777216 bytes. What is printed goes to
standard output, and a fault in one line to standard error.

Statuses:
  0  rounds, threads, replay: every job is retired; check, upgrade, --help: done
  1  the script or a step is refused; the fault names its line
  2  the command line is refused
  3  rounds, threads, replay: a job isn't retired
  4  reading or writing failed, or the input is longer than 16777216 bytes
  5  no memory

Example: two jobs take turns on a scale, and each turns its dial on by 1
  printf 'lab 1\njob a\nsession\nscale add 1\nend\njob b\nsession\nscale add 1\nend\n' | labrun
"""

THREADS_HELP = r"""run a script by up to W worker threads, at most N turns of each job, print the report

Usage: labrun threads <W> <N>

Arguments:
  <W>  the workers
  <N>  the most turns of each job

Options:
  -h, --help  Print help
"""

CASES = [Case(f"help_{at}", words, out=HELP) for at, words in enumerate(["--help", "-h", "--help replay", "--help --help", "-h x"])]
CASES += [
    Case(f"threads_help_{at}", words, out=THREADS_HELP)
    for at, words in enumerate(["threads --help", "threads -h", "threads 2 -h 7", "threads 2 7 --help"])
]
