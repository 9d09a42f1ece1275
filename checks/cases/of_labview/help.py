"""The help of labview, as `clap` lays it out. (scripts/check_install reads HELP.)"""

from case import Case

HELP = r"""Shows and explains the runs of labrun

Usage: labview [COMMAND]

Commands:
  explain  read a script and its steps, tell why the first that isn't legal is refused, and what is legal there
  picture  read a report of labrun, and draw its timeline as SVG
  table    read a report of labrun, and write its logs as comma-separated values
  script   read a journal, write the script that its lab has become, with the sessions that came
  steps    read a journal, write this script and each step that was done, for labrun replay
  arrange  read a script, write it with its jobs in an order in which chains at the start are short; with N, in the best that was measured
  trace    read a script, write it with the steps of its run by at most N rounds, for labrun replay
  waits    read a script, tell who waits in its run by at most N rounds, and for how long
  blocks   read a script, tell who keeps whom waiting in its run by at most N rounds, and for which instrument
  gantt    read a script, and draw its run by at most N rounds over time, as SVG

Options:
  -h, --help  Print help

The values: `trace N`, `waits N`, `blocks N`, `gantt N`, `arrange N`. N is a number from 0 to
1000000000, in digits. `arrange` without N may not help; with N it measures orders by runs of at most
N rounds, and the best is never worse.

The input comes from standard input, at most 16777216 bytes. What is printed goes to
standard output, and a fault in one line to standard error.

Statuses:
  0  explain: done, whether the steps are legal or not; picture, table, script, steps, trace, waits,
     blocks, gantt, arrange, --help: done
  1  the script, the report or the journal is refused; the fault names its line or place
  2  the command line is refused
  3  trace: longer than a replay reads; arrange: the script went out as it was
  4  reading or writing failed, or the input is longer than 16777216 bytes
  5  no memory
"""

GANTT_HELP = """\
read a script, and draw its run by at most N rounds over time, as SVG

Usage: labview gantt <N>

Arguments:
  <N>  the most rounds

Options:
  -h, --help  Print help
"""

CASES = [
    Case("help", "--help", out=HELP),
    Case("short", "-h", out=HELP),
    Case("before_a_word", "--help explain", out=HELP),
    Case("of_a_word", "gantt --help", out=GANTT_HELP),
]
