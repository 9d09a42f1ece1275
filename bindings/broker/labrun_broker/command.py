"""The command labrun-broker.

Its words stand in one table, WORDS, from which its help, the man page and the completions for bash and zsh are made."""

from __future__ import annotations

import argparse
import contextlib
import importlib
import json
import os
import re
import sys
from typing import TYPE_CHECKING, Any, Callable, NoReturn, Optional, Sequence

from .credentials import user
from .run import add_hold, run_hold
from .streams import gives_up_output, written
from .texts import called, counted, last, plain, session, whole_name
from .words import ABOUT, INTERRUPTED, MAY_NOT, NO_BAY, NO_FILE, NOT_WRITTEN, PROGRAM, STATUSES, TAKEN, TIMED_OUT, UNREACHABLE, USAGE, Word, add_client, lab_of, reading, say

if TYPE_CHECKING:
    from .bay import Bay

# the status of each error, by its name, or by that of the first of its kinds: it is looked up without importing what has it
ENDS = {"TimeoutError": TIMED_OUT, "TakenAway": TAKEN, "MayNotUse": MAY_NOT, "NotAllowed": MAY_NOT, "Unreachable": UNREACHABLE, "JournalError": NOT_WRITTEN}
ENDS |= {"Absent": UNREACHABLE, "NoBroker": UNREACHABLE, "NoFile": NO_FILE, "NoBayFile": NO_FILE, "NoInstrument": USAGE, "Itself": USAGE, "BayFault": NO_BAY, "StillHeld": NO_BAY}
ENDS |= {"WrongWords": USAGE, "BadAddress": NO_BAY, "LabrunError": 1, "OSError": 1, "ValueError": 1}

# ---- how it stands


def add_status(parser: argparse.ArgumentParser) -> None:
    parser.add_argument("--json", action="store_true", help="for programs")
    parser.add_argument("--bay", metavar="NAME", help="of several bays: this one alone")
    add_client(parser)


def run_status(args: argparse.Namespace) -> int:
    from .telling import lines_of

    from .together import only

    with lab_of(args) as lab:
        status = only(lab.status(), args.bay)
    print(json.dumps(status) if args.json else "\n".join(lines_of(status)))
    return 0




# ---- for who looks after the bay


def add_release(parser: argparse.ArgumentParser) -> None:
    parser.add_argument("station", metavar="STATION", type=whole_name, help="whose session is ended; first see that nobody is at its instruments")
    parser.add_argument("--session", metavar="N", type=session, default=0, help="only if it is in this one, which `status --json` tells")
    parser.add_argument("--bay", metavar="NAME", default="", help="of several bays: in this one, if a guest of this name is in more than one")
    add_client(parser)


def run_release(args: argparse.Namespace) -> int:
    with lab_of(args, by=user()) as lab:
        print(f"{args.station}'s session is ended; it held {', '.join(lab.release(args.station, args.session, args.bay))}")
    return 0


def add_disable(parser: argparse.ArgumentParser) -> None:
    parser.add_argument("instrument", metavar="INSTRUMENT", type=whole_name, help="nobody comes to hold it any more; whoever holds it goes on")
    parser.add_argument("why", metavar="WHY", nargs="?", default="", type=whole_name, help="what is told to whoever asks for it, as \"calibration until Friday\"")
    add_client(parser)


def run_disable(args: argparse.Namespace) -> int:
    with lab_of(args, by=user()) as lab:
        was = next((it for it in lab.status()["instruments"] if it["name"] == args.instrument and it["out"] is not None), None)
        lab.disable(args.instrument, args.why)
    if was is not None:
        print(plain(f"it was out of order already{was['out'] and ': ' + was['out']} (said {was['out_by']}); {'what you say stands' if args.why else 'no reason stands'} there now"))
    return 0


def add_enable(parser: argparse.ArgumentParser) -> None:
    parser.add_argument("instrument", metavar="INSTRUMENT", type=whole_name, help="which is in order again")
    add_client(parser)


def run_enable(args: argparse.Namespace) -> int:
    with lab_of(args, by=user()) as lab:
        lab.enable(args.instrument)
    return 0


def add_bay(parser: argparse.ArgumentParser) -> None:
    what = "check: names every fault of the file; apply: the bay that a broker keeps goes on as the file has it, whoever holds or waits"
    what += "; split: proposes bays of which few sessions need two, by the records"
    parser.add_argument("what", metavar="{check,apply,split}", choices=("check", "apply", "split"), help=what)
    parser.add_argument("bay", metavar="BAY", help="the TOML file; of split the state folder")
    parser.add_argument("--check", action="store_true", help="of apply: nothing is changed, but what would be is said, and who is in the way")
    parser.add_argument("--bay", metavar="NAME", dest="of", default="", help="of apply, to a lab of several bays: whose file it is, if the file doesn't say so")
    parser.add_argument("--most", metavar="COUNT", type=int, default=64, help="of split: how many instruments a bay has at most; 64 without")
    add_client(parser)


def run_bay(args: argparse.Namespace) -> int:
    from .bay import BayFault
    from .here import lacks
    from .labs import Lab, NoBayFile, read_any
    from .splitting import prints

    if args.what == "split":
        return prints(args.bay, args.most)
    try:
        with reading(args.bay):
            read = read_any(args.bay)
    except NoBayFile:
        raise
    except BayFault as fault:
        print(fault, file=sys.stderr)
        return 1
    if args.what == "apply":
        return apply_bay(args, isinstance(read, Lab))
    if isinstance(read, Lab):
        print(f"ok {args.bay}: {called('lab', read.name)}, {counted(len(read.bays), 'bay')}, {counts_of(read.whole)}")
    for path, bay in ((read.paths[name], bay) for name, bay in read.bays.items()) if isinstance(read, Lab) else ((args.bay, read),):
        print(f"ok {path}: {called('bay', bay.name)}, {counts_of(bay)}, gone = {bay.its_gone.told()}")
    for line in lacks(read):
        say(plain(f"{args.bay}: {line}"))
    return 0


def counts_of(bay: Bay) -> str:
    return f"{counted(len(bay.instruments), 'instrument')}, {counted(len(bay.stations), 'station')}, {counted(bay.guests, 'guest')}"


def apply_bay(args: argparse.Namespace, is_lab: bool) -> int:
    from .labs import texts_of

    with open(args.bay, encoding="utf-8") as file, lab_of(args, by=user()) as lab:
        text, texts = texts_of(args.bay) if is_lab else (file.read(), None)
        changes = lab.apply(text, args.check, args.of, texts)
    print("\n".join(changes) or "nothing changes: the bay is as the file has it")
    return 0


def add_token(parser: argparse.ArgumentParser) -> None:
    parser.add_argument("name", metavar="NAME", help="whose it is: a person's, or a machine's that asks; the token is written to the standard output, this once")


def run_token(args: argparse.Namespace) -> int:
    from labrun.picks import A_NAME, is_name

    from .people import HASH, digest_of, new_token

    if not is_name(args.name):
        say(f"{plain(args.name) or 'an empty name'} is no name: {A_NAME}")
        return USAGE
    token = new_token()
    print(token, flush=True)
    print(f'# for the bay\'s file, below [people]:\n{key_of(args.name)} = {{token = "{HASH}{digest_of(token)}"}}', file=sys.stderr)
    return 0


def key_of(name: str) -> str:
    """As TOML has it."""
    return f'"{name}"' if "." in name else name


# ---- what was, from a state folder

FOLDER = "the state folder of labrun-broker serve --state FOLDER, of one bay or of a lab of several; or the journal of a bench, a file"


def add_past(parser: argparse.ArgumentParser) -> None:
    parser.add_argument("folder", metavar="FOLDER", help=FOLDER)
    parser.add_argument("--bay", metavar="NAME", help="of a lab of several bays: this one alone")
    parser.add_argument("--last", metavar="SPAN", type=last, help="of a folder: only the last 30s, 15min, 4h or 2d before the last record")


def add_table(parser: argparse.ArgumentParser) -> None:
    add_past(parser)
    parser.add_argument("--csv", action="store_true", help="as CSV, with times in UTC")
    parser.add_argument("--notes", action="store_true", help="a row for each note instead of each session; as CSV")


def add_gantt(parser: argparse.ArgumentParser) -> None:
    add_past(parser)
    parser.add_argument("--to", metavar="FILE", help="where the SVG is written; the standard output unless said")


def later(module: str, name: str) -> Callable[[Any], Any]:
    """What a module does, which is imported only then: `hold` begins sooner without the others."""
    return lambda given: getattr(importlib.import_module(f".{module}", __package__), name)(given)


# ---- the words


def add_help(parser: argparse.ArgumentParser) -> None:
    parser.add_argument("kind", metavar="{man,bash,zsh}", choices=("man", "bash", "zsh"), help="the man page, or the completions of a shell")


def run_help(args: argparse.Namespace) -> int:
    from . import manual

    print(getattr(manual, f"for_{args.kind}")(WORDS), end="")
    return 0


WORDS = (
    Word("serve", "keeps the bay: the one process that all others ask", later("serve", "add_serve"), later("serve", "run_serve")),
    Word("hold", "waits for instruments, runs a command while it holds them, and lets go", add_hold, run_hold),
    Word("guard", "stands before instruments, and lets through whoever holds them", later("guard_command", "add_guard"), later("guard_command", "run_guard")),
    Word("status", "who holds what since when, and who waits for whom", add_status, run_status),
    Word("top", "the same, again whenever it has changed", add_status, later("top", "run_top")),
    Word("release", "ends the session of a station whose client doesn't come back", add_release, run_release),
    Word("disable", "an instrument is out of order: nobody comes to hold it", add_disable, run_disable),
    Word("enable", "it is in order again", add_enable, run_enable),
    Word("token", "makes a token by which the broker knows a person, and the line for the bay's file", add_token, run_token),
    Word("report", "what each station and instrument did, from a state folder", add_past, later("past", "run_report")),
    Word("gantt", "a picture of what was: who held what, and who waited, from a state folder", add_gantt, later("past", "run_gantt")),
    Word("table", "each session of a state folder, with times and notes", add_table, later("past", "run_table")),
    Word("bay", "bay check: is the bay's file sound; bay apply: the bay goes on as the file has it; bay split: which bays a lab might have", add_bay, run_bay),
    Word("manual", "writes the man page and the completions", add_help, run_help),
)


class Parser(argparse.ArgumentParser):
    """It names its own help. What begins as a number below zero is what an option has, as in `--limit -2h`, and no option."""

    def __init__(self, *given: Any, **more: Any) -> None:
        super().__init__(*given, **more)
        self._negative_number_matcher = re.compile(r"-\.?\d")

    def error(self, message: str) -> NoReturn:
        self.print_usage(sys.stderr)
        self.exit(USAGE, f"{self.prog}: error: {message}; {self.prog} --help\n")

    def knows_not(self, words: list[str]) -> NoReturn:
        known = [name for it in self._actions for name in it.option_strings]
        self.error(f"unrecognized arguments: {' '.join(words)}{nearly(words[0].partition('=')[0], known)}")


def nearly(word: str, known: list[str]) -> str:
    # (looked up only where something is wrong)
    from labrun.picks import near

    return near(word, known)


def no_word(word: str, more: list[str], has_command: bool) -> str:
    """That there is none of this name. (They are short: so `oven` isn't near to `token`.)"""
    import difflib
    import shlex

    names = [it.name for it in WORDS]
    guess = "".join(f" (did you mean {it}?)" for it in difflib.get_close_matches(word, names, 1, 0.7))
    if has_command and not guess:
        return f"there is no word {word}: to hold what is called so, {shlex.join([PROGRAM, 'hold', word, *more])} -- .."
    return f"there is no word {word}: there are {', '.join(names)}{guess}"


def parser_of(table: Sequence[Word]) -> Parser:
    statuses = "\n".join(f"  {number:8} {text}" for number, text in STATUSES)
    kind = argparse.RawDescriptionHelpFormatter
    parser = Parser(PROGRAM, description=ABOUT, epilog=f"statuses:\n{statuses}", formatter_class=kind)
    each = parser.add_subparsers(metavar="WORD", required=True)
    for word in table:
        one = each.add_parser(word.name, help=word.help, description=word.help, allow_abbrev=False)
        word.add_arguments(one)
        one.set_defaults(run=word.run, parser=one)
    return parser


def parsed(line: list[str], has_command: bool = False) -> argparse.Namespace:
    """(A parser of one word alone is made sooner.)"""
    its = [it for it in WORDS if line[:1] == [it.name]]
    parser = parser_of(its or WORDS)
    if line and not its and not line[0].startswith("-"):
        parser.error(no_word(line[0], line[1:], has_command))
    args, more = parser.parse_known_args(line)
    if more:
        args.parser.knows_not(more)
    return args


def main(given: Optional[Sequence[str]] = None) -> int:
    # (gRPC's own lines say no more than ours)
    os.environ.setdefault("GRPC_VERBOSITY", "NONE")
    try:
        with written():
            return runs(list(sys.argv[1:] if given is None else given))
    except KeyboardInterrupt:
        return INTERRUPTED
    except BrokenPipeError:
        gives_up_output()
        return 0
    except Exception as fault:
        status = next((ENDS[kind.__name__] for kind in type(fault).__mro__ if kind.__name__ in ENDS), None)
        if status is None:
            raise
        gives_up_output()
        say(told(fault))
        return status


def runs(line: list[str]) -> int:
    at = line.index("--") if "--" in line else len(line)
    args = parsed(line[:at], at < len(line))
    if "command" in args:
        args.command = line[at + 1 :]
    elif at < len(line):
        say("only hold runs something, behind `--`")
        return USAGE
    return int(args.run(args))


def told(fault: Exception) -> str:
    if isinstance(fault, OSError) and fault.strerror is not None:
        # (of a long text to standard output, which is written piece by piece, nothing more is known)
        return fault.strerror if fault.filename is None else f"{plain(fault.filename)}: {fault.strerror}"
    return f"\n{PROGRAM}: ".join(plain(line) for line in str(fault).split("\n"))


if __name__ == "__main__":
    sys.exit(main())
