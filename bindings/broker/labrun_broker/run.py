"""labrun-broker hold: runs a command while it holds."""

from __future__ import annotations

import argparse
import contextlib
import errno
import os
import re
import signal
import subprocess
import threading
import time
from typing import TYPE_CHECKING, Any, Callable, Iterator, Optional, TypeVar, Union

from .credentials import Address, user, without_token
from .family import TELLING, Family, adopting, ends
from .leaving import GivenUp, leaves
from .quick import Quick, Wish
from .silence import Silence, first_while
from .texts import addresses_of, last, may_go_on, plain, seconds, span, station_name, unreached, whole_name
from .waking import waking
from .wire import Absent, NoBroker, Odd, Silent
from .within import Within, around
from .words import CANT_RUN, ENVIRONMENT, NOT_FOUND, PROGRAM, TAKEN, USAGE, add_client, address_of, files_of, lab_of, say

if TYPE_CHECKING:
    from .client import Lab
    from .held import Held

Waits = Optional[Callable[[str], None]]
Result = TypeVar("Result")
STARTING = 5.0  # seconds that a broker may take to begin


def add_hold(parser: argparse.ArgumentParser) -> None:
    parser.add_argument("instruments", metavar="INSTRUMENT", nargs="+", type=whole_name, help="what the command needs, all at once; 'load-*' and tag:precise are one that is like that, '2 of load-*' two")
    one_of = parser.add_mutually_exclusive_group()
    one_of.add_argument("--timeout", metavar="SECONDS", type=seconds, help="how long to wait for them at most")
    one_of.add_argument("-n", "--no-wait", dest="timeout", action="store_const", const=0.0, help="take what is free, as with --timeout 0")
    limit = "for how long it may hold, as 90, 30min, 2h: once that is over, whoever waits for what it has gets it; a line is said before"
    parser.add_argument("--limit", metavar="SPAN", type=last, help=limit)
    parser.add_argument("--any", action="store_true", help="one of these is enough; with a comma, as in load-1,load-2, a choice has several")
    urgent = "once it waits, nobody who asks later goes before it, nor before anybody who waits with it; it goes before none of them"
    parser.add_argument("--urgent", action="store_true", help=urgent)
    parser.add_argument("--station", metavar="NAME", type=station_name, help="as which station; a guest without")
    parser.add_argument("--by", metavar="TEXT", type=whole_name, help="who holds, for people to read; user, machine and command without")
    parser.add_argument("--quiet", action="store_true", help="don't say for whom it waits")
    add_client(parser)
    parser.usage = f"{PROGRAM} hold INSTRUMENT .. [options] -- COMMAND [ARGUMENT ..]"
    parser.set_defaults(command=[])


def run_hold(args: argparse.Namespace) -> int:
    if not args.command or not args.command[0]:
        say("hold: say what to run, behind `--`: labrun-broker hold scope -- ./measure.sh")
        return USAGE
    what = os.path.basename(args.command[0])
    its = tuple(dict.fromkeys(args.instruments))
    any_of = tuple(tuple(it.split(",")) for it in its) if args.any else ()
    files_of(args)
    within = Within(address_of(args), args.timeout is None)
    station = args.station or ""
    within.checks(station, any_of or (its,))
    wish = Wish(() if any_of else its, any_of, station, args.by or f"{user()} {os.getpid()} {what}"[:64], args.timeout, args.limit, args.urgent)

    def waits(text: str) -> None:
        if not args.quiet:
            say(f"waits: {plain(text)}")

    with passing_on() as signals, adopting(), contextlib.ExitStack() as ends:
        held = Holds(args, wish, None if args.quiet and not within.stations else waits, signals, ends, within).begins()
        if args.limit is not None and held.limit is not None and held.limit < args.limit:
            say(f"the bay's limit counts, which is shorter: {span(held.limit, 1)}, and not {span(args.limit, 1)}")
        variables, passes = ends.enter_context(leads(held, args))
        status = runs(args.command, held, signals, address_of(args), variables)
        if status == TAKEN and not held.held:
            # (why was said as the command was ended, and whoever closes the session would say it once more)
            with contextlib.suppress(Exception):
                ends.close()
        else:
            passes()
            lets_go(held, address_of(args), status, signals, ends)
    return status


@contextlib.contextmanager
def leads(held: Union[Quick, Held], args: argparse.Namespace) -> Iterator[tuple[dict[str, str], Callable[[], None]]]:
    """To the instruments that have a guard: the variables with their addresses, and what is to be called before it lets go."""
    if not held.guards:
        yield {}, lambda: None
        return
    from .forward import led

    with led(held.guards, held.ticket, files_of(args)[1], say) as found:
        yield found


def lets_go(held: Union[Quick, Held], address: str, status: int, signals: Signals, ends: contextlib.ExitStack) -> None:
    try:
        with signals.giving_up(status):
            held.release(f"status {status}" if status else None)
    except BaseException as fault:
        # (whatever is closed now might try to tell the broker once more)
        ends.pop_all()
        if not isinstance(fault, GivenUp):
            raise as_told(status, fault, held, address) from None
        say(f"the broker wasn't told, as far as is known here: {goes_on(held, address)}")


def as_told(status: int, fault: BaseException, held: Union[Quick, Held], address: str) -> BaseException:
    """Why the session wasn't ended properly, once it is said that the command ran."""
    say(f"the command ran, and ended with status {status}, but:")
    if type(fault).__name__ == "NotHeld":
        # (the broker has forgotten it, as one without --state that was started again: others may have held meanwhile)
        from .errors import TakenAway

        return TakenAway(str(fault))
    why = f"{fault}\n" if str(fault) else ""
    return type(fault)(why + goes_on(held, address)) if isinstance(fault, ConnectionError) else fault


def goes_on(held: Union[Quick, Held], address: str) -> str:
    return may_go_on(address, held.station, held.number, held.is_released_if_gone)


class Start:
    """For whom no broker is there yet: it may be just being started."""

    def __init__(self, args: argparse.Namespace) -> None:
        self._until = time.monotonic() + (STARTING if args.timeout is None else min(STARTING, args.timeout))
        self._waits = not args.quiet
        self._address = address_of(args)

    def tries(self, what: Callable[[], Result]) -> Result:
        while True:
            try:
                return what()
            except Exception as fault:
                if not is_absent(fault) or time.monotonic() > self._until:
                    raise
            if self._waits:
                self._waits = False
                say(f"waits for the broker: it doesn't listen yet at {self._address}")
            time.sleep(0.1)


def is_absent(fault: Exception) -> bool:
    """Whether nobody listens there. (What the whole client raises is known without importing it.)"""
    is_unreachable = type(fault).__name__ == "Unreachable" and re.search("Connection refused|No such file", str(fault))
    return isinstance(fault, Absent) or bool(is_unreachable)


class Holds:
    """A session that holds, until the end of `ends`."""

    def __init__(self, args: argparse.Namespace, wish: Wish, waits: Waits, signals: Signals, ends: contextlib.ExitStack, within: Within) -> None:
        self._args, self._wish, self._waits, self._signals, self._ends, self._within = args, wish, waits, signals, ends, within
        self._address, self._began, self._start = address_of(args), time.monotonic(), Start(args)
        first, tells = first_while(self._address, args.timeout), lambda text: None if args.quiet else say(text)
        self._silence = Silence(self._address, tells, first, "hold", ", and Ctrl-C ends that")
        # what the small client came to, if its broker was lost
        self._was_there, self._ticket = False, ""

    def begins(self) -> Union[Quick, Held]:
        """Once it holds. The small client asks where it can; if its broker is lost, the whole one goes on with its ticket."""
        can_be_small = re.match("unix:(?!//).", self._address) and len(addresses_of(self._address)) == 1
        return (can_be_small and self._quickly()) or self._wholly()

    def _left(self) -> Optional[float]:
        # (0 says that it never wanted to wait)
        return self._wish.timeout and max(0.001, self._wish.timeout + self._began - time.monotonic())

    def _quickly(self) -> Optional[Quick]:
        token, tried = files_of(self._args)[0], list[Quick]()

        def tries() -> Quick:
            wish = self._wish._replace(timeout=self._left())
            tried[:] = [Quick(self._address, wish, self._waits, self._connects, self._signals.begins, token)]
            tried[0].on_lacking, tried[0].silence = self._within.lacks, self._silence
            return self._ends.enter_context(tried[0])

        try:
            with self._silence.ticking(lambda: tried[0].pings() if tried else None):
                return self._start.tries(tries)
        except (Silent, Absent, NoBroker) as fault:
            raise why_not(self._address, fault) from None
        except Odd:
            self._was_there, self._ticket = tried[0].wire.was_there, tried[0].ticket if tried[0].has_asked else ""
            self._silence.is_cut()
            return None

    def _connects(self, was_there: bool) -> Lab:
        lab = lab_of(self._args, station=self._wish.station, by=self._wish.by)
        lab._was_there = was_there
        return lab

    def _wholly(self) -> Held:
        lab: Lab
        wish, helds = self._wish, list["Held"]()

        def tries() -> Held:
            held = lab.hold(*wish.instruments, any_of=wish.any_of, timeout=self._left(), waits=self._waits, limit=wish.limit, urgent=wish.urgent)
            # (it may hold by now, and the broker's word be lost)
            held.on_lacking, held._ticket, held._silence = self._within.lacks, self._ticket, self._silence
            helds.append(held)
            return self._ends.enter_context(held)

        try:
            with self._signals.later():
                lab = self._ends.enter_context(self._connects(self._was_there))
            return self._start.tries(tries)
        except (KeyboardInterrupt, SystemExit):
            self._silence.ends()
            if self._ticket and all(it.state == "new" for it in helds):
                # (each that has begun tells by itself)
                lab._leaves(self._ticket)
            leaves(lab._is_left, self._address, wish.station)
            raise


def why_not(address: str, fault: Exception) -> Exception:
    """Why no broker can be asked: the whole client would find out no more, and begins late."""
    if isinstance(fault, Silent):
        from .errors import Unreachable

        return Unreachable(f"the broker at {address} doesn't answer")
    return type(fault)(unreached(address, str(fault)))


def runs(command: list[str], held: Union[Quick, Held], signals: Signals, address: Address, more: dict[str, str] = {}) -> int:
    """Runs a command, and gives its status. A session that is taken away ends it."""
    its = {"LABRUN_HELD": " ".join(held.instruments), "LABRUN_STATION": held.station, "LABRUN_TOKEN": str(held.token)}
    environment = {**ENVIRONMENT, **its, **more, "LABRUN_AROUND": around(address, held)}
    taken: list[Any] = []
    try:
        signals.starts(command, environment, held.is_released_if_gone)
    except OSError as fault:
        say(f"{fault.filename or command[0]}: {fault.strerror}")
        return NOT_FOUND if isinstance(fault, FileNotFoundError) else CANT_RUN

    def is_taken(fault: object) -> None:
        taken.append(fault)
        say(f"{plain(fault)}; the command is being ended")
        signals.send(signal.SIGTERM)

    held.on_taken, held.on_warning = is_taken, lambda text: say(plain(text))
    if not held.held and not taken:
        is_taken("the session is over")
    status = signals.wait()
    status = status if status >= 0 else 128 - status
    if taken and isinstance(taken[0], ConnectionError):
        # (it isn't taken away: the broker lets this client in no more, and keeps what it holds. Why was said as the command was ended)
        raise as_told(status, type(taken[0])(""), held, without_token(address))
    return TAKEN if taken else status


# Becomes a command, which has SIGTERM once this process is dead, however that died. (Popen's `preexec_fn` would do it, too, but it forks this
# process, and one of gRPC's threads may crash of that.)
ENDS_TOO = ("setpriv", "--pdeathsig", "TERM", "--", "sh", "-c", 'test "$PPID" = "$0" || kill -TERM $$; exec "$@"')


def ending_too(command: list[str], environment: dict[str, str]) -> list[str]:
    """OSError: there is no such program, or it can't be run."""
    name = command[0]
    found = [it for it in ([name] if "/" in name else [f"{it}/{name}" for it in os.get_exec_path(environment)]) if os.path.exists(it)]
    if not found:
        raise FileNotFoundError(errno.ENOENT, os.strerror(errno.ENOENT), name)
    if not any(os.access(it, os.X_OK) and not os.path.isdir(it) for it in found):
        raise PermissionError(errno.EACCES, os.strerror(errno.EACCES), name)
    return [*ENDS_TOO, str(os.getpid()), *command]


PASSED_ON = (signal.SIGINT, signal.SIGTERM, signal.SIGHUP, signal.SIGQUIT)
LATE = 1.5  # seconds, after which it is said that the broker doesn't answer


class Signals:
    """What comes before there is a command ends this process; from there on it is sent on, to the command and to all its descendants. (A
    terminal sends Ctrl-C to all of its foreground.)"""

    def __init__(self) -> None:
        self.family: Optional[Family] = None
        self.is_starting = self.were_sent = self.is_telling = self.is_late = False
        self.telling: Optional[threading.Timer] = None
        self.came: list[int] = []

    def begins(self) -> None:
        """What comes from now on is for the command."""
        self.is_starting = True

    def starts(self, command: list[str], environment: dict[str, str], ends_with_this: bool = False) -> subprocess.Popen[bytes]:
        self.is_starting = True
        process = subprocess.Popen(ending_too(command, environment) if ends_with_this else command, env=environment)
        self.family = Family(process)
        for number in self.came:
            self.send(number)
        return process

    @contextlib.contextmanager
    def later(self) -> Iterator[None]:
        """What comes meanwhile interrupts only then: an import that is left half done can't be done again."""
        self.is_starting = True
        try:
            yield
        finally:
            self.is_starting = False
        for number in self.came:
            self.comes(number, None)

    def comes(self, number: int, _: object) -> None:
        if self.is_telling:
            self.came.append(number)
            self.gives_up()
        elif self.family is not None:
            self.sends_on(number, self.family)
        elif self.is_starting:
            self.came.append(number)
        elif number == signal.SIGINT:
            raise KeyboardInterrupt
        else:
            raise SystemExit(128 + number)

    def sends_on(self, number: int, family: Family) -> None:
        has_ended = family.command.returncode is not None
        with contextlib.suppress(OSError):
            if not has_ended and number == signal.SIGINT and os.isatty(0) and os.tcgetpgrp(0) == os.getpgrp():
                self.is_sent(family)
                return
        self.send(ends(number) if has_ended else number)

    def send(self, number: int) -> None:
        self.were_sent = True
        if self.family is not None:
            self.family.send(number)
            self.is_sent(self.family)

    def is_sent(self, family: Family) -> None:
        """A command that goes on after a signal, as one that ignores it, is told of, once."""
        self.were_sent = True
        if self.telling is None:
            self.telling = threading.Timer(TELLING, self.tells, [family])
            self.telling.daemon = True
            self.telling.start()

    def tells(self, family: Family) -> None:
        if family.command.returncode is None and (names := family.named()):
            say(f"waits until the command has ended, which goes on after the signal: {plain(names)}")

    def wait(self) -> int:
        """The status of the command. After a signal nothing of it goes on any more: who holds next would meet it at the instruments."""
        assert self.family is not None
        status = self.family.wait()
        if self.were_sent:
            self.family.wait_for_all(lambda names: say(f"waits until what the command started has ended: {plain(names)}"))
        return status

    @contextlib.contextmanager
    def giving_up(self, status: int) -> Iterator[None]:
        """While the broker is told that the command has ended. Mostly it answers at once, and then no signal keeps it from being told."""

        def is_late(*_: object) -> None:
            if not first:
                # (this process may have been stopped: then the broker's answer is read first)
                first.append(signal.setitimer(signal.ITIMER_REAL, LATE / 5))
                return
            self.is_late = True
            say(f"the command has ended with status {status}; the broker hasn't answered yet; hold keeps trying to tell it, and Ctrl-C ends that")
            self.gives_up()

        first: list[object] = []
        before, self.came, self.is_telling = signal.signal(signal.SIGALRM, is_late), [], True
        signal.setitimer(signal.ITIMER_REAL, LATE)
        try:
            yield
        finally:
            self.is_telling = False
            signal.setitimer(signal.ITIMER_REAL, 0)
            signal.signal(signal.SIGALRM, before)

    def gives_up(self) -> None:
        if self.is_late and self.came:
            raise GivenUp


@contextlib.contextmanager
def passing_on() -> Iterator[Signals]:
    signals = Signals()
    # (what nohup, or a shell that runs this in the background, has it ignore stays ignored, here and by the command)
    numbers = [it for it in PASSED_ON if signal.getsignal(it) is not signal.SIG_IGN]
    with waking():
        before = {number: signal.signal(number, signals.comes) for number in numbers}
        try:
            yield signals
        finally:
            for number, what in before.items():
                signal.signal(number, what)
