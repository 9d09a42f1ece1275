"""A lab's instruments, shared by programs, people and machines: `labrun-broker serve` keeps them, and a program holds them by

    lab = labrun_broker.connect("unix:/run/labrun/bay.sock")
    with lab.hold("scope", "supply", timeout=5.0) as held:
        held.note(measure(held.instruments))

Names and errors are those of the package labrun, whose proved bay is behind it."""

# (nothing is imported here: `labrun-broker` minds Ctrl-C only from its own first line on)
TYPE_CHECKING = False
if TYPE_CHECKING:
    from .client import Lab, connect
    from .errors import AnswerLost, BadWish, BrokerError, JournalError, MayNotUse, NoInstrument, NotAllowed, NotHeld, OutOfOrder, Stopped
    from .errors import TakenAway, TimeoutError, Unreachable
    from .held import Held

__all__ = [
    "AnswerLost",
    "BadWish",
    "BrokerError",
    "Held",
    "JournalError",
    "Lab",
    "MayNotUse",
    "NoInstrument",
    "NotAllowed",
    "NotHeld",
    "OutOfOrder",
    "Stopped",
    "TakenAway",
    "TimeoutError",
    "Unreachable",
    "connect",
]


def __getattr__(name: str) -> object:
    """The client, when it is first asked for: a command that holds begins sooner without gRPC."""
    if name not in __all__:
        raise AttributeError(f"module {__name__!r} has no attribute {name!r}")
    from . import client, errors, held

    globals().update({it: getattr(next(one for one in (client, errors, held) if hasattr(one, it)), it) for it in __all__})
    return globals()[name]
