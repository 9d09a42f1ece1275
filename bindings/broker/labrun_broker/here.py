"""What this machine doesn't have that a bay's file names. The broker may be for another one, so that is no fault."""

from __future__ import annotations

import os
import shlex
import shutil
from typing import Iterator, Union

from .bay import Bay
from .labs import Lab
from .users import Users


def lacks(read: Union[Bay, Lab]) -> list[str]:
    """A line for each user, and for each command of `on_release`."""
    bays = read.bays.values() if isinstance(read, Lab) else (read,)
    return [*Users(read.people).complaints, *(line for bay in bays for line in commands(bay))]


def commands(bay: Bay, machine: str = "this machine") -> Iterator[str]:
    """The first session that had one of these would leave it out of order."""
    for name, line in bay.on_release.items():
        program = shlex.split(line)[0]
        if shutil.which(program) is None:
            why = f"{program} can't be run on {machine}" if shutil.which(program, os.F_OK) else f"{machine} has no command {program}"
            yield f"on_release.{name}: {why}"
