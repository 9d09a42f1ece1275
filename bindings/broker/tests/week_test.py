"""A test of one person of the lab's week (week.py), for pytest: what it asks for, and does, is in the environment."""

from __future__ import annotations

import json
import os
import threading
from typing import Any

import pytest

from tests.week_client import tell, works

PLAN = json.loads(os.environ["WEEK_PLAN"])


@pytest.mark.instruments(*PLAN["words"], any_of=PLAN["any_of"])
def test_session(instruments: Any) -> None:
    tell(what="held", id=PLAN["id"])
    works(os.environ["WEEK_FOLDER"], PLAN, instruments.names, 0, threading.Event(), instruments.note)
