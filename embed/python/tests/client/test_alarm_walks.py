"""Random walks of a client that keeps alarms: one that is started again from its state after each step does the same, and no alarm that
its owner has not noted is hidden."""

from __future__ import annotations

import copy
import random
from collections import Counter
from typing import Callable

import pytest

import client as second
import curve
from alarm_walks import AlarmWalk
from case_runner import Answer
from searching import INDEX


@pytest.fixture(autouse=True)
def _all_are_valid(monkeypatch: pytest.MonkeyPatch) -> None:
    """The second implementation takes all signatures and proofs for valid."""
    monkeypatch.setattr(curve, "is_key", lambda *_: True)
    monkeypatch.setattr(curve, "is_signed", lambda *_: True)
    monkeypatch.setattr(curve, "vrf_output", lambda *_: INDEX)


def test_walks(pytestconfig: pytest.Config, say: Callable[[str], None]) -> None:
    seen = Counter[str]()
    for number in range(pytestconfig.getoption("alterations")):
        chance = random.Random(f"{pytestconfig.getoption('seed')} {number}")
        walk = AlarmWalk(chance)
        case = walk.case(None)
        case["steps"] += [walk.step() for _ in range(40)]
        seen.update(walked(case))
    say(f"walks of clients that keep alarms: {dict(sorted(seen.items()))}")
    assert {"changed", "missing", "lost", "unconfirmed", "good", "signed again", "alarms"} <= {*seen}


def walked(case: Answer) -> list[str]:
    """The reports of a walk, and what else happened in it."""
    client, seen = second.begun(case), list[str]()
    for step in case["steps"]:
        again, alarms, entries = second.begun({**case, "state": client.state.hex()}), list(client.alarms), len(client.stored)
        answer, other = taken(client, step), taken(again, step)
        assert answer == other and client.state == again.state, (step, answer, other)
        what = answer.get("report", [""])[0]
        assert not (client.alarms and what in ("unwatched", "unconfirmed", "good")), (client.alarms, answer)
        assert step["do"] == "note" or client.alarms[: len(alarms)] == alarms, step
        dropped = answer.get("cover", [])
        seen += [what, "signed again"] if answer.get("fed") and len(client.stored) == entries else [what]
        seen += ["alarms"] if dropped and len(client.alarms) > len(alarms) else []
    return [it for it in seen if it]


def taken(client: second.Client, step: Answer) -> Answer:
    return second.outcome(lambda: second.stepped(client, copy.deepcopy(step), step["now"]))
