"""The core of a client for C beside the second implementation: all cases of clients, alterations of them, random walks, and the stack."""

from __future__ import annotations

import random
from pathlib import Path
from typing import Iterator

import pytest

pytest.importorskip("nacl.signing")

import client as second
import core_client
import core_states
from alarm_walks import AlarmWalk
from alterations import Alterer
from case_runner import Answer, cases
from running import EMBED, Say, stack_of
from walks import Walk

CASES = [*cases()]

# The calls of include/coniks_core.h, and the bytes of stack that each may take.
CALLS = {"feed", "reply_needs", "lookup", "watch", "expect", "compare", "evidence", "catch_up", "history_needs", "history"}
CALLS |= {
    "lost",
    "quorum",
    "mark",
    "confirmed",
    "relied",
    "start",
    "succeed",
    "cover",
    "note",
    "report",
    "state_size",
    "state_write",
    "state_needs",
    "state_read",
}
STACK = 8192


@pytest.fixture(autouse=True)
def _beside(embedded: None, monkeypatch: pytest.MonkeyPatch) -> Iterator[None]:
    """Makes each client of the second implementation one that has the core beside it."""
    monkeypatch.setattr(second, "Client", core_states.Beside)
    yield


@pytest.mark.parametrize("case", CASES, ids=[it["name"] for it in CASES])
def test_case(case: Answer) -> None:
    assert second.plain(second.verdicts(case)) == case["gives"]


def test_alterations(pytestconfig: pytest.Config, say: Say) -> None:
    """Altered cases: whatever the second implementation gives, the core gives too."""
    count, seed = pytestconfig.getoption("alterations"), pytestconfig.getoption("seed")
    alterer, before, chance = Alterer(CASES), core_client.CALLS.copy(), random.Random(seed)
    for _ in range(count):
        second.verdicts(alterer.altered(chance))
    calls = core_client.CALLS - before
    say(f"{count} alterations: calls of the core: {dict(sorted(calls.items()))}")
    assert {"feed", "lookup", "watch", "expect", "evidence"} <= {*calls}


def test_walks(pytestconfig: pytest.Config, say: Say) -> None:
    """Random walks of an owner, half of them with auditors, each interrupted by two starts from the state."""
    count, seed, before = pytestconfig.getoption("alterations") // 4, pytestconfig.getoption("seed"), core_client.CALLS.copy()
    for number in range(count):
        walk, state = [Walk, AlarmWalk][number % 2](random.Random(f"{seed} {number}")), None
        for _ in range(3):
            case = walk.case(state)
            case["steps"] += [walk.step() for _ in range(20)]
            second.verdicts(case)
            state = second.state_of(case)
    calls = core_client.CALLS - before
    say(f"{count} walks: calls of the core: {dict(sorted(calls.items()))}")
    assert {"feed", "lookup", "watch", "expect", "compare", "mark", "cover", "note", "report", "state_write", "state_read"} <= {
        *calls
    }


def test_stack(tmp_path: Path, say: Say) -> None:
    """Each call takes at most 8,192 bytes of stack."""
    taken = stack_of(tmp_path, EMBED / "c/core_stack.c", say)
    assert taken.keys() == CALLS and max(taken.values()) <= STACK, taken
