"""Random walks of the owner of a name: `coniks.client` and the second implementation must return the same."""

from __future__ import annotations

import random
from collections import Counter
from typing import Callable

import pytest

pytest.importorskip("nacl.signing")
pytest.importorskip("hypothesis")

from hypothesis import given, settings, strategies

import case_runner
import client as second
from alarm_walks import AlarmWalk
from alterations import verdict
from walks import Walk, seen_in, state_of


def walked(walk: Walk, seen: Counter[str]) -> None:
    """Goes a walk, which is interrupted by two starts from the state."""
    state = None
    for _ in range(3):
        case = walk.case(state)
        case["steps"] += [walk.step() for _ in range(20)]
        mine, theirs = verdict(case_runner.verdicts, case), verdict(second.verdicts, case)
        assert isinstance(mine, dict) and mine["begin"] == {"begun": True}, (mine, case)
        assert mine == theirs, case
        seen.update(seen_in(mine))
        state = state_of(case)
    seen.update([""])


def test_walks(say: Callable[[str], None]) -> None:
    """There is one walk for four alterations."""
    seen = Counter[str]()

    @settings(max_examples=settings.default.max_examples // 4)
    @given(strategies.randoms(use_true_random=False))
    def is_same(chance: random.Random) -> None:
        walked(Walk(chance), seen)

    is_same()
    say(f"{seen.pop('')} walks: {dict(sorted(seen.items()))}")
    assert {"same", "changed", "absent", "misuse"} <= {*seen}


def test_walks_with_auditors(pytestconfig: pytest.Config, say: Callable[[str], None]) -> None:
    """Walks of a client that names auditors, half as many as alterations."""
    seen, seed = Counter[str](), pytestconfig.getoption("seed")
    for number in range(pytestconfig.getoption("alterations") // 2):
        walked(AlarmWalk(random.Random(f"{seed} {number}")), seen)
    say(f"{seen.pop('')} walks with auditors: {dict(sorted(seen.items()))}")
    assert {"same", "changed", "missing", "lost", "unconfirmed", "good", "dropped"} <= {*seen}
