"""Random alterations of the cases of cases/client: `coniks.client` and the second implementation must return the same."""

from __future__ import annotations

import copy
import random
from collections import Counter
from typing import Callable

import pytest

pytest.importorskip("nacl.signing")
pytest.importorskip("hypothesis")

from hypothesis import given, strategies

import case_runner
import client as second
from alterations import Alterer, causes_in, verdict


def test_alterations(say: Callable[[str], None]) -> None:
    alterer, seen = Alterer([*case_runner.cases()]), Counter[str]()

    @given(strategies.randoms(use_true_random=False))
    def is_same(chance: random.Random) -> None:
        case = alterer.altered(chance)
        mine, theirs = verdict(case_runner.verdicts, copy.deepcopy(case)), verdict(second.verdicts, case)
        assert isinstance(mine, dict), (mine, case)
        assert mine == theirs, case
        seen.update(["", *causes_in(mine)])

    is_same()
    say(f"{seen.pop('')} alterations: {dict(sorted(seen.items()))}")
