"""The cases of cases/client over `coniks.client`: each has the verdicts that the second implementation gave."""

from __future__ import annotations

import pytest

pytest.importorskip("nacl.signing")

from case_runner import Answer, cases, verdicts
from client import plain

CASES = [*cases()]


@pytest.mark.parametrize("case", CASES, ids=[it["name"] for it in CASES])
def test_case(case: Answer) -> None:
    assert plain(verdicts(case)) == case["gives"]


def test_there_are_cases() -> None:
    assert len(CASES) >= 600
