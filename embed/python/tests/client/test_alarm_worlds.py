"""A client that keeps alarms, in all that can happen in a few epochs: it reports each epoch that was not seen as the same until its owner
notes it, drops no epoch that may still be verified, and a lost epoch keeps no other one."""

from __future__ import annotations

from typing import Callable

import pytest

import client as second
import curve
from alarm_worlds import Search


@pytest.fixture(autouse=True)
def _all_are_valid(monkeypatch: pytest.MonkeyPatch) -> None:
    """The second implementation takes all signatures and proofs for valid."""
    monkeypatch.setattr(curve, "is_key", lambda *_: True)
    monkeypatch.setattr(curve, "is_signed", lambda *_: True)
    monkeypatch.setattr(curve, "vrf_output", lambda *_: bytes(64))
    monkeypatch.setattr(second, "judge", lambda it, *_: it.key if it.kind == "here" else None)


@pytest.mark.parametrize("since", [1, 2])
def test_alarms(since: int, pytestconfig: pytest.Config, say: Callable[[str], None]) -> None:
    searched(Search(int(pytestconfig.getoption("epochs")), 0, since), say)


def test_signed_again(pytestconfig: pytest.Config, say: Callable[[str], None]) -> None:
    search = Search(int(pytestconfig.getoption("epochs")) - 1, 2)
    searched(search, say)
    assert search.counts["signed again"] > 100


def searched(search: Search, say: Callable[[str], None]) -> None:
    search.run()
    more = f"watched from {search.since} on, {search.again} signed again"
    say(f"alarms in {search.epochs} epochs, {more}: {dict(sorted(search.counts.items()))}")
    assert all(search.counts[it] for it in ("changed", "missing", "lost", "unwatched", "unconfirmed", "good", "covers that drop"))
