"""A watched name in all that can happen in a few epochs: what is the same is what its owner meant, and an honest directory never shows
another key."""

from __future__ import annotations

from typing import Callable, Type

import pytest

pytest.importorskip("nacl.signing")

import curve
from searching import INDEX, Mine, Search, Theirs


@pytest.fixture(autouse=True)
def _all_are_valid(monkeypatch: pytest.MonkeyPatch) -> None:
    """The second implementation takes all signatures and proofs for valid."""
    monkeypatch.setattr(curve, "is_key", lambda *_: True)
    monkeypatch.setattr(curve, "is_signed", lambda *_: True)
    monkeypatch.setattr(curve, "vrf_output", lambda *_: INDEX)


@pytest.mark.parametrize("side", [Mine, Theirs])
def test_search(side: Type[Mine | Theirs], pytestconfig: pytest.Config, say: Callable[[str], None]) -> None:
    epochs = int(pytestconfig.getoption("epochs"))
    search = Search(side, epochs)
    search.run()
    say(f"all histories of {epochs} epochs, by {side.__name__.lower()}: {dict(sorted(search.seen.items()))}")
    assert all(search.seen[it] > 1000 for it in ("moments", "same", "another key"))
