"""What the tests of scripts share."""

from __future__ import annotations

import pytest


@pytest.fixture(autouse=True)
def _proved(monkeypatch: pytest.MonkeyPatch) -> None:
    """Nothing here runs without a proof because `./gate quick` asks for that."""
    monkeypatch.delenv("CONIKS_UNPROVED", raising=False)
