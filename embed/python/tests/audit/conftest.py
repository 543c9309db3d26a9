"""The tests of `coniks.audit` need the library for C, and PyNaCl."""

from __future__ import annotations

import pytest


@pytest.fixture(autouse=True)
def _needs_library(library: None) -> None:
    """Skips a test without the library."""
    pytest.importorskip("nacl.signing")
