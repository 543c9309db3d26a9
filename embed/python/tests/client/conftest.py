"""The tests of `coniks.client` need the library for C."""

from __future__ import annotations

import pytest


@pytest.fixture(autouse=True)
def _needs_library(library: None) -> None:
    """Skips a test without the library."""
