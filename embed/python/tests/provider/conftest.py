"""What the tests of `coniks.provider` and `coniks.guard` share."""

from __future__ import annotations

from pathlib import Path

import pytest


@pytest.fixture(scope="session", autouse=True)
def _library(library: None) -> None:
    """Skips the tests without the library for C, which has the steps of a guard."""


@pytest.fixture
def room(tmp_path: Path) -> str:
    """A folder of the test's own."""
    return str(tmp_path)
